/* Girzhanok, the rating machine, as a library for C: libgirzhanok.a, which `rt lib` in crates/girzhanok writes for x86-64 Linux.
 *
 * Each function is proved, with no condition on its arguments, to return and leave what the machine's definition says
 * (crates/girzhanok/src/lib.rt). What C has to keep is what a pointer is, here as everywhere:
 *
 *   - A buffer is a pointer and a count of its elements, in this order. The pointer is aligned for its element and has that many
 *     elements behind it. Where the count is 0 it may be null.
 *   - `value`, `pc` and `steps` point to one object each and are not null.
 *   - The buffers and objects that one call may write overlap no other that it is lent.
 *   - The thread's floating-point mode is the default: to nearest, subnormals kept. fesetround, or a program linked with -ffast-math or
 *     -Ofast, which flushes subnormals to zero, changes what doubles and CastToDouble give.
 *
 * The functions keep no memory of their own, so machines in different buffers may run in different threads.
 *
 * A machine is its state and four buffers, frames, heap, slots and spare, which the caller keeps and lends to each call whole and as the
 * last call left them. The address of a heap byte is B, the base given to the start, plus its place: it is a number, and no pointer.
 *
 * A terminal starts a machine once and interns the names that its rules know. Then, for each sale:
 *
 *   girzhanok_reset          a run that stopped inside a function has left its depth
 *   girzhanok_set_pc         to 0, or where the rule begins
 *   girzhanok_set_register   for what is known of the sale; registers keep what the last run left in them
 *   girzhanok_run
 *
 * Nothing is ever freed: blocks, options and names stay until a new start empties the heap. What a call costs: every run first tests the
 * whole image and the frames in use, however short it is, and every interning all active slots, also of a name that is known.
 *
 * Names, numbers and layouts are carried over from purple-garden, under the MIT licence: NOTICE, which goes where this file goes.
 */
#ifndef GIRZHANOK_H
#define GIRZHANOK_H

#include <stdbool.h>
#include <stddef.h>
#include <stdint.h>

#ifdef __cplusplus
extern "C" {
#endif

/* ---- limits: a size or a base outside them is refused with GIRZHANOK_SIZE */

#define GIRZHANOK_STATE_WORDS 40        /* words of a state, at least; those past them are left alone */
#define GIRZHANOK_IMAGE_MAX 79113       /* words of an image: every section at its limit */
#define GIRZHANOK_CODE_MAX 65536        /* words of code, from 0 */
#define GIRZHANOK_GLOBALS_MAX 4096      /* globals, from 0 */
#define GIRZHANOK_TABLES_MAX 256        /* tables of a kind */
#define GIRZHANOK_ENTRIES_MAX 4096      /* entries of all tables of a kind */
#define GIRZHANOK_FRAMES_MIN 1
#define GIRZHANOK_FRAMES_MAX 16384
#define GIRZHANOK_PAGE_SIZE 4096        /* the heap is whole pages; the base is a multiple of this, and not 0 */
#define GIRZHANOK_PAGES_MIN 1
#define GIRZHANOK_PAGES_MAX 256
#define GIRZHANOK_HEAP_END_MAX 281474976710656 /* base plus the heap's length: 2^48 */
#define GIRZHANOK_SLOTS_MIN 64          /* slots are a power of two, and the spare ones as many */
#define GIRZHANOK_SLOTS_MAX 4096

/* ---- the words of a state: the 32 registers are words 0 to 31 */

#define GIRZHANOK_REGISTERS 32
#define GIRZHANOK_WORD_PC 32
#define GIRZHANOK_WORD_DEPTH 33         /* frames in use */
#define GIRZHANOK_WORD_BASE 34          /* B */
#define GIRZHANOK_WORD_PUSHED 35        /* bytes of the heap in pushed pages */
#define GIRZHANOK_WORD_PAGE 36          /* the last page's place in the heap */
#define GIRZHANOK_WORD_LEN 37           /* bytes of the last page in use */
#define GIRZHANOK_WORD_ACTIVE 38        /* slots in use */
#define GIRZHANOK_WORD_NAMES 39         /* names interned */

/* ---- the words of an image: where its nine sections end, then the sections in a row
 *
 * An end is the place behind the section's last word, counted from the image's first word. So a section begins where the one before it ends,
 * the code at word 9, and the ends go up from 9 to the number of words. docs/IMAGE.md has an image word by word, and how it is kept in a file.
 *
 *   word 0: code             instruction words
 *   word 1: globals          values that LoadG loads; global n is word image[0] + n
 *   words 2, 3, 4:           of the Switch tables the first keys; the ends; the entries, which are targets: places in the code, from 0
 *   words 5, 6, 7:           the same of the Lookup tables; their entries are values
 *   word 8: defaults         of each Lookup table its default
 *
 * The entries of all tables of a kind stand in a row. A table's end is the number of entries up to its last one; its entries begin where those
 * of the table before it end, so these ends go up from 0 to the number of entries.
 *
 * A global that stands for a name holds its address, which this machine's interning has returned: the caller writes it there after the start,
 * which has taken the ends as they are, and before a run. */

#define GIRZHANOK_IMAGE_ENDS 9          /* words before the code */
#define GIRZHANOK_END_CODE 0            /* the word that says where the code ends and the globals begin */
#define GIRZHANOK_END_GLOBALS 1         /* the word that says where the globals end */

/* ---- the kinds of blocks */

#define GIRZHANOK_KIND_RECORD 0
#define GIRZHANOK_KIND_ARRAY 1
#define GIRZHANOK_KIND_OPTION 2
#define GIRZHANOK_KIND_STRING 3

/* ---- the numbers that calls return */

enum {
    /* done; of a run: at a Halt, whose place is then the stored pc, so that another run does that Halt again; or nothing to run, where the
     * code is empty or the stored pc past its end */
    GIRZHANOK_HALT = 0,

    /* ends of a run, with pc and steps: the state is that before the instruction at pc, and the stored pc that before the run */
    GIRZHANOK_DIVISION_BY_ZERO = 1,
    GIRZHANOK_ALLOCATION_FAILED = 2,
    GIRZHANOK_STACK_OVERFLOW = 3,       /* a Call with every frame in use */
    GIRZHANOK_ASSERTION_FAILED = 4,
    GIRZHANOK_BUDGET = 5,               /* the budget is completed: pc is the next instruction's, and is stored */
    GIRZHANOK_BAD_ADDRESS = 6,          /* Load or Store outside the pushed pages, or at no multiple of 8 */
    GIRZHANOK_QUOTIENT_OVERFLOW = 7,    /* -2^63 by -1 */
    GIRZHANOK_FRAME_UNDERFLOW = 8,      /* Ret at depth 0 */

    /* refusals: nothing that was lent is changed, and nothing is answered but the number */
    GIRZHANOK_MEMORY = 2,               /* the heap has no room for the allocation */
    GIRZHANOK_STATE = 9,                /* a state that cannot belong to the buffers */
    GIRZHANOK_SIZE = 10,                /* a size or the base outside the limits, too few words of a state, ends of sections that do not go
                                         * up from 9 to the number of words or of tables that do not go up from 0 to the number of entries,
                                         * not as many ends, or defaults, as first keys */
    GIRZHANOK_NO_HALT = 11,             /* code whose last word has another byte 0 than 59; empty code is taken */
    GIRZHANOK_OPCODE = 12,              /* 40 to 49, or above 60 */
    GIRZHANOK_OPERAND = 13,             /* a register above 31, a kind, an alignment, or an unused byte that is not zero */
    GIRZHANOK_TARGET = 14,              /* a jump or a function past the code */
    GIRZHANOK_INDEX = 15,               /* a global or a table past its count */
    GIRZHANOK_TABLE_TARGET = 16,        /* a table's target past the code */
    GIRZHANOK_SMALL_STRING = 17,        /* a small name over 8 bytes, or with padding that is not zero */
    GIRZHANOK_TABLE_FULL = 18,          /* the names need more slots than are lent */
    GIRZHANOK_TEXT = 19                 /* of image lines alone: no call here returns it */
};

/* Starts a machine with an empty heap at `base`: registers 0, pc 0, depth 1, no name. Writes the state, frame 0 and page 0 of the heap; of slots
 * and spare it reads the sizes. No buffer need be cleared before.
 * Refusals: SIZE, NO_HALT, TABLE_TARGET, then word by word OPCODE, OPERAND, TARGET, INDEX. */
#if defined(__GNUC__) && !defined(__clang__) && __GNUC__ >= 11
/* slots and spare: from this gcc knows that they may be lent as malloc gives them, and does not warn */
__attribute__((access(none, 10), access(none, 12)))
#endif
uint64_t girzhanok_start(uint64_t *state, size_t state_len, uint64_t base,
                         const uint64_t *image, size_t image_len,
                         uint64_t *frames, size_t frames_len,
                         uint8_t *heap, size_t heap_len,
                         const uint64_t *slots, size_t slots_len,
                         const uint64_t *spare, size_t spare_len);

/* Runs the image from the stored pc on, `budget` instructions at most; it need not be the image of the start. Unless refused, writes the state,
 * frames, the pushed pages of the heap, `pc`, and to `steps` the instructions completed. A number up to 8 is an end; from 9 on the run is refused:
 * as a start is, then STATE. */
uint64_t girzhanok_run(uint64_t *state, size_t state_len, uint32_t budget, size_t *pc, uint32_t *steps,
                       const uint64_t *image, size_t image_len,
                       uint64_t *frames, size_t frames_len,
                       uint8_t *heap, size_t heap_len);

/* Sets pc and frame 0 to 2^64-1 and the depth to 1; a run from there has nothing to run: set the pc first. Registers, heap and names stay.
 * Writes the state and frame 0. Refusals: SIZE. */
uint64_t girzhanok_reset(uint64_t *state, size_t state_len, uint64_t *frames, size_t frames_len);

/* Sets the stored pc, where the next run begins; any place is taken. Writes the state. Refusals: SIZE, where it has too few words. */
uint64_t girzhanok_set_pc(uint64_t *state, size_t state_len, size_t pc);

/* Sets a register. Writes the state. Refusals: SIZE, where it has too few words; OPERAND, where the number of the register is above 31. */
uint64_t girzhanok_set_register(uint64_t *state, size_t state_len, size_t number, uint64_t value);

/* A block of `size` bytes and one of the kinds above; the alignment is 1, 2, 4 or 8, and every block lies at a multiple of 8. Its bytes are not
 * cleared, but a page is zero when it is pushed. Writes the state, the pushed pages of the heap, and to `value` the block's address.
 * Refusals: SIZE, OPERAND, STATE, MEMORY. */
uint64_t girzhanok_allocate(uint64_t *state, size_t state_len, uint64_t kind, size_t align, uint64_t size,
                            uint8_t *heap, size_t heap_len, uint64_t *value);

/* An option of `payload`: a new block that holds 1 and the payload, 8 bytes each, lowest byte first. Or of none, where `payload` is not looked
 * at: the start made it, [0, 0] at B+16. Writes the state, the pushed pages of the heap, and to `value` the option's address.
 * Refusals: SIZE, STATE, MEMORY. */
uint64_t girzhanok_option(uint64_t *state, size_t state_len, bool some, uint64_t payload,
                          uint8_t *heap, size_t heap_len, uint64_t *value);

/* The address of a name: that of its first interning, unless a program has since written over its block; then it is stored anew. The block holds
 * the length, 4 bytes, the hash, 4 bytes, and the name's bytes. A known name is answered even where slots or heap are full. Writes the state, the
 * pushed pages of the heap, the slots in use, where their number grows the spare ones, and to `value` the address.
 * Refusals: SIZE, STATE, TABLE_FULL, MEMORY. */
uint64_t girzhanok_intern(uint64_t *state, size_t state_len, const uint8_t *name, size_t name_len,
                          uint8_t *heap, size_t heap_len, uint64_t *slots, size_t slots_len, uint64_t *spare, size_t spare_len,
                          uint64_t *value);

/* The same of the `len` lowest bytes of `word`, the first one lowest. Refusals: SIZE, STATE, SMALL_STRING, TABLE_FULL, MEMORY. */
uint64_t girzhanok_intern_small(uint64_t *state, size_t state_len, size_t len, uint64_t word,
                                uint8_t *heap, size_t heap_len, uint64_t *slots, size_t slots_len, uint64_t *spare, size_t spare_len,
                                uint64_t *value);

#ifdef __cplusplus
}
#endif

#endif
