/* Rates two sales by one rule: a point for each whole unit, twice as many at the tier "gold". */
#include <inttypes.h>
#include <stdio.h>
#include <string.h>

#include "girzhanok.h"

#define BASE 65536
#define FRAMES 4
#define HEAP (2 * GIRZHANOK_PAGE_SIZE)
#define SLOTS 64
#define COUNT(a) (sizeof(a) / sizeof((a)[0]))

/* the places of the image's words: 5 of code behind the ends, then one global */
#define CODE_END (GIRZHANOK_IMAGE_ENDS + 5)
#define GLOBALS_END (CODE_END + 1)

/* r0 is the amount in cents, r1 the tier's name; r2 becomes the points */
static uint64_t image[] = {
    /* where code, globals, three lists of Switch tables, three of Lookup tables and defaults end; there are no tables */
    CODE_END, GLOBALS_END, GLOBALS_END, GLOBALS_END, GLOBALS_END, GLOBALS_END, GLOBALS_END, GLOBALS_END, GLOBALS_END,
    0x0000006400000207, /* IDivI r2, r0, 100 */
    0x000000000000031c, /* LoadG r3, 0: "gold" */
    0x0000000300040123, /* JmpSNe r1, r3, to the Halt */
    0x0000000200020205, /* IMulI r2, r2, 2 */
    0x000000000000003b, /* Halt */
    0,                  /* global 0: the address of "gold", once it is interned */
};

static uint64_t state[GIRZHANOK_STATE_WORDS];
static uint64_t frames[FRAMES];
static uint8_t heap[HEAP];
static uint64_t slots[SLOTS];
static uint64_t spare[SLOTS];

/* a call that has to be done */
static int failed(const char *call, uint64_t number)
{
    if (number != GIRZHANOK_HALT)
        printf("%s: %" PRIu64 "\n", call, number);
    return number != GIRZHANOK_HALT;
}

static int name(const char *text, uint64_t *value)
{
    return failed("intern", girzhanok_intern(state, GIRZHANOK_STATE_WORDS, (const uint8_t *)text, strlen(text), heap, HEAP, slots, SLOTS,
                                             spare, SLOTS, value));
}

static int rate(uint64_t cents, const char *tier)
{
    uint64_t value;
    size_t pc;
    uint32_t steps;
    /* for each sale: reset, as a run that stopped inside a function has left its depth, then the pc, what is known of the sale, and the run */
    if (name(tier, &value) || failed("reset", girzhanok_reset(state, GIRZHANOK_STATE_WORDS, frames, FRAMES))
        || failed("set_pc", girzhanok_set_pc(state, GIRZHANOK_STATE_WORDS, 0))
        || failed("set_register", girzhanok_set_register(state, GIRZHANOK_STATE_WORDS, 0, cents))
        || failed("set_register", girzhanok_set_register(state, GIRZHANOK_STATE_WORDS, 1, value)))
        return 1;
    uint64_t end = girzhanok_run(state, GIRZHANOK_STATE_WORDS, 100, &pc, &steps, image, COUNT(image), frames, FRAMES, heap, HEAP);
    if (failed("run", end))
        return 1;
    printf("%" PRIu64 " cents at %s (%" PRIx64 "h): %" PRIu64 " points, pc %zu, %" PRIu32 " steps\n", cents, tier, value, state[2], pc, steps);
    return 0;
}

int main(void)
{
    if (failed("start", girzhanok_start(state, GIRZHANOK_STATE_WORDS, BASE, image, COUNT(image), frames, FRAMES, heap, HEAP, slots, SLOTS,
                                        spare, SLOTS)))
        return 1;
    return name("gold", &image[CODE_END]) || rate(1250, "gold") || rate(1250, "silver");
}
