/* Reads a rule in words from a file, as tools/asm --binary writes it, and rates two sales by it; then shows what the machine answers to the same
 * file cut or damaged: load examples/points_by_tier.words */
#include <inttypes.h>
#include <stdio.h>
#include <string.h>

#include "girzhanok.h"

/* what the words have not: the listing's header, and the names in the order of their globals */
#define BASE 0x10000
#define FRAMES 4
#define HEAP GIRZHANOK_PAGE_SIZE
#define SLOTS 64
#define BUDGET 100
static const char *const names[] = {"bronze", "silver", "gold"};
/* the global that is the name of the sale's tier */
#define TIER 3
#define COUNT(a) (sizeof(a) / sizeof((a)[0]))

static uint8_t file[8 * GIRZHANOK_IMAGE_MAX + 1];
static uint64_t image[GIRZHANOK_IMAGE_MAX];
static uint64_t state[GIRZHANOK_STATE_WORDS];
static uint64_t frames[FRAMES];
static uint8_t heap[HEAP];
static uint64_t slots[SLOTS];
static uint64_t spare[SLOTS];

/* the words of so many bytes, lowest byte first: how many, or SIZE_MAX where they are no words, or too many for any image */
static size_t words_of(const uint8_t *bytes, size_t count)
{
    if (count % 8 != 0 || count / 8 > GIRZHANOK_IMAGE_MAX)
        return SIZE_MAX;
    memset(image, 0, sizeof image);
    for (size_t i = 0; i < count; i++)
        image[i / 8] |= (uint64_t)bytes[i] << 8 * (i % 8);
    return count / 8;
}

static uint64_t start(size_t words)
{
    return girzhanok_start(state, GIRZHANOK_STATE_WORDS, BASE, image, words, frames, FRAMES, heap, HEAP, slots, SLOTS, spare, SLOTS);
}

static uint64_t intern(const char *name, uint64_t *value)
{
    return girzhanok_intern(state, GIRZHANOK_STATE_WORDS, (const uint8_t *)name, strlen(name), heap, HEAP, slots, SLOTS, spare, SLOTS, value);
}

/* The start has taken the image, so its ends lie inside it. Its globals from the first on are the names, as the listing has them. */
static int write_names(void)
{
    if (image[GIRZHANOK_END_GLOBALS] - image[GIRZHANOK_END_CODE] <= TIER)
        return 1;
    for (size_t i = 0; i < COUNT(names); i++)
        if (intern(names[i], &image[image[GIRZHANOK_END_CODE] + i]) != GIRZHANOK_HALT)
            return 1;
    return 0;
}

static int rate(size_t words, const char *tier)
{
    size_t pc;
    uint32_t steps;
    if (intern(tier, &image[image[GIRZHANOK_END_CODE] + TIER]) != GIRZHANOK_HALT
        || girzhanok_reset(state, GIRZHANOK_STATE_WORDS, frames, FRAMES) != GIRZHANOK_HALT
        || girzhanok_set_pc(state, GIRZHANOK_STATE_WORDS, 0) != GIRZHANOK_HALT)
        return 1;
    uint64_t end = girzhanok_run(state, GIRZHANOK_STATE_WORDS, BUDGET, &pc, &steps, image, words, frames, FRAMES, heap, HEAP);
    printf("%s: end %" PRIu64 " at %zu after %" PRIu32 " steps, %" PRIu64 " points\n", tier, end, pc, steps, state[0]);
    return end != GIRZHANOK_HALT;
}

/* the file with one byte changed to another, or with fewer bytes */
static void damaged(const char *what, size_t count, size_t at, uint8_t byte)
{
    const uint8_t before = file[at];
    file[at] = byte;
    size_t words = words_of(file, count);
    file[at] = before;
    if (words == SIZE_MAX)
        printf("%s: %zu bytes are no words\n", what, count);
    else
        printf("%s: %" PRIu64 "\n", what, start(words));
}

int main(int argc, char **argv)
{
    FILE *from = argc == 2 ? fopen(argv[1], "rb") : NULL;
    if (from == NULL) {
        fprintf(stderr, "load examples/points_by_tier.words\n");
        return 2;
    }
    const size_t count = fread(file, 1, sizeof file, from);
    fclose(from);
    const size_t words = words_of(file, count);
    if (words == SIZE_MAX || start(words) != GIRZHANOK_HALT) {
        printf("no image\n");
        return 1;
    }
    printf("%zu words, %" PRIu64 " of them code\n", words, image[GIRZHANOK_END_CODE] - GIRZHANOK_IMAGE_ENDS);
    if (write_names() || rate(words, "silver") || rate(words, "gold"))
        return 1;
    /* bytes 0 to 7 are the code's end, word 9 the first instruction */
    const size_t code = 8 * GIRZHANOK_IMAGE_ENDS, code_end = 8 * image[GIRZHANOK_END_CODE], globals_end = 8 * image[GIRZHANOK_END_GLOBALS];
    damaged("whole", count, 0, file[0]);
    damaged("nothing", 0, 0, file[0]);
    damaged("cut behind its ends", code, 0, file[0]);
    damaged("cut by its last word", count - 8, 0, file[0]);
    damaged("cut inside a word", count - 3, 0, file[0]);
    damaged("the code's end one less", count, 0, (uint8_t)(file[0] - 1));
    damaged("the code's end 2^56 more", count, 7, 1);
    damaged("the last Halt a Nop", count, code_end - 8, 60);
    damaged("an opcode that is none", count, code, 255);
    damaged("a register that is none", count, code + 1, 32);
    damaged("a global past the last one", count, code + 4, 5);
    damaged("a table's target past the code", count, globals_end + 16, 13);
    return 0;
}
