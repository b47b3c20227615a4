/* The library at its edges: states of too few words, null with count 0, each limit of the header and what lies past it, malformed images, and
 * lengths with nothing behind them. */
#define _DEFAULT_SOURCE /* for MAP_ANONYMOUS */
#include <signal.h>
#include <stdio.h>
#include <stdlib.h>
#include <string.h>
#include <sys/mman.h>
#include <unistd.h>

#include "girzhanok.h"

#define BASE 65536
#define WORDS GIRZHANOK_STATE_WORDS
#define ENDS GIRZHANOK_IMAGE_ENDS
/* code, globals, three lists of Switch tables, three of Lookup tables, defaults */
#define SECTIONS 9
#define COUNT(a) (sizeof(a) / sizeof((a)[0]))

static unsigned checks;
static volatile int line_now;

#define EXPECT(wanted, got) (line_now = __LINE__, expect((wanted), (got), #got, __LINE__))

static void expect(uint64_t wanted, uint64_t got, const char *what, int line)
{
    checks++;
    if (wanted == got)
        return;
    printf("line %d: %s: %llu, and not %llu\n", line, what, (unsigned long long)got, (unsigned long long)wanted);
    exit(1);
}

/* all that is lent, in one object, so that it is compared at once */
static struct lent {
    uint64_t state[WORDS + 1];
    uint64_t frames[4];
    uint64_t slots[64];
    uint64_t spare[64];
    uint64_t value;
    size_t pc;
    uint32_t steps;
    uint8_t heap[2 * GIRZHANOK_PAGE_SIZE];
} l, before;

static const uint64_t empty[16] = {9, 9, 9, 9, 9, 9, 9, 9, 9};
static const uint64_t halt[] = {10, 10, 10, 10, 10, 10, 10, 10, 10, 59};
static const uint8_t name[] = {0x61};

#define NONE NULL, 0
#define EMPTY empty, ENDS
#define HALT halt, COUNT(halt)
#define FRAMES l.frames, 4
#define HEAP l.heap, sizeof l.heap
#define SLOTS l.slots, 64
#define SPARE l.spare, 64
#define ANSWER &l.pc, &l.steps

static void keep(void)
{
    memcpy(&before, &l, sizeof l);
}

static void refused(uint64_t wanted, uint64_t got, int line)
{
    expect(wanted, got, "the number of a refused call", line);
    expect(0, (uint64_t)(memcmp(&before, &l, sizeof l) != 0), "what a refused call changed", line);
}

#define REFUSED(wanted, got) (line_now = __LINE__, refused((wanted), (got), __LINE__))

/* every call on n words of a state, which are too few */
static void too_few_words(uint64_t *state, size_t n)
{
    keep();
    REFUSED(GIRZHANOK_SIZE, girzhanok_start(state, n, BASE, HALT, FRAMES, HEAP, SLOTS, SPARE));
    REFUSED(GIRZHANOK_SIZE, girzhanok_run(state, n, 9, ANSWER, HALT, FRAMES, HEAP));
    REFUSED(GIRZHANOK_SIZE, girzhanok_reset(state, n, FRAMES));
    REFUSED(GIRZHANOK_SIZE, girzhanok_set_pc(state, n, 3));
    REFUSED(GIRZHANOK_SIZE, girzhanok_set_register(state, n, 3, 3));
    REFUSED(GIRZHANOK_SIZE, girzhanok_allocate(state, n, 0, 8, 8, HEAP, &l.value));
    REFUSED(GIRZHANOK_SIZE, girzhanok_option(state, n, true, 8, HEAP, &l.value));
    REFUSED(GIRZHANOK_SIZE, girzhanok_intern(state, n, name, 1, HEAP, SLOTS, SPARE, &l.value));
    REFUSED(GIRZHANOK_SIZE, girzhanok_intern_small(state, n, 1, 'a', HEAP, SLOTS, SPARE, &l.value));
}

/* every call that lends a buffer, on no buffer */
static void no_buffers(void)
{
    keep();
    REFUSED(GIRZHANOK_SIZE, girzhanok_start(l.state, WORDS, BASE, NONE, NONE, NONE, NONE, NONE));
    REFUSED(GIRZHANOK_SIZE, girzhanok_start(l.state, WORDS, BASE, NONE, FRAMES, HEAP, SLOTS, SPARE));
    REFUSED(GIRZHANOK_SIZE, girzhanok_run(l.state, WORDS, 9, ANSWER, NONE, NONE, NONE));
    REFUSED(GIRZHANOK_SIZE, girzhanok_run(l.state, WORDS, 9, ANSWER, NONE, FRAMES, HEAP));
    REFUSED(GIRZHANOK_SIZE, girzhanok_reset(l.state, WORDS, NONE));
    REFUSED(GIRZHANOK_SIZE, girzhanok_allocate(l.state, WORDS, 0, 8, 8, NONE, &l.value));
    REFUSED(GIRZHANOK_SIZE, girzhanok_option(l.state, WORDS, false, 8, NONE, &l.value));
    REFUSED(GIRZHANOK_SIZE, girzhanok_intern(l.state, WORDS, NONE, NONE, NONE, NONE, &l.value));
    REFUSED(GIRZHANOK_SIZE, girzhanok_intern_small(l.state, WORDS, 0, 0, NONE, NONE, NONE, &l.value));
}

/* the empty name is null, and empty code runs */
static void null_that_is_fine(void)
{
    EXPECT(0, girzhanok_start(l.state, WORDS + 1, BASE, EMPTY, FRAMES, HEAP, SLOTS, SPARE));
    EXPECT(0, girzhanok_intern(l.state, WORDS + 1, NONE, HEAP, SLOTS, SPARE, &l.value));
    EXPECT(BASE + 48, l.value);
    EXPECT(0, girzhanok_run(l.state, WORDS + 1, 9, ANSWER, EMPTY, FRAMES, HEAP));
    EXPECT(0, l.steps);
}

/* an image with something in its first five sections: its globals lie where the header says */
static void globals_have_places(void)
{
    /* LoadG r0, 1; Halt; two globals; a Switch table of one target */
    static uint64_t rule[] = {11, 13, 14, 15, 16, 16, 16, 16, 16, 0x000000010000001c, 59, 0, 0, 5, 1, 0};
    EXPECT(11, rule[GIRZHANOK_END_CODE]);
    EXPECT(13, rule[GIRZHANOK_END_GLOBALS]);
    EXPECT(0, girzhanok_start(l.state, WORDS, BASE, rule, COUNT(rule), FRAMES, HEAP, SLOTS, SPARE));
    rule[rule[GIRZHANOK_END_CODE] + 1] = 76;
    EXPECT(0, girzhanok_run(l.state, WORDS, 9, ANSWER, rule, COUNT(rule), FRAMES, HEAP));
    EXPECT(76, l.state[0]);
}

/* ---- limits */

/* a start on so many of each */
struct sizes {
    size_t code, globals, switches, switch_entries, lookups, lookup_entries, frames, heap, slots, spare;
    uint64_t base;
};

static const struct sizes LARGEST = {
    GIRZHANOK_CODE_MAX, GIRZHANOK_GLOBALS_MAX, GIRZHANOK_TABLES_MAX, GIRZHANOK_ENTRIES_MAX, GIRZHANOK_TABLES_MAX, GIRZHANOK_ENTRIES_MAX,
    GIRZHANOK_FRAMES_MAX, GIRZHANOK_PAGES_MAX * GIRZHANOK_PAGE_SIZE, GIRZHANOK_SLOTS_MAX, GIRZHANOK_SLOTS_MAX,
    GIRZHANOK_HEAP_END_MAX - GIRZHANOK_PAGES_MAX * GIRZHANOK_PAGE_SIZE,
};

static const struct sizes LEAST = {
    0, 0, 0, 0, 0, 0, GIRZHANOK_FRAMES_MIN, GIRZHANOK_PAGES_MIN * GIRZHANOK_PAGE_SIZE, GIRZHANOK_SLOTS_MIN, GIRZHANOK_SLOTS_MIN,
    GIRZHANOK_PAGE_SIZE,
};

static uint64_t image[2 * GIRZHANOK_IMAGE_MAX];
static uint64_t frames[GIRZHANOK_FRAMES_MAX + 1];
static uint8_t heap[(GIRZHANOK_PAGES_MAX + 1) * GIRZHANOK_PAGE_SIZE];
static uint64_t slots[2 * GIRZHANOK_SLOTS_MAX];

/* writes the ends of sections of so many words, and gives how many words the image has */
static size_t ends(uint64_t *to, const size_t counts[SECTIONS])
{
    size_t end = ENDS;
    for (size_t i = 0; i < SECTIONS; i++)
        to[i] = end += counts[i];
    return end;
}

/* an image of Halts and zeros; the last table of a kind has all entries */
static size_t filled(struct sizes n)
{
    const size_t counts[SECTIONS] = {
        n.code, n.globals, n.switches, n.switches, n.switch_entries, n.lookups, n.lookups, n.lookup_entries, n.lookups,
    };
    memset(image, 0, sizeof image);
    size_t words = ends(image, counts);
    for (size_t i = 0; i < n.code; i++)
        image[ENDS + i] = 59;
    if (n.switches)
        image[image[3] - 1] = n.switch_entries;
    if (n.lookups)
        image[image[6] - 1] = n.lookup_entries;
    return words;
}

static uint64_t start(struct sizes n)
{
    uint64_t state[WORDS] = {0};
    size_t words = filled(n);
    return girzhanok_start(state, WORDS, n.base, image, words, frames, n.frames, heap, n.heap, slots, n.slots, slots, n.spare);
}

#define PAST(field, by)                            \
    do {                                           \
        struct sizes n = LARGEST;                  \
        n.field += (by);                           \
        EXPECT(GIRZHANOK_SIZE, start(n));          \
    } while (0)
#define UNDER(field, by)                           \
    do {                                           \
        struct sizes n = LEAST;                    \
        n.field -= (by);                           \
        EXPECT(GIRZHANOK_SIZE, start(n));          \
    } while (0)
/* one past its limit in an image that has room for it, as all else is least */
#define ALONE(field, most)                         \
    do {                                           \
        struct sizes n = LEAST;                    \
        n.field = (most);                          \
        EXPECT(0, start(n));                       \
        n.field += 1;                              \
        EXPECT(GIRZHANOK_SIZE, start(n));          \
    } while (0)

static void limits(void)
{
    EXPECT(0, start(LARGEST));
    EXPECT(GIRZHANOK_IMAGE_MAX, filled(LARGEST));
    PAST(code, 1);
    PAST(globals, 1);
    PAST(switches, 1);
    PAST(switch_entries, 1);
    PAST(lookups, 1);
    PAST(lookup_entries, 1);
    PAST(frames, 1);
    PAST(base, GIRZHANOK_PAGE_SIZE);
    PAST(slots, 1);
    PAST(spare, 1);
    EXPECT(0, start(LEAST));
    EXPECT(ENDS, filled(LEAST));
    UNDER(frames, 1);
    UNDER(heap, GIRZHANOK_PAGE_SIZE);
    UNDER(slots, 1);
    UNDER(spare, 1);
    UNDER(base, GIRZHANOK_PAGE_SIZE);
    ALONE(code, GIRZHANOK_CODE_MAX);
    ALONE(globals, GIRZHANOK_GLOBALS_MAX);
    ALONE(switches, GIRZHANOK_TABLES_MAX);
    ALONE(lookups, GIRZHANOK_TABLES_MAX);
    struct sizes entries = LEAST;
    entries.code = entries.switches = entries.lookups = 1;
    entries.switch_entries = entries.lookup_entries = GIRZHANOK_ENTRIES_MAX;
    EXPECT(0, start(entries));
    entries.switch_entries += 1;
    EXPECT(GIRZHANOK_SIZE, start(entries));
    entries.switch_entries -= 1;
    entries.lookup_entries += 1;
    EXPECT(GIRZHANOK_SIZE, start(entries));
    struct sizes twice = LARGEST;
    twice.slots = twice.spare = 2 * GIRZHANOK_SLOTS_MAX;
    EXPECT(GIRZHANOK_SIZE, start(twice));
    struct sizes half = LEAST;
    half.slots = half.spare = GIRZHANOK_SLOTS_MIN / 2;
    EXPECT(GIRZHANOK_SIZE, start(half));
    /* one page more, at a base that has room for it */
    struct sizes pages = LARGEST;
    pages.base = GIRZHANOK_PAGE_SIZE;
    EXPECT(0, start(pages));
    pages.heap += GIRZHANOK_PAGE_SIZE;
    EXPECT(GIRZHANOK_SIZE, start(pages));
    /* a heap and a base between two pages */
    struct sizes part = LEAST;
    part.heap += 1;
    EXPECT(GIRZHANOK_SIZE, start(part));
    part = LEAST;
    part.base += 1;
    EXPECT(GIRZHANOK_SIZE, start(part));
}

/* ---- malformed images */

/* so many words of the image, to a start and to a run */
static void answered(uint64_t wanted, size_t words, int line)
{
    uint64_t state[WORDS] = {0};
    line_now = line;
    expect(wanted, girzhanok_start(state, WORDS, BASE, image, words, FRAMES, HEAP, SLOTS, SPARE), "a start", line);
    expect(0, girzhanok_start(state, WORDS, BASE, HALT, FRAMES, HEAP, SLOTS, SPARE), "a start on a Halt", line);
    expect(wanted, girzhanok_run(state, WORDS, 9, ANSWER, image, words, FRAMES, HEAP), "a run", line);
}

#define IMAGE(wanted, words) answered((wanted), (words), __LINE__)

/* a Halt and the same tables as those of Switch and as those of Lookup, so many of each list */
static void tables(uint64_t wanted, size_t firsts, const uint64_t *at, size_t n, size_t entries, size_t defaults, int line)
{
    const size_t of_switch[SECTIONS] = {1, 0, firsts, n, entries, 0, 0, 0, 0}, of_lookup[SECTIONS] = {1, 0, 0, 0, 0, firsts, n, entries, defaults};
    memset(image, 0, sizeof image);
    image[ENDS] = 59;
    size_t words = ends(image, of_switch);
    memcpy(image + image[2], at, n * sizeof *at);
    answered(wanted, words, line);
    memset(image, 0, sizeof image);
    image[ENDS] = 59;
    words = ends(image, of_lookup);
    memcpy(image + image[5], at, n * sizeof *at);
    answered(wanted, words, line);
}

#define TABLES(wanted, firsts, at, n, entries, defaults) tables((wanted), (firsts), (at), (n), (entries), (defaults), __LINE__)

static void malformed_tables(void)
{
    static const uint64_t rising[] = {1, 3}, equal[] = {3, 3}, falling[] = {3, 1}, dipping[] = {2, 1, 3}, past[] = {1, UINT64_MAX};
    TABLES(0, 2, rising, 2, 3, 2);
    TABLES(0, 2, equal, 2, 3, 2);
    TABLES(GIRZHANOK_SIZE, 2, falling, 2, 3, 2);
    TABLES(GIRZHANOK_SIZE, 3, dipping, 3, 3, 3);
    TABLES(GIRZHANOK_SIZE, 2, past, 2, 3, 2);
    /* entries past the last end, and too few */
    TABLES(GIRZHANOK_SIZE, 2, rising, 2, 4, 2);
    TABLES(GIRZHANOK_SIZE, 2, rising, 2, 2, 2);
    TABLES(GIRZHANOK_SIZE, 0, rising, 0, 1, 0);
    /* lists of other lengths than the first keys */
    TABLES(GIRZHANOK_SIZE, 1, rising, 2, 3, 1);
    TABLES(GIRZHANOK_SIZE, 3, rising, 2, 3, 3);
    /* defaults too few, and without a table */
    const size_t few[SECTIONS] = {0, 0, 0, 0, 0, 1, 1, 0, 0}, none[SECTIONS] = {0, 0, 0, 0, 0, 0, 0, 0, 1};
    memset(image, 0, sizeof image);
    IMAGE(GIRZHANOK_SIZE, ends(image, few));
    IMAGE(GIRZHANOK_SIZE, ends(image, none));
}

/* three Halts and a global: each end one off, each number of words but the right one, and ends that reach far */
static void malformed_ends(void)
{
    static const uint64_t far[] = {0, 8, 1000, UINT32_MAX, (uint64_t)1 << 61, UINT64_MAX / 8, UINT64_MAX};
    struct sizes n = LEAST;
    n.code = 3;
    n.globals = 1;
    size_t words = filled(n);
    IMAGE(0, words);
    for (size_t i = 0; i < words + 3; i++)
        if (i != words)
            IMAGE(GIRZHANOK_SIZE, i);
    for (size_t i = 0; i < SECTIONS; i++) {
        const uint64_t end = image[i];
        for (size_t j = 0; j < COUNT(far); j++) {
            image[i] = far[j];
            IMAGE(GIRZHANOK_SIZE, words);
        }
        image[i] = end + 1;
        /* the code one word longer ends in the global, which is no Halt */
        IMAGE(i == 0 ? GIRZHANOK_NO_HALT : GIRZHANOK_SIZE, words);
        image[i] = end - 1;
        /* and one word shorter in a Halt; globals one word shorter leave a first key without an end */
        IMAGE(i == 0 ? 0 : GIRZHANOK_SIZE, words);
        image[i] = end;
    }
}

/* ---- lengths with nothing behind them: what is outside the limits is refused before it is read */

#define GIANT ((size_t)1 << 40)
/* no page there can be read or written */
static char *nothing;
#define WORDS_AT ((uint64_t *)(void *)nothing)
#define BYTES_AT ((uint8_t *)nothing)

/* told by the line, where a page is touched after all */
static void touched(int signal)
{
    printf("line %d: a call reads or writes what is not there (signal %d)\n", line_now, signal);
    fflush(stdout);
    _exit(1);
}

static const size_t IMAGES[] = {0, 1, 8, GIRZHANOK_IMAGE_MAX + 1, GIANT, SIZE_MAX / 8};
static const size_t FRAME_COUNTS[] = {0, GIRZHANOK_FRAMES_MAX + 1, 20000, GIANT, SIZE_MAX / 8};
static const size_t HEAPS[] = {
    0, 1, GIRZHANOK_PAGE_SIZE - 1, GIRZHANOK_PAGE_SIZE + 1, (GIRZHANOK_PAGES_MAX + 1) * GIRZHANOK_PAGE_SIZE, GIANT, SIZE_MAX,
};
/* slots, and spare ones that are not as many or are outside the limits too */
static const size_t SLOT_COUNTS[][2] = {
    {0, 0}, {0, 64}, {64, 0}, {63, 63}, {65, 65}, {96, 96}, {64, 128}, {128, 64}, {2 * GIRZHANOK_SLOTS_MAX, 2 * GIRZHANOK_SLOTS_MAX},
    {GIANT, GIANT}, {64, GIANT}, {GIANT, 64},
};

/* no call reads a state of too few words, or anything beside it */
static void no_state(size_t n)
{
    uint64_t *s = WORDS_AT;
    REFUSED(GIRZHANOK_SIZE, girzhanok_start(s, n, BASE, WORDS_AT, 10, WORDS_AT, 4, BYTES_AT, 8192, WORDS_AT, 64, WORDS_AT, 64));
    REFUSED(GIRZHANOK_SIZE, girzhanok_run(s, n, 9, ANSWER, WORDS_AT, 10, WORDS_AT, 4, BYTES_AT, 8192));
    REFUSED(GIRZHANOK_SIZE, girzhanok_reset(s, n, WORDS_AT, 4));
    REFUSED(GIRZHANOK_SIZE, girzhanok_set_pc(s, n, 0));
    REFUSED(GIRZHANOK_SIZE, girzhanok_set_register(s, n, 0, 0));
    REFUSED(GIRZHANOK_SIZE, girzhanok_allocate(s, n, 0, 8, 8, BYTES_AT, 8192, &l.value));
    REFUSED(GIRZHANOK_SIZE, girzhanok_option(s, n, true, 8, BYTES_AT, 8192, &l.value));
    REFUSED(GIRZHANOK_SIZE, girzhanok_intern(s, n, BYTES_AT, 5, BYTES_AT, 8192, WORDS_AT, 64, WORDS_AT, 64, &l.value));
    REFUSED(GIRZHANOK_SIZE, girzhanok_intern_small(s, n, 1, 'a', BYTES_AT, 8192, WORDS_AT, 64, WORDS_AT, 64, &l.value));
}

/* each buffer of each call, with lengths outside the limits and nothing behind it; what else is lent is there, and then is not either */
static void nothing_behind(void)
{
    uint64_t *s = l.state;
    for (size_t i = 0; i < COUNT(IMAGES); i++) {
        REFUSED(GIRZHANOK_SIZE, girzhanok_start(s, WORDS, BASE, WORDS_AT, IMAGES[i], FRAMES, HEAP, SLOTS, SPARE));
        REFUSED(GIRZHANOK_SIZE, girzhanok_run(s, WORDS, 9, ANSWER, WORDS_AT, IMAGES[i], FRAMES, HEAP));
        REFUSED(GIRZHANOK_SIZE, girzhanok_start(s, WORDS, BASE, WORDS_AT, IMAGES[i], WORDS_AT, 4, BYTES_AT, 8192, WORDS_AT, 64, WORDS_AT, 64));
        REFUSED(GIRZHANOK_SIZE, girzhanok_run(s, WORDS, 9, ANSWER, WORDS_AT, IMAGES[i], WORDS_AT, 4, BYTES_AT, 8192));
    }
    for (size_t i = 0; i < COUNT(FRAME_COUNTS); i++) {
        const size_t n = FRAME_COUNTS[i];
        REFUSED(GIRZHANOK_SIZE, girzhanok_start(s, WORDS, BASE, HALT, WORDS_AT, n, HEAP, SLOTS, SPARE));
        REFUSED(GIRZHANOK_SIZE, girzhanok_run(s, WORDS, 9, ANSWER, HALT, WORDS_AT, n, HEAP));
        REFUSED(GIRZHANOK_SIZE, girzhanok_start(s, WORDS, BASE, WORDS_AT, 10, WORDS_AT, n, BYTES_AT, 8192, WORDS_AT, 64, WORDS_AT, 64));
        REFUSED(GIRZHANOK_SIZE, girzhanok_run(s, WORDS, 9, ANSWER, WORDS_AT, 10, WORDS_AT, n, BYTES_AT, 8192));
        REFUSED(GIRZHANOK_SIZE, girzhanok_reset(s, WORDS, WORDS_AT, n));
    }
    for (size_t i = 0; i < COUNT(HEAPS); i++) {
        const size_t n = HEAPS[i];
        REFUSED(GIRZHANOK_SIZE, girzhanok_start(s, WORDS, BASE, HALT, FRAMES, BYTES_AT, n, SLOTS, SPARE));
        REFUSED(GIRZHANOK_SIZE, girzhanok_run(s, WORDS, 9, ANSWER, HALT, FRAMES, BYTES_AT, n));
        REFUSED(GIRZHANOK_SIZE, girzhanok_start(s, WORDS, BASE, WORDS_AT, 10, WORDS_AT, 4, BYTES_AT, n, WORDS_AT, 64, WORDS_AT, 64));
        REFUSED(GIRZHANOK_SIZE, girzhanok_run(s, WORDS, 9, ANSWER, WORDS_AT, 10, WORDS_AT, 4, BYTES_AT, n));
        REFUSED(GIRZHANOK_SIZE, girzhanok_allocate(s, WORDS, 0, 8, 8, BYTES_AT, n, &l.value));
        REFUSED(GIRZHANOK_SIZE, girzhanok_option(s, WORDS, true, 8, BYTES_AT, n, &l.value));
        REFUSED(GIRZHANOK_SIZE, girzhanok_option(s, WORDS, false, 8, BYTES_AT, n, &l.value));
        REFUSED(GIRZHANOK_SIZE, girzhanok_intern(s, WORDS, BYTES_AT, 5, BYTES_AT, n, WORDS_AT, 64, WORDS_AT, 64, &l.value));
        REFUSED(GIRZHANOK_SIZE, girzhanok_intern_small(s, WORDS, 1, 'a', BYTES_AT, n, WORDS_AT, 64, WORDS_AT, 64, &l.value));
    }
    for (size_t i = 0; i < COUNT(SLOT_COUNTS); i++) {
        const size_t n = SLOT_COUNTS[i][0], m = SLOT_COUNTS[i][1];
        REFUSED(GIRZHANOK_SIZE, girzhanok_start(s, WORDS, BASE, HALT, FRAMES, HEAP, WORDS_AT, n, WORDS_AT, m));
        REFUSED(GIRZHANOK_SIZE, girzhanok_start(s, WORDS, BASE, WORDS_AT, 10, WORDS_AT, 4, BYTES_AT, 8192, WORDS_AT, n, WORDS_AT, m));
        REFUSED(GIRZHANOK_SIZE, girzhanok_intern(s, WORDS, name, 1, HEAP, WORDS_AT, n, WORDS_AT, m, &l.value));
        REFUSED(GIRZHANOK_SIZE, girzhanok_intern(s, WORDS, BYTES_AT, 5, BYTES_AT, 8192, WORDS_AT, n, WORDS_AT, m, &l.value));
        REFUSED(GIRZHANOK_SIZE, girzhanok_intern_small(s, WORDS, 1, 'a', HEAP, WORDS_AT, n, WORDS_AT, m, &l.value));
        REFUSED(GIRZHANOK_SIZE, girzhanok_intern_small(s, WORDS, 1, 'a', BYTES_AT, 8192, WORDS_AT, n, WORDS_AT, m, &l.value));
    }
    /* a base outside the limits */
    REFUSED(GIRZHANOK_SIZE, girzhanok_start(s, WORDS, 1, WORDS_AT, 10, WORDS_AT, 4, BYTES_AT, 8192, WORDS_AT, 64, WORDS_AT, 64));
}

/* sections that are too long by their ends, with nothing behind the ends: their words are not read */
static void nothing_behind_the_ends(uint64_t *image)
{
    static const size_t counts[][SECTIONS] = {
        {GIRZHANOK_CODE_MAX + 1},
        {0, GIRZHANOK_GLOBALS_MAX + 1},
        {0, 0, GIRZHANOK_TABLES_MAX + 1, GIRZHANOK_TABLES_MAX + 1},
        {0, 0, 0, GIRZHANOK_TABLES_MAX + 1},
        {0, 0, 1, 2},
        {0, 0, 2, 1},
        {0, 0, 0, 20000},
        {0, 0, 1, 1, GIRZHANOK_ENTRIES_MAX + 1},
        {0, 0, 0, 0, 0, GIRZHANOK_TABLES_MAX + 1, GIRZHANOK_TABLES_MAX + 1, 0, GIRZHANOK_TABLES_MAX + 1},
        {0, 0, 0, 0, 0, 0, GIRZHANOK_TABLES_MAX + 1},
        {0, 0, 0, 0, 0, 0, 20000},
        {0, 0, 0, 0, 0, 1, 1, GIRZHANOK_ENTRIES_MAX + 1, 1},
        {0, 0, 0, 0, 0, 1, 1, 0, 0},
        {0, 0, 0, 0, 0, 0, 0, 0, 1},
    };
    for (size_t i = 0; i < COUNT(counts); i++) {
        const size_t words = ends(image, counts[i]);
        REFUSED(GIRZHANOK_SIZE, girzhanok_start(l.state, WORDS, BASE, image, words, FRAMES, HEAP, SLOTS, SPARE));
        REFUSED(GIRZHANOK_SIZE, girzhanok_run(l.state, WORDS, 9, ANSWER, image, words, FRAMES, HEAP));
    }
}

static void attacks(void)
{
    const size_t page = (size_t)sysconf(_SC_PAGESIZE);
    char *pages = mmap(NULL, 2 * page, PROT_READ | PROT_WRITE, MAP_PRIVATE | MAP_ANONYMOUS, -1, 0);
    if (pages == MAP_FAILED || mprotect(pages + page, page, PROT_NONE) != 0) {
        perror("mmap");
        exit(1);
    }
    nothing = pages + page;
    signal(SIGSEGV, touched);
    signal(SIGBUS, touched);
    EXPECT(0, girzhanok_start(l.state, WORDS, BASE, HALT, FRAMES, HEAP, SLOTS, SPARE));
    /* a depth that the frames are too few for: they are not looked at before their number is */
    l.state[GIRZHANOK_WORD_DEPTH] = 20000;
    keep();
    for (size_t n = 0; n < WORDS; n++)
        no_state(n);
    nothing_behind();
    nothing_behind_the_ends((uint64_t *)(void *)nothing - ENDS);
    /* a start reads of slots and spare the sizes alone */
    EXPECT(0, girzhanok_start(l.state, WORDS, BASE, HALT, FRAMES, HEAP, WORDS_AT, 64, WORDS_AT, 64));
    munmap(pages, 2 * page);
}

int main(void)
{
    l.state[WORDS] = 77;
    null_that_is_fine();
    too_few_words(l.state, WORDS - 1);
    too_few_words(NULL, 0);
    no_buffers();
    globals_have_places();
    EXPECT(77, l.state[WORDS]);
    limits();
    malformed_tables();
    malformed_ends();
    attacks();
    printf("edges: %u checks\n", checks);
    return 0;
}
