/* Times the text run against the same work by hand: the proved one through its C entry, a loop over
   the plain rendering, and one over Porter's own program where the host was built with it. The texts
   have 1, 4, 16 and 64 KiB. A round goes over 64 KiB in texts of one size; so where the time of a
   text grows with its length and no faster, a byte takes the same time at all sizes. First all
   programs but Porter's own have to give the same texts and counts.

   texts FILE ROUNDS    FILE has a word of small letters on each line */

#include "lunarbugle.h"
#include "measuring.h"
#include "programs.h"

#include <stdio.h>
#include <string.h>

static uint8_t text[LUNARBUGLE_TEXT_MOST];
static uint8_t space[LUNARBUGLE_TEXT_MOST]; /* a copy, for a program to run on */

static struct counts by_lunarbugle(uint8_t *bytes, size_t length)
{
    uint64_t answer = lunarbugle_text(bytes, length);
    return (struct counts){lunarbugle_words_stemmed(answer), lunarbugle_words_left(answer)};
}

static struct counts by_plain(uint8_t *bytes, size_t length)
{
    return plain_text((char *)bytes, length);
}

static struct counts by_plain_inlined(uint8_t *bytes, size_t length)
{
    return plain_text_inlined((char *)bytes, length);
}

/* those that have to agree, and all */
enum { PLAIN, PLAIN_INLINED, LUNARBUGLE, AGREEING };
#ifdef PORTERS
static struct counts by_porters(uint8_t *bytes, size_t length)
{
    return porters_text((char *)bytes, length);
}
enum { PORTERS_OWN = AGREEING, PROGRAMS };
#else
enum { PROGRAMS = AGREEING };
#endif
static struct counts (*const programs[PROGRAMS])(uint8_t *bytes, size_t length) = {
    by_plain, by_plain_inlined, by_lunarbugle,
#ifdef PORTERS
    by_porters,
#endif
};

#define SIZES 4
static const size_t sizes[SIZES] = {1024, 4096, 16384, 65536};

/* A program on all texts of one size. */
static struct counts run_all(int program, size_t size)
{
    struct counts all = {0, 0};
    for (size_t at = 0; at < sizeof space; at += size) {
        struct counts counts = programs[program](space + at, size);
        all.stemmed += counts.stemmed;
        all.left += counts.left;
    }
    return all;
}

/* All programs give the same texts and counts. */
static int agree(size_t size)
{
    static uint8_t first[sizeof space];
    struct counts wanted = {0, 0};
    for (int program = 0; program < AGREEING; program++) {
        memcpy(space, text, sizeof text);
        struct counts counts = run_all(program, size);
        if (program == 0) {
            wanted = counts;
            memcpy(first, space, sizeof first);
        } else if (counts.stemmed != wanted.stemmed || counts.left != wanted.left ||
                   memcmp(space, first, sizeof first) != 0) {
            printf("programs 0 and %d differ on texts of %zu bytes\n", program, size);
            return 0;
        }
    }
    return 1;
}

/* Nanoseconds of a byte in one round of a program. */
static double round_of(int program, size_t size)
{
    memcpy(space, text, sizeof text);
    double began = now();
    run_all(program, size);
    return (now() - began) / sizeof text;
}

int main(int count, char **arguments)
{
    static double times[SIZES][PROGRAMS][MOST_ROUNDS];
    size_t rounds = begin(count, arguments);
    make_text(text, sizeof text);
#ifdef PORTERS
    if (!open_porters())
        return 1;
#endif
    for (int size = 0; size < SIZES; size++)
        if (!agree(sizes[size]))
            return 1;
    printf("texts: all programs give the same texts and counts\n");
    for (size_t round = 0; round < rounds; round++)
        for (int size = 0; size < SIZES; size++)
            for (int program = 0; program < PROGRAMS; program++)
                times[size][program][round] = round_of(program, sizes[size]);
    double median[SIZES][PROGRAMS];
    for (int size = 0; size < SIZES; size++) {
        for (int program = 0; program < PROGRAMS; program++) {
            sort_times(times[size][program], rounds);
            median[size][program] = times[size][program][rounds / 2];
        }
        double ours = median[size][LUNARBUGLE];
        printf("texts of %2zu KiB: %7.1f us, %5.2f ns a byte (%.2f times that of 1 KiB), "
               "%.2f times plain C -O2, %.2f times -O3",
               sizes[size] / 1024, ours * sizes[size] / 1000, ours, ours / median[0][LUNARBUGLE],
               ours / median[size][PLAIN], ours / median[size][PLAIN_INLINED]);
#ifdef PORTERS
        printf(", %.2f times Porter's own", ours / median[size][PORTERS_OWN]);
#endif
        printf("\n");
    }
    return 0;
}
