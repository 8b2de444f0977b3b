/* Times stemmers against each other on the same words: the proved one through its C entry, the
   plain rendering, and, where the host was built with them, libstemmer's Porter and Porter's own
   program, which is then the unit. First all but the last have to give the same stems for every
   word, and libstemmer, which reads shorter ones too, for every word of three letters or more. In
   each round every program stems every word once, in turn, so that whatever else the machine does
   falls on all of them; the median round counts.

   words FILE ROUNDS    FILE has a word of small letters on each line */

#include "lunarbugle.h"
#include "measuring.h"
#include "programs.h"

#include <stdio.h>
#include <string.h>

#ifdef WITH_LIBSTEMMER
#include <libstemmer.h>
static struct sb_stemmer *porter;
#endif

static struct stem by_lunarbugle(uint8_t *word, size_t length)
{
    return (struct stem){word, lunarbugle_stem(word, length) >> 8};
}

static struct stem by_plain(uint8_t *word, size_t length)
{
    return (struct stem){word, plain_stem((char *)word, (int)length)};
}

static struct stem by_plain_inlined(uint8_t *word, size_t length)
{
    return (struct stem){word, plain_stem_inlined((char *)word, (int)length)};
}

#ifdef WITH_LIBSTEMMER
static struct stem by_libstemmer(uint8_t *word, size_t length)
{
    const sb_symbol *stem = sb_stemmer_stem(porter, word, (int)length);
    return (struct stem){stem, sb_stemmer_length(porter)};
}
#endif

#ifdef PORTERS
static struct stem by_porters(uint8_t *word, size_t length)
{
    return (struct stem){word, porters_stem((char *)word, (int)length)};
}
#endif

static const struct program {
    const char *name;
    stemmer stem;
    size_t differs; /* the longest word that may have another stem */
} programs[] = {
    {"plain C -O2", by_plain, 0},
    {"plain C -O3", by_plain_inlined, 0},
    {"lunarbugle", by_lunarbugle, 0},
#ifdef WITH_LIBSTEMMER
    {"libstemmer", by_libstemmer, 2},
#endif
#ifdef PORTERS
    {"Porter's own", by_porters, 64},
#endif
};

#define PROGRAMS (sizeof programs / sizeof *programs)
#ifdef PORTERS
#define UNIT (PROGRAMS - 1)
#else
#define UNIT 0
#endif

/* All programs give the same stems, but where they may differ, which is counted. */
static int agree(void)
{
    size_t others[PROGRAMS] = {0};
    for (size_t word = 0; word < word_count; word++) {
        uint8_t first[64];
        size_t length = 0;
        for (size_t program = 0; program < PROGRAMS; program++) {
            size_t letters = starts[word + 1] - starts[word];
            struct stem stem = stem_of(programs[program].stem, word);
            if (program == 0) {
                length = stem.length;
                memcpy(first, stem.letters, length);
            } else if (stem.length == length && memcmp(stem.letters, first, length) == 0) {
                continue;
            } else if (letters <= programs[program].differs) {
                others[program]++;
            } else {
                printf("%s and %s differ at word %zu, %.*s\n", programs[0].name,
                       programs[program].name, word + 1, (int)letters, words + starts[word]);
                return 0;
            }
        }
    }
    printf("%zu words: all programs give the same stems", word_count);
    const char *before = ", but for";
    for (size_t program = 0; program < PROGRAMS; program++)
        if (programs[program].differs > 0) {
            printf("%s %s at %zu words", before, programs[program].name, others[program]);
            before = " and";
        }
    printf("\n");
    return 1;
}

int main(int count, char **arguments)
{
    static double times[PROGRAMS][MOST_ROUNDS];
    size_t rounds = begin(count, arguments);
#ifdef WITH_LIBSTEMMER
    porter = sb_stemmer_new("porter", NULL);
#endif
#ifdef PORTERS
    if (!open_porters())
        return 1;
#endif
    if (!agree())
        return 1;
    for (size_t round = 0; round < rounds; round++)
        for (size_t program = 0; program < PROGRAMS; program++)
            times[program][round] = round_of_words(programs[program].stem);
    for (size_t program = 0; program < PROGRAMS; program++)
        sort_times(times[program], rounds);
    for (size_t program = 0; program < PROGRAMS; program++) {
        double median = times[program][rounds / 2];
        printf("%-12s %7.1f ns a word (best round %.1f), %.2f times %s\n", programs[program].name, median,
               times[program][0], median / times[UNIT][rounds / 2], programs[UNIT].name);
    }
    return 0;
}
