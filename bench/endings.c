/* How many endings step 2 compares, and how long a word takes, in versions of the stemmer that differ in step 2 alone; bench/endings
   makes them. Each is there twice: as it is, to be timed, and with calls of the three functions below, to be counted. First all give
   the same stem for every word. In each round every version stems every word once, in turn; the median round counts.

   endings FILE ROUNDS    FILE has a word of small letters on each line

   The exit status is 1 if the last version, which is the library's, compares as many endings as the first, or takes longer. */

#include "measuring.h"

#include <stdio.h>
#include <string.h>

static int in_step_2;
static size_t endings;

void step_2_begins(void) { in_step_2 = 1; }
void step_2_ends(void) { in_step_2 = 0; }
void ending_compared(void) { endings += in_step_2; }

/* The functions of a version, by the name that bench/endings gives it. */
#define VERSION(name)                                                                              \
    uint64_t name##_stem(uint8_t *word, size_t length);                                            \
    uint64_t name##_counted(uint8_t *word, size_t length);                                         \
    static struct stem by_##name(uint8_t *word, size_t length)                                     \
    {                                                                                              \
        return (struct stem){word, name##_stem(word, length) >> 8};                                \
    }                                                                                              \
    static struct stem count_##name(uint8_t *word, size_t length)                                  \
    {                                                                                              \
        return (struct stem){word, name##_counted(word, length) >> 8};                             \
    }

VERSION(every)
VERSION(second)
VERSION(library)

static const struct version {
    const char *name;
    stemmer timed, counted;
} versions[] = {
    {"every ending in turn", by_every, count_every},
    {"by the second last letter alone", by_second, count_second},
    {"as the library does it", by_library, count_library},
};

enum { FIRST, LIBRARY = 2, VERSIONS };

static size_t compared[VERSIONS];  /* endings, for all words */
static size_t comparing[VERSIONS]; /* words for which any ending is compared */

static int same(struct stem stem, const uint8_t *letters, size_t length)
{
    return stem.length == length && memcmp(stem.letters, letters, length) == 0;
}

/* Counts what every version compares; whether all give the same stems. */
static int count(void)
{
    for (size_t word = 0; word < word_count; word++) {
        uint8_t letters[64];
        struct stem first = stem_of(versions[FIRST].timed, word);
        memcpy(letters, first.letters, first.length);
        for (size_t version = 0; version < VERSIONS; version++) {
            endings = 0;
            int counted = same(stem_of(versions[version].counted, word), letters, first.length);
            compared[version] += endings;
            comparing[version] += endings > 0;
            if (counted && same(stem_of(versions[version].timed, word), letters, first.length))
                continue;
            printf("word %zu has another stem %s than %s\n", word + 1, versions[version].name, versions[FIRST].name);
            return 0;
        }
    }
    return 1;
}

int main(int argument_count, char **arguments)
{
    static double times[VERSIONS][MOST_ROUNDS];
    size_t rounds = begin(argument_count, arguments);
    if (!count())
        return 1;
    for (size_t round = 0; round < rounds; round++)
        for (size_t version = 0; version < VERSIONS; version++)
            times[version][round] = round_of_words(versions[version].timed);
    printf("%zu words: all versions give the same stems\n", word_count);
    printf("%-32s %16s %6s %10s %9s %10s %5s\n", "step 2", "endings compared", "a word", "for words", "ns a word",
           "best round", "times");
    for (size_t version = 0; version < VERSIONS; version++) {
        sort_times(times[version], rounds);
        double median = times[version][rounds / 2];
        printf("%-32s %16zu %6.2f %10zu %9.1f %10.1f %5.2f\n", versions[version].name, compared[version],
               (double)compared[version] / word_count, comparing[version], median, times[version][0],
               median / times[FIRST][rounds / 2]);
    }
    return compared[LIBRARY] >= compared[FIRST] || times[LIBRARY][rounds / 2] > times[FIRST][rounds / 2];
}
