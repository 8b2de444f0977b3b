/* Times the check of a supplier's vocabulary against the word stemmer alone, by the entries for C: the list has a line for each word of
   the file, with its stem, so that every line is read and every word stemmed. First the list has to be right, and with another stem
   in its last line wrong there. In each round both programs go through all words once, in turn; the median round counts.

   vocabularies FILE ROUNDS    FILE has a word of small letters on each line

   The exit status is 1 if a line takes more than 1.5 times as long as its word. */

#include "lunarbugle.h"
#include "measuring.h"

#include <stdio.h>
#include <string.h>

#define MOST_RATIO 1.5

static uint8_t list[2 * (MOST_BYTES + MOST_WORDS)];
static size_t list_length;

static struct stem by_lunarbugle(uint8_t *word, size_t length)
{
    return (struct stem){word, lunarbugle_stem_length(lunarbugle_stem(word, length))};
}

static void append(const uint8_t *letters, size_t length, uint8_t close)
{
    memcpy(list + list_length, letters, length);
    list_length += length;
    list[list_length++] = close;
}

static void make_list(void)
{
    for (size_t word = 0; word < word_count; word++) {
        append(words + starts[word], starts[word + 1] - starts[word], ' ');
        struct stem stem = stem_of(by_lunarbugle, word);
        append(stem.letters, stem.length, '\n');
    }
}

static int answers(uint64_t wanted)
{
    if (lunarbugle_vocabulary(list, list_length) == wanted)
        return 1;
    printf("vocabularies: another answer than %llu\n", (unsigned long long)wanted);
    return 0;
}

/* Whether the list is found right, and then wrong in its last line, which is put back. */
static int is_judged(void)
{
    uint8_t *last = list + list_length - 2, letter = *last;
    if (!answers(0))
        return 0;
    *last = letter == 'x' ? 'y' : 'x';
    int is_found = answers(256 * (uint64_t)word_count);
    *last = letter;
    return is_found;
}

static double round_of_lines(void)
{
    double began = now();
    lunarbugle_vocabulary(list, list_length);
    return (now() - began) / word_count;
}

int main(int count, char **arguments)
{
    enum { WORDS, LINES };
    static double times[2][MOST_ROUNDS];
    size_t rounds = begin(count, arguments);
    make_list();
    if (!is_judged())
        return 1;
    printf("a vocabulary of %zu lines, %zu bytes: right, and with another stem in its last line wrong there\n", word_count, list_length);
    for (size_t round = 0; round < rounds; round++) {
        times[WORDS][round] = round_of_words(by_lunarbugle);
        times[LINES][round] = round_of_lines();
    }
    sort_times(times[WORDS], rounds);
    sort_times(times[LINES], rounds);
    double a_word = times[WORDS][rounds / 2], a_line = times[LINES][rounds / 2], ratio = a_line / a_word;
    printf("word stemmer %7.1f ns a word (best round %.1f)\n", a_word, times[WORDS][0]);
    printf("check        %7.1f ns a line (best round %.1f), %.2f times, %.1f million lines a second\n", a_line, times[LINES][0], ratio,
           1000 / a_line);
    if (ratio > MOST_RATIO)
        printf("vocabularies: a line takes more than %.1f times as long as its word\n", MOST_RATIO);
    return ratio > MOST_RATIO;
}
