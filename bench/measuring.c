/* What the hosts share: the words of a file, a text made of them, and rounds with their times. */

#include "measuring.h"

#include <stdio.h>
#include <stdlib.h>
#include <string.h>
#include <time.h>

uint8_t words[MOST_BYTES];
size_t starts[MOST_WORDS + 1];
size_t word_count;

static uint8_t space[MOST_BYTES]; /* a copy of the words, for a program to stem in */
static volatile size_t checksum; /* uses what a round computes, so that no call is left out */

static void read_words(const char *path)
{
    FILE *file = fopen(path, "rb");
    if (!file) {
        perror(path);
        exit(2);
    }
    size_t at = 0;
    for (int byte; (byte = getc(file)) != EOF && at < MOST_BYTES && word_count < MOST_WORDS;) {
        if (byte == '\n')
            starts[++word_count] = at;
        else
            words[at++] = (uint8_t)byte;
    }
    fclose(file);
}

size_t begin(int count, char **arguments)
{
    if (count != 3) {
        fprintf(stderr, "usage: %s FILE ROUNDS\n", arguments[0]);
        exit(2);
    }
    read_words(arguments[1]);
    size_t rounds = strtoul(arguments[2], NULL, 10);
    return rounds < 1 || rounds > MOST_ROUNDS ? MOST_ROUNDS : rounds;
}

static struct stem in_space(stemmer program, size_t word)
{
    return program(space + starts[word], starts[word + 1] - starts[word]);
}

struct stem stem_of(stemmer program, size_t word)
{
    memcpy(space + starts[word], words + starts[word], starts[word + 1] - starts[word]);
    return in_space(program, word);
}

double round_of_words(stemmer program)
{
    size_t letters = 0;
    memcpy(space, words, sizeof words);
    double began = now();
    for (size_t word = 0; word < word_count; word++)
        letters += in_space(program, word).length;
    double ended = now();
    checksum += letters;
    return (ended - began) / word_count;
}

size_t word_of_text(size_t place)
{
    return place * 7919 % word_count;
}

size_t make_text(uint8_t *text, size_t length)
{
    size_t at = 0, place = 0;
    for (; at < length; place++) {
        size_t word = word_of_text(place);
        for (size_t from = starts[word]; from < starts[word + 1] && at < length; from++) {
            int is_capital = from == starts[word] && place % 8 == 0;
            text[at++] = is_capital ? words[from] - 'a' + 'A' : words[from];
        }
        if (place % 8 == 3 && at < length)
            text[at++] = ',';
        if (at < length)
            text[at++] = ' ';
    }
    return place;
}

double now(void)
{
    struct timespec time;
    clock_gettime(CLOCK_PROCESS_CPUTIME_ID, &time);
    return time.tv_sec * 1e9 + time.tv_nsec;
}

static int by_size(const void *a, const void *b)
{
    double x = *(const double *)a, y = *(const double *)b;
    return (x > y) - (x < y);
}

void sort_times(double *times, size_t rounds)
{
    qsort(times, rounds, sizeof *times, by_size);
}
