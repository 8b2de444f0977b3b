/* What the hosts share: the words of a file, a text made of them, and rounds with their times. */
#ifndef MEASURING_H
#define MEASURING_H

#include <stddef.h>
#include <stdint.h>

#define MOST_BYTES (1 << 22)
#define MOST_WORDS (1 << 18)
#define MOST_ROUNDS 999

extern uint8_t words[MOST_BYTES]; /* the words without their line feeds, one after the other */
extern size_t starts[MOST_WORDS + 1];
extern size_t word_count;

/* Takes the arguments FILE ROUNDS: reads the words of the file, one on each line, and returns the
   number of rounds. */
size_t begin(int count, char **arguments);

/* A program: stems a word where it stands, or elsewhere; where the stem is, and its length. */
struct stem {
    const uint8_t *letters;
    size_t length;
};
typedef struct stem (*stemmer)(uint8_t *word, size_t length);

/* The stem of a word of the file, by its number from 0. The word is stemmed in a copy, which the next call may change. */
struct stem stem_of(stemmer program, size_t word);

/* Nanoseconds a word in a round of a program, in which it stems every word once. */
double round_of_words(stemmer program);

/* The word that stands in a text at this place among its words, counted from 0: a word's number in the file. The order is scattered. */
size_t word_of_text(size_t place);

/* Fills a text with words of the file, some with a capital, some with a comma behind; the last may be cut. Returns how many there
   are. */
size_t make_text(uint8_t *text, size_t length);

/* Nanoseconds of this process on a processor: what it waits for one does not count. */
double now(void);

/* Sorts the times of all rounds, so that the best stands first and the median in the middle. */
void sort_times(double *times, size_t rounds);

#endif
