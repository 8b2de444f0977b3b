/* Times the text run with an exception list against the run without one, by the entries for C, on one text of 64 KiB. The lists have
   the close alone, or 10, 100, 1,000, 2,000 and 20,000 records for words that the text has not, so that each of its words is held against
   every record; and 10, 100, 1,000 and 5,000 for words of the text, spread over it. First each run has to give what follows word by word. In
   each round every list is used once, in turn; the median round counts.

   lists FILE ROUNDS    FILE has a word of small letters on each line

   The exit status is 1 if a record takes more than 1.5 times as long among 20,000 as among 2,000, or among 5,000 words of the text as
   among 1,000: the time is to grow with the list, and no faster. Shorter lists are not judged, as a processor foresees the branches of a
   hundred records and keeps a thousand in its nearest memory. */

#include "lunarbugle.h"
#include "measuring.h"

#include <stdio.h>
#include <string.h>

#define MOST_RECORDS 20000
#define MOST_RECORD (4 + 1 + 64 + 1) /* bytes: the head, n, the word and a stem of one letter */
#define MOST_RATIO 1.5

static uint8_t text[LUNARBUGLE_TEXT_MOST];
static uint8_t space[LUNARBUGLE_TEXT_MOST]; /* a copy, to run on */
static size_t text_words;

struct list {
    const char *name;
    size_t records;
    int is_of_text; /* whether its words are in the text */
    int is_judged; /* by the list before it */
    uint8_t bytes[MOST_RECORDS * MOST_RECORD + 4];
    size_t length; /* 0, which is no list, is for the run without one */
};

static struct list lists[] = {
    {.name = "no list"},
    {.name = "the close alone"},
    {.name = "10 records, for words not in the text", .records = 10},
    {.name = "100 records, for words not in the text", .records = 100},
    {.name = "1,000 records, for words not in the text", .records = 1000},
    {.name = "2,000 records, for words not in the text", .records = 2000},
    {.name = "20,000 records, for words not in the text", .records = 20000, .is_judged = 1},
    {.name = "10 records, for words of the text", .records = 10, .is_of_text = 1},
    {.name = "100 records, for words of the text", .records = 100, .is_of_text = 1},
    {.name = "1,000 records, for words of the text", .records = 1000, .is_of_text = 1},
    {.name = "5,000 records, for words of the text", .records = 5000, .is_of_text = 1, .is_judged = 1},
};

enum { NO_LIST, CLOSE_ALONE, LISTS = sizeof lists / sizeof *lists };

/* The word of a record, by its number in the file. Its stem is to be its first letter. */
static size_t listed_word(const struct list *list, size_t record)
{
    return word_of_text(list->is_of_text ? record * (text_words / list->records) : text_words + record);
}

static void make_list(struct list *list)
{
    static const uint8_t close[4] = {0, 0, 3, 0};
    uint8_t *end = list->bytes;
    for (size_t record = 0; record < list->records; record++) {
        size_t word = listed_word(list, record), letters = starts[word + 1] - starts[word];
        uint8_t head[5] = {(uint8_t)(1 + letters + 1), 0, 4, 0, (uint8_t)letters};
        memcpy(end, head, 5);
        memcpy(end + 5, words + starts[word], letters);
        end[5 + letters] = words[starts[word]];
        end += 5 + letters + 1;
    }
    memcpy(end, close, 4);
    list->length = end + 4 - list->bytes;
}

static uint64_t run(const struct list *list)
{
    if (list->length == 0)
        return lunarbugle_text(space, sizeof space);
    return lunarbugle_text_listed(list->bytes, list->length, space, sizeof space);
}

static int has(const struct list *list, const uint8_t *letters, size_t length)
{
    for (size_t record = 0; record < list->records; record++) {
        size_t word = listed_word(list, record);
        if (starts[word + 1] - starts[word] == length && memcmp(words + starts[word], letters, length) == 0)
            return 1;
    }
    return 0;
}

/* The text as the list and lunarbugle_stem make it, word by word. Returns how many words were found listed. */
static size_t by_words(const struct list *list, uint8_t *bytes)
{
    size_t listed = 0;
    for (size_t at = 0, end; at < sizeof text; at = end + 1) {
        for (end = at; end < sizeof text && bytes[end] != ' ' && bytes[end] != ','; end++)
            bytes[end] |= 32;
        if (has(list, bytes + at, end - at)) {
            memset(bytes + at + 1, ' ', end - at - 1);
            listed++;
        } else {
            lunarbugle_stem(bytes + at, end - at);
        }
    }
    return listed;
}

/* Whether the run with this list gives the text and the counts that it has to, and its words are in the text or not, as they are
   meant to be. The text's last word is cut, and may by chance be another one of the list. */
static int is_right(const struct list *list)
{
    static uint8_t wanted[sizeof text];
    memcpy(space, text, sizeof text);
    memcpy(wanted, text, sizeof text);
    uint64_t answer = run(list);
    size_t listed = by_words(list, wanted);
    if ((list->is_of_text ? listed >= list->records : listed == 0) && memcmp(space, wanted, sizeof text) == 0 &&
        lunarbugle_number(answer) == 0 && lunarbugle_words_stemmed(answer) == text_words && lunarbugle_words_left(answer) == 0)
        return 1;
    printf("lists: another text or other counts than word by word: %s\n", list->name);
    return 0;
}

/* Microseconds of one run. */
static double round_of(const struct list *list)
{
    memcpy(space, text, sizeof text);
    double began = now();
    run(list);
    return (now() - began) / 1000;
}

int main(int count, char **arguments)
{
    static double times[LISTS][MOST_ROUNDS];
    double a_record[LISTS] = {0};
    int grows_faster = 0;
    size_t rounds = begin(count, arguments);
    text_words = make_text(text, sizeof text);
    for (size_t list = CLOSE_ALONE; list < LISTS; list++)
        make_list(&lists[list]);
    for (size_t list = 0; list < LISTS; list++)
        if (!is_right(&lists[list]))
            return 1;
    printf("a text of 64 KiB, %zu words: with each list the text that follows word by word\n", text_words);
    for (size_t round = 0; round < rounds; round++)
        for (size_t list = 0; list < LISTS; list++)
            times[list][round] = round_of(&lists[list]);
    printf("%-43s %9s %10s %6s %11s %15s\n", "", "us a text", "best round", "times", "us a record", "ns of it a word");
    for (size_t list = 0; list < LISTS; list++) {
        sort_times(times[list], rounds);
        double median = times[list][rounds / 2];
        printf("%-43s %9.1f %10.1f %6.2f", lists[list].name, median, times[list][0], median / times[NO_LIST][rounds / 2]);
        if (lists[list].records > 0) {
            a_record[list] = (median - times[CLOSE_ALONE][rounds / 2]) / lists[list].records;
            printf(" %11.2f %15.2f", a_record[list], a_record[list] * 1000 / text_words);
        }
        printf("\n");
        if (lists[list].is_judged)
            grows_faster |= a_record[list] > MOST_RATIO * a_record[list - 1];
    }
    if (grows_faster)
        printf("lists: a record takes more than %.1f times as long in the longest list as in the one before it\n", MOST_RATIO);
    return grows_faster;
}
