/* Lunarbugle: a proved stemmer for English words and texts, for hosts in C and C++.
 *
 * Link with liblunarbugle.a (rt lib --cpu x86-64, in crates/lunarbugle). No entry keeps a pointer, allocates, or reads or writes
 * anything but the bytes it is lent. Every entry takes any bytes and always returns, on a machine that has the stack for it: at most
 * 616 bytes for a word, 696 for a word with an exception list, 824 for a text and 760 for a vocabulary, on x86-64.
 *
 * Numbers returned:
 *   0  done
 *   1  the word has 0 or more than 64 bytes
 *   2  a byte of the word is outside a to z. A text is never refused so: its capitals are made small, and every other byte
 *      stands between words
 *   4  some group's result is longer than the word's place (the shipped rules never give it)
 *   5  the text has more than 65,536 bytes
 *  10  the exception list has a faulty record. Only the entries with a list give it, and before 1, 2, 4 and 5
 *  11  a line of the vocabulary is not of the form. Only lunarbugle_vocabulary gives it
 * A refusal, that is any number but 0, leaves every lent byte as it was.
 */
#ifndef LUNARBUGLE_H
#define LUNARBUGLE_H

#include <stddef.h>
#include <stdint.h>

#ifdef __cplusplus
extern "C" {
#endif

/* Stems the len bytes at word in their own place: the stem stands first and spaces fill the rest. A word of one or two letters is
 * its own stem. Returns the number, plus 256 times what is returned besides it: with 0 the stem's length, with 2 the place, counted
 * from 0, of the first byte outside a to z, otherwise 0. */
uint64_t lunarbugle_stem(uint8_t *word, size_t len);

/* The most bytes that lunarbugle_text takes. */
#define LUNARBUGLE_TEXT_MOST 65536

/* Stems every word of the len bytes at text where it stands. A word is a longest run of A to Z and a to z; every other byte
 * stays as it is. A word of 1 to 64 letters is made small and stemmed in its own place, as by lunarbugle_stem, so that S-type becomes
 * s-type; a longer one stays with its capitals. Returns the number, plus 256 times the words stemmed, plus 2^32 times the words
 * left (0 and 0 for a refusal). What is done at one word does not depend on the rest of the text: a longer text may be cut wherever
 * no word is cut. */
uint64_t lunarbugle_text(uint8_t *text, size_t len);

/* An exception list has words with the stems that they are to have, whatever the rules say: wolves with wolf. It is records, one
 * behind the other, each a two-byte body length, a two-byte kind, the body; numbers are little-endian.
 *
 *   length      kind
 *   1 + n + m   4      a byte n, the n letters of a word, the m letters of its stem
 *   0           3      the close, and nothing behind it
 *
 * A word has 1 to 64 letters and its stem at least one and no more than the word, all of them a to z. Any other record is faulty; so
 * is a record that is cut short or, where the close is missing, not there: a list of 0 bytes is refused at 0. The first record for a
 * word counts. The list for wolves alone has 19 bytes; the close by itself is a list without words.
 *
 *   0b 00 04 00 06 77 6f 6c 76 65 73 77 6f 6c 66    11 bytes of kind 4: 6, wolves, wolf
 *   00 00 03 00                                     0 bytes of kind 3
 *
 * A listed stem is written as it stands, and not stemmed again. To meet another word it has to be that word's stem: axes is listed
 * with axi, since lunarbugle_stem makes axi of axis. examples/list makes a list from lines.
 *
 * The list is only read, and may not overlap the word or the text. All of it is judged in every call, and a word is looked up from the
 * first record on: the time of each word grows with the list, and many words are better lent as one text. */

/* lunarbugle_stem with an exception list: a listed word, one of one or two letters too, has its listed stem, any other word the stem
 * that lunarbugle_stem gives it. Returns what lunarbugle_stem returns, or 10, plus 256 times the offset in the list at which its
 * first faulty record starts. */
uint64_t lunarbugle_stem_listed(const uint8_t *list, size_t list_len, uint8_t *word, size_t len);

/* lunarbugle_text with an exception list: each word is looked up after it is made small, and a listed word counts as stemmed.
 * Returns what lunarbugle_text returns, or 10, plus 256 times that offset, which takes the room of both counts. */
uint64_t lunarbugle_text_listed(const uint8_t *list, size_t list_len, uint8_t *text, size_t len);

/* Checks the len bytes at list, a supplier's vocabulary of any size, which is only read. Each line is a word of 1 to 64 small letters,
 * one space, its stem, of 0 to 64 small letters, and a line feed, which the last line has too:
 *
 *   pumps pump
 *   feed fe
 *
 * Returns 0, plus 256 times the number, from 1, of the first line whose stem is not the one that lunarbugle_stem gives its word: above
 * 0 + 256 * 2. Plain 0 says that every line is right, as in a list of 0 bytes. Returns 11, plus 256 times the number of the first line
 * that is not of this form, if there is one anywhere in the list: then nothing is said of any stem. */
uint64_t lunarbugle_vocabulary(const uint8_t *list, size_t len);

#ifdef __cplusplus
}
#endif

/* The number of an answer. */
static inline unsigned lunarbugle_number(uint64_t answer)
{
    return (unsigned)(answer % 256);
}

/* Each of the following takes an answer of the entry that it names, or of the same entry with a list. */

/* The stem's length in an answer of lunarbugle_stem; 0 for a refusal, whatever its number, so that no place is taken for a length. */
static inline size_t lunarbugle_stem_length(uint64_t answer)
{
    return answer % 256 == 0 ? (size_t)(answer / 256) : 0;
}

/* The place of the first byte outside a to z in an answer of lunarbugle_stem whose number is 2: at most 63. */
static inline size_t lunarbugle_other_byte(uint64_t answer)
{
    return (size_t)(answer / 256);
}

/* The words stemmed in an answer of lunarbugle_text; 0 for a refusal, so that no offset is taken for a count. */
static inline size_t lunarbugle_words_stemmed(uint64_t answer)
{
    return answer % 256 == 0 ? (size_t)(answer / 256 % 16777216) : 0;
}

/* The words left in an answer of lunarbugle_text; 0 for a refusal. */
static inline size_t lunarbugle_words_left(uint64_t answer)
{
    return answer % 256 == 0 ? (size_t)(answer / 4294967296) : 0;
}

/* The offset in the list at which its first faulty record starts, in an answer whose number is 10, of a word or of a text: at most
 * the list's length. */
static inline size_t lunarbugle_faulty_record(uint64_t answer)
{
    return (size_t)(answer / 256);
}

/* The number, from 1, of the line that an answer of lunarbugle_vocabulary names: with 11 the first that is not of the form, with 0 the
 * first whose stem is wrong, or 0 where every line is right. */
static inline size_t lunarbugle_line(uint64_t answer)
{
    return (size_t)(answer / 256);
}

#endif
