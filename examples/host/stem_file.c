/* Stems a file of any size with lunarbugle_text, which takes at most 65,536 bytes at a time.
 *
 *     stem_file [--list LIST] [FILE]        reads FILE or standard input, writes the text after the run to standard output
 *
 * LIST has the bytes of an exception list, which examples/list/make makes from lines.
 *
 * The file is cut only where no word is cut: behind a byte that is no letter. What the text run does at one word does not
 * depend on the rest of the text (crates/texts, the laws `run-cut` and `run-word`), so the pieces one after the other are what
 * one run over the whole file would give, and the counts are the sums.
 *
 * A run of letters longer than a piece is a word over 64 letters: it is written as it came, and counted once as a word left.
 *
 * Standard error has the counts at the end, and a line every two seconds of longer work. The exit status is 0 if all was read
 * and written, otherwise 1.
 */
#include <errno.h>
#include <stdint.h>
#include <stdio.h>
#include <string.h>
#include <time.h>

#include "lunarbugle.h"

enum { PIECE = LUNARBUGLE_TEXT_MOST, LIST_MOST = 1 << 20 };

static uint8_t list[LIST_MOST + 1]; /* the exception list, accepted; 0 bytes of it if none was named */
static size_t list_length;

struct totals {
    uint64_t bytes;
    uint64_t stemmed;
    uint64_t left;
};

static int is_letter(uint8_t byte)
{
    return (byte >= 'a' && byte <= 'z') || (byte >= 'A' && byte <= 'Z');
}

/* How many bytes stand before the first that is no letter. */
static size_t leading_letters(const uint8_t *bytes, size_t length)
{
    size_t at = 0;
    while (at < length && is_letter(bytes[at])) at++;
    return at;
}

/* The last place of a piece at which it may be cut: behind its last byte that is no letter. 0 if it has none. */
static size_t last_cut(const uint8_t *bytes, size_t length)
{
    while (length > 0 && is_letter(bytes[length - 1])) length--;
    return length;
}

static int write_piece(const uint8_t *bytes, size_t length, struct totals *totals)
{
    totals->bytes += length;
    return fwrite(bytes, 1, length, stdout) == length;
}

static int stem_piece(uint8_t *bytes, size_t length, struct totals *totals)
{
    uint64_t answer = list_length == 0 ? lunarbugle_text(bytes, length)
                                       : lunarbugle_text_listed(list, list_length, bytes, length);
    totals->stemmed += lunarbugle_words_stemmed(answer);
    totals->left += lunarbugle_words_left(answer);
    return write_piece(bytes, length, totals);
}

/* A line of counts; while the work goes on, at most one in two seconds. */
static void tell(const struct totals *totals, int at_the_end)
{
    static time_t last = 0;
    time_t now = time(NULL);
    if (last == 0) last = now;
    if (!at_the_end && now - last < 2) return;
    last = now;
    fprintf(stderr, "stem_file: %llu bytes, %llu words stemmed, %llu left%s\n", (unsigned long long)totals->bytes,
            (unsigned long long)totals->stemmed, (unsigned long long)totals->left, at_the_end ? "" : " so far");
}

/* Stems all of a file. Answers 0 if something was not written; whether all was read is asked of the file. */
static int stem_all(FILE *file, struct totals *totals)
{
    static uint8_t piece[PIECE];
    size_t held = 0;   /* bytes at the start of `piece` that were read and not yet written */
    int is_inside = 0; /* what comes next may belong to a run of letters that was longer than a piece */
    for (;;) {
        size_t came = fread(piece + held, 1, PIECE - held, file);
        size_t done = 0;
        held += came;
        if (is_inside) {
            done = leading_letters(piece, held);
            is_inside = done == held && came > 0;
            if (!write_piece(piece, done, totals)) return 0;
        } else if (held < PIECE) {
            /* the file has ended */
            return stem_piece(piece, held, totals);
        } else {
            done = last_cut(piece, held);
            if (done > 0) {
                if (!stem_piece(piece, done, totals)) return 0;
            } else {
                done = held;
                is_inside = 1;
                totals->left += 1;
                if (!write_piece(piece, done, totals)) return 0;
            }
        }
        held -= done;
        memmove(piece, piece + done, held);
        tell(totals, 0);
    }
}

static int fail(const char *what)
{
    fprintf(stderr, "stem_file: %s: %s\n", what, strerror(errno));
    return 1;
}

/* Reads the exception list, and answers the exit status. An empty text tells whether the list is faulty, before a word is stemmed. */
static int read_list(const char *name)
{
    uint8_t no_text[1] = {0};
    FILE *file = fopen(name, "rb");
    if (!file) return fail(name);
    list_length = fread(list, 1, sizeof list, file);
    if (ferror(file)) return fail(name);
    fclose(file);
    errno = EFBIG;
    if (list_length > LIST_MOST) return fail(name);
    uint64_t answer = lunarbugle_text_listed(list, list_length, no_text, 0);
    if (lunarbugle_number(answer) != 10) return 0;
    fprintf(stderr, "stem_file: %s: the record at %zu is faulty\n", name, lunarbugle_faulty_record(answer));
    return 1;
}

int main(int count, char **words)
{
    struct totals totals = {0, 0, 0};
    if (count > 2 && strcmp(words[1], "--list") == 0) {
        if (read_list(words[2]) != 0) return 1;
        count -= 2;
        words += 2;
    }
    if (count > 2) {
        fprintf(stderr, "usage: stem_file [--list LIST] [FILE]\n");
        return 1;
    }
    const char *name = count == 2 ? words[1] : "standard input";
    FILE *file = count == 2 ? fopen(words[1], "rb") : stdin;
    if (!file) return fail(name);
    tell(&totals, 0);
    errno = 0;
    if (!stem_all(file, &totals) || fflush(stdout) != 0) return fail("standard output");
    if (ferror(file)) return fail(name);
    tell(&totals, 1);
    return 0;
}
