/* Checks a supplier's vocabulary with lunarbugle_vocabulary, which takes a list of any size.
 *
 *     check_vocabulary [FILE]        reads all of FILE or of standard input
 *
 * Each line is a word of 1 to 64 small letters, one space, its stem, of 0 to 64 small letters, and a line feed. Standard output has one
 * line: that all are right, or which is the first that is not, with the stem given and the stem due. A line that is not of this form is
 * told before any stem.
 *
 * The exit status is 0 if every line is right, 1 if one is not, and 2 if something cannot be read or written.
 */
#include <errno.h>
#include <stdint.h>
#include <stdio.h>
#include <stdlib.h>
#include <string.h>

#include "lunarbugle.h"

enum { FIRST_SPACE = 1 << 16, SHOWN = 80 };

struct bytes {
    uint8_t *start;
    size_t length;
};

static int fail(const char *what)
{
    fprintf(stderr, "check_vocabulary: %s: %s\n", what, strerror(errno));
    return 2;
}

/* Reads all of a file. Answers 0 if there is no memory for it; whether all was read is asked of the file. */
static int read_all(FILE *file, struct bytes *all)
{
    size_t space = FIRST_SPACE, came;
    all->length = 0;
    all->start = malloc(space);
    while (all->start && (came = fread(all->start + all->length, 1, space - all->length, file)) > 0) {
        all->length += came;
        if (all->length < space) continue;
        uint8_t *larger = realloc(all->start, space *= 2);
        if (!larger) free(all->start);
        all->start = larger;
    }
    return all->start != NULL;
}

/* How many bytes stand before the first that is this one; all of them if none is. */
static size_t before(struct bytes bytes, uint8_t byte)
{
    const uint8_t *found = bytes.length > 0 ? memchr(bytes.start, byte, bytes.length) : NULL;
    return found ? (size_t)(found - bytes.start) : bytes.length;
}

/* The line of this number, from 1, without its line feed. */
static struct bytes line_of(struct bytes list, size_t number)
{
    for (; number > 1; number--) {
        size_t taken = before(list, '\n') + 1;
        list.start += taken;
        list.length -= taken;
    }
    list.length = before(list, '\n');
    return list;
}

static size_t count_lines(struct bytes list)
{
    size_t count = 0;
    for (size_t at = 0; at < list.length; at++) count += list.start[at] == '\n';
    return count;
}

/* Writes the beginning of a line; a byte that is none of ASCII's signs by its number, so that what a supplier sent changes no terminal. */
static void show(struct bytes line)
{
    for (size_t at = 0; at < line.length && at < SHOWN; at++) {
        if (line.start[at] >= ' ' && line.start[at] <= '~')
            putchar(line.start[at]);
        else
            printf("\\x%02x", line.start[at]);
    }
    if (line.length > SHOWN) printf("..");
}

static void tell_wrong(struct bytes line)
{
    uint8_t stem[64];
    size_t letters = before(line, ' ');
    memcpy(stem, line.start, letters);
    size_t due = lunarbugle_stem_length(lunarbugle_stem(stem, letters));
    printf("%.*s has the stem %.*s, and not \"%.*s\"\n", (int)letters, (const char *)line.start, (int)due, (const char *)stem,
           (int)(line.length - letters - 1), (const char *)line.start + letters + 1);
}

/* Answers the exit status. */
static int tell(struct bytes list, uint64_t answer)
{
    size_t number = lunarbugle_line(answer);
    if (answer == 0) {
        size_t count = count_lines(list);
        printf("%zu line%s, every one right\n", count, count == 1 ? "" : "s");
        return 0;
    }
    struct bytes line = line_of(list, number);
    if (lunarbugle_number(answer) == 0) {
        printf("line %zu is wrong: ", number);
        tell_wrong(line);
        return 1;
    }
    printf("line %zu is not a word, one space and its stem, of at most 64 small letters each, and a line feed: \"", number);
    show(line);
    printf("\"\n");
    return 1;
}

int main(int count, char **words)
{
    struct bytes list;
    if (count > 2) {
        fprintf(stderr, "usage: check_vocabulary [FILE]\n");
        return 2;
    }
    const char *name = count == 2 ? words[1] : "standard input";
    FILE *file = count == 2 ? fopen(words[1], "rb") : stdin;
    if (!file) return fail(name);
    errno = 0;
    if (!read_all(file, &list) || ferror(file)) return fail(name);
    int status = tell(list, lunarbugle_vocabulary(list.start, list.length));
    free(list.start);
    return fflush(stdout) != 0 ? fail("standard output") : status;
}
