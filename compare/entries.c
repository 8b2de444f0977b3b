/* Answers requests 1, 2, 9, 10 and 11 of the program `probe`, a word and a text, bare and with a
   list, and a vocabulary, by the entries for C of include/lunarbugle.h. The bytes that it lends
   lie beside memory that cannot be read: each call is made twice, on bytes that begin directly
   behind an unreadable page and on bytes that end directly before one. An entry that reads or
   writes beyond what it was lent on that side is stopped by the processor; on the other side a
   margin has to come back as it was. Both calls have to give the same answer and the same bytes.
   A list, as which a vocabulary comes too, lies in the same two ways in memory of its own, which
   cannot be written during the call.

   A request that is cut short, unknown or over its bounds, and a call that fails this test, is
   answered with the byte 255, which ends the run. */

#define _GNU_SOURCE
#include "lunarbugle.h"

#include <setjmp.h>
#include <signal.h>
#include <stdio.h>
#include <string.h>
#include <sys/mman.h>
#include <unistd.h>

enum { WORD = 1, TEXT = 2, WORD_WITH_LIST = 9, TEXT_WITH_LIST = 10, VOCABULARY = 11, ENDED = 255 };
enum { MOST_WORD = 4096, MOST_TEXT = 70000, MOST_LIST = 70000, MOST_VOCABULARY = 1048576 };
enum { MARGIN = 4096, FILLED = 0x53 };

struct space { /* memory that can be used, between two pages that cannot */
    uint8_t *start, *end;
};
static struct space space, list_space;

struct argument { /* what came */
    uint8_t bytes[MOST_VOCABULARY];
    size_t length;
};
static struct argument argument, list; /* a vocabulary is a list, with no argument */
static uint8_t afterwards[MOST_TEXT]; /* the bytes after the first call */

/* Unreadable and unwritable memory */

static sigjmp_buf stopped;

static void stop(int signal)
{
    siglongjmp(stopped, signal);
}

static int can_be_read(const volatile uint8_t *byte)
{
    if (sigsetjmp(stopped, 1))
        return 0;
    (void)*byte;
    return 1;
}

static int can_be_written(volatile uint8_t *byte)
{
    if (sigsetjmp(stopped, 1))
        return 0;
    *byte = FILLED;
    return 1;
}

static int allow(struct space one, int access)
{
    return mprotect(one.start, one.end - one.start, access) == 0;
}

/* Makes a space and its two pages, and tries that these, and only these, cannot be read. */
static int make_space(struct space *made, size_t most)
{
    size_t page = sysconf(_SC_PAGESIZE);
    size_t usable = (most + page - 1) / page * page;
    uint8_t *all = mmap(NULL, usable + 2 * page, PROT_NONE, MAP_PRIVATE | MAP_ANONYMOUS, -1, 0);
    if (all == MAP_FAILED)
        return 0;
    made->start = all + page;
    made->end = made->start + usable;
    return allow(*made, PROT_READ | PROT_WRITE) && can_be_read(made->start) &&
           can_be_read(made->end - 1) && !can_be_read(made->start - 1) && !can_be_read(made->end);
}

/* Tries that memory can be kept from being written, and be written again. */
static int can_be_kept(struct space one)
{
    return allow(one, PROT_READ) && can_be_read(one.start) && !can_be_written(one.start) &&
           !can_be_written(one.end - 1) && allow(one, PROT_READ | PROT_WRITE) &&
           can_be_written(one.start) && can_be_written(one.end - 1);
}

static int make_spaces(void)
{
    signal(SIGSEGV, stop);
    int right = make_space(&space, MOST_TEXT + MARGIN) &&
                make_space(&list_space, MOST_VOCABULARY) && can_be_kept(list_space) &&
                allow(list_space, PROT_READ);
    signal(SIGSEGV, SIG_DFL);
    return right;
}

/* Calls */

static uint64_t call(int request, const uint8_t *listed, uint8_t *bytes)
{
    switch (request) {
    case WORD:
        return lunarbugle_stem(bytes, argument.length);
    case TEXT:
        return lunarbugle_text(bytes, argument.length);
    case WORD_WITH_LIST:
        return lunarbugle_stem_listed(listed, list.length, bytes, argument.length);
    case TEXT_WITH_LIST:
        return lunarbugle_text_listed(listed, list.length, bytes, argument.length);
    default:
        return lunarbugle_vocabulary(listed, list.length);
    }
}

/* Puts the list at this place, and keeps it from being written. Only its own pages can be written
   meanwhile: to change all of them takes longer than most calls. */
static int put_list(uint8_t *place)
{
    size_t into_page = (place - list_space.start) % sysconf(_SC_PAGESIZE);
    struct space pages = {place - into_page, place + list.length};
    if (!allow(pages, PROT_READ | PROT_WRITE))
        return 0;
    memcpy(place, list.bytes, list.length);
    return allow(pages, PROT_READ);
}

/* Lends a copy of the argument at this place. Says whether the margin came back as it was. */
static int lend(int request, uint8_t *listed, uint8_t *bytes, uint8_t *margin, uint64_t *answer)
{
    static uint8_t filled[MARGIN];
    memset(filled, FILLED, MARGIN);
    memset(margin, FILLED, MARGIN);
    memcpy(bytes, argument.bytes, argument.length);
    if (request >= WORD_WITH_LIST && !put_list(listed))
        return 0;
    *answer = call(request, listed, bytes);
    return memcmp(margin, filled, MARGIN) == 0;
}

/* Calls at the start of each space and at its end; `afterwards` has the bytes after both. */
static int call_twice(int request, uint64_t *answer)
{
    uint64_t first;
    size_t length = argument.length;
    uint8_t *bytes = space.end - length;
    if (!lend(request, list_space.start, space.start, space.start + length, &first))
        return 0;
    memcpy(afterwards, space.start, length);
    if (!lend(request, list_space.end - list.length, bytes, bytes - MARGIN, answer))
        return 0;
    return *answer == first && memcmp(bytes, afterwards, length) == 0;
}

/* Requests and answers: a number is four bytes, the lowest first */

static int read_number(size_t *number)
{
    uint8_t four[4];
    if (fread(four, 1, 4, stdin) != 4)
        return 0;
    *number = four[0] | four[1] << 8 | four[2] << 16 | (size_t)four[3] << 24;
    return 1;
}

static void write_number(size_t number)
{
    for (int byte = 0; byte < 4; byte++)
        putchar(number >> 8 * byte & 255);
}

static int read_argument(struct argument *read, size_t most)
{
    return read_number(&read->length) && read->length <= most &&
           fread(read->bytes, 1, read->length, stdin) == read->length;
}

static int read_arguments(int request)
{
    argument.length = list.length = 0;
    switch (request) {
    case WORD:
        return read_argument(&argument, MOST_WORD);
    case TEXT:
        return read_argument(&argument, MOST_TEXT);
    case WORD_WITH_LIST:
        return read_argument(&list, MOST_LIST) && read_argument(&argument, MOST_WORD);
    case TEXT_WITH_LIST:
        return read_argument(&list, MOST_LIST) && read_argument(&argument, MOST_TEXT);
    case VOCABULARY:
        return read_argument(&list, MOST_VOCABULARY);
    default:
        return 0;
    }
}

/* What the number says besides: of a text, what stands before the words left. */
static size_t value(uint64_t answer, int request, int is_text)
{
    unsigned number = lunarbugle_number(answer);
    if (request == VOCABULARY)
        return lunarbugle_line(answer);
    if (number == 10)
        return lunarbugle_faulty_record(answer);
    if (is_text)
        return lunarbugle_words_stemmed(answer);
    return number == 2 ? lunarbugle_other_byte(answer) : lunarbugle_stem_length(answer);
}

static int answered(int request)
{
    uint64_t answer;
    int is_text = request == TEXT || request == TEXT_WITH_LIST;
    if (!read_arguments(request))
        return 0;
    if (!call_twice(request, &answer)) {
        fprintf(stderr, "entries: request %d of %zu bytes differs by its place\n", request,
                list.length + argument.length);
        return 0;
    }
    putchar(lunarbugle_number(answer));
    write_number(value(answer, request, is_text));
    if (is_text)
        write_number(lunarbugle_words_left(answer));
    fwrite(afterwards, 1, argument.length, stdout);
    return fflush(stdout) == 0; /* so that a call that is stopped takes no earlier answer with it */
}

int main(void)
{
    if (!make_spaces()) {
        fprintf(stderr, "entries: there is no memory with an unreadable page on both sides\n");
        return 2;
    }
    for (int request; (request = getchar()) != EOF;) {
        if (!answered(request)) {
            putchar(ENDED);
            return 0;
        }
    }
    return 0;
}
