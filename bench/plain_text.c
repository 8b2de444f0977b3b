/* Document 01's text run with the plain stemmer, as it would be written by hand. */

#include "programs.h"

#include <string.h>

static int is_letter(char byte)
{
    return (unsigned char)((byte | 32) - 'a') < 26;
}

struct counts plain_text(char *text, size_t length)
{
    struct counts counts = {0, 0};
    for (size_t at = 0; at < length; at++) {
        size_t start = at;
        while (at < length && is_letter(text[at]))
            at++;
        size_t letters = at - start;
        if (letters > 64) {
            counts.left++;
        } else if (letters > 0) {
            for (size_t i = start; i < at; i++)
                text[i] |= 32;
            size_t stem = plain_stem(text + start, (int)letters);
            memset(text + start + stem, ' ', letters - stem);
            counts.stemmed++;
        }
    }
    return counts;
}
