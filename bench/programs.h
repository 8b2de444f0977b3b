/* The programs that the proved ones of include/lunarbugle.h are timed against. */
#ifndef PROGRAMS_H
#define PROGRAMS_H

#include <stddef.h>

/* Stems a word of at least one small letter where it stands, and returns its stem's length. */
int plain_stem(char *letters, int length);

/* Words stemmed and words left in a text. */
struct counts {
    size_t stemmed;
    size_t left;
};

/* Makes small and stems every word of 1 to 64 letters where it stands, and fills with spaces. */
struct counts plain_text(char *text, size_t length);

/* The same sources at -O3, where the compiler builds their small functions into each other. */
int plain_stem_inlined(char *letters, int length);
struct counts plain_text_inlined(char *text, size_t length);

/* Porter's own program, where the hosts were built with it: whether it is there, which comes first; its stem of a word of small
   letters; and a text run with it. It reads some rules otherwise than document 01 (W-208 has them), so its stems may differ. */
int open_porters(void);
int porters_stem(char *letters, int length);
struct counts porters_text(char *text, size_t length);

#endif
