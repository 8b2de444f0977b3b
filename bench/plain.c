/* A plain C rendering of document 01's word stemmer, with W-201, written the way such programs are
   mostly written by hand: the word in a buffer, `ends` and `put` over the two lengths below, a switch
   on a letter of the ending in the long steps. The proved stemmer's time is held against it. */

#include "programs.h"

#include <string.h>

static char *word;  /* the word's letters */
static int end;     /* how many of them are left */
static int part;    /* how many stand before the ending that `ends` found last */

/* Letters, measure, conditions */

static int consonant(int i)
{
    switch (word[i]) {
    case 'a': case 'e': case 'i': case 'o': case 'u':
        return 0;
    case 'y':
        return i == 0 || !consonant(i - 1);
    default:
        return 1;
    }
}

static int measure(void)
{
    int count = 0, i = 0;
    while (i < part && consonant(i))
        i++;
    for (;;) {
        while (i < part && !consonant(i))
            i++;
        if (i == part)
            return count;
        count++;
        while (i < part && consonant(i))
            i++;
    }
}

static int has_vowel(void)
{
    for (int i = 0; i < part; i++)
        if (!consonant(i))
            return 1;
    return 0;
}

static int ends_double(void)
{
    return part >= 2 && word[part - 1] == word[part - 2] && consonant(part - 1) &&
           consonant(part - 2);
}

static int ends_short(void)
{
    if (part < 3 || !consonant(part - 1) || consonant(part - 2) || !consonant(part - 3))
        return 0;
    char last = word[part - 1];
    return last != 'w' && last != 'x' && last != 'y';
}

/* Endings */

static int ends(const char *ending, int length)
{
    if (length > end || ending[length - 1] != word[end - 1])
        return 0;
    if (memcmp(word + end - length, ending, length) != 0)
        return 0;
    part = end - length;
    return 1;
}

#define ENDS(ending) ends(ending, sizeof(ending) - 1)

static void put(const char *replacement, int length)
{
    memcpy(word + part, replacement, length);
    end = part + length;
}

#define PUT(replacement) put(replacement, sizeof(replacement) - 1)

static void put_if_measured(const char *replacement, int length)
{
    if (measure() > 0)
        put(replacement, length);
}

#define PUT_IF_MEASURED(replacement) put_if_measured(replacement, sizeof(replacement) - 1)

/* Steps: in each, of two endings where one is a tail of the other the longer stands first */

static void step_1a(void)
{
    if (word[end - 1] != 's')
        return;
    if (ENDS("sses"))
        PUT("ss");
    else if (ENDS("ies"))
        PUT("i");
    else if (!ENDS("ss"))
        end--;
}

static void step_1b(void)
{
    if (ENDS("eed")) {
        PUT_IF_MEASURED("ee");
        return;
    }
    if (!(ENDS("ed") || ENDS("ing")) || !has_vowel())
        return;
    end = part;
    if (ENDS("at")) {
        PUT("ate");
    } else if (ENDS("bl")) {
        PUT("ble");
    } else if (ENDS("iz")) {
        PUT("ize");
    } else {
        part = end;
        char last = word[end - 1];
        if (ends_double() && last != 'l' && last != 's' && last != 'z')
            end--;
        else if (measure() == 1 && ends_short())
            PUT("e");
    }
}

static void step_1c(void)
{
    if (ENDS("y") && has_vowel())
        word[end - 1] = 'i';
}

static void step_2(void)
{
    if (end < 2)
        return;
    switch (word[end - 2]) {
    case 'a':
        if (ENDS("ational")) { PUT_IF_MEASURED("ate"); break; }
        if (ENDS("tional")) { PUT_IF_MEASURED("tion"); break; }
        break;
    case 'c':
        if (ENDS("enci")) { PUT_IF_MEASURED("ence"); break; }
        if (ENDS("anci")) { PUT_IF_MEASURED("ance"); break; }
        break;
    case 'e':
        if (ENDS("izer")) { PUT_IF_MEASURED("ize"); break; }
        break;
    case 'l':
        if (ENDS("abli")) { PUT_IF_MEASURED("able"); break; }
        if (ENDS("alli")) { PUT_IF_MEASURED("al"); break; }
        if (ENDS("entli")) { PUT_IF_MEASURED("ent"); break; }
        if (ENDS("eli")) { PUT_IF_MEASURED("e"); break; }
        if (ENDS("ousli")) { PUT_IF_MEASURED("ous"); break; }
        break;
    case 'o':
        if (ENDS("ization")) { PUT_IF_MEASURED("ize"); break; }
        if (ENDS("ation")) { PUT_IF_MEASURED("ate"); break; }
        if (ENDS("ator")) { PUT_IF_MEASURED("ate"); break; }
        break;
    case 's':
        if (ENDS("alism")) { PUT_IF_MEASURED("al"); break; }
        if (ENDS("iveness")) { PUT_IF_MEASURED("ive"); break; }
        if (ENDS("fulness")) { PUT_IF_MEASURED("ful"); break; }
        if (ENDS("ousness")) { PUT_IF_MEASURED("ous"); break; }
        break;
    case 't':
        if (ENDS("aliti")) { PUT_IF_MEASURED("al"); break; }
        if (ENDS("iviti")) { PUT_IF_MEASURED("ive"); break; }
        if (ENDS("biliti")) { PUT_IF_MEASURED("ble"); break; }
        break;
    }
}

static void step_3(void)
{
    if (end < 1)
        return;
    switch (word[end - 1]) {
    case 'e':
        if (ENDS("icate")) { PUT_IF_MEASURED("ic"); break; }
        if (ENDS("ative")) { PUT_IF_MEASURED(""); break; }
        if (ENDS("alize")) { PUT_IF_MEASURED("al"); break; }
        break;
    case 'i':
        if (ENDS("iciti")) { PUT_IF_MEASURED("ic"); break; }
        break;
    case 'l':
        if (ENDS("ical")) { PUT_IF_MEASURED("ic"); break; }
        if (ENDS("ful")) { PUT_IF_MEASURED(""); break; }
        break;
    case 's':
        if (ENDS("ness")) { PUT_IF_MEASURED(""); break; }
        break;
    }
}

static int ends_step_4(void)
{
    if (end < 2)
        return 0;
    switch (word[end - 2]) {
    case 'a':
        return ENDS("al");
    case 'c':
        return ENDS("ance") || ENDS("ence");
    case 'e':
        return ENDS("er");
    case 'i':
        return ENDS("ic");
    case 'l':
        return ENDS("able") || ENDS("ible");
    case 'n':
        return ENDS("ant") || ENDS("ement") || ENDS("ment") || ENDS("ent");
    case 'o':
        if (ENDS("ion"))
            return part > 0 && (word[part - 1] == 's' || word[part - 1] == 't');
        return ENDS("ou");
    case 's':
        return ENDS("ism");
    case 't':
        return ENDS("ate") || ENDS("iti");
    case 'u':
        return ENDS("ous");
    case 'v':
        return ENDS("ive");
    case 'z':
        return ENDS("ize");
    default:
        return 0;
    }
}

static void step_4(void)
{
    if (ends_step_4() && measure() > 1)
        end = part;
}

static void step_5(void)
{
    if (ENDS("e")) {
        int m = measure();
        if (m > 1 || (m == 1 && !ends_short()))
            end = part;
    }
    part = end;
    if (ends_double() && word[end - 1] == 'l' && measure() > 1)
        end--;
}

int plain_stem(char *letters, int length)
{
    if (length <= 2)
        return length;
    word = letters;
    end = length;
    step_1a();
    step_1b();
    step_1c();
    step_2();
    step_3();
    step_4();
    step_5();
    return end;
}
