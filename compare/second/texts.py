"""The text run."""

import re

from second.words import word_stem

WORD = re.compile(b"[A-Za-z]+")


def next_word(text, start):
    """Request 3: offset and length of the next word from `start` on; where none follows, the
    text's length and 0."""
    found = WORD.search(text, start)
    return (found.start(), len(found[0])) if found else (len(text), 0)


def stemmed_text(text, stem=word_stem):
    """Words stemmed, words left, and the text, which may have any length. `stem(word)` answers as
    request 1 does, by the rules or with a list."""
    stemmed = left = 0

    def rewritten(found):
        nonlocal stemmed, left
        number, _, place = stem(found[0].lower())
        if number != 0:
            left += 1
            return found[0]
        stemmed += 1
        return place

    text = WORD.sub(rewritten, text)
    return stemmed, left, text


def text_run(text, stem=word_stem):
    """Request 2: number, words stemmed, words left, the text."""
    return (5, 0, 0, text) if len(text) > 65536 else (0, *stemmed_text(text, stem))
