"""W-205: the exception list, looked at before the rules; the lookup, and the runs with a list."""

from functools import lru_cache

from second.groups import small_letters
from second.sheets import Faulty, records_of
from second.texts import text_run
from second.words import word_stem

LISTED = 4  # kind


def read_listed(body):
    """The word and its stem in a body of kind 4, or None where the record is faulty."""
    if not body:
        return None
    n = body[0]
    if not 1 <= n <= 64 or 1 + n > len(body):
        return None
    word, stem = body[1 : 1 + n], body[1 + n :]
    if not 1 <= len(stem) <= n or not small_letters(word + stem):
        return None
    return word, stem


@lru_cache(maxsize=1 << 8)
def check_list(exceptions):
    """0 and the stem of each word that the list holds, or 10 and the place of its first faulty
    record."""
    stems = {}
    try:
        for place, kind, body in records_of(exceptions):
            listed = read_listed(body) if kind == LISTED else None
            if listed is None:
                raise Faulty(place)
            word, stem = listed
            stems.setdefault(word, stem)  # the first record for a word counts
    except Faulty as fault:
        return 10, fault.place
    return 0, stems


def lookup(exceptions, word):
    """Request 8: 1 if the word is listed, else 0; its listed stem, or the whole word. A faulty list
    holds no word."""
    number, stems = check_list(exceptions)
    return (1, stems[word]) if number == 0 and word in stems else (0, word)


def stem_by(stems, word):
    """Number, stem length or place or 0, the word's place: by its listed stem, which no rule reads
    and W-201 does not stop, or as request 1."""
    if word not in stems:
        return word_stem(word)
    return 0, len(stems[word]), stems[word].ljust(len(word), b" ")


def word_with_list(exceptions, word):
    """Request 9: number, stem length or place or 0, the word's place."""
    number, found = check_list(exceptions)
    return stem_by(found, word) if number == 0 else (number, found, word)


def text_with_list(exceptions, text):
    """Request 10: number, words stemmed or place, words left or 0, the text."""
    number, found = check_list(exceptions)
    if number != 0:
        return number, found, 0, text
    return text_run(text, lambda word: stem_by(found, word))
