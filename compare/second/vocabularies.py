"""W-207: the check of a supplier's vocabulary, whose lines are a word, one space and its stem."""

from second.groups import small_letters
from second.words import word_stem


def stem_of(word):
    """Demand 2's stem of a word of 1 to 64 small letters; W-201 leaves those of one or two."""
    number, length, place = word_stem(word)
    assert number == 0
    return place[:length]


def read_line(line):
    """The word and the stem of a line, here without its line feed, or None where it is not of the
    form."""
    parts = line.split(b" ")
    if len(parts) != 2:
        return None
    word, stem = parts
    if not 1 <= len(word) <= 64 or len(stem) > 64 or not small_letters(word + stem):
        return None
    return word, stem


def check_vocabulary(vocabulary):
    """Request 11: number, line or 0. Every line is judged by its form before any stem."""
    *ended, unended = vocabulary.split(b"\n")
    pairs = []
    for number, line in enumerate(ended, 1):
        pair = read_line(line)
        if pair is None:
            return 11, number
        pairs.append(pair)
    if unended:  # a last line without its line feed
        return 11, len(ended) + 1
    for number, (word, stem) in enumerate(pairs, 1):
        if stem != stem_of(word):
            return 0, number
    return 0, 0
