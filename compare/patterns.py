"""Lists by a pattern, and by it a third way to answer requests 8 to 10: it takes no record apart to
judge it, and runs a text with a list by a run without one."""

import re
from functools import lru_cache

from probing import LOOKUP, TEXT_WITH_LIST
from second.texts import text_run
from second.words import word_stem


def record_of_size(size):
    """The pattern of a good record with a body of this size. The word has at most 64 of its letters
    and not the last one; it has half of them or more, as the stem is no longer."""
    letters = size - 1
    fewest, most = (letters + 1) // 2, min(64, letters - 1)
    pattern = rb"\x%02x\x00\x04\x00[\x%02x-\x%02x][a-z]{%d}"
    return pattern % (size, fewest, most, letters)


RECORD = re.compile(b"|".join(record_of_size(size) for size in range(3, 1 + 64 + 64 + 1)))
CLOSE = b"\0\0\3\0"


@lru_cache(maxsize=1 << 8)
def good_records(exceptions):
    """The stem of each word in the good records with which the list begins, and the place behind
    them. Of two records for one word the later is written over."""
    records, place = [], 0
    while good := RECORD.match(exceptions, place):
        records.append(good[0])
        place = good.end()
    return {one[5 : 5 + one[4]]: one[5 + one[4] :] for one in reversed(records)}, place


def run_around(stems, text):
    """The run without a list on the text without its listed words, whose stems are then put in."""
    words = re.finditer(rb"[A-Za-z]+", text)
    listed = [(word, stems[word[0].lower()]) for word in words if word[0].lower() in stems]
    others = bytearray(text)
    for word, _ in listed:
        others[word.start() : word.end()] = bytes(len(word[0]))
    number, stemmed, left, others = text_run(bytes(others))
    if number != 0:
        return number, 0, 0, text
    afterwards = bytearray(others)
    for word, stem in listed:
        afterwards[word.start() : word.end()] = b"%-*b" % (len(word[0]), stem)
    return number, stemmed + len(listed), left, bytes(afterwards)


def by_pattern(request):
    """The third way: a list is in order if a close, and nothing else, follows its good records."""
    kind, exceptions, asked = request
    stems, place = good_records(exceptions)
    in_order = exceptions[place:] == CLOSE
    if kind == LOOKUP:
        return (1, stems[asked]) if in_order and asked in stems else (0, asked)
    if not in_order:
        return (10, place, 0, asked) if kind == TEXT_WITH_LIST else (10, place, asked)
    if kind == TEXT_WITH_LIST:
        return run_around(stems, asked)
    if asked not in stems:
        return word_stem(asked)
    return 0, len(stems[asked]), b"%-*b" % (len(asked), stems[asked])
