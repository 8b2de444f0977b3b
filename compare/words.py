"""Sets of words for request 1: samples, the published vocabulary, all short words, words with other
bytes, made words."""

import itertools
import random
import re
from functools import lru_cache
from pathlib import Path

import samples
from probing import WORD
from second.words import SHIPPED
from sets import Set

# Debian's package snowball-data: Porter's published vocabulary and, line by line, its stems.
PUBLISHED = Path("/usr/share/snowball/data/porter")

# Its words of one or two letters that have another stem there: it reads the paper without W-201.
READ_OTHERWISE = b"as ay es ey is ns os rs s ts us uy".split()


def sample_words(_batch):
    return [request for request, _ in samples.WORDS]


@lru_cache(maxsize=1)
def published():
    """The published stem of each word."""
    words = (PUBLISHED / "voc.txt").read_bytes().splitlines()
    stems = (PUBLISHED / "output.txt").read_bytes().splitlines()
    assert len(words) == len(stems) == 30428
    pairs = dict(zip(words, stems))
    short = sorted(word for word, stem in pairs.items() if len(word) <= 2 and stem != word)
    assert short == READ_OTHERWISE and len(short) == 12
    return pairs


def vocabulary(_batch):
    return [(WORD, word) for word in published()]


def published_answer(request):
    word = request[1]
    stem = published()[word]
    return 0, len(stem), stem.ljust(len(word))


SMALL = b"abcdefghijklmnopqrstuvwxyz"


def all_words(alphabet, *lengths):
    """Every word of these lengths over these bytes."""
    return [bytes(word) for length in lengths for word in itertools.product(alphabet, repeat=length)]


def short_words(_batch):
    """Every word of no, one or two bytes, and every one of three small letters."""
    return [(WORD, word) for word in all_words(range(256), 0, 1, 2) + all_words(SMALL, 3)]


# W-204: other bytes among letters that rules change.

OTHERS = bytes(byte for byte in range(256) if byte not in SMALL)


def letters_of(length):
    return bytearray((b"relational" * 7)[:length])


def one_other(length):
    """Every byte that is no small letter, in every place of a word."""
    for place, byte in itertools.product(range(length), OTHERS):
        word = letters_of(length)
        word[place] = byte
        yield bytes(word)


def two_others(length, rng):
    """Such bytes in every two places of a word."""
    for first, last in itertools.combinations(range(length), 2):
        word = letters_of(length)
        word[first], word[last] = rng.choices(OTHERS, k=2)
        yield bytes(word)


OTHER_LENGTHS = (3, 4, 10, 63, 64, 65)


def other_bytes(batch):
    length, rng = OTHER_LENGTHS[batch], random.Random(f"other bytes {batch}")
    return [(WORD, word) for word in itertools.chain(one_other(length), two_others(length, rng))]


def found_by_search(request):
    """The third way, where the word is not refused for its length."""
    word = request[-1]
    found = re.search(rb"[^a-z]", word)
    return (2, found.start(), word) if len(word) <= 64 else None


# Made words: the letters on which rules turn are common, and endings are stacked.

ENDINGS = sorted({end for group in SHIPPED for rule in group.rules for end in rule[3:] if end})
LETTERS = b"aeiouyy" + b"bcdfghjklmnpqrstvwxz" + b"lstzwxy"


def made_part(rng, length):
    """Letters, now and then one that stands double."""
    part = bytearray()
    while len(part) < length:
        part += bytes([rng.choice(LETTERS)]) * rng.choice((1, 1, 1, 1, 2))
    return bytes(part[:length])


def made_length(rng):
    """Mostly short, and often around 01's bounds of 1 and 64 letters."""
    return rng.choice((rng.randint(0, 3), rng.randint(1, 8), rng.randint(1, 8), rng.randint(3, 70)))


def made_word(rng):
    """Small letters only, of any length."""
    word = made_part(rng, made_length(rng))
    for _ in range(rng.choice((0, 1, 1, 1, 2, 2, 3, 4))):
        word += rng.choice(ENDINGS)
    if rng.random() < 0.06:  # near the longest word, with its endings kept
        length = rng.randint(61, 67)
        word = made_part(rng, max(0, length - len(word))) + word[-length:]
    return word


def damaged(rng, word):
    """One to three bytes are put in, or for others: any, often a neighbour of the letters."""
    word = bytearray(word)
    for _ in range(rng.randint(1, 3)):
        byte = rng.choice((rng.randrange(256), rng.choice(b"`{@[AZ09 '\0\x7f\xff")))
        place = rng.randint(0, len(word))
        word[place : place + rng.randint(0, 1)] = bytes([byte])
    return bytes(word)


def made_words(batch):
    rng = random.Random(f"made words {batch}")
    words = [made_word(rng) for _ in range(12500)]
    return [(WORD, damaged(rng, word) if rng.random() < 0.1 else word) for word in words]


def long_words(batch):
    """Up to the longest that probe takes."""
    rng = random.Random(f"long words {batch}")
    return [(WORD, made_part(rng, rng.choice((65, 100, 255, 256, 4095, 4096)))) for _ in range(500)]


def one_run(_batch):
    """As many requests as probe has to take in one run."""
    return [(WORD, b"cats" if index % 2 else b"s") for index in range(100000)]


SETS = [
    Set("samples", 1, sample_words),
    Set("vocabulary", 1, vocabulary, published_answer, [(WORD, word) for word in READ_OTHERWISE]),
    Set("short", 1, short_words),
    Set("other bytes", len(OTHER_LENGTHS), other_bytes, found_by_search),
    Set("made", 20, made_words),
    Set("long", 1, long_words),
    Set("one run", 1, one_run),
]
