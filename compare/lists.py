"""Sets of lists for requests 8, 9 and 10: samples, every length of a word and its stem, well-formed
and damaged lists, records at 02's bounds, every byte in every place, lists and texts around the
longest."""

import itertools
import random
import struct

import list_samples
import samples
from lines import with_each_byte
from list_samples import listed
from patterns import by_pattern
from probing import LOOKUP, TEXT_WITH_LIST, WORD_WITH_LIST
from samples import CLOSE, told
from second.lists import LISTED
from second.sheets import END, record
from sets import Set
from sheets import damaged, made_letters
from texts import SEPARATORS, in_capitals, made_text
from words import SMALL, made_part, made_word


def sample_lists(_batch):
    return [request for request, _ in list_samples.LISTS]


def every_length(_batch):
    """Words and stems of up to 66 letters, each length of one with each of the other, behind a good
    record. Each has a letter of its own, so that the stem shows where the word ends."""
    return [
        (WORD_WITH_LIST, list_samples.WOLVES + listed(b"b" * n, b"c" * length) + CLOSE, b"b" * n)
        for n, length in itertools.product(range(67), repeat=2)
    ]


# Words with their stems

IRREGULAR = told("wolves→wolf indices→index feet→foot children→child best→good is→be us→we s→x")
LENGTHS = (1, 1, 2, 2, 3, 5, 8, 63, 64)
FOR_RULES = b"hopings" * 10  # rules change most words that it begins with


def near(rng, word, alphabet):
    """The word with one byte, of these, put in or for another, or with one taken out."""
    place, byte = rng.randint(0, len(word)), bytes([rng.choice(alphabet)])
    return word[:place] + rng.choice((b"", byte, byte)) + word[place + rng.randint(0, 1) :]


def made_stem(rng, word):
    """Of any length that is allowed: the word's beginning, other letters, or some for the rules."""
    length = rng.choice((1, len(word), rng.randint(1, len(word)), rng.randint(1, len(word))))
    return rng.choice((word, made_part(rng, length), FOR_RULES))[:length]


def made_pair(rng, earlier):
    """A word and its stem; the word may stand earlier, or be near one that does, so that words meet
    and are listed twice."""
    shape = rng.random()
    if shape < 0.2:
        return rng.choice(IRREGULAR)
    if shape < 0.5 and earlier:
        word = rng.choice(earlier)[0]
        word = word if shape < 0.35 else near(rng, word, SMALL)
    elif shape < 0.7:
        word = made_letters(rng, 3)
    else:
        word = rng.choice((made_part(rng, rng.choice(LENGTHS)), made_word(rng)))
    word = word[:64] or b"s"
    return word, made_stem(rng, word)


def made_pairs(rng):
    pairs = []
    for _ in range(rng.choice((0, 1, 1, 2, 2, 3, 3, 4, 6, 6 if rng.random() < 0.9 else 60))):
        pairs.append(made_pair(rng, pairs))
    return pairs


def list_of(pairs):
    """The list of these words with their stems."""
    return b"".join(listed(word, stem) for word, stem in pairs) + CLOSE


# What is asked: words and texts for a list of such pairs

OTHER_WORDS = [*samples.WRONG_LENGTH, b"a" * 255, b"a" * 256, b"a" * 4095]


def asked_word(rng, pairs):
    """Listed, a stem, near one of both, or another."""
    shape = rng.random()
    if shape < 0.005:
        return rng.choice(OTHER_WORDS)
    if shape < 0.15 or not pairs:
        return made_word(rng)
    word = rng.choice(rng.choice(pairs)[: rng.choice((1, 1, 2))])
    if shape < 0.6:
        return word
    return near(rng, word, rng.choice((SMALL, SMALL, range(256))))


def asked_text(rng, pairs):
    """Such words, small and large, now and then with nothing between."""
    words = [in_capitals(rng, asked_word(rng, pairs)) for _ in range(rng.randint(0, 4))]
    return b"".join(word + rng.choice((b"", *SEPARATORS)) for word in words)


def asked(rng, exceptions, pairs):
    """The list with a word, looked up or stemmed, and with a text."""
    return [
        (rng.choice((LOOKUP, WORD_WITH_LIST)), exceptions, asked_word(rng, pairs)),
        (TEXT_WITH_LIST, exceptions, asked_text(rng, pairs)),
    ]


def requests_of(name, made, count=2000):
    """Batches of requests for the lists that `made(rng)` gives with their pairs."""

    def requests(batch):
        rng = random.Random(f"{name} {batch}")
        return [request for _ in range(count) for request in asked(rng, *made(rng))]

    return requests


def well_formed(rng):
    pairs = made_pairs(rng)
    return list_of(pairs), pairs


def damaged_list(rng):
    exceptions, pairs = well_formed(rng)
    return damaged(rng, exceptions), pairs


# At the bounds


def bounded_pair(rng):
    """A word and a stem whose lengths lie at 02's bounds, on either side."""
    n = rng.choice((0, 1, 1, 2, 2, 3, 63, 64, 64, 65, 255))
    length = max(0, rng.choice((0, 1, 1, 2, n - 1, n, n, n + 1)))
    return rng.choice((b"a", b"z")) * n, rng.choice((b"a", b"z")) * length


KINDS = (0, 1, 2, END, 5, 260, 0x0304, 0x0400)
NEIGHBOURS = b"`{@[AZ0 \0\xff"


def flawed(rng, body):
    """A record of this body, which may have another n, another letter, another kind, another length
    in its head, or be cut."""
    kind, size, shape = LISTED, len(body), rng.randrange(12)
    if shape == 0:
        body = bytes([(body[0] + rng.choice((-1, 1, 64))) % 256]) + body[1:]
    elif shape == 1 and size > 1:
        place = rng.randrange(1, size)
        body = body[:place] + bytes([rng.choice(NEIGHBOURS)]) + body[place + 1 :]
    elif shape == 2:
        kind = rng.choice(KINDS)
    elif shape == 3:
        size = (size + rng.choice((-1, 1, -4, 4, 256, -256))) % 65536
    elif shape == 4:
        body = body[: rng.choice((0, 1, size - 1))]
        size = len(body)
    return struct.pack("<HH", size, kind) + body


CLOSES = [CLOSE] * 20 + [b"", CLOSE[:1], CLOSE[:-1], CLOSE + b"\0", CLOSE * 2, record(END, b"\0")]


def at_bounds(rng):
    """A record at the bounds, somewhere among others, and a close that may be faulty."""
    pairs = made_pairs(rng)
    records = [listed(word, stem) for word, stem in pairs]
    place = rng.randint(0, len(pairs))
    pairs.insert(place, bounded_pair(rng))
    records.insert(place, flawed(rng, listed(*pairs[place])[4:]))
    return b"".join(records) + rng.choice(CLOSES), pairs


# Every byte, in a list that holds no word, in one that holds one, and in one that holds two

TRIED = [CLOSE, listed(b"us", b"u") + CLOSE, listed(b"s", b"x") + listed(b"is", b"be") + CLOSE]


def every_byte(batch):
    """Every byte in every place of a list, with a word, and with a text, in turn."""
    word = (b"s", b"us", b"is")[batch]
    kinds = itertools.cycle((WORD_WITH_LIST, TEXT_WITH_LIST))
    lists = with_each_byte(TRIED[batch])
    return [(kind, exceptions, word) for kind, exceptions in zip(kinds, lists)]


# The longest: lists around 65,536 bytes and of 70,000, which is all that probe takes, and texts


def long_list(rng, length, largest):
    """A list of exactly this length, whose records have 7 to about `largest` bytes, and its pairs.
    The first two have the longest word."""
    pairs = [(made_part(rng, 64), made_part(rng, 64)), (made_part(rng, 64), b"s")]
    left = length - len(list_of(pairs))
    while left > 0:
        size = rng.randint(7, largest) if left >= largest + 7 else left
        pairs.append((made_part(rng, (size - 4) // 2), made_part(rng, (size - 5) // 2)))
        left -= size
    return list_of(pairs), pairs


def each_kind(exceptions, word):
    """The word looked up, stemmed, and as a text."""
    return [(kind, exceptions, word) for kind in (LOOKUP, WORD_WITH_LIST, TEXT_WITH_LIST)]


LONG_LISTS = [(length, largest) for length in (70000, 65537, 65536, 65535) for largest in (7, 66)]


def longest_lists(batch):
    """In order, and refused at the last record, at the close, and for want of a close."""
    rng = random.Random(f"longest lists {batch}")
    exceptions, pairs = long_list(rng, *LONG_LISTS[batch])
    requests = []
    for one in (exceptions, exceptions[:-5] + b"{" + CLOSE, exceptions[:-1], exceptions[:-4]):
        requests += asked(rng, one, pairs) + each_kind(one, pairs[-1][0])
    return requests


TEXT_LENGTHS = (65535, 65536, 65537, 70000)


def longest_texts(batch):
    """A text with listed words and one of nothing else; a list in order, and without its close."""
    rng = random.Random(f"longest texts {batch}")
    exceptions, mixed = list_of([*IRREGULAR, (b"a", b"b")]), b""
    while len(mixed) < 4000:
        mixed += asked_text(rng, IRREGULAR) + b" " + made_text(rng, 40)
    texts = [(shape * 18)[: TEXT_LENGTHS[batch]] for shape in (mixed, b"A " * 2000)]
    return [(TEXT_WITH_LIST, one, text) for text in texts for one in (exceptions, exceptions[:-4])]


well_formed_lists = requests_of("well-formed lists", well_formed)
damaged_lists = requests_of("damaged lists", damaged_list)
bounded_lists = requests_of("lists at bounds", at_bounds)

SETS = [
    Set("samples", 1, sample_lists, by_pattern),
    Set("every length", 1, every_length, by_pattern),
    Set("well-formed", 6, well_formed_lists, by_pattern),
    Set("damaged", 6, damaged_lists, by_pattern),
    Set("at the bounds", 8, bounded_lists, by_pattern),
    Set("every byte", len(TRIED), every_byte, by_pattern),
    Set("longest lists", len(LONG_LISTS), longest_lists, by_pattern),
    Set("longest texts", len(TEXT_LENGTHS), longest_texts, by_pattern),
]
