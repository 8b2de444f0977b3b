"""Sets of texts for requests 2 and 3: samples, short words, made texts, texts around the longest, next
words."""

import random

import samples
from probing import NEXT, TEXT
from sets import Set
from words import SMALL, all_words, made_part, made_word

CAPITALS = b"ABCDEFGHIJKLMNOPQRSTUVWXYZ"


def sample_texts(_batch):
    return [request for request, _ in samples.TEXTS]


def short_words(_batch):
    """Every word of one or two letters, small and large ones, between words that lose a letter."""
    return [(TEXT, b"cats %b-gas" % word) for word in all_words(SMALL + CAPITALS, 1, 2)]


# The neighbours of the letters are among them, and characters of two and three bytes.
SEPARATORS = [b" ", b" ", b" ", b"\n", b", ", b". ", b"'", b"-", b"\0", b"1", b"42", b"\xff"]
SEPARATORS += [b"\x7f", b"@", b"[", b"`", b"{"] + [character.encode() for character in "éß—鋼"]


def in_capitals(rng, word):
    """The word as it is, with a capital, all in capitals, or mixed."""
    mixed = bytes(letter ^ 32 if rng.random() < 0.5 else letter for letter in word)
    return rng.choice((word, word, word.title(), word.upper(), mixed))


def piece(rng):
    """A word with what follows it: often nothing, so that words of over 64 letters come too."""
    if rng.random() < 0.02:
        return in_capitals(rng, made_part(rng, rng.choice((63, 64, 65, 66, 200))))
    return in_capitals(rng, made_word(rng)) + rng.choice(SEPARATORS)


def made_text(rng, length):
    text = b""
    while len(text) < length:
        text += piece(rng)
    return text[:length]


def only(rng, alphabet, length):
    return bytes(rng.choice(alphabet) for _ in range(length))


OTHER_BYTES = bytes(byte for byte in range(256) if not bytes([byte]).isalpha())
# Characters of one to four bytes in UTF-8, letters of other alphabets among them.
CHARACTERS = "aegnst ESY'" + "éßñøÅÉ" + "αβγжΩ" + "—’鋼語" + "𝔞🚀"


def in_characters(rng, length):
    """Whole characters, and at the end perhaps a cut one."""
    return "".join(rng.choice(CHARACTERS) for _ in range(length)).encode()[:length]


def any_text(rng):
    length = rng.choice((0, 1, 2, 20, 64, 65, 66, rng.randint(0, 300), rng.randint(0, 300)))
    shape = rng.random()
    if shape < 0.6:
        return made_text(rng, length)
    if shape < 0.7:
        return in_characters(rng, length)
    if shape < 0.8:
        return only(rng, CAPITALS, length)
    if shape < 0.9:
        return only(rng, OTHER_BYTES, length)
    return only(rng, range(256), length)


def made_texts(batch):
    rng = random.Random(f"made texts {batch}")
    return [(TEXT, any_text(rng)) for _ in range(3000)]


LONGEST_BATCHES = 8
LENGTHS = (*range(65516, 65557), 69999, 70000)


def longest_texts(batch):
    """All lengths around 65,536, and the longest that probe takes; each in several shapes."""
    rng = random.Random(f"longest texts {batch}")
    shapes = [made_text(rng, 4000), in_characters(rng, 4000), only(rng, range(256), 4000)]
    shapes += [only(rng, CAPITALS, 4000), only(rng, OTHER_BYTES, 4000), bytes(4000)]
    lengths = LENGTHS[batch::LONGEST_BATCHES]
    return [(TEXT, (shape * 18)[:length]) for length in lengths for shape in shapes]


def next_words(batch):
    rng = random.Random(f"next words {batch}")
    requests = []
    for _ in range(2000):
        text = any_text(rng)
        start = rng.choice((0, len(text), len(text) + 1, 2**32 - 1, rng.randint(0, len(text))))
        requests.append((NEXT, text, start))
    return requests


SETS = [
    Set("samples", 1, sample_texts),
    Set("short words", 1, short_words),
    Set("made", 8, made_texts),
    Set("longest", LONGEST_BATCHES, longest_texts),
    Set("next word", 10, next_words),
]
