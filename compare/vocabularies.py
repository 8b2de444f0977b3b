"""Sets of vocabularies for request 11: samples, the published one, short lists, right lists, lists
with wrong stems, damaged lists, lines at 02's bounds, every byte in every place, cut lists, long
lines, large lists."""

import itertools
import random
import re
from functools import lru_cache
from os.path import commonprefix

import vocabulary_samples
from lines import damaged, with_each_byte
from lists import near
from probing import VOCABULARY
from second.vocabularies import stem_of
from sets import Set
from vocabulary_samples import FEED_FE, vocabulary_of
from words import ENDINGS, READ_OTHERWISE, SMALL, all_words, made_part, made_word, published

MOST = 1048576  # bytes of a vocabulary that probe takes


def sample_vocabularies(_batch):
    return [request for request, _ in vocabulary_samples.VOCABULARIES]


# The third way: one pattern for the whole list, which is then written anew by its words

FORM = re.compile(rb"(?:[a-z]{1,64} [a-z]{0,64}\n)*")
LINE = re.compile(rb"([a-z]+) [a-z]*")


def right_stem(word):
    """The published stem, where there is one and W-201 lets it stand."""
    return word if word in READ_OTHERWISE else published().get(word) or stem_of(word)


def anew(line):
    return b"%b %b" % (line[1], right_stem(line[1]))


def by_writing(request):
    """No line is judged by itself: the first that is not of the form stands behind all that the
    pattern takes, and the first wrong one where the list written anew begins to differ."""
    vocabulary = request[1]
    of_form = FORM.match(vocabulary).end()
    if of_form < len(vocabulary):
        return 11, vocabulary.count(b"\n", 0, of_form) + 1
    written = LINE.sub(anew, vocabulary)
    if written == vocabulary:
        return 0, 0
    return 0, commonprefix([written, vocabulary]).count(b"\n") + 1


# The published vocabulary. Its answers follow from where the 12 words of W-201 stand in it.


@lru_cache(maxsize=1)
def right_pairs():
    """Its words with their stems, the 12 set right."""
    return [(word, right_stem(word)) for word in published()]


@lru_cache(maxsize=1)
def published_answers():
    """As it is published; set right; with each of the 12 put back alone; and its tenths."""
    pairs, right = list(published().items()), right_pairs()
    otherwise = [at for at, (word, _) in enumerate(pairs) if word in READ_OTHERWISE]
    answers = {vocabulary_of(pairs): (0, otherwise[0] + 1), vocabulary_of(right): (0, 0)}
    for at in otherwise:
        put_back = right[:at] + [pairs[at]] + right[at + 1 :]
        answers[vocabulary_of(put_back)] = 0, at + 1
    tenth = -(-len(pairs) // 10)
    for start in range(0, len(pairs), tenth):
        inside = [at - start + 1 for at in otherwise if start <= at < start + tenth]
        answers[vocabulary_of(pairs[start : start + tenth])] = 0, inside[0] if inside else 0
    assert len(answers) == 1 + 1 + 12 + 10
    return answers


PUBLISHED_BATCHES = 6


def published_lists(batch):
    return [(VOCABULARY, one) for one in list(published_answers())[batch::PUBLISHED_BATCHES]]


def published_answer(request):
    return published_answers()[request[1]]


# Short lists


def short_lists(_batch):
    """Every list of up to eight bytes that are an s, a space or a line feed."""
    return [(VOCABULARY, one) for one in all_words(b"s \n", *range(9))]


# Made lists


def any_word(rng):
    """Of 1 to 64 letters: a published one, or a made one, now and then as long as is allowed."""
    if rng.random() < 0.7:
        return rng.choice(right_pairs())[0]
    return made_word(rng)[:64] or b"s"


def right_lines(rng):
    """Words with their stems: mostly a few, now and then many."""
    count = rng.choice((0, 1, 1, 2, 2, 3, 3, 4, 6, 6 if rng.random() < 0.9 else 60))
    return [(word, stem_of(word)) for word in (any_word(rng) for _ in range(count))]


def right_list(rng):
    return vocabulary_of(right_lines(rng))


def other_stem(rng, word, stem):
    """Its beginning, perhaps none of it; with more letters, or others behind some; that of another
    word, or of the stem; the word itself; or with a letter changed, put in or taken out."""
    shape, kept = rng.randrange(9), rng.randint(0, len(stem))
    if shape < 2:
        return stem[:kept]
    if shape == 2:
        return stem + rng.choice((rng.choice(ENDINGS), made_part(rng, rng.choice((1, 1, 2, 64)))))
    if shape == 3:
        return stem[:kept] + made_part(rng, len(stem) - kept)
    if shape == 4:
        return rng.choice(right_pairs())[1]
    if shape == 5:
        return stem_of(stem)
    if shape == 6:
        return word
    return near(rng, stem, SMALL)


def wrong_stem(rng, word, stem):
    """One that is not the word's, but often near it."""
    while (other := other_stem(rng, word, stem)[:64]) == stem:
        pass
    return other


def list_with_wrong(rng):
    """One wrong line, or several, anywhere among right ones."""
    pairs = right_lines(rng) or [(b"s", b"s")]
    for _ in range(rng.choice((1, 1, 1, 2, 3))):
        at = rng.randrange(len(pairs))
        word = pairs[at][0]
        pairs[at] = word, wrong_stem(rng, word, stem_of(word))
    return vocabulary_of(pairs)


def damaged_list(rng):
    """Once or twice; the list may have wrong lines besides."""
    vocabulary = rng.choice((right_list, right_list, list_with_wrong))(rng)
    for _ in range(rng.choice((1, 1, 1, 2))):
        vocabulary = damaged(rng, vocabulary)
    return vocabulary


def requests_of(name, made, count=2000):
    """Batches of the lists that `made(rng)` makes."""

    def requests(batch):
        rng = random.Random(f"{name} {batch}")
        return [(VOCABULARY, made(rng)) for _ in range(count)]

    return requests


# At the bounds


def every_length(_batch):
    """Words and stems of up to 66 letters, each length of one with each of the other: in the last
    line, behind a right one; and between a wrong one and a right one. Only where both have the same
    length is the stem right."""
    lines = [b"b" * n + b" " + b"b" * m + b"\n" for n, m in itertools.product(range(67), repeat=2)]
    lists = [b"cats cat\n" + line for line in lines]
    lists += [FEED_FE + line + b"cats cat\n" for line in lines]
    return [(VOCABULARY, one) for one in lists]


# Every byte, in two lines, in a right one, in one with an empty stem, and in none

TRIED = [b"cats cat\nfeed fe\n", b"us us\n", b"s \n", b""]


def every_byte(batch):
    return [(VOCABULARY, one) for one in with_each_byte(TRIED[batch])]


def cut_lists(batch):
    """The last line cut at each byte, behind right lines, and with wrong ones among them."""
    rng = random.Random(f"cut vocabularies {batch}")
    requests = []
    for _ in range(60):
        whole = rng.choice((right_list, list_with_wrong))(rng)
        last = whole.rfind(b"\n", 0, -1) + 1
        requests += [(VOCABULARY, whole[:at]) for at in range(last, len(whole) + 1)]
    return requests


# One line of very many letters: some lengths would be allowed by their lowest byte, or lowest two

LONG_LENGTHS = (67, 127, 128, 129, 255, 256, 257, 320, 65535, 65536, 65537, 65600, MOST - 3)


def long_lines(_batch):
    """In the word, in the stem, without a space."""
    requests = []
    for length in LONG_LENGTHS:
        letters = b"a" * length
        lines = (letters + b" a\n", b"a " + letters + b"\n", letters + b"\n")
        requests += [(VOCABULARY, line) for line in lines]
    return requests


# Large lists: one of published words, and some of the shortest lines, whose numbers pass a byte and
# two. The first two are as long as probe takes.


def filled(length):
    """A list of exactly this length, right throughout; a line at its end, or two, fill it."""
    once = vocabulary_of(right_pairs())
    vocabulary = once * (length // len(once) + 1)
    vocabulary = vocabulary[: vocabulary.rfind(b"\n", 0, length - 20) + 1]
    vocabulary += b"cats cat\n" * ((length - len(vocabulary)) % 2)
    letters = b"b" * ((length - len(vocabulary) - 2) // 2)
    vocabulary += b"%b %b\n" % (letters, letters)
    assert len(vocabulary) == length
    return vocabulary


LINE_COUNTS = (MOST // 4, 65537, 65536, 257, 256, 255)


def large_lists(batch):
    """Right; with a wrong stem in the last line; and with one in the first line, but no line feed
    behind the last."""
    right = b"a a\n" * LINE_COUNTS[batch - 1] if batch else filled(MOST)
    lists = right, right[:-2] + b"c\n", right.replace(b"a a\n", b"a b\n", 1)[:-1] + b"c"
    return [(VOCABULARY, one) for one in lists]


right_vocabularies = requests_of("right vocabularies", right_list)
wrong_vocabularies = requests_of("wrong vocabularies", list_with_wrong)
damaged_vocabularies = requests_of("damaged vocabularies", damaged_list)

SETS = [
    Set("samples", 1, sample_vocabularies, by_writing),
    Set("published", PUBLISHED_BATCHES, published_lists, published_answer),
    Set("short", 1, short_lists, by_writing),
    Set("right", 3, right_vocabularies, by_writing),
    Set("wrong stems", 6, wrong_vocabularies, by_writing),
    Set("damaged", 8, damaged_vocabularies, by_writing),
    Set("every length", 1, every_length, by_writing),
    Set("every byte", len(TRIED), every_byte, by_writing),
    Set("cut", 4, cut_lists, by_writing),
    Set("long lines", 1, long_lines, by_writing),
    Set("large", 1 + len(LINE_COUNTS), large_lists, by_writing),
]
