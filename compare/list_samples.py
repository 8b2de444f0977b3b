"""The samples of W-205, and the edges that its sentences name, as those of samples.py."""

from probing import LOOKUP, TEXT_WITH_LIST, WORD_WITH_LIST
from samples import ALWAYS, CLOSE, FEEDS, LONG, OTHER_BYTES, WRONG_LENGTH, done, rule, told
from second.lists import LISTED
from second.sheets import END, record


def listed(word, stem):
    """The record of a word and its stem."""
    return record(LISTED, bytes([len(word)]) + word + stem)


WOLVES, INDICES = listed(b"wolves", b"wolf"), listed(b"indices", b"index")
PLURALS = WOLVES + INDICES + CLOSE
assert WOLVES + CLOSE == bytes.fromhex("0b000400 06 776f6c766573 776f6c66 00000300")


def with_list(exceptions, samples):
    """The words of these samples with their stems in a run with this list."""
    for word, stem in told(samples):
        yield (WORD_WITH_LIST, exceptions, word), done(word, stem)[1]


def refused_list(place, exceptions):
    """A list that is refused at this place, and holds no word."""
    text = b"Wolves, us"
    return [
        ((WORD_WITH_LIST, exceptions, b"wolves"), (10, place, b"wolves")),
        ((TEXT_WITH_LIST, exceptions, text), (10, place, 0, text)),
        ((LOOKUP, exceptions, b"wolves"), (0, b"wolves")),
        ((LOOKUP, exceptions, b"us"), (0, b"us")),
    ]


FAULTY_RECORDS = [
    # kinds, those of a sheet among them
    ALWAYS,
    rule(b"s"),
    *(record(kind, WOLVES[4:]) for kind in (0, 1, 2, 5, 260, 1024, 65535)),
    record(0x0304, b""),
    # no length n, or one that is not allowed, or more letters than there are
    record(LISTED, b""),
    record(LISTED, b"\0"),
    listed(b"", b"s"),
    listed(b"a" * 65, b"a"),
    listed(b"a" * 255, b"a" * 255),
    record(LISTED, b"\1"),
    record(LISTED, b"\3us"),
    record(LISTED, b"\xffus"),
    # stems: none, one letter longer than the word
    listed(b"us", b""),
    listed(b"s", b"us"),
    listed(b"us", b"use"),
    listed(b"a" * 64, b"a" * 65),
    # letters
    *(listed(word, b"u") for word in (b"Us", b"uS", b"u`", b"{s", b"u1", b"u ", b"\0s", b"\xe9s")),
    *(listed(b"us", stem) for stem in (b"U", b"uS", b"`", b"u{", b"1", b"u ", b"\0", b"\xe9")),
    # a close that another follows, with and without a body
    record(END, b"\0"),
    record(END, WOLVES[4:]),
    CLOSE,
]

SHORT_LIST = listed(b"s", b"x") + listed(b"us", b"u") + listed(b"is", b"be") + CLOSE
TWICE = listed(b"us", b"u") + WOLVES + listed(b"us", b"we") + listed(b"wolves", b"w") + CLOSE
CHAIN = listed(b"wolf", b"w") + WOLVES + listed(b"w", b"x") + CLOSE
FOR_RULES = listed(b"kitties", b"cats") + listed(b"hopping", b"hoping") + CLOSE
SIXTY_FOUR = listed(b"a" * 64, b"b" * 64) + listed(b"b" * 64, b"c") + CLOSE
NOT_LISTED = [b"w", b"wolve", b"wolvess", b"Wolves", b"wolves\0", b"\6wolves", b"wolveswolf"]

LISTS = [
    *with_list(PLURALS, "wolves→wolf indices→index cats→cat wolf→wolf"),
    *with_list(PLURALS, "wolve→wolv wolvess→wolvess xwolves→xwolv wolveses→wolves"),
    *with_list(CLOSE, "wolves→wolv s→s us→us"),
    *with_list(SHORT_LIST, "s→x us→u is→be as→as u→u uss→uss"),
    *with_list(TWICE, "us→u wolves→wolf"),
    # a listed stem is neither looked up nor stemmed
    *with_list(CHAIN, "wolves→wolf wolf→w w→x"),
    *with_list(FOR_RULES, "kitties→cats hopping→hoping hoping→hope"),
    ((WORD_WITH_LIST, SIXTY_FOUR, b"a" * 64), (0, 64, b"b" * 64)),
    ((WORD_WITH_LIST, SIXTY_FOUR, b"b" * 64), (0, 1, b"c".ljust(64))),
    ((WORD_WITH_LIST, SIXTY_FOUR, b"a" * 63), (0, 63, b"a" * 63)),
    # the lookup, which takes any bytes
    ((LOOKUP, PLURALS, b"wolves"), (1, b"wolf")),
    ((LOOKUP, PLURALS, b"indices"), (1, b"index")),
    ((LOOKUP, TWICE, b"us"), (1, b"u")),
    ((LOOKUP, SIXTY_FOUR, b"a" * 64), (1, b"b" * 64)),
    *(((LOOKUP, PLURALS, word), (0, word)) for word in NOT_LISTED + WRONG_LENGTH),
    ((LOOKUP, CLOSE, b""), (0, b"")),
    ((LOOKUP, b"", b""), (0, b"")),
    # 1 and 2 after 10
    *(((WORD_WITH_LIST, PLURALS, word), (1, 0, word)) for word in WRONG_LENGTH),
    *(((WORD_WITH_LIST, PLURALS[:-1], word), (10, 32, word)) for word in WRONG_LENGTH),
    *(((WORD_WITH_LIST, PLURALS, word), (2, place, word)) for word, place in OTHER_BYTES),
    ((WORD_WITH_LIST, PLURALS, b"Wolves"), (2, 0, b"Wolves")),
    ((WORD_WITH_LIST, PLURALS, b"wolves "), (2, 6, b"wolves ")),
    ((WORD_WITH_LIST, WOLVES + WOLVES, b"Wolves"), (10, 30, b"Wolves")),
    ((WORD_WITH_LIST, b"", b""), (10, 0, b"")),
    # texts; 5 after 10
    ((TEXT_WITH_LIST, PLURALS, b"WOLVES, Wolves'"), (0, 2, 0, b"wolf  , wolf  '")),
    ((TEXT_WITH_LIST, PLURALS, b"wOLVESs 2indices2cats"), (0, 3, 0, b"wolvess 2index  2cat ")),
    ((TEXT_WITH_LIST, SHORT_LIST, b"Type S, US IS us-as"), (0, 6, 0, b"type x, u  be u -as")),
    ((TEXT_WITH_LIST, FOR_RULES, b"Kitties hopping"), (0, 2, 0, b"cats    hoping ")),
    ((TEXT_WITH_LIST, SIXTY_FOUR, b"A" * 64), (0, 1, 0, b"b" * 64)),
    ((TEXT_WITH_LIST, SIXTY_FOUR, b"A" * 65), (0, 0, 1, b"A" * 65)),
    ((TEXT_WITH_LIST, PLURALS, b""), (0, 0, 0, b"")),
    ((TEXT_WITH_LIST, CLOSE, FEEDS), (0, 2, 0, b"feed , hop    \n")),
    ((TEXT_WITH_LIST, PLURALS, LONG + b"A"), (5, 0, 0, LONG + b"A")),
    ((TEXT_WITH_LIST, PLURALS + b"\0", LONG + b"A"), (10, 32, 0, LONG + b"A")),
    ((TEXT_WITH_LIST, b"", b""), (10, 0, 0, b"")),
]

REFUSED = [  # lists, with the place where each is refused
    # one that is cut: at the record that is cut, or at its end
    *((max(at for at in (0, 15, 32) if at <= length), PLURALS[:length]) for length in range(36)),
    # a record that is faulty by itself: first, behind one and behind two
    *((0, faulty + CLOSE) for faulty in FAULTY_RECORDS),
    *((15, WOLVES + faulty + CLOSE) for faulty in FAULTY_RECORDS),
    *((23, WOLVES + listed(b"us", b"u") + faulty + PLURALS) for faulty in FAULTY_RECORDS),
    # a body length one too large, far too large, and one too small: then `f` begins the next head
    (0, b"\x0c" + PLURALS[1:]),
    (0, b"\x0b\1" + PLURALS[2:]),
    (14, b"\x0a" + PLURALS[1:]),
    # a close with bytes after it, and one with a body and nothing after it
    (32, PLURALS + b"\0"),
    (32, PLURALS + PLURALS),
    (32, WOLVES + INDICES + record(END, b"\0")),
    (0, record(END, WOLVES[4:])),
]
LISTS += [sample for place, exceptions in REFUSED for sample in refused_list(place, exceptions)]
