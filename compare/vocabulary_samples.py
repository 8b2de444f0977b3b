"""The samples of W-207, and the edges that its sentences name, as those of samples.py."""

from probing import VOCABULARY
from samples import SHORT, STEMS, rows, told


def vocabulary_of(pairs):
    """The list of these words with their stems."""
    return b"".join(b"%b %b\n" % (word, stem) for word, stem in pairs)


def right(vocabulary):
    return (VOCABULARY, vocabulary), (0, 0)


def wrong(number, vocabulary):
    """A list that is of the form, and whose first wrong stem stands in the line of this number."""
    return (VOCABULARY, vocabulary), (0, number)


def refused(number, vocabulary):
    """A list whose line of this number is the first that is not of the form."""
    return (VOCABULARY, vocabulary), (11, number)


FEED_FE = b"feed fe\n"  # a supplier's line
SUPPLIED = b"feeds feed\nhopping hop\nus us\n"
A = {length: b"a" * length for length in (63, 64, 65)}  # the first two are their own stems

WRONG_LINES = rows(  # of the form, but with another stem
    # beginnings of the right one, none of it among them
    b"feed fe|feed f|feed |feeds |hopping ho|hopping |generalizations gen|s |us |us u|y ",
    # longer than the right one, and than the word
    b"feed feeds|feed feede|feeds feeds|hopping hopp|hopping hopping|s ss|us uss|us use|a aa|y yi",
    # its first letters, and others behind them; its letters in another order; other letters
    b"feed feet|feed fead|hopping hot|relational relate|s x|us we|us su|feed eefd|feed aeed",
    # 01's readings that look right, and the stem of a stem
    b"element elem|xyying xy|sing s|feed fee|agre agre|agreed agree|agreed agr|toy toy|hoping hop",
    # the rules without W-201, irregular plurals without a list, and the stems of Porter's program
    b"as a|is i|ay ai|es e|wolves wolf|indices index|possibly possibl|geology geolog",
    b"%b a" % A[64],
    b"%b %b" % (A[64], A[63]),
    b"%b %b" % (A[63], A[64]),
    b"a %b" % A[64],
)

OTHER_LINES = rows(  # not of the form
    # spaces: two, none, one at the start, one at the end; and no word
    b"feeds  feed|feedsfeed|feeds| feeds feed|feeds feed | feed|  feed|| |  |us us us|feeds  ",
    # bytes that look like them
    b"feeds\tfeed|feeds feed\t|\tfeeds feed|feeds\0feed|feeds\xa0feed|feeds\x0bfeed|feeds_feed",
    b"feeds feed\r|\r|feeds\rfeed|feeds feed\rus us|feeds feed\x0c|feeds feed\x85us us",
    # letters
    b"Feeds feed|feeds Feed|FEEDS FEED|feeds feeD|feed5 feed|feeds fe3d|5 five|type4 type4",
    b"it's it|cats cat'|feeds-feed|feeds fe-ed|feeds feed,|feeds -|caf\xc3\xa9s caf\xc3\xa9",
    b"`s s|{s s|s` s|s{ s|s `|s {|s @|s [|feeds feed\0|\0 s|\xff s|s \xff|\xef\xbb\xbffeeds feed",
    # lengths
    b"%b a" % A[65],
    b"%b " % A[65],
    b"a %b" % A[65],
    b"%b %b" % (A[64], A[65]),
    b"%b %b" % (A[65], A[64]),
    b"%b %b" % (A[65], A[65]),
    b"%b a" % (b"a" * 257),
    b"a %b" % (b"a" * 257),
)

VOCABULARIES = [
    right(b""),
    right(b"feeds feed\n"),
    right(SUPPLIED),
    right(vocabulary_of(told(STEMS))),
    right(vocabulary_of((word, stem) for word, stem, _ in told(SHORT))),
    right(b"a a\nz z\nas as\nzz zz\nwolves wolv\npossibly possibli\ngeology geologi\n"),
    *(right(b"%b %b\n" % (A[length], A[length])) for length in (63, 64)),
    right(b"%bs %b\n" % (A[63], A[63])),
    # a word may stand in any line, and in several
    right(b"us us\nfeeds feed\nus us\n"),
    wrong(3, b"us us\nfeeds feed\nus u\nus us\n"),
    # feed fe among right lines: first, in the midst, last; and twice
    wrong(1, FEED_FE),
    wrong(1, FEED_FE + SUPPLIED),
    wrong(4, SUPPLIED + FEED_FE + SUPPLIED),
    wrong(4, SUPPLIED + FEED_FE),
    wrong(2, b"feeds feed\n" + FEED_FE + SUPPLIED + FEED_FE),
    # the stem of the line before or behind
    wrong(2, b"hopping hop\nfeeds hop\nus us\n"),
    wrong(1, b"hopping feed\nfeeds feed\nus us\n"),
    # a wrong line by itself, and behind right ones
    *(wrong(1, line + b"\n") for line in WRONG_LINES),
    *(wrong(4, SUPPLIED + line + b"\nus us\n") for line in WRONG_LINES),
    # a line that is not of the form by itself, and among right ones
    *(refused(1, line + b"\n") for line in OTHER_LINES),
    *(refused(4, SUPPLIED + line + b"\nus us\n") for line in OTHER_LINES),
    # 11 before any stem: behind a wrong line, and before one; the first such line is named
    *(refused(3, FEED_FE + b"us us\n" + line + b"\nus us\n") for line in OTHER_LINES),
    refused(1, b"feeds  feed\n" + FEED_FE),
    refused(2, FEED_FE + b"feeds  feed\nfeedsfeed\n"),
    refused(5, FEED_FE + SUPPLIED + b"Feeds feed\n" + FEED_FE),
    refused(1, SUPPLIED.replace(b"\n", b"\r\n")),
    refused(1, SUPPLIED.replace(b" ", b"\t")),
    # a last line without its line feed, whatever it has, alone and behind a right and a wrong line
    *(refused(1, b"feeds feed"[:length]) for length in range(1, 11)),
    *(refused(2, b"us us\n" + b"feeds feed"[:length]) for length in range(1, 11)),
    *(refused(2, FEED_FE + b"feeds feed"[:length]) for length in range(1, 11)),
    refused(1, FEED_FE[:-1]),
    refused(4, SUPPLIED + FEED_FE[:-1]),
    refused(3, SUPPLIED[:-1]),
    # empty lines: alone, two, first, in the midst, last
    refused(1, b"\n"),
    refused(1, b"\n\n"),
    refused(1, b"\n" + SUPPLIED),
    refused(2, b"us us\n\nfeeds feed\n"),
    refused(4, SUPPLIED + b"\n"),
    refused(2, FEED_FE + b"\n"),
]
