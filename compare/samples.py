"""The samples of document 01, and the edges that its sentences and those of 02 name, as requests
with the answers that 01 gives, as 02 amends it. The second program is held to them first; both
programs are compared on them, and the fixed input of `probe` is made of them."""

import struct

from probing import CHECK, HERE, MAKE, NEXT, RUN, TEXT, TRANSLATE, WORD
from second.sheets import END, GROUP, RULE, record, sheet_of
from second.tables import nodes_of
from second.words import SHIPPED

# Words

STEMS = """feed→feed agreed→agre element→element hopping→hop hoping→hope snowing→snow falling→fall
    controlling→control sky→sky toy→toi ies→i s→s ing→ing eed→eed relational→relat rational→ration
    generalizations→gener oscillators→oscil xyying→xyi vileli→vile cats→cat sing→sing agre→agr"""

# W-201: a word, its stem, and what reading the shipped rules, as a sheet or by its table, leaves of it.
SHORT = """s→s→ y→y→y us→us→u as→as→a is→is→i ay→ay→ai by→by→by ed→ed→ed ies→i→i gas→ga→ga bed→bed→bed"""

WRONG_LENGTH = [b"", b"a" * 65, b"1" * 65, b"a" * 64 + b"1", b"1" + b"a" * 64]
WRONG_LENGTH += [b"a" * 4096, b"A" * 4096]

# W-204: words by the place of their first byte outside a to z.
PLACES = {
    0: [b"1", b"1st", b"1s2s", b"1" + b"a" * 63, b"9" * 64, b"Feed", b"FEED", b" cats", b"\xff"],
    1: [b"a`", b"a{", b"a1", b"a\0", b"a\0s", b"a1b2", b"q345t", b"q3" + b"a" * 62],
    3: [b"feeD", b"cat's", b"caf\xc3\xa9s"],
    4: [b"type4", b"cats ", b"cats{`", b"cats`{"],
    62: [b"a" * 62 + b"1a", b"a" * 62 + b"12"],
    63: [b"a" * 63 + b"1", b"a" * 63 + b"Z"],
}
OTHER_BYTES = [(word, place) for place, words in PLACES.items() for word in words]


def done(word, stem):
    return (WORD, word), (0, len(stem), stem.ljust(len(word)))


def told(samples):
    """The words of each sample."""
    return [sample.encode().split("→".encode()) for sample in samples.split()]


WORDS = [done(word, stem) for word, stem in told(STEMS)]
WORDS += [done(word, stem) for word, stem, _ in told(SHORT)]
WORDS += [done(b"a" * 64, b"a" * 64)]
WORDS += [((WORD, word), (1, 0, word)) for word in WRONG_LENGTH]
WORDS += [((WORD, word), (2, place, word)) for word, place in OTHER_BYTES]

# Texts

FEEDS = b"Feeds, hopping\n"
LONG = (b"a " * 32768)[:65536]

TEXTS = [
    ((TEXT, FEEDS), (0, 2, 0, b"feed , hop    \n")),
    ((TEXT, b"S-type"), (0, 2, 0, b"s-type")),
    ((TEXT, b"Type S, US gallons"), (0, 4, 0, b"type s, us gallon ")),
    ((TEXT, b""), (0, 0, 0, b"")),
    ((TEXT, b"A" * 64), (0, 1, 0, b"a" * 64)),
    ((TEXT, b"A" * 65), (0, 0, 1, b"A" * 65)),
    ((TEXT, b"it's caf\xc3\xa9s\0"), (0, 4, 0, b"it's caf\xc3\xa9s\0")),
    ((TEXT, b"1sts 2cats{ type4"), (0, 3, 0, b"1st  2cat { type4")),
    ((TEXT, LONG), (0, 32768, 0, LONG)),
    ((TEXT, LONG + b"A"), (5, 0, 0, LONG + b"A")),
    ((NEXT, FEEDS, 0), (0, 5)),
    ((NEXT, FEEDS, 2), (2, 3)),
    ((NEXT, FEEDS, 5), (7, 7)),
    ((NEXT, FEEDS, 14), (15, 0)),
    ((NEXT, FEEDS, 16), (15, 0)),
    ((NEXT, b"", 0), (0, 0)),
]

# Sheets


def rule(ending, replacement=b"", condition=0, action=0, opens=0):
    head = bytes([condition, action, opens, len(ending)])
    return record(RULE, head + ending + replacement)


ALWAYS, IF_OPENED = (record(GROUP, struct.pack("<H", gate)) for gate in (0, 1))
CLOSE = record(END, b"")
SHEET_19 = ALWAYS + rule(b"s") + CLOSE
assert SHEET_19 == bytes.fromhex("02000100 0000 05000200 000000 01 73 00000300")
SHEET_EED = ALWAYS + rule(b"eed", b"ee", 1) + rule(b"ed", b"", 3, opens=1) + CLOSE
TABLE_19 = [0, 1, 1, 0, 115, 0, 0, 1]
TABLE_EED = [0, 1, 1, 0, 100, 2, 1, 0, 101, 3, 1, 2, 101, 0, 0, 1]

# W-206: two groups, whose rules ask for their nodes in another order than the table has them in
IN_TURN = ALWAYS + rule(b"t") + rule(b"at") + rule(b"s")
IN_TURN += ALWAYS + rule(b"es", b"e") + rule(b"") + rule(b"is") + rule(b"es") + CLOSE
TABLE_IN_TURN = [
    *(0, 2, 2, 0, 0, 4, 1, 5),  # the roots
    *(115, 0, 0, 3, 116, 5, 1, 1, 115, 6, 2, 0),  # s and t, s
    *(97, 0, 0, 2, 101, 0, 0, 4, 105, 0, 0, 6),  # at; es and is
]

# 01's tables before W-206: the third number is the next sibling
LINKED_19 = [0, 1, 0, 0, 115, 0, 0, 1]
LINKED_EED = [0, 1, 0, 0, 100, 2, 0, 0, 101, 3, 0, 2, 101, 0, 0, 1]
LINKED_IN_TURN = [
    *(0, 2, 0, 0, 0, 5, 0, 5, 116, 3, 4, 1, 97, 0, 0, 2),  # the roots; t, at
    *(115, 0, 0, 3, 115, 6, 0, 0, 101, 0, 7, 4, 105, 0, 0, 6),  # s; s, es, is
]


def at_fault(before, faulty):
    """A sheet that is refused at the record after `before`."""
    return (CHECK, before + faulty + CLOSE), (3, len(before))


SHEETS = [
    ((CHECK, b""), (3, 0)),
    ((CHECK, CLOSE), (0, 0)),
    ((CHECK, SHEET_19), (0, 2)),
    ((CHECK, SHEET_EED), (0, 4)),
    ((CHECK, SHEET_19 + b"\0"), (3, 15)),
    ((CHECK, SHEET_19[:-1]), (3, 15)),
    ((CHECK, SHEET_19[:-4]), (3, 15)),
    ((CHECK, ALWAYS + rule(b"abcdefghijkl") + CLOSE), (0, 13)),
    at_fault(ALWAYS, rule(b"abcdefghijklm")),
    ((CHECK, ALWAYS + rule(b"", b"abcdefghijkl") + CLOSE), (0, 1)),
    at_fault(ALWAYS, rule(b"", b"abcdefghijklm")),
    ((CHECK, ALWAYS * 16 + CLOSE), (0, 16)),
    at_fault(ALWAYS * 16, ALWAYS),
    ((CHECK, ALWAYS + rule(b"s") * 128 + CLOSE), (0, 2)),
    at_fault(ALWAYS + rule(b"s") * 128, rule(b"s")),
    at_fault(b"", IF_OPENED),
    at_fault(ALWAYS, record(GROUP, b"\2\0")),
    at_fault(ALWAYS, record(GROUP, b"\0")),
    at_fault(ALWAYS, record(4, b"")),
    at_fault(b"", rule(b"s")),
    at_fault(ALWAYS, record(RULE, b"\0\0\0")),
    at_fault(ALWAYS, record(RULE, b"\0\0\0\2s")),
    at_fault(ALWAYS, rule(b"s", condition=9)),
    at_fault(ALWAYS, rule(b"", condition=5, action=2)),
    at_fault(ALWAYS, rule(b"s", opens=2)),
    at_fault(ALWAYS, rule(b"S")),
    at_fault(ALWAYS, rule(b"s", b"{")),
    at_fault(ALWAYS, rule(b"", condition=6, action=1)),
    at_fault(ALWAYS, rule(b"s", condition=5, action=1)),
    at_fault(ALWAYS, rule(b"", b"s", condition=8, action=1)),
    at_fault(ALWAYS, record(END, b"\0")),
    ((TRANSLATE, SHEET_19, [7] * 8), (0, 2, TABLE_19)),
    ((TRANSLATE, SHEET_19, [7] * 7), (6, 0, [7] * 7)),
    ((TRANSLATE, SHEET_EED, [7] * 17), (0, 4, TABLE_EED + [7])),
    ((TRANSLATE, IN_TURN, LINKED_IN_TURN), (0, 8, TABLE_IN_TURN)),
    ((TRANSLATE, CLOSE, []), (0, 0, [])),
    ((TRANSLATE, SHEET_19 + b"\0", [7] * 7), (3, 15, [7] * 7)),
]

# Table runs

TABLES = [
    ((RUN, SHEET_19, TABLE_19, b"cats"), (0, 3, b"cat ")),
    ((RUN, SHEET_19, TABLE_19 + [9], b"s"), (0, 0, b" ")),
    ((RUN, SHEET_19, TABLE_19[:-1], b"cats"), (7, 0, b"cats")),
    ((RUN, SHEET_19, TABLE_19[:-1] + [2], b"cats"), (7, 0, b"cats")),
    ((RUN, SHEET_19, TABLE_EED, b""), (7, 0, b"")),
    ((RUN, SHEET_19 + b"\0", TABLE_EED, b""), (3, 15, b"")),
    ((RUN, SHEET_19, TABLE_19[:-1], b"1s"), (7, 0, b"1s")),
    ((RUN, SHEET_19, TABLE_19, b"1" * 65), (1, 0, b"1" * 65)),
    *(((RUN, SHEET_19, TABLE_19, word), (2, place, word)) for word, place in OTHER_BYTES),
    ((RUN, ALWAYS + rule(b"", b"e") + CLOSE, [0, 0, 0, 1], b"hop3"), (2, 3, b"hop3")),
    ((RUN, SHEET_EED, TABLE_EED, b"feed"), (0, 4, b"feed")),
    ((RUN, SHEET_EED, TABLE_EED, b"agreed"), (0, 5, b"agree ")),
    ((RUN, SHEET_EED, TABLE_EED, b"hoped"), (0, 3, b"hop  ")),
    ((RUN, ALWAYS + rule(b"", b"e") + CLOSE, [0, 0, 0, 1], b"hop"), (4, 0, b"hop")),
    ((RUN, CLOSE, [], b"cats"), (0, 4, b"cats")),
    ((RUN, IN_TURN, TABLE_IN_TURN, b"cats"), (0, 3, b"cat ")),
    ((RUN, IN_TURN, TABLE_IN_TURN, b"boat"), (0, 2, b"bo  ")),
    ((RUN, IN_TURN, TABLE_IN_TURN, b"seist"), (0, 2, b"se   ")),
    ((RUN, IN_TURN, TABLE_IN_TURN, b"yest"), (0, 2, b"ye  ")),
    ((RUN, SHEET_19, LINKED_19, b"cats"), (7, 0, b"cats")),
    ((RUN, SHEET_EED, LINKED_EED, b"feed"), (7, 0, b"feed")),
    ((RUN, IN_TURN, LINKED_IN_TURN, b"cats"), (7, 0, b"cats")),
    ((RUN, IN_TURN, LINKED_IN_TURN, b"1s"), (7, 0, b"1s")),
]
SHIPPED_SHEET, SHIPPED_TABLE = sheet_of(SHIPPED), sum(nodes_of(SHIPPED), [])
TABLES += [
    ((RUN, SHIPPED_SHEET, SHIPPED_TABLE, word), (0, len(left), left.ljust(len(word))))
    for word, _, left in told(SHORT)
]

# Lines

PORTER = (HERE.parent / "examples/sheet/porter.rules").read_bytes()
TWELVE = b"abcdefghijkl"


def makes(lines, *records):
    """Lines that make the sheet of these records and an end, lent as long as it is."""
    sheet = b"".join(records) + CLOSE
    return (MAKE, lines, b"\7" * len(sheet)), (0, len(sheet), sheet)


def stops(number, lines, lent=b"\7" * 40):
    """Lines that are refused at the line of this number."""
    return (MAKE, lines, lent), (8, number, lent)


RULE_LINES = {
    b"none s -> e": rule(b"s", b"e"),
    b"m>0 s -> e": rule(b"s", b"e", 1),
    b"m>1 s -> e": rule(b"s", b"e", 2),
    b"*v* s -> e": rule(b"s", b"e", 3),
    b"m>1 and (*S or *T) s -> e": rule(b"s", b"e", 4),
    b"*d and not (*L or *S or *Z) s -> e": rule(b"s", b"e", 5),
    b"m=1 and *o s -> e": rule(b"s", b"e", 6),
    b"m=1 and not *o s -> e": rule(b"s", b"e", 7),
    b"m>1 and *d and *L s -> e": rule(b"s", b"e", 8),
    b"*d and not (*L or *S or *Z) - -> single letter": rule(b"", b"", 5, 1),
    b"m>1 and *d and *L - -> single letter": rule(b"", b"", 8, 1),
    b"m>1 and *d and *L - -> single letter opens": rule(b"", b"", 8, 1, 1),
    b"none - -> -": rule(b""),
    b"none - -> - opens": rule(b"", opens=1),
    b"none x -> opens": rule(b"x", b"opens"),
    b"none x -> opens opens": rule(b"x", b"opens", opens=1),
    b"none x -> yopens": rule(b"x", b"yopens"),
    b"none opens -> -": rule(b"opens"),
    b"none x -> single": rule(b"x", b"single"),
    b"none - -> letter opens": rule(b"", b"letter", opens=1),
    b"none single -> letter": rule(b"single", b"letter"),
    b"none none -> none": rule(b"none", b"none"),
    b"none group -> opened opens": rule(b"group", b"opened", opens=1),
    b"m>1 and -> x": rule(b"and", b"x", 2),
    b"m>1 and (*S or *T) or -> and": rule(b"or", b"and", 4),
    b"m=1 and not *o not -> -": rule(b"not", b"", 7),
    b"none abcdefghijkl -> -": rule(TWELVE),
    b"none - -> abcdefghijkl": rule(b"", TWELVE),
}


def rows(*lines):
    """The lines of each row, which a bar divides."""
    return b"|".join(lines).split(b"|")


OTHER_LINES = rows(  # not of the form
    # spaces, and bytes that look like them
    b"none  x -> y|none x  -> y|none x ->  y|none x -> y  opens|none x -> y | none x -> y|| |\0",
    b"none  -> y|none x -> |none x ->  opens|none\tx -> y|none x\t-> y|none x ->\ty|none x -> y\r",
    b"group\r|group\topened|group | group|group  opened|group opened ",
    # letters
    b"none X -> y|none x -> Y|none x1 -> y|none x -> 1|none it's -> y|none \xe9 -> y|none x -> y\0",
    b"none ` -> y|none { -> y|none x -> `|none x -> {|none x -> y{",
    b"none -x -> y|none -- -> y|none x -> y-|none - - -> y|none x -> y z|none x -> - -",
    # the arrow and what stands behind it
    b"none x->y|none x-> y|none x ->y|none x - > y|none x => y|none x y|none x ->|none -> y",
    b"none x \xe2\x86\x92 y|none x -> y open|none x -> y opened|none x -> y opens opens",
    b"m>1 and *d and *L - -> single  letter|m>1 and *d and *L - -> single letters",
    b"m>1 and *d and *L - -> letter single|m>1 and *d and *L -> single letter",
    # conditions
    b"none|None x -> y|x -> y|0 x -> y|m>2 x -> y|m > 0 x -> y|m=1 x -> y|*o x -> y|`*v*` x -> y",
    b"m>1 and|m>1 and |m>1 and x -> y|m>1 and *d x -> y|m>1 and (*S or *T) -> y|m=1 and -> y",
    b"m>1 and (*S or *T)x -> y|m>1 and (*T or *S) x -> y|m>1 and *L and *d x -> y|m=1 and not -> y",
    b"m=1 and not x -> y|*d and not -> y|*d and not (*L or *S) x -> y|m>0 and x -> y",
    # groups
    b"groups|Group|group open|group opens|groupopened|opened|group opened opened|\xef\xbb\xbfgroup",
)

FAULTY_LINES = rows(  # of the form, but 01 calls the record faulty
    *(b"none %b -> y|none x -> %b" % ((b"z" * length,) * 2) for length in (13, 255, 256, 268)),
    b"none - -> single letter|m>1 and (*S or *T) - -> single letter|none x -> single letter",
    b"m>1 and *d and *L l -> single letter|*d and not (*L or *S or *Z) x -> single letter opens",
)

DROP_S = b"group\nnone s -> -\n"
MOST_LINES = b"group\n" * 16 + b"*v* %b -> %b opens\n" % (TWELVE, TWELVE) * 128
MOST = ALWAYS * 16 + rule(TWELVE, TWELVE, 3, opens=1) * 128

LINES = [
    makes(b""),
    makes(b"group\n", ALWAYS),
    makes(b"group\ngroup opened\n", ALWAYS, IF_OPENED),
    makes(b"group\nm>0 eed -> ee\n*v* ed -> - opens\n", SHEET_EED[:-4]),
    makes(PORTER, SHIPPED_SHEET[:-4]),
    *(makes(b"group\n%b\n" % line, ALWAYS, written) for line, written in RULE_LINES.items()),
    *(stops(2, b"group\n%b\ngroup\n" % line) for line in OTHER_LINES + FAULTY_LINES),
    # the lent sheet: just long enough, longer, one short
    ((MAKE, DROP_S, b"\7" * 19), (0, 19, SHEET_19)),
    ((MAKE, DROP_S, b"\7" * 22), (0, 19, SHEET_19 + b"\7" * 3)),
    ((MAKE, DROP_S, b"\7" * 18), (9, 0, b"\7" * 18)),
    ((MAKE, DROP_S, b""), (9, 0, b"")),
    ((MAKE, b"", b"\7" * 3), (9, 0, b"\7" * 3)),
    ((MAKE, b"", b""), (9, 0, b"")),
    # 8 comes before 9, and the first line that is refused is named
    stops(3, DROP_S + b"x\n", b""),
    stops(2, b"group\nnone  x -> y\nnone x  -> y\n"),
    stops(72, PORTER + b"none x -> y \n"),
    stops(1, PORTER.replace(b"\n", b"\r\n")),
    # a last line without its line feed, and one with two
    stops(1, b"group"),
    stops(1, b"\n"),
    stops(2, b"group\ngroup opened"),
    stops(2, DROP_S[:-1]),
    stops(3, DROP_S + b"\n"),
    stops(71, PORTER[:-1]),
    # what the lines before decide
    stops(1, b"none s -> -\n"),
    stops(1, b"none s -> -\ngroup\n"),
    stops(1, b"group opened\n"),
    stops(1, b"group opened\ngroup\n"),
    makes(MOST_LINES, MOST),
    ((MAKE, MOST_LINES, b"\7" * 4195), (9, 0, b"\7" * 4195)),
    stops(17, b"group\n" * 17),
    stops(145, MOST_LINES + b"group\n"),
    stops(145, MOST_LINES + b"none s -> -\n"),
    stops(130, b"group\n" + b"none s -> -\n" * 129),
    stops(131, (b"group\n" + b"none s -> -\n" * 64) * 2 + b"none s -> -\n"),
]

ALL = WORDS + TEXTS + SHEETS + TABLES + LINES
