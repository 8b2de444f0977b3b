"""Sets of texts for request 7: samples, well-formed and damaged lines, lines at 01's bounds, lines
near the form, tokens that follow each other, every byte in every place."""

import random
import re

import samples
from printing import by_printing, printed
from probing import MAKE
from samples import rows
from second.groups import SINGLE_LETTER, Group
from second.lines import SPELLED, make_sheet
from second.words import SHIPPED
from sets import Set
from sheets import made_groups


def sample_lines(_batch):
    return [request for request, _ in samples.LINES]


def asked(rng, text):
    """The text and a sheet of any bytes: as long as is needed, one short, longer or far longer."""
    number, needed, _ = make_sheet(text, bytes(16384))
    if number != 0:
        needed = rng.randint(4, 60)
    length = needed + rng.choice((0, 0, 0, 1, 9, 300, -1, -1, -4, -needed))
    return MAKE, text, rng.randbytes(16384 if rng.random() < 0.004 else max(0, length))


def requests_of(name, made, count=2000):
    """Batches of requests whose texts `made(rng)` makes."""

    def requests(batch):
        rng = random.Random(f"{name} {batch}")
        return [asked(rng, made(rng)) for _ in range(count)]

    return requests


# Words of the form, which are small letters and may be endings and replacements too.
FORM_WORDS = b"and group letter none not opened opens or single".split()


def with_form_words(rng, rule):
    """The rule, now and then with words of the form for its letters."""
    if rule.action == SINGLE_LETTER:
        return rule
    ending = rng.choice(FORM_WORDS) if rng.random() < 0.1 else rule.ending
    replacement = rng.choice(FORM_WORDS) if rng.random() < 0.1 else rule.replacement
    return rule._replace(ending=ending, replacement=replacement)


def well_formed(rng):
    groups = SHIPPED if rng.random() < 0.01 else made_groups(rng)
    return printed(
        group._replace(rules=[with_form_words(rng, rule) for rule in group.rules])
        for group in groups
    )


SEPARATORS = rows(b"| |  |\n|\n\n| \n|\n |\r\n|\r|\t|\0|\x0b|\xa0|-| - ")
BYTES = [bytes([value]) for value in range(256)]
NEAR_BYTES = rows(b"|a|z|`|{|A|Z|-|>|*|(|)|0|1|=| |\n|\r")


def damaged(rng, text):
    """A byte is changed, put in or taken out; or another separator stands between two tokens, so
    that a space or a line feed is missing, doubled or misplaced; or two tokens change places."""
    parts = re.split(rb"([ \n])", text)  # tokens, and between them spaces and line feeds
    shape = rng.random()
    if shape < 0.5:
        place = rng.randint(0, len(text))
        byte = rng.choice(rng.choice((BYTES, NEAR_BYTES)))
        return text[:place] + byte + text[place + rng.randint(0, 1) :]
    if shape < 0.8 and len(parts) > 1:
        parts[rng.randrange(1, len(parts), 2)] = rng.choice(SEPARATORS)
    else:
        one, other = (rng.randrange(0, len(parts), 2) for _ in range(2))
        parts[one], parts[other] = parts[other], parts[one]
    return b"".join(parts)


def damaged_text(rng):
    return damaged(rng, well_formed(rng))


# At the bounds


def bounded_letters(rng):
    """On either side of 01's bound, and of what the byte of a length holds."""
    length = rng.choice((0, 1, 2, 11, 12, 12, 12, 13, rng.choice((14, 255, 256, 257, 268, 512))))
    return rng.choice((b"a", b"z")) * length or b"-"


def bounded_line(rng):
    """A line of the form whose record may be faulty."""
    if rng.random() < 0.25:
        return rng.choice((b"group\n", b"group opened\n"))
    spelled, ending, result = rng.choice(SPELLED), bounded_letters(rng), bounded_letters(rng)
    if rng.random() < 0.3:
        spelled = rng.choice((spelled, SPELLED[5], SPELLED[8]))
        ending, result = rng.choice((ending, b"-", b"-")), b"single letter"
    return b"%b %b -> %b%b\n" % (spelled, ending, result, rng.choice((b"", b" opens")))


def full_groups(rng):
    """About as many groups, or about as many rules, as a sheet may have."""
    if rng.random() < 0.5:
        return [Group(0, [])] * rng.choice((15, 16, 17))
    rules = SHIPPED[4].rules * 7
    count, first = rng.randint(126, 129), rng.randint(0, 126)
    groups = [Group(0, rules[:first]), Group(1, rules[first:count])]
    return groups + [Group(1, [])] * rng.randint(0, 15)


def at_bounds(rng):
    """Lines at the bounds behind others; now and then the longest text that probe takes."""
    groups = full_groups(rng) if rng.random() < 0.2 else made_groups(rng)
    text = printed(groups) + b"".join(bounded_line(rng) for _ in range(rng.randint(0, 4)))
    if rng.random() < 0.01:
        text += (b"none " + rng.choice((b"a" * 20000, b"a -> b\n" + b"\n" * 20000)))[:16384]
    return text[:16384]


# Near the form: for each part of a line what stands there, and what comes close.

LETTERS = [b"s", b"ed", b"y", b"-", b"-", samples.TWELVE, *FORM_WORDS]
NEAR_LETTERS = rows(b"S||--|-s|s-|1|it's|*o|m>1|->|a b|abcdefghijklm|{|`|\xe9|single letter|group")
NEAR_CONDITIONS = rows(
    b"|-|n|None|nonee|none none|m>2|m>=1|m>01|m=0|m=1|M>0|m>0 and|m>1 and|m=1 and|m=1 and not",
    b"*v|v|*V*|`*v*`|*d|*o|*S|m>1 and *d|m>1 and *d and|m>1 and *L and *d|m>1 and *d and *S",
    b"m>1 and (*S)|m>1 and (*S or *T|m>1 and (*T or *S)|m>1 and (*S or *T) and|m>1 and *S or *T",
    b"m=1 and  *o|m=1 and not*o|m=1 and *o and|*d and not|*d and not *L|*d and (*L or *S or *Z)",
    b"*d and not (*L or *S)|*d and not (*L or *S or *Z|*d and not (*Z or *S or *L)|m>1 and *L",
)
NEAR_ARROWS = rows(b"|-|>|- >|-->|->>|=>|<-|-> ->|->-|\xe2\x86\x92")
NEAR_SINGLE = rows(b"single  letter|singleletter|single letters|Single letter|letter single|single")
NEAR_OPENS = rows(b" | opens | open| opened|opens|  opens| opens opens| Opens|\topens| -| s|\r")
NEAR_GROUPS = rows(b"groups|Group|grou|group | group|\ngroup|opened|")
NEAR_OPENED = rows(b"  opened|opened| open| opens| opened opened| ")

SPACE, LINE_FEED = ([b" "], SEPARATORS), ([b"\n"], SEPARATORS)
ARROW, OPENS = ([b"->"], NEAR_ARROWS), ([b"", b"", b" opens"], NEAR_OPENS)
REPLACES = [(SPELLED, NEAR_CONDITIONS), SPACE, (LETTERS, NEAR_LETTERS), SPACE, ARROW, SPACE]
REPLACES += [(LETTERS, NEAR_LETTERS + NEAR_SINGLE), OPENS, LINE_FEED]
SINGLE = [([SPELLED[5], SPELLED[8]], SPELLED), SPACE, ([b"-"], LETTERS), SPACE, ARROW, SPACE]
SINGLE += [([b"single letter"], NEAR_SINGLE), OPENS, LINE_FEED]
GROUPS = [([b"group"], NEAR_GROUPS), ([b"", b" opened"], NEAR_OPENED), LINE_FEED]


def near_line(rng):
    parts = rng.choice((REPLACES, REPLACES, REPLACES, SINGLE, GROUPS))
    return b"".join(rng.choice(near if rng.random() < 0.02 else right) for right, near in parts)


def near_form(rng):
    first = b"" if rng.random() < 0.05 else b"group\n"
    return first + b"".join(near_line(rng) for _ in range(rng.randint(1, 5)))


# Tokens, a line feed among them, that follow each other somewhere in the samples


def followers():
    """What follows each token."""
    found = {}
    for line in (b"group", b"group opened", *samples.RULE_LINES):
        tokens = [b"\n", *line.split(b" "), b"\n"]
        for token, follower in zip(tokens, tokens[1:]):
            found.setdefault(token, []).append(follower)
    return found


FOLLOWERS = followers()


def line_of_tokens(rng):
    tokens = [rng.choice(FOLLOWERS[b"\n"])]
    while tokens[-1] != b"\n":
        tokens.append(rng.choice(FOLLOWERS[tokens[-1]]))
    return b" ".join(tokens[:-1]) + b"\n"


def token_by_token(rng):
    return b"group\n" + b"".join(line_of_tokens(rng) for _ in range(rng.randint(1, 4)))


# Every byte, in the lines of groups, in one of each condition, and in those without letters; each
# behind the line that it needs

TRIED = [(b"", b""), (b"", b"group\n"), (b"group\n", b"group opened\n")]
TRIED += [(b"group\n", line + b"\n") for line in list(samples.RULE_LINES)[:14]]


def with_each_byte(text, put_in=BYTES):
    """Each byte of a text left out, and every byte in its place; and between each two, and at both
    ends, each of `put_in`."""
    size = len(text)
    texts = [text[:at] + byte + text[at + 1 :] for at in range(size) for byte in (b"", *BYTES)]
    return texts + [text[:at] + byte + text[at:] for at in range(size + 1) for byte in put_in]


def every_byte(batch):
    """Every byte in every place of a line; and put in, in the shorter lines every one."""
    before, line = TRIED[batch]
    texts = with_each_byte(line, BYTES if len(line) <= 13 else NEAR_BYTES)
    return [(MAKE, before + text, b"\7" * 50) for text in texts]


well_formed_lines = requests_of("well-formed lines", well_formed)
damaged_lines = requests_of("damaged lines", damaged_text)
bounded_lines = requests_of("lines at bounds", at_bounds)
near_lines = requests_of("lines near the form", near_form)
token_lines = requests_of("lines of tokens", token_by_token)

SETS = [
    Set("samples", 1, sample_lines, by_printing),
    Set("well-formed", 8, well_formed_lines, by_printing),
    Set("damaged", 10, damaged_lines, by_printing),
    Set("at the bounds", 8, bounded_lines, by_printing),
    Set("near the form", 10, near_lines, by_printing),
    Set("token by token", 10, token_lines, by_printing),
    Set("every byte", len(TRIED), every_byte, by_printing),
]
