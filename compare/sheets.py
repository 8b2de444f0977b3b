"""Sets of sheets for requests 4 and 5: samples, well-formed, damaged and random sheets, sheets at
01's bounds, translations. The nodes of every accepted one are laid out a third way too."""

import random
import struct

import samples
from layouts import by_links, by_sorting
from probing import CHECK, TRANSLATE
from second.groups import REPLACE, SINGLE_LETTER, Group, Rule
from second.sheets import END, GROUP, RULE, Faulty, check_sheet, read_sheet, record, sheet_of
from second.tables import nodes_of
from second.words import SHIPPED
from sets import Set
from words import SMALL


def sample_sheets(_batch):
    return [request for request, _ in samples.SHEETS]


def made_letters(rng, longest):
    """Letters from a few, so that endings meet and are tails of each other."""
    return bytes(rng.choice(b"aelsy") for _ in range(rng.randint(0, longest)))


def made_ending(rng, earlier):
    """New, or an earlier one again, or one that shares a tail with an earlier one."""
    if not earlier or rng.random() < 0.4:
        return made_letters(rng, rng.choice((0, 1, 2, 3, 3, 12)))
    ending = rng.choice(earlier)
    return (made_letters(rng, rng.choice((0, 1, 2))) + ending[rng.randint(0, len(ending)) :])[-12:]


def made_rule(rng, earlier):
    if rng.random() < 0.1:
        return Rule(rng.choice((5, 8)), SINGLE_LETTER, rng.randint(0, 1), b"", b"")
    replacement = made_letters(rng, rng.choice((0, 0, 1, 2, 3, 12)))
    ending = made_ending(rng, earlier)
    return Rule(rng.randint(0, 8), REPLACE, rng.randint(0, 1), ending, replacement)


def made_groups(rng):
    """Groups within 01's bounds: mostly a few, now and then as many as are allowed."""
    count = rng.choice((4, 5, 8, 16, 16) if rng.random() < 0.1 else (0, 1, 2, 2, 3))
    most_rules = rng.choice((2, 4, 8)) if rng.random() < 0.98 else 128 // max(1, count)
    groups = []
    for index in range(count):
        rules = []
        for _ in range(rng.randint(0, most_rules)):
            rules.append(made_rule(rng, [rule.ending for rule in rules]))
        groups.append(Group(rng.randint(0, 1) if index else 0, rules))
    return groups


def any_letters(rng, count):
    return bytes(rng.choices(SMALL, k=count))


def wide_groups(rng):
    """As many rules as are allowed, with short endings from the whole alphabet, in any order: nodes
    of up to 26 children."""
    count = rng.choice((1, 1, 2, 4, 16))
    endings = [any_letters(rng, rng.choice((1, 2, 2, 3))) for _ in range(128)]
    rules = [Rule(0, REPLACE, 0, ending, b"") for ending in endings]
    return [Group(0, rules[at::count]) for at in range(count)]


def largest_groups(rng):
    """As many rules and letters as are allowed, and 1,552 nodes: the endings of a group all differ
    in their last letter."""
    groups = []
    for _ in range(16):
        endings = [any_letters(rng, 11) + bytes([last]) for last in rng.sample(SMALL, 8)]
        rules = [Rule(0, REPLACE, 0, ending, any_letters(rng, 12)) for ending in endings]
        groups.append(Group(0, rules))
    return groups


def damaged(rng, sheet):
    """One to three bytes are changed, put in or taken out; or the sheet is cut."""
    sheet = bytearray(sheet)
    for _ in range(rng.choice((1, 1, 1, 2, 3))):
        place = rng.randint(0, len(sheet))
        byte = rng.choice((rng.randrange(256), rng.randrange(14), *rng.choices(b"aelsz`{", k=2)))
        shape = rng.random()
        if shape < 0.7:
            sheet[place : place + 1] = bytes([byte])
        elif shape < 0.8:
            sheet[place:place] = bytes([byte])
        elif shape < 0.9:
            del sheet[place : place + 1]
        else:
            del sheet[place:]
    return bytes(sheet)


def rule_body(rng):
    """A body of kind 2 whose parts lie at 01's bounds, on either side."""
    ending = rng.choice((b"a", b"z")) * rng.choice((0, 0, 1, 12, 13))
    replacement = rng.choice((b"a", b"z")) * rng.choice((0, 0, 1, 12, 13))
    condition, action = rng.choice((0, 5, 8, 9)), rng.choice((0, 0, 0, 1, 2))
    opens = rng.choice((0, 0, 1, 1, 2))
    n = len(ending) + rng.choice((0, 0, 0, 0, 1, -len(ending)))
    whole = bytes([condition, action, opens, n]) + ending + replacement
    return whole[:3] if rng.random() < 0.1 else whole


GATES = [b"\0\0", b"\0\0", b"\1\0", b"\2\0", b"\0\1", b"\0", b"\0\0\0"]


def bounded_record(rng):
    """A record of any kind whose parts lie at 01's bounds, on either side."""
    kind = rng.choice((GROUP, GROUP, RULE, RULE, RULE, RULE, END, 0, 4, 258))
    if kind == GROUP:
        return record(kind, rng.choice(GATES))
    if kind == RULE:
        return record(kind, rule_body(rng))
    return record(kind, rng.choice((b"", b"", b"\0")))


def at_bounds(rng):
    """Records at the bounds behind a well-formed beginning, which now and then has all the groups
    or all the rules that a sheet may have."""
    groups = made_groups(rng)
    if rng.random() < 0.05:
        groups = [Group(0, [])] * rng.choice((14, 15, 16))
    elif rng.random() < 0.05:
        groups = [Group(0, SHIPPED[4].rules[:1] * rng.choice((126, 127, 128)))]
    sheet = sheet_of(groups)
    beginning, end = sheet[:-4], sheet[-4:]
    return beginning + b"".join(bounded_record(rng) for _ in range(rng.randint(0, 3))) + end


def random_sheet(rng):
    """Random bytes behind random heads of small numbers."""
    sheet = b""
    for _ in range(rng.randint(0, 3)):
        sheet += struct.pack("<HH", rng.randrange(8), rng.randrange(5))
        sheet += bytes(rng.randrange(256) for _ in range(rng.randrange(8)))
    return sheet


def well_formed(rng):
    return samples.SHIPPED_SHEET if rng.random() < 0.01 else sheet_of(made_groups(rng))


def well_formed_sheets(batch):
    rng = random.Random(f"well-formed sheets {batch}")
    return [(CHECK, well_formed(rng)) for _ in range(5000)]


def damaged_sheets(batch):
    rng = random.Random(f"damaged sheets {batch}")
    return [(CHECK, damaged(rng, well_formed(rng))) for _ in range(6000)]


def bounded_sheets(batch):
    rng = random.Random(f"sheets at bounds {batch}")
    return [(CHECK, at_bounds(rng)) for _ in range(6000)]


def random_sheets(batch):
    rng = random.Random(f"random sheets {batch}")
    return [(CHECK, random_sheet(rng)) for _ in range(6000)]


def lent_table(rng, sheet, numbers):
    """So many numbers: any, or what stands there already is a table of the sheet, by 01's layout
    before W-206 or by W-206's, or is as high as a number can be."""
    shape, groups = rng.random(), read_sheet(sheet)
    lent = [rng.randrange(65536) for _ in range(max(0, numbers))]
    if shape < 0.1:
        lent = [65535] * len(lent)
    elif shape < 0.3:
        before = by_links(groups) if shape < 0.2 else by_sorting(groups)
        lent = (sum(before, []) + lent)[: len(lent)]
    return lent


def translation(rng, sheet):
    """Into a table that is just long enough, longer, or too short; now and then a faulty sheet."""
    needed = 4 * check_sheet(sheet)[1]
    lent = lent_table(rng, sheet, needed + rng.choice((0, 0, 0, 1, 7, -1, -4, -needed)))
    return TRANSLATE, damaged(rng, sheet) if rng.random() < 0.1 else sheet, lent


def translations(batch):
    rng = random.Random(f"translations {batch}")
    return [translation(rng, well_formed(rng)) for _ in range(2500)]


def large_translations(batch):
    """Of sheets with many nodes, the most that there can be among them."""
    rng = random.Random(f"large translations {batch}")
    sheets = [sheet_of(made(rng)) for made in (wide_groups,) * 15 + (largest_groups,) * 5]
    return [translation(rng, rng.choice(sheets)) for _ in range(200)]


def by_sorted_nodes(request):
    """The third way, where the sheet is in order: its nodes sorted. They have to be the second
    program's, where only their count is asked for too."""
    kind, sheet, *lent = request
    try:
        groups = read_sheet(sheet)
    except Faulty:
        return None
    nodes = by_sorting(groups)
    if nodes != nodes_of(groups):
        return "sorted", nodes
    if kind == CHECK:
        return 0, len(nodes)
    made, table = sum(nodes, []), lent[0]
    return (0, len(nodes), made + table[len(made) :]) if len(made) <= len(table) else (6, 0, table)


SETS = [
    Set("samples", 1, sample_sheets, by_sorted_nodes),
    Set("well-formed", 10, well_formed_sheets, by_sorted_nodes),
    Set("damaged", 12, damaged_sheets, by_sorted_nodes),
    Set("at the bounds", 8, bounded_sheets, by_sorted_nodes),
    Set("random", 8, random_sheets, by_sorted_nodes),
    Set("translations", 10, translations, by_sorted_nodes),
    Set("translations, many nodes", 2, large_translations, by_sorted_nodes),
]
