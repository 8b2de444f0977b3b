"""Sets of table runs for request 6: samples, words with other bytes, runs over made sheets and over
the shipped one; and what 7 has to tell: tables with one number changed, of another layout, with a
fault in them, and cut."""

import random

import samples
from layouts import by_links, faulty_tables, held_by_links, other_layouts, other_values
from layouts import sorted_table
from probing import RUN
from samples import SHIPPED_SHEET, SHIPPED_TABLE
from second.groups import obey_first, read_group, run_groups
from second.sheets import Faulty, read_sheet, sheet_of
from second.tables import nodes_of
from second.words import SHIPPED
from sets import Set
from sheets import damaged, largest_groups, made_groups, made_letters, wide_groups
from words import damaged as damaged_word
from words import OTHER_LENGTHS, SMALL, all_words, found_by_search, made_part, made_word
from words import other_bytes, published, published_answer


def sample_runs(_batch):
    return [request for request, _ in samples.TABLES]


def word_for(rng, groups):
    """A word that often ends with an ending of the sheet, or with several."""
    endings = [rule.ending for group in groups for rule in group.rules] or [b""]
    part = rng.choice((made_letters(rng, 3), made_part(rng, rng.randint(0, 6)), made_word(rng)))
    word = part + b"".join(rng.choice(endings) for _ in range(rng.randint(0, 3)))
    return damaged_word(rng, word) if rng.random() < 0.04 else word


def lent_table(rng, made):
    """Right, with more behind it, one short, or with one number changed."""
    shape = rng.random()
    if shape < 0.6 or not made:
        return made
    if shape < 0.85:
        return made + [rng.randrange(65536) for _ in range(rng.randint(1, 9))]
    if shape < 0.88:
        return made[:-1]
    place = rng.randrange(len(made))
    changed = made[place] ^ rng.choice((1, 2, 256, 32768))
    return made[:place] + [changed] + made[place + 1 :]


def made_runs(batch):
    """Each sheet with several words and tables."""
    rng = random.Random(f"table runs {batch}")
    requests = []
    while len(requests) < 5000:
        groups = made_groups(rng)
        sheet, made = sheet_of(groups), sum(nodes_of(groups), [])
        for _ in range(8):
            faulty = rng.random() < 0.02
            lent = damaged(rng, sheet) if faulty else sheet
            requests.append((RUN, lent, lent_table(rng, made), word_for(rng, groups)))
    return requests


def more_made_runs(batch):
    return made_runs(f"more {batch}")


def other_runs(batch):
    """The 19-byte sheet and its table, on words with other bytes."""
    return [(RUN, samples.SHEET_19, samples.TABLE_19, word) for _, word in other_bytes(batch)]


def shipped_runs(batch):
    """The shipped sheet and its table, on made words."""
    rng = random.Random(f"shipped runs {batch}")
    return [(RUN, SHIPPED_SHEET, SHIPPED_TABLE, made_word(rng)) for _ in range(1000)]


def short_runs(_batch):
    """The shipped sheet and its table on every word of one or two letters, which W-201 leaves to the
    rules here."""
    return [(RUN, SHIPPED_SHEET, SHIPPED_TABLE, word) for word in all_words(SMALL, 1, 2)]


def vocabulary_runs(batch):
    """The published vocabulary through the shipped table, an eighth to a batch."""
    return [(RUN, SHIPPED_SHEET, SHIPPED_TABLE, word) for word in list(published())[batch::8]]


# What 7 has to tell

LINKED = {
    samples.SHEET_19: samples.LINKED_19,
    samples.SHEET_EED: samples.LINKED_EED,
    samples.IN_TURN: samples.LINKED_IN_TURN,
}
assert all(sum(by_links(read_sheet(sheet)), []) == LINKED[sheet] for sheet in LINKED)


def some_groups(rng):
    """Groups with nodes: mostly few, and now and then with many children, or as many as can be."""
    made = rng.choices((made_groups, wide_groups, largest_groups), (200, 4, 1))[0]
    return made(rng) or some_groups(rng)


def numbers_changed(rng, groups, places):
    """The table of a sheet, at each of these places with each of several other numbers."""
    sheet, made = sheet_of(groups), sum(nodes_of(groups), [])
    for place in places:
        for other in other_values(rng, made, place):
            table = made[:place] + [other] + made[place + 1 :]
            yield RUN, sheet, table, word_for(rng, groups)


def shipped_numbers_changed(_batch):
    """Every number of the shipped table."""
    rng = random.Random("shipped table")
    return list(numbers_changed(rng, SHIPPED, range(len(SHIPPED_TABLE))))


def every_number_changed(batch):
    """Every number of the tables of made sheets; of those with many nodes, 40 of the numbers."""
    rng, requests = random.Random(f"every number {batch}"), []
    while len(requests) < 5000:
        groups = some_groups(rng)
        places = range(4 * len(nodes_of(groups)))
        some = places if len(places) < 500 else rng.sample(places, 40)
        requests += numbers_changed(rng, groups, some)
    return requests


def with_tables(rng, groups, tables):
    sheet = sheet_of(groups)
    return [(RUN, sheet, table, word_for(rng, groups)) for table in tables]


def shipped_in_other_layouts(_batch):
    """The shipped rules in every other layout, and with every fault."""
    rng = random.Random("shipped rules in other layouts")
    return with_tables(rng, SHIPPED, other_layouts(SHIPPED) + list(faulty_tables(SHIPPED)))


def in_other_layouts(batch):
    """Made sheets in every other layout, 01's before W-206 among them; with more behind it too."""
    rng, requests = random.Random(f"other layouts {batch}"), []
    while len(requests) < 4000:
        groups = some_groups(rng)
        tables = other_layouts(groups)
        requests += with_tables(rng, groups, tables + [tables[0] + [rng.randrange(65536)] * 4])
    return requests


def with_faults(batch):
    """Made sheets and tables with a fault, up to 60 of each sheet."""
    rng, requests = random.Random(f"faults {batch}"), []
    while len(requests) < 4000:
        groups = rng.choices((made_groups, wide_groups), (50, 1))[0](rng)
        tables = list(faulty_tables(groups))
        requests += with_tables(rng, groups, rng.sample(tables, min(60, len(tables))))
    return requests


def cut_and_longer(batch):
    """Tables that end too soon, at every number; and right ones, with anything behind the nodes."""
    rng, requests = random.Random(f"cut tables {batch}"), []
    while len(requests) < 4000:
        groups = SHIPPED if not requests and batch == 0 else some_groups(rng)
        made = sum(nodes_of(groups), [])
        ends = range(len(made)) if len(made) < 1000 else rng.sample(range(len(made)), 40)
        behind = [[0], [65535], [0, 0, 0, 0], made[:4], made, made[-4:], [rng.randrange(65536)] * 9]
        tables = [made[:end] for end in ends] + [made + more for more in behind]
        requests += with_tables(rng, groups, tables)
    return requests


def published_stem(request):
    """The published stem, of words of one or two letters too: sheets are read as the paper is."""
    return published_answer(request[::3])


def by_rules(request):
    """The third way, where the sheet is in order: its nodes sorted tell whether the table is, and
    the groups are read by their rules, without it. The walk of a table has to read every group as
    its rules do."""
    _, sheet, table, word = request
    try:
        groups = read_sheet(sheet)
    except Faulty:
        return None
    made = sorted_table(sheet)
    if table[: len(made)] != made:
        return 7, 0, word
    return run_groups(groups, lambda index, stem: read_group(groups[index], stem), word)


def by_links_walked(request):
    """Another third way: the sheet laid out as before W-206, and its chains walked."""
    _, sheet, _, word = request
    answer = by_rules(request)
    if answer is None or answer[0] == 7:
        return answer
    groups = read_sheet(sheet)
    rows, rules = by_links(groups), [rule for group in groups for rule in group.rules]

    def read(root, stem):
        held = held_by_links(rows, root, stem)
        endings = [rules[held - 1].ending] if held else []
        return obey_first([rule for rule in groups[root].rules if rule.ending in endings], stem)

    return run_groups(groups, read, word)


SETS = [
    Set("samples", 1, sample_runs, by_rules),
    Set("other bytes", len(OTHER_LENGTHS), other_runs, found_by_search),
    Set("made", 20, made_runs, by_rules),
    Set("made, walked by links too", 4, more_made_runs, by_links_walked),
    Set("shipped", 4, shipped_runs, by_rules),
    Set("shipped, short words", 1, short_runs, by_rules),
    Set("vocabulary", 8, vocabulary_runs, published_stem),
    Set("every number of the shipped table changed", 1, shipped_numbers_changed, by_rules),
    Set("every number changed", 3, every_number_changed, by_rules),
    Set("the shipped rules in other layouts", 1, shipped_in_other_layouts, by_rules),
    Set("other layouts", 3, in_other_layouts, by_rules),
    Set("faults", 3, with_faults, by_rules),
    Set("cut and longer", 2, cut_and_longer, by_rules),
]
