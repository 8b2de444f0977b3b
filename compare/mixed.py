"""All eleven kinds of request at once, in one run of probe: what one request leaves behind must not
show in the next."""

import random

import lines
import lists
import sheets
import tables
import texts
import vocabularies
import words
from sets import Set

MAKERS = [
    words.made_words,
    texts.made_texts,
    texts.next_words,
    sheets.well_formed_sheets,
    sheets.damaged_sheets,
    sheets.bounded_sheets,
    sheets.random_sheets,
    sheets.translations,
    sheets.large_translations,
    tables.made_runs,
    tables.shipped_runs,
    tables.in_other_layouts,
    lines.well_formed_lines,
    lines.damaged_lines,
    lines.bounded_lines,
    lists.well_formed_lists,
    lists.damaged_lists,
    lists.bounded_lists,
    vocabularies.wrong_vocabularies,
    vocabularies.damaged_vocabularies,
]
EACH = 250  # requests of a maker in a batch


def mixed(batch):
    rng = random.Random(f"mixed {batch}")
    requests = []
    for maker in MAKERS:
        made = maker(f"mixed {batch}")
        requests += rng.sample(made, min(EACH, len(made)))
    rng.shuffle(requests)
    return requests


SETS = [Set("all kinds at once", 4, mixed)]
