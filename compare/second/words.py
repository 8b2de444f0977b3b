"""The shipped rules, nine groups and 62 rules, and the word stemmer."""

from functools import lru_cache

from second.groups import REPLACE, SINGLE_LETTER, Group, Rule, read_group, run_groups


def rules(condition, text, opens=0):
    """The rules that 01 writes as `ending→replacement, ..` under one condition."""
    pairs = [pair.strip().split("→") for pair in text.split(",")]
    return [
        Rule(condition, REPLACE, opens, ending.encode(), replacement.encode())
        for ending, replacement in pairs
    ]


def single_letter(condition):
    """The rule that 01 writes as `empty→single letter`."""
    return [Rule(condition, SINGLE_LETTER, 0, b"", b"")]


STEP_2 = """ational→ate, tional→tion, enci→ence, anci→ance, izer→ize, abli→able, alli→al, entli→ent,
    eli→e, ousli→ous, ization→ize, ation→ate, ator→ate, alism→al, iveness→ive, fulness→ful,
    ousness→ous, aliti→al, iviti→ive, biliti→ble"""
STEP_3 = "icate→ic, ative→, alize→al, iciti→ic, ical→ic, ful→, ness→"
STEP_4_TO_ENT = "al→, ance→, ence→, er→, ic→, able→, ible→, ant→, ement→, ment→, ent→"
STEP_4_AFTER_ION = "ou→, ism→, ate→, iti→, ous→, ive→, ize→"

SHIPPED = [
    Group(0, rules(0, "sses→ss, ies→i, ss→ss, s→")),  # 1a
    Group(0, rules(1, "eed→ee") + rules(3, "ed→, ing→", opens=1)),  # 1b
    Group(1, rules(0, "at→ate, bl→ble, iz→ize") + single_letter(5) + rules(6, "→e")),  # follow-up
    Group(0, rules(3, "y→i")),  # 1c
    Group(0, rules(1, STEP_2)),
    Group(0, rules(1, STEP_3)),
    Group(0, rules(2, STEP_4_TO_ENT) + rules(4, "ion→") + rules(2, STEP_4_AFTER_ION)),
    Group(0, rules(2, "e→") + rules(7, "e→")),  # 5a
    Group(0, single_letter(8)),  # 5b
]
assert len(SHIPPED) == 9 and sum(len(group.rules) for group in SHIPPED) == 62


@lru_cache(maxsize=1 << 16)
def word_stem(word):
    """Request 1: number, stem length or place or 0, the word's place. W-201: a word of one or two
    letters, once it is not refused, stays as it is."""
    groups = [] if len(word) <= 2 else SHIPPED
    return run_groups(groups, lambda index, stem: read_group(groups[index], stem), word)
