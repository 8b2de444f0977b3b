"""How a group is read, and how groups follow each other."""

from collections import namedtuple

from second.letters import CONDITIONS

Rule = namedtuple("Rule", "condition action opens ending replacement")
Group = namedtuple("Group", "gate rules")

REPLACE, SINGLE_LETTER = 0, 1  # a rule's action


def small_letter(byte):
    return ord("a") <= byte <= ord("z")


def small_letters(text):
    return all(map(small_letter, text))


def obey_first(rules, word):
    """The first of these rules, all with one ending of the word, whose condition holds, and its
    result; None and the word if none of them holds."""
    for rule in rules:
        part = word[: len(word) - len(rule.ending)]
        if CONDITIONS[rule.condition](part):
            return rule, part[:-1] if rule.action == SINGLE_LETTER else part + rule.replacement
    return None, word


def read_group(group, word):
    """The rule of the group that is obeyed, or None, and the word after the group."""
    endings = [rule.ending for rule in group.rules if word.endswith(rule.ending)]
    if not endings:
        return None, word
    longest = max(endings, key=len)
    return obey_first([rule for rule in group.rules if rule.ending == longest], word)


def run_groups(groups, read, word):
    """Number, stem length or place or 0, and the word's place after these groups. `read(index, word)`
    reads the group of that index, by its rules or by a table."""
    if not 1 <= len(word) <= 64:
        return 1, 0, word
    for place, byte in enumerate(word):
        if not small_letter(byte):
            return 2, place, word  # W-204
    stem, opened = word, False
    for index, group in enumerate(groups):
        if group.gate == 1 and not opened:
            continue  # a group that was not run opens nothing: `opened` stays False
        rule, stem = read(index, stem)
        if len(stem) > len(word):
            return 4, 0, word
        opened = rule is not None and rule.opens == 1
    return 0, len(stem), stem.ljust(len(word), b" ")
