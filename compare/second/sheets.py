"""The sheet: records and how they follow each other, its own records read, and its check."""

import struct

from second.groups import SINGLE_LETTER, Group, Rule, small_letters

GROUP, RULE, END = 1, 2, 3  # kinds


class Faulty(Exception):
    """There is a faulty record; `place` is the offset where the first one starts."""

    def __init__(self, place):
        super().__init__(place)
        self.place = place


def records_of(content):
    """The place, the kind and the body of each record before the end; raises Faulty at one that is
    cut short, and at an end with a body or with bytes after it."""
    place = 0
    while True:
        if len(content) - place < 4:
            raise Faulty(place)
        size, kind = struct.unpack_from("<HH", content, place)
        after = place + 4 + size
        if after > len(content):
            raise Faulty(place)
        if kind == END:
            if size != 0 or after != len(content):
                raise Faulty(place)
            return
        yield place, kind, content[place + 4 : after]
        place = after


def read_rule(body):
    """The rule in a body of kind 2, or None where the body alone makes the record faulty."""
    if len(body) < 4:
        return None
    condition, action, opens, n = body[:4]
    if condition > 8 or action > 1 or opens > 1 or n > 12 or 4 + n > len(body):
        return None
    ending, replacement = body[4 : 4 + n], body[4 + n :]
    if len(replacement) > 12 or not small_letters(ending + replacement):
        return None
    if action == SINGLE_LETTER and (condition not in (5, 8) or ending or replacement):
        return None
    return Rule(condition, action, opens, ending, replacement)


def read_sheet(sheet):
    """The groups of a sheet; raises Faulty at its first faulty record."""
    groups, rule_count = [], 0
    for place, kind, body in records_of(sheet):
        if kind == GROUP:
            gate = int.from_bytes(body, "little")
            if len(body) != 2 or gate > 1 or (gate == 1 and not groups) or len(groups) == 16:
                raise Faulty(place)
            groups.append(Group(gate, []))
        elif kind == RULE:
            rule = read_rule(body)
            if rule is None or not groups or rule_count == 128:
                raise Faulty(place)
            groups[-1].rules.append(rule)
            rule_count += 1
        else:
            raise Faulty(place)
    return groups


def node_count(groups):
    """The roots plus, for each group, the distinct non-empty tails of its endings."""
    return len(groups) + sum(
        len({rule.ending[i:] for rule in group.rules for i in range(len(rule.ending))})
        for group in groups
    )


def check_sheet(sheet):
    """Request 4: number, node count or place."""
    try:
        return 0, node_count(read_sheet(sheet))
    except Faulty as fault:
        return 3, fault.place


def record(kind, body):
    return struct.pack("<HH", len(body), kind) + body


def sheet_of(groups):
    """The sheet that holds these groups."""
    sheet = b""
    for group in groups:
        sheet += record(GROUP, struct.pack("<H", group.gate))
        for rule in group.rules:
            head = bytes([rule.condition, rule.action, rule.opens, len(rule.ending)])
            sheet += record(RULE, head + rule.ending + rule.replacement)
    return sheet + record(END, b"")
