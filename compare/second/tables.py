"""The table, as W-206 lays it out: its nodes as a sheet makes them, the walk, the translation and the
table run."""

from second.groups import obey_first, run_groups
from second.sheets import Faulty, read_sheet

LETTER, CHILD, COUNT, RULE = range(4)  # a node's four numbers


class Tree:
    """A node with all that hangs below it: its letter, its first rule or 0, its children by their
    letters; and, once the table is laid out, its number there."""

    def __init__(self, letter):
        self.letter = letter
        self.rule = 0
        self.by_letter = {}
        self.number = None

    def children(self):
        """In rising letter order."""
        return [self.by_letter[letter] for letter in sorted(self.by_letter)]


def tree_of(group, number):
    """The root of a group whose first rule has this number."""
    root = Tree(0)
    for rule in group.rules:
        at = root
        for letter in reversed(rule.ending):
            at = at.by_letter.setdefault(letter, Tree(letter))
        at.rule = at.rule or number
        number += 1
    return root


def level_by_level(roots):
    """Roots first, then all their children, and so on, each level in its parents' order."""
    nodes, level = [], roots
    while level:
        nodes += level
        level = [child for parent in level for child in parent.children()]
    return nodes


def nodes_of(groups):
    """The nodes that a sheet of these groups makes."""
    roots, number = [], 1
    for group in groups:
        roots.append(tree_of(group, number))
        number += len(group.rules)
    trees = level_by_level(roots)
    for number, tree in enumerate(trees):
        tree.number = number
    nodes = []
    for tree in trees:
        children = tree.children()
        first = children[0].number if children else 0
        nodes.append([tree.letter, first, len(children), tree.rule])
    return nodes


def child(nodes, parent, letter):
    """The parent's child of this letter, or 0."""
    first, count = nodes[parent][CHILD], nodes[parent][COUNT]
    for at in range(first, first + count):
        if nodes[at][LETTER] == letter:
            return at
    return 0


def walk(nodes, root, word):
    """The rule held by the deepest node passed that holds one, or 0."""
    at, held = root, nodes[root][RULE]
    for letter in reversed(word):
        at = child(nodes, at, letter)
        if at == 0:
            break
        held = nodes[at][RULE] or held
    return held


def translate_sheet(sheet, table):
    """Request 5: number, node count or place or 0, the table."""
    try:
        nodes = nodes_of(read_sheet(sheet))
    except Faulty as fault:
        return 3, fault.place, table
    made = sum(nodes, [])
    if len(table) < len(made):
        return 6, 0, table
    return 0, len(nodes), made + table[len(made) :]


def table_run(sheet, table, word):
    """Request 6: number, stem length or place or 0, the word's place."""
    try:
        groups = read_sheet(sheet)
    except Faulty as fault:
        return 3, fault.place, word
    made = sum(nodes_of(groups), [])
    if table[: len(made)] != made:
        return 7, 0, word
    nodes = [table[at : at + 4] for at in range(0, len(made), 4)]
    rules = [None] + [rule for group in groups for rule in group.rules]  # counted from 1
    past = [1]  # the first rule number of each group, and of one more
    for group in groups:
        past.append(past[-1] + len(group.rules))

    def read(root, stem):
        held = walk(nodes, root, stem)
        later = rules[held : past[root + 1]] if held != 0 else []
        return obey_first([rule for rule in later if rule.ending == rules[held].ending], stem)

    return run_groups(groups, read, word)
