"""The layout of a table a third way, by sorting; and tables that are not it: other layouts of the
same nodes, among them 01's before W-206, and the right one with a fault in it.

A node is known here by its group and by its letters from the root down, as (0, b"de") in the first
group for the tail ed. A table is a list of rows, four numbers for each node."""

from functools import lru_cache

from second.sheets import read_sheet

LETTER, CHILD, COUNT, RULE = range(4)


def asked_for(groups):
    """All nodes, in the order in which the rules ask for them: 01's before W-206."""
    nodes = dict.fromkeys((root, b"") for root in range(len(groups)))
    for root, group in enumerate(groups):
        for rule in group.rules:
            down = rule.ending[::-1]
            nodes.update(dict.fromkeys((root, down[:depth]) for depth in range(1, len(down) + 1)))
    return list(nodes)


def parent_of(node):
    root, down = node
    return root, down[:-1]


def families(order):
    """The children of each of these nodes, in this order."""
    children = {node: [] for node in order}
    for node in order:
        if node[1]:
            children[parent_of(node)].append(node)
    return children


def first_rules(groups):
    """The number of the first rule that ends at a node."""
    ends = [(root, rule.ending[::-1]) for root, group in enumerate(groups) for rule in group.rules]
    return {end: number for number, end in reversed(list(enumerate(ends, 1)))}


def rows_in(order, rules):
    """The rows of these nodes, in this order."""
    numbers, children = {node: number for number, node in enumerate(order)}, families(order)
    return [
        [
            node[1][-1] if node[1] else 0,
            min((numbers[child] for child in children[node]), default=0),
            len(children[node]),
            rules.get(node, 0),
        ]
        for node in order
    ]


def depth_and_way(node):
    """What puts nodes level by level: of two on one level, the one whose way from the root is the
    smaller comes first, and so does its parent, or the parent is the same."""
    return len(node[1]), *node


def sorted_nodes(groups):
    return sorted(asked_for(groups), key=depth_and_way)


def by_sorting(groups):
    """W-206's layout, the third way."""
    return rows_in(sorted_nodes(groups), first_rules(groups))


@lru_cache(maxsize=256)
def sorted_table(sheet):
    """The numbers of an accepted sheet by it."""
    return sum(by_sorting(read_sheet(sheet)), [])


# Other layouts of the same nodes


def with_links(order, rows):
    """The rows with the next sibling for the count."""
    later = {}
    for number in reversed(range(len(order))):
        parent = parent_of(order[number])
        rows[number][COUNT] = later.get(parent, 0) if order[number][1] else 0
        later[parent] = number
    return rows


def by_links(groups):
    """01's layout before W-206: in the order that the rules ask for, chained by sibling links."""
    order = asked_for(groups)
    return with_links(order, rows_in(order, first_rules(groups)))


def held_by_links(rows, root, word):
    """The rule that 01's walk before W-206 comes to, along the chains; 0 for none."""
    at, held = root, rows[root][RULE]
    for letter in reversed(word):
        at = rows[at][CHILD]
        while at and rows[at][LETTER] != letter:
            at = rows[at][COUNT]  # the next sibling
        if not at:
            break
        held = rows[at][RULE] or held
    return held


def levels_with_links(groups):
    """W-206's order, with sibling links."""
    return with_links(sorted_nodes(groups), by_sorting(groups))


def in_order_of(key):
    """The nodes sorted by something else, each with its smallest child and the count."""
    return lambda groups: rows_in(sorted(asked_for(groups), key=key), first_rules(groups))


def by_levels(groups, arranged):
    """Level by level; `arranged(blocks)` says how the children of a level's nodes stand, which come
    node by node, as the rules ask for them."""
    nodes = asked_for(groups)
    order, level, children = [], nodes[: len(groups)], families(nodes)
    while level:
        order += level
        level = sum(arranged([children[node] for node in level]), [])
    return rows_in(order, first_rules(groups))


def rising(blocks):
    return list(map(sorted, blocks))


def falling(blocks):
    return [block[::-1] for block in rising(blocks)]


def parents_backwards(blocks):
    return rising(blocks)[::-1]


def depth_first(groups):
    """Roots first, and then the children of each node together, before those of the next."""
    nodes = asked_for(groups)
    order, children = nodes[: len(groups)], families(sorted_nodes(groups))

    def lay(node):
        order.extend(children[node])
        for child in children[node]:
            lay(child)

    for root in nodes[: len(groups)]:
        lay(root)
    return rows_in(order, first_rules(groups))


def with_child(child, count=lambda _, row: row[COUNT]):
    """W-206's layout with another second number, or third, by the node's number and its row."""

    def changed(groups):
        rows = enumerate(by_sorting(groups))
        return [[row[LETTER], child(at, row), count(at, row), row[RULE]] for at, row in rows]

    return changed


def never_0(groups):
    """A node without children has the number where they would stand."""
    rows = by_sorting(groups)
    behind = len(groups)
    for row in rows:
        row[CHILD] = behind
        behind += row[COUNT]
    return rows


def all_below(groups):
    """The count of all nodes below, not of children alone."""
    order = sorted_nodes(groups)
    rows = rows_in(order, first_rules(groups))
    for (root, down), row in zip(order, rows):
        row[COUNT] = sum(root == other and way.startswith(down) for other, way in order) - 1
    return rows


def last_rules(groups):
    """The last rule of those with one ending, not the first."""
    ends = [(root, rule.ending[::-1]) for root, group in enumerate(groups) for rule in group.rules]
    return rows_in(sorted_nodes(groups), {end: number for number, end in enumerate(ends, 1)})


def rules_of_groups(groups):
    """Rules counted from 1 in each group."""
    rules = {}
    for root, group in enumerate(groups):
        for number, rule in reversed(list(enumerate(group.rules, 1))):
            rules[root, rule.ending[::-1]] = number
    return rows_in(sorted_nodes(groups), rules)


OTHERS = {
    "01's before W-206": by_links,
    "its order, with counts": lambda groups: rows_in(asked_for(groups), first_rules(groups)),
    "level by level, with links": levels_with_links,
    "children as the rules ask for them": lambda groups: by_levels(groups, list),
    "falling letters": lambda groups: by_levels(groups, falling),
    "parents the other way round": lambda groups: by_levels(groups, parents_backwards),
    "group by group": in_order_of(lambda node: (node[1] != b"", node[0], len(node[1]), node[1])),
    "all of a group, its root first": in_order_of(lambda node: (node[0], len(node[1]), node[1])),
    "the order of the tails": in_order_of(lambda node: (len(node[1]), node[0], node[1][::-1])),
    "letters before groups": in_order_of(lambda node: (len(node[1]), node[1], node[0])),
    "the last letter first": in_order_of(lambda node: (len(node[1]), node[1][-1:], *node)),
    "roots first, then the order of words": in_order_of(lambda node: (node[1] != b"", *node)),
    "depth first": depth_first,
    "never 0 for a child": never_0,
    "counts of all below": all_below,
    "the last rule of an ending": last_rules,
    "rules counted in their group": rules_of_groups,
    "count before child": with_child(lambda _, row: row[COUNT], lambda _, row: row[CHILD]),
    "nodes counted from 1": with_child(lambda _, row: row[CHILD] + (row[COUNT] > 0)),
    "children by their place": with_child(lambda _, row: 4 * row[CHILD]),
    "children by their distance": with_child(lambda at, row: row[CHILD] - (row[COUNT] > 0) * at),
    "the last child": with_child(lambda _, row: row[CHILD] + max(0, row[COUNT] - 1)),
}


# The right layout with a fault in it


def exchanged(listed, one, other):
    listed = list(listed)
    listed[one], listed[other] = listed[other], listed[one]
    return listed


def turned(blocks, one, other):
    """The blocks with these two exchanged, if they are among them."""
    if one not in blocks:
        return blocks
    return exchanged(blocks, blocks.index(one), blocks.index(other))


def swapped_children(groups):
    """Two neighbouring children of a node in each other's place: their letters alone; their rows,
    and those below them stay; or these follow them, level by level."""
    order = sorted_nodes(groups)
    for at, (one, other) in enumerate(zip(order, order[1:])):
        if not one[1] or parent_of(one) != parent_of(other):
            continue
        rows = by_sorting(groups)
        yield exchanged(rows, at, at + 1)
        first, second = rows[at], rows[at + 1]
        lettered = [[second[LETTER], *first[1:]], [first[LETTER], *second[1:]]]
        yield rows[:at] + lettered + rows[at + 2 :]
        as_other = {one: other, other: one}

        def letter_order(node):
            return as_other.get(node, node)

        yield by_levels(groups, lambda level: [sorted(block, key=letter_order) for block in level])


def other_parents_order(groups):
    """The children of two nodes of a level in each other's place: those below them stay; or follow
    them, level by level. And the first children alone, each in the place of the other."""
    order, rules = sorted_nodes(groups), first_rules(groups)
    children = families(order)
    parents = [node for node in order if children[node]]
    for one, other in zip(parents, parents[1:]):
        if len(one[1]) != len(other[1]):
            continue
        first, second = order.index(children[one][0]), order.index(children[other][0])
        behind = second + len(children[other])
        yield rows_in(order[:first] + children[other] + children[one] + order[behind:], rules)
        yield by_levels(groups, lambda level: turned(rising(level), children[one], children[other]))
        yield exchanged(rows_in(order, rules), first, second)


def cut_off(groups):
    """A node that has no children is left out: the row stays, but is no child any more; the rows
    behind it move up, and zeros, or the row itself, stand behind the others; or nothing does."""
    order, rules = sorted_nodes(groups), first_rules(groups)
    rows = rows_in(order, rules)
    for number, node in enumerate(order):
        if not node[1] or rows[number][COUNT]:
            continue
        parent = order.index(parent_of(node))
        first, count = rows[parent][CHILD], rows[parent][COUNT]
        if number in (first, first + count - 1):
            lonely = [list(row) for row in rows]
            lonely[parent][CHILD] = 0 if count == 1 else first + (number == first)
            lonely[parent][COUNT] = count - 1
            yield lonely
        left = rows_in([other for other in order if other != node], rules)
        yield left + [[0, 0, 0, 0]]
        yield left + [rows[number]]
        yield left


def one_too_many(groups):
    """A node that no rule asks for, of the first letter or the last that its parent has no child
    of: in its place, and the rows behind it move down; or behind all others."""
    order, rules = sorted_nodes(groups), first_rules(groups)
    children = families(order)
    for root, down in order:
        letters = [child[1][-1] for child in children[root, down]]
        free = [letter for letter in b"abcdefghijklmnopqrstuvwxyz" if letter not in letters]
        for letter in {*free[:1], *free[-1:]}:
            added = (root, down + bytes([letter]))
            yield rows_in(sorted([*order, added], key=depth_and_way), rules)
            yield rows_in([*order, added], rules)


def miscounted(groups):
    """A count one too high or too low; and one too low, with the first child one later."""
    for number, row in enumerate(by_sorting(groups)):
        shifts = [(0, 1)] + [(0, -1), (1, -1), (-1, 1)] * (row[COUNT] > 0)
        for first, count in shifts:
            rows = by_sorting(groups)
            rows[number][CHILD] += first
            rows[number][COUNT] += count
            yield rows


FAULTS = [swapped_children, other_parents_order, cut_off, one_too_many, miscounted]


def faulty_tables(groups):
    """The numbers of every table with a fault. None begins with the right one."""
    right = sum(by_sorting(groups), [])
    for fault in FAULTS:
        for rows in fault(groups):
            table = sum(rows, [])
            assert table[: len(right)] != right, (fault.__name__, groups)
            yield table


def other_layouts(groups):
    """The numbers of every other layout. Some are the right one, where a sheet has few nodes."""
    return [sum(layout(groups), []) for layout in OTHERS.values()]


def other_values(rng, table, place):
    """What a number of a table could be instead."""
    right = table[place]
    nodes = len(table) // 4
    near = {0, 1, right - 1, right + 1, right ^ 256, 65535, rng.randrange(nodes), rng.choice(table)}
    return sorted(value for value in near - {right} if 0 <= value <= 65535)
