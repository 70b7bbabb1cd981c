"""Entries, classes, arrows and closings, as document 01 defines them.

A state only grows: whoever refuses a node or takes one back begins afresh with the nodes that are still kept. Nothing here is fast,
and nothing is undone.
"""

import sys

FREE = (None, 0, 0)
UNIT = (0, 0, 0)
SUM, PRODUCT = 1, 2

WORD = 16
LARGEST_WORD = 31
ONE = 0  # the entry of the type 1; that of 2^(2^n) is n + 1
TWO_TO_256 = 8 + 1

# A type can lie as deep as there are entries, and the walk of a closing calls itself.
sys.setrecursionlimit(4 * 8225)


class Clash(Exception):
    """Two kinds are equal by force. Its argument is the rule that brought it."""


class Endless(Exception):
    """A class lies inside itself."""


class State:
    def __init__(self):
        self.bounds = []  # of each entry: a kind and two components
        self.parents = []  # for each entry one of its class; the class is the entry that is its own
        self.classes = 0
        self.arrows = []  # of each node: the entries of its source and target
        self.entry(UNIT)
        word = self.sum(ONE, ONE)
        for _ in range(LARGEST_WORD):
            word = self.product(word, word)

    def entry(self, bound):
        self.bounds.append(bound)
        self.parents.append(len(self.parents))
        self.classes += 1
        return len(self.parents) - 1

    def free(self):
        return self.entry(FREE)

    def sum(self, left, right):
        return self.entry((SUM, left, right))

    def product(self, left, right):
        return self.entry((PRODUCT, left, right))

    def class_of(self, entry):
        while self.parents[entry] != entry:
            self.parents[entry] = self.parents[self.parents[entry]]
            entry = self.parents[entry]
        return entry

    def rule(self, number, one, other):
        """Makes two entries equal by force, and with them all that follows. A class is the entry whose bound it shows."""
        waiting = [(one, other)]
        while waiting:
            one, other = map(self.class_of, waiting.pop())
            if one == other:
                continue
            if self.bounds[one] == FREE:
                one, other = other, one
            kind, left, right = self.bounds[one]
            other_kind, other_left, other_right = self.bounds[other]
            if self.bounds[other] != FREE and kind != other_kind:
                raise Clash(number)
            self.parents[other] = one
            self.classes -= 1
            if other_kind in (SUM, PRODUCT):
                waiting += [(left, other_left), (right, other_right)]

    def offer(self, kind, fields):
        """Adds a node that is well-formed, and gives its joins."""
        _, new_entries, row = KINDS[kind]
        entries, classes = len(self.bounds), self.classes
        given = fields if kind == WORD else [self.arrows[child] for child in fields]
        self.arrows.append(row(self, *given))
        assert len(self.bounds) - entries == new_entries
        return classes + new_entries - self.classes

    def close(self):
        """The types, each once, and the arrows as numbers of types. Raises Endless with the lowest node that has no finite type."""
        types, numbers, begun = {}, {}, set()

        def number(entry):
            one = self.class_of(entry)
            if one not in numbers:
                if one in begun:
                    raise Endless
                begun.add(one)
                kind, left, right = self.bounds[one]
                found = (kind, number(left), number(right)) if kind in (SUM, PRODUCT) else UNIT
                numbers[one] = types.setdefault(found, len(types))
            return numbers[one]

        arrows = []
        for node, (source, target) in enumerate(self.arrows):
            try:
                arrows.append((number(source), number(target)))
            except Endless:
                raise Endless(node) from None
        return list(types), arrows


# A row of the table for each kind. A capital is a free type, s and t are the children's arrows; `new` is the state, to which the row
# adds its entries and rules. The arrow is what a row gives.


def iden(new):
    A = new.free()
    return A, A


def unit(new):
    return new.free(), ONE


def injl(new, t):
    A, B = t
    return A, new.sum(B, new.free())


def injr(new, t):
    A, C = t
    return A, new.sum(new.free(), C)


def take(new, t):
    A, C = t
    return new.product(A, new.free()), C


def drop(new, t):
    B, C = t
    return new.product(new.free(), B), C


def comp(new, s, t):
    new.rule(1, s[1], t[0])
    return s[0], t[1]


def case(new, s, t):
    A, B, C, D = new.free(), new.free(), new.free(), new.free()
    if s:
        new.rule(3, s[0], new.product(A, C))
        new.rule(None, D, s[1])  # D is free till now, so this cannot clash
    if t:
        new.rule(4, t[0], new.product(B, C))
        new.rule(5, D, t[1])
    return new.product(new.sum(A, B), C), D


def assertl(new, s):
    return case(new, s, None)


def assertr(new, t):
    return case(new, None, t)


def pair(new, s, t):
    new.rule(2, s[0], t[0])
    return s[0], new.product(s[1], t[1])


def disconnect(new, s, t):
    A, B = new.free(), new.free()
    new.rule(6, s[0], new.product(TWO_TO_256, A))
    new.rule(7, s[1], new.product(B, t[0]))
    return A, new.product(B, t[1])


def disconnect_one(new, s):
    return disconnect(new, s, (new.free(), new.free()))


def witness(new):
    return new.free(), new.free()


def word(new, n):
    return ONE, n + 1


# Each kind: how many fields it uses, how many entries are new, its row.
KINDS = {
    1: (0, 1, iden),
    2: (0, 1, unit),
    3: (1, 2, injl),
    4: (1, 2, injr),
    5: (1, 2, take),
    6: (1, 2, drop),
    7: (2, 0, comp),
    8: (2, 8, case),
    9: (1, 7, assertl),
    10: (1, 7, assertr),
    11: (2, 1, pair),
    12: (2, 5, disconnect),
    13: (1, 7, disconnect_one),
    14: (0, 2, witness),
    15: (0, 2, witness),
    16: (1, 0, word),
}
