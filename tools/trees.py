#!/usr/bin/env python3
"""A second tree, written from docs/RULES.md and not from the code: what `tree_cases` should print for a list of calls.

    tools/trees.py < CALLS             what each call answers
    tools/trees.py --check < CALLS     the same, and after each call the tree is checked against a plain list of its pairs

A line of CALLS is one of these; an extent is LEFT TOP RIGHT BOTTOM or FIRST LAST, and a spot X Y or FRAME:

    boxes PLACES          a new tree of plane boxes over so many lent places
    intervals PLACES      a new tree of intervals
    list LENGTH           the length of the lists for find and at in this tree from now on; at first it is 256
    insert EXTENT CODE    prints the sum of the tree's text, or the refusal
    delete EXTENT CODE    likewise
    find EXTENT           prints how many codes there are and the codes, as they come, or the refusal
    at SPOT               likewise
    show                  prints the tree's text

The text of a leaf is `[e:code e:code ..]` and of another node `(e:node e:node ..)`, with the figures of the extent e between commas.
The sum of a text begins with 0; each byte b makes it 31 times the sum plus b, without what exceeds 32 bits.
"""
import sys

MOST, LEAST, PAIRS, ROWS, PLACES = 8, 3, 256, 256, 8


class Refused(Exception):
    pass


class Kind:
    """Extents along one or two axes: the firsts come before the lasts, and a spot has a figure for each axis."""

    def __init__(self, axes):
        self.axes = axes

    def ends(self, e):
        return list(zip(e[: self.axes], e[self.axes :]))

    def size(self, e):
        spots = 1
        for first, last in self.ends(e):
            spots *= max(0, last + 1 - first)
        return spots

    def join(self, d, e):
        return tuple(map(min, d[: self.axes], e[: self.axes])) + tuple(map(max, d[self.axes :], e[self.axes :]))

    def covers(self, d, e):
        return all(a <= c and f <= b for (a, b), (c, f) in zip(self.ends(d), self.ends(e)))

    def meets(self, d, e):
        return all(a <= f and c <= b for (a, b), (c, f) in zip(self.ends(d), self.ends(e)))

    def holds(self, e, spot):
        return all(first <= s <= last for (first, last), s in zip(self.ends(e), spot))

    def growth(self, d, e):
        return self.size(self.join(d, e)) - self.size(d)


BOXES, INTERVALS = Kind(2), Kind(1)


class Entry:
    """An extent with the code of a pair, or with a node."""

    def __init__(self, extent, below):
        self.extent, self.below = extent, below


class Node:
    def __init__(self, height, entries):
        self.height, self.entries = height, entries

    def pairs(self):
        """The pairs under it, depth first."""
        if self.height == 0:
            return [(e.extent, e.below) for e in self.entries]
        return [p for e in self.entries for p in e.below.pairs()]

    def text(self):
        parts = [",".join(map(str, e.extent)) + ":" + (str(e.below) if self.height == 0 else e.below.text()) for e in self.entries]
        return ("[%s]" if self.height == 0 else "(%s)") % " ".join(parts)


def share_out(kind, extents):
    """Nine extents in two groups: a letter for each."""
    letters = [None] * len(extents)

    def gain(i, j):
        return kind.size(kind.join(extents[i], extents[j])) - kind.size(extents[i]) - kind.size(extents[j])

    seeds = [(i, j) for i in range(len(extents)) for j in range(i + 1, len(extents))]
    first, second = max(seeds, key=lambda s: gain(*s))  # max takes the first of equals
    letters[first], letters[second] = "A", "B"
    cover = {"A": extents[first], "B": extents[second]}
    while None in letters:
        left = [i for i, letter in enumerate(letters) if letter is None]
        starved = [g for g in "AB" if letters.count(g) + len(left) == LEAST]
        if starved:
            for i in left:
                letters[i] = starved[0]
            break

        def grows(g, i):
            return kind.growth(cover[g], extents[i])

        i = max(left, key=lambda k: abs(grows("A", k) - grows("B", k)))
        g = min("AB", key=lambda g: (grows(g, i), kind.size(cover[g]), letters.count(g)))  # A of equals
        letters[i] = g
        cover[g] = kind.join(cover[g], extents[i])
    assert min(letters.count("A"), letters.count("B")) >= LEAST
    return letters


class Tree:
    def __init__(self, kind, places):
        self.kind, self.places, self.stored = kind, places, 0
        self.root = Node(0, [])

    # ---- reading

    def reached(self, node, passes):
        for e in node.entries:
            if passes(e.extent):
                if node.height == 0:
                    yield e.below
                else:
                    yield from self.reached(e.below, passes)

    def look(self, length, passes):
        self.lent()
        if length < PAIRS:
            raise Refused(16)
        return list(self.reached(self.root, passes))

    def find(self, extent, length):
        return self.look(length, lambda e: self.kind.meets(e, extent))

    def at(self, spot, length):
        return self.look(length, lambda e: self.kind.holds(e, spot))

    def lent(self):
        if self.places < ROWS * PLACES:
            raise Refused(4)

    # ---- writing

    def bound(self, node):
        whole = node.entries[0].extent
        for e in node.entries[1:]:
            whole = self.kind.join(whole, e.extent)
        return whole

    def add(self, node, entry):
        """The entry comes to the end of the node. If that is one too many, group A stays and a node of group B is handed back."""
        node.entries.append(entry)
        if len(node.entries) <= MOST:
            return None
        letters = share_out(self.kind, [e.extent for e in node.entries])
        nine = node.entries
        node.entries = [e for e, letter in zip(nine, letters) if letter == "A"]
        return Node(node.height, [e for e, letter in zip(nine, letters) if letter == "B"])

    def put(self, node, extent, code):
        if node.height == 0:
            return self.add(node, Entry(extent, code))
        way = min(node.entries, key=lambda e: (self.kind.growth(e.extent, extent), self.kind.size(e.extent)))  # the first of equals
        other = self.put(way.below, extent, code)
        way.extent = self.bound(way.below)
        return None if other is None else self.add(node, Entry(self.bound(other), other))

    def store(self, extent, code):
        other = self.put(self.root, extent, code)
        if other is not None:
            old = self.root
            self.root = Node(old.height + 1, [Entry(self.bound(old), old), Entry(self.bound(other), other)])

    def insert(self, extent, code):
        self.lent()
        if self.stored == PAIRS:
            raise Refused(14)
        self.store(extent, code)
        self.stored += 1

    def take(self, entries, i):
        """Entry i goes, and the last one takes its place."""
        entries[i] = entries[-1]
        entries.pop()

    def cut(self, node, extent, code, orphans):
        """Takes the first such pair out under the node, and says whether there was one."""
        for i, e in enumerate(node.entries):
            if node.height == 0:
                if (e.extent, e.below) == (extent, code):
                    self.take(node.entries, i)
                    return True
            elif self.kind.covers(e.extent, extent) and self.cut(e.below, extent, code, orphans):
                if len(e.below.entries) < LEAST:
                    orphans.extend(e.below.pairs())
                    self.take(node.entries, i)
                else:
                    e.extent = self.bound(e.below)
                return True
        return False

    def delete(self, extent, code):
        self.lent()
        orphans = []
        if not self.cut(self.root, extent, code, orphans):
            raise Refused(15)
        for pair in orphans:
            self.store(*pair)
        if self.root.height > 0 and len(self.root.entries) == 1:
            self.root = self.root.entries[0].below
        self.stored -= 1


# ---- checks


def check_node(tree, node, least):
    """The node is well formed; answers how many nodes there are."""
    assert least <= len(node.entries) <= MOST
    nodes = 1
    if node.height > 0:
        for e in node.entries:
            assert e.below.height == node.height - 1
            extents = [x.extent for x in e.below.entries]
            assert all(tree.kind.covers(e.extent, x) for x in extents)
            # the join is the least that covers: each of its ends is the end of one of them
            for k in range(len(e.extent)):
                assert any(x[k] == e.extent[k] for x in extents)
            nodes += check_node(tree, e.below, LEAST)
    return nodes


def check(tree, plain):
    nodes = check_node(tree, tree.root, 2 if tree.root.height > 0 else 0)
    assert nodes <= ROWS and tree.root.height <= 5
    assert sorted(tree.root.pairs()) == sorted(plain) and tree.stored == len(plain) <= PAIRS


# ---- calls


def checksum(text):
    total = 0
    for b in text.encode():
        total = (31 * total + b) % 2**32
    return total


def answer(tree, word, figures, length):
    n = 2 * tree.kind.axes
    if word == "insert":
        tree.insert(tuple(figures[:n]), figures[n])
        return f"insert: {checksum(tree.root.text())}"
    if word == "delete":
        tree.delete(tuple(figures[:n]), figures[n])
        return f"delete: {checksum(tree.root.text())}"
    if word == "show":
        return tree.root.text()
    codes = tree.find(tuple(figures), length) if word == "find" else tree.at(tuple(figures), length)
    return " ".join([f"{word} {len(codes)}:"] + [str(c) for c in codes])


def expect(plain, tree, word, figures, said):
    """The plain list after the call, and what the call may have said."""
    n = 2 * tree.kind.axes
    kind = tree.kind
    if word in ("insert", "delete") and "refused" not in said:
        pair = (tuple(figures[:n]), figures[n])
        if word == "insert":
            plain.append(pair)
        else:
            plain.remove(pair)
    if word == "delete" and said.endswith("refused 15"):
        assert (tuple(figures[:n]), figures[n]) not in plain
    if word in ("find", "at") and "refused" not in said:
        passes = (lambda e: kind.meets(e, tuple(figures))) if word == "find" else (lambda e: kind.holds(e, tuple(figures)))
        codes = [int(c) for c in said.split(":")[1].split()]
        assert sorted(codes) == sorted(c for e, c in plain if passes(e))
    check(tree, plain)


def run(lines, checked):
    tree, plain, length = None, [], PAIRS
    for line in lines:
        word, *rest = line.split()
        figures = [int(r) for r in rest]
        if word in ("boxes", "intervals"):
            tree, plain, length = Tree(BOXES if word == "boxes" else INTERVALS, figures[0]), [], PAIRS
            yield f"{word} over {figures[0]} places"
        elif word == "list":
            length = figures[0]
            yield f"lists of {length}"
        else:
            try:
                said = answer(tree, word, figures, length)
            except Refused as r:
                said = f"{word}: refused {r}"
            if checked:
                expect(plain, tree, word, figures, said)
            yield said


if __name__ == "__main__":
    for said in run(sys.stdin, "--check" in sys.argv[1:]):
        print(said)
