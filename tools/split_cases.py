#!/usr/bin/env python3
"""The split of nine extents once more, written from docs/RULES.md alone.

    tools/split_cases.py make              the cases, one to a line: boxes or intervals, and then their ends
    tools/split_cases.py letters < CASES   the letters of each case
"""
import sys

HIGHEST = {"boxes": 255, "intervals": 65535}
AXES = {"boxes": 2, "intervals": 1}


# An extent is a list of axes, each a pair of its first and its last.

def size(extent):
    product = 1
    for first, last in extent:
        product *= max(last + 1 - first, 0)
    return product


def join(one, other):
    return [(min(a, c), max(b, d)) for (a, b), (c, d) in zip(one, other)]


def growth(extent, other):
    return size(join(extent, other)) - size(extent)


class Group:
    def __init__(self, letter, extents, place):
        self.letter, self.places, self.extent = letter, [place], extents[place]

    def take(self, extents, place):
        self.places.append(place)
        self.extent = join(self.extent, extents[place])


def seeds(extents):
    pairs = [(i, j) for i in range(9) for j in range(i + 1, 9)]
    waste = {(i, j): size(join(extents[i], extents[j])) - size(extents[i]) - size(extents[j]) for i, j in pairs}
    most = max(waste.values())
    return next(pair for pair in pairs if waste[pair] == most)


def group_for(a, b, extent):
    key_a, key_b = ((growth(g.extent, extent), size(g.extent), len(g.places)) for g in (a, b))
    return a if key_a <= key_b else b


def split(extents):
    i, j = seeds(extents)
    a, b = Group("A", extents, i), Group("B", extents, j)
    rest = [k for k in range(9) if k not in (i, j)]
    while rest:
        starved = [g for g in (a, b) if len(g.places) + len(rest) == 3]
        if starved:
            for k in rest:
                starved[0].take(extents, k)
            break
        pulls = [abs(growth(a.extent, extents[k]) - growth(b.extent, extents[k])) for k in rest]
        k = rest.pop(pulls.index(max(pulls)))
        group_for(a, b, extents[k]).take(extents, k)
    return "".join("A" if k in a.places else "B" for k in range(9))


class Numbers:
    """A generator of its own, so that the cases are the same everywhere."""

    def __init__(self, start):
        self.state = start

    def below(self, n):
        self.state = (self.state * 6364136223846793005 + 1442695040888963407) % 2**64
        return (self.state >> 33) % n


def between(numbers, low, high):
    return low + numbers.below(high - low + 1)


def spread(numbers, kind, low, high, longest):
    """Nine extents with firsts from low to high, and so many spots at most along each axis."""
    def axis():
        first = between(numbers, low, high)
        return first, min(first + numbers.below(longest), HIGHEST[kind])

    return [[axis() for _ in range(AXES[kind])] for _ in range(9)]


def any_ends(numbers, kind, high):
    """Nine extents whose ends are any numbers, the first often above the last."""
    return [[(numbers.below(high + 1), numbers.below(high + 1)) for _ in range(AXES[kind])] for _ in range(9)]


def shuffled(numbers, items):
    items = list(items)
    for i in range(len(items) - 1, 0, -1):
        j = numbers.below(i + 1)
        items[i], items[j] = items[j], items[i]
    return items


def nested(numbers, kind):
    middle, step = HIGHEST[kind] // 2, between(numbers, 1, 12)
    return shuffled(numbers, [[(middle - step * k, middle + step * k)] * AXES[kind] for k in range(9)])


def clusters(numbers, kind):
    """Some extents at one end and the others at the other."""
    near = 1 + numbers.below(8)
    highest = HIGHEST[kind]
    ends = [[(between(numbers, 0, 9), between(numbers, 9, 20)) for _ in range(AXES[kind])] for _ in range(near)]
    ends += [[(between(numbers, highest - 20, highest - 9), between(numbers, highest - 9, highest)) for _ in range(AXES[kind])]
             for _ in range(9 - near)]
    return shuffled(numbers, ends)


def known(kind):
    """A few cases by hand."""
    highest, axes = HIGHEST[kind], AXES[kind]
    yield [[(k, k)] * axes for k in range(9)]
    yield [[(8 - k, 8 - k)] * axes for k in range(9)]
    yield [[(5, 5)] * axes] * 9
    yield [[(7, 2)] * axes] * 9
    yield [[(0, highest)] * axes] * 9
    yield [[(highest, 0)] * axes] * 9
    yield [[(0, 0)] * axes] * 8 + [[(highest, highest)] * axes]
    yield [[(0, highest)] * axes] + [[(k, k)] * axes for k in range(8)]
    yield [[(10 * k, 10 * k + 9)] * axes for k in range(9)]
    yield [[(10 * k, 10 * k + 10)] * axes for k in range(9)]
    yield [[(0, k)] * axes for k in range(9)]
    yield [[(k, highest)] * axes for k in range(9)]


def cases():
    numbers = Numbers(2024)
    for kind in ("boxes", "intervals"):
        highest = HIGHEST[kind]
        for extents in known(kind):
            yield kind, extents
        for _ in range(40):
            yield kind, spread(numbers, kind, 0, highest, highest + 1)
            yield kind, spread(numbers, kind, 0, highest, 20)
            yield kind, spread(numbers, kind, 0, 6, 4)
            yield kind, spread(numbers, kind, 0, 3, 1)
            yield kind, any_ends(numbers, kind, highest)
            yield kind, any_ends(numbers, kind, 4)
            yield kind, nested(numbers, kind)
            yield kind, clusters(numbers, kind)


def written(kind, extent):
    if kind == "intervals":
        return list(extent[0])
    (left, right), (top, bottom) = extent
    return [left, top, right, bottom]


def read(line):
    kind, *words = line.split()
    n = [int(word) for word in words]
    if kind == "intervals":
        return [[(n[2 * k], n[2 * k + 1])] for k in range(9)]
    return [[(n[4 * k], n[4 * k + 2]), (n[4 * k + 1], n[4 * k + 3])] for k in range(9)]


def main():
    if sys.argv[1:] == ["make"]:
        for kind, extents in cases():
            print(kind, *(n for extent in extents for n in written(kind, extent)))
    elif sys.argv[1:] == ["letters"]:
        for line in sys.stdin:
            print(split(read(line)))
    else:
        sys.exit(__doc__)


main()
