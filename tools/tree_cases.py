#!/usr/bin/env python3
"""Writes the calls that `tree_cases` and tools/trees.py are run on: the same ones each time.

    tools/tree_cases.py            the stored cases
    tools/tree_cases.py SEED N     N calls of each kind at random, for long runs of tools/trees.py --check
"""
import sys


class Dice:
    """Numbers by a rule that every language has: x becomes x times 1103515245 plus 12345, below 2 to the 31st."""

    def __init__(self, seed):
        self.x = seed

    def below(self, n):
        self.x = (self.x * 1103515245 + 12345) % 2**31
        return (self.x >> 8) % n

    def ends(self, most, span):
        """A first and a last end, the first above the last one time in sixteen."""
        first = self.below(most)
        last = min(most - 1, first + self.below(span))
        return (last, first) if self.below(16) == 0 else (first, last)


class Boxes:
    word = "boxes"

    def extent(self, dice, span):
        (left, right), (top, bottom) = dice.ends(256, span), dice.ends(256, span)
        return (left, top, right, bottom)

    def spot(self, dice):
        return (dice.below(260), dice.below(260))


class Intervals:
    word = "intervals"

    def extent(self, dice, span):
        first, last = dice.ends(65536, 100 * span)
        return (first, last)

    def spot(self, dice):
        return (dice.below(65536),)


def call(word, *figures):
    print(" ".join([word] + [str(f) for f in figures]))


def insert(pair):
    call("insert", *pair[0], pair[1])


def delete(pair):
    call("delete", *pair[0], pair[1])


def looks(kind, dice, n):
    for _ in range(n):
        call("find", *kind.extent(dice, 64))
        call("at", *kind.spot(dice))


def in_a_row():
    """The first split, and the smallest trees."""
    call("intervals", 2048)
    call("show")
    call("find", 0, 65535)
    for k in range(9):
        insert(((k, k), k))
        call("show")
    call("find", 3, 6)
    call("at", 8)
    for k in (4, 0, 8, 3, 7):
        delete(((k, k), k))
        call("show")
    call("delete", 4, 4, 4)
    call("delete", 5, 5, 6)
    call("delete", 5, 6, 5)


def refusals():
    """Too few places, too short a list, a pair that is not there."""
    for places in (0, 2047, 2048, 2049):
        call("boxes", places)
        call("list", 255)
        call("insert", 1, 2, 3, 4, 9)
        call("find", 0, 0, 255, 255)
        call("at", 2, 3)
        call("delete", 1, 2, 3, 4, 8)
        call("list", 256)
        call("find", 0, 0, 255, 255)
        call("at", 2, 3)
        call("at", 300, 3)
        call("delete", 1, 2, 3, 4, 9)
        call("show")


def copies(kind, dice):
    """One pair many times over, among others that equal it in one of its two parts."""
    call(kind.word, 2048)
    extent = kind.extent(dice, 40)
    for k in range(24):
        insert((extent, 7))
        if k % 3 == 0:
            insert((extent, 1000 + k))
            insert((kind.extent(dice, 40), 7))
    call("show")
    call("find", *extent)
    for _ in range(25):
        delete((extent, 7))
    call("show")
    call("find", *extent)


def small(kind, dice):
    """A small tree, seen after each call."""
    call(kind.word, 2048)
    pairs = []
    for k in range(40):
        pairs.append((kind.extent(dice, 60), dice.below(65536)))
        insert(pairs[-1])
        if k > 7:
            call("show")
    looks(kind, dice, 10)
    while pairs:
        delete(pairs.pop(dice.below(len(pairs))))
        call("show")


def full(kind, dice, span):
    """A tree that is filled, refuses, and is emptied again."""
    call(kind.word, 2048)
    pairs = []
    for k in range(256):
        pairs.append((kind.extent(dice, span), k))
        insert(pairs[-1])
    insert((kind.extent(dice, span), 256))
    call("show")
    looks(kind, dice, 12)
    while pairs:
        delete(pairs.pop(dice.below(len(pairs))))
        if len(pairs) % 64 == 63:
            call("show")
            looks(kind, dice, 3)
    call("delete", *kind.extent(dice, span), 3)
    call("show")


def in_order(kind, pairs):
    """Pairs that come in order, and go from the front."""
    call(kind.word, 2048)
    for pair in pairs:
        insert(pair)
    call("show")
    for pair in pairs[: len(pairs) - 5]:
        delete(pair)
    call("show")


def mixed(kind, dice, n):
    """Calls of every sort, at random, about as many pairs as leave."""
    call(kind.word, 2048)
    pairs = []
    for _ in range(n):
        turn = dice.below(20)
        if turn < 9 or not pairs:
            pairs.append((kind.extent(dice, 1 + dice.below(200)), dice.below(65536)))
            insert(pairs[-1])
            if len(pairs) > 256:
                pairs.pop()
        elif turn < 17:
            delete(pairs.pop(dice.below(len(pairs))))
        elif turn == 17:
            call("delete", *kind.extent(dice, 9), 5)
        else:
            looks(kind, dice, 1)


def stored():
    dice = Dice(1984)
    in_a_row()
    refusals()
    for kind in (Boxes(), Intervals()):
        copies(kind, dice)
        small(kind, dice)
        full(kind, dice, 48)
        mixed(kind, dice, 200)
    in_order(Boxes(), [((x, y, x, y), 16 * y + x) for y in range(16) for x in range(16)])
    in_order(Intervals(), [((k, 65535 - k), k) for k in range(100)])


def main():
    if len(sys.argv) == 1:
        stored()
        return
    dice = Dice(int(sys.argv[1]))
    for kind in (Boxes(), Intervals()):
        copies(kind, dice)
        small(kind, dice)
        full(kind, dice, 1 + dice.below(200))
        mixed(kind, dice, int(sys.argv[2]))


if __name__ == "__main__":
    main()
