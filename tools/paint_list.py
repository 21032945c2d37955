#!/usr/bin/env python3
"""A second painter, written from docs/RULES.md alone: what `evidence` should print for a list of shapes that it takes.

    tools/paint_list.py < LIST               the record, the picture and the last line
    tools/paint_list.py FRAME.ppm < LIST     writes the frame too
"""
import sys

MASKS = [63, 6, 91, 79, 102, 109, 125, 7, 127, 111, 64, 128, 121, 115, 56, 62]


def lit(mask, i, j):
    def has(weight):
        return mask // weight % 2 == 1

    bar = 2 <= i <= 5 and any(has(b) and j == row for b, row in ((1, 1), (64, 7), (8, 13)))
    posts = {1: (32, 16), 6: (2, 4)}
    post = i in posts and (has(posts[i][0]) and 2 <= j <= 6 or has(posts[i][1]) and 8 <= j <= 12)
    point = i == 7 and has(128) and j in (13, 14)
    return bar or post or point


def line_pixels(x0, y0, x1, y1):
    dx, dy = abs(x1 - x0), abs(y1 - y0)
    sx, sy = (1 if x1 >= x0 else -1), (1 if y1 >= y0 else -1)
    if dx == 0 and dy == 0:
        return [(x0, y0)]
    if dx >= dy:
        return [(x0 + sx * i, y0 + sy * ((2 * i * dy + dx) // (2 * dx))) for i in range(dx + 1)]
    return [(x0 + sx * ((2 * i * dx + dy) // (2 * dy)), y0 + sy * i) for i in range(dy + 1)]


def pixels(kind, figures):
    if kind == "box":
        x, y, w, h = figures
        return [(a, b) for a in range(x, x + w) for b in range(y, y + h)]
    if kind == "line":
        return line_pixels(*figures)
    x, y, g = figures
    return [(x + i, y + j) for i in range(8) for j in range(16) if lit(MASKS[g], i, j)]


def colour(ink):
    return bytes(255 - 170 * (ink // weight % 2) - 85 * (ink // 8 % 2) for weight in (4, 2, 1))


def main():
    shapes, spans, frame, out = {}, {}, 0, []
    width = height = 0
    for k, line in enumerate(sys.stdin.read().splitlines(), 1):
        word, *rest = line.split(" ")
        figures = [int(r) for r in rest]
        if word == "sheet":
            width, height = figures
            out.append(f"{k} sheet {width} x {height}")
        elif word == "span":
            s, n, first, last, ink = figures
            spans[s] = (n, first, last, ink)
            out.append(f"{k} span {s}: shape {n}, frames {first} to {last}, ink {ink}")
        elif word == "frame":
            frame = figures[0]
            out.append(f"{k} frame {frame}")
        else:
            n, *own, ink = figures
            shapes[n] = (word, own, ink)
            out.append(f"{k} {word} {n}: {len(set(pixels(word, own)))} pixels, ink {ink}")
    picture = [[0] * width for _ in range(height)]
    for n in sorted(shapes):
        word, own, ink = shapes[n]
        for s in sorted(spans):
            if spans[s][0] == n and spans[s][1] <= frame <= spans[s][2]:
                ink = spans[s][3]
        for x, y in pixels(word, own):
            picture[y][x] = ink
    out += ["".join("." if ink == 0 else f"{ink:x}" for ink in row) for row in picture]
    data = f"P6\n{width} {height}\n255\n".encode() + b"".join(colour(ink) for row in picture for ink in row)
    out.append(f"frame {frame}: {width} x {height}, {len(data)} bytes")
    print("\n".join(out))
    if len(sys.argv) > 1:
        with open(sys.argv[1], "wb") as f:
            f.write(data)


main()
