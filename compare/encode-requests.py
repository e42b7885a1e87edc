#!/usr/bin/env python3
"""Prints requests for `varc encode`, always the same ones: both sides of every bound, and random ones of every shape.

An empty INDEX is left out, since there the format's document and write-fonts differ (docs/DIFFERENCES.md)."""
import random

rng = random.Random(20261118)
BOUNDS = [0, 0x7F, 0x80, 0x3FFF, 0x4000, 0x1FFFFF, 0x200000, 0xFFFFFFF, 0x10000000, 0x7FFFFFFF, 0x80000000, 0xFFFFFFFF]


def near(bounds, low, high):
    return sorted({n for b in bounds for n in (b - 1, b, b + 1) if low <= n <= high})


for n in near(BOUNDS, 0, 0xFFFFFFFF):
    print(f"number {n}")
for _ in range(150):
    print(f"number {rng.randrange(1 << rng.randrange(1, 33))}")

# one value of each width: none, one byte, two, four
EDGES = near([0, 127, 128, 255, 256, 32767, 32768, 65535, 2147483647, -128, -129, -32768, -32769, -2147483648], -2147483648, 2147483647)


def value(width):
    if width == 0:
        return 0
    low, high = {1: (1, 127), 2: (128, 32767), 4: (32768, 2147483647)}[width]
    n = rng.choice([low, high, rng.randint(low, high)])
    return n if rng.random() < 0.5 else -n - (width == 1 and n == 127) - (width != 1)


def packed(values):
    print("packed " + " ".join(map(str, values)))


for v in EDGES:
    packed([v])
# all sequences of up to four widths, so that every rule of a run's end is met
WIDTHS = (0, 1, 2, 4)
for a in WIDTHS:
    for b in WIDTHS:
        packed([value(a), value(b)])
        for c in WIDTHS:
            packed([value(a), value(b), value(c)])
            for d in WIDTHS:
                packed([value(a), value(b), value(c), value(d)])
# runs around 64 and 128 of each width, alone and followed by each other width
for n in (1, 2, 63, 64, 65, 66, 127, 128, 129, 130):
    for w in WIDTHS:
        packed([value(w) for _ in range(n)])
        for after in WIDTHS:
            if after != w:
                packed([value(w) for _ in range(n)] + [value(after), value(w)])
# long mixtures
for _ in range(200):
    values = []
    while len(values) < rng.randrange(1, 400):
        values += [value(rng.choice(WIDTHS)) for _ in range(rng.choice([1, 1, 1, 2, 3, 70]))] if rng.random() < 0.6 else [value(w := rng.choice(WIDTHS))] * rng.randrange(1, 90)
    packed(values)


def index(items):
    print("index " + " ".join(item.hex() or "-" for item in items))


index([b"AB", b""])
# the last offset on both sides of 255 and 65535: offset sizes 1, 2 and 3
for size in (0, 1, 253, 254, 255, 256, 65533, 65534, 65535):
    index([rng.randbytes(size)])
    if 0 < size < 65533:
        index([rng.randbytes(size // 2), b"", rng.randbytes(size - size // 2)])
for _ in range(100):
    index([rng.randbytes(rng.choice([0, 1, 2, 5, 40])) for _ in range(rng.randrange(1, 12))])
for n in (255, 256, 257):
    index([rng.randbytes(1) for _ in range(n)])
