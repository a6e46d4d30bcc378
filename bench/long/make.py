#!/usr/bin/env python3
"""Makes the cases of the long measure: make.py OUT writes OUT/NAME/pattern.txt, record.txt and about.txt.

The same bytes each time. Every pattern needs 2,048 cells, has 32 edges, a band in each place and a run at every end from the
window's low on; the record has 1,300 pieces, none of which join, and 100,000 ticks.
"""

import os
import random
import sys

PIECES, TICKS, BYTES, CELLS = 1300, 100000, 16384, 2048
SIGNS = {"<": int.__lt__, "<=": int.__le__, ">": int.__gt__, ">=": int.__ge__}


def record():
    """Short pieces, and one of 100 to 999 ticks in eight, as 16,384 bytes leave 12 for a line."""
    choose = random.Random(1)
    long = set(choose.sample(range(PIECES), 164))
    durations = [choose.randint(100, 999) if i in long else choose.randint(1, 9) for i in range(PIECES)]
    adjustable = sorted(long)
    while sum(durations) != TICKS:
        i, step = choose.choice(adjustable), 1 if sum(durations) < TICKS else -1
        durations[i] = min(999, max(100, durations[i] + step))
    lines, before = [], None
    for duration in durations:
        value = before
        while value == before:
            value = choose.randint(0, 9) if choose.random() < 0.75 else choose.choice([-1, 1]) * choose.randint(1, 9) * 7
        lines.append(f"(piece {duration} {value})\n")
        before = value
    return "".join(lines)


def edges_with_one_clock(choose):
    """Eight edges out of each of four places, on a clock with the ceiling 7; a bracket of guards that can hold."""
    edges = []
    for i in range(32):
        least, most = choose.choice([(0, 6), (1, 6), (2, 6), (0, 5), (3, 6)])
        guards = [(choose.choice([">=", ">"]), 0, least), (choose.choice(["<=", "<"]), 0, most)]
        guards += [(">=", 0, 0)] * choose.randint(0, 2)
        edges.append((i // 8, i % 4, [] if i % 8 in (1, 4) else guards, [0] if i % 3 == 0 else []))
    return edges


def edges_with_four_clocks(choose):
    """No two of these edges enter the same place with the same clocks reset; every guard holds after a stay."""
    entries = [(to, resets) for to in range(4) for resets in range(16)]
    edges = []
    for i, (to, resets) in enumerate(choose.sample(entries, 32)):
        guards = [(choose.choice([">", ">="]), clock, 0) for clock in range(4)]
        edges.append((i % 4, to, guards, [clock for clock in range(4) if resets >> clock & 1]))
    return edges


def patterns():
    """Name, clocks, window's high, places, edges (from, to, guards, resets)."""
    choose = random.Random(2)
    yield "one-place", 0, 1023, 1, [(0, 0, [], [])] * 32
    yield "16-places", 0, 63, 16, [(p, (p + step) % 16, [], []) for p in range(16) for step in (1, 5)]
    yield "one-clock", 1, 31, 4, edges_with_one_clock(choose)
    yield "four-clocks", 4, 15, 4, edges_with_four_clocks(choose)


def text(weighting, clocks, high, places, edges):
    """Each place has three tests by a sign and a band."""
    choose, bands = random.Random(3), random.Random(4)
    # with a low of 1 no longer run could be best in margin
    lines = [f"(pattern {weighting} 1 {clocks} {(high + 1) // 2} {high})"]
    for _ in range(places):
        tests = [(choose.choice(list(SIGNS)), choose.randint(-9, 30)) for _ in range(3)]
        ends = sorted(bands.randint(-9, 30) for _ in range(2))
        lines.append("(place both" + "".join(f" ({sign} 0 {bound})" for sign, bound in tests) + f" (in 0 {ends[0]} {ends[1]}))")
    for start, to, guards, resets in edges:
        line = f"(edge {start} {to}" + "".join(f" ({sign} {clock} {bound})" for sign, clock, bound in guards)
        lines.append(line + (f" (reset {' '.join(map(str, resets))})" if resets else "") + ")")
    return "".join(line + "\n" for line in lines)


def ceilings(clocks, edges):
    bounds = [[b for _, _, guards, _ in edges for _, c, b in guards if c == clock] for clock in range(clocks)]
    return [1 + max(of_clock, default=0) for of_clock in bounds]


def reached(clocks, high, places, edges):
    """How many cells some unfinished run is in, once high ticks have passed."""
    ceiling = ceilings(clocks, edges)
    now = {(0, place, (0,) * clocks) for place in range(places)}
    count = len(now)
    for _ in range(high):
        after = set()
        for _, place, values in now:
            grown = tuple(min(value + 1, most) for value, most in zip(values, ceiling))
            after.add((1, place, grown))
            for start, to, guards, resets in edges:
                if start == place and all(SIGNS[sign](grown[clock], bound) for sign, clock, bound in guards):
                    after.add((0, to, tuple(0 if c in resets else value for c, value in enumerate(grown))))
        now = after
        count += len(now)
    return count


def main():
    lines = record()
    assert len(lines) <= BYTES and lines.count("\n") == PIECES
    for name, clocks, high, places, edges in patterns():
        cells = (high + 1) * 2 * places
        for ceiling in ceilings(clocks, edges):
            cells *= ceiling + 1
        assert cells == CELLS and len(edges) == 32
        for weighting in ("margin", "sum"):
            folder = os.path.join(sys.argv[1], f"{name}-{weighting}")
            os.makedirs(folder)
            with open(os.path.join(folder, "pattern.txt"), "w") as file:
                file.write(text(weighting, clocks, high, places, edges))
            with open(os.path.join(folder, "record.txt"), "w") as file:
                file.write(lines)
            with open(os.path.join(folder, "about.txt"), "w") as file:
                file.write(f"window {(high + 1) // 2} to {high}, {reached(clocks, high, places, edges)} of {cells} cells reached")


main()
