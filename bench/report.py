"""The tables of docs/BENCH.md and the picture beside them, from the lines that measure.c printed.

    python3 bench/report.py FIGURES docs/BENCH.md docs/bench.png
"""
import sys

from picture import Canvas, Panel

BEGIN, END = "<!-- figures: begin -->", "<!-- figures: end -->"
COLOURS = {"library": (0, 110, 90), "gcc": (200, 90, 0), "clang": (60, 80, 190)}
TIMED = ("record", "length", "window", "ceiling", "clocks", "sampling", "fill", "large", "piece", "best", "layout")
LONGEST_PIECE = 65535
FILLS = {100: "all", 10: "a tenth", 0: "opening"}


class Timed:
    """A line of times: the same work by the library and by the plain monitor of two compilers."""

    def __init__(self, fields, shift=None):
        self.kind, self.name = fields[:2]
        self.varied, self.entries, self.ticks, self.cells = (int(f) for f in fields[2:6])
        self.occupied, self.ends = float(fields[6]), int(fields[7])
        self.library, self.gcc, self.clang = (float(f) for f in fields[8:11])
        self.rounds, self.spread = int(fields[11]), float(fields[12])
        self.shift = shift

    def ratio(self):
        """The library's time, the faster compiler's being 1."""
        return self.library / min(self.gcc, self.clang)

    def place(self):
        """Which line it is."""
        varied = f"{self.varied:,}"
        return self.name + ", " + {
            "record": f"record, window {varied}", "length": f"record of {self.entries:,}", "window": f"growth, window {varied}",
            "ceiling": f"growth, ceiling {varied}", "clocks": f"growth, {varied} clocks",
            "sampling": f"growth, {varied} samples in 10 s", "fill": FILLS.get(self.varied),
            "large": f"100,000 cells, {FILLS.get(self.varied)}, ticks {self.ticks}",
            "piece": f"window {varied}, ticks {self.ticks:,}", "best": f"best, window {varied}",
            "layout": f"{'record' if self.entries > 1 else 'all'}, shifted by {self.shift}"}[self.kind]


def table(heads, rows):
    lines = ["| " + " | ".join(heads) + " |", "|" + "|".join("---" if i == 0 else "---:" for i in range(len(heads))) + "|"]
    return lines + ["| " + " | ".join(row) + " |" for row in rows] + [""]


def number(value):
    """Three digits that count, and no more than needed."""
    if value >= 100:
        return f"{value:,.0f}"
    return f"{value:.1f}" if value >= 10 else f"{value:.2f}" if value >= 0.01 else f"{value:.4f}"


def ratios(t):
    return [number(t.library / t.gcc), number(t.library / t.clang)]


def share(t):
    """How much of the table is occupied."""
    return f"{t.occupied:.0f} %" if t.occupied >= 1 else f"{t.occupied:.1f} %"


def spread(t):
    """The library's greatest round over its least, and how many there were."""
    return [f"{t.spread:.2f} ({t.rounds})"]


def microseconds(t, per):
    return [number(1e6 * s / per) for s in (t.library, t.gcc, t.clang)]


class Steady:
    """The library's time for a piece of high + 2 ticks, for the longest, and that of writing the reports that repeat in it."""

    def __init__(self, fields):
        self.name, self.window = fields[0], int(fields[1])
        self.short, self.long, self.writing = (float(f) for f in fields[2:5])

    def more(self):
        """What the longest piece takes beside the reports and the short piece, that of the short piece being 1."""
        return (self.long - self.short - self.writing) / self.short


def growth_of_record(lengths):
    """An entry's cost in the longest record over that in the shortest, in the library and in the faster plain monitor."""
    a, b = lengths[0], lengths[-1]
    return (b.library / b.entries / (a.library / a.entries),
            min(b.gcc, b.clang) / b.entries / (min(a.gcc, a.clang) / a.entries))


def by_occupation(kinds):
    """What is timed by the tick, apart from pieces: on full tables, on those with at most a tenth of the cells occupied, others.
    `length` leaves out the whole record, which is among the records."""
    filled = kinds["fill"] + kinds["large"] + [t for t in kinds["layout"] if t.entries == 1]
    fed = [t for kind in ("record", "length", "window", "ceiling", "clocks", "sampling") for t in kinds[kind] if t.kind == kind]
    fed += [t for t in kinds["layout"] if t.entries > 1]
    return ([t for t in filled if t.varied == 100],
            [t for t in filled if t.varied <= 10] + [t for t in fed if t.occupied <= 10],
            [t for t in fed if t.occupied > 10])


def measures(kinds, steady, stack, memory, symbols):
    """What was asked for, and what was seen, against the faster of the two compilers."""
    full, sparse, between = by_occupation(kinds)
    long = [t for t in kinds["piece"] if t.ticks == LONGEST_PIECE]
    short = [t for t in kinds["piece"] if t.ticks < LONGEST_PIECE]

    def row(words, seen, held):
        return [words, seen, "held" if held else "missed"]

    def within_limit(words, lines, holds):
        worst = max(lines, key=Timed.ratio)
        held = sum(holds(t.ratio()) for t in lines)
        return row(words, f"{number(min(t.ratio() for t in lines))} to {number(worst.ratio())} ({worst.place()}); "
                   f"{held} of {len(lines)} lines within it", held == len(lines))

    def no_limit(words, lines):
        worst = max(lines, key=Timed.ratio)
        over = sum(t.ratio() > 1.2 for t in lines)
        return [words, f"{number(min(t.ratio() for t in lines))} to {number(worst.ratio())} ({worst.place()}); "
                f"{over} of {len(lines)} lines over 1.2", "no limit set"]

    slowest = max(long, key=Timed.ratio)
    least, most = min(steady, key=Steady.more), max(steady, key=Steady.more)
    within = sum(abs(t.more()) <= 0.5 for t in steady)
    cost, plain = growth_of_record(kinds["length"])
    added = max(peak - before - lent for _, monitor, _, lent, before, peak in memory if monitor == "library")
    table_least = min(lent for _, monitor, _, lent, _, _ in memory if monitor == "library") // 2
    return table(["measure", "seen", ""],
                 [within_limit("full tables: at most 1.2 times the plain monitor's time", full, lambda ratio: ratio <= 1.2),
                  within_limit("sparse tables, at most a tenth of the cells occupied: below 1", sparse, lambda ratio: ratio < 1),
                  no_limit("records and tables of growth with more than a tenth and at most four fifths of the cells occupied",
                           [t for t in between if t.occupied <= 80]),
                  no_limit("records and tables of growth with more than four fifths of the cells occupied",
                           [t for t in between if t.occupied > 80]),
                  no_limit("pieces below 65,535 ticks and the best of a record, however many cells are occupied",
                           short + kinds["best"]),
                  row("pieces of 65,535 ticks, windows up to 100: at least 50 times faster",
                      f"at least {number(1 / slowest.ratio())} times ({slowest.name}, window {slowest.varied}) in {len(long)} cases",
                      slowest.ratio() <= 1 / 50),
                  row("a piece of 65,535 ticks takes about as long as one of high + 2 and writing the reports that repeat: "
                      "the rest between -0.5 and 0.5 of the short piece",
                      f"a rest of {least.more():.2f} ({least.name}, window {least.window}) to {most.more():.2f} "
                      f"({most.name}, window {most.window}) of it; {within} of {len(steady)} cases within it",
                      within == len(steady)),
                  row("cost linear in the record's length: an entry of 60,000 within 10 % of one of 600",
                      f"{number(cost)} times (plain C: {number(plain)} times)", 0.9 <= cost <= 1.1),
                  row("memory: only what is lent (64 KiB allowed)",
                      f"{added} KiB at most beside the tables, each of {table_least} KiB or more; "
                      f"the archive calls {symbols} only", added <= 64),
                  row("stack: under 64 KiB", f"{(stack[1] - stack[2]) / 1024:.1f} KiB", stack[1] < stack[0])])


def linear(cost, plain):
    """Whether the cost grows with the record's length alone."""
    seen = f"An entry of 60,000 takes {number(cost)} times as long as one of 600 in the library and {number(plain)} times in plain C"
    if 0.9 <= cost <= 1.1:
        return f"{seen}: linear, within 10 %."
    if 0.9 <= cost / plain <= 1.1:
        return f"{seen}: not within 10 %, but alike in both, so it may be the machine's clock."
    return f"{seen}: not linear within 10 %."


def report(kinds, other):
    out = [f"Measured on: {other['processor'][0][0]}; " + "; ".join(f[0] for f in other["compiler"]) + ".", ""]
    memory = [(f[0], f[1], int(f[2]), int(f[3]), int(f[4]), int(f[5])) for f in other["memory"]]
    stack = [int(f) for f in other["stack"][0]]
    symbols = " and ".join(other["symbols"][0][0].split()) or "nothing"
    steady = [Steady(f) for f in other["steady"]]
    kinds["length"] += [t for t in kinds["record"] if t.name == "OVERSHOOT, margin"]
    longer = [t for kind, lines in kinds.items() for t in lines if t.library >= 0.01]
    shorter = [t for kind, lines in kinds.items() for t in lines if t.library < 0.01]
    both = [max(lines, key=lambda t: t.spread) for lines in (longer, shorter) if lines]

    out += ["### The measures", "", "The plain monitor's time is that of the faster compiler.", ""]
    out += measures(kinds, steady, stack, memory, symbols)
    out += ["Spread is the library's greatest round over its least, the rounds in brackets. The largest seen: "
            + "; ".join(f"{t.spread:.2f} where a round took {'10 ms or more' if t in longer else 'less'} ({t.kind}, {t.name}, {t.varied})"
                        for t in both)
            + ". In a round of microseconds one interrupt counts.",
            f"Feeds with one fault or two that all refused alike: {other['refusals'][0][1]}.", ""]

    out += ["### Records", "",
            "An entry is one call. Cells a second count all cells of a table once for each tick.", ""]
    out += table(["pattern", "window", "entries", "ticks", "cells", "occupied", "library, entries/s", "gcc -O3", "clang -O3",
                  "library, million cells/s", "gcc -O3", "clang -O3", "time to gcc's", "to clang's", "spread"],
                 [[t.name, str(t.varied), f"{t.entries:,}", f"{t.ticks:,}", f"{t.cells:,}", share(t)]
                  + [f"{t.entries / s:,.0f}" for s in (t.library, t.gcc, t.clang)]
                  + [number(t.cells * t.ticks / s / 1e6) for s in (t.library, t.gcc, t.clang)]
                  + ratios(t) + spread(t) for t in kinds["record"]])

    out += ["### Tables full, a tenth full, and as an opening leaves them", "",
            "One call of one tick, in microseconds.", ""]
    out += table(["pattern", "cells", "occupied", "library", "gcc -O3", "clang -O3", "time to gcc's", "to clang's", "spread"],
                 [[t.name, f"{t.cells:,}", FILLS[t.varied]]
                  + microseconds(t, 1) + ratios(t) + spread(t) for t in kinds["fill"]])

    out += ["### A table of 100,000 cells", "", "One call, in million cells a second: all cells of the table once for each tick.", ""]
    out += table(["pattern", "cells", "occupied", "ticks", "library", "gcc -O3", "clang -O3", "time to gcc's", "to clang's", "spread"],
                 [[t.name, f"{t.cells:,}", FILLS[t.varied], str(t.ticks)]
                  + [number(t.cells * t.ticks / s / 1e6) for s in (t.library, t.gcc, t.clang)]
                  + ratios(t) + spread(t) for t in kinds["large"]])

    out += ["### Where the code lies", "",
            "The gearbox's record and the full tables in four programs that differ in one thing: all their code lies so many bytes",
            "further on. Microseconds for each entry of the record, or for the one call.", ""]
    out += table(["pattern", "occupied", "bytes", "library", "gcc -O3", "clang -O3", "time to gcc's", "to clang's", "spread"],
                 [[t.name, share(t) if t.entries > 1 else "all", t.shift] + microseconds(t, t.entries) + ratios(t) + spread(t)
                  for t in sorted(kinds["layout"], key=lambda t: t.name if t.entries == 1 else "")])

    out += ["### Length of a piece", "", "One call, in microseconds.", ""]
    out += table(["pattern", "window", "ticks", "cells", "library", "gcc -O3", "clang -O3", "times faster than gcc's", "than clang's",
                  "spread"],
                 [[t.name, str(t.varied), f"{t.ticks:,}", f"{t.cells:,}"] + microseconds(t, 1)
                  + [number(t.gcc / t.library), number(t.clang / t.library)] + spread(t) for t in kinds["piece"]])
    out += ["What the longest piece takes beside one of high + 2 ticks and beside writing the reports that repeat in it (in C, the scores",
            "and the lengths in a loop each, gcc -O3), the three timed in turn; microseconds. The rest is what is left of the longest",
            "piece, as a multiple of the short one.", ""]
    out += table(["pattern", "window", "high + 2 ticks", "65,535 ticks", "writing the reports", "rest"],
                 [[t.name, str(t.window)] + [number(1e6 * s) for s in (t.short, t.long, t.writing)] + [f"{t.more():.2f}"]
                  for t in steady])

    out += ["### The best of a record", "",
            "`record_best` beside the plain monitor, which is fed with the record and whose best report is kept; entries of one tick,",
            "milliseconds.", ""]
    out += table(["pattern", "window", "entries", "cells", "library", "gcc -O3", "clang -O3", "time to gcc's", "to clang's", "spread"],
                 [[t.name, str(t.varied), f"{t.entries:,}", f"{t.cells:,}"]
                  + [number(1e3 * s) for s in (t.library, t.gcc, t.clang)] + ratios(t) + spread(t) for t in kinds["best"]])
    out += ["As many ticks as a record may have, in few pieces: the library alone. A plain monitor was fed with the same values for fewer",
            "ticks each, and score, end, begin and tables compared.", ""]
    out += table(["pattern", "window", "pieces", "ticks", "cells", "library, ms", "spread"],
                 [[f[0], f[1], f[2], f"{int(f[3]):,}", f"{int(f[4]):,}", number(1e3 * float(f[5])), f"{float(f[7]):.2f} ({f[6]})"]
                  for f in other["longest"]])

    words = {"length": ("entries of the record", "Record length"), "window": ("window", "Window"),
             "ceiling": ("ceiling of the clock", "Ceiling of one clock"), "clocks": ("clocks, ceiling 6", "Number of clocks"),
             "sampling": ("samples in 10 s", "Denser samples")}
    out += ["### Growth", "", "OVERSHOOT, margin; microseconds for each entry of one tick.", "", "![growth](bench.png)", ""]
    for kind, (head, title) in words.items():
        a, b = kinds[kind][0], kinds[kind][-1]
        cost = b.library / b.entries / (a.library / a.entries)
        plain = min(b.gcc, b.clang) / b.entries / (min(a.gcc, a.clang) / a.entries)
        if kind == "length":
            out += [f"{title}. {linear(*growth_of_record(kinds[kind]))}", ""]
        else:
            out += [f"{title}. An entry of the last line takes {number(cost)} times as long as one of the first in the library",
                    f"and {number(plain)} times in plain C, with {number(b.cells / a.cells)} times the cells.", ""]
        out += table([head, "cells", "occupied", "library", "gcc -O3", "clang -O3", "time to gcc's", "to clang's", "spread"],
                     [[f"{t.entries if kind == 'length' else t.varied:,}", f"{t.cells:,}", share(t)]
                      + microseconds(t, t.entries) + ratios(t) + spread(t) for t in kinds[kind]])

    out += ["### What a call costs before its first cell", "",
            "The library reads the pattern's text at each call; the plain monitor has read it once.", ""]
    out += table(["pattern", "bytes", "reading, microseconds"],
                 [[f[0], f[1], number(1e6 * float(f[2]))] for f in other["reading"]])

    empty = [f for f in other["second"] if f[2] == "0"][0]
    scored = [(f[0], f[1], int(f[2]), int(f[3]), int(f[4]), float(f[5]), float(f[8]), int(f[9]))
              for f in other["second"] if f is not empty]
    out += ["### The second scorer", "",
            "Its time is the middle one of several runs of a process that starts, reads both files and prints (for a record without pieces",
            f"{number(1e3 * float(empty[8]))} ms, also the middle one), by the wall clock; the library's that of the calls alone. The rows",
            "printed are the same bytes. Its memory is the peak of the process, the library's the two tables.", ""]
    out += table(["pattern", "window", "entries", "ticks", "cells", "library, ms", "second scorer, ms", "library, entries/s",
                  "second scorer", "library, million cells/s", "second scorer", "times faster", "library, KiB", "second scorer, KiB"],
                 [[name, window, f"{entries:,}", f"{ticks:,}", f"{cells:,}"] + [number(1e3 * s) for s in (mine, its)]
                  + [f"{entries / s:,.0f}" for s in (mine, its)] + [number(cells * ticks / s / 1e6) for s in (mine, its)]
                  + [number(its / mine), number(2 * cells * 8 / 1024), f"{kib:,}"]
                  for name, window, entries, ticks, cells, mine, its, kib in scored])

    out += ["### Memory and stack", "",
            "The peak of a process that runs one monitor, less its peak before the tables were made, as the kernel tells it",
            "(VmHWM). The record and the program are not in it.", ""]
    out += table(["pattern", "entries", "both tables, KiB", "monitor", "added, KiB"],
                 [[name, f"{entries:,}", f"{lent:,}", monitor, f"{peak - before:,}"]
                  for name, monitor, entries, lent, before, peak in memory])
    out += [f"The archive's undefined symbols are {symbols}: no allocator is among them, and `bench/run` ends if another name is",
            "(`tests/bench_c` looks at them, too).", ""]
    out += [f"Stack: all six functions ran in a thread with a stack of {stack[0]:,} bytes, with the largest pattern in",
            f"everything but its window and bounds. {stack[1]:,} bytes of it were written, {stack[2]:,} of them also by a",
            "thread that calls nothing.", ""]
    return out


def draw(kinds, path):
    canvas = Canvas(1580, 900)
    labels = {"library": "the library", "gcc": "plain C, gcc -O3", "clang": "plain C, clang -O3"}
    for i, (name, label) in enumerate(labels.items()):
        x = 110 + 330 * i
        canvas.line(x, 24, x + 40, 24, COLOURS[name], 2.4)
        canvas.dot(x + 20, 24, COLOURS[name])
        canvas.text(x + 52, 17, label)

    def panel(at, title, across, up, lines, x, y, by_one=False):
        lines = sorted(lines, key=x)
        Panel(canvas, (520 * (at % 3), 45 + 425 * (at // 3), 520, 420), title, across, up,
              [(name, colour, [(x(t), y(t, getattr(t, name))) for t in lines]) for name, colour in COLOURS.items()], by_one)

    def varied(t):
        return t.varied

    def per_entry(t, seconds):
        return 1e6 * seconds / t.entries

    each = "microseconds an entry"
    panel(0, "length of the record", "entries", "seconds", kinds["length"], lambda t: t.entries, lambda t, s: s)
    panel(1, "window", "ticks", each, kinds["window"], varied, per_entry)
    panel(2, "ceiling of a clock", "ticks", each, kinds["ceiling"], varied, per_entry)
    panel(3, "number of clocks", "clocks, ceiling 6", each, kinds["clocks"], varied, per_entry, by_one=True)
    panel(4, "denser samples", "samples in 10 s", each, kinds["sampling"], varied, per_entry)
    panel(5, "length of a piece", "ticks, window 100", "milliseconds a piece",
          [t for t in kinds["piece"] if t.name == "OVERSHOOT, margin" and t.varied == 100], lambda t: t.ticks,
          lambda t, s: 1e3 * s)
    canvas.save(path)


def main():
    figures, document, picture = sys.argv[1:]
    kinds, other = {kind: [] for kind in TIMED}, {}
    with open(figures) as file:
        for line in file:
            fields = line.rstrip("\n").split("\t")
            if fields[0] == "shift":
                shift = fields[1]
            elif fields[0] == "layout":
                kinds["layout"].append(Timed(fields, shift))
            elif fields[0] in kinds:
                kinds[fields[0]].append(Timed(fields))
            else:
                other.setdefault(fields[0], []).append(fields[1:])
    lines = report(kinds, other)
    print("\n".join(lines))
    draw(kinds, picture)
    with open(document) as file:
        before, rest = file.read().split(BEGIN)
    after = rest.split(END)[1]
    with open(document, "w") as file:
        file.write(before + BEGIN + "\n\n" + "\n".join(lines) + "\n" + END + after)


if __name__ == "__main__":
    main()
