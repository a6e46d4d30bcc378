#!/usr/bin/env python3
"""Works out the cases of data files once more, by listing runs.

    list_runs.py FILE..

Written from documents 01 and 02 alone, without a table: a run is kept by its place, its clocks (not held at a ceiling) and
its worth, all runs are listed tick by tick, and only at the end of a call is the best of those that share a cell taken. It
prints each difference from what a file says, and counts; a difference makes its status 1. The files' tables that were not
worked out by hand come from here.
"""
import re
import sys

MARK = -2**63
SILENT = 2_000_001
VALUE, PIECE, TICKS, CELL = 1_000_000, 65_535, 2_147_483_647, 32_760_000_000


class Pattern:
    """A pattern's text, which must be one that is accepted."""

    def __init__(self, text):
        lines = [re.findall(r"[^\s()]+|[()]", line)[1:-1] for line in text.splitlines()]
        head = lines[0]
        self.margin = head[1] == "margin"
        self.channels, self.clocks, self.low, self.high = map(int, head[2:])
        self.places, self.edges = [], []
        for words in lines[1:]:
            groups = [g.split() for g in re.findall(r"\(([^()]*)\)", " ".join(words))]
            if words[0] == "place":
                self.places.append((words[1], [(g[0], int(g[1]), [int(n) for n in g[2:]]) for g in groups]))
            else:
                guards = [(g[0], int(g[1]), int(g[2])) for g in groups if g[0] != "reset"]
                resets = [int(n) for g in groups if g[0] == "reset" for n in g[1:]]
                self.edges.append((int(words[1]), int(words[2]), guards, resets))
        bounds = [[b for _, _, guards, _ in self.edges for _, c, b in guards if c == k] for k in range(self.clocks)]
        self.ceilings = [1 + max(b, default=0) for b in bounds]
        self.cells = (self.high + 1) * 2 * len(self.places)
        for ceiling in self.ceilings:
            self.cells *= ceiling + 1
        self.empty = SILENT if self.margin else 0
        self.starts = [i for i, (kind, _) in enumerate(self.places) if kind in ("start", "both")]
        self.ends = [i for i, (kind, _) in enumerate(self.places) if kind in ("end", "both")]

    def distances(self, place, values):
        return [distance(sign, values[c], bounds) for sign, c, bounds in self.places[place][1]]

    def seen(self, place, values):
        """What a stay in a place sees: the values in the channels that the place tests."""
        return [values[c] for _, c, _ in self.places[place][1]]

    def better(self, a, b):
        return a > b if self.margin else a < b

    def stayed(self, worth, place, values, counts):
        """The worth after a tick in a place; in sum it counts if the stay did not see the same the tick before."""
        if self.margin:
            return min([worth, SILENT] + self.distances(place, values))
        return worth + sum(self.distances(place, values)) if counts else worth

    def index(self, length, stage, place, clocks):
        n = (length * 2 + stage) * len(self.places) + place
        for clock, ceiling in zip(clocks, self.ceilings):
            n = n * (ceiling + 1) + min(clock, ceiling)
        return n

    def run_at(self, index):
        """The run that a cell stands for: length, stage, place, clocks."""
        clocks = []
        for ceiling in reversed(self.ceilings):
            index, clock = divmod(index, ceiling + 1)
            clocks.insert(0, clock)
        index, place = divmod(index, len(self.places))
        length, stage = divmod(index, 2)
        return length, stage, place, tuple(clocks)


def distance(sign, value, bounds):
    """To a test's bound; in a band the smaller of the distances to its low and to its high."""
    if sign == "in":
        return min(distance(">=", value, bounds[:1]), distance("<=", value, bounds[1:]))
    return value - bounds[0] if sign[0] == ">" else bounds[0] - value


def holds(sign, clock, bound):
    return {"<": clock < bound, "<=": clock <= bound, ">": clock > bound, ">=": clock >= bound}[sign]


class Runs:
    """The unfinished runs, one by one."""

    def __init__(self, p, runs):
        self.p, self.runs = p, runs

    def tick(self, values, before):
        """One tick, and the values of the tick before; the reported score and length."""
        p, after, ended = self.p, [], []
        for length, stage, place, clocks, worth in self.runs:
            if length == p.high:
                continue
            grown = tuple(c + 1 for c in clocks)
            worth = p.stayed(worth, place, values, stage == 0 or p.seen(place, values) != p.seen(place, before))
            after.append((length + 1, 1, place, grown, worth))
            for source, to, guards, resets in p.edges:
                if source == place and all(holds(s, grown[c], b) for s, c, b in guards):
                    zeroed = tuple(0 if k in resets else c for k, c in enumerate(grown))
                    after.append((length + 1, 0, to, zeroed, worth))
                    if to in p.ends and length + 1 >= p.low:
                        ended.append((worth, length + 1))
        self.runs = after + empties(p)
        if not ended:
            return 0, 0
        best = ended[0]
        for worth, length in ended[1:]:
            if p.better(worth, best[0]) or (worth == best[0] and length < best[1]):
                best = (worth, length)
        return best

    def table(self, length):
        cells = [MARK] * length
        for n, stage, place, clocks, worth in self.runs:
            i = self.p.index(n, stage, place, clocks)
            if cells[i] == MARK or self.p.better(worth, cells[i]):
                cells[i] = worth
        return cells


def empties(p):
    return [(0, 0, place, (0,) * p.clocks, p.empty) for place in p.starts]


def record_fault(p, durations, values):
    return (len(durations) > 4096 or min(durations, default=1) < 1 or sum(durations) > TICKS
            or len(values) != len(durations) * p.channels or any(abs(v) > VALUE for v in values))


def pieces_of(p, durations, values):
    return [(d, values[i * p.channels:(i + 1) * p.channels]) for i, d in enumerate(durations)]


def price(p, lent):
    edges, stays, total = lent["edges"], lent["stays"], sum(lent["durations"])
    if record_fault(p, lent["durations"], lent["values"]):
        return [8, 0], {}
    if len(edges) != len(stays) or not 1 <= len(edges) <= 4095 or lent["begin"][0] >= total:
        return [9, 0], {}
    pieces, end = [], 0  # first tick, end, values
    for d, v in pieces_of(p, lent["durations"], lent["values"]):
        pieces.append((end, end + d, v))
        end += d
    now, place, clocks, worth = lent["begin"][0], None, [0] * p.clocks, p.empty
    for edge, stay in zip(edges, stays):
        if edge >= len(p.edges) or stay < 1 or now + stay > total:
            return [10, 0], {}
        source, to, guards, resets = p.edges[edge]
        if (source not in p.starts) if place is None else (source != place):
            return [10, 0], {}
        seen = None
        for begin, end, values in pieces:
            if begin < now + stay and now < end:
                worth = p.stayed(worth, source, values, seen != p.seen(source, values))
                seen = p.seen(source, values)
        clocks = [c + stay for c in clocks]
        if not all(holds(s, clocks[c], b) for s, c, b in guards):
            return [10, 0], {}
        clocks = [0 if k in resets else c for k, c in enumerate(clocks)]
        now, place = now + stay, to
    return ([0, worth] if place in p.ends else [10, 0]), {}


def left_by(p, runs, first, second):
    """Both tables after a call that is done: further cells as they were."""
    return {"first": runs.table(p.cells) + first[p.cells:], "second": [MARK] * p.cells + second[p.cells:]}


def too_short(p, lent):
    return len(lent["first"]) < p.cells or len(lent["second"]) < p.cells


def open_monitor(p, lent):
    if too_short(p, lent):
        return [11], {}
    if len(lent["state"]) < 9:
        return [12], {}
    after = left_by(p, Runs(p, empties(p)), lent["first"], lent["second"])
    after["state"] = [0] * 9 + lent["state"][9:]
    return [0], after


def state_fault(p, state):
    return (len(state) < 9 or not 0 <= state[0] <= TICKS or any(abs(v) > VALUE for v in state[1:9])
            or any(state[1 + p.channels:9]) or (state[0] == 0 and any(state[1:9])))


def feed(p, lent):
    state, first, duration, values = lent["state"], lent["first"], lent["duration"][0], lent["values"]
    if state_fault(p, state):
        return [12], {}
    if too_short(p, lent):
        return [11], {}
    if not 1 <= duration <= PIECE or len(values) != p.channels or any(abs(v) > VALUE for v in values):
        return [8], {}
    if state[0] + duration > TICKS:
        return [13], {}
    if any(c != MARK and abs(c) > CELL for c in first[:p.cells]):
        return [14], {}
    if len(lent["scores"]) < duration or len(lent["lengths"]) < duration:
        return [6], {}
    runs = Runs(p, [p.run_at(i) + (worth,) for i, worth in enumerate(first[:p.cells]) if worth != MARK])
    reports = [runs.tick(values, values if i else state[1:1 + p.channels]) for i in range(duration)]
    after = left_by(p, runs, first, lent["second"])
    after["state"] = [state[0] + duration] + values + [0] * (8 - p.channels) + state[9:]
    after["scores"] = [s for s, _ in reports] + lent["scores"][duration:]
    after["lengths"] = [n for _, n in reports] + lent["lengths"][duration:]
    return [0], after


def best(p, lent):
    if record_fault(p, lent["durations"], lent["values"]):
        return [8, 0, 0, 0, 0], {}
    if too_short(p, lent):
        return [11, 0, 0, 0, 0], {}
    runs, last, now, found = Runs(p, empties(p)), [0] * p.channels, 0, None
    for duration, values in pieces_of(p, lent["durations"], lent["values"]):
        # after high + 1 ticks of a piece every run began in it: each further tick finds the same runs, later
        for i in range(min(duration, p.high + 2)):
            score, length = runs.tick(values, values if i else last)
            end = now + i + 1
            if length and (found is None or p.better(score, found[2])):
                found = (end, end - length, score)
        now, last = now + duration, values
    return [0] + ([1, *found] if found else [0, 0, 0, 0]), left_by(p, runs, lent["first"], lent["second"])


CALLS = {
    "price": (price, ["durations", "values", "begin", "edges", "stays"], []),
    "open": (open_monitor, ["state", "first", "second"], ["state", "first", "second"]),
    "feed": (feed, ["state", "first", "second", "duration", "values", "scores", "lengths"],
             ["state", "first", "second", "scores", "lengths"]),
    "best": (best, ["durations", "values", "first", "second"], ["first", "second"]),
}


def number(word):
    return MARK if word == "mark" else int(word)


def numbers(words):
    if words == ["none"]:
        return []
    if len(words) > 2 and words[1] == "of":
        found = [number(words[2])] * int(words[0])
        for word in words[3:]:
            places, _, v = word.partition(":")
            first, _, last = places.partition("-")
            for i in range(int(first), int(last or first) + 1):
                found[i] = number(v)
        return found
    return [number(w) for w in words]


def answer_of(call, words):
    rest = [int(w) for w in words[1:]]
    answer = {"refused": rest, "score": [0] + rest, "run": [0, 1] + rest, "none": [0], "done": [0]}[words[0]]
    return answer + [0] * ({"price": 2, "best": 5}.get(call, 1) - len(answer))


def shown(numbers, fill=MARK):
    if len(numbers) < 10:
        return " ".join(map(str, numbers))
    return f"{len(numbers)} of {'mark' if fill == MARK else fill} " + " ".join(
        f"{i}:{n}" for i, n in enumerate(numbers) if n != fill)


def check_case(title, items, texts, left):
    call, name, *weighing = items[0]
    work_out, parts, after_parts = CALLS[call]
    p = Pattern(texts[name].replace("WEIGHING", (weighing or [""])[0]))
    lent = {}
    for part, words in zip(parts, items[1:]):
        assert part == words[0], (title, part, words)
        lent[part] = list(left[part]) if words[1:] == ["as", "left"] else numbers(words[1:])
    rest = items[1 + len(parts):]
    assert len(rest) == 1 + len(after_parts), title
    answer, after = work_out(p, lent)
    faults = []
    if answer != answer_of(call, rest[0]):
        faults.append(f"answer {answer}")
    for part, words in zip(after_parts, rest[1:]):
        assert part == words[0], (title, part, words)
        is_there = after.get(part, lent[part])
        if is_there != (lent[part] if words[1:] == ["unchanged"] else numbers(words[1:])):
            faults.append(f"{part} {shown(is_there)}")
        left[part] = is_there
    for fault in faults:
        print(f"{title}: {fault}")
    return not faults


def check_file(path):
    texts, left, right, wrong, skipped = {}, {}, 0, 0, 0
    for paragraph in re.split(r"\n\s*\n", open(path).read()):
        lines = [line for line in paragraph.splitlines() if line and not line.startswith("#")]
        if not lines:
            continue
        word, _, name = lines[0].partition(" ")
        if word == "text":
            texts[name] = "".join(line[1:] + "\n" for line in lines[1:])
            continue
        items = [item.split() for line in lines[1:] for item in line.split(";")]
        if items[0][1].startswith("refused-"):  # a text that is refused has no runs
            skipped += 1
        elif check_case(name, items, texts, left):
            right += 1
        else:
            wrong += 1
    print(f"{path}: {right} as worked out, {wrong} not, {skipped} with a refused text left out")
    return wrong == 0


if __name__ == "__main__":
    sys.exit(not all([check_file(path) for path in sys.argv[1:]]))
