#!/usr/bin/env python3
"""Lists the places in crates/*/src that docs/DESIGN-PASS.md speaks of.

usage: places.py [--in FOLDER] [--count] [POINT ..]

1  enums of the shape of Option or Result, flags beside values, numbers for kinds and refusals
2  functions and types of the same text once names and numbers are made alike
3  loops that are no `for`
4  equality, order, copying and conversion written out: a body that is one comparison, one choice of two, a match of true and
   false, or one cast
5  requires-clauses that stand in three functions or more; parameters that three functions or more have only together; functions
   of more than nine parameters
6  arrays with a count or an index beside them, lists in step with one another
7  matches of which each arm calls another function, or a number that says which
8  files of answers

A place is a line `crate file:line: what`. It is found by the text alone, so it is a place to look at."""
import argparse, glob, os, re
from collections import defaultdict

FN = re.compile(r"^( *)(?:pub(?:\([a-z]+\))? )?(?:unsafe )?(?:extern \"C\" )?fn (\w+)", re.M)


class Fn:
    def __init__(self, file, text, m):
        self.file, self.name = file, m.group(2)
        self.line = text.count("\n", 0, m.start()) + 1
        end = text.find("\n" + m.group(1) + "}", m.start())
        whole = text[m.start():end]
        cut = re.search(r"^" + m.group(1) + r"\{$", whole, re.M) or re.search(r"\{$", whole, re.M)
        self.head = whole[:cut.start()] if cut else whole
        self.body = whole[cut.end():] if cut else ""
        close = self.closing(self.head)
        inside = self.head[self.head.find("(") + 1:close]
        self.parameters = [re.sub(r"\s+", " ", p).strip() for p in self.split(inside) if p.strip()]
        clauses = self.head[close:]
        self.answer = (re.search(r"-> ([^\n]+?)(?: where| *\{|\n|$)", clauses) or [None, ""])[1]
        self.requires = re.findall(r"requires\s+(?:\w+\s+)?\{(.*?)\}\s*(?=\n\s*(?:requires|ensures)|\Z)", clauses, re.S)

    @staticmethod
    def closing(head):
        depth = 0
        for i in range(head.find("("), len(head)):
            depth += (head[i] == "(") - (head[i] == ")")
            if depth == 0:
                return i
        return len(head)

    @staticmethod
    def split(inside):
        parts, depth, part = [], 0, ""
        for c in inside:
            depth += (c in "([<{") - (c in ")]>}")
            if c == "," and depth == 0:
                parts.append(part)
                part = ""
            else:
                part += c
        return parts + [part]

    def at(self, what):
        return f"{self.file}:{self.line}: {what}"


def plain(text):
    return re.sub(r"//.*", "", text)


def types(file, text):
    for m in re.finditer(r"^(?:pub )?(enum|struct) (\w+)[^{;]*\{\n(.*?)^\}", text, re.M | re.S):
        body = [re.sub(r"//.*", "", l).strip().rstrip(",") for l in m.group(3).split("\n")]
        yield m.group(1), m.group(2), [l for l in body if l], f"{file}:{text.count(chr(10), 0, m.start()) + 1}"


def shape(text):
    text = re.sub(r"\"[^\"]*\"", '"', plain(text))
    text = re.sub(r"[^\W\d]\w*", "n", text)
    text = re.sub(r"\d[\d_]*", "0", text)
    return re.sub(r"\s+", " ", text).strip()


# a type's text with its own names made alike, and std's types kept
def alike(text):
    text = re.sub(r"\b(pub )?\w+: ", "", text)
    text = re.sub(r"\b(?!u8|u16|u32|u64|usize|i32|i64|bool)[^\W\d]\w*", "n", text)
    return re.sub(r"; *\d+", "; 0", text)


def one(files, fns):
    for file, text in files:
        for kind, name, body, at in types(file, text):
            if kind == "enum":
                failing = [v for v in body if re.match(r"(Broken|Nothing|Refused|Faulty|Failed|Closed|Unsound)\b", v)]
                if failing or (len(body) == 2 and sum("(" in v for v in body) == 1):
                    yield f"{at}: enum {name}"
            else:
                flags = [f for f in body if re.search(r": bool$", f)]
                for f in flags:
                    if len(flags) < len(body):
                        yield f"{at}: flag {name}.{re.sub('pub ', '', f)}"
    for f in fns:
        arms = re.findall(r"=> (?:\(?-?[\d_]+|b?'.'|\w+\(cause\)|\w+(?:::\w+)?\(\w+\) as u\d+)", f.body)
        if re.match(r"u(8|16|32|64)$", f.answer) and len(arms) >= 2:
            yield f.at(f"fn {f.name} answers numbers for cases")
        elif len(re.findall(r"^\s*(?:\d+|b'.') => \w+::\w+,", f.body, re.M)) >= 2:
            yield f.at(f"fn {f.name} answers cases for numbers")


def two(files, fns):
    groups = defaultdict(list)
    for f in fns:
        if f.body.count("\n") >= 3:
            groups[shape(f.head.split("\n    requires")[0].split("\n    ensures")[0] + f.body)].append(f.at(f"fn {f.name}"))
    for file, text in files:
        for kind, name, body, at in types(file, text):
            if len(body) > 1:
                groups[kind + alike(" , ".join(body))].append(f"{at}: {kind} {name}")
    for group in groups.values():
        if len(group) > 1:
            yield from (f"{g} is like {group[0].split(': ')[-1]}" for g in group[1:])


def three(files, fns):
    for file, text in files:
        for i, line in enumerate(text.split("\n"), 1):
            if re.match(r"\s*(while|loop)\b", line):
                yield f"{file}:{i}: {line.strip()}"


def four(files, fns):
    for f in fns:
        body = re.sub(r"\s+", " ", plain(f.body)).strip()
        if re.fullmatch(r"[\w.]+ (==|<|<=) [\w.]+", body):
            yield f.at(f"fn {f.name} is a comparison")
        elif re.fullmatch(r"(let \w+ = [\w.]+ as \w+; )*if ([\w.]+) <=? ([\w.]+) \{ [\w.]+( as \w+)? \} else \{ [\w.]+( as \w+)? \}", body):
            yield f.at(f"fn {f.name} is the lesser or greater of two")
        elif re.fullmatch(r"match \w+ \{ ([\w:]+(\(_\))? => (true|false), ?)+\}", body):
            yield f.at(f"fn {f.name} is a test of cases")
        elif re.fullmatch(r"[\w:()]+ as \w+", body):
            yield f.at(f"fn {f.name} is a cast")
        elif re.fullmatch(r"if \w+ \{ ([\w]+|\d+) \} else \{ ([\w]+|\d+) \}", body):
            yield f.at(f"fn {f.name} is a choice of two")


def five(files, fns):
    clauses, single = defaultdict(list), defaultdict(set)
    for f in fns:
        for clause in f.requires:
            for part in re.split(r"\)\s*×\s*\(", clause):
                part = re.sub(r"\s+", " ", part).strip(" ()")
                if part:
                    clauses[part].append(f)
        for p in f.parameters:
            if ":" in p:
                single[f.file.split("/")[1], p].add(f)
        if len(f.parameters) > 9:
            yield f.at(f"fn {f.name} has {len(f.parameters)} parameters")
    for clause, group in clauses.items():
        if len(group) >= 3:
            yield f"{group[0].file}:{group[0].line}: requires {clause[:80]} stands in {len(group)} functions"
    together = defaultdict(list)
    for (crate, p), group in single.items():
        together[frozenset(group)].append(p)
    for group, names in together.items():
        if len(group) >= 3 and len(names) >= 2:
            first = min(group, key=lambda f: (f.file, f.line))
            yield first.at(f"{', '.join(names)} only together, in {len(group)} functions")


def six(files, fns):
    for file, text in files:
        for kind, name, body, at in types(file, text):
            arrays = [b for b in body if re.search(r": \[.*;", b)]
            counts = [b for b in body if re.search(r"\w*(count|length|at|next|clocks)\w*: (u8|u32|usize)$", b)]
            if kind == "struct" and arrays and counts:
                yield f"{at}: struct {name} has {len(arrays)} arrays and {len(counts)} counts"
    for f in fns:
        slices = [p for p in f.parameters if re.search(r": &(?:'\w+ )?(mut )?\[", p)]
        counts = [p for p in f.parameters if re.match(r"(mut )?(n|m|at|from|to|count|length|size|room|moved|next): (u32|u64|usize)$", p)]
        if slices and counts:
            yield f.at(f"fn {f.name}: {', '.join(p.split(':')[0] for p in slices)} with {', '.join(p.split(':')[0] for p in counts)}")


def seven(files, fns):
    for f in fns:
        arms = re.findall(r"^        [^\n]*=> (.*)$", f.body, re.M)
        if len(arms) >= 3 and all(re.match(r"(Ok\()?[\w:]+\(|\{$|Ok\(|true|false|k,|\w+,|Step", a) for a in arms) and sum(bool(re.match(r"(Ok\()?[a-z_:]+\(", a)) for a in arms) >= 2:
            yield f.at(f"fn {f.name} calls by case")
        if any(re.match(r"(ending|stage|begun|held|can|on|mark|which): (bool|usize|u8)$", p) for p in f.parameters):
            yield f.at(f"fn {f.name} is told by a flag or a number what to do")


def eight(root):
    for file in sorted(glob.glob(os.path.join(root, "crates/*/proofs/**/Answers.antt"), recursive=True)):
        yield os.path.relpath(file, root)


def main():
    ap = argparse.ArgumentParser(usage=__doc__.split("\n\n")[1][7:])
    ap.add_argument("--in", dest="root", default=os.path.join(os.path.dirname(os.path.abspath(__file__)), ".."))
    ap.add_argument("--count", action="store_true")
    ap.add_argument("points", nargs="*", default=list("12345678"))
    a = ap.parse_args()
    files = []
    for file in sorted(glob.glob(os.path.join(a.root, "crates/*/src/**/*.rt"), recursive=True)):
        with open(file) as f:
            files.append((os.path.relpath(file, a.root), f.read()))
    fns = [Fn(file, text, m) for file, text in files for m in FN.finditer(text)]
    for point in a.points or list("12345678"):
        places = list(eight(a.root)) if point == "8" else list([one, two, three, four, five, six, seven][int(point) - 1](files, fns))
        print(f"point {point}: {len(places)}")
        if not a.count:
            print("".join(f"    {p}\n" for p in places), end="")


main()
