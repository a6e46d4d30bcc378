#!/usr/bin/env python3
"""Respells the repository's own definitions and lemmas as today's Rattle spells names. Run once, at the top of the repository.

A word is in snake case: addGuard becomes add_guard. A fact is in camel case: is-score becomes IsScore. A record's field has no
dash. In a lemma's name a dash stays between the names of two definitions; a plain word is added with an underscore. A name that
would fall together with another one keeps its dash, or gets an underscore at its end. Names of src/, of generated modules and
of the library keep their spelling. Comments and pages are respelled between backquotes alone.
"""
import collections
import os
import re
import subprocess
import sys

CHOSEN = {
    "is-score": "IsScore",
    # fields and lemmas of one name, beside a definition
    "is-cell": "is_a_cell",
    "is-end": "at_end",
    "all_read": "reads_all",
    "out_of_range": "out_of_range_lem",
    "refused-for": "refused_for_lem",
    "too_long": "too_long_lem",
    "too_many": "too_many_lem",
    "first-long": "first_is_long",
    "scores-long": "scores_are_long",
    "lengths-long": "lengths_are_long",
}
DECLARED = re.compile(
    r"^(\s*)((?:abbrev|unfoldable)\s+)?(?:pub\s+)?(data\s+|record\s+|ruleset\s+)?([^\s:(){};,.λ→≡=\"]+)\s+((?:[({].*[)}]\s*)?):(?:\s|$)"
)
TOKEN = re.compile(r"[^\s(){}\[\];,.\"`:|&!*<>=+/]+")
RECORD = re.compile(r"^\s*(?:pub\s+)?record\s")
# the library of the kit whose command `rt` is on the path
STD = os.path.join(os.path.dirname(subprocess.check_output(["rt", "doc"], text=True).strip()), "rattle", "std")


def files(root, ending, below="crates"):
    for folder, dirs, names in os.walk(os.path.join(root, below)):
        dirs[:] = sorted(d for d in dirs if d not in ("out", ".git"))
        for name in sorted(names):
            if name.endswith(ending):
                yield os.path.join(folder, name)


def declared(path):
    """(name, kind) of what a file of specs/ or proofs/ declares; kind is def, lemma, record, data or field."""
    record = None
    for line in open(path, encoding="utf-8"):
        line = line.rstrip("\n")
        if not line.strip() or line.lstrip().startswith("--"):
            continue
        indent = len(line) - len(line.lstrip())
        if record is not None and indent <= record:
            record = None
        m = DECLARED.match(line)
        if m and m.group(4) not in ("use", "mod", "open", "module", "pub", "unfolding", "where"):
            kind = (m.group(3) or m.group(2) or "lemma").strip()
            if record is not None:
                kind = "field"
            yield m.group(4), {"abbrev": "def", "unfoldable": "def"}.get(kind, kind)
        if RECORD.match(line):
            record = indent


def snake(part):
    """addGuard as add_guard; a part that begins with a capital is a type or a fact and stays."""
    if not re.match(r"[a-z]", part) or not re.search(r"[A-Zℤℕ]", part[1:]):
        return part
    return re.sub(r"(?<=[a-z0-9])([A-Zℤℕ])", lambda m: "_" + m.group(1).lower(), part)


def spoken(text):
    """The words of an antt file that stand for themselves: not a path's last part but one, and not a field of a value."""
    out = set()
    for line in text.split("\n"):
        if line.startswith("--"):
            continue
        if re.match(r"\s*(pub\s+)?use\s", line):
            line = line[line.rindex("{"):] if "{" in line else ""
        out.update(TOKEN.findall(re.sub(r"(?<=[^\s])\.[^\s(){}\[\];,.]+", "", line)))
    return out


def spoken_in_source(text):
    """The words of a source file that clauses may mean: what is imported for them, what they cite, parameters and fields."""
    out = set()
    for line in text.split("\n"):
        if line.lstrip().startswith("ghost use"):
            out.update(TOKEN.findall(line[line.index("{"):]) if "{" in line else ())
        elif re.match(r"\s*(requires|ensures)\b", line):
            out.update(TOKEN.findall(line))
        else:
            out.update(re.findall(r"\b([a-z_0-9]+)\s*:(?!:)", line))
    return out


def main(root):
    kinds = collections.defaultdict(set)
    inside = {}
    for path in files(root, ".antt"):
        inside[path] = spoken(open(path, encoding="utf-8").read())
        if os.path.basename(path) != "Proof.antt":
            for name, kind in declared(path):
                kinds[name].add(kind)
    for path in files(root, ".rt"):
        inside[path] = spoken_in_source(open(path, encoding="utf-8").read())
    where = collections.defaultdict(set)
    for path, tokens in inside.items():
        for token in tokens:
            where[token].add(path)
    library, words = set(), set()
    for path in files(STD, ".antt", "."):
        for name, kind in declared(path):
            library.add(name)
            if "-" in name:
                words.update(name.split("-")[1:])
    names = {snake(n) for n, k in kinds.items() if k & {"def", "record", "data", "field"} and "-" not in n} | words | library

    def joined(name):
        parts = [snake(p) for p in name.split("-")]
        if "" in parts:
            return name
        if "field" in kinds[name]:
            return "_".join(parts)
        out = parts[0]
        for left, right in zip(parts, parts[1:]):
            out += ("-" if left in names and right in names else "_") + right
        return out

    # a definition first: a lemma that would have its name gets _lem
    new = {}
    told = {name for name, kind in kinds.items() if kind != {"lemma"}}
    for name in sorted(kinds, key=lambda n: (n not in told, n)):
        if not re.search(r"[a-z]", name) or not re.match(r"[A-Za-z]", name):
            continue
        to = CHOSEN.get(name) or joined(name)
        if name not in told and name not in CHOSEN:
            if any(to == (new.get(n) or n) and n != name for n in told):
                to += "_lem"
        if to != name:
            new[name] = to
    for name, to in sorted(new.items()):
        others = [n for n in kinds if n != name and new.get(n, n) == to]
        both = sorted(where[name] & where[to]) if to not in new else []
        if others or both:
            print(f"together: {name} is {to}, as {others} {both[:3]}")
    print(f"{len(new)} names")

    def turned(text):
        return TOKEN.sub(lambda m: new.get(m.group(0), m.group(0)), text)

    def quoted(text):
        return re.sub(r"`[^`\n]+`", lambda m: turned(m.group(0)), text)

    def antt(text):
        out = []
        for line in text.split("\n"):
            m = re.match(r"^(.*?)(--(?:\s|$).*)$", line) if "--" in line else None
            out.append(turned(m.group(1)) + quoted(m.group(2)) if m else turned(line))
        return "\n".join(out)

    def source(text):
        out = []
        for line in text.split("\n"):
            code, slashes, comment = line.partition("//")
            if '"' in code and not code.lstrip().startswith("ghost"):
                out.append(line)
            else:
                out.append(turned(code) + slashes + quoted(comment))
        return "\n".join(out)

    def edit(text):
        out, of_source = [], False
        for line in text.split("\n"):
            if line.startswith("file:"):
                of_source = line.strip().endswith(".rt")
            key, colon, rest = line.partition(":")
            if key in ("old", "new"):
                out.append(key + colon + (source(rest) if of_source else antt(rest)))
            else:
                out.append(line)
        return "\n".join(out)

    changed = 0
    for ending, turn, below in ((".antt", antt, "crates"), (".rt", source, "crates"), (".edit", edit, "crates"), (".md", quoted, ".")):
        for path in files(root, ending, below):
            if os.path.basename(path) == "PORT.md":
                continue
            old = open(path, encoding="utf-8").read()
            text = turn(old)
            if text != old:
                open(path, "w", encoding="utf-8").write(text)
                changed += 1
    print(f"{changed} files")
    if os.environ.get("RESPELL_LIST"):
        with open(os.environ["RESPELL_LIST"], "w", encoding="utf-8") as f:
            for name in sorted(new):
                f.write(f"{name}\t{new[name]}\n")


main(sys.argv[1] if len(sys.argv) > 1 else ".")
