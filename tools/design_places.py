#!/usr/bin/env python3
"""Counts, in the sources of the crates, the places of older forms that docs/DESIGN-PASS.md speaks of.

    tools/design_places.py [--list] [DIR]

DIR is a checkout (this one if it is not named). A line for each point, 1 to 8, with how many places there are; --list prints the places
too. It goes by text: a place is somewhere to look, and the page says what was made of each.
"""
import collections
import pathlib
import re
import sys

WORD = re.compile(r"[A-Za-z_][A-Za-z_0-9]*|\d+|\S")
KEPT = set("let mut if else while for in return match fn pub impl self Self true false as use mod struct enum const type".split())
SENTINEL = re.compile(
    r"0 if there is none|0 where there was none|, or r\.|or the row's length|cap \+ 1|cap \+ 1 where|one more than there are|"
    r"counted from 1, or 0|r if none|or none where there\b.*numbers|; 0 for an open one|0 none, 1|none was met: 0"
)


def sources(top):
    for path in sorted(top.glob("crates/*/src/*.rt")):
        yield path.relative_to(top), path.read_text()


class Function:
    """A function: where it stands, its comment, parameters, requires, and the words of its body."""

    def __init__(self, where, line, comment, head, body):
        self.where, self.line, self.comment, self.body = where, line, comment, body
        self.name = re.search(r"fn ([a-z_0-9]+)", head).group(1)
        inside = head[head.index("(") + 1 :]
        depth, end = 1, 0
        for end, letter in enumerate(inside):
            depth += {"(": 1, ")": -1}.get(letter, 0)
            if depth == 0:
                break
        self.params = [p.strip() for p in re.split(r",(?![^\[<(]*[\]>)])", inside[:end]) if p.strip()]
        self.result = (re.search(r"->\s*([^\n{]+?)\s*$", inside[end + 1 :].split("requires")[0].split("ensures")[0]) or [None, ""])[1]
        self.requires = re.findall(r"requires(?: \w+)? \{(.*?)\}\s*(?=requires|ensures|$)", head, re.S)

    def __str__(self):
        return f"{self.where}:{self.line} {self.name}"


def functions(top):
    for where, text in sources(top):
        lines = text.split("\n")
        i = 0
        while i < len(lines):
            if not re.match(r"\s*(pub(\(\w+\))? )?(const )?fn [a-z_0-9]+", lines[i]):
                i += 1
                continue
            indent = re.match(r"\s*", lines[i])[0]
            start = i
            while i < len(lines) and lines[i] != indent + "{" and not (lines[i].startswith(indent) and lines[i].endswith(" {")
                                                                     and "ensures" not in lines[i] and "requires" not in lines[i]):
                i += 1
            first = i
            while i < len(lines) and lines[i] != indent + "}":
                i += 1
            above = start - 1
            while above >= 0 and re.match(r"\s*(//|#)", lines[above]):
                above -= 1
            comment = " ".join(x.strip(" /") for x in lines[above + 1 : start])
            head = "\n".join(lines[start : first + 1]).rstrip("{ \n")
            yield Function(where, start + 1, comment, head, "\n".join(lines[first + 1 : i]))


def shape(body):
    """A body with its names, numbers and constants taken for places: equal for twins."""
    seen = {}
    out = []
    for word in WORD.findall(re.sub(r"//.*", "", body)):
        if word in KEPT or not re.match(r"[A-Za-z_0-9]", word):
            out.append(word)
        else:
            out.append(str(seen.setdefault(word, len(seen))))
    return " ".join(out)


def atoms(function):
    for clause in function.requires:
        depth, part = 0, ""
        for letter in clause + "×":
            if letter == "×" and depth == 0:
                part = " ".join(part.split())
                if part.startswith("(") and part.endswith(")"):
                    part = part[1:-1]
                if part:
                    yield re.sub(r"\.(old|now|new)", "", part)
                part = ""
                continue
            depth += {"(": 1, ")": -1}.get(letter, 0)
            part += letter


def points(top):
    all_functions = list(functions(top))
    found = {}

    one = []
    for where, text in sources(top):
        for m in re.finditer(r"(?:pub )?enum (\w+) \{(.*?)\n\}", text, re.S):
            variants = [v.strip().rstrip(",") for v in m[2].split("\n") if v.strip() and not v.strip().startswith("//")]
            if len(variants) == 2 and any("(" in v for v in variants):
                one.append(f"{where} enum {m[1]}")
        for m in re.finditer(r"pub open: bool", text):
            one.append(f"{where} flag `open` with values beside it")
    one += [f"{f} (a number for none, a refusal or a kind)" for f in all_functions if SENTINEL.search(f.comment)]
    found[1] = one

    groups = collections.defaultdict(list)
    for f in all_functions:
        words = WORD.findall(f.body)
        if len(words) > 12 and not f.name.startswith("naxxurbi_"):
            groups[shape(f.body)].append(f)
    found[2] = [" ~ ".join(map(str, g)) for g in groups.values() if len(g) > 1]

    found[3] = [f"{where}:{n} {line.strip()}" for where, text in sources(top) for n, line in enumerate(text.split("\n"), 1)
                if re.match(r"\s*while ", line)]

    hand = re.compile(r"^\s*([a-z_]+): \1,$|\* 256|/ 256|if a < b \{ [ab] \} else|=> \d+,$|- 256\)")
    found[4] = [f"{where}:{n} {line.strip()}" for where, text in sources(top) for n, line in enumerate(text.split("\n"), 1)
                if hand.search(line)]

    facts = collections.defaultdict(list)
    for f in all_functions:
        for atom in set(atoms(f)):
            facts[atom].append(f)
    five = [f"fact in {len(v)} contracts: {k}" for k, v in facts.items() if len(v) >= 3]
    pairs = collections.defaultdict(set)
    for f in all_functions:
        for a, b in zip(f.params, f.params[1:]):
            if ":" in a and ":" in b:
                pairs[(re.sub(r"&mut |mut ", "&", a), re.sub(r"&mut |mut ", "&", b))].add(str(f))
    five += [f"parameters side by side in {len(v)} functions: {a}, {b}" for (a, b), v in pairs.items() if len(v) >= 3]
    found[5] = sorted(five)

    found[6] = [f"{f}: {', '.join(p for p in f.params if re.match(r'(r|n|m|count|left|tail): usize', p))}" for f in all_functions
                if any(re.search(r"\[", p) for p in f.params) and any(re.match(r"(r|n|m|count|left|tail): usize", p) for p in f.params)]

    found[7] = [f"{f}: {p}" for f in all_functions for p in f.params if re.search(r": bool$", p)]

    found[8] = [str(p.relative_to(top)) for p in sorted(top.glob("crates/*/proofs/**/Proof.antt"))]
    return found


def main():
    words = [w for w in sys.argv[1:] if w != "--list"]
    top = pathlib.Path(words[0] if words else pathlib.Path(__file__).resolve().parent.parent)
    names = {1: "own Option or Result, a number for none", 2: "functions of one shape", 3: "while loops", 4: "conversions by hand",
             5: "facts and parameters that travel together", 6: "a slice with its length beside it", 7: "a flag that says which step",
             8: "proofs that walk the code by hand"}
    for point, places in points(top).items():
        print(f"{point}  {len(places):4}  {names[point]}")
        if "--list" in sys.argv:
            for place in places:
                print("      ", place)


if __name__ == "__main__":
    main()
