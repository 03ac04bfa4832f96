#!/usr/bin/env python3
"""Brings the repository's own definitions and fields to today's spelling, once: words in snake case.

usage: python3 tools/respell.py [--others] [FOLDER]      FOLDER is the top of a checkout; the default is the one that holds this file
--others turns the names of OTHERS alone, which the rule below passes over (constructors on a line of their own among them). They were
brought over after the rest.

What turns, as whole words, in .antt and .rt files, must-fail edits and the code spans of pages:
  a definition or lemma that begins with a small letter and has capitals behind it: mostStates -> most_states
  a field of a record and a constructor: its dashes, log-long -> log_long
A dash in a lemma's name stays: it joins two names. A dashed word of a comment's prose stays, too. A name that a library's import has, or that would fall together with another, has a row
of its own in APART, or stays. It goes by spelling, so what it is run on has to be as port.py left it.
"""

import collections
import os
import re
import sys

TOKEN = re.compile(r"[^\s(){}.;,@\"«»:λ`|\[\]]+")
USE = re.compile(r"(?m)^[ \t]*(?:ghost )?use ([^\s{;]+)\.\{([^}]*)\}")
SPAN = re.compile(r"`[^`\n]+`")
DOES = {"pub", "abbrev", "unfoldable", "data", "record", "mutual", "where"}
OF_FUNCTIONS = {"Proof.antt", "Answers.antt", "Invariants.antt"}

# names that would fall together with a lemma of another meaning
APART = {
    "countAt": "count_met_at",
    "oneMore": "one_more_of",
    "leftOut": "left_out_of",
    "onePlace": "one_place_said",
    "noPlace": "no_place_said",
    "allTrue": "all_literals_true",
    "someTrue": "some_literal_true",
    "mostBytes": "most_bytes_of_a_sheet",
    "twoClashes-13": "two_clashes-13",
    "upDownUp-13": "up_down_up-13",
    "upDown-13": "up_down-13",
    "downUp-13": "down_up-13",
    "openingLate-13": "opening_late-13",
    "fromOneStuck-13": "from_one_stuck-13",
    "noLaw-13": "no_law-13",
    "upUp-12": "up_up-12",
    "fromOneUp-12": "from_one_up-12",
    "fromOneDown-12": "from_one_down-12",
    "upDown-11": "up_down-11",
    "fromOneDown-11": "from_one_down-11",
    "fromOne-11": "from_one-11",
    "getD-map-in": "get_or-map-in",
    "getD-map-within": "get_or-map-within",
    "getD-states-of": "get_or-states-of",
}

# names that the rule does not find
OTHERS = {
    "badShape": "bad_shape",
    "badLetters": "bad_letters",
    "tooMany": "too_many_records",
    "recordMissing": "record_missing",
    "badLiteral": "bad_literal",
    "badSize": "bad_size",
    "badVersion": "bad_version",
    "badLength": "bad_length",
    "notAscending": "not_rising",
    "shortRun": "short_run",
    "tooManyStates": "too_many_states",
    "notAccepted": "not_accepted",
    "newWords": "new_words",
    "newTable": "new_table",
    "trialWithoutRoom": "trial_without_room",
    "classRefused": "class_refused",
    "leadClosed": "lead_closed",
    "pastTheMostMoments": "past_the_most_moments",
    "withoutOf": "without_of",
}


def texts(root, endings):
    for top in ("crates", "docs", "README.md", "CHANGELOG.md"):
        path = os.path.join(root, top)
        if os.path.isfile(path):
            yield path
        for folder, dirs, files in os.walk(path):
            dirs[:] = sorted(d for d in dirs if d not in ("out", "target", ".git"))
            for name in sorted(files):
                if name.endswith(endings):
                    yield os.path.join(folder, name)


def read(path):
    with open(path, encoding="utf-8") as f:
        return f.read()


def declared(text):
    """Each declared name with whether an equation defines it here."""
    lines = [line.strip() for line in text.split("\n")]
    names = []
    for line in lines:
        if line.startswith("--") or " :" not in line:
            continue
        words = line.split(" :", 1)[0].split()
        while words and words[0] in DOES:
            words = words[1:]
        here = []
        for word in words:
            if word[0] in "({":
                break
            here.append(word)
        if here and len(here) < 5 and all(TOKEN.fullmatch(word) for word in here):
            names += here
    equations = set()
    for line in lines:
        first = line.split(" ", 1)
        if len(first) == 2:
            rest = first[1].lstrip()
            if not rest.startswith(":") and "=" in rest and not (rest.startswith("=") and line.endswith(";")):
                equations.add(first[0])
    return [(name, name in equations) for name in names]


def snake(name):
    return re.sub(r"(?<=[a-z0-9])[A-Z]", lambda m: "_" + m[0].lower(), name).replace("-", "_")


def table(root):
    crates = set(os.listdir(os.path.join(root, "crates")))
    names, defined, others, imported = set(), set(), set(), set()
    for path in texts(root, (".rt", ".antt")):
        text = read(path)
        for use in USE.finditer(text):
            steps = use[1].split(".")
            if not (steps[0] == "Rattle" and len(steps) > 1 and steps[1] in crates):
                imported |= {item.strip().split(" as ")[0].strip() for item in use[2].split(",")}
        if path.endswith(".antt"):
            found = declared(text)
            if os.path.basename(path) in OF_FUNCTIONS:
                others |= {name for name, _ in found}
            else:
                names |= {name for name, _ in found}
                defined |= {name for name, by in found if by}
    rows = {}
    for name in names:
        if name in APART:
            rows[name] = APART[name]
        elif name[0].isupper() or name in imported:
            continue
        elif re.search(r"[a-z0-9][A-Z]", name) or ("-" in name and name not in defined):
            rows[name] = snake(name)
    taken = names | others | imported
    meets = collections.Counter(rows.values())
    for old, new in sorted(rows.items()):
        if new in taken or (meets[new] > 1 and "-" in old):
            print(f"respell: {old} stays: {new} is another name")
            del rows[old]
    return rows


def turned(text, path, rows):
    def word(match):
        return rows.get(match[0], match[0])

    def span(match):
        return TOKEN.sub(word, match[0])

    def prose(match):
        return match[0] if "-" in match[0] else word(match)

    if path.endswith(".md"):
        return SPAN.sub(span, text)
    lines = []
    for line in text.split("\n"):
        if line.lstrip().startswith(("--", "//")):
            line = TOKEN.sub(prose, SPAN.sub(span, line))
        else:
            line = TOKEN.sub(word, line)
        lines.append(line)
    return "\n".join(lines)


def main(argv):
    others = "--others" in argv
    argv = [word for word in argv if word != "--others"]
    root = argv[0] if argv else os.path.dirname(os.path.dirname(os.path.realpath(__file__)))
    rows = {} if others else table(root)
    rows.update(OTHERS)
    files = 0
    for path in texts(root, (".rt", ".antt", ".edit", ".md")):
        text = read(path)
        new = turned(text, path, rows)
        if new != text:
            files += 1
            with open(path, "w", encoding="utf-8") as f:
                f.write(new)
    print(f"respell: {len(rows)} names, {files} files")


if __name__ == "__main__":
    main(sys.argv[1:])
