#!/usr/bin/env python3
"""Writes the project's own definitions, constructors, fields and lemmas in snake case, as the installed Rattle spells names.

usage: snake_names.py [--list]     at the top of the repository, once, after the kit's port.py

    digitOf, run-append, monthDayNano  ->  digit_of, run_append, month_day_nano

A name is the project's own where a file of specs/ or of shared laws declares it. Text in src/ outside ghost lines and clauses, strings,
edits, inputs and outputs stay. --list prints the names and what falls together, and writes nothing.
"""

import collections
import os
import re
import sys

WORD = r"[^\s(){}.;,@\"«»\[\]\\]+"
TOKEN = re.compile(r"--(?:\s[^\n]*|$)|//[^\n]*|\"(?:[^\"\\]|\\.)*\"|«[^»]*»|" + WORD)
QUOTED = re.compile(r"`[^`]*`")
DECLARES = re.compile(r"^\s*(?:(?:pub|abbrev|unfoldable|private)\s+)*(" + WORD + r"(?:\s+" + WORD + r")*)\s+:(?:\s|$)")
# Of the kit too, and imported from there.
KEEP = {"not-true"}
# A lemma that would have its definition's name gets `_lem`, as the kit's names do. The last ones are in snake case since port.py.
LEMMAS = set(
    "as-integer bad-unit code-of compact-test day-of day-time in-column in-day in-range in-unit in-utf8 is-ending is-separator is-sign key-on"
    " on-day on-division on-text on-time or-else parted-at place-in-unit point-len scale-after seconds-test sign-len signed-day site-test"
    " time-column timed-at to-day-time to-hyphen two-test unfit-in whole-fits whole-value word-then year-month".split()
)
# Declared over two lines, or by an `as`.
MORE = "by-test by-1970 beforeMonth some-amount some-unit st-no-date st-not-utf8 st-out-of-range stamp-refusals".split()
LEMMAS_SINCE = set("is_digit two_digits word_end word_len in_order".split())


def files(endings):
    for top, dirs, names in os.walk("crates"):
        dirs[:] = sorted(d for d in dirs if d not in ("out", "must-fail"))
        for n in sorted(names):
            if n.endswith(endings):
                yield os.path.join(top, n)


def read(path):
    with open(path, encoding="utf-8") as f:
        return f.read()


def snake(name):
    name = re.sub(r"([a-z0-9])([A-Z])", r"\1_\2", name).replace("-", "_").lower()
    return name


def ours(name):
    return re.match(r"[a-z]", name) and (re.search(r"[A-Z]", name) or re.search(r"[A-Za-z0-9]-[A-Za-z0-9]", name)) and re.fullmatch(r"[A-Za-z0-9_'\-₀-₉]+", name)


def declared():
    found = collections.defaultdict(set)
    for path in files((".antt",)):
        if path.endswith(("/Proof.antt", "/Answers.antt", "/Invariants.antt")):
            continue
        for line in read(path).split("\n"):
            if line.lstrip().startswith(("--", "use ", "pub use ")):
                continue
            it = DECLARES.match(line)
            if it:
                for name in it.group(1).split():
                    if ours(name) and name not in KEEP:
                        found[name].add(path)
    return found


# A line of src/ is turned where it is a ghost line or in a clause.
def clauses(text):
    out, at = [], 0
    for it in re.finditer(r"(?m)^\s*ghost use [^;]*;|\b(?:requires|ensures)\*?(?:\s+\w+)?\s*\{", text):
        if it.group().lstrip().startswith("ghost"):
            out.append((it.start(), it.end()))
            continue
        depth, i = 1, it.end()
        while depth:
            depth += {"{": 1, "}": -1}.get(text[i], 0)
            i += 1
        out.append((it.end(), i - 1))
    return out


def turned(text, names):
    def word(m):
        it = m.group()
        if it.startswith(("--", "//")):
            return QUOTED.sub(lambda q: re.sub(WORD, lambda w: names.get(w.group().strip("`"), w.group().strip("`")), q.group().strip("`")).join("``"), it)
        # a module of a path is no lemma
        if it in LEMMAS_SINCE and (text[m.end() : m.end() + 1] == "." or text[m.start() - 1 : m.start()] == "."):
            return it
        return names.get(it, it)

    return TOKEN.sub(word, text)


def turned_code(text, names):
    out, at = [], 0
    for a, b in clauses(text):
        if a < at:
            continue
        out += [text[at:a], turned(text[a:b], names)]
        at = b
    return "".join(out) + text[at:]


def main(argv):
    names = {n: snake(n) + ("_lem" if n in LEMMAS else "") for n in [*declared(), *MORE]}
    names.update({n: n + "_lem" for n in LEMMAS_SINCE})
    if argv:
        by = collections.defaultdict(set)
        for old, new in names.items():
            by[new].add(old)
        for new, olds in sorted(by.items()):
            if len(olds) > 1:
                print("fall together:", new, sorted(olds))
        for path in files((".antt", ".rt")):
            text = read(path)
            text = "\n".join(text[a:b] for a, b in clauses(text)) if path.endswith(".rt") else text
            said = set(TOKEN.findall(text))
            for old in sorted(said & set(names)):
                if names[old] in said:
                    print("both in a file:", path, old, names[old])
        print(len(names), "names")
        print(" ".join(sorted(names)))
        return 0
    for path in files((".antt", ".rt")):
        text = read(path)
        new = turned_code(text, names) if path.endswith(".rt") else turned(text, names)
        if new != text:
            with open(path, "w", encoding="utf-8") as f:
                f.write(new)
    return 0


if __name__ == "__main__":
    sys.exit(main(sys.argv[1:]))
