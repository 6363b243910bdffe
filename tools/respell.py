#!/usr/bin/env python3
"""Respells this repository's own definitions, lemmas, fields and constructors as Rattle's style has it: words in snake
case (number-below becomes number_below), facts in camel case (Law-of-runs becomes LawOfRuns). Run at the top, after the
kit's port.py; a second run finds nothing. It takes the names from the signatures of specs/ and proofs/, and the variables
and aliases from the text of lemmas and clauses. It leaves goals' names, strings, the functions of src/ and file names
alone, and says which names would fall together; those get the names in APART."""
import os
import re
import sys

ROOT = os.path.dirname(os.path.dirname(os.path.abspath(__file__)))
NAME = r"[^\s(){}\[\];,.|\"]+"
SIGNATURE = re.compile(r"^(\s*)((?:(?:abbrev|unfoldable|pub|data|record|mutual) )*)(%s) ?:(?: |$)" % NAME)
HEAD = re.compile(r"^\s*(?:pub )?(?:data|record) (%s)" % NAME)
GOAL = re.compile(r": \(?(?:goal|Goals|goals|given|Given)\.")
# A lemma that would have its function's name ends in _lem.
APART = {
    "change-first": "change_first_lem",
    "change-second": "change_second_lem",
    "is-done-write": "is_done_write_lem",
    "is-empty": "is_empty_lem",
}


def files(*ends):
    for folder, dirs, names in os.walk(os.path.join(ROOT, "crates")):
        dirs[:] = sorted(d for d in dirs if d != "out")
        for n in sorted(names):
            if n.endswith(ends):
                yield os.path.join(folder, n)


def read(path):
    with open(path, encoding="utf-8") as f:
        return f.read()


def own_names():
    own = set()
    for path in files(".antt"):
        for line in read(path).split("\n"):
            m = SIGNATURE.match(line) or HEAD.match(line)
            if m and not GOAL.search(line):
                own.add(m[m.lastindex])
    return {n for n in own if "-" in n and re.match(r"[A-Za-z]", n) and not n.startswith(("returns-", "invariant-", "decreases-", "loop-", "overflow-", "bounds-", "slice-", "ghosts-"))}


def variables():
    """Names of variables and aliases, in the files of lemmas and definitions and in clauses."""
    found = set()
    for path in files(".antt", ".rt"):
        if os.path.basename(path) in ("Answers.antt", "Invariants.antt", "Proof.antt"):
            continue
        for line in read(path).split("\n"):
            if path.endswith(".rt") and not re.search("ghost|ensures|requires", line):
                continue
            line = re.sub(r'"[^"]*"|--.*$|//.*$', "", line)
            found.update(it for it in re.findall(NAME, line) if re.search("[A-Za-z]-[A-Za-z]", it))
    return found


def imported():
    names = set()
    for path in files(".antt", ".rt"):
        for m in re.finditer(r"use (?:Rattle\.(\w+)|[a-z]\w*)\.[\w.+'-]*?\{([^}]*)\}", read(path)):
            if not (m[1] and os.path.isdir(os.path.join(ROOT, "crates", m[1]))):
                for it in m[2].split(","):
                    names.add(it.strip().split(" as ")[0])
    return names


def respelt(name):
    if name in APART:
        return APART[name]
    if name[0].isupper():
        return "".join(w[:1].upper() + w[1:] for w in name.split("-"))
    return name.replace("-", "_")


def tokens():
    seen = set()
    for path in files(".antt", ".rt"):
        seen.update(re.findall(NAME, read(path)))
    return seen


def main():
    names = own_names() | variables()
    foreign = imported()
    for n in sorted(own_names() & foreign):
        print(f"left: {n} is also a name of the library")
    names -= foreign
    seen = tokens()
    new = {n: respelt(n) for n in names}
    for n in sorted(new):
        if new[n] in seen or list(new.values()).count(new[n]) > 1:
            print(f"look: {n} falls together with {new[n]}")
    if "--look" in sys.argv:
        print(len(new), "names")
        return
    pattern = lambda some: re.compile(r"(?<![\w'◌/-])(%s)(?![\w'-])" % "|".join(sorted(map(re.escape, some), key=len, reverse=True))) if some else None
    every, own = pattern(new), pattern(own_names() & names)
    turned = lambda t, word=every: word.sub(lambda m: new[m[1]], t) if word else t
    for path in files(".antt", ".rt", ".edit"):
        text = read(path)
        if os.path.basename(path) in ("Answers.antt", "Invariants.antt", "Proof.antt"):
            # a step of the code may have the name of a variable elsewhere
            made = turned(text, own)
        elif path.endswith(".antt"):
            made = turned(text)
        else:
            made = "".join(p if p.startswith('"') else turned(p) for p in re.split(r'("(?:[^"\\\n]|\\.)*")', text))
        if made != text:
            with open(path, "w", encoding="utf-8") as f:
                f.write(made)
    for folder in (ROOT, os.path.join(ROOT, "docs")):
        for n in sorted(os.listdir(folder)):
            if n.endswith(".md") and not n.startswith("PORT"):
                path = os.path.join(folder, n)
                text = read(path)
                made = re.sub(r"`[^`\n]+`", lambda m: turned(m[0]), text)
                if made != text:
                    with open(path, "w", encoding="utf-8") as f:
                        f.write(made)


main()
