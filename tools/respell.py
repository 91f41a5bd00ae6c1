#!/usr/bin/env python3
"""Brings the repository's own names in specs/ and proofs/ to one spelling: facts and types in camel case,
functions, lemmas and fields in snake case. Names that Rattle makes of the source (goals, invariants, steps)
and names of the library keep theirs.

usage: python3 tools/respell.py [--check]      at the top of the repository; --check writes nothing
"""

import os
import re
import sys

WORD = r'[^\s(){}.,;@"«»:=]+'
SIGNATURE = re.compile(
    r"^\s*(?:(?:abbrev|unfoldable|pub|record|data|ruleset)\s+)*((?:" + WORD + r"\s+)*?" + WORD + r")((?:\s+[({][^=]*?[)}])*)\s*:(?:\s|$)"
)
TOKEN = re.compile(r'[^\s(){}.,;:@"«»]+')
GOAL = re.compile(r":\s*(?:goal|need|given)\.")
MADE = ("loop-", "invariant-loop-", "decreases-", "returns-", "overflow", "bounds-", "slice_bounds", "in-Continue", "in-Break")
KEEP_CAPITAL = {"Stands-key": "stands_key"}
# What port.py took for a function.
FACTS = {"Counted_at": "CountedAt"}


def files(root, endings):
    for folder, dirs, names in os.walk(root):
        dirs[:] = sorted(d for d in dirs if d not in ("out", ".git"))
        for name in sorted(names):
            if name.endswith(endings):
                yield os.path.join(folder, name)


def read(path):
    with open(path, encoding="utf-8") as f:
        return f.read()


def spelled(name):
    if name in KEEP_CAPITAL or name in FACTS:
        return KEEP_CAPITAL.get(name) or FACTS[name]
    if name[0].isupper():
        return "".join(part[:1].upper() + part[1:] for part in name.split("-"))
    if re.fullmatch(r"[a-z]+[A-Z][a-z]+", name):
        return re.sub(r"([A-Z])", lambda m: "_" + m.group(1).lower(), name)
    return name.replace("-", "_")


def code(line):
    at = re.search(r"(?<![^\s(){}.,;])--(?=\s|$)", line)
    return line if at is None else line[: at.start()]


def table():
    own, foreign = {}, set()
    for path in files("crates", (".antt",)):
        for line in read(path).split("\n"):
            text = code(line)
            use = re.match(r"\s*use\s+(\S+?)\.\{(.*)\}", text)
            if use and not re.match(r"Rattle\.(" + CRATES + r")\.", use.group(1) + "."):
                foreign.update(w for part in use.group(2).split(",") for w in part.split(" as ")[0].split())
            found = SIGNATURE.match(text)
            if not found or text.lstrip().startswith("use ") or GOAL.search(text):
                continue
            for name in found.group(1).split():
                if "-" in name and re.match(r"[A-Za-z]", name) and re.fullmatch(r"[\w'-]+", name):
                    own.setdefault(name, path)
    for path in files("crates", (".antt", ".rt")):
        for name in re.findall(r"\buse\s[^;\n]*", read(path)):
            own.update((w, path) for w in re.findall(r"\bas ([\w']+-[\w'-]+)", name))
    own["perBlock"] = "crates/flash/src/traits.rt"
    own.update((n, "") for n in FACTS)
    made = {n for n in own if n.startswith(MADE) or n.endswith("-requires") and "proofs/" in own[n] and n in GOALS}
    return {n: spelled(n) for n in own if n not in foreign and n not in made and n not in GOALS}, sorted(set(own) & foreign)


def turned(text, names, kind):
    def words(part):
        return TOKEN.sub(lambda m: names.get(m.group(0), m.group(0)), part)

    def spans(part):
        return re.sub(r"`([^`]*)`", lambda m: "`" + words(m.group(1)) + "`", part)

    out = []
    for line in text.split("\n"):
        if kind == "md":
            out.append(spans(line))
        elif kind == "antt":
            head = code(line)
            out.append(words(head) + spans(line[len(head):]))
        else:
            at = re.search(r"//", line)
            head = line if at is None else line[: at.start()]
            pieces = re.split(r'("(?:\\.|[^"\\])*")', head)
            out.append("".join(p if p.startswith('"') else words(p) for p in pieces) + spans(line[len(head):]))
    return "\n".join(out)


CRATES = "|".join(sorted(os.listdir("crates"), key=len, reverse=True))
GOALS = set()
for path in files("crates", ("Answers.antt", "Invariants.antt")):
    for line in read(path).split("\n"):
        found = re.match(r"\s*(?:abbrev\s+)?pub\s+(" + WORD + r")\s*:\s*(?:goal|need|given)\.", line)
        if found:
            GOALS.add(found.group(1))


def main():
    names, skipped = table()
    every = set()
    for path in files("crates", (".antt", ".rt")):
        every.update(TOKEN.findall(read(path)))
    for old, new in sorted(names.items()):
        if new in every:
            print(f"falls together: {old} -> {new}")
    for name in skipped:
        print(f"also the library's: {name}")
    if "--check" in sys.argv:
        for old, new in sorted(names.items()):
            print(f"{old}\t{new}")
        return
    places = [(p, "antt" if p.endswith(".antt") else "rt") for p in files("crates", (".antt", ".rt", ".edit"))]
    places += [(p, "md") for p in list(files("docs", (".md",))) + ["README.md"] if not p.endswith("PORT.md")]
    for path, kind in places:
        old = read(path)
        new = turned(old, names, kind)
        if new != old:
            with open(path, "w", encoding="utf-8") as f:
                f.write(new)


if __name__ == "__main__":
    main()
