#!/usr/bin/env python3
"""Brings the names that this repository's specs/ and proofs/ define to one spelling, as the library spells its own.

usage: tools/respell.py        at the top of a checkout, once, after the kit's port.py and before any edit by hand

A function, a lemma or a field `first-no` becomes `first_no`; a type or a fact `Sound-link` becomes `SoundLink`. Names that Rattle
makes (goals, steps), the library's names, and what stands in strings and comments stay. Where names fall together
it says which, and changes nothing.
"""

import glob
import re
import sys

# Names that would otherwise meet a word of another meaning in a file that uses both.
OTHERS = {"most-grains": "most_grains_of"}

# Names that may stand beside another of the same spelling: a method, a folder, an alias that goes.
FITTING = {"of_file", "of_list", "of_order", "of_link", "first_slot", "keeper_holds_front"}

PLAIN = r"[^\s(){}\[\];,.:λ\"`]+"
SIGNATURE = re.compile(rf"^\s*(?:(?:abbrev|unfoldable|pub)\s+)*({PLAIN})\s*:\s*(.*)")
TYPE = re.compile(rf"^\s*(?:pub\s+)?(?:record|data)\s+({PLAIN})")
MADE = re.compile(r"^(?:goal|need|given)\.")
STRING = re.compile(r'"(?:\\.|[^"\\])*"')
TOKEN = re.compile(PLAIN)


def theories():
    return sorted(f for kind in ("specs", "proofs") for f in glob.glob(f"crates/*/{kind}/**/*.antt", recursive=True))


def sources():
    return sorted(glob.glob("crates/*/src/**/*.rt", recursive=True) + glob.glob("crates/*/must-fail/*.edit"))


def text(path):
    with open(path, encoding="utf-8") as f:
        return f.read()


def defined():
    """The names with a dash that the repository defines."""
    names = set()
    for path in theories():
        for line in text(path).split("\n"):
            if line.lstrip().startswith("--"):
                continue
            if m := TYPE.match(line):
                names.add(m[1])
            elif (m := SIGNATURE.match(line)) and not MADE.match(m[2]):
                names.add(m[1])
    return {n for n in names if "-" in n.strip("-") and n[0].isalpha()}


def respelled(name):
    if name in OTHERS:
        return OTHERS[name]
    parts = name.split("-")
    if parts[0][0].isupper():
        return "".join(p[:1].upper() + p[1:] for p in parts)
    return "_".join(parts)


def turn(line, names, mark):
    """The line with its names turned, but in strings and behind the mark of a comment."""
    out, at = [], 0
    stop = line.find(mark) if mark else -1
    stop = len(line) if stop < 0 else stop
    strings = [m.span() for m in STRING.finditer(line[:stop])]
    for m in TOKEN.finditer(line[:stop]):
        if m[0] in names and not any(a <= m.start() < b for a, b in strings):
            # behind a dot a name of OTHERS is a call, which keeps its own
            plain = m[0] in OTHERS and line[m.start() - 1 : m.start()] == "."
            out.append(line[at : m.start()] + ("_".join(m[0].split("-")) if plain else names[m[0]]))
            at = m.end()
    return "".join(out) + line[at:]


def mark_of(path):
    return "-- " if path.endswith(".antt") else "//" if path.endswith(".rt") else None


def main():
    names = {n: respelled(n) for n in defined()}
    meet = 0
    for path in theories() + sources():
        words = set(TOKEN.findall(text(path)))
        for n in sorted(words & set(names)):
            if names[n] in words and names[n] not in FITTING:
                print(f"{path}: {n} would meet {names[n]}")
                meet += 1
    back = {}
    for n, m in names.items():
        back.setdefault(m, []).append(n)
    for m, ns in sorted(back.items()):
        if len(ns) > 1:
            print(f"{' and '.join(sorted(ns))} would both be {m}")
            meet += 1
    if meet:
        return 1
    for path in theories() + sources():
        old = text(path)
        new = "\n".join(turn(line, names, mark_of(path)) for line in old.split("\n"))
        new = re.sub(r"\b(\w+) as \1\b", r"\1", new)
        if new != old:
            with open(path, "w", encoding="utf-8") as f:
                f.write(new)
    print(f"{len(names)} names respelled")
    return 0


if __name__ == "__main__":
    sys.exit(main())
