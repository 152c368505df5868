#!/usr/bin/env python3
"""Respells the repository's own definitions and lemmas: words in snake case, types in camel case.

usage: tools/respell.py [--list]   at the top of the repository, once, right after the kit's own script

It reads every name that a file of specs/ or proofs/ declares, and rewrites that name wherever it stands as a word of a
.rt or .antt file below crates/. A name that an import gives
to a word in one file is turned too. Names of goals, of the library and of src/ stay, and so do words of a comment that
have a dash. --list prints old and new names and
writes nothing. Names that would fall together with another are reported, and nothing is written."""
import glob
import re
import sys

KITS = "std borrow denote native mathlib Prim lib logic core".split()
DECLARED = re.compile(r"^([ \t]*)((?:(?:pub|abbrev|unfoldable|record|data)[ \t]+)*)([^\s(){};,.:]+)((?:[ \t]+[({][^\n]*?)?)[ \t]+:[ \t](.*)$", re.M)
IMPORTED = re.compile(r"use[ \t]+([\w.+]+)\.\{([^}]*)\}")


def files(*ends):
    return sorted(p for e in ends for p in glob.glob("crates/**/*" + e, recursive=True) if "/out/" not in p)


def read(path):
    with open(path, encoding="utf-8") as f:
        return f.read()


def from_kit(path):
    parts = path.split(".")
    return (parts[1] if parts[0] == "Rattle" and len(parts) > 1 else parts[0]) in KITS


def respelled(name, kind):
    if name[0].isupper() and kind != "word":
        return "".join(p[0].upper() + p[1:] for p in re.split(r"[-_]", name) if p)
    words = re.sub(r"([a-z0-9])([A-Z])", r"\1_\2", name.replace("-", "_")).lower()
    return words.replace("′", "'")


def names():
    """The names that are declared, each with whether it is a type, a word or a field; and those that come from the kit."""
    declared, imported = {}, set()
    for path in files(".antt"):
        text = read(path)
        for m in IMPORTED.finditer(text):
            if from_kit(m[1]):
                imported |= {x.strip().split(" as ")[-1] for x in m[2].split(",")}
        fields = False
        for line in text.split("\n"):
            if line and not line[0].isspace():
                fields = bool(re.match(r"(pub )?record\b", line))
            m = DECLARED.match(line)
            if not m or line.lstrip().startswith(("--", "use ", "λ", "let ", "→")) or m[3] in ("λ", "→", "let", "in"):
                continue
            if re.match(r"(goal|given)\.", m[5]) or re.search(r"/proofs/.*/(Invariants|Answers)\.antt$", path) and m[5].startswith("goal."):
                continue
            kind = "field" if m[1] and fields else "word"
            if m[3][0].isupper():
                kind = "type"
            declared.setdefault(m[3], set()).add(kind)
    return declared, imported


# Two words that begin with a capital letter, and lemmas that would fall together with the definition that they speak of.
CHOSEN = {
    "M-fresh": "m_fresh",
    "M-goes": "m_goes",
    "goesOn": "may_go_on",
    "most-tiles": "as_many_tiles_as_may_be",
} | {
    name: name.replace("-", "_") + "_lem"
    for name in "axis-of box-said digit-more first-from in-range last-is last-passes no-lot ok-body part-named parts-of split-row".split()
}
# Lemmas that the kit's script respelled so that they would fall together with a definition; only in .antt files.
LEMMAS = {"box_read": "box_read_lem", "laid_out": "laid_out_lem", "too_many": "too_many_lem"}


def main():
    declared, imported = names()
    new = {}
    for name, kinds in declared.items():
        to = CHOSEN.get(name) or respelled(name, "type" if "type" in kinds else "word")
        if name in LEMMAS:
            continue
        if to != name and name not in imported:
            new[name] = to
    taken = {}
    for old, to in new.items():
        taken.setdefault(to, set()).add(old)
    for name in declared:
        if name in taken and name not in LEMMAS:
            taken[name].add(name)
    bad = {to: olds for to, olds in taken.items() if len(olds) > 1 or to in imported}
    for to, olds in sorted(bad.items()):
        print("falls together:", to, "from", ", ".join(sorted(olds)), "(of the kit too)" if to in imported else "")
    if "--list" in sys.argv[1:]:
        for old in sorted(new):
            print(old, new[old])
        return 0
    if bad and "--force" not in sys.argv[1:]:
        return 1
    fields = {n for n, kinds in declared.items() if "field" in kinds}
    word = re.compile(r"(?<![\w'◌-])(\.?)([A-Za-z][\w']*(?:-[\w']+)*)(?![\w'◌-])")

    def turn(m):
        if m[2] not in new or m[1] and m[2] not in fields:
            return m[0]
        start = m.string.rfind("\n", 0, m.start()) + 1
        comment = re.search(r"(^|\s)(--|//)\s", m.string[start : m.start()])
        if comment and "-" in m[2] and m[2][0].islower():
            return m[0]
        return m[1] + new[m[2]]

    for path in files(".antt", ".rt"):
        text = read(path)
        fresh = text
        if path.endswith(".antt"):
            fresh = re.sub(r"(?<![\w'◌.-])(" + "|".join(LEMMAS) + r")(?![\w'◌-])", lambda m: LEMMAS[m[1]], fresh)
        fresh = word.sub(turn, fresh)
        for alias in set(re.findall(r"\bas ([a-z][a-z0-9]*(?:[A-Z][a-z0-9]*)+)[,}]", fresh)):
            fresh = re.sub(r"(?<![\w'◌.-])" + alias + r"(?![\w'◌-])", respelled(alias, "word"), fresh)
        if fresh != text:
            with open(path, "w", encoding="utf-8") as f:
                f.write(fresh)
    return 0


sys.exit(main())
