#!/usr/bin/env python3
"""Counts the places that the design pass asks about, in crates/*/src.

usage: tools/places.py [-v] [REPOSITORY]

Prints a line for each kind of place with its count; with -v each place. It knows nothing of types: it reads the text of
functions, so what it finds is a list to go through by hand, and what it can't see is named in docs/DESIGN-PASS.md.
"""
import collections
import pathlib
import re
import sys


def functions(path):
    """The functions of a file: name, line, signature with clauses, body."""
    text = path.read_text()
    lines = [re.sub(r"//.*", "", line) for line in text.split("\n")]
    text = "\n".join(lines)
    for match in re.finditer(r"\bfn (\w+)", text):
        if re.search(r"ghost use[^;]*$", text[:match.start()]):
            continue
        depth, at = 0, match.end()
        # the signature ends at the body's brace, which begins a line or follows the result on the same line
        body = re.compile(r"(^|[^\n])\{", re.M)
        clause = False
        start = at
        while at < len(text):
            c = text[at]
            if c == ";" and depth == 0:
                break
            if c in "([":
                depth += 1
            elif c in ")]":
                depth -= 1
            elif c == "{" and depth == 0:
                before = text[start:at].rstrip(" ")
                last = before.split("\n")[-1]
                if re.match(r"\s*(requires|ensures)\b", last):
                    end = at
                    level = 0
                    while end < len(text):
                        level += {"{": 1, "}": -1}.get(text[end], 0)
                        end += 1
                        if level == 0:
                            break
                    at = end
                    continue
                break
            at += 1
        signature = text[match.start():at]
        if at >= len(text) or text[at] == ";":
            yield match.group(1), text.count("\n", 0, match.start()) + 1, signature, ""
            continue
        end, level = at, 0
        while end < len(text):
            level += {"{": 1, "}": -1}.get(text[end], 0)
            end += 1
            if level == 0:
                break
        yield match.group(1), text.count("\n", 0, match.start()) + 1, signature, text[at:end]


def clauses(signature):
    """The clauses of a signature, each with its word."""
    return [
        re.sub(r"\s+", " ", m.group(1) + " " + m.group(2)).strip()
        for m in re.finditer(r"\b(requires|ensures)\b[ \w]*?\{(.*)\}\s*$", signature, re.M)
    ]


def parameters(signature):
    """The parameters of a function as name: type."""
    inside = re.match(r"fn \w+(?:<[^(]*>)?\((.*?)\)\s*(?:->|$|requires|ensures|\n)", signature, re.S)
    if not inside:
        return []
    parts, depth, word = [], 0, ""
    for c in inside.group(1):
        depth += {"(": 1, "[": 1, "<": 1, ")": -1, "]": -1, ">": -1}.get(c, 0)
        if c == "," and depth == 0:
            parts.append(word)
            word = ""
        else:
            word += c
    parts.append(word)
    return [re.sub(r"\s+", " ", p).strip() for p in parts if ":" in p]


def shape(body):
    """A body with its names, numbers and texts left out."""
    out = re.sub(r'b?"[^"]*"', "T", body)
    out = re.sub(r"\b(?!(?:if|else|match|for|in|while|let|mut|return|as|Some|None|Ok|Err|true|false)\b)[A-Za-z_]\w*", "n", out)
    out = re.sub(r"\b\d[\d_]*\w*", "0", out)
    return re.sub(r"\s+", "", out)


PASSED_ON = re.compile(
    r"None => (return )?None\b|None => \{\}|None => (return )?false|Err\((\w+)\) => (return )?Err\(\4\)|Err\(\w+\) => \{?$"
    r"|Some\((\w+)\) => (return )?Some\(\w|Ok\((\w+)\) => \{?$|\{ Some\(\(\)\) \} else \{ None \}|\(\) \} else"
)
COUNTED = re.compile(r"^\s*while (?!let\b)|for \w+ in [\w.()]*\.\.|\b\w+ [+-]= 1\b")
BY_HAND = re.compile(r"^\s*impl(<[^>]*>)? (Drop|PartialEq|Eq|Ord|PartialOrd|Clone|Copy|Add(<\w+>)?|Sub(<\w+>)?) for ")
NAMED = re.compile(r"^(agrees|same|number|number_of|meaning|comes_before|put_decimal|decimal_len|line_number|target_of|\w+_of)$")


def main():
    wordy = "-v" in sys.argv
    rest = [a for a in sys.argv[1:] if a != "-v"]
    root = pathlib.Path(rest[0] if rest else ".")
    found = collections.defaultdict(list)
    shapes = collections.defaultdict(list)
    facts = collections.defaultdict(set)
    pairs = collections.defaultdict(set)
    for path in sorted(root.glob("crates/*/src/**/*.rt")):
        crate = path.relative_to(root / "crates").parts[0]
        where = lambda n: f"{path.relative_to(root / 'crates')}:{n}"
        declared = False
        for number, line in enumerate(path.read_text().split("\n"), 1):
            code = re.sub(r"//.*", "", line)
            if re.match(r"(pub(\(\w+\))? )?(struct|enum) \w+.*\{$", code):
                declared = True
            elif code.startswith("}"):
                declared = False
            if PASSED_ON.search(code):
                found["1 arms that only pass an answer on"].append(f"{where(number)} {code.strip()}")
            if COUNTED.search(code):
                found["3 loops and counters by hand"].append(f"{where(number)} {code.strip()}")
            if BY_HAND.search(code):
                found["4 impls written by hand"].append(f"{where(number)} {code.strip()}")
            if declared and re.search(r"^\s*(pub(\(\w+\))? )?\w+: (&('\w+ )?mut )?\[", code):
                found["6 arrays and lent slices as fields"].append(f"{where(number)} {code.strip()}")
            if re.match(r"\s*(pub(\(\w+\))? )?struct \w+;", code):
                found["7 unit structs"].append(f"{where(number)} {code.strip()}")
            if re.match(r"\s*impl.* (Test|Lines)\b for ", code):
                found["7 impls of a trait of one function"].append(f"{where(number)} {code.strip()}")
            if re.match(r"\s*\d+ => (\[|\d|Body|rising)", code):
                found["7 tables by match"].append(f"{where(number)} {code.strip()}")
        for name, number, signature, body in functions(path):
            head = signature.split("requires")[0].split("ensures")[0]
            place = f"{where(number)} {name}"
            if "&mut" in head and re.search(r"-> bool\b", head):
                found["1 a bool for done or refused"].append(place)
            if "&mut" in head and re.search(r"-> Option<(Placed<Fault>|\(\))>", head):
                found["1 an Option for done or refused"].append(place)
            if re.search(r"-> u(8|32)\b", head) and re.search(r"::\w+(\([\w, ]*\))? => \d\d\b", body):
                found["1 numbers of refusals"].append(place)
            if NAMED.match(name) and body:
                found["4 functions that compare, convert or print"].append(place)
            if len(shape(body)) > 24:
                shapes[shape(body)].append(place)
            for clause in clauses(signature):
                if len(clause) > 24:
                    facts[(crate, re.sub(r"\bself\b|\bsink\b|\bbuild\b", "x", clause))].add(place)
            names = parameters(head)
            for i, a in enumerate(names):
                for b in names[i + 1:]:
                    if "self" not in a:
                        pairs[(crate, a, b)].add(place)
    for places in shapes.values():
        if len(places) > 1:
            found["2 functions of the same shape"].extend(places + [""])
    for (crate, clause), places in sorted(facts.items()):
        if len(places) > 2:
            found["5 a clause in three contracts or more"].append(f"{crate}: {clause} ({len(places)})")
    for (crate, a, b), places in sorted(pairs.items()):
        if len(places) > 2:
            found["5 parameters together in three functions or more"].append(f"{crate}: {a}, {b} ({len(places)})")
    for kind in sorted(found):
        places = found[kind]
        print(f"{kind}: {len([p for p in places if p])}")
        if wordy:
            for place in places:
                print("    " + place)


main()
