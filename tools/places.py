#!/usr/bin/env python3
"""Counts, in the sources of a checkout, the places that older forms of the language leave.

    python3 tools/places.py [CHECKOUT] [--list]

One line for each kind of place, with its count; with --list also each place.
"""
import difflib
import os
import re
import sys

POINTS = {
    "1 flags, sentinels and numbers for kinds": [],
    "2 twins": [],
    "3 loops by hand": [],
    "4 equality, order, conversion and printing by hand": [],
    "5 clauses and parameters that repeat": [],
    "6 parallel buffers and places in them": [],
    "7 switches on what to run": [],
}
KEYS = list(POINTS)


def found(point, place, what):
    POINTS[KEYS[point - 1]].append((place, what))


def sources(root):
    crates = os.path.join(root, "crates")
    for crate in sorted(os.listdir(crates)):
        src = os.path.join(crates, crate, "src")
        for name in sorted(os.listdir(src)):
            if name.endswith(".rt"):
                yield crate, name, open(os.path.join(src, name), encoding="utf8").read()


def functions(text):
    """The functions of a file: line, name, signature with clauses, body."""
    lines = text.split("\n")
    at = 0
    while at < len(lines):
        match = re.match(r"(\s*)(?:pub(?:\(crate\))? )?fn (\w+)", lines[at])
        if not match:
            at += 1
            continue
        indent, name, start = match.group(1), match.group(2), at
        while at < len(lines) and not re.match(indent + r"(\{|.*\{$|.*;$)", lines[at]):
            at += 1
        head = at
        if at < len(lines) and lines[at].rstrip().endswith(";"):
            yield start + 1, name, lines[start:at + 1], []
            at += 1
            continue
        at += 1
        while at < len(lines) and not re.match(indent + r"\}", lines[at]):
            at += 1
        yield start + 1, name, lines[start:head + 1], lines[head + 1:at]
        at += 1


def shape(lines):
    words = re.findall(r"[A-Za-z_]\w*|\d+|\S", " ".join(line.split("//")[0] for line in lines))
    keywords = {"if", "else", "let", "match", "for", "in", "while", "return", "mut", "self", "Some", "None", "Ok", "Err", "true", "false"}
    return [w if w in keywords or not re.match(r"\w", w) else "x" for w in words]


def main():
    arguments = [a for a in sys.argv[1:] if not a.startswith("--")]
    root = arguments[0] if arguments else os.path.join(os.path.dirname(os.path.abspath(__file__)), "..")
    bodies = []
    clauses, pairs = {}, {}
    for crate, name, text in sources(root):
        where = f"{crate}/{name}"
        for number, line in enumerate(text.split("\n"), 1):
            code = line.split("//")[0]
            place = f"{where}:{number}"
            if code.strip().startswith("ghost use") or not code.strip():
                continue
            if re.search(r"\bfn (from_number|number|layer)\b|\bkind: u64|\bcode: u\d+|\btold: u64|(kind|self|other)\.number\(\)|\(0, 0, 0, 0\)|\b(line|column): 0,", code) \
                    or re.match(r"\s*(pub )?\w+: bool,$", code):
                found(1, place, code.strip())
            if re.match(r"\s*while\b|\s*loop\b|\s*for .* in .*\.\.", code) or re.match(r"\s*for \(\w+, \w+\) in .*enumerate", code):
                found(3, place, code.strip())
            if re.search(r"println!\(rt; *$|println!\(rt; \"\{at\}: \w+", code):
                found(4, place, code.strip())
            if re.match(r"\s*(pub(\(crate\))? )?\w+: (\[\w+; \d+\]|Vec<)", code) or re.match(r"\s*(pub(\(crate\))? )?(place|at|line_end|len): usize,$", code):
                found(6, place, code.strip())
            if re.match(r"\s*match \*?(part|rule|step|model|instruction\.kind)\b", code) or re.match(r"    fn \w+\(\w+: u\d+\) -> \w+$", code):
                found(7, place, code.strip())
        for line, function, head, body in functions(text):
            place = f"{where}:{line} {function}"
            code = [part.strip() for part in body if part.strip()]
            bodies.append((crate, place, shape(body)))
            arms = re.findall(r"=>\s*(true|false)\b", "\n".join(body))
            if len(arms) >= 2 and len(code) <= 6:
                found(4, place, "a table of truth values by match")
            if function in ("of", "instruction", "larger", "from_number", "number") and "&self" not in "".join(head[:1]):
                found(4, place, "a conversion or a maximum under a name of its own")
            if sum(1 for part in code if re.match(r"(return (false|None|0);|\};)$", part)) >= 2 and any("let Some" in part for part in code):
                found(4, place, "let .. else that gives back a plain value")
            for part in head:
                clause = re.match(r"\s*(?:requires|ensures)(?: \w+)? \{ (.*) \}$", part)
                if clause:
                    clauses.setdefault((crate, clause.group(1)), []).append(place)
            parameters = re.findall(r"(\w+): (&?[\w<>']+)", " ".join(head[:1] + [p for p in head[1:] if re.match(r"\s+\w+: ", p)]))
            for first in range(len(parameters)):
                for second in range(first + 1, len(parameters)):
                    pairs.setdefault((crate, parameters[first], parameters[second]), []).append(place)
    for one in range(len(bodies)):
        for two in range(one + 1, len(bodies)):
            a, b = bodies[one], bodies[two]
            if a[0] == b[0] and min(len(a[2]), len(b[2])) >= 14 and difflib.SequenceMatcher(None, a[2], b[2], False).ratio() >= 0.9:
                found(2, a[1], "as " + b[1])
    for (crate, clause), places in sorted(clauses.items()):
        if len(places) >= 3:
            found(5, f"{crate} in {len(places)} functions", clause)
    for (crate, first, second), places in sorted(pairs.items()):
        if len(places) >= 3:
            found(5, f"{crate} in {len(places)} functions", f"{first[0]}: {first[1]}, {second[0]}: {second[1]}")
    for point, places in POINTS.items():
        print(f"{point}: {len(places)}")
        if "--list" in sys.argv:
            for place, what in places:
                print(f"    {place}  {what}")
    for kind in ("Answers", "Invariants"):
        files, answers = 0, 0
        for folder, _, names in os.walk(os.path.join(root, "crates")):
            if kind + ".antt" in names and os.sep + "out" not in folder:
                files += 1
                text = open(os.path.join(folder, kind + ".antt"), encoding="utf8").read()
                answers += len(re.findall(r": goal\.", text))
        print(f"8 proofs, {kind}: {files} files, {answers} answers")


main()
