#!/usr/bin/env python3
"""Brings definitions and lemmas of specs/ and proofs/ to snake case, once, after the kit's port.py.

usage: python3 tools/respell.py          at the top of the repository, once
       python3 tools/respell.py types    the same for types with a dash, One-reading to OneReading; a second run changes nothing

A name goes by its definition: every camelCase or kebab-case name that a specs/ or proofs/ file defines, but not an answer
to a goal, whose name the prover makes. The functions of src/ and all strings keep their names.
"""

import glob
import re
import sys

# Names that would fall together in snake case, and what each is called instead.
APART = {
    "same_address": "same_address_held",  # a lemma of forms, beside the definition sameAddress
    "thread-slot": "thread_slot_found",  # an inner lemma of an answer, beside the definition threadSlot
    "address-slot": "address_slot_found",  # the same for addressSlot
    "first-line": "first_line_found",  # a lemma, beside the definition firstLine
    "line-from": "line_of_reading",  # a lemma, beside the definition lineFrom
    "line_read": "reading_of_line",  # a lemma, beside the definition lineRead
    "lines-read": "reading_of_lines",  # a lemma, beside the definition lines_read
    "inLine": "stated_in_line",  # an inner definition, beside the constructor in-line
    "behind-first": "follows_behind_first",  # a lemma, beside the definition behindFirst
}
# What the prover names, and the answers to it.
MADE = re.compile(
    r"(returns|invariant-of|invariant-loop|loop|decreases|overflow|bounds|offset)-.*|.*-requires|trip-.*"
)
SIGNATURE = re.compile(
    r"\s*(?:abbrev |unfoldable |opaque |instance )*(?:pub )?(?:data |record |abbrev )?([A-Za-z_][\w'-]*)\s+:\s(.*)"
)
TOKEN = re.compile(r"(?<![\w'-])[a-z][\w'-]*(?![\w'])")


def antt():
    return sorted(glob.glob("crates/*/specs/**/*.antt", recursive=True) + glob.glob("crates/*/proofs/**/*.antt", recursive=True))


def is_answer(path):
    return path.endswith(("/Answers.antt", "/Invariants.antt", "/Choices.antt"))


def snake(name):
    return re.sub(r"([a-z0-9])([A-Z])", lambda m: m.group(1) + "_" + m.group(2).lower(), name).replace("-", "_")


def defined():
    """The names to change, each with its new spelling; and those of them that are defined outside the answers."""
    new, lemmas = {}, set()
    for path in antt():
        for line in open(path, encoding="utf-8"):
            m = SIGNATURE.match(line)
            if not m or not m.group(1)[0].islower():
                continue
            name, kind = m.group(1), m.group(2)
            if is_answer(path) and (MADE.fullmatch(name) or kind.startswith("goal.") or kind.startswith("given.")):
                continue
            to = APART.get(name, snake(name))
            if to != name:
                new[name] = to
                if not is_answer(path):
                    lemmas.add(name)
    return new, lemmas


def turn(line, new, answer, lemmas):
    code, dash, comment = line.partition("-- ") if not line.startswith("-- ") else ("", "-- ", line[3:])

    def one(m):
        name, at = m.group(0), m.start()
        if name not in new:
            return name
        # in an answer, what stands behind a dot is mostly the prover's name
        if answer and at > 0 and code[at - 1] == "." and (name not in lemmas or MADE.fullmatch(name)):
            return name
        return new[name]

    return TOKEN.sub(one, code) + dash + comment


def main():
    new, lemmas = defined()
    for path in antt():
        text = open(path, encoding="utf-8").read()
        turned = "\n".join(turn(l, new, is_answer(path), lemmas) for l in text.split("\n"))
        if turned != text:
            open(path, "w", encoding="utf-8").write(turned)
    camel = {k: v for k, v in new.items() if "-" not in k}
    word = re.compile(r"(?<![\w'-])[a-z][\w'-]*(?![\w'])")
    for path in sorted(glob.glob("crates/*/src/**/*.rt", recursive=True)):
        text = open(path, encoding="utf-8").read()
        out = []
        for line in text.split("\n"):
            if re.match(r"\s*(ghost|requires|ensures|invariant|decreases)\b", line):
                line = word.sub(lambda m: new.get(m.group(0), m.group(0)), line)
            else:
                line = word.sub(lambda m: camel.get(m.group(0), m.group(0)), line)
            out.append(line)
        turned = "\n".join(out)
        if turned != text:
            open(path, "w", encoding="utf-8").write(turned)
    return new


def types():
    new = {}
    for path in antt():
        for line in open(path, encoding="utf-8"):
            m = SIGNATURE.match(line)
            if m and m.group(1)[0].isupper() and "-" in m.group(1):
                new[m.group(1)] = re.sub("-(.)", lambda it: it.group(1).upper(), m.group(1))
    for path in antt() + sorted(glob.glob("crates/*/src/**/*.rt", recursive=True)):
        text = open(path, encoding="utf-8").read()
        turned = re.sub(r"(?<![\w'-])[A-Z][\w'-]*(?![\w'])", lambda m: new.get(m.group(0), m.group(0)), text)
        if turned != text:
            open(path, "w", encoding="utf-8").write(turned)
    return new


if __name__ == "__main__":
    for k, v in sorted((types() if sys.argv[1:] == ["types"] else main()).items()):
        print(k, "->", v)
