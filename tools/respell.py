#!/usr/bin/env python3
"""Brings the repository's own words to one spelling: functions, lemmas, fields and ghost members in snake case.

usage: python3 tools/respell.py [--dry]     at the top of the repository, once

Only what specs/, the lemma files of proofs/ and ghost members define is respelled, wherever it is named: in specs/, proofs/,
clauses, comments and, between backticks, in the pages. Functions of src/, strings, inputs and names that the check makes keep theirs.
A lemma that would fall together with its function gets _lem; where other names would fall together, they are left alone.
"""
import collections
import glob
import re
import sys

MADE = ("Answers.antt", "Invariants.antt", "Proof.antt", "Choices.antt")
DEFINED = re.compile(r"^\s*(?:(?:unfoldable|abbrev|pub|record|data) )*([^\s:{}().,;|]+)\s*(?:[({][^:]*)?:(?!=)")
GHOST = re.compile(r"^\s*ghost ([^\s:=]+)\s*[:=]")
# a field of src/ has the name in snake case
OTHERS = {"keptTotal": "total_of_kept", "droppedTotal": "total_of_dropped"}
LETTER = r"[\w'\-]"


def antt():
    return sorted(glob.glob("crates/*/specs/**/*.antt", recursive=True) + glob.glob("crates/*/proofs/**/*.antt", recursive=True))


def sources():
    return sorted(glob.glob("crates/*/src/**/*.rt", recursive=True))


def pages():
    return sorted(["README.md"] + glob.glob("docs/*.md"))


def made(path):
    return path.endswith(MADE)


def snake(name):
    name = re.sub(r"(?<=[a-z0-9])([A-Z])", lambda m: "_" + m.group(1).lower(), name)
    return name.replace("-", "_")


def names():
    own, others = collections.Counter(), set()
    for path in antt():
        for line in open(path, encoding="utf-8"):
            m = DEFINED.match(line)
            if m:
                if made(path):
                    others.add(m.group(1))
                else:
                    own[m.group(1)] += 1
    for path in sources():
        for line in open(path, encoding="utf-8"):
            m = GHOST.match(line)
            if m and m.group(1) != "use":
                own[m.group(1)] += 1
    turned = {n: snake(n) for n in own if n[0].islower() and snake(n) != n and n not in others}
    turned.update((n, t) for n, t in OTHERS.items() if n in own)
    meets = collections.defaultdict(set)
    for n in own:
        meets[turned.get(n, n)].add(n)
    for new, olds in sorted(meets.items()):
        lemmas = [n for n in olds if "-" in n]
        if len(olds) > 1 and len(olds) - len(lemmas) == 1 and len(lemmas) == 1 and new + "_lem" not in meets:
            # a lemma that would have its function's name
            turned[lemmas[0]] = new + "_lem"
        elif len(olds) > 1:
            print(f"fall together: {' '.join(sorted(olds))}")
            for n in olds:
                turned.pop(n, None)
    for n in sorted(others & set(own)):
        if snake(n) != n:
            print(f"left, since a proof of a function names it too: {n}")
    return turned


def main():
    turned = names()
    if not turned:
        print("nothing to turn")
        return
    any_of = "|".join(re.escape(n) for n in sorted(turned, key=len, reverse=True))
    token = re.compile(rf"(?<!{LETTER})({any_of})(?!{LETTER})")

    def turn(text, steps=False):
        def one(m):
            name, before = m.group(1), text[: m.start()]
            # a step or a goal that the check makes, as c.job-at
            if steps and "-" in name and re.search(r"(^|[^\w'.])[a-z]\w{0,3}'?\.$", before):
                return name
            return turned[name]

        return token.sub(one, text)

    changed = 0
    for path in antt() + sources() + pages():
        old = open(path, encoding="utf-8").read()
        if path.endswith(".md"):
            new = re.sub(r"`[^`\n]+`", lambda m: turn(m.group(0)), old)
        elif path.endswith(".rt"):
            # code and strings have none of these words: only clauses, ghost members, imports and comments have
            new = turn(old)
        else:
            new = turn(old, made(path))
        if new != old:
            changed += 1
            if "--dry" not in sys.argv:
                open(path, "w", encoding="utf-8").write(new)
    print(f"{len(turned)} names, {changed} files")
    if "--dry" in sys.argv:
        print("\n".join(f"{a} -> {b}" for a, b in sorted(turned.items())))


main()
