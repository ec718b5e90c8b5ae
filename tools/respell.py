#!/usr/bin/env python3
"""Brings the names of this repository's definitions and lemmas to the spelling of today's Rattle.

usage: python3 tools/respell.py [FOLDER]     once, right after the toolchain's own script has turned the sources

A word becomes snake case (after-put: after_put), a fact or a type upper camel case (Launches-end-idle: LaunchesEndIdle). Only names that are made in
crates/*/specs and crates/*/proofs are touched: no name of the library, none of src/, and none that Rattle makes for a goal or a step of a function
(goal.returns-clause-within, c.fetch-answer.ensures). Names that would fall together with another are listed in OTHERWISE.
"""
import collections
import glob
import os
import re
import sys

# In-step would be InStep, which is a variant of Standing
OTHERWISE = {"In-step": "IsInStep", "In-step-with": "IsInStepWith"}
LIBRARY = re.compile(r"\s*use (?:Rattle\.std|borrow|denote|native|lib|mathlib|Prim|base)\S*\.\{(.*)\}")
MADE = re.compile(r"\s*(?:(?:abbrev|unfoldable) )?(?:pub )?(?:record |data )?([^\s(){}:]+) (?::|\()")
# a part of a name: no space, bracket, dot, operator or other mark
PART = re.compile(r"[^\s(){}\[\],;.:=λ→←×⊎`\"◌⊢∷?\\|]+")
# the path of a step of a function: c.get.ensures.value, l.initial.sum, w.x-is, and the name of a goal
PATH = re.compile(r"(?<![\w.'-])(?:c|l|w|g|goal|given)(?:\.[^\s(){}\[\],;.]+)+")
GOAL = re.compile(r"\s*(?:abbrev )?(?:pub )?([^\s(){}:]+) : (?:goal|given)\.")


def code(line):
    m = re.search(r"(^|\s)--(\s|$)", line)
    return (line[: m.start()], line[m.start() :]) if m else (line, "")


def lemma_files():
    return sorted(glob.glob("crates/*/specs/*.antt") + glob.glob("crates/*/proofs/*.antt"))


def answer_files():
    lemmas = set(lemma_files())
    return sorted(p for p in glob.glob("crates/*/proofs/**/*.antt", recursive=True) if p not in lemmas)


def lines(path):
    with open(path, encoding="utf-8") as f:
        return f.read().split("\n")


def library_names():
    found = set()
    for path in lemma_files() + answer_files():
        for line in lines(path):
            m = LIBRARY.match(line)
            if m:
                for name in m.group(1).split(","):
                    found.update(part.strip() for part in name.split(" as "))
    return found


def spelled(name):
    if name in OTHERWISE:
        return OTHERWISE[name]
    if name[0].isupper():
        return "".join(part[:1].upper() + part[1:] for part in name.split("-"))
    return name.replace("-", "_")


def renamed():
    library = library_names()
    own = set()
    for path in lemma_files():
        for line in lines(path):
            text = code(line)[0]
            if text.startswith("use "):
                continue
            m = MADE.match(text)
            if m:
                own.add(m.group(1))
            # what a lemma binds: a λ, a let, an argument
            own.update(PART.findall(text))
    table = {n: spelled(n) for n in own - library if re.search(r"\w-\w", n)}
    back = collections.Counter(table.values())
    twice = [n for n in back if back[n] > 1 or n in own or n in library]
    # a field of a record of src/ and the field of specs/ that it stands for may have one name
    twice = [n for n in twice if n not in ("send_toggle", "receive_toggle", "read_frame")]
    if twice:
        sys.exit(f"these would fall together: {twice}")
    return table


def turned(text, table):
    return PART.sub(lambda m: table.get(m.group(0), m.group(0)), text)


def turned_beside_paths(text, table):
    out, at = [], 0
    for m in PATH.finditer(text):
        out += [turned(text[at : m.start()], table), m.group(0)]
        at = m.end()
    return "".join(out) + turned(text[at:], table)


def answer(line, table):
    text, comment = code(line)
    goal = GOAL.match(text)
    left = {goal.group(1)} if goal else set()
    return turned_beside_paths(text, {k: v for k, v in table.items() if k not in left}) + turned(comment, table)


def source(text, table):
    """The clauses, the ghost lines and the comments of a source file; its code has no name with a dash."""
    out = []
    for line in text.split("\n"):
        if re.match(r"\s*(ghost|requires|ensures|//|invariant)", line) or re.match(r"\s*(pub )?(trait|impl|struct)", line):
            line = turned(line, table)
        out.append(line)
    return "\n".join(out)


def main(argv):
    os.chdir(argv[0] if argv else os.path.join(os.path.dirname(os.path.abspath(__file__)), ".."))
    table = renamed()
    files = 0
    for path in lemma_files() + answer_files():
        made_here = {m.group(1) for m in map(GOAL.match, lines(path)) if m}
        here = {k: v for k, v in table.items() if k not in made_here}
        now = "\n".join(turned(line, here) if path in set(lemma_files()) else answer(line, here) for line in lines(path))
        with open(path, encoding="utf-8") as f:
            old = f.read()
        if now != old:
            files += 1
            with open(path, "w", encoding="utf-8") as f:
                f.write(now)
    for path in sorted(glob.glob("crates/*/src/**/*.rt", recursive=True)):
        with open(path, encoding="utf-8") as f:
            old = f.read()
        now = source(old, table)
        if now != old:
            files += 1
            with open(path, "w", encoding="utf-8") as f:
                f.write(now)
    print(f"{len(table)} names, {files} files")


main(sys.argv[1:])
