#!/usr/bin/env python3
"""Brings this repository's own definitions and lemmas to snake case: byValue becomes by_value, step-call becomes step_call.

Run once, at the top, over what the toolchain's port left (docs/PORT.md). It turns each name that an .antt file of specs/ or of proofs/ declares:
definitions, lemmas, fields and constructors. It leaves alone types and facts (a capital first), functions of src/, what the prover makes of the code
(goals and their steps), the library's names, strings and plain comments. Where a lemma and a definition would fall together, the lemma takes an ending.
"""
import collections
import glob
import re
import sys

# Characters that end a name.
STOP = set(" \t\n(){};,.\"`")

# A field that would fall together with a definition, and what it becomes instead.
APART = {"no-process": "no_such_process"}

# Where a lemma and the definition that it is about would fall together, the lemma takes this ending.
LEMMA = "_lem"

# A folder of answers, for one function: it declares what the prover asks for.
ANSWERS = re.compile(r"/(Proof|Answers|Invariants)\.antt$")


def files(pattern):
    return sorted(f for f in glob.glob(pattern, recursive=True) if "/out/" not in f)


def declared(text):
    """The names that the file declares: at its top, in its records and as constructors."""
    found = set()
    for line in text.splitlines():
        m = re.match(r"^\s*(?:(?:pub|abbrev|unfoldable|infixl|infixr)\s+)*([^\s(){};,.:]+)\s*:(?!:)", line)
        if m:
            found.add(m.group(1))
        m = re.match(r"^\s+\|\s*([^\s(){};,.:]+)", line)
        if m:
            found.add(m.group(1))
    return found


def snake(name):
    name = re.sub(r"([a-z0-9])([A-Z])", lambda m: m.group(1) + "_" + m.group(2).lower(), name)
    return name.replace("-", "_")


def turns(name):
    return name[0].isalpha() and name[0].islower() and name.isascii() and re.search(r"[A-Z-]", name)


def tokens(text):
    """The text cut into names and what stands between them, in turn."""
    parts, at = [], 0
    while at < len(text):
        start = at
        while at < len(text) and text[at] in STOP:
            at += 1
        if at > start:
            parts.append((False, text[start:at]))
        start = at
        while at < len(text) and text[at] not in STOP:
            at += 1
        if at > start:
            parts.append((True, text[start:at]))
    return parts


def respelled(text, names, lemmas, steps=frozenset()):
    """The text with its names turned, and with its lemmas, which no dot precedes: behind a dot stands a step of the code."""
    out, before = [], ""
    for is_name, t in tokens(text):
        if is_name and not (before.endswith(".") and t in steps):
            t = names.get(t, t if before.endswith(".") else lemmas.get(t, t))
        out.append(t)
        before = t
    return "".join(out)


def turned(line, mark, names, lemmas, steps=frozenset()):
    """A line with its names turned; of a comment only what stands between backticks."""
    at = line.find(mark)
    if at < 0:
        return respelled(line, names, lemmas, steps)
    comment = re.sub(r"`[^`]*`", lambda m: respelled(m.group(0), names, lemmas), line[at:])
    return respelled(line[:at], names, lemmas, steps) + comment


def imported(text):
    """What the file takes from a library."""
    found = set()
    for m in re.finditer(r"use ([^\s{;]+)\.\{([^}]*)\}", text):
        path, items = m.groups()
        if path.startswith("Rattle.") and not path.startswith("Rattle.std") and not path.startswith("Rattle.core"):
            continue
        for item in items.split(","):
            found.add(item.strip().split(" as ")[0])
    return found


def main():
    ours, theirs = collections.defaultdict(set), set()
    antt = files("crates/*/specs/**/*.antt") + files("crates/*/proofs/**/*.antt")
    for f in antt:
        text = open(f).read()
        theirs |= imported(text)
        if not ANSWERS.search(f):
            for name in declared(text):
                ours[name].add(f)
    names = {n: APART.get(n, snake(n)) for n in ours if turns(n) and n not in theirs}
    lemmas = {}
    groups = collections.defaultdict(list)
    for n, to in names.items():
        groups[to].append(n)
    for to, group in groups.items():
        if to in ours:
            group.append(to)
        if len(group) > 1:
            # The definition is the one that had a capital inside, or else the one that the port turned.
            definition = [n for n in group if re.search(r"[A-Z]", n)] or [n for n in group if n == to]
            if len(definition) != 1:
                sys.exit(f"fall together: {group}")
            for n in group:
                if n != definition[0]:
                    (lemmas if n == to else names)[n] = to + LEMMA
            print("apart:", to, group)
        elif to in theirs:
            print("as a library's:", to)
    source = files("crates/*/src/**/*.rt")
    functions = {name for f in source for name in re.findall(r"\bfn (\w+)", open(f).read())}
    steps = {name.replace("_", "-") for name in functions}
    for f in antt:
        text = open(f).read()
        here = steps if ANSWERS.search(f) else frozenset()
        write(f, text, "".join(turned(line, "--", names, lemmas, here) for line in text.splitlines(keepends=True)))
    for f in source:
        text = open(f).read()
        write(f, text, "".join(turned(line, "//", names, {}) for line in text.splitlines(keepends=True)))
    for f in files("crates/*/must-fail/*.edit"):
        text = open(f).read()
        write(f, text, "".join(respelled(line, names, {}) if re.match(r"(old|new): ", line) else line for line in text.splitlines(keepends=True)))
    print(len(names), "names")


def write(path, was, now):
    if now != was:
        open(path, "w").write(now)


if __name__ == "__main__":
    main()
