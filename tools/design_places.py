#!/usr/bin/env python3
"""Candidates for the points of docs/DESIGN-PASS.md, one line each, `file:line: part: what`, and behind them the count of each part.

usage, at the repository's top: tools/design_places.py POINT..     POINT is 1 to 8, or `counts` for the counts alone

It reads crates/*/src/*.rt (point 8: crates/*/proofs/**/*.antt) by text, with comments and strings blanked. It finds candidates; which of them are places of
the point is said on the page. The parts:

1a an enum with a variant that carries a Refusal, or of whose variants some carry a value and others none   1b a field-less enum with a variant for nothing
1c a field, parameter or result that is a bool beside a value: a field or a parameter `bool`   1d a comparison with 0
1e a function that gives 0 (or -1) by itself in one branch   1f a function with two arms or more that are or give numbers   1g an arm for a refusal
2a functions whose text is the same but for names, types, numbers and operators of a kind (over 9 tokens, like arms once)   2b structs of the same fields, types aside
2c NAME and NAME_in, or NAME in two crates
3a a `while` or `loop` whose own text counts by one   3b any other `while` or `loop`   3c a `for` that only counts tries   3d three elements or more by their numbers
4a a `match` whose arms are true and false   4b a function of one value that gives another type   4c a struct literal that copies fields of another value
4d a struct literal with two zeroes or more   4e two comparisons joined by & or &&, or the lesser of two by `if`   4f a cast by `as`
4g a local that holds a field and no more   4h a function that writes bytes of text
5a a fact in the contracts of three functions or more   5b parameters of one name and type that go together in three functions or more (a group that
   nearly always comes with one more parameter is given with it)
6a a struct with an array or with positions   6b a slice with a count or position beside it   6c two slices of one type or more   6d an index reckoned by record size
7a a `match` with three arms or more that call functions   7b a closure, impl Fn, dyn or function pointer
8  proof files, lines, answers, invariants and lemmas of each crate; 8u lemmas whose name stands nowhere else (proofs, specs, src, edits, README, docs)
"""
import collections
import glob
import itertools
import re
import sys

WORD = re.compile(r"[A-Za-z_]\w*")
TOKEN = re.compile(r"[A-Za-z_]\w*|0x[0-9A-Fa-f]+|\d[\d_]*|<=|>=|==|!=|=>|->|::|\+=|-=|\*=|&&|\|\||\.\.|\S")
REFUSING = r"(?:Refused|Denied|Failed|Unknown|Short|Ends|Refuse|Unused|Err)"
Fn = collections.namedtuple("Fn", "file line name pub params ret clauses body at text")


def blank(t):
    """The text with comments and strings blanked, of the same length."""
    part = re.compile(r'//[^\n]*|b?"(?:\\.|[^"\\])*"' + r"|b?'(?:\\.|[^'\\\n])'", re.S)
    return part.sub(lambda m: re.sub(r"[^\n]", " ", m[0]) if m[0].startswith("//") else '"' + re.sub(r"[^\n]", " ", m[0])[2:] + '"', t)


def closing(t, i):
    """Behind the bracket that closes the one at i."""
    deep, pair = 0, {"{": "}", "(": ")", "[": "]"}
    a, b = t[i], pair[t[i]]
    for k in range(i, len(t)):
        deep += (t[k] == a) - (t[k] == b)
        if not deep:
            return k + 1
    return len(t)


def parts(t):
    """What commas at the top of a text part."""
    out, deep, last = [], 0, 0
    for i, c in enumerate(t):
        deep += (c in "([{<") - (c in ")]}" or c == ">" and t[i - 1] not in "-=")
        if c == "," and not deep:
            out.append(t[last:i])
            last = i + 1
    return [p.strip() for p in out + [t[last:]] if p.strip()]


def line_of(t, i):
    return t.count("\n", 0, i) + 1


def functions(file, t):
    for m in re.finditer(r"\bfn\s+(\w+)\s*(?:<[^({]*>)?\s*\(", t):
        end = closing(t, m.end() - 1)
        params = [tuple(s.strip() for s in p.split(":", 1)) for p in parts(t[m.end() : end - 1]) if ":" in p]
        params = [(n.replace("mut ", ""), ty) for n, ty in params]
        clauses, i, ret = [], end, ""
        r = re.match(r"\s*->\s*", t[i:])
        if r:
            j = i + r.end()
            while t[j] not in "{;" and not re.match(r"\s(requires|ensures|where)\b", t[j:]):
                j = closing(t, j) if t[j] in "[(" else j + 1
            ret, i = t[i + r.end() : j].strip(), j
        while c := re.match(r"\s*(requires|ensures)\*?\s*(\w+)?\s*\{", t[i:]):
            j = closing(t, i + c.end() - 1)
            clauses.append((c[1], c[2] or "", re.sub(r"\s+", " ", t[i + c.end() : j - 1]).strip()))
            i = j
        at = t.find("{", i)
        if at >= 0 and not t[i:at].strip():
            body = t[at : closing(t, at)]
            before = t[t.rfind("\n", 0, m.start()) + 1 : m.start()]
            yield Fn(file, line_of(t, m.start()), m[1], "pub" in before, params, ret, clauses, body, at, t)


def types(file, t):
    for m in re.finditer(r"\b(enum|struct)\s+(\w+)[^;{(]*\{", t):
        items = parts(t[m.end() : closing(t, m.end() - 1) - 1])
        yield m[1], m[2], [re.sub(r"^(?:#\[[^\]]*\]\s*)*(?:pub\s+)?", "", i) for i in items], file, line_of(t, m.start())


FILES = {f: blank(open(f, encoding="utf-8").read()) for f in sorted(glob.glob("crates/*/src/**/*.rt", recursive=True))}
FNS = [f for file, t in FILES.items() for f in functions(file, t)]
TYPES = [x for file, t in FILES.items() for x in types(file, t)]
FOUND = []


def say(part, file, line, what):
    FOUND.append((part, file, line, re.sub(r"\s+", " ", str(what))[:400]))


def blocks(f, pattern):
    """Each block of a body that the pattern heads: match, line, text of the block."""
    for m in re.finditer(pattern + r"[^{;]*\{", f.body):
        at = m.end() - 1
        yield m, here(f, m.start()), f.body[at + 1 : closing(f.body, at) - 1]


def arms(block):
    """The arms of a match: pattern and value."""
    i, out = 0, []
    while m := re.search(r"=>\s*", block[i:]):
        pattern, j = block[i : i + m.start()].strip(" ,\n"), i + m.end()
        k = j
        if block[j] == "{":
            k = closing(block, j)
        else:
            while k < len(block) and block[k] != ",":
                k = closing(block, k) if block[k] in "([{" else k + 1
        out.append((pattern, block[j:k].strip()))
        i = k
    return out


def here(f, i):
    return line_of(f.text, f.at + i)


def point1():
    for word, name, items, file, line in TYPES:
        with_value = [i for i in items if re.search(r"[({]", i)]
        if word == "enum":
            if any("Refusal" in i for i in items) or 0 < len(with_value) < len(items):
                say("1a", file, line, f"enum {name}: " + ", ".join(items))
            nothing = [i for i in items if i in ("None", "Idle", "Nothing", "Empty", "Unused")]
            if not with_value and nothing:
                say("1b", file, line, f"enum {name}: {nothing[0]}")
        else:
            for i in items:
                if re.search(r":\s*bool$", i):
                    say("1c", file, line, f"struct {name}: {i}")
    for f in FNS:
        for n, ty in f.params:
            if ty == "bool":
                say("1c", f.file, f.line, f"fn {f.name}: {n}: bool")
        for m in re.finditer(r"(?:==|!=) 0\b(?!\.)|\b0 (?:==|!=)", f.body):
            say("1d", f.file, here(f, m.start()), f"fn {f.name}: " + f.text[f.text.rfind("\n", 0, f.at + m.start()) :].split("\n")[1].strip())
        if re.search(r"^\s*-?\s*[01]\s*$|\breturn -?[01];|[{(,]\s*-[01]\b", f.body, re.M) and f.ret not in ("bool", ""):
            say("1e", f.file, f.line, f"fn {f.name} -> {f.ret}")
        for m, line, block in blocks(f, r"\bmatch\b"):
            numbers = [a for a in arms(block) if re.fullmatch(r"-?(0x)?[0-9A-Fa-f]+", a[0]) or re.fullmatch(r"-?\d+", a[1])]
            if len(numbers) >= 2:
                say("1f", f.file, f.line, f"fn {f.name}: {len(numbers)} arms")
            for a in arms(block):
                if re.search(r"\b" + REFUSING + r"\b", a[0]):
                    say("1g", f.file, line, f"fn {f.name}: {a[0]} => {a[1]}")


def shape(f):
    out, names = [], {}
    body = re.sub(r"\blet (?:mut )?|\bmut |\bas \w+", "", f.body)
    for tok in TOKEN.findall(f"({len(f.params)} {bool(f.ret)})" + body):
        if WORD.fullmatch(tok) and tok not in ("if", "else", "match", "while", "for", "loop", "return", "break", "in"):
            out.append("_")
        elif re.match(r"\d", tok):
            out.append("0")
        else:
            out.append("op" if tok in ("<", "<=", ">", ">=", "==", "!=", "+", "-", "*", "/", "%") else tok)
    s = re.sub(r"_(?: (?:::|\.) _)+", "_", " ".join(out))
    return re.sub(r"((?:_|0) => \S+ , )\1+", r"\1", re.sub(r"\b(true|false)\b", "_", s))


def point2():
    groups = collections.defaultdict(list)
    for f in FNS:
        s = shape(f)
        if len(s.split()) > 9:
            groups[s].append(f)
    for g in groups.values():
        if len(g) > 1:
            say("2a", g[0].file, g[0].line, f"{len(g)}: " + ", ".join(f"{f.file.split('/')[1]}.{f.name}" for f in g))
    fields = collections.defaultdict(list)
    for word, name, items, file, line in TYPES:
        if word == "struct":
            fields[tuple(i.split(":")[0] for i in items)].append((name, file, line))
    for k, g in fields.items():
        if len(g) > 1:
            say("2b", g[0][1], g[0][2], f"{len(g)}: " + ", ".join(n for n, _, _ in g) + " {" + ", ".join(k) + "}")
    by = collections.defaultdict(list)
    for f in FNS:
        by[re.sub(r"_in$", "", f.name)].append(f)
    for n, g in sorted(by.items()):
        if len({f.file.split("/")[1] for f in g}) > 1:
            say("2c", g[0].file, g[0].line, f"{n}: " + ", ".join(f"{f.file.split('/')[1]}.{f.name}" for f in g))


def point3():
    for f in FNS:
        for m, line, block in blocks(f, r"\b(?:while|loop)\b"):
            inner, own = block, block
            for _, _, deeper in blocks(f, r"\b(?:while|loop)\b"):
                if deeper != inner and deeper in own:
                    own = own.replace(deeper, "")
            step = re.search(r"\b(\w+) [+-]= 1;|\b(\w+) = \2 [+-] 1;", own)
            say("3a" if step else "3b", f.file, here(f, m.start()), f"fn {f.name}: {m[0][:-1].strip()}" + (f": {step[0]}" if step else ""))
        for m in re.finditer(r"\bfor\s+_\s+in\s+[^{]*", f.body):
            say("3c", f.file, here(f, m.start()), f"fn {f.name}: {m[0].strip()}")
        by = collections.defaultdict(set)
        for m in re.finditer(r"\b(\w+)\[(\d+|[\w:]+ \+ \d+)\]", f.body):
            by[m[1]].add(m[2])
        for n, at in by.items():
            if len(at) >= 3:
                say("3d", f.file, f.line, f"fn {f.name}: {n}: {len(at)} elements")


def literals(f):
    for m in re.finditer(r"\b([A-Z]\w*)\s*\{", f.body):
        items = parts(f.body[m.end() : closing(f.body, m.end() - 1) - 1])
        before = f.body[: m.start()].rstrip()
        if items and all(re.match(r"\w+(\s*:(?!:)|$)", i) or i.startswith("..") for i in items) and not re.search(r"\bmatch \w*$", before):
            yield m, items


def point4():
    for f in FNS:
        for m, line, block in blocks(f, r"\bmatch\b"):
            if arms(block) and all(a[1] in ("true", "false") for a in arms(block)):
                say("4a", f.file, f.line, f"fn {f.name}: {len(arms(block))} arms")
        if len(f.params) == 1 and f.ret not in ("", "bool", f.params[0][1]) or re.match(r"of_|joined", f.name):
            say("4b", f.file, f.line, f"fn {f.name}({', '.join(t for _, t in f.params)}) -> {f.ret}")
        for m, items in literals(f):
            own = f.body[: m.start()]
            same = [i for i in items if re.fullmatch(r"(\w+): \w+(?:\.\w+)*\.\1", i) or re.fullmatch(r"\w+", i) and re.search(rf"let {i} = \w+\.{i};", own)]
            if same and not re.match(r"\s*=>", f.body[closing(f.body, m.end() - 1) :]):
                say("4c", f.file, here(f, m.start()), f"fn {f.name}: {m[1]}: {len(same)} of {len(items)} fields")
            if sum(bool(re.fullmatch(r"\w+: 0", i)) for i in items) >= 2:
                say("4d", f.file, here(f, m.start()), f"fn {f.name}: {m[1]}: {len([i for i in items if re.fullmatch(r'[a-z]+: 0', i)])} zeroes")
        for m in re.finditer(r"\([^()]*<=?[^()]*\) && ?\([^()]*<=?[^()]*\)|\([^()]*<=?[^()]*\) & \([^()]*<=?[^()]*\)|if (\w+) < ([\w:]+) \{\s*\1\s*\} else \{\s*\2\s*\}", f.body):
            say("4e", f.file, here(f, m.start()), f"fn {f.name}: {m[0]}")
        for m in re.finditer(r"[\w\])]+ as \w+", f.body):
            say("4f", f.file, here(f, m.start()), f"fn {f.name}: {m[0]}")
        for m in re.finditer(r"\blet (\w+) = (\w+)\.(\w+);", f.body):
            say("4g", f.file, here(f, m.start()), f"fn {f.name}: {m[0]}")
        if any(t == "&mut [u8]" and n == "out" for n, t in f.params):
            say("4h", f.file, f.line, f"fn {f.name}")


def facts(f):
    """What is asked or kept of a value, with the names of this function's parameters blanked: each `requires`, and each `ensures` that is a fact by name."""
    names = "|".join([re.escape(n) for n, _ in f.params if n] + ["result"])
    for word, _, text in f.clauses:
        if word == "requires" or re.match(r"[A-Z]\w+ ", text):
            yield re.sub(rf"(?<![.\w])(?:{names})\b(?:\.\w+)*", "_", text)


def point5():
    by = collections.defaultdict(dict)
    for f in FNS:
        for t in facts(f):
            by[t].setdefault((f.file, f.line), f.name)
    for t, g in sorted(by.items(), key=lambda x: -len(x[1])):
        if len(g) >= 3:
            (file, line), _ = next(iter(g.items()))
            say("5a", file, line, f"{len(g)}: {t} :: " + ", ".join(g.values()))
    sets = [frozenset((n, re.sub(r"&mut ", "&", t)) for n, t in f.params) for f in FNS]
    support = {s: sum(s <= x for x in sets) for s in {a & b for a, b in itertools.combinations_with_replacement(sets, 2)} if len(s) >= 2}
    for s, n in sorted(support.items(), key=lambda x: (-x[1], len(x[0]))):
        if n >= 3 and not any(s < b and 4 * m >= 3 * n for b, m in support.items()):
            f = next(f for f, x in zip(FNS, sets) if s <= x)
            say("5b", f.file, f.line, f"{n}: " + ", ".join(sorted(f"{a}: {b}" for a, b in s)))


def point6():
    place = r"used|last|len|count|counts|left|end|at|from|next|size|read|lengths|done|held"
    for word, name, items, file, line in TYPES:
        if word == "struct":
            hit = [i for i in items if re.search(r":\s*\[", i) or re.match(rf"(?:{place}|processes):\s*(?:usize|u32|Lengths|Counts)$", i)]
            if hit:
                say("6a", file, line, f"struct {name}: " + ", ".join(hit))
    for f in FNS:
        slices = [(n, t.replace("mut ", "")) for n, t in f.params if re.match(r"&(?:mut )?\[\w+\]", t)]
        counts = [n for n, t in f.params if re.fullmatch(place, n) and t in ("u32", "usize", "Counts")]
        if slices and counts:
            say("6b", f.file, f.line, f"fn {f.name}: {', '.join(n for n, _ in slices)} with {', '.join(counts)}")
        many = [n for n, t in slices if t == "&[u32]"]
        if len(many) >= 2:
            say("6c", f.file, f.line, f"fn {f.name}: {', '.join(many)}")
        for m in re.finditer(r"\b(?:\w+::)?(?:NODE_WORDS|VERSION_WORDS|PROCESS|WORDS) \* [^;]*|\bat \+ Sizes::PROCESS", f.body):
            say("6d", f.file, here(f, m.start()), f"fn {f.name}: {m[0]}")


def point7():
    for f in FNS:
        for m, line, block in blocks(f, r"\bmatch\b"):
            calls = [a for a in arms(block) if re.search(r"\b[a-z]\w*\(", a[1])]
            if len(calls) >= 3:
                say("7a", f.file, f.line, f"fn {f.name}: {m[0][:-1].strip()}: {len(calls)} of {len(arms(block))} arms")
    for file, t in FILES.items():
        for m in re.finditer(r"\bdyn \w+|\bimpl Fn\w*|(?<![\w ])fn\(|[(,=]\s*\|[\w, &()]*\|", t):
            say("7b", file, line_of(t, m.start()), m[0])


def point8():
    texts = {f: open(f, encoding="utf-8").read() for f in glob.glob("crates/**/*.antt", recursive=True) if "/out/" not in f}
    others = [*glob.glob("crates/*/src/**/*.rt", recursive=True), *glob.glob("crates/*/must-fail/*.edit"), "README.md", *glob.glob("docs/*.md")]
    others = [open(f, encoding="utf-8").read() for f in others if f not in ("docs/PORT.md", "docs/DESIGN-PASS.md")]
    words = collections.Counter(w for t in [*texts.values(), *others] for w in set(re.findall(r"[^\s(){};,.:\"`]+", t)))
    rows = {}
    for f, t in sorted(texts.items()):
        crate, folder = f.split("/")[1:3]
        if folder != "proofs":
            continue
        row = rows.setdefault(crate, collections.Counter())
        name = f.split("/")[-1]
        row["files"] += 1
        row["lines"] += t.count("\n")
        row[name] += name in ("Answers.antt", "Invariants.antt", "Proof.antt")
        heads = [m[1] for m in re.finditer(r"^(?: {2})?(?:(?:pub|abbrev|opaque|private) )*([^\s(){};,.:|]+) :(?= )", t, re.M)]
        row["answers" if name == "Answers.antt" else "invariants" if name == "Invariants.antt" else "lemmas"] += len(heads)
        if name not in ("Answers.antt", "Invariants.antt", "Proof.antt"):
            for h in heads:
                if words[h] <= 1 and len(re.findall(rf"(?<![^\s(){{}};,.]){re.escape(h)}(?![^\s(){{}};,.])", t)) <= 2:
                    say("8u", f, 0, h)
    for crate, r in rows.items():
        say("8", f"crates/{crate}/proofs", 0, f"{r['files']} files ({r['Answers.antt']} answers, {r['Invariants.antt']} invariants, {r['Proof.antt']} proofs), "
            f"{r['lines']} lines; {r['answers']} answers, {r['invariants']} invariants, {r['lemmas']} lemmas")


def main(argv):
    points = [p for p in argv if re.fullmatch("[1-8]", p)] or list("12345678")
    if argv and argv[0] in ("-h", "--help"):
        print(__doc__)
        return 0
    for p in points:
        globals()["point" + p]()
    if "counts" not in argv:
        for part, file, line, what in FOUND:
            print(f"{file}:{line}: {part}: {what}")
    for part, n in sorted(collections.Counter(x[0] for x in FOUND).items()):
        print(f"{part}: {n}")
    return 0


if __name__ == "__main__":
    sys.exit(main(sys.argv[1:]))
