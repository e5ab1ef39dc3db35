#!/usr/bin/env python3
"""Spells this repository's own definitions and lemmas as the library spells its own: words in snake case, types and facts in camel case.

usage: port_names.py [FOLDER]       the top of a checkout, after the kit's port.py; the default is the current folder

A definition `signBit` becomes `sign_bit`. In a lemma's name a dash stays where it joins the names of two definitions, or a type to a name, and is an underscore
elsewhere: `encode-magnitude`, `Stands-rest`, but `class_nan`. Where two names would fall together, the lemma gets `_lem`.
The crate `hex`, which has the name of a library of the kit, becomes `hexadecimal`.
It goes by text, whole names alone; names of src/, strings, inputs and outputs keep their spelling, and so does what a file imports from a library.
"""

import collections
import os
import re
import subprocess
import sys

NAME = re.compile(r'[^\s(){}.;,@"«»]+')
DECLARED = re.compile(r"^\s*(?:(?:abbrev|unfoldable|pub|record|data|mutual)\s+)*([^\s(){}.;,@\"«»:]+)(?: \([^)]*\)| \{[^}]*\})* :(?= |$)")
DEFINED = re.compile(r"^(?:abbrev|unfoldable) pub ([^\s:]+)")
USE = re.compile(r"\buse ([^\s;{]+?)\.?(?:\{([^}]*)\})?(?: as (\S+?))?(?:;|$)", re.M)
CLAUSE = re.compile(r"\b(?:requires|ensures)\*?\s*(?:\w+\s*)?\{|\bghost\s+\w+\s*[:=]\s*\{")
RESERVED = {"record", "data", "where", "let", "in", "elim", "as", "module", "use", "pub", "mod", "abbrev", "unfolding", "unfoldable"}

# Names that the rule alone would make meet another.
# first_of is a tactic.
TABLE = {"firstOf": "first_cause", "first_of": "first_cause"}


def read(path):
    with open(path, encoding="utf-8") as f:
        return f.read()


def write(path, text):
    with open(path, "w", encoding="utf-8") as f:
        f.write(text)


def files(root, ending):
    for folder, dirs, names in os.walk(os.path.join(root, "crates")):
        dirs[:] = sorted(d for d in dirs if d not in ("out", ".git"))
        for n in sorted(names):
            if n.endswith(ending):
                yield os.path.join(folder, n)


def is_lemma_file(path):
    return not path.endswith(("/Proof.antt", "/Answers.antt", "/Invariants.antt"))


def snake(word):
    word = re.sub(r"Of(\d)", r"_of_\1", word)
    return re.sub(r"(?<=[a-z0-9])([A-Z])", lambda m: "_" + m.group(1).lower(), word)


def spelled(name, defined):
    """The name as the library would spell it."""
    if name in TABLE:
        return TABLE[name]
    parts = name.split("-")
    if len(parts) == 1:
        return snake(name) if name[0].islower() else name
    if "" in parts or not all(re.match(r"[\w']", p) for p in parts):
        return name
    turned = [p if p[0].isupper() else snake(p) for p in parts]
    out = turned[0]
    for i in range(1, len(parts)):
        joins = (parts[i - 1] in defined and parts[i] in defined) or (len(parts[i - 1]) > 1 and parts[i - 1][0].isupper() and i == 1)
        out += ("-" if joins else "_") + turned[i]
    return out


def imports(text, crates):
    """The names that a file imports from elsewhere than this repository."""
    foreign = set()
    for m in USE.finditer(text):
        path, items = m.group(1), m.group(2)
        steps = path.split(".")
        if steps[0] == "Rattle" and len(steps) > 1 and steps[1] in crates:
            continue
        for it in (items or "").split(","):
            it = it.strip()
            if it:
                foreign.add(it.split(" as ")[-1].strip())
    return foreign


def tokens(text):
    return set(NAME.findall(text))


def declared_in(text):
    return {m.group(1) for l in text.split("\n") if not l.lstrip().startswith("--") for m in [DECLARED.match(l)] if m} - RESERVED


def turn_code(text, names):
    return NAME.sub(lambda m: names.get(m.group(0), m.group(0)), text)


def turn_comment(text, names):
    """A name in a code span, and one that is in camel case anywhere."""
    text = re.sub(r"`[^`\n]+`", lambda m: turn_code(m.group(0)[1:-1], names).join("``"), text)
    return re.sub(r"\b[a-z]+[a-z0-9]*[A-Z]\w*\b", lambda m: names.get(m.group(0), m.group(0)), text)


def turn_antt(text, names):
    out = []
    for line in text.split("\n"):
        code, dashes, comment = line, "", ""
        m = re.search(r"(?:^|\s)(--.*)$", line)
        if m:
            code, comment = line[: m.start(1)], line[m.start(1) :]
        out.append(turn_code(code, names) + turn_comment(comment, names))
    return "\n".join(out)


def turn_rt(text, names):
    # comments line by line, clauses and ghost items by their brackets
    spans = []
    for m in re.finditer(r"ghost use [^;]*;", text):
        spans.append((m.start(), m.end()))
    for m in CLAUSE.finditer(text):
        depth, i = 0, m.end() - 1
        while i < len(text):
            if text[i] == "{":
                depth += 1
            elif text[i] == "}":
                depth -= 1
                if depth == 0:
                    break
            i += 1
        spans.append((m.end(), i))
    spans.sort()
    out, at = [], 0

    def rest(part):
        return re.sub(r"//[^\n]*", lambda c: turn_comment(c.group(0), names), part)

    for a, b in spans:
        if a < at:
            continue
        out.append(rest(text[at:a]))
        out.append(turn_code(text[a:b], names))
        at = b
    out.append(rest(text[at:]))
    return "".join(out)


def rename_hex(root):
    old = os.path.join(root, "crates", "hex")
    if not os.path.isdir(old):
        return
    os.rename(old, os.path.join(root, "crates", "hexadecimal"))
    path = os.path.join(root, "crates.txt")
    write(path, re.sub(r"\bhex\b", "hexadecimal", read(path)))
    for p in list(files(root, ".antt")) + list(files(root, ".rt")):
        t = read(p)
        u = t.replace("Rattle.hex.", "Rattle.hexadecimal.").replace("proofs.hex.", "proofs.hexadecimal.") if "Rattle.hexadecimal" in t or "Rattle.hex." in t else t
        if p.endswith(".rt"):
            u = re.sub(r"\bhex::", "hexadecimal::", u)
        if u != t:
            write(p, u)


def main(argv):
    root = argv[0] if argv else "."
    rename_hex(root)
    crates = {c for c in os.listdir(os.path.join(root, "crates"))}
    antt = list(files(root, ".antt"))
    texts = {p: read(p) for p in antt}
    declared, defined = collections.Counter(), set()
    for p, t in texts.items():
        if is_lemma_file(p):
            for n in declared_in(t):
                declared[n] += 1
        if "/specs/" in p:
            defined |= {m.group(1) for l in t.split("\n") for m in [DEFINED.match(l)] if m}
    names = {n: spelled(n, defined) for n in declared}
    names = {n: s for n, s in names.items() if n != s}
    # Names that fall together: a definition keeps the plain spelling, and a lemma gets _lem. One that meets a name of its file in another meaning, too.
    new = collections.defaultdict(list)
    for n, s in names.items():
        new[s].append(n)
    for s, olds in sorted(new.items()):
        takers = olds + ([s] if s in declared else [])
        if len(takers) > 1:
            keeps = sorted(takers, key=lambda n: (n not in defined, n != s, "-" in n, n))[0]
            for n in takers:
                if n != keeps:
                    names[n] = s + "_lem"
    for _ in range(3):
        clash = collections.defaultdict(set)
        for p, t in texts.items():
            if not is_lemma_file(p):
                continue
            here = tokens("\n".join(re.sub(r"(^|\s)--.*$", "", l) for l in t.split("\n")))
            foreign = imports(t, crates)
            for n in here:
                s = names.get(n)
                if s and n not in foreign and s in here and (s not in names or s in foreign):
                    clash[n].add(p)
        if not clash:
            break
        for n, ps in clash.items():
            print(f"look: {n} would meet {names[n]} in {sorted(ps)[0]} (+{len(ps) - 1}): {names[n]}_lem")
            names[n] += "_lem"
    for p, t in texts.items():
        skip = imports(t, crates)
        if not is_lemma_file(p):
            skip = skip | declared_in(t)
        own = {n: s for n, s in names.items() if n not in skip}
        u = turn_antt(t, own)
        if u != t:
            write(p, u)
    for p in files(root, ".rt"):
        t = read(p)
        skip = imports(t, crates)
        u = turn_rt(t, {n: s for n, s in names.items() if n not in skip})
        if u != t:
            write(p, u)
    pages = ["README.md", "CONTRIBUTING.md"] + [os.path.join("docs", d) for d in os.listdir(os.path.join(root, "docs"))]
    for page in pages:
        path = os.path.join(root, page)
        if path.endswith(".md") and os.path.isfile(path):
            t = read(path)
            u = re.sub(r"`[^`\n]+`", lambda m: turn_code(m.group(0)[1:-1], names).join("``"), t)
            if u != t:
                write(path, u)
    table = os.path.join(root, "docs", "PORT-NAMES.tsv")
    write(table, "".join(f"{n}\t{s}\n" for n, s in sorted(names.items())))
    for c in sorted(crates):
        where = os.path.join(root, "crates", c)
        if os.path.isdir(os.path.join(where, "src")):
            subprocess.run(["rt", "fmt"], cwd=where, stdout=subprocess.DEVNULL, stderr=subprocess.DEVNULL, stdin=subprocess.DEVNULL)
    print(f"{len(names)} names")
    return 0


if __name__ == "__main__":
    raise SystemExit(main(sys.argv[1:]))
