#!/usr/bin/env python3
"""Counts, in crates/*/src, the places that docs/DESIGN-PASS.md speaks of, point by point.

    python3 tools/count_places.py [--list] [FOLDER]

FOLDER is the top of a checkout; with --list each place is named. It goes by the text, so that it gives the same answer at every commit."""
import collections
import glob
import re
import sys

listed = "--list" in sys.argv
folder = ([a for a in sys.argv[1:] if not a.startswith("--")] or ["."])[0]


def sources():
    for path in sorted(glob.glob(folder + "/crates/*/src/**/*.rt", recursive=True)):
        if not path.endswith("conversion/src/table.rt"):
            lines = [line for line in open(path).read().split("\n") if not line.strip().startswith(("//", "ghost use"))]
            yield path[len(folder) + len("/crates/"):], "\n".join(lines)


FILES = list(sources())


def show(point, what, places):
    print(f"{point:3} {len(places):4}  {what}")
    if listed:
        for place in places:
            print(f"            {place}")


def lines(pattern, wanted=lambda path, text: True):
    found = []
    for path, text in FILES:
        for number, line in enumerate(text.split("\n")):
            if re.search(pattern, line) and wanted(path, line):
                found.append(f"{path}: {line.strip()}")
    return found


def declared(kind):
    for path, text in FILES:
        for match in re.finditer(r"(?:pub(?:\(crate\))? )?" + kind + r" (\w+)(?:<[^>]*>)? \{\n(.*?)\n\}", text, re.S):
            yield path, match.group(1), [line.strip() for line in match.group(2).split("\n") if line.strip()]


def functions():
    for path, text in FILES:
        for match in re.finditer(r"\bfn (\w+)(?:<[^(]*>)?\(((?:[^()]|\([^()]*\))*)\)(.*?)\n( *)\{\n(.*?)\n\4\}", text, re.S):
            yield path, match.group(1), match.group(2), match.group(3), match.group(5)


# 1
two_ways = [f"{path}: {name}" for path, name, variants in declared("enum") if 2 <= len(variants) <= 3
            and any("(" in v for v in variants) and any("(" not in v or re.search(r"\((u\d+|StepNumber)\)", v) for v in variants)]
show("1", "own enums with a value in one variant, and none or a number in another", two_ways)
flags = [f"{path}: {name}" for path, name, fields in declared("struct")
         if any(re.match(r"(pub )?(refusal|malformed|failed|full|code|reading): (?!Option)", f) for f in fields)]
show("1", "structs with a refusal, a flag or a code beside values", flags)
show("1", "refusals, reasons and kinds written as numbers",
     lines(r"refusal: [1-9]|Refused\(\d|\brefus\w*\((?:0x)?\w*\d+[,)]|return 1\d;|_reason\(\d|code: \d|== 2 \{"))
# 2
suffixed = [f"{path}: {name}" for kind in ("struct", "enum") for path, name, _ in declared(kind) if re.search(r"(64|32|16)$", name)]
suffixed += [f"{path}: fn {name}" for path, name, *_ in functions() if re.search(r"[a-z_](64|32|16)$", name) and not name.startswith("ew_")]
show("2", "types and functions with a width in their names, C's apart", suffixed)
show("2", "functions in a module of one width", [f"{path}: {name}" for path, name, *_ in functions() if re.search(r"/binary\d\d\.rt$", path)])
# 3
show("3", "loops by while", lines(r"\bwhile\b"))
show("3", "of them with an index or a count moved by hand",
     [f"{path}: {name}" for path, name, _, _, body in functions() if re.search(r"\bwhile\b", body) and re.search(r"\b\w+ [-+]= (1|\d+|put|got\.count);", body)])
# 4
by_hand = r"^(any|all|same_kind|kind_number|mark_number|number|refusal|value|smaller|picked|chosen|signed|word|magnitude|at_least_zero|sum_fits|difference_fits|is_unknown|is_input|is_whole|is_done|within|place_of)$"
show("4", "functions that copy what a derive, an operator, a conversion or the library's method gives",
     [f"{path}: {name}" for path, name, *_ in functions() if re.match(by_hand, name)])
show("4", "functions that are one match with only true and false in its arms",
     [f"{path}: {name}" for path, name, _, _, body in functions()
      if re.match(r"\s*match ", body) and not re.search(r"=> (?!true|false|match)[^,\n{]+,", body)])
# 5
pairs = collections.defaultdict(list)
for path, name, parameters, _, _ in functions():
    given = [re.sub(r"\s+", " ", p).strip() for p in parameters.split(",") if p.strip() and "self" not in p]
    for i, first in enumerate(given):
        for second in given[i + 1:]:
            pairs[first, second].append(f"{path}: {name}")
for pair in (("fraction: u64", "exponent: u64"), ("low: u64", "high: u64"), ("least: i64", "most: i64"), ("steps: &[u64]", "n: usize"),
             ("buffer: &mut [u8]", "chunk: &[u8]"), ("chunk: &[u8]", "from: usize")):
    show("5", "functions that take " + " and ".join(pair), pairs[pair])
facts = collections.defaultdict(set)
for path, name, _, clauses, _ in functions():
    for fact in set(re.findall(r"\b([A-Z]\w+)\b", clauses)):
        facts[fact].add(f"{path}: {name}")
for fact in ("InWord", "Finite", "Operands", "Ordinary", "Fits", "Real", "RealOutcome", "RealRange", "RealBound", "Standing"):
    show("5", f"functions whose contracts have {fact}", sorted(facts[fact]))
# 6
show("6", "buffers with their length beside them, as parameters", pairs["steps: &[u64]", "n: usize"] + pairs["buffer: &mut [u8]", "n: usize"]
     + pairs["buffer: &mut [u8]", "count: usize"] + pairs["buffer: &[u8]", "n: usize"] + pairs["input: &[u8]", "n: usize"])
show("6", "functions with two arrays, one value a step in each",
     [f"{path}: {name}" for path, name, _, _, body in functions() if len(re.findall(r"let mut \w+ = \[.*; MOST_STEPS\]", body)) > 1])
# 7
show("7", "matches on a direction, an opcode, a function's number, a width or a stage", lines(r"match (self\.)?(direction|opcode|function|width|stage|state\.stage|function\w*\.\w+)\b"))
# 8
answers = []
for path in sorted(glob.glob(folder + "/crates/*/proofs/**/Answers.antt", recursive=True)):
    if "/out/" not in path:
        answers += re.findall(r"^pub ([\w-]+) :", open(path).read(), re.M)
print(f"8   {len(answers):4}  answers in proofs/**/Answers.antt")
