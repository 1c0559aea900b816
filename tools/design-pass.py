#!/usr/bin/env python3
"""Counts the places of the eight points of the design pass in src/, as docs/DESIGN-PASS.md lists them.

    tools/design-pass.py [-v] [--together | --facts] [FOLDER]

FOLDER is the root of a checkout (this one, where none is given). Each line has a point, what is counted and how often it
was found; with -v each place follows. Lines that hold only a comment are left out. With --together the second way to
count point 5: each two parameters, with their types, that stand together in six functions or more; with --facts the third: each
fact, by the name of its definition, that three functions or more ask for, with the functions."""
import re
import sys
from collections import Counter
from itertools import combinations
from pathlib import Path

verbose = "-v" in sys.argv
folders = [a for a in sys.argv[1:] if not a.startswith("-")]
root = Path(folders[0]) if folders else Path(__file__).resolve().parent.parent
sources = sorted(root.glob("crates/*/src/**/*.rt"))


def numbered(path):
    """The lines of a file with their numbers, each clause as one line with the number of its first."""
    joined = []
    for number, line in enumerate(path.read_text().split("\n"), 1):
        last = joined[-1][1] if joined else ""
        if re.match(r"\s*(requires|ensures|ghost)\b", last) and last.count("{") > last.count("}"):
            joined[-1] = (joined[-1][0], f"{last} {line.strip()}")
        else:
            joined.append((number, line))
    return joined


def source(path):
    return "\n".join(line for _, line in numbered(path))


def lines(pattern, clauses=False):
    """The places where a line of code, or a line of clauses, has the pattern."""
    found = []
    for path in sources:
        for number, line in numbered(path):
            text = line.strip()
            if text.startswith("//"):
                continue
            is_clause = re.match(r"(requires|ensures|ghost)\b", text) is not None
            if is_clause == clauses and re.search(pattern, line):
                found.append(f"{path.relative_to(root)}:{number}: {text}")
    return found


def functions():
    """Each function's place, its name and its parameters' names with their types."""
    for path in sources:
        text = source(path)
        for match in re.finditer(r"\bfn (\w+)(?:<[^(]*>)?\(([^{}]*?)\)\s*(?:->|where|requires|ensures|;|\{)", text):
            params = [p.strip() for p in match.group(2).replace("\n", " ").split(",") if p.strip()]
            pairs = [tuple(x.strip() for x in p.replace("mut ", "").split(":", 1)) for p in params if ":" in p]
            yield path, match.group(1), dict(pairs)


def having(test):
    return [f"{p.relative_to(root)}: {name}" for p, name, params in functions() if test(params)]


def widths():
    return having_name(r"_u(16|32|64)$")


def having_name(pattern):
    return [f"{p.relative_to(root)}: {name}" for p, name, params in functions() if re.search(pattern, name)]


def together():
    """How many functions each two parameters stand together in; a lifetime counts as nothing."""
    found = Counter()
    for _, _, params in functions():
        texts = sorted(f"{name}: {re.sub(r'&.[a-z] ', '&', kind)}" for name, kind in params.items())
        found.update(combinations(texts, 2))
    return found


def asked():
    """The functions that ask for a fact, by the name that the fact's definition has in specs/."""
    found = {}
    for path in sources:
        text = source(path)
        imports = re.findall(r"ghost use Rattle\.\w+\.specs\.[\w.]+\{([^}]*)\}", text)
        named = {name for line in imports for name in line.split(", ")}
        function = ""
        for line in text.split("\n"):
            if match := re.match(r"\s*(?:pub )?fn (\w+)", line):
                function = f"{path.parts[-3]}::{match.group(1)}"
            if line.strip().startswith("requires"):
                for name in named & set(re.findall(r"\b[A-Z]\w*", line)):
                    found.setdefault(name, set()).add(function)
    return found


if "--facts" in sys.argv:
    for name, places in sorted(asked().items(), key=lambda it: (-len(it[1]), it[0])):
        if 3 <= len(places):
            print(f"{len(places):3}  {name}: {', '.join(sorted(places))}")
    sys.exit()

if "--together" in sys.argv:
    for pair, often in together().most_common():
        if 6 <= often:
            print(f"{often:3}  {', '.join(pair)}")
    sys.exit()

points = [
    ("1", "own enums", lines(r"^\s*(pub )?enum \w+")),
    ("1", "numbers for refusals", lines(r"Refused\([0-9]+\)|^ *-2[67]$|return -27|return (19|20);|^ *19$|NO_ROOM: i64")),
    ("1", "a number that stands for none", lines(r"FULL|NO_WALK")),
    ("2", "functions for one width each", widths()),
    ("2", "loops that halve a range", lines(r"\(high - low\) / 2|\(hi - lo\) / 2")),
    ("2", "loops over the bits of a set", lines(r"rest = rest / 2")),
    ("3", "while", lines(r"^\s*('\w+: )?while ")),
    ("3", "an index counted by hand", lines(r"\b\w+ (\+|-)= 1;")),
    ("4", "arms that turn an order into a truth value or a number", lines(r"Order(ing)?::(Less|Equal|Greater) =>")),
    ("4", "fields copied under their own name", lines(r"^\s*(\w+): \1,$")),
    ("4", "fields read into a local of their name", lines(r"\blet (\w+) = \w+\.\1;")),
    ("5", "rows beside their number", having(lambda p: "rows" in p and "m" in p)),
    ("5", "an answer buffer beside its cursor", having(lambda p: "answer" in p and "at" in p)),
    ("5", "both limits on lengths", having(lambda p: "min" in p and "max" in p)),
    ("5", "a workspace beside its areas", having(lambda p: ("ws" in p or "s" in p) and any(t in ("Areas", "Level", "KeptLayout", "TableLayout", "Area", "Images") for t in p.values()))),
    ("5", "clauses that ask a fact of a point, a plane or a pool", lines(r"\b(PointsFit|SubspaceFits|Sound|Holding|Permutations|Ascending)\b", clauses=True)),
    ("6", "arrays or slices beside how many are used", having(lambda p: any(k in p for k in ("count", "many", "known", "k")) and any(re.match(r"&(mut )?\[|\[", t) for t in p.values()))),
    ("6", "structs of an array and a count", lines(r"^\s*pub (at|codes): \[")),
    ("7", "tests of the rank that choose a step", lines(r"\bif (fields\.)?rank == |\bif rank != ")),
]

for point, what, found in points:
    print(f"{point}  {what}: {len(found)}")
    if verbose:
        for place in found:
            print(f"      {place}")
