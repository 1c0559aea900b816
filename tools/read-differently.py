#!/usr/bin/env python3
"""Lists what reads differently in two checkouts, old (-) and new (+): the second half of docs/DESIGN-PASS.md.

    tools/read-differently.py OLD [NEW]

OLD and NEW are the roots of two checkouts (NEW this one, where none is given). First the functions whose signature or
clauses differ, then the structs and traits of src/ whose fields, ghost members or clauses do, then the definitions and
theorems of specs/ and of the files of lemmas in proofs/: of a theorem its statement, of a definition the whole. `some`
and `none` count as `Some` and `None`, comments and layout as nothing; the parameters of a `module _ (..)` above a theorem are not
compared. What stands on one side only comes last."""
import re
import sys
from pathlib import Path

if not 2 <= len(sys.argv) <= 3:
    sys.exit(__doc__)
old_root = Path(sys.argv[1])
new_root = Path(sys.argv[2]) if len(sys.argv) == 3 else Path(__file__).resolve().parent.parent


def plain(text):
    text = re.sub(r"\bsome\b", "Some", re.sub(r"\bnone\b", "None", text))
    return re.sub(r"\s+", " ", text).strip().replace("( ", "(").replace(", )", ")")


def whole(lines):
    """The lines, with each clause on one."""
    joined = []
    for line in lines:
        last = joined[-1] if joined else ""
        if re.match(r"\s*(requires|ensures|ghost)\b", last) and last.count("{") > last.count("}"):
            joined[-1] = f"{last} {line.strip()}"
        else:
            joined.append(line)
    return joined


def functions(root):
    """{crate::path: [signature, clause, ..]}, and the same of structs, enums and traits."""
    found, types = {}, {}
    for path in sorted(root.glob("crates/*/src/**/*.rt")):
        crate = path.relative_to(root).parts[1]
        lines = whole(line for line in path.read_text().split("\n") if not line.strip().startswith("//"))
        at, place = 0, None
        while at < len(lines):
            line = lines[at]
            head = re.match(r"(?:pub(?:\(crate\))? )?(impl|trait|struct|enum)\b(.*)", line)
            if head and not line.startswith(" "):
                kind, rest = head.groups()
                if kind == "impl":
                    rest = re.sub(r"^<[^>]*>", "", rest).strip(" {")
                    names = [re.match(r"\w+", part.strip()).group(0) for part in rest.split(" for ")]
                    place = "".join(reversed(names))
                else:
                    place = re.match(r"\w+", rest.strip()).group(0)
                if kind in ("struct", "enum"):
                    text = [line]
                    while not (lines[at].rstrip().endswith(("}", ";"))):
                        at += 1
                        text.append(lines[at])
                    types[f"{crate}::{place}"] = [plain(" ".join(text))]
                    place = None
            elif line.startswith("}"):
                place = None
            ghost = re.match(r"\s+(ghost (?!use)\w+.*)", line)
            if ghost and place:
                types.setdefault(f"{crate}::{place}", []).append(plain(ghost.group(1)))
            match = re.match(r"\s*(?:pub )?(?:const )?fn (\w+)(.*)", line)
            if match:
                name, text, clauses = match.group(1), match.group(2), []
                while not re.search(r"\{\s*$|;\s*$|\}\s*$", lines[at]) or re.match(r"\s*(requires|ensures)\b", lines[at]):
                    at += 1
                    clause = re.match(r"\s*((?:requires|ensures)\b.*)", lines[at])
                    if clause:
                        clauses.append(plain(clause.group(1).rstrip(";")))
                        if lines[at].rstrip().endswith(";"):
                            break
                    elif lines[at].strip() != "{":
                        text += " " + lines[at].strip()
                key = "::".join([crate] + ([place] if place else []) + [name])
                found[key] = [plain(re.sub(r"[{;]\s*$", "", text))] + clauses
            at += 1
    return found, types


WORD = r"(?:(unfoldable|abbrev|opaque|instance)\s+)?(pub\s+)?(?:(record|data)\s+)?"


def items(root):
    """{(crate, name): text} of the definitions (whole) and theorems (their type) that are public."""
    found = {}
    for path in sorted(root.glob("crates/*/specs/**/*.antt")) + sorted(root.glob("crates/*/proofs/**/*.antt")):
        parts = path.relative_to(root).parts
        is_answer = parts[2] == "proofs" and path.name in ("Answers.antt", "Invariants.antt", "Proof.antt")
        if is_answer or path.name == "Lib.antt":
            continue
        lines = [line for line in path.read_text().split("\n") if not line.strip().startswith("--")]
        at = 0
        while at < len(lines):
            match = re.match(r"(\s*)" + WORD + r"([^\s:(){}]+)\s*([:(].*)", lines[at])
            if not match or (not match.group(3)) or match.group(5) in ("use", "mod", "module"):
                at += 1
                continue
            indent, word, _, shape, name, _ = match.groups()
            text = [lines[at]]
            at += 1
            whole = word in ("unfoldable", "abbrev") or shape
            while at < len(lines):
                line = lines[at]
                if line.strip() and len(line) - len(line.lstrip()) <= len(indent):
                    own = re.match(re.escape(indent) + re.escape(name) + r"\b", line) or line.strip().startswith("unfolding")
                    if not (whole and own):
                        break
                text.append(line)
                at += 1
            found[(parts[1], name)] = plain(" ".join(text))
    return found


def both(title, old, new, show):
    print(f"### {title}\n")
    for key in sorted(set(old) & set(new)):
        if old[key] != new[key]:
            show(key, old[key], new[key])
    print()


def clauses(key, old, new):
    print(f"    {key}")
    for text in old:
        if text not in new:
            print(f"        - {text}")
    for text in new:
        if text not in old:
            print(f"        + {text}")


last = [None]


def item(key, old, new):
    if key[0] != last[0]:
        print(f"\n    crates/{key[0]}")
        last[0] = key[0]
    print(f"        - {old}\n        + {new}")


def alone(title, old, new):
    print(f"### {title}\n")
    by_crate = {}
    for key in sorted(set(old) - set(new)):
        crate, name = key if isinstance(key, tuple) else key.split("::", 1)
        by_crate.setdefault(crate, []).append(name)
    for crate, names in by_crate.items():
        print(f"    {crate}: {', '.join(names)}")
    print()


old_functions, old_types = functions(old_root)
new_functions, new_types = functions(new_root)
old_items, new_items = items(old_root), items(new_root)
both("Signatures and clauses of functions", old_functions, new_functions, clauses)
both("Structs, enums and traits", old_types, new_types, clauses)
both("Definitions and theorems", old_items, new_items, item)
alone("Functions that are no more", old_functions, new_functions)
alone("Functions that are new", new_functions, old_functions)
alone("Types that are no more", old_types, new_types)
alone("Types that are new", new_types, old_types)
alone("Definitions and theorems that are no more", old_items, new_items)
alone("Definitions and theorems that are new", new_items, old_items)
