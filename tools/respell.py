#!/usr/bin/env python3
"""Spells the repository's own definitions and lemmas as today's Rattle does: words in snake case.

usage: python3 tools/respell.py [ROOT] [--table FILE]

Run once, after port.py, at the top of the repository. It reads every .antt file below crates/ and turns each name that
specs/ or a lemma file of proofs/ declares (a definition, a lemma, a field, a constructor) and that is spelled
camelCase or with-hyphens. Types and modules keep their capitals; functions of src/, exported names, strings and
numbers stay. It also turns the names in must-fail edits, in clauses and `ghost use` lines of .rt files, and in code
spans of README.md and docs/*.md. --table writes what was turned, a row for each name.

Where two names fall together, as the definition `edgeRoom` and the lemma `edge-room`, the lemma or field gets the
ending `_holds`. A name that a file imports from a library stays as it is in that file.
"""

import collections
import os
import re
import sys

W = r'[^\s(){}.;,@"«»]+'
WORD = re.compile(r'(?<![^\s(){}.;,@"«»])' + W)
MARKS = r"(?:abbrev |unfoldable |pattern |opaque |pub )*"
DECLARED = re.compile(r"(?m)^( *)" + MARKS + "(" + W + r")(?: \{[^{}\n]*\}| \([^()\n]*\))* :(?=\s)")
USE = re.compile(r"\buse ([^\s;{]+)\.\{([^}]*)\}")
USE_AS = re.compile(r"\buse ([^\s;{]+) as (" + W + ")")
QUIET = re.compile(r"--[^\n]*|\{-.*?-\}", re.S)
SPAN = re.compile(r"`[^`\n]+`")
# Words of the language and its tactics, which no name may be.
RESERVED = set(
    "data record deriving module where use mod pub package open as unfoldable abbrev axiom unfold unfolding ruleset "
    "mutual infix infixl infixr elim let in do coe fcoe tcoe hcom com first_of search rw simp omega grind cc hlevel "
    "assumption ground syntax pattern opaque".split()
)


# What a page or an edit is turned as: port.py left these as they were.
PLAIN = ".plain"
# Two names that fall together and would be spelled like a tactic, and one with a word of one letter.
APART = {"first-of": "first_item_of", "first_of": "first_one_of", "notANumber": "not_a_number"}


def snake(name):
    return re.sub(r"(?<=[a-z0-9'])[A-Z]", lambda m: "_" + m[0].lower(), name).replace("-", "_")


def is_old(name):
    return not name[0].isupper() and snake(name) != name


def texts(root, endings):
    for folder, dirs, names in os.walk(os.path.join(root, "crates")):
        dirs[:] = sorted(d for d in dirs if d != "out")
        for name in sorted(names):
            if name.endswith(endings):
                path = os.path.join(folder, name)
                with open(path, encoding="utf-8") as f:
                    yield path, f.read()


def is_law_file(path):
    """A file of specs/, or a lemma file right in proofs/."""
    return "/specs/" in path or re.search(r"/proofs/[^/]+\.antt$", path) is not None


def declared(root):
    """The names that specs/ and the lemma files declare: those at the margin, and those within a record or a module."""
    tops, fields = collections.Counter(), collections.Counter()
    for path, text in texts(root, ".antt"):
        if not is_law_file(path):
            continue
        text = QUIET.sub("", text)
        for it in DECLARED.finditer(text):
            (fields if it[1] else tops)[it[2]] += 1
    return tops, fields


def turned_before(root):
    """The names that port.py had turned by itself; pages and edits, which it leaves, still have the old ones."""
    with open(os.path.join(root, "tools", "turned-by-port.txt"), encoding="utf-8") as f:
        return f.read().split()


def table(root):
    tops, fields = declared(root)
    names = set(tops) | set(fields)
    meeting = collections.defaultdict(set)
    for name in names:
        if not name[0].isupper():
            meeting[snake(name)].add(name)
    rows = {}
    for new, olds in sorted(meeting.items()):
        # The definition keeps the plain name: camelCase before all else, then what is a top name.
        first, *rest = sorted(olds, key=lambda n: ("-" in n or n == new, "-" in n, n not in tops, n))
        rows[first] = new
        taken = {new}
        for old in rest:
            it = new + "_holds"
            while it in meeting or it in taken:
                it += "_too"
            taken.add(it)
            rows[old] = it
    used = collections.Counter(rows.values())
    assert all(n == 1 for n in used.values()), [k for k, n in used.items() if n > 1]
    rows.update(APART)
    assert not [old for old, new in rows.items() if old != new and new in RESERVED]
    return {old: new for old, new in rows.items() if old != new}, fields, tops


def imported(text):
    """The names that a text takes from outside the repository."""
    names = set()
    for it in USE.finditer(text):
        if re.match(r"Rattle\.(std|core|libc|io)\b|Prim\b|native\b|borrow\b|mathlib\b|lib\b", it[1]):
            for item in it[2].split(","):
                names.add(item.split(" as ")[-1].strip())
    return names


class Turner:
    def __init__(self, rows, fields, before):
        self.rows, self.fields = rows, fields
        self.older = {old: rows.get(snake(old), snake(old)) for old in before} | rows

    def word(self, word, before, foreign, path):
        if path.endswith(PLAIN):
            return self.older.get(word, word) if is_old(word) else word
        if word in foreign or word not in self.rows:
            return word
        if not is_old(word) and not path.endswith(".antt"):
            return word
        # A label that the proof of a function makes is spelled behind a dot, and no field of ours.
        if before == "." and not is_law_file(path) and path.endswith(".antt") and word not in self.fields:
            return word
        return self.rows[word]

    def words(self, text, foreign, path):
        """Turns a text; in the path of a `use` line only what is spelled in the old way."""
        paths = [it.span(1) for it in re.finditer(r"\buse ([^\s;{]+)", text)]

        def turned(m):
            if not is_old(m[0]) and any(a <= m.start() < b for a, b in paths):
                return m[0]
            return self.word(m[0], text[m.start() - 1] if m.start() else "", foreign, path)

        return WORD.sub(turned, text)

    def antt(self, path, text):
        foreign = imported(text)
        out, last = [], 0
        for it in re.finditer(r'"(?:[^"\\\n]|\\.)*"|(?<![^\s(){}])--[^\n]*', text):
            out.append(self.words(text[last : it.start()], foreign, path))
            quiet = it[0]
            if quiet.startswith("--"):
                quiet = SPAN.sub(lambda m: self.words(m[0].replace("`", " ` "), foreign, path).replace(" ` ", "`"), quiet)
            out.append(quiet)
            last = it.end()
        out.append(self.words(text[last:], foreign, path))
        return "".join(out)

    def rt(self, path, text):
        foreign = imported(text)
        out, last = [], 0
        for it in re.finditer(r'"(?:[^"\\\n]|\\.)*"|//[^\n]*', text):
            out.append(self.words(text[last : it.start()], foreign, path))
            quiet = it[0]
            if quiet.startswith("//"):
                quiet = SPAN.sub(lambda m: self.words(m[0].replace("`", " ` "), foreign, path).replace(" ` ", "`"), quiet)
            out.append(quiet)
            last = it.end()
        out.append(self.words(text[last:], foreign, path))
        return "".join(out)

    def edit(self, path, text):
        lines = []
        for line in text.split("\n"):
            if re.match(r"(old|new):", line):
                head, rest = line[:4], line[4:]
                line = head + self.words(rest, set(), PLAIN)
            lines.append(line)
        return "\n".join(lines)

    def page(self, path, text):
        return SPAN.sub(lambda m: self.words(m[0].replace("`", " ` "), set(), PLAIN).replace(" ` ", "`"), text)


def main():
    args = sys.argv[1:]
    to = None
    if "--table" in args:
        at = args.index("--table")
        to = args[at + 1]
        del args[at : at + 2]
    root = args[0] if args else "."
    rows, fields, tops = table(root)
    turner = Turner(rows, fields, turned_before(root))
    changed = 0
    jobs = [(p, t, turner.antt) for p, t in texts(root, ".antt")]
    jobs += [(p, t, turner.rt) for p, t in texts(root, ".rt")]
    jobs += [(p, t, turner.edit) for p, t in texts(root, ".edit")]
    pages = [os.path.join(root, "README.md")]
    pages += [os.path.join(root, "docs", n) for n in sorted(os.listdir(os.path.join(root, "docs"))) if n.endswith(".md") and n != "PORT.md"]
    for path in pages:
        with open(path, encoding="utf-8") as f:
            jobs.append((path, f.read(), turner.page))
    for path, text, turn in jobs:
        new = turn(path, text)
        if new != text:
            changed += 1
            with open(path, "w", encoding="utf-8") as f:
                f.write(new)
    if to:
        with open(to, "w", encoding="utf-8") as f:
            f.writelines(f"{old}\t{new}\n" for old, new in sorted(rows.items()))
    print(f"respell: {len(rows)} names turned in {changed} files")


main()
