#!/usr/bin/env python3
"""Spells this repository's own names as the language does: words, lemmas, fields and constructors in snake case.

usage: python3 tools/respell.py [--dry]      at the top of a repository that port.py has just turned

A name of specs/ or proofs/ that begins in lower case and holds a capital or a dash is respelt (isBad to is_bad, too-far to
too_far), in every file that does not take that name from the library; types, modules, Rust names, strings, inputs and
outputs stay. Where a definition and a lemma fall together (pointWords and point-words), the definition takes the name
and the lemma ends in _lem. A name that would be hidden or taken twice in one file stops the script before it writes.
"""
import collections
import glob
import os
import re
import sys

TOKEN = re.compile(r"[^\s(){}\[\],;.:|«»\"⌜⌝`]+")
DEFINED = re.compile(r"^(\s*)((?:(?:abbrev|unfoldable|pub|data|record|\|) )*)([^\s(){}\[\]:.,;|]+)((?: \([^\n]*?\)| \{[^\n]*?\})*) :(?= |$)")
CONSTRUCTORS = re.compile(r"^  ([^\s(){}\[\]:.,;|]+(?: [^\s(){}\[\]:.,;|]+)+) : ")
LIBRARY = re.compile(r"(?m)^(?:pub |ghost )?use ((?:Rattle\.std|borrow|lib|mathlib|Prim|native|logic|denote|mir|seplogic)(?:\.[^\s.{;]+)*)\.\{([^}]*)\}")
# lemmas whose plain name the library has in a file that cites both
BESIDE_LIBRARY = {"is-nan": "is_nan_lem", "of-int": "of_int_lem"}


def texts(kinds):
    for crate in sorted(os.listdir("crates")):
        for kind in kinds:
            yield from sorted(glob.glob(f"crates/{crate}/{kind}", recursive=True))


def read(path):
    with open(path, encoding="utf-8") as f:
        return f.read()


def snake(name):
    return re.sub(r"(?<=[a-z0-9])([A-Z])", lambda m: "_" + m[1].lower(), name).replace("-", "_")


def own_names(paths):
    """The names that these files define, and those of them that are fields of a record."""
    names, fields = set(), set()
    for path in paths:
        inside = None
        for line in read(path).split("\n"):
            if line and not line.startswith(" "):
                inside = "record" if re.search(r"\brecord\b.*\bwhere$", line) else "data" if re.search(r"\bdata\b.*\bwhere$", line) else None
            several = CONSTRUCTORS.match(line) if inside == "data" else None
            if several:
                names.update(several[1].split())
            m = DEFINED.match(line)
            if m and m[3] not in ("λ", "let", "in", "→", "elim"):
                names.add(m[3])
                if inside == "record" and m[1]:
                    fields.add(m[3])
    return names, fields


def renaming(names):
    """Old name to new, without two that fall together."""
    turned = collections.defaultdict(list)
    for name in names:
        if (name[0].islower() and snake(name) != name) or (name[0].isupper() and "-" in name):
            turned[snake(name) if name[0].islower() else name.replace("-", "_")].append(name)
    new = {}
    for plain, olds in turned.items():
        definitions = [n for n in olds if "-" not in n]
        lemmas = [n for n in olds if "-" in n]
        if definitions:
            new[definitions[0]] = plain
            if plain in names:
                new[plain] = plain + "_lem"
        taken = bool(definitions) or plain in names
        for lemma in lemmas:
            new[lemma] = plain + "_lem" if taken else plain
        assert len(definitions) <= 1 and len(lemmas) <= 1, (plain, olds)
    new.update({n: s for n, s in BESIDE_LIBRARY.items() if n in names})
    repeated = [s for s, n in collections.Counter(new.values()).items() if n > 1]
    assert not repeated, repeated
    return new


def from_library(text):
    return {x.strip().split(" as ")[-1].strip() for m in LIBRARY.finditer(text) for x in m[2].split(",")}


def turn_line(line, comment, new, fields, skip):
    """A line with its names turned; in the comment at its end only names that no English word looks like."""
    def go(text, prose):
        def one(m):
            word, at = m[0], m.start()
            if word not in new or word in skip:
                return word
            if at and text[at - 1] == "." and word not in fields:
                return word
            if prose and not (re.search("[a-z][A-Z]", word) or (text[at - 1 : at] == "`" and text[m.end() : m.end() + 1] == "`")):
                return word
            return new[word]
        return TOKEN.sub(one, text)
    m = re.search(r"(?:^|\s)" + comment + r"(?:\s|$)", line)
    return go(line, False) if not m else go(line[: m.start()], False) + go(line[m.start() :], True)


def in_clauses(text):
    """Which lines of a .rt file are ghost text: imports, clauses and ghost items."""
    flags, depth, ghost = [], 0, False
    for line in text.split("\n"):
        if not ghost and re.match(r"\s*(ghost\b|requires\b|ensures\b|pub ghost\b)", line):
            ghost, depth = True, 0
        flags.append(ghost)
        if ghost:
            depth += line.count("{") - line.count("}")
            ghost = depth > 0
    return flags


def turned(path, text, new, fields):
    skip = from_library(text)
    out = []
    if path.endswith(".rt"):
        for line, ghost in zip(text.split("\n"), in_clauses(text)):
            out.append(turn_line(line, "//", new if ghost else {o: n for o, n in new.items() if re.search("[a-z0-9][A-Z]", o)}, fields, skip) if '"' not in line else line)
    elif path.endswith(".edit"):
        for line in text.split("\n"):
            head, colon, rest = line.partition(": ")
            out.append(head + colon + turn_line(rest, "--", new, fields, skip) if head in ("old", "new") else line)
    else:
        out = [turn_line(line, "--", new, fields, skip) for line in text.split("\n")]
    return "\n".join(out)


def clashes(path, text, new):
    """Names that would be hidden or taken twice: a new name that the file already has as a name of its own or of the library."""
    code = [re.split(r"(?:^|\s)(?:--|//)(?:\s|$)", line)[0] for line in text.split("\n")]
    if path.endswith(".rt"):
        code = [line for line, ghost in zip(code, in_clauses(text)) if ghost] + re.findall(r"\b\w+(?=\s*:(?!:))", "\n".join(code))
    code = "\n".join(code)
    bare = {m[0] for m in TOKEN.finditer(code) if not (m.start() and code[m.start() - 1] == ".")}
    skip = from_library(text)
    return [(path, o, n) for o, n in new.items() if o in bare and o not in skip and n in bare and n not in new]


def main():
    proofs = list(texts(("specs/**/*.antt", "proofs/**/*.antt")))
    names, fields = own_names(proofs)
    new = renaming(names)
    paths = proofs + list(texts(("src/**/*.rt", "must-fail/*.edit")))
    bad = [c for p in paths if not p.endswith(".edit") for c in clashes(p, read(p), new)]
    for path, old, name in bad:
        print(f"{path}: {old} would be {name}, which the file has already")
    if bad:
        raise SystemExit(1)
    if "--dry" not in sys.argv:
        for path in paths:
            text = read(path)
            again = turned(path, text, new, fields)
            if again != text:
                with open(path, "w", encoding="utf-8") as f:
                    f.write(again)
    print(f"{len(new)} names respelt")


main()
