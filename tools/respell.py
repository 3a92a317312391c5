#!/usr/bin/env python3
"""Brings the repository's own names in specs/, proofs/ and clauses to today's spelling.

usage: respell.py [--check] [--docs]     at the top of the repository, once, behind the kit's own respelling

A definition, a field, a constructor and a lemma are words in snake case, `headerIn` as `header_in`. A dash stays in a
lemma's name all of whose parts are names of definitions, as in `decode-encode`, and is `_` elsewhere, as in `held_is`. A function's proof is
`NAME_spec`. Functions of src/, exported names, strings, goals and steps (what stands behind `tie.`, `to.` and `c.`) keep
theirs. Names that would fall together in a file are printed, and nothing is written then. --docs turns the code spans of
README.md and docs/ instead, by the table tools/respelled.tsv that the first form writes.
"""
import collections
import os
import re
import sys

WORD = re.compile(r'[^\s(){}.;,@"«»\[\]]+')
DECLARED = re.compile(
    r"^\s*(?:(?:pub|abbrev|unfoldable|opaque|private)\s+)*([^\s:(){}\[\],;=]+)(?:\s+\{[^}]*\})*\s*(?:\([^)]*\)\s*)*:(?!=)"
)
# definitions of the library that lemmas of this repository are named after
LIBRARY = set(
    "length append take drop set map replicate get_or eqb ltb leb min max add mul sub suc zero nil cons paste filter and or not".split()
)
# lemmas that were in snake case before and are named as a definition is now
AS_A_DEFINITION = ("held_by", "place_after", "insides_in")
TABLE = "tools/respelled.tsv"


def texts(ending):
    for folder, dirs, files in os.walk("crates"):
        dirs[:] = sorted(d for d in dirs if d != "out")
        for name in sorted(files):
            if name.endswith(ending):
                yield os.path.join(folder, name)


def of_a_function(path):
    """A function's own proof, whose names are those of goals and steps."""
    return path.endswith(("/Proof.antt", "/Points.antt"))


def bare(text):
    return re.sub(r"--[^\n]*", "", text)


def snake(word):
    return re.sub(r"(?<=[a-z0-9])([A-Z]+)(?![a-z])|(?<=[a-z0-9])([A-Z])", lambda m: "_" + m[0].lower(), word)


def collect():
    definitions, lemmas, used, found, stated = set(), set(), set(), set(), set()
    for path in texts(".antt"):
        with open(path, encoding="utf-8") as f:
            text = bare(f.read())
        for line in text.split("\n"):
            m = DECLARED.match(line)
            if m and re.match("[a-z]", m[1]):
                if of_a_function(path):
                    used.add(m[1])
                else:
                    (definitions if re.search(r"\b(abbrev|unfoldable)\b", line) or "/specs/" in path else lemmas).add(m[1])
                    if re.search(r"\b(abbrev|unfoldable)\b", line) and "/specs/" in path and "-" not in m[1]:
                        stated.add(m[1])
        for m in WORD.finditer(text):
            found.add(m[0])
            if re.match(r"[a-z][a-zA-Z0-9]*[A-Z]\w*['₀-₉]*$", m[0]):
                definitions.add(m[0])
    return definitions, lemmas, used, found, stated


def table():
    definitions, lemmas, used, found, stated = collect()
    known = {snake(w) for w in stated} | LIBRARY
    defined = {snake(w) for w in definitions}
    rows = {w: w + "_lem" for w in AS_A_DEFINITION}
    for old in definitions | lemmas | {w for w in used if w.endswith("-spec")}:
        if old in AS_A_DEFINITION:
            continue
        parts = [snake(p) for p in old.split("-")]
        stays = not old.endswith("-spec") and all(p in known for p in parts)
        new = ("-" if stays else "_").join(parts)
        if old not in definitions and (new in defined or new in found) and new != old:
            new += "_lem"
        if new != old:
            rows[old] = new
    return rows


def turn(text, rows, steps):
    """Each whole word of the table, but for goals and steps behind `tie.`, `to.` and `c.`."""

    def one(m):
        word = m[0]
        core = word.strip("`:'?!")
        if core not in rows:
            core = word
        if core not in rows:
            return word
        head = re.search(r"([^\s(){};,@\"«»\[\]]+)\.$", text[max(0, m.start() - 200) : m.start()])
        first = head[1].split(".")[0] if head else ""
        if first in ("tie", "to") or (first in ("c", "w", "s", "l") and "-" in core):
            return word
        return word.replace(core, rows[core])

    return WORD.sub(one, text)


def main():
    args = sys.argv[1:]
    if "--docs" in args:
        with open(TABLE, encoding="utf-8") as f:
            rows = dict(line.rstrip("\n").split("\t") for line in f)
        found = collect()[3]

        def one(word):
            plain = "_".join(snake(part) for part in word.split("-"))
            known = rows.get(word) or rows.get(plain)
            return known or (plain if word not in found and plain in found else word)

        pages = ["README.md"] + [os.path.join(r, n) for r, _, ns in os.walk("docs") for n in ns if n.endswith(".md")]
        for page in pages:
            with open(page, encoding="utf-8") as f:
                text = f.read()
            new = re.sub(r"`[^`\n]+`", lambda m: re.sub(r"[A-Za-z][\w'-]*", lambda w: one(w[0]), m[0]), text)
            if new != text:
                with open(page, "w", encoding="utf-8") as f:
                    f.write(new)
        return
    rows = table()
    functions = set()
    for path in texts(".rt"):
        with open(path, encoding="utf-8") as f:
            functions |= set(re.findall(r"\bfn (\w+)", f.read()))
    together = []
    out = []
    for path in list(texts(".antt")) + list(texts(".rt")):
        with open(path, encoding="utf-8") as f:
            text = f.read()
        words = set(WORD.findall(bare(text) if path.endswith(".antt") else re.sub(r"//[^\n]*", "", text)))
        back = collections.defaultdict(set)
        for w in words:
            back[rows.get(w, w)].add(w)
        # a function and the definition of its answer may have one name: the one is code, the other a clause's word
        together += [f"{path}: {sorted(ws)} -> {new}" for new, ws in sorted(back.items()) if len(ws) > 1 and new not in functions]
        new = turn(text, rows, of_a_function(path))
        if new != text:
            out.append((path, new))
    for line in together:
        print("together:", line)
    print(f"{len(rows)} names, {len(out)} files, {len(together)} that fall together")
    if "--check" in args or together:
        sys.exit(1 if together else 0)
    for path, new in out:
        with open(path, "w", encoding="utf-8") as f:
            f.write(new)
    with open(TABLE, "w", encoding="utf-8") as f:
        for old in sorted(rows):
            f.write(f"{old}\t{rows[old]}\n")


main()
