#!/usr/bin/env python3
"""Holds docs/TRACE.md and docs/CONTRACTS.md to the tree.

    tools/trace.py        exit status 1, and a line for each, where
      - a file that a page names is not there, or has not the name that the page gives for it;
      - a must-fail edit that a page names is not there;
      - a must-fail edit is named on neither page;
      - a row of a table with a column for edits has neither an edit nor a reason.
"""
import glob
import os
import re
import sys

root = os.path.dirname(os.path.dirname(os.path.abspath(__file__)))
os.chdir(root)
wrong = []


def text_of(path):
    """The text of a module: specs/X and proofs/X are X.antt or a folder, src/x is x.rt."""
    found = [f for f in ("crates/%s.antt" % path, "crates/%s.rt" % path) if os.path.exists(f)]
    found += glob.glob("crates/%s/**/*.antt" % path, recursive=True)
    return "".join(open(f).read() for f in found) if found else None


def said(page, line, what):
    wrong.append("%s:%d: %s" % (page, line, what))


edits = {}
for f in glob.glob("crates/*/must-fail/*.edit"):
    crate, name = f.split("/")[1], os.path.basename(f)[:-5]
    edits.setdefault(crate, set()).add(name)
named = set()

for page in ("docs/TRACE.md", "docs/CONTRACTS.md"):
    columns = []
    for n, line in enumerate(open(page), 1):
        cells = [c.strip() for c in line.strip().strip("|").split(" | ")] if line.startswith("|") else []
        if cells and cells[-1] in ("must-fail edit",):
            columns = cells
        elif not cells:
            columns = []
        elif columns and not set(line) <= set("|-\n") and cells[-1].strip("| ") == "":
            said(page, n, "no edit and no reason: %s" % cells[0].strip("| ")[:60])
        # crate/specs/File: `name`, `name`; File2: `name`
        for m in re.finditer(r"([a-z_]+)/(specs|proofs|src)/([A-Za-z_/0-9]+)((?:: (?:`[^`]+`(?:, | and )?)+)?(?:; [A-Z][A-Za-z0-9]+: (?:`[^`]+`(?:, )?)+)*)", line):
            crate, folder, file, rest = m.groups()
            if not os.path.isdir("crates/" + crate):
                said(page, n, "no crate %s" % crate)
                continue
            first = True
            for part in re.split(r"; (?=[A-Z][A-Za-z0-9]+: )", rest) if rest else [""]:
                head = re.match(r"([A-Z][A-Za-z0-9]+)?: ", part)
                where = file if first or not head or not head.group(1) else head.group(1)
                first = False
                text = text_of("%s/%s/%s" % (crate, folder, where))
                if text is None:
                    said(page, n, "no file %s/%s/%s" % (crate, folder, where))
                    continue
                for name in re.findall(r"`([^`]+)`", part):
                    word = re.split(r"[ (.]", name.split("::")[-1])[0]
                    if word and not re.search(r"(?<![\w-])%s(?![\w-])" % re.escape(word), text):
                        said(page, n, "%s/%s/%s has no %s" % (crate, folder, where, word))
        # crate: edit, edit
        for m in re.finditer(r"(?<![\w/])([a-z_]+): ([a-z0-9_]+(?:, [a-z0-9_]+)*)", line):
            crate = m.group(1)
            for name in m.group(2).split(", "):
                if crate in edits and "_" in name:
                    if name in edits[crate]:
                        named.add((crate, name))
                    else:
                        said(page, n, "no edit %s of %s" % (name, crate))
        for m in re.finditer(r"\(([a-z0-9_]+)\)", line):
            for crate in edits:
                if m.group(1) in edits[crate]:
                    named.add((crate, m.group(1)))

for crate in sorted(edits):
    for name in sorted(edits[crate]):
        if (crate, name) not in named:
            wrong.append("crates/%s/must-fail/%s.edit: named on neither page" % (crate, name))
for w in wrong:
    print(w)
print("trace: %d wrong" % len(wrong))
sys.exit(1 if wrong else 0)
