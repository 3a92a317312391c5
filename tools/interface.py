#!/usr/bin/env python3
"""Holds together the three lists of the library's exports: the sources, the C header, the Rust declarations.

    tools/interface.py    exit status 1, and a line for each, where
      - a function is in one list and not in another;
      - a parameter differs in name, place, kind (number, address, address to const) or width, or, where both lists
        give a count of elements, in that;
      - what a function answers differs in kind or width;
      - a record differs in a field's name, place, width or count.

Read are crates/exports_c/src, include/jangsebit.h and host/jangsebit/src/sys.rs; the last is passed over, with a word,
where it is not there. A slice `x` counts as the address `x` and the number `x_len`.
"""
import glob
import os
import re
import sys

os.chdir(os.path.dirname(os.path.dirname(os.path.abspath(__file__))))
HEADER = "include/jangsebit.h"
SYS = "host/jangsebit/src/sys.rs"
WIDTHS = {"u8": 8, "u16": 16, "u32": 32, "u64": 64, "usize": 64}
C_WIDTHS = {"uint8_t": 8, "uint16_t": 16, "uint32_t": 32, "uint64_t": 64, "size_t": 64}
wrong = []


class Unread(Exception):
    """What a list says is not of a kind that is known here."""


# A kind is ("number", width), ("none",), or (address, element, count): the address is "const" or "mut", the element a
# width or the fields of a record, the count None where it is not given.

def parts(text, separator=","):
    """The parts of a text between separators that no bracket holds."""
    depth, part, found = 0, "", []
    for c in text:
        depth += (c in "([{<") - (c in ")]}>")
        if c == separator and depth == 0:
            found.append(part.strip())
            part = ""
        else:
            part += c
    return [p for p in found + [part.strip()] if p]


def held_by(text, at):
    """What stands between the bracket at a place and the one that closes it."""
    opening = text[at]
    closing = {"(": ")", "{": "}"}[opening]
    depth = 0
    for k in range(at, len(text)):
        depth += (text[k] == opening) - (text[k] == closing)
        if depth == 0:
            return text[at + 1:k]
    raise Unread("a bracket that is not closed")


# ---- Rattle and Rust

class Types:
    """The constants, aliases and records of some files, by name; of equal names, those of the first file."""

    def __init__(self, files):
        self.constants, self.aliases, self.records = {}, {}, {}
        self.modules = {}
        for file in files:
            text = re.sub(r"//.*", "", open(file).read())
            names = (file.split("/")[1], os.path.basename(file)[:-3])
            for m in re.finditer(r"\bconst (\w+): \w+ =([^;]+);", text):
                self.constants.setdefault(m.group(1), m.group(2))
                for name in names:
                    self.modules.setdefault((name, m.group(1)), (m.group(2), names))
            for m in re.finditer(r"\btype (\w+) = (\[[^\]]*\]|[^;\[]+);", text):
                self.aliases.setdefault(m.group(1), (m.group(2).strip(), names))
            for m in re.finditer(r"#\[repr\(([^)]*)\)\](?:\s*#\[[^\]]*\])*\s*(?:pub(?:\([^)]*\))? )?struct (\w+)\s*([({])", text):
                if m.group(1).split(",")[0].strip() not in ("C", "transparent"):
                    continue
                fields = re.sub(r"#\[[^\]]*\]|\bpub(\([^)]*\))? ", "", held_by(text, m.start(3)))
                named = m.group(3) == "{"
                self.records.setdefault(m.group(2), ([
                    tuple(x.strip() for x in f.split(":", 1)) if named else (str(k), f)
                    for k, f in enumerate(parts(fields))], names))

    def number(self, text, names=()):
        """What a constant expression comes to; a name is looked for in the file it is used in first."""
        text = re.sub(r"\bas \w+|_(?=\d)", "", text).strip()

        def named(m):
            path = m.group(0).split("::")
            for name in [path[-2]] if len(path) > 1 else names:
                if (name, path[-1]) in self.modules:
                    found, where = self.modules[name, path[-1]]
                    return str(self.number(found, where))
            if path[-1] not in self.constants:
                raise Unread("no constant %s" % m.group(0))
            return str(self.number(self.constants[path[-1]], names))

        text = re.sub(r"[A-Za-z_][\w:]*", named, text)
        if not re.fullmatch(r"[\d\s+*/()-]+", text):
            raise Unread("no number: %s" % text)
        return eval(text.replace("/", "//"))

    def element(self, text, names=()):
        """The element of a type that an address leads to, and how many of them there are."""
        text = text.strip()
        array = re.fullmatch(r"\[(.+);(.+)\]", text, re.S)
        if array:
            element, count = self.element(array.group(1), names)
            return element, count * self.number(array.group(2), names)
        name = text.split("::")[-1]
        if name in WIDTHS:
            return WIDTHS[name], 1
        if name in self.aliases:
            return self.element(*self.aliases[name])
        if name not in self.records:
            raise Unread("no type %s with a layout of its own" % text)
        fields, where = self.records[name]
        if len(fields) == 1:
            return self.element(fields[0][1], where)
        return tuple((field,) + self.element(kind, where) for field, kind in fields), 1

    def parameters(self, text):
        """The parameters of a function as (name, kind)."""
        found = []
        for part in parts(text):
            name, kind = (x.strip() for x in part.split(":", 1))
            found += self.kinds(name, kind)
        return found

    def kinds(self, name, text):
        address = re.fullmatch(r"(&(?:'\w+ )?(?:mut )?|\*const |\*mut )(.+)", text, re.S)
        if not address:
            return [(name, self.answer(text))]
        kind = "mut" if "mut" in address.group(1) else "const"
        inner = address.group(2).strip()
        slice_of = re.fullmatch(r"\[([^;]+)\]", inner)
        if slice_of:
            return [(name, (kind, self.element(slice_of.group(1))[0], None)), (name + "_len", ("number", 64))]
        element, count = self.element(inner)
        # an address to one thing, with no count, may be that of the first of several
        return [(name, (kind, element, count if count > 1 or "[" in inner else None))]

    def answer(self, text):
        if text is None or text.strip() == "()":
            return ("none",)
        if text.strip() not in WIDTHS:
            raise Unread("no number: %s" % text)
        return ("number", WIDTHS[text.strip()])


def functions(types, text, where):
    """The exports that a text declares, by name: parameters and answer."""
    found = {}
    for m in re.finditer(r"\bfn (jangsebit_\w+)\s*\(", text):
        inner = held_by(text, m.end() - 1)
        behind = text[m.end() + len(inner):]
        said = re.match(r"\)\s*->\s*(\w+)", behind)
        try:
            found[m.group(1)] = (types.parameters(inner), types.answer(said and said.group(1)))
        except Unread as e:
            wrong.append("%s: %s: %s" % (where, m.group(1), e))
    return found


def sources():
    types = Types(sorted(glob.glob("crates/*/src/*.rt")))
    found = {}
    for file in sorted(glob.glob("crates/exports_c/src/*.rt")):
        text = re.sub(r"//.*", "", open(file).read())
        exported = "".join(
            "fn " + m.group(1) for m in re.finditer(r'#\[unsafe\(no_mangle\)\]\s*pub extern "C" fn (.*?)(?=#\[unsafe\(no_mangle\)\]|\Z)', text, re.S))
        found.update(functions(types, exported, file))
    return found


def rust():
    types = Types(sorted(glob.glob("host/jangsebit/src/*.rs"), key=lambda f: f != SYS))
    text = re.sub(r"//.*", "", open(SYS).read())
    found = {}
    for m in re.finditer(r'\bextern "C"\s*\{', text):
        found.update(functions(types, held_by(text, m.end() - 1), SYS))
    return found


# ---- C

def c():
    text = re.sub(r"/\*.*?\*/", " ", open(HEADER).read(), flags=re.S)
    text = re.sub(r"#ifdef __cplusplus.*?#endif", "", text, flags=re.S)
    macros = dict(re.findall(r"^#define (\w+) (.+)$", text, re.M))
    text = re.sub(r"^\s*#.*$", "", text, flags=re.M)

    def count(text):
        expanded = text
        while re.search(r"[A-Za-z_]", expanded):
            name = re.search(r"[A-Za-z_]\w*", expanded).group(0)
            if name not in macros:
                raise Unread("no constant %s" % name)
            expanded = re.sub(r"\b%s\b" % name, macros[name], expanded)
        return eval(expanded.replace("/", "//"))

    def declared(text):
        """A name, its type's words, whether it is an address, and its count."""
        m = re.fullmatch(r"((?:const |struct |enum )*)(\w+)\s*(\*?)\s*(\w+)\s*(?:\[(.+)\])?", text.strip(), re.S)
        if not m:
            raise Unread("not read: %s" % text)
        words, base, star, name, length = m.groups()
        record = "struct" in words
        element = records.get(base) if record else C_WIDTHS.get(base)
        if element is None:
            raise Unread("no type %s" % base)
        return name, "const" if "const" in words else "mut", element, bool(star or length), length and count(length)

    records = {}
    for m in re.finditer(r"\bstruct (\w+)\s*\{", text):
        fields = [declared(f) for f in parts(held_by(text, m.end() - 1), ";")]
        records[m.group(1)] = tuple((name, element, length or 1) for name, _, element, _, length in fields)
    # what is left outside all braces are declarations
    while re.search(r"\{[^{}]*\}", text):
        text = re.sub(r"\{[^{}]*\}", "@", text)
    found = {}
    for m in re.finditer(r"(\w+)\s+(jangsebit_\w+)\s*\(([^()]*)\)\s*;", text):
        answer, name, inner = m.groups()
        try:
            told = ("none",) if answer == "void" else ("number", C_WIDTHS[answer])
            parameters = []
            for part in [] if inner.strip() == "void" else parts(inner):
                word, kind, element, address, length = declared(part)
                parameters.append((word, (kind, element, length) if address else ("number", element)))
            found[name] = (parameters, told)
        except (Unread, KeyError) as e:
            wrong.append("%s: %s: %s" % (HEADER, name, e))
    return found


# ---- the comparison

def said(kind):
    if kind[0] == "none":
        return "nothing"
    if kind[0] == "number":
        return "a number of %d bits" % kind[1]
    element = "%d bits" % kind[1] if isinstance(kind[1], int) else "a record %s" % ", ".join(
        "%s: %s" % (f, "%d x %d" % (n, w) if isinstance(w, int) else "..") for f, w, n in kind[1])
    return "an address%s to %s%s" % (
        " to const," if kind[0] == "const" else ",", "%d times " % kind[2] if kind[2] else "", element)


def same(a, b):
    if a[:2] != b[:2]:
        return False
    return len(a) < 3 or a[2] is None or b[2] is None or a[2] == b[2]


def hold(ours, theirs, where):
    for name in sorted(set(ours) | set(theirs)):
        if name not in theirs:
            wrong.append("%s: %s is not there" % (where, name))
            continue
        if name not in ours:
            wrong.append("%s: %s is no export" % (where, name))
            continue
        (mine, answer), (other, told) = ours[name], theirs[name]
        for k in range(max(len(mine), len(other))):
            if k >= len(other):
                wrong.append("%s: %s: no parameter %s" % (where, name, mine[k][0]))
            elif k >= len(mine):
                wrong.append("%s: %s: the export has no parameter %s" % (where, name, other[k][0]))
            elif mine[k][0] != other[k][0]:
                wrong.append("%s: %s: parameter %d is %s, the export's is %s" % (where, name, k + 1, other[k][0], mine[k][0]))
            elif not same(mine[k][1], other[k][1]):
                wrong.append("%s: %s: %s is %s, the export's is %s" % (
                    where, name, mine[k][0], said(other[k][1]), said(mine[k][1])))
        if not same(answer, told):
            wrong.append("%s: %s answers %s, the export %s" % (where, name, said(told), said(answer)))


exports = sources()
if not exports:
    wrong.append("crates/exports_c/src: no exports found")
hold(exports, c(), HEADER)
lists = "sources and header"
if os.path.exists(SYS):
    hold(exports, rust(), SYS)
    lists = "sources, header and Rust"
else:
    print("interface: %s is not there and is passed over" % SYS)
for line in wrong:
    print("interface: " + line)
if wrong:
    sys.exit(1)
print("interface: %d exports, the same in %s" % (len(exports), lists))
