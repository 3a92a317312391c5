#!/usr/bin/env python3
"""places.py [-v] [ROOT]: counts in the code of crates/*/src the places that docs/DESIGN-PASS.md speaks of, point by point. With -v it prints each place."""
import glob, re, sys

words = [w for w in sys.argv[1:] if w != "-v"]
shows = "-v" in sys.argv[1:]
root = words[0] if words else "."

# a line's clause and comment are no code
GHOST = re.compile(r"^\s*(//|ghost |requires|ensures)")
HEAD = re.compile(r"^\s*(?:pub(?:\([a-z]+\))? )?(?:const )?fn (\w+)")


def lines_of(file):
    with open(file, encoding="utf-8") as it:
        return it.read().split("\n")


def code(lines):
    return [(n, l) for n, l in enumerate(lines, 1) if l.strip() and not GHOST.match(l)]


def functions(lines):
    """Each function: its line, its name, and its whole text, the clauses aside."""
    n = 0
    while n < len(lines):
        head = HEAD.match(lines[n])
        if not head:
            n += 1
            continue
        start, depth, text, opened = n, 0, [], False
        while n < len(lines):
            line = lines[n]
            if not GHOST.match(line):
                text.append(line)
                depth += line.count("{") - line.count("}")
                opened = opened or "{" in line
            n += 1
            if (opened and depth == 0) or (not opened and line.rstrip().endswith(";")):
                break
        yield start + 1, head[1], "\n".join(text)


def shape(text):
    """A function's text with its types, numbers and own name masked: twins have one shape."""
    body = text[text.find("{"):]
    body = re.sub(r"b'.'|0x[0-9A-Fa-f_]+|\b[0-9][0-9_]*(u8|u16|u32|u64|usize)?\b", "#", body)
    body = re.sub(r"\bu(8|16|32|64)\b|\busize\b", "T", body)
    body = re.sub(r"\b(u8|u16|u32|u64|text4|text14)_at\b|\bput_u(8|16|32|64)\b", "F", body)
    return re.sub(r"\s+", " ", body)


LINES = {
    "1 own enums of the shape of Option or Result (a case for none, or with the number of a refusal)":
        r"^    (Nothing|Broken\(usize\)|Refused\(u8\)),$",
    "1 a flag or a refusal's number beside the value that it speaks of (fields)":
        r"^    pub (good|touches|waits|begun|removes): bool,|^    pub (refusal|test): u(8|64),",
    "1 refusals and faults as numbers (in code)":
        r"Refused\([0-9]+\)|Fault\([0-9]+\)|Fault\(u8\)|reason: u8|\brefusal: u(8|64)\b(?!,$)|verdict\([0-9]|\.test (==|!=)|refusal (==|!=) 0|return 1[0-4];|no_\w+\(1[0-9]\)|none_at\(.*11\)|answer\((0|9|10), ",
    "1 message types as numbers (in code)":
        r"^\s+[0-9]+(?: \| [0-9]+)* =>|\bkind (==|!=) [0-9]+",
    "1 an answer of 0, or of a number out of range, for none (tests of it)":
        r"\b(size|at|there|digit|first|second|byte|count|needed|broken)(\.count)? (==|!=|<) (0|10|16|255|UNLISTED)\b|== NONE|255 < byte",
    "2 readers and writers that differ in their width (functions)":
        r"fn (u8|u16|u32|u64|text4|text14)_at\b|fn put_u(8|16|32|64)\b",
    "3 loops that count by hand":
        r"^\s+while |^\s+loop \{",
    "4 equality, order, conversion by hand (functions)":
        r"fn (same|better|place_found|kind_of_terms|kind_of|answer_by|passed_by|kept_by|rule_in|refusal_of|refusal|least|most|digit_of|glyph|is_name|jangsebit_rule)\b",
    "6 a buffer with its length or a place beside (parameters and fields)":
        r"out: &mut \[u8\], at: usize|buf: &mut \[u8\], at: usize|^    pub count: usize,|let mut \w+ = \[0u8; ",
    "7 a switch on which step to run (bool parameters)":
        r"\b(single|through|wanted|quoted|fits|good|named|kept): bool",
}

found = {name: [] for name in LINES}
twins, facts, together = {}, {}, {}
for file in sorted(glob.glob(f"{root}/crates/*/src/**/*.rt", recursive=True)):
    lines = lines_of(file)
    short = file[len(root):].lstrip("/")[len("crates/"):]
    for n, line in code(lines):
        for name, pattern in LINES.items():
            if re.search(pattern, line):
                found[name].append(f"{short}:{n}: {line.strip()}")
    for n, name, text in functions(lines):
        if text.count("\n") > 1:
            twins.setdefault(shape(text), []).append(f"{short}:{n}: {name}")
        given = re.findall(r"(\w+): ([^,()]+)[,)]", text[:text.find("{")])
        if len(given) >= 6:
            together.setdefault(len(given), []).append(f"{short}:{n}: {name}")
    for n, line in enumerate(lines, 1):
        clause = re.match(r"\s*requires\*?[^{]*\{(.*)\}\s*$", line)
        if clause:
            for fact in re.split(r" × (?![^(]*\))", clause[1]):
                fact = fact.strip().strip("()")
                facts.setdefault(re.sub(r"\.(old|now|new)\b", "", fact), []).append(f"{short}:{n}: {fact}")

same = [it for it in twins.values() if len(it) > 1]
found["2 twins (functions of one shape, less one each)"] = [place for it in same for place in it[1:]]
found["5 facts that stand in the contracts of three or more functions (contracts)"] = [
    place for it in facts.values() if len(it) > 2 for place in it]
found["5 parameters that travel together (functions with six or more)"] = [place for it in together.values() for place in it]

for name in sorted(found):
    print(f"{len(found[name]):4d}  {name}")
    if shows:
        for place in found[name]:
            print(f"        {place}")
