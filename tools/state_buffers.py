#!/usr/bin/env python3
"""Writes what a clause of src/ says of a lent buffer by today's words: `before x` becomes `x.now` of a `&` and `x.old` of a `&mut`, `after x` `x.new`,
and `board_lent` and `sheet_lent`, which took buffers, take the lists in them.

usage: python3 tools/state_buffers.py          (at the top of the repository, once)
"""

import glob
import os
import re

TOP = os.path.dirname(os.path.dirname(os.path.realpath(__file__)))
FN = re.compile(r"\bfn \w+(?:<[^>(]*>)?\(")


def close(text, at):
    """The place of the bracket that closes the one at `at`."""
    pairs = {"(": ")", "{": "}", "[": "]"}
    depth = 0
    for i in range(at, len(text)):
        if text[i] in pairs:
            depth += 1
        elif text[i] in pairs.values():
            depth -= 1
            if depth == 0:
                return i
    raise SystemExit("no closing bracket")


def clause_end(text, at):
    """Where the clauses of a signature end: the place of the body's brace."""
    i = at
    while True:
        m = re.compile(r"\s*(?:->(?:\[[^\]]*\]|[^{;\[])*?(?=\s(?:requires|ensures|ghost)\b|\s*\{))?\s*(?:(?:requires|ensures)\*? ?(?:\w+ )?)?").match(text, i)
        i = m.end()
        if text[i] == ";":
            return i
        if not re.search(r"(requires|ensures)\*? ?(\w+ )?$", text[at:i]):
            return i
        i = close(text, i) + 1


def turned(clauses, kinds):
    def first(x):
        return x + (".old" if kinds.get(x) == "mut" else ".now" if kinds.get(x) == "shared" else "")

    def last(x):
        return x + (".new" if kinds.get(x) == "mut" else ".now")

    name = r"[a-z_]\w*"
    clauses = re.sub(rf"\(before ({name})\)|\bbefore ({name})", lambda m: first(m[1] or m[2]), clauses)
    clauses = re.sub(rf"\(after ({name})\)|\bafter ({name})", lambda m: last(m[1] or m[2]), clauses)

    def lent(m):
        words = m[2].split()
        return m[1] + " " + words[0] + " " + " ".join(first(w) for w in words[1:])

    clauses = re.sub(rf"\b(board_lent)((?:\s+{name}){{4}})", lent, clauses)
    return re.sub(rf"\b(sheet_lent)((?:\s+{name}){{6}})", lent, clauses)


def turn(text):
    out, at = "", 0
    for m in FN.finditer(text):
        if m.start() < at:
            continue
        end = close(text, m.end() - 1)
        kinds = {}
        for p in re.finditer(r"(\w+): (&(?:'\w+ )?(mut )?)", text[m.end():end]):
            kinds[p[1]] = "mut" if p[3] else "shared"
        body = clause_end(text, end + 1)
        out += text[at:end + 1] + turned(text[end + 1:body], kinds)
        at = body
    return out + text[at:]


def main():
    for path in sorted(glob.glob(os.path.join(TOP, "crates", "*", "src", "*.rt"))):
        with open(path, encoding="utf-8") as f:
            old = f.read()
        new = turn(old)
        # what is no longer named is no longer imported
        for w in ("before", "after"):
            if not re.search(rf"(?m)^(?!ghost use|\s*//).*\b{w}\b", new):
                new = re.sub(rf"(ghost use Rattle\.model\.specs\.Lent\.\{{[^}}]*?)\b{w}(?:, )?", r"\1", new)
        new = re.sub(r", \}", "}", new)
        new = re.sub(r"ghost use Rattle\.model\.specs\.Lent\.\{\};\n", "", new)
        if new != old:
            with open(path, "w", encoding="utf-8") as f:
                f.write(new)


if __name__ == "__main__":
    main()
