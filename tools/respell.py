#!/usr/bin/env python3
"""Spells the names that the .antt files of this repository declare in snake case: `vertexLimit` becomes `vertex_limit`, `run-grows` `run_grows`.

usage: python3 tools/respell.py          (at the top of the repository, once, after port.py)

Turned are definitions, laws, fields, constructors and helpers below a `where`, wherever the files of specs/, proofs/, the clauses of src/ and the
must-fail edits name them. Types and modules keep their capitals, as do the parts of a name that are spelled as a type. What a function's own folder of
proofs/ declares stays: those are goals, and go by the names that the check makes. A name that the kit's library also declares stays in the files that
import it from there. In comments and pages a name with a capital inside turns everywhere, a name with a dash in a code span alone.
Prints what falls together, and changes nothing then.
"""

import collections
import os
import re
import sys

TOP = os.path.dirname(os.path.dirname(os.path.realpath(__file__)))
NAME = r"[^\s(){}.;,@\"«»]+"
HEAD = re.compile(r"^ *(?:(?:pub|abbrev|unfoldable) )*(" + NAME + r")((?: " + NAME + r")*)(?: [({][^{}]*[)}])* :(?= |$)")
BLOCK = re.compile(r"^(?:pub )?(?:record|data|mutual)\b.*\bwhere$")
TYPE = re.compile(r"^(?:pub )?(?:record|data) (" + NAME + ")")
USE = re.compile(r"\buse ([\w.'·-]+)\.\{([^}]*)\}")
WORD = re.compile(NAME)
SPAN = re.compile(r"`[^`\n]*`")
# Where the plain spelling would meet another name: a field or a law named as the definition it speaks of.
OTHERWISE = {
    "edge-limit": "edges_limited",
    "vertex-limit": "vertices_limited",
    "noLoop": "no_loop_size",
    "from_fields": "from_fields_lem",
}
LAWS = """and-then board-sized decode-refusal distance-refusal edges-with face-at faces-sized fewest-from first-end first-odd free-count game-refusal held-count
holds-less key-lines line-of may-stand one-twice read-refusal second-end sheet-in side-one side-two text-of to-move trap-refusal unpacked-refusal
verdict-refusal write-refusal""".split()
RESERVED = set("record data deriving module where use mod pub package open as unfoldable abbrev axiom unfold unfolding ruleset mutual infix infixl infixr elim let in do Type ground assumption".split())


def files(*kinds):
    for folder, dirs, names in os.walk(os.path.join(TOP, "crates")):
        dirs[:] = sorted(d for d in dirs if d != "out")
        for n in sorted(names):
            if n.endswith(kinds):
                yield os.path.join(folder, n)


def read(path):
    with open(path, encoding="utf-8") as f:
        return f.read()


def of_a_function(path):
    return bool(re.search(r"/proofs/.+/", path[len(TOP):]))


def declared():
    found = set()
    for path in files(".antt"):
        if of_a_function(path):
            continue
        for line in read(path).split("\n"):
            if not line.strip() or line.lstrip().startswith("--") or line.lstrip().startswith("let "):
                continue
            m = HEAD.match(line)
            if m:
                found.update([m[1]] + m[2].split())
    return found


def in_snake_case(name):
    words = re.sub(r"(?<=[a-z0-9])[A-Z]", lambda m: "_" + m[0].lower(), name)
    return words.replace("-", "_")


def spelled(name):
    parts = name.split("-")
    turned = [p if p[:1].isupper() else in_snake_case(p) for p in parts]
    return "_".join(turned)


def table():
    rows = {}
    for n in declared():
        if n[:1].isupper() and "-" not in n:
            continue
        if not re.search(r"[a-z]", n):
            continue
        new = spelled(n)
        if new != n:
            rows[n] = new
    rows.update({n: spelled(n) + "_lem" for n in LAWS})
    rows.update(OTHERWISE)
    return rows


def borrowed(text):
    """The names that a file imports from the kit."""
    names = set()
    for m in USE.finditer(text):
        head = m[1].split(".")
        ours = head[0] == "Rattle" and len(head) > 1 and os.path.isdir(os.path.join(TOP, "crates", head[1]))
        if not ours:
            names.update(w.strip().split(" as ")[-1] for w in m[2].split(","))
    return names


def turn_code(text, rows):
    return WORD.sub(lambda m: rows.get(m[0], m[0]), text)


def turn_comment(text, rows):
    inside = SPAN.sub(lambda m: turn_code_span(m[0], rows), text)
    camel = {a: b for a, b in rows.items() if "-" not in a}
    return re.sub(r"[\w']+(?:-[\w']+)*", lambda m: camel.get(m[0], m[0]), inside)


def turn_code_span(text, rows):
    return re.sub(r"[^\s(){}.;,@\"«»`]+(?!\.[a-z])", lambda m: rows.get(m[0], m[0]), text)


def split_line(line, mark):
    """Code and comment of a line; a mark inside a string is code."""
    quoted = False
    for i, c in enumerate(line):
        if c == '"' and (i == 0 or line[i - 1] != "\\"):
            quoted = not quoted
        if not quoted and line.startswith(mark, i) and (i == 0 or line[i - 1] in " \t"):
            return line[:i], line[i:]
    return line, ""


def outside_strings(code, rows):
    parts = re.split(r'("(?:\\.|[^"\\])*")', code)
    return "".join(p if i % 2 else turn_code(p, rows) for i, p in enumerate(parts))


def turn(text, rows, mark):
    lines = []
    for line in text.split("\n"):
        code, comment = split_line(line, mark)
        lines.append(outside_strings(code, rows) + turn_comment(comment, rows))
    return "\n".join(lines)


def may_meet(path):
    """A function of src/ may be named as the definition that its clause cites: neither hides the other."""
    return path.endswith(".rt") or of_a_function(path)


def words(text, mark):
    found = set()
    for line in text.split("\n"):
        found.update(WORD.findall(split_line(line, mark)[0]))
    return found


def main():
    rows = table()
    bad = [f"{a} becomes {b}, a word of antt" for a, b in rows.items() if b in RESERVED]
    work = []
    for path in files(".antt", ".rt", ".edit"):
        text = read(path)
        mark = {".antt": "--", ".rt": "//"}.get(os.path.splitext(path)[1], "#")
        kit = borrowed(text)
        here = {a: b for a, b in rows.items() if a not in kit}
        there = words(text, mark)
        back = collections.defaultdict(list)
        for a in there & set(here):
            back[here[a]].append(a)
        for b, olds in back.items():
            if len(olds) > 1 or b in there - set(here) and not may_meet(path):
                bad.append(f"{os.path.relpath(path, TOP)}: {' and '.join(sorted(olds))} would be {b}" + (", which stands there" if b in there else ""))
        work.append((path, text, turn(text, here, mark)))
    if bad:
        print("\n".join(sorted(bad)))
        print(f"respell: {len(bad)} names fall together; nothing was changed")
        return 1
    changed = 0
    for path, old, new in work:
        if new != old:
            changed += 1
            with open(path, "w", encoding="utf-8") as f:
                f.write(new)
    for folder in (".", "docs", "docs/notes"):
        for n in sorted(os.listdir(os.path.join(TOP, folder))):
            if n.endswith(".md"):
                path = os.path.join(TOP, folder, n)
                old = read(path)
                new = turn_comment(old, rows)
                if new != old:
                    changed += 1
                    with open(path, "w", encoding="utf-8") as f:
                        f.write(new)
    print(f"respell: {len(rows)} names; {changed} files changed")
    return 0


if __name__ == "__main__":
    raise SystemExit(main())
