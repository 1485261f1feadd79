#!/usr/bin/env python3
"""Spells the repository's own definitions and lemmas as today's Rattle does, behind the kit's port.py.

usage: tools/respell.py [--check]      at the top of the repository, once; --check writes nothing and prints each name

What is declared in a crate's specs/ or in a file of lemmas in its proofs/ gets words in snake case (readFault is read_fault), and a dash
joins names alone (length-bitsOfNat is length-bits_of_nat, but read-refused, whose words are no definitions, is read_refused). A lemma that would
have its function's name gets _lem. Types, facts and modules keep their capitals. Functions of src/, exported C names, strings, inputs and outputs keep their names.
Turned are the .antt and .rt files of crates/, the must-fail edits, and the code spans of README.md and
docs/. It stops where two names would fall together.
"""
import os
import re
import sys

TOKEN = re.compile(r"(?<![\w'-])[^\W\d_][\w']*(?:-[\w']+)*(?![\w'-])")
STRING = re.compile(r'"(?:[^"\\\n]|\\.)*"')
DECLARED = re.compile(r"^(?:(?:abbrev|unfoldable|opaque|pub|data|record|ruleset)\s+)*([^\s(){}.;,@\"«»:]+)(?:\s+(?:\([^()]*\)|\{[^{}]*\}|[^\s(){}:]+))*\s+:(?:\s|$)")
MEMBER = re.compile(r"^\s+(?:pub\s+)?([^\s(){}.;,@\"«»:]+)(?:\s+[^\s(){}:]+)*\s+:(?:\s|$)")
OPENS = re.compile(r"^(?:abbrev |unfoldable |pub )*(?:data|record)\s")
# where a snake-case name is taken already, by another definition or by a function whose fact a proof cites
OTHER = {"readAt": "was_read_at"}
# lemmas that have a definition's or a field's new name already, where they stand and where they are cited
LAWS = "crates/block_rules/specs/Laws/"
LEMMAS = {
    "crates/tetra_fields/specs/Laws/UplinkAddress.antt": ["too_wide"],
    "crates/tetra_fields/proofs/fields/uplink_address/uplink_address_refusal/Proof.antt": ["too_wide"],
    LAWS + "Calls.antt": ["same_length", "after_finish"],
    LAWS + "Demand3.antt": ["same_length", "after_finish"],
    LAWS + "WrittenBack.antt": ["size_in"],
}
# names of std that lemmas are about
OF_STD = "append cons nil suc zero one add sub mul div mod pow map length take drop set splice replicate reverse min max".split()


def files(root, *ends):
    for folder, dirs, names in os.walk(root):
        dirs[:] = sorted(d for d in dirs if d not in ("out", "target", ".git"))
        for n in sorted(names):
            if n.endswith(ends):
                yield os.path.join(folder, n)


def text(path):
    with open(path, encoding="utf-8") as f:
        return f.read()


def declares(path):
    """A file of specs/, or one right in proofs/ (the proof of a function has a folder)."""
    parts = path.split(os.sep)
    return "specs" in parts or parts[-2] == "proofs" or (parts[-3] == "proofs" and parts[-1] not in ("Proof.antt", "Answers.antt", "Invariants.antt"))


def declared():
    """The names that are declared, and those of them that stand at the left margin."""
    found, outer = set(), set()
    for path in files("crates", ".antt"):
        if not declares(path):
            continue
        # the depth at which a line declares, one for each section that it stands in, and whether a record or a data type is open there
        depths, members = [0], None
        for line in text(path).split("\n"):
            code = line.lstrip(" ")
            if not code or code.startswith(("--", "use ", "open ")):
                continue
            depth = len(line) - len(code)
            while depth < depths[-1]:
                depths.pop()
            if members is not None and depth < members:
                members = None
            if depth == depths[-1]:
                if code.startswith("module ") and code.endswith(" where"):
                    depths.append(depth + 2)
                    continue
                members = depth + 2 if OPENS.match(code) and code.rstrip().endswith("where") else None
                m = DECLARED.match(code)
            else:
                m = MEMBER.match(line) if depth == members else None
            if m:
                found.add(m.group(1))
                if len(depths) == 1:
                    outer.add(m.group(1))
    return found, outer


def words(part):
    return re.sub(r"(?<=[a-z0-9])[A-Z]", lambda m: "_" + m.group(0).lower(), part)


def spelling(name, known):
    if name in OTHER:
        return OTHER[name]
    parts = name.split("-")
    if not parts[0][:1].islower() and len(parts) == 1:
        return name
    turned = [p if p[:1].isupper() else words(p) for p in parts]
    out = turned[0]
    for before, here, to in zip(parts, parts[1:], turned[1:]):
        out += ("-" if before in known and here in known else "_") + to
    return out


def table():
    names, outer = declared()
    known = {n for n in outer if "-" not in n} | set(OF_STD)
    rows = {n: spelling(n, known) for n in names}
    taken = {n for n in names if rows[n] == n} - {n for lemmas in LEMMAS.values() for n in lemmas}
    for a in sorted(rows, key=lambda n: ("-" in n, n)):
        b = rows[a]
        if a == b:
            continue
        if b in taken and "-" in a:
            b += "_lem"
        if b in taken:
            sys.exit(f"respell: {a} and another would both be {b}")
        taken.add(b)
        rows[a] = b
    rows = {a: b for a, b in rows.items() if a != b}
    return rows


def turned(code, rows, skip_strings=True):
    def part(t):
        return TOKEN.sub(lambda m: rows.get(m.group(0), m.group(0)), t)

    if not skip_strings:
        return part(code)
    out, at = "", 0
    for m in STRING.finditer(code):
        out += part(code[at : m.start()]) + m.group(0)
        at = m.end()
    return out + part(code[at:])


def main(argv):
    rows = table()
    if argv == ["--check"]:
        for a, b in sorted(rows.items()):
            print(a, b)
        return
    for path in files("crates", ".antt", ".rt", ".edit"):
        old = text(path)
        new = turned(old, rows | {n: n + "_lem" for n in LEMMAS.get(path, ())})
        if new != old:
            with open(path, "w", encoding="utf-8") as f:
                f.write(new)
    for path in ["README.md", *files("docs", ".md")]:
        old = text(path)
        new = re.sub(r"`[^`\n]+`", lambda m: turned(m.group(0), rows, False), old)
        if new != old:
            with open(path, "w", encoding="utf-8") as f:
                f.write(new)


main(sys.argv[1:])
