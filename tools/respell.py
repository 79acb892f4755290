#!/usr/bin/env python3
"""Brings the definitions and lemmas of this repository to the spelling of today's Rattle: words in snake case, types in camel case.

usage: python3 tools/respell.py [--list] [FOLDER]      after port.py, once, at the top of the repository (or of FOLDER)

A name is the repository's own where a .antt file of a crate declares it and it answers no goal, or where it is a ghost item of src/. Lower case names lose their dashes
and capitals (below-more, sumTo-le: below_more, sum_to_le), the others their dashes (One-answer: OneAnswer). Comments, strings, the
code of src/ and the names that Rattle makes stay. Two own names that would become one are told apart by the table TOLD_APART.
"""
import os
import re
import sys

# names that would fall together with another, and what they become
TOLD_APART = {
    "time-bytes": "time_as_bytes",  # beside timeBytes
    "kind-byte": "kind_as_byte",  # beside kindByte
    "by-kind": "of_kind",  # beside byKind
    "of-task": "of_task_at",  # beside ofTask
    "is-for": "is_for_it",  # beside isFor
    "sectionBelow": "section_if_below",  # beside the function section_below
    "by_place": "by_any_place",  # beside byPlace
    "mayPrecede": "precedence",  # beside the method may_precede
}

IDENT = r"[A-Za-z_◌][A-Za-z0-9_'◌]*(?:-[A-Za-z0-9_'◌]+)*"
DECLARED = re.compile(r"^\s*(?:(?:abbrev|unfoldable|pub|data|record|where|module)\s+)*(" + IDENT + r")((?:\s+[({][^)}]*[)}])*)\s*:(?=\s|$)(.*)$")
TOKEN = re.compile(IDENT)


def files(root, endings):
    for folder, dirs, names in os.walk(os.path.join(root, "crates")):
        dirs[:] = sorted(d for d in dirs if d not in ("out", "target"))
        for name in sorted(names):
            if name.endswith(endings):
                yield os.path.join(folder, name)


def read(path):
    with open(path, encoding="utf-8") as f:
        return f.read()


def respelled(name):
    if name in TOLD_APART:
        return TOLD_APART[name]
    if name[0].isupper():
        return re.sub(r"-(.)", lambda m: m.group(1).upper(), name)
    parts = name.replace("-", "_")
    return re.sub(r"(?<=[a-z0-9])([A-Z])", lambda m: "_" + m.group(1), parts).lower()


def own_names(root):
    own, answers, imported = {}, set(), set()
    for path in files(root, ".antt"):
        text = read(path)
        for line in text.split("\n"):
            line = line.split("-- ")[0]
            m = DECLARED.match(line)
            if m and not line.lstrip().startswith(("use ", "pub use ")):
                if re.match(r"\s*goal\.", m[3]):
                    answers.add(m[1])
                else:
                    own.setdefault(m[1], path)
        for m in re.finditer(r"^(?:pub )?use (Rattle\.std|borrow|mathlib|native|lib|denote|Prim|sepl\w*)\b[^\n]*", text, re.M):
            imported |= set(TOKEN.findall(m[0]))
    for path in files(root, ".rt"):
        for m in re.finditer(r"^\s*ghost ([A-Za-z_]\w*)\s*[:=]", read(path), re.M):
            own.setdefault(m[1], path)
    return {n: p for n, p in own.items() if n not in answers}, answers, imported


def turns(root):
    own, answers, imported = own_names(root)
    table = {}
    for n in own:
        new = respelled(n)
        if new != n:
            table[n] = new
    said = []
    back = {}
    for old, new in table.items():
        back.setdefault(new, []).append(old)
    for new, olds in back.items():
        if len(olds) > 1 or new in own:
            said.append(f"falls together: {olds} and {new} in {[own[o] for o in olds]} {own.get(new)}")
    for old in list(table):
        if old in imported:
            said.append(f"also imported: {old}, declared in {own[old]}")
        if table[old] in imported:
            said.append(f"now spelt as an imported name: {old} -> {table[old]}, declared in {own[old]}")
        if old in answers:
            said.append(f"also a goal: {old}")
    functions = {}
    for path in files(root, ".rt"):
        for m in re.finditer(r"\bfn ([a-z0-9_]+)", read(path)):
            functions.setdefault(m[1], path)
    for old, new in table.items():
        if new in functions:
            said.append(f"now spelt as a function: {old} -> {new}, declared in {own[old]}, function in {functions[new]}")
    return table, said


def turn_text(text, table, rust):
    out = []
    comment = "//" if rust else "--"
    for line in text.split("\n"):
        at = len(line)
        m = re.search(r"(^|\s)" + comment + r"( |$)", line)
        if m:
            at = m.start()
        head, tail = line[:at], line[at:]
        pieces = re.split(r'("(?:[^"\\]|\\.)*")', head) if rust else [head]
        for i in range(0, len(pieces), 2):
            pieces[i] = TOKEN.sub(lambda m: table.get(m[0], m[0]), pieces[i])
        out.append("".join(pieces) + tail)
    return "\n".join(out)


def main(argv):
    only_list = "--list" in argv
    rest = [a for a in argv if not a.startswith("--")]
    root = rest[0] if rest else "."
    table, said = turns(root)
    for s in said:
        print(s)
    if only_list:
        for old in sorted(table):
            print(f"{old} -> {table[old]}")
        return 0
    changed = 0
    for path in files(root, (".antt", ".rt", ".edit")):
        text = read(path)
        new = turn_text(text, table, path.endswith((".rt", ".edit")))
        if new != text:
            with open(path, "w", encoding="utf-8") as f:
                f.write(new)
            changed += 1
    print(f"{len(table)} names, {changed} files")
    return 0


if __name__ == "__main__":
    sys.exit(main(sys.argv[1:]))
