#!/usr/bin/env python3
"""Brings the repository's own definitions and lemmas to today's spelling, once, right after port.py.

A fact or a type, Named-so, becomes NamedSo; a function, a lemma or a field, named-so or namedSo, becomes named_so. Names
that the toolchain makes for goals and steps keep theirs, and so do functions of src/, strings and files.
"""
import glob
import re
import sys

TOKEN = re.compile(r"[A-Za-z_][A-Za-z0-9_'⁻₁′]*(?:-[A-Za-z0-9_'⁻₁′]+)*")
DECLARED = re.compile(
    r"^\s*(?:(?:abbrev|unfoldable|pub)\s+)*(?:((?:[A-Za-z_][\w'-]*\s+)*[A-Za-z_][\w'-]*)\s*:|(?:data|record)\s+([A-Za-z_][\w'-]*))"
)
OUTSIDE = re.compile(r"use (?!Rattle\.(?:refusal|motion|siding|planning|daybook|tariff|quoting|lists|standing)\.)[^{]*\{([^}]*)\}")
APART = {"is-branch": "branch_is_tested"}
GOAL = re.compile(r":\s*goal\.")


def antt_files():
    return sorted(glob.glob("crates/*/specs/**/*.antt", recursive=True) + glob.glob("crates/*/proofs/**/*.antt", recursive=True))


def comment_cut(line):
    at = line.find("--")
    return (line, "") if at < 0 else (line[:at], line[at:])


def declared_names():
    names, outside = set(), set()
    for path in antt_files():
        for line in open(path, encoding="utf-8"):
            code, _ = comment_cut(line)
            found = OUTSIDE.match(code)
            if found:
                outside.update(word.strip() for word in found.group(1).split(","))
            if not code.strip() or code.lstrip().startswith(("use ", "unfolding ", "mod ", "pub mod ", "module ")):
                continue
            found = DECLARED.match(code)
            if not found or GOAL.search(code) or " = " in code[: found.end()]:
                continue
            words = (found.group(1) or found.group(2)).split()
            for word in words:
                if word not in ("let", "where", "in", "elim", "abbrev", "pub", "record", "data", "unfoldable"):
                    names.add(word)
    return names - outside


def respelled(name):
    if name in APART:
        return APART[name]
    if name[0].isupper():
        return "".join(part[0].upper() + part[1:] for part in name.split("-"))
    snake = name.replace("-", "_")
    return re.sub(r"(?<=[a-z0-9])([A-Z])", lambda m: "_" + m.group(1).lower(), snake)


def turned(text, table):
    return TOKEN.sub(lambda m: table.get(m.group(0), m.group(0)), text)


def turned_antt(text, table):
    lines = []
    for line in text.split("\n"):
        code, comment = comment_cut(line)
        lines.append(turned(code, table) + comment)
    return "\n".join(lines)


def turned_rt(text, table):
    """Only what a clause, a ghost member or a `ghost use` says: no code has such names."""
    lines = []
    for line in text.split("\n"):
        ghost = re.match(r"\s*(ghost|requires|ensures)\b", line)
        lines.append(turned(line, table) if ghost else line)
    return "\n".join(lines)


def main():
    names = declared_names()
    table = {}
    for name in names:
        new = respelled(name)
        if new != name:
            table[name] = new
    taken = {}
    for name in sorted(names):
        taken.setdefault(table.get(name, name), set()).add(name)
    for new, olds in sorted(taken.items()):
        if len(olds) > 1:
            print("fall together:", new, sorted(olds))
    if "--list" in sys.argv:
        for old in sorted(table):
            print(old, table[old])
        return
    for path in antt_files() + sorted(glob.glob("crates/*/src/**/*.rt", recursive=True)):
        old = open(path, encoding="utf-8").read()
        new = turned_antt(old, table) if path.endswith(".antt") else turned_rt(old, table)
        if new != old:
            open(path, "w", encoding="utf-8").write(new)


main()
