#!/usr/bin/env python3
"""Brings the repository's own definitions and lemmas to one spelling, and renames the crate hex.

usage: python3 tools/respell.py        at the top of a repository that was just turned to today's Rattle, once

Words and lemmas go to snake case, facts and records to camel case, in specs/, proofs/, the clauses of src/, the edits of
must-fail/ and the documents. Names of src/, names that the toolchain makes, and text in strings stay.
The crate hex becomes hexadecimal, since the kit has a library of the first name.
"""
import os
import re
import subprocess
import sys

WORD = r"[\w'\u2032-]"
SIGNATURE = re.compile(r"(?m)^(?:pub |abbrev |unfoldable )*(?:record |data )?(?:pub )?([^\s:(){}=|.,]+)(?= *(?:\([^\n]*\) *|\{[^\n]*\} *)*:)")
FIELD = re.compile(r"(?m)^  (?:pub )?([a-z][\w'-]*) :")
# Names that would fall together with a name of the library, or of a function beside them.
OTHERWISE = {"put-mid": "put_mid_is", "after-second": "after_second_byte"}
MADE = re.compile(r"^(returns|loop-|invariant-|decreases-|overflow|slice-bounds|bounds-|unreachable|ghost-)|-requires$")


def files():
    for folder, dirs, names in os.walk("crates"):
        dirs[:] = sorted(d for d in dirs if d != "out")
        for name in sorted(names):
            yield os.path.join(folder, name)


def read(path):
    with open(path, encoding="utf-8") as f:
        return f.read()


def respelled(name):
    if name in OTHERWISE:
        return OTHERWISE[name]
    parts = name.split("-")
    if name[0].isupper():
        return "".join(p[0].upper() + (p[1:].lower() if p.isupper() else p[1:]) for p in parts if p)
    return "_".join(p.lower() if p.isupper() else p for p in parts)


def own_names():
    names, fields = set(), set()
    for path in files():
        if not path.endswith(".antt"):
            continue
        text = read(path)
        names.update(n for n in SIGNATURE.findall(text) if "-" in n and not MADE.search(n))
        fields.update(n for n in FIELD.findall(text) if "-" in n)
    for path in files():
        if path.endswith(".rt"):
            names.update(n for n in re.findall(r"\bas (\w+-[\w-]+)", read(path)))
    return names, fields


def turn(text, names, fields):
    def one(m):
        before, name = m.group(1), m.group(2)
        if name not in names and name not in fields:
            return m.group(0)
        if before.endswith(".") and name not in fields and not re.search(r"[A-Z]\w*\.$", before):
            return m.group(0)
        return before + respelled(name)

    return re.sub(r"((?:[\w'-]+\.)?)(?<![\w'-])([A-Za-z]" + WORD + r"*-" + WORD + r"+)", one, text)


def outside_strings(text, change):
    parts = re.split(r'("(?:\\.|[^"\\])*")', text)
    return "".join(p if i % 2 else change(p) for i, p in enumerate(parts))


def hexadecimal(text):
    text = re.sub(r"\bRattle\.hex\.", "Rattle.hexadecimal.", text)
    return re.sub(r"(?<![\w:])hex::", "hexadecimal::", text)


def main():
    names, fields = own_names()
    new = {}
    for n in names | fields:
        new.setdefault(respelled(n), []).append(n)
    for n, olds in sorted(new.items()):
        if len(olds) > 1:
            print(f"respell: {olds} fall together as {n}")
    for path in files():
        if path.endswith((".antt", ".rt", ".edit")):
            old = read(path)
            change = lambda t: hexadecimal(turn(t, names, fields))
            text = outside_strings(old, change) if path.endswith(".rt") else change(old)
            if text != old:
                for n in set(re.findall(WORD + "+", text)) & set(new):
                    if re.search(r"(?<![\w'.-])" + re.escape(n) + r"(?![\w'-])", old):
                        print(f"respell: {path} had the name {n} before")
                with open(path, "w", encoding="utf-8") as f:
                    f.write(text)
    pages = ["README.md"] + sorted(os.path.join("docs", f) for f in os.listdir("docs") if f.endswith(".md"))
    for path in pages:
        old = read(path)
        text = re.sub(r"`[^`\n]+`", lambda m: turn(m.group(0), names, fields), old)
        text = text.replace("`hex`", "`hexadecimal`").replace("crates/hex/", "crates/hexadecimal/").replace("crates/hex`", "crates/hexadecimal`")
        if text != old:
            with open(path, "w", encoding="utf-8") as f:
                f.write(text)
    lines = [re.sub(r"(^|[ :])hex(?=[ :]|$)", r"\1hexadecimal", l) for l in read("crates.txt").splitlines()]
    with open("crates.txt", "w", encoding="utf-8") as f:
        f.write("\n".join(lines) + "\n")
    if os.path.isdir("crates/hex"):
        subprocess.run(["git", "mv", "crates/hex", "crates/hexadecimal"], check=True)
    print(f"respell: {len(names)} names, {len(fields)} fields")
    return 0


if __name__ == "__main__":
    sys.exit(main())
