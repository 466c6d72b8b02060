#!/usr/bin/env python3
"""Counts, in the crates' src/ without tests, the places that read like an older language.

    python3 tools/design_pass.py [-v] [COMMIT]

With no commit it reads the working tree. -v prints each place.
"""
import itertools
import re
import subprocess
import sys

VERBOSE = "-v" in sys.argv
COMMIT = next((a for a in sys.argv[1:] if a != "-v"), None)

LINES = {
    "1 own Option or Result, flags, numbers for refusals": r"\bbool\b(?!\))|\bgood\b|match .*\.number\(\)|_ => return|unreachable\(",
    "3 loops that count by hand": r"\bwhile\b|\bloop\b|\.enumerate\(\)",
    "4 equality, conversion, printing by hand": r"fn (from_bytes?|to_bytes|byte|unknown|is_unknown|is_whole)\(|"
    r"_be_bytes\(\[\*|\{ 1 \} else \{ 0 \}|Ok\(x\) => Ok\(x\)|Err\(_\) => Err\(|\(Some\(h\), Some\(l\)\)|"
    r"impl.* (PartialEq|Eq|PartialOrd|Ord|Clone|Copy|Hash|Default|Debug) for",
    "6 buffers with a length beside": r"^    (len|at|reserved): |Vec<u8>",
    "7 dispatch": r"=> v\.\w+\(|\bdyn\b|: fn\(",
}


def files():
    if COMMIT:
        names = subprocess.check_output(["git", "ls-tree", "-r", "--name-only", COMMIT], text=True).split()
    else:
        names = subprocess.check_output(["git", "ls-files", "-co", "--exclude-standard"], text=True).split()
    for name in sorted(set(names)):
        if re.fullmatch(r"crates/\w+/(src/.*\.rt|proofs/.*\.antt)", name) and not name.endswith("tests.rt"):
            if COMMIT:
                yield name, subprocess.check_output(["git", "show", f"{COMMIT}:{name}"], text=True)
            else:
                try:
                    yield name, open(name).read()
                except FileNotFoundError:
                    pass


def show(title, places):
    print(f"{len(places):4}  {title}")
    if VERBOSE:
        for place in places:
            print(f"      {place}")


def functions(text):
    """Each function of a file: its name, its parameters, its clauses, its body."""
    for m in re.finditer(r"^( *)(?:pub )?fn (\w+)(?:<[^(]*>)?\(([^)]*)\)", text, re.M):
        indent, rest = m.group(1), text[m.end():]
        start = re.search(rf"^{indent}\{{$|^[^\n]* \{{$|;$", rest, re.M)
        if not start:
            continue
        head, body = rest[: start.end()], ""
        if not start.group().endswith(";"):
            end = re.search(rf"^{indent}\}}$", rest[start.end():], re.M)
            body = rest[start.end(): start.end() + end.start()]
        clauses = re.findall(r"^\s*(?:requires|ensures) ?\w* \{(.*)\}", head, re.M)
        yield m.group(2), m.group(3), clauses, body


def shape(body):
    """A body with its types, numbers and texts left out."""
    body = re.sub(r"//.*", "", body)
    body = re.sub(r"\"[^\"]*\"|b?'[^']*'", "#", body)
    body = re.sub(r"\b[A-Z]\w*(::[A-Z]\w*)*|\b(u8|u32|u64|i32|i64|usize)\b|\b\d[\w_]*\b", "#", body)
    return re.sub(r"\s+", " ", body).strip()


read = list(files())
source = [(n, t) for n, t in read if "/src/" in n]
proofs = [(n, t) for n, t in read if "/proofs/" in n]

found = {}
for title, pattern in LINES.items():
    found[title] = [
        f"{n}:{i}: {line.strip()}"
        for n, t in source
        for i, line in enumerate(t.splitlines(), 1)
        if re.search(pattern, line) and not line.lstrip().startswith(("//", "#[", "ghost", "ensures", '"'))
    ]

shapes, pairs, terms = {}, {}, {}
for n, t in source:
    for name, params, clauses, body in functions(t):
        place = f"{n}: {name}"
        s = shape(body)
        if len(s) > 16:
            shapes.setdefault(s, []).append(place)
        names = [p.split(":")[0].strip().removeprefix("mut ") for p in params.split(",") if ":" in p]
        for pair in itertools.combinations(names, 2):
            pairs.setdefault(pair, []).append(place)
        for term in set(re.findall(r"\((?:[^()]|\([^()]*\))*\)", " ".join(clauses))):
            if " " in term and not re.fullmatch(r"\((R\.ahead|S\.store|V\.\S+|store|ahead) \w+\.(old|new|now)\)", term):
                terms.setdefault(term, []).append(place)

found["2 bodies that differ only in types and numbers"] = [
    ", ".join(places) for places in shapes.values() if len(places) > 1
]
found["5 parameters that travel together in three functions or more"] = [
    f"{a}, {b}: {len(p)}: " + ", ".join(p) for (a, b), p in pairs.items() if len(p) > 2
]
found["5 terms that stand in the contracts of three functions or more"] = [
    f"{term}: {len(set(p))}: " + ", ".join(sorted(set(p))) for term, p in terms.items() if len(set(p)) > 2
]
for title in sorted(found):
    show(title, found[title])
answers = [f"{n}: {a}" for n, t in proofs for a in re.findall(r"^pub (\S+) : goal\.", t, re.M)]
print(f"{len(answers):4}  8 answers in proofs/, with {sum(len(t.splitlines()) for _, t in proofs)} lines of proof")
