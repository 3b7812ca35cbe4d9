#!/usr/bin/env python3
"""Respells the repository's own definitions and lemmas: words in snake case, facts and types in camel case.

usage: python3 tools/respell.py [--list]      at the top of the repository, once, after the toolchain's own port script

An own name is one that is declared in a file of specs/ or proofs/, other than the goals that the check makes for a
function, or that is bound there (a variable). Its dashes become underscores; a fact's name, which begins with a
capital, loses them and gets capitals instead. In a .rt file and in a must-fail edit only clauses have such names.
Strings and comments keep their text, but for names between backquotes. --list prints old and new, and writes nothing.
"""
import os
import re
import sys

PART = r"[A-Za-z0-9_'ℕ₀₁₂₃]+"
NAME = re.compile(rf"(?<![\w'\-ℕ₀₁₂₃]){PART}(?:-{PART})+(?![\w'\-ℕ₀₁₂₃+*])")
# what the check makes for a function: goals, and what is in scope of them
MADE = re.compile(
    r"^(returns|loop|decreases|invariant|overflow|in|if|then|else|bounds|deref|as|from-residual|type|field|saturating)-"
    r"|-(requires|ensures|end|items|index|iterator|preserved|init|test|smaller)(-|$)|^is-\d|-\d+$"
)
# fields of records of ours that look like names of the check
FIELDS = {"loop-length"}


def texts(root):
    for folder, dirs, files in os.walk(os.path.join(root, "crates")):
        dirs[:] = sorted(d for d in dirs if d != "out")
        for f in sorted(files):
            if f.endswith((".rt", ".antt", ".edit")):
                yield os.path.join(folder, f)


def is_function_proof(path):
    """A file of the proof of one function, where the check's own names stand beside ours."""
    return os.path.basename(path) in ("Answers.antt", "Invariants.antt", "Proof.antt")


def split(text, path):
    """The text as pieces: (True, code) or (False, comment or string)."""
    comment = "--" if path.endswith(".antt") else "//"
    found = re.compile(r'"(?:\\.|[^"\\])*"|(?:(?<=\s)|^)' + comment + r"[^\n]*", re.M)
    at = 0
    for m in found.finditer(text):
        yield True, text[at : m.start()]
        yield False, m.group()
        at = m.end()
    yield True, text[at:]


def code(text, path):
    return "".join(t if c else " " for c, t in split(text, path))


def declared(text):
    """The names that a file of specs/ or proofs/ declares: with a type, as a record's field, as a constructor."""
    names = set()
    for m in re.finditer(rf"^[ \t]*(?:abbrev |unfoldable |opaque |pub |record |data )*({PART}(?:-{PART})*)[ \t]*(?=[:({{])", text, re.M):
        names.add(m.group(1))
    # variables: bound by let, or a parameter of a module
    for m in re.finditer(rf"\blet ({PART}(?:-{PART})+)(?= [:=])|\(({PART}(?:-{PART})+) : ", text):
        names.add(m.group(1) or m.group(2))
    return names


def imported(text, own):
    """The names that a file takes from this repository's crates, or from elsewhere."""
    names = set()
    for m in re.finditer(r"use ([\w.ℕ]+)\.\{([^}]*)\}", text):
        if bool(OWN.match(m.group(1))) == own:
            for it in m.group(2).split(","):
                names.add(it.split(" as ")[-1].strip())
    return names


# a fact whose name began small, and a lemma on the library's function, which has another name today
OTHER = {"any-keeps": "AnyKeeps", "getD-pairs": "get_or_pairs"}


def spelled(name):
    if name in OTHER:
        return OTHER[name]
    if name[0].isupper():
        return "".join(p[:1].upper() + p[1:] for p in name.split("-"))
    return name.replace("-", "_")


def main(argv):
    global OWN
    root = "."
    crates = [c for c in os.listdir("crates") if os.path.isdir(os.path.join("crates", c, "src"))]
    OWN = re.compile(r"Rattle\.(" + "|".join(map(re.escape, crates)) + r")\.")
    read = {p: open(p, encoding="utf-8").read() for p in texts(root)}
    own = set()
    for p, t in read.items():
        if p.endswith(".antt") and not is_function_proof(p):
            own |= {n for n in declared(code(t, p)) if NAME.fullmatch(n)}
    for p, t in read.items():
        if p.endswith(".antt") and is_function_proof(p):
            own |= {n for n in declared(code(t, p)) if NAME.fullmatch(n) and not MADE.search(n)}
    if "--list" in argv:
        for n in sorted(own):
            print(n, spelled(n))
        return 0
    changed = 0
    for p, t in read.items():
        keep = imported(code(t, p), False)
        ours = imported(code(t, p), True) | FIELDS
        goals = is_function_proof(p)

        def turn(m):
            n = m.group()
            if n in keep or n not in own:
                return n
            if goals and MADE.search(n) and n not in ours:
                return n
            return spelled(n)

        out = "".join(NAME.sub(turn, s) if c else re.sub(r"`([^`\n]*)`", lambda q: "`" + NAME.sub(turn, q.group(1)) + "`", s) if not s.startswith('"') else s for c, s in split(t, p))
        if out != t:
            with open(p, "w", encoding="utf-8") as f:
                f.write(out)
            changed += 1
    print(f"{len(own)} names, {changed} files")
    return 0


if __name__ == "__main__":
    sys.exit(main(sys.argv[1:]))
