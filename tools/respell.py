#!/usr/bin/env python3
"""Spells this repository's own definitions and lemmas as today's Rattle does. Run once, right after port.py, at the top of the checkout.

Words are in snake case and types in camel case. Names of src/ stay, and so do the names that Rattle makes of the code: the goals that
a function's Answers and Invariants are about, and the labels behind c. and goal. there. The spelling itself is done by the kit's own snake.py.
"""

import os
import re
import subprocess
import sys
import tempfile

SNAKE = "/opt/rattle/port/notes/2026-11-18-names-are-in-snake-case/snake.py"
QUIET = re.compile(r'"(?:[^"\\\n]|\\.)*"|(?<![^\s(){}.;,@"«»])--[^\n]*|\{-.*?-\}', re.S)
DECLARED = re.compile(
    r"(?m)^\s*(?:(?:pub|abbrev|unfoldable|record|data|let)\s+)*([^\s(){}.;,:]+)(?: \([^\n]*\))*(?: \{[^\n]*\})* : (\S*)"
)
IMPORTED = re.compile(r"\buse (Rattle\.(?:std|core)|mathlib|lib|native|Prim)[^\s{;]*\{([^}]*)\}")
# Names that share a line of declaration, and names of arguments and of local facts, which are bound without a type of their own.
LOCAL = "in-A in-B in-C in-D all-x all-y at-share fits-block fits-circuit fits-pair is-next is-sample made-is word-is is_Block".split()
# A name that would fall together with one of the library.
SPECIAL = {"bit-xor": "bit_of_xor"}
# The heads behind which Rattle's own labels stand.
HEADS = "goal,c,w,l,g"


def files():
    for folder, folders, names in os.walk("crates"):
        folders[:] = sorted(it for it in folders if it != "out")
        yield from (os.path.join(folder, it) for it in sorted(names) if it.endswith((".antt", ".rt")))


def is_about_a_function(path):
    return re.search(r"/proofs/.*/(Answers|Invariants)\.antt$", path)


def spelled(name):
    """The new spelling of a name: a type's parts are joined by capitals, a word's by underscores."""
    if name in SPECIAL:
        return SPECIAL[name]
    name = name.replace("′", "'")
    if name[0].isupper():
        return "".join(it[0].upper() + it[1:] for it in name.split("-"))
    name = re.sub(r"(?<=[a-z0-9])[A-Z]", lambda m: "_" + m[0], name)
    return name.replace("-", "_").lower()


def own_names():
    """The names that this repository declares, but for the goals that it answers and the names that a library has too."""
    own, made, libraries = set(LOCAL), set(), set()
    for path in files():
        with open(path, encoding="utf-8") as f:
            text = QUIET.sub(" ", f.read())
        for _, names in IMPORTED.findall(text):
            libraries.update(it.strip().split(" as ")[0] for it in names.split(","))
        if not path.endswith(".antt"):
            continue
        for name, kind in DECLARED.findall(text):
            is_goal = is_about_a_function(path) and (kind.startswith("goal.") or path.endswith("Invariants.antt"))
            (made if is_goal else own).add(name)
    return {it for it in own - libraries if spelled(it) != it}, made


def main():
    own, made = own_names()
    table = sorted((it, spelled(it)) for it in own)
    with tempfile.NamedTemporaryFile("w", suffix=".tsv", delete=False, encoding="utf-8") as f:
        f.writelines(f"{old}\t{new}\n" for old, new in table)
    paths = list(files())
    proofs = [it for it in paths if is_about_a_function(it)]
    others = [it for it in paths if not is_about_a_function(it)]
    for words, those in ([["--skip-behind", HEADS], proofs], [[], others]):
        subprocess.run([sys.executable, SNAKE, "--table", f.name, *words, *those], check=True)
    os.unlink(f.name)
    print(f"{len(table)} names; of those also made by Rattle: {', '.join(sorted(own & made)) or 'none'}")


if __name__ == "__main__":
    main()
