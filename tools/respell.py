#!/usr/bin/env python3
"""Respells the repository's own definitions and lemmas: words in snake case, types in camel case, no dashes.

usage: python3 tools/respell.py [ROOT]      once, after the toolchain's own script for older repositories

A name is the repository's own where a file of specs/ or a lemma file of proofs/ uses it with a dash and no import takes it from a
library. In the answer files of a function, names that the checker makes (goals, steps) keep their dashes.
"""

import os
import re
import sys

ROOT = sys.argv[1] if len(sys.argv) > 1 else "."
OWN_CRATES = [line.split(":")[0].split()[0] for line in open(os.path.join(ROOT, "crates.txt"), encoding="utf-8") if line.strip() and not line.startswith("#")]
NAME = r"[^\W\d_][\w'-]*-[\w'-]*[\w']"
TOKEN = re.compile(r"(?<![\w'◌+*≤<∸^/%=&|-])" + NAME + r"(?![\w'◌+*≤<∸^/%=&|-])")
IMPORT = re.compile(r"use\s+([\w.+'-]+)\.\{([^}]*)\}")
# names that the checker makes, and library names that stand under a path of their own
MADE = re.compile(r"^(returns|loop|invariant|decreases|if|then|else|in|overflow|bounds|slice|offset|nonzero|field|call|the)-.*")


def texts():
    for folder, dirs, files in os.walk(os.path.join(ROOT, "crates")):
        dirs[:] = sorted(d for d in dirs if d != "out")
        for name in sorted(files):
            if name.endswith((".rt", ".antt")):
                yield os.path.join(folder, name)


def code(text, path):
    if path.endswith(".antt"):
        return re.sub(r"--(?=[ \n]).*", "", text)
    return text


def is_answer(path):
    return re.search(r"/proofs/.+/[^/]+$", path) is not None


def is_ghost_file(path):
    return path.endswith(".antt") and not is_answer(path)


def library_names():
    found = set()
    for path in texts():
        for where, names in IMPORT.findall(open(path, encoding="utf-8").read()):
            parts = where.split(".")
            own = parts[0] == "Rattle" and len(parts) > 1 and parts[1] in OWN_CRATES
            if own:
                continue
            for name in names.split(","):
                found.add(name.strip().split(" ")[0])
    return found


def own_names(library):
    found = set()
    for path in texts():
        text = code(open(path, encoding="utf-8").read(), path)
        if is_ghost_file(path):
            found.update(TOKEN.findall(text))
        elif is_answer(path):
            # a lemma of the file's own: its type is no goal
            for name, kind in re.findall(r"^\s*(?:pub |abbrev )*(" + NAME + r")(?: [({][^:]*)? : (\S+)", text, re.M):
                if not re.match(r"(goal|need|needs|g|goals)\.", kind) and not MADE.match(name):
                    found.add(name)
    return {n for n in found if n not in library}


def spelled(name):
    if name[0].isupper():
        return "".join(part[:1].upper() + part[1:] for part in name.split("-"))
    return name.replace("-", "_")


def main():
    library = library_names()
    own = own_names(library)
    turned = {n: spelled(n) for n in own}
    # names that fall together
    there = set()
    for path in texts():
        if path.endswith(".antt"):
            there.update(re.findall(r"[^\W\d][\w']*", code(open(path, encoding="utf-8").read(), path)))
    for old, new in sorted(turned.items()):
        if new in there:
            print(f"falls together with a name that stands: {old} -> {new}")
    by_new = {}
    for old, new in turned.items():
        by_new.setdefault(new, []).append(old)
    for new, olds in sorted(by_new.items()):
        if len(olds) > 1:
            print(f"fall together: {olds} -> {new}")
    changed = 0
    for path in texts():
        text = open(path, encoding="utf-8").read()

        def turn(match):
            name = match.group(0)
            if name not in turned:
                return name
            if is_answer(path) and MADE.match(name) and not imported(text, name):
                return name
            return turned[name]

        new = TOKEN.sub(turn, text)
        if new != text:
            changed += 1
            with open(path, "w", encoding="utf-8") as f:
                f.write(new)
    print(f"{len(turned)} names, {changed} files")


def imported(text, name):
    return any(name in [n.strip().split(" ")[0] for n in names.split(",")] for where, names in IMPORT.findall(text) if ".Goals" not in where and ".Given" not in where)


main()
