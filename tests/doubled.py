#!/usr/bin/env python3
"""Counts the definitions that stand word for word, under one name, in more than one file of specs/ and proofs/.

    doubled.py [--since COMMIT] [--rust] [--count] [--most N]

--since   only those of which one stands in a file that has changed since the commit
--rust    functions of src/ too
--count   only how many there are, and no list
--most    status 1 where there are more

Definitions of one line are left out, and functions of three. An import is no definition.
"""
import argparse
import collections
import glob
import os
import re
import subprocess
import sys

ROOT = os.path.dirname(os.path.dirname(os.path.abspath(__file__)))
SKIPPED = ("--", "use ", "pub use ", "pub mod ", "mod ")
HEADED = re.compile(r"(?:(?:abbrev|unfoldable|pub|data|record|opaque)\s+)*([^\s:({]+)")
FUNCTION = re.compile(r"^ *(?:pub )?fn (\w+)[\s\S]*?^( *)\}$", re.M)
LEAST_LINES = 2
LEAST_LINES_OF_A_FUNCTION = 4


def definitions(text):
    """The name and the lines of each definition of a file of specs/ or proofs/: its header and its clauses."""
    name, body = None, []
    for line in text.split("\n"):
        line = line.rstrip()
        if not line or line.startswith(SKIPPED):
            continue
        headed = None if line.startswith(" ") else HEADED.match(line)
        if line.startswith(" ") or (headed and headed.group(1) == name):
            body.append(line)
            continue
        yield name, body
        name, body = headed.group(1) if headed else line, [line]
    yield name, body


def functions(text):
    """The name and the lines of each function of a file of src/."""
    for found in FUNCTION.finditer(text):
        yield f"fn {found.group(1)}", [it.strip() for it in found.group(0).split("\n") if it.strip()]


def standing(pattern, parts, least):
    """Where each definition stands, by its name and its lines."""
    found = collections.defaultdict(set)
    for path in sorted(glob.glob(f"{ROOT}/crates/*/{pattern}", recursive=True)):
        with open(path, encoding="utf-8") as file:
            for name, body in parts(file.read()):
                if name and len(body) >= least:
                    found[name, "\n".join(body)].add(os.path.relpath(path, ROOT))
    return found


def main():
    parser = argparse.ArgumentParser(description=__doc__.splitlines()[0])
    parser.add_argument("--since")
    parser.add_argument("--rust", action="store_true")
    parser.add_argument("--count", action="store_true")
    parser.add_argument("--most", type=int)
    args = parser.parse_args()
    found = standing("specs/**/*.antt", definitions, LEAST_LINES)
    for (name, body), files in standing("proofs/**/*.antt", definitions, LEAST_LINES).items():
        found[name, body] |= files
    if args.rust:
        found.update(standing("src/**/*.rt", functions, LEAST_LINES_OF_A_FUNCTION))
    doubled = {it: files for it, files in found.items() if len(files) > 1}
    if args.since:
        command = ["git", "-C", ROOT, "diff", "--name-only", args.since]
        changed = set(subprocess.run(command, capture_output=True, text=True, check=True).stdout.split())
        doubled = {it: files for it, files in doubled.items() if files & changed}
    if not args.count:
        for (name, body), files in sorted(doubled.items(), key=lambda it: -len(it[1]) * len(it[0][1])):
            print(f"{name} ({len(body.splitlines())} lines): {' '.join(sorted(files))}")
    is_over = args.most is not None and len(doubled) > args.most
    print(f"doubled: {len(doubled)} definitions stand in more than one file" + (f", and {args.most} are allowed" if is_over else ""))
    return 1 if is_over else 0


if __name__ == "__main__":
    sys.exit(main())
