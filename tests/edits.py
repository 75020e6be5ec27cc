#!/usr/bin/env python3
"""Looks at the must-fail edits without trying them: whether each can be applied, and of what sort it is.

    edits.py

An edit is a wrong body, which the check has to refuse. Some turn a definition or a clause of a law instead, which shows that the law isn't
empty in that place; their names begin with `definition-` and `clause-`. `rt ci` tries the edits, and passes one that can't be applied, so
that is looked at here: each text after `old: ` has to stand once in its file, changed by the pairs before it. Status 1 where one doesn't.
"""
import collections
import glob
import os
import sys

ROOT = os.path.dirname(os.path.dirname(os.path.abspath(__file__)))
OF_DEFINITIONS, OF_CLAUSES = "definition-", "clause-"


def read(path):
    with open(path, encoding="utf-8") as file:
        return file.read()


def wrong(path):
    """Why an edit can't be applied, or isn't named as what it is; None where it can be."""
    folder, name = os.path.dirname(os.path.dirname(path)), os.path.basename(path)
    texts, file, old = {}, None, None
    for line in read(path).split("\n"):
        word, _, rest = line.partition(": ")
        if word == "file":
            file = rest
            if not os.path.exists(f"{folder}/{file}"):
                return f"there is no {file}"
            texts.setdefault(file, read(f"{folder}/{file}"))
        elif word == "old":
            old = rest
        elif line.startswith("new:"):
            if texts[file].count(old) != 1:
                return f"{file} has `{old}` {texts[file].count(old)} times"
            texts[file] = texts[file].replace(old, rest)
    is_of_definitions = any(it.startswith("specs/") for it in texts)
    return None if is_of_definitions == name.startswith(OF_DEFINITIONS) else f"its name and `{OF_DEFINITIONS}` don't go together"


def main():
    edits = sorted(glob.glob(f"{ROOT}/crates/*/must-fail/*.edit"))
    faults = [(path, why) for path in edits for why in [wrong(path)] if why]
    for path, why in faults:
        print(f"edits: {os.path.relpath(path, ROOT)}: {why}")
    names = [os.path.basename(it) for it in edits]
    definitions, clauses = (sum(it.startswith(begin) for it in names) for begin in (OF_DEFINITIONS, OF_CLAUSES))
    most = max(collections.Counter(map(os.path.dirname, edits)).values(), default=0)
    print(f"edits: {len(edits) - definitions - clauses} wrong bodies, {definitions} of definitions, {clauses} of clauses, at most {most} in a crate; "
          f"{len(faults)} can't be applied or aren't named as what they are")
    return 1 if faults else 0


if __name__ == "__main__":
    sys.exit(main())
