#!/usr/bin/env python3
"""Lists the dependencies of crates.txt that no file of their crate names.

    unnamed.py [--count] [--most N]

--count   only how many there are, and no list
--most    status 1 where there are more

A crate needs a library that it doesn't name where a library between them hands out its words without a `pub use` of them.
"""
import argparse
import glob
import re
import sys
from pathlib import Path

ROOT = Path(__file__).resolve().parent.parent


def dependencies():
    """What each crate of crates.txt stands on."""
    for line in (ROOT / "crates.txt").read_text(encoding="utf-8").split("\n"):
        name, colon, rest = line.split("#")[0].partition(":")
        if colon:
            yield name.split()[0], rest.split()


def unnamed(crate, needs):
    """Those of the dependencies that no file of the crate names."""
    files = [it for ending in ("rt", "antt") for part in ("src", "specs", "proofs")
             for it in glob.glob(f"{ROOT}/crates/{crate}/{part}/**/*.{ending}", recursive=True)]
    words = set(re.findall(r"\w+", "\n".join(Path(it).read_text(encoding="utf-8") for it in files)))
    return [it for it in needs if it not in words]


def main():
    parser = argparse.ArgumentParser(description=__doc__.splitlines()[0])
    parser.add_argument("--count", action="store_true")
    parser.add_argument("--most", type=int)
    args = parser.parse_args()
    found = {crate: (unnamed(crate, needs), needs) for crate, needs in dependencies()}
    count, whole = sum(len(it) for it, _ in found.values()), sum(len(needs) for _, needs in found.values())
    for crate, (lacking, needs) in found.items():
        if lacking and not args.count:
            print(f"{crate}: {len(lacking)} of {len(needs)}: {' '.join(lacking)}")
    print(f"unnamed: {count} of the {whole} dependencies of crates.txt are named in no file of their crate")
    return 1 if args.most is not None and count > args.most else 0


if __name__ == "__main__":
    sys.exit(main())
