"""What the scripts that write random cases for a program have in common: their command line, and how they go on drawing."""
import argparse
import random


def write_cases(about, cases, count, lines_of):
    """Writes as many cases as the command line asks for, by default `count`.

    `lines_of(k, rng)` draws the lines of the k-th case, k counting from 1, or None where what was drawn won't do: then it
    draws again. `about` is the script's description, and `cases` the word for what it writes.
    """
    parser = argparse.ArgumentParser(description=about.splitlines()[0])
    parser.add_argument(f"--{cases}", type=int, default=count, dest="count")
    parser.add_argument("--seed", type=int, default=1)
    args = parser.parse_args()
    rng = random.Random(args.seed)
    for k in range(1, args.count + 1):
        lines = None
        while lines is None:
            lines = lines_of(k, rng)
        print("\n".join(lines))
