"""Asks for advice on reports, some of which were changed, as the reference model does.

    advise.py COUNT SEED --program RAID
    advise.py COUNT SEED --cases FOLDER

COUNT reports are advised on, each with a drawn `--last`: those of runs whose letters are taken in a random order, and behind every third of these the
same changed in one place. The program RAID gets them one at a time, and its status and line are compared with the model's. Or the cases are put into
FOLDER, as `rt try --cases` reads them: NAME, NAME.args and NAME.stdout.
"""
import argparse
import collections
import concurrent.futures
import os
import random
import sys

import model  # noqa: F401
import fuzz
import oracle
import raid_text
from judged import changed, ran
from program import run
from raid_report import print_report

# How many programs run at once.
AT_ONCE = 4

# One report in so many is advised on a second time, changed.
CHANGED = 3


def busy(rng):
    """A random workload, mostly one whose transactions meet often: many at once, on few items."""
    w = fuzz.random_workload(rng)
    while rng.random() < 0.7 and (w.together < 2 or len(w.programs) < 4):
        w = fuzz.random_workload(rng)
    return w


def drawn_last(rng):
    """How many ends to look at: few, some, or more than there are."""
    return rng.choice((1, 2, 3, rng.randint(1, 12), rng.randint(1, 2000), 2000))


def spelled(rng, last):
    """The words that ask for it, in one of their spellings."""
    digits = str(last).zfill(rng.choice((1, 1, 4, 9)))
    return ["advise", f"--last={digits}"] if rng.random() < 0.5 else ["advise", "--last", digits]


def made(k, seed):
    """The k-th cases: words, an input, and the model's status and output."""
    rng = random.Random(f"advise {seed} {k}")
    w = busy(rng)
    report = ran(w, rng)
    texts = [print_report(w, report)] + ([changed(w, rng, report)] if k % CHANGED == 0 else [])
    for text in texts:
        last, given = drawn_last(rng), raid_text.print_workload(w) + text
        status, wanted = oracle.judged("advise", given, last)
        yield spelled(rng, last), given, status, wanted.encode()


def cases(count, seed):
    k, found = 0, []
    while len(found) < count:
        found += made(k, seed)
        k += 1
    return found[:count]


def told(cases):
    """What kinds of answers there are, each with how many."""
    counts = collections.Counter(" ".join(wanted.decode().split()[:2]) for _, _, _, wanted in cases)
    return ", ".join(f"{n} {kind}" for kind, n in sorted(counts.items()))


def write(folder, cases):
    for k, (words, given, _, wanted) in enumerate(cases):
        for end, text in (("", given), (".args", "\n".join(words).encode() + b"\n"), (".stdout", wanted)):
            with open(os.path.join(folder, f"{k:06}{end}"), "wb") as file:
                file.write(text)
    print(f"advise: {len(cases)} reports: {told(cases)}")


def compare(program, cases):
    with concurrent.futures.ThreadPoolExecutor(AT_ONCE) as pool:
        answers = pool.map(lambda case: run([program, *case[0]], case[1]), cases)
        for (words, given, status, wanted), answer in zip(cases, answers):
            if answer != (status, wanted):
                print(f"advise: {' '.join(words)}: {given!r}\n  the program: {answer!r}\n  the model: {status}, {wanted!r}")
                return 1
    print(f"advise: {len(cases)} reports advised on as the model does: {told(cases)}")
    return 0


def main():
    parser = argparse.ArgumentParser(description=__doc__.splitlines()[0])
    parser.add_argument("count", type=int)
    parser.add_argument("seed")
    parser.add_argument("--program")
    parser.add_argument("--cases")
    args = parser.parse_args()
    found = cases(args.count, args.seed)
    if args.cases:
        return write(args.cases, found)
    return compare(args.program, found)


if __name__ == "__main__":
    sys.exit(main())
