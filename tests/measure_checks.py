"""Measures `check` beside `run`, as docs/performance.md tells: each report is judged that the program writes for the workload.

    measure_checks.py PROGRAM [--counts N..] [--programs N] [--runs N] [--only WORD] [--instructions]

The workloads are those of measure_runs.py: made ones, and of the large ones those that begin again after an abort. The two commands are timed
in turn, so many times each (7); time is the median of the wall clock, memory the most that a command takes. With --instructions the instructions
of each are counted as well. The last two rows are of inputs that say little and are long: a history of one line again and again, and vectors of
the largest numbers; these are judged alone.
"""
import argparse
import statistics
import subprocess
import sys
import tempfile
import time

from measure_runs import LARGE, large
from measuring import instructions, peak_memory

LONGEST = 16_777_216


def timed(command, text):
    """Seconds of a command with this text in a file as its input, and what it writes."""
    with tempfile.TemporaryFile() as given:
        given.write(text)
        given.seek(0)
        start = time.perf_counter()
        done = subprocess.run(command, stdin=given, stdout=subprocess.PIPE, check=False)
        return time.perf_counter() - start, done.stdout


def measured(command, text, seconds, counts):
    cells = [f"{statistics.median(seconds) * 1000:,.0f} ms", peak_memory(command, text)] if len(seconds) else ["-", "-"]
    return cells + ([instructions(command, text)] if counts else [])


def row(name, args, workload):
    """A line of the table: running the workload, and judging its report."""
    run, check = [args.program, "run"], [args.program, "check"]
    _, report = timed(run, workload)
    both = workload + report
    runs, checks = [], []
    for _ in range(args.runs):
        runs.append(timed(run, workload)[0])
        seconds, said = timed(check, both)
        checks.append(seconds)
        if said != b"sound\n":
            sys.exit(f"measure_checks: {name}: {said!r}")
    cells = [name, f"{len(both):,}", *measured(run, workload, runs, args.instructions), *measured(check, both, checks, args.instructions), "sound"]
    print("| " + " | ".join(cells) + " |", flush=True)


def judged_alone(name, args, both):
    check = [args.program, "check"]
    taken = [timed(check, both) for _ in range(args.runs)]
    cells = [name, f"{len(both):,}", *["-"] * (3 if args.instructions else 2), *measured(check, both, [it for it, _ in taken], args.instructions), taken[0][1].decode().strip()]
    print("| " + " | ".join(cells) + " |", flush=True)


def filled(head, line):
    """A head, and as many numbered lines as there is room for."""
    parts, size, number = [head], len(head), 1
    while size + len(text := b"%d %s\n" % (number, line)) < LONGEST - 1000:
        parts.append(text)
        size, number = size + len(text), number + 1
    return b"".join(parts)


def main():
    parser = argparse.ArgumentParser(description=__doc__.splitlines()[0])
    parser.add_argument("program")
    parser.add_argument("--counts", type=int, nargs="*", default=[250, 500, 1000, 2000])
    parser.add_argument("--programs", type=int, default=2000)
    parser.add_argument("--runs", type=int, default=7)
    parser.add_argument("--only", default="")
    parser.add_argument("--instructions", action="store_true")
    args = parser.parse_args()
    each = ["time", "memory at most", *["instructions"] * args.instructions]
    heads = ["workload", "bytes with the report", *(f"run: {it}" for it in each), *(f"check: {it}" for it in each), "found"]
    print("| " + " | ".join(heads) + " |\n" + "|---" * len(heads) + "|")
    for count in args.counts:
        name = f"made, {count:,} programs"
        if args.only in name:
            row(name, args, subprocess.run([args.program, "make", "--seed", "1", "--count", str(count)], stdout=subprocess.PIPE, check=True).stdout)
    for what in LARGE:
        name = f"{what.sort}, {args.programs:,} programs, {what.kind} {what.structure}, {what.switches} switches, {what.restarts} restarts"
        if args.only in name and what.restarts:
            row(name, args, large(what, args.programs))
    small = b"workload 1\nsites 8 together 1\nitem a 0 at 1\nopen lock native\nprogram 1\nend\ndone\nreport 1\n"
    tail = b"order -\nfinal a 0\ncopy s1 a 0 0\ndone\n"
    for name, line in (("one line again and again", b"begin t1 at s1"),
                       ("vectors of the largest numbers", b"commit t1 reads - writes - under " + b",".join([b"4294967295"] * 8) + b" applied -")):
        if args.only in name:
            judged_alone(name, args, filled(small, line) + tail)


if __name__ == "__main__":
    main()
