"""Measures runs on threads beside runs in the fixed order, as docs/performance.md tells.

    measure_threads.py PROGRAM FIXED [--counts N..] [--programs N] [--runs N] [--only WORD] [--busy N]

PROGRAM is `raid`, FIXED the program `raid_world_table`, whose command `fixed` runs all servers on one thread. The workloads are those of
measure_runs.py. Both are timed in turn on one text, so many times each (15); time is the median of the wall clock, and the last column is how
often the time of the fixed order goes into that on threads. With --busy so many processes besides do nothing but count.
"""
import argparse
import contextlib
import statistics
import subprocess
import sys
import tempfile
import time

from measure_runs import LARGE, large


def timed(command, text):
    """Seconds of a command with this text in a file as its input; its report is read to the end."""
    with tempfile.TemporaryFile() as given:
        given.write(text)
        given.seek(0)
        start = time.perf_counter()
        done = subprocess.run(command, stdin=given, stdout=subprocess.PIPE, check=False)
        taken = time.perf_counter() - start
    if done.returncode != 0 or not done.stdout.startswith(b"report "):
        sys.exit(f"measure_threads: {command}: status {done.returncode}, {done.stdout[:100]!r}")
    return taken


def row(name, text, args):
    """A line of the table: the two times, the longest run on threads, and the ratio of the two."""
    threads, fixed = [], []
    for _ in range(args.runs):
        threads.append(timed([args.program, "run"], text))
        fixed.append(timed([args.fixed, "fixed"], text))
    one, all_of_them = statistics.median(fixed), statistics.median(threads)
    cells = [name, f"{one * 1000:.1f} ms", f"{all_of_them * 1000:.1f} ms", f"{max(threads) * 1000:.1f} ms", f"{all_of_them / one:.2f}"]
    print("| " + " | ".join(cells) + " |", flush=True)


@contextlib.contextmanager
def busy(count):
    """So many processes that keep a processor busy each."""
    others = [subprocess.Popen([sys.executable, "-c", "while True: pass"]) for _ in range(count)]
    try:
        yield
    finally:
        for it in others:
            it.kill()
            it.wait()


def main():
    parser = argparse.ArgumentParser(description=__doc__.splitlines()[0])
    parser.add_argument("program")
    parser.add_argument("fixed")
    parser.add_argument("--counts", type=int, nargs="*", default=[250, 500, 1000, 2000])
    parser.add_argument("--programs", type=int, default=2000)
    parser.add_argument("--runs", type=int, default=15)
    parser.add_argument("--only", default="")
    parser.add_argument("--busy", type=int, default=0)
    args = parser.parse_args()
    heads = ["workload", "fixed order", "threads", "longest on threads", "threads / fixed"]
    print("| " + " | ".join(heads) + " |\n" + "|---" * len(heads) + "|")
    with busy(args.busy):
        for count in args.counts:
            name = f"made, {count:,} programs"
            if args.only in name:
                row(name, subprocess.run([args.program, "make", "--seed", "1", "--count", str(count)], stdout=subprocess.PIPE, check=True).stdout, args)
        for what in LARGE:
            name = f"{what.sort}, {args.programs:,} programs, {what.kind} {what.structure}, {what.switches} switches, {what.restarts} restarts"
            if args.only in name:
                row(name, large(what, args.programs), args)


if __name__ == "__main__":
    main()
