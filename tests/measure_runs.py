"""Measures whole runs, as docs/performance.md tells: of workloads that the program makes, and of the largest that the limits allow.

    measure_runs.py PROGRAM [--counts N..] [--programs N] [--runs N] [--only WORD] [--instructions]

For each of the counts (250, 500, 1000, 2000) it times `make --seed 1 --count N` piped into `run --brief`; and then `run --brief`
on workloads of 8 sites, 16 transactions at once at each, 1,024 items held everywhere, so many programs (2000) of 32 statements, and 64
stops and returns. There are two sorts of these. In the even ones each program reads and writes a block of 16 items, and the last site
stops and returns; so few of them conflict. In the random ones each statement is on an item drawn at random, and so are the sites that
stop and return, from a fixed seed; so many of them conflict, and controllers have to search.

Time is that of the wall clock, the median of so many runs (7); memory is that of `run`. With --instructions the instructions of one
run are counted, too, by valgrind, which takes fifty times as long and doesn't vary. --only measures those rows alone whose name has the
word. The table is printed as Markdown, with the number of ended transactions, further attempts among them, that the summary line tells.
"""
import argparse
import collections
import random
import statistics
import subprocess
import sys
import tempfile
import time

from measuring import instructions, peak_memory

SITES, TOGETHER, ITEMS, EVENTS, STATEMENTS, REGISTERS = 8, 16, 1024, 64, 32, 16
SEED = 1
KINDS = ("stamp", "valid", "graph", "lock")
METHODS = {"native": ("suffix", "convert"), "generic": ("suffix", "generic", "convert")}
# A large workload: whether its items and sites are drawn at random, the kind and the structure that it opens with, and how many
# switches and restarts it has.
Large = collections.namedtuple("Large", "sort kind structure switches restarts")
LARGE = (
    Large("even", "lock", "native", 4, 0),
    Large("even", "lock", "native", 4, 3),
    Large("even", "lock", "generic", 64, 0),
    Large("even", "lock", "generic", 64, 3),
    Large("random", "lock", "native", 4, 0),
    Large("random", "lock", "generic", 64, 0),
    Large("random", "lock", "generic", 64, 3),
    Large("random", "graph", "native", 0, 3),
)


def triggers(count, programs):
    """So many triggers, spread evenly over the programs."""
    return [max(1, (k + 1) * programs // (count + 1)) for k in range(count)]


def switches(structure, count, programs):
    methods = METHODS[structure]
    return [f"switch {KINDS[k % len(KINDS)]} by {methods[k % len(methods)]} after {trigger}"
            for k, trigger in enumerate(triggers(count, programs))]


def even_events(programs):
    """The last site stops and returns, by turns; with each return the copies that have missed writes are renewed there."""
    return [f"{('stop', 'return')[k % 2]} {SITES} after {trigger}" for k, trigger in enumerate(triggers(EVENTS, programs))]


def even_program(k):
    """Reads sixteen items and writes each of them. Every 64th program has the same ones, so two of the 128 that run at once."""
    items = [(16 * k + r) % ITEMS for r in range(16)]
    return [f"program {1 + k % SITES}", *(f"read i{x:04d} r{r}" for r, x in enumerate(items)),
            *(f"write i{x:04d} r{r} + 1" for r, x in enumerate(items)), "end"]


class Draws:
    """Programs and events drawn at random. Only `random()` is asked of the generator, which gives the same with each version of Python."""

    def __init__(self):
        self.generator = random.Random(SEED)

    def below(self, count):
        return int(self.generator.random() * count)

    def events(self, programs):
        """A stopped site returns, or any site does the one or the other."""
        stopped, lines = [], []
        for trigger in triggers(EVENTS, programs):
            site = stopped[self.below(len(stopped))] if stopped and self.below(2) else 1 + self.below(SITES)
            lines.append(f"{'return' if site in stopped else 'stop'} {site} after {trigger}")
            stopped = [it for it in stopped if it != site] + [site] * (site not in stopped)
        return lines

    def statement(self):
        item, register = f"i{self.below(ITEMS):04d}", f"r{self.below(REGISTERS)}"
        return f"write {item} {register} + 1" if self.below(2) else f"read {item} {register}"

    def program(self, k):
        return [f"program {1 + k % SITES}", *(self.statement() for _ in range(STATEMENTS)), "end"]


def large(what, programs):
    """A workload as large as the limits allow, but for the number of its programs."""
    holders = " ".join(str(site) for site in range(1, SITES + 1))
    lines = [f"workload {2 if what.restarts else 1}", f"sites {SITES} together {TOGETHER}"]
    lines += [f"restarts {what.restarts}"] if what.restarts else []
    lines += [f"item i{x:04d} 1000 at {holders}" for x in range(ITEMS)]
    draws = Draws()
    events, program = (even_events, even_program) if what.sort == "even" else (draws.events, draws.program)
    lines += [f"open {what.kind} {what.structure}", *switches(what.structure, what.switches, programs), *events(programs)]
    for k in range(programs):
        lines += program(k)
    return ("\n".join(lines) + "\ndone\n").encode()


def checked(status, said):
    """How many transactions have ended, as the summary line says."""
    words = said.split()
    if status != 0 or words[:1] != [b"transactions"]:
        sys.exit(f"measure_runs: status {status}, {said!r}")
    return f"{int(words[3]):,}"


def timed_pipe(maker, runner):
    """Seconds of a command piped into another, and what that one says."""
    start = time.perf_counter()
    making = subprocess.Popen(maker, stdout=subprocess.PIPE)
    running = subprocess.Popen(runner, stdin=making.stdout, stdout=subprocess.PIPE)
    making.stdout.close()
    said, _ = running.communicate()
    made = making.wait()
    taken = time.perf_counter() - start
    return taken, checked(made or running.returncode, said)


def timed(command, text):
    """Seconds of a command with this text in a file as its input, and what it says."""
    with tempfile.TemporaryFile() as given:
        given.write(text)
        given.seek(0)
        start = time.perf_counter()
        done = subprocess.run(command, stdin=given, stdout=subprocess.PIPE, check=False)
        taken = time.perf_counter() - start
    return taken, checked(done.returncode, done.stdout)


def row(name, text, command, runs, counts):
    """A line of the table: the median of runs, each of which is seconds with what was said."""
    seconds, said = zip(*runs)
    counted = [instructions(command, text)] if counts else []
    cells = [name, f"{len(text):,}", f"{statistics.median(seconds) * 1000:,.0f} ms", peak_memory(command, text), *counted, said[0]]
    print("| " + " | ".join(cells) + " |", flush=True)


def main():
    parser = argparse.ArgumentParser(description=__doc__.splitlines()[0])
    parser.add_argument("program")
    parser.add_argument("--counts", type=int, nargs="*", default=[250, 500, 1000, 2000])
    parser.add_argument("--programs", type=int, default=2000)
    parser.add_argument("--runs", type=int, default=7)
    parser.add_argument("--only", default="")
    parser.add_argument("--instructions", action="store_true")
    args = parser.parse_args()
    run = [args.program, "run", "--brief"]
    heads = ["workload", "bytes of the text", "time", "memory at most", *["instructions"] * args.instructions, "transactions ended"]
    print("| " + " | ".join(heads) + " |\n" + "|---" * len(heads) + "|")
    for count in args.counts:
        name = f"made, {count:,} programs"
        if args.only in name:
            make = [args.program, "make", "--seed", "1", "--count", str(count)]
            text = subprocess.run(make, stdout=subprocess.PIPE, check=True).stdout
            row(name, text, run, [timed_pipe(make, run) for _ in range(args.runs)], args.instructions)
    for what in LARGE:
        name = f"{what.sort}, {args.programs:,} programs, {what.kind} {what.structure}, {what.switches} switches, {what.restarts} restarts"
        if args.only in name:
            text = large(what, args.programs)
            row(name, text, run, [timed(run, text) for _ in range(args.runs)], args.instructions)


if __name__ == "__main__":
    main()
