#!/usr/bin/env python3
"""Tells where a gate's time goes: processor and wall time of each crate's proof, tests and must-fail edits, and its longest chain.

    gate_time.py watch LOG -- rt ci     runs the command and notes each check that it starts, a line each, as it ends
    gate_time.py watch LOG --pid N      the same of a command that runs already, from now on
    gate_time.py table LOG [--most N]   prints the table, the totals and the longest chain of crates; at most so many rows

The log of `rt ci` has no times, so the checks are watched: every half second this looks at the processes below the command.
A line of the log is: crate, proof, tests or edits, seconds since the start when it was first seen and when it had ended, seconds of
processor time, and the most memory of one of its processes in MB. What takes less than half a second is missed.
Linux alone, since it reads /proc.
"""
import argparse
import collections
import os
import subprocess
import sys
import time

HERE = os.path.dirname(os.path.abspath(__file__))
CRATES = os.path.join(HERE, "..", "crates.txt")
EVERY = 0.5
TICKS = os.sysconf("SC_CLK_TCK")
KINDS = ("proof", "tests", "edits")
# The folder in which `rt` tries an edit of a crate.
EDIT_FOLDER = "/rt-edit-"

Process = collections.namedtuple("Process", "parent started seconds")
Check = collections.namedtuple("Check", "crate kind first last seconds memory")


def read(path):
    """The bytes of a file of /proc, none where its process has ended."""
    try:
        with open(path, "rb") as file:
            return file.read()
    except OSError:
        return b""


def processes():
    """Each process: its parent, when it was started, and the processor time of it and of the children that it has waited for."""
    found = {}
    for name in os.listdir("/proc"):
        if name.isdigit():
            fields = read(f"/proc/{name}/stat").rpartition(b")")[2].split()
            if len(fields) > 19:
                found[int(name)] = Process(int(fields[1]), fields[19], sum(map(int, fields[11:15])) / TICKS)
    return found


def below(known, top):
    """The processes below this one, and it."""
    children = collections.defaultdict(list)
    for number, process in known.items():
        children[process.parent].append(number)
    found = [top]
    for number in found:
        found += children[number]
    return found


def named(number):
    """The crate that a process checks and whether that is for its proof, its tests or an edit; None for any other process."""
    words = read(f"/proc/{number}/cmdline").decode(errors="replace").split("\0")
    if os.path.basename(words[0]) != "rattle" or "--crate-name" not in words:
        return None
    try:
        folder = os.readlink(f"/proc/{number}/cwd")
    except OSError:
        return None
    kind = "edits" if EDIT_FOLDER in folder else "tests" if "--test" in words else "proof"
    return words[words.index("--crate-name") + 1], kind


def peak_memory(number):
    """The most memory that a process has taken, in MB."""
    for line in read(f"/proc/{number}/status").split(b"\n"):
        if line.startswith(b"VmHWM:"):
            return int(line.split()[1]) // 1024
    return 0


class Watch:
    """The checks that run below a process, and those that have ended, which are written to the log."""

    def __init__(self, top, log):
        self.top, self.log, self.begun, self.running = top, log, time.monotonic(), {}

    def look(self):
        """Looks at what runs now, and writes what has ended since; false once the process itself has ended."""
        now, known = time.monotonic() - self.begun, processes()
        mine = below(known, self.top) if self.top in known else []
        seen, counted = set(), set()
        for number in mine:
            # (a copy that a check has forked bears its command line, and counts for it; its parent comes before it here)
            if number in counted:
                continue
            key = number, known[number].started
            check = self.running.get(key)
            if check is None:
                who = named(number)
                check = who and Check(*who, now, now, 0, 0)
            if check:
                tree = below(known, number)
                counted.update(tree)
                seconds = sum(known[it].seconds for it in tree)
                memory = max(map(peak_memory, tree))
                self.running[key] = check._replace(last=now, seconds=max(check.seconds, seconds), memory=max(check.memory, memory))
                seen.add(key)
        for key in set(self.running) - seen:
            check = self.running.pop(key)
            self.log.write(f"{check.crate} {check.kind} {check.first:.1f} {check.last:.1f} {check.seconds:.1f} {check.memory}\n")
            self.log.flush()
        return bool(mine)


def watch(args):
    """Watches a command until it ends, and answers its status."""
    with open(args.log, "w", encoding="utf-8") as log:
        if args.pid:
            watched = Watch(args.pid, log)
            while watched.look():
                time.sleep(EVERY)
            return 0
        running = subprocess.Popen(args.command)
        watched = Watch(running.pid, log)
        while running.poll() is None:
            watched.look()
            time.sleep(EVERY)
        watched.top = None
        watched.look()
        return running.returncode


def dependencies():
    """What each crate of crates.txt stands on."""
    found = {}
    with open(CRATES, encoding="utf-8") as lines:
        for line in lines:
            name, colon, rest = line.split("#")[0].partition(":")
            if colon:
                found[name.split()[0]] = rest.split()
    return found


def longest_chain(times):
    """The crates, lowest first, that wait for one another and whose proofs take longest together, and their seconds."""
    needs, chains = dependencies(), {}

    def chain(crate):
        if crate not in chains:
            under = max((chain(it) for it in needs[crate] if it in needs), default=(0, []))
            chains[crate] = under[0] + times.get(crate, 0), [*under[1], crate]
        return chains[crate]

    return max(map(chain, needs), default=(0, []))


def minutes(seconds):
    return f"{int(seconds) // 60}:{int(seconds) % 60:02}"


def table(args):
    """Prints what a log tells."""
    with open(args.log, encoding="utf-8") as lines:
        rows = [line.split() for line in lines]
    checks = [Check(crate, kind, *map(float, rest)) for crate, kind, *rest in rows]
    if not checks:
        sys.exit(f"gate_time: {args.log} names no check")
    spent, wall, memory = collections.Counter(), collections.Counter(), collections.Counter()
    for check in checks:
        spent[check.crate, check.kind] += check.seconds
        wall[check.crate, check.kind] += check.last - check.first
        memory[check.crate] = max(memory[check.crate], check.memory)
    total = collections.Counter()
    for (crate, _), seconds in spent.items():
        total[crate] += seconds
    print(f"{'processor minutes':24} {'all':>7} " + " ".join(f"{kind:>7}" for kind in KINDS) + f" {'wall of the proof':>18} {'most memory':>12}")
    for crate, seconds in total.most_common(args.most):
        cells = " ".join(f"{minutes(spent[crate, kind]):>7}" for kind in KINDS)
        print(f"{crate:24} {minutes(seconds):>7} {cells} {minutes(wall[crate, 'proof']):>18} {memory[crate]:>9.0f} MB")
    sums = [sum(seconds for (_, kind), seconds in spent.items() if kind == it) for it in KINDS]
    print(f"{'together':24} {minutes(sum(sums)):>7} " + " ".join(f"{minutes(it):>7}" for it in sums))
    whole = max(check.last for check in checks) - min(check.first for check in checks)
    print(f"from the first check to the last {minutes(whole)}, with {sum(sums) / max(whole, 1):.1f} processors in use on average")
    for what, times in (("wall time", wall), ("processor time", spent)):
        seconds, chain = longest_chain({crate: it for (crate, kind), it in times.items() if kind == "proof"})
        print(f"longest chain by {what}: {minutes(seconds)}: " + ", ".join(f"{it} {minutes(times[it, 'proof'])}" for it in chain if times[it, "proof"]))
    return 0


def main():
    parser = argparse.ArgumentParser(description=__doc__.splitlines()[0])
    verbs = parser.add_subparsers(dest="verb", required=True)
    watching = verbs.add_parser("watch")
    watching.add_argument("log")
    watching.add_argument("--pid", type=int)
    watching.add_argument("command", nargs="*")
    showing = verbs.add_parser("table")
    showing.add_argument("log")
    showing.add_argument("--most", type=int)
    args = parser.parse_args()
    if args.verb == "watch" and bool(args.pid) == bool(args.command):
        parser.error("watch takes --pid N, or -- and a command")
    return watch(args) if args.verb == "watch" else table(args)


if __name__ == "__main__":
    sys.exit(main())
