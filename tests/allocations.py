"""Refuses each allocation of the program in turn, as tests/allocations.sh tells.

    allocations.py PROGRAM REFUSER

REFUSER is tests/refuse.c, built as a library that the program is started with. Where an allocation is refused, the call has to end with status 6
and nothing written, or as it does where none is refused. Once 50 refusals in a row make no difference, each allocation has had its turn. Of the
larger calls every fortieth has it; RAID_STEP=1 takes each of them, which is a matter of many minutes. The calls are spread over the processors.
"""
import concurrent.futures
import itertools
import os
import subprocess
import sys

IN_A_ROW = 50
# Of the allocations of a larger call only each of so many is refused.
STEP = int(os.environ.get("RAID_STEP", "40"))
# More allocations than any of the calls below takes.
MOST = 200_000
NO_MEMORY = 6
EXAMPLE = "crates/raid/stdin", "crates/raid/stdout"


def read(path):
    with open(path, "rb") as file:
        return file.read()


def transfers():
    """200 transfers among 40 items that three sites hold, two switches, and a stop with its return."""
    lines = ["workload 1", "sites 3 together 4", *(f"item b{x:02} 1000 at 1 2 3" for x in range(40)), "open lock generic",
             "switch valid by generic after 50", "switch stamp by suffix after 120", "stop 2 after 60", "return 2 after 90"]
    for k in range(1, 201):
        a, b = f"b{k % 40:02}", f"b{(k + 7) % 40:02}"
        lines += [f"program {1 + (k - 1) % 3}", f"read {a} r0", f"read {b} r1", f"write {a} r0 - 5", f"write {b} r1 + 5", "end"]
    return ("\n".join(lines) + "\ndone\n").encode()


class Call:
    """A command with its input, and what its output has to be where nothing is refused; of its allocations each of so many is refused."""

    def __init__(self, name, command, text, is_right, step=1):
        self.name, self.command, self.text, self.is_right, self.step = name, command, text, is_right, step

    def tried(self, refuser, number):
        """Whether the refusal of the allocation with this number was noticed; None where the call ended as it may not."""
        words = {"LD_PRELOAD": refuser, "RAID_REFUSE": str(number)}
        done = subprocess.run(self.command, input=self.text, stdout=subprocess.PIPE, env={**os.environ, **words}, check=False)
        if (done.returncode, done.stdout) == (NO_MEMORY, b""):
            return True
        if done.returncode == 0 and self.is_right(done.stdout):
            return False
        print(f"allocations: {self.name}: number {number} refused: status {done.returncode}, written: {done.stdout[:200]!r}")
        return None

    def all_tried(self, refuser):
        """Refuses one after another, and tells how many were noticed; whether all is well."""
        noticed, last = 0, 0
        workers, batch = len(os.sched_getaffinity(0)), IN_A_ROW * self.step
        with concurrent.futures.ThreadPoolExecutor(workers) as pool:
            for first in itertools.count(1, batch):
                numbers = range(first, first + batch, self.step)
                for number, was_noticed in zip(numbers, pool.map(lambda it: self.tried(refuser, it), numbers)):
                    if was_noticed is None:
                        return False
                    if was_noticed:
                        noticed, last = noticed + 1, number
                    elif number - last >= batch:
                        each = "each" if self.step == 1 else f"every {self.step}th"
                        print(f"allocations: {self.name}: of the first {number} {each} refused in turn, {noticed} of them ended it with status "
                              f"{NO_MEMORY} and nothing written, and the others changed nothing", flush=True)
                        return noticed > 0
                if first > MOST:
                    print(f"allocations: {self.name}: more than {MOST} allocations")
                    return False
        return False


def calls(program):
    workload, report = map(read, EXAMPLE)
    large = transfers()

    def check(text):
        return subprocess.run([program, "check"], input=text, stdout=subprocess.PIPE, check=False).stdout

    def is_sound(written):
        return check(large + written) == b"sound\n"

    # (threads get on as they will, so the larger run has many reports)
    large_report = subprocess.run([program, "run"], input=large, stdout=subprocess.PIPE, check=True).stdout
    return [
        Call("a run of one site", [program, "run"], workload, lambda written: written == report),
        Call("a check of its report", [program, "check"], workload + report, lambda written: written == b"sound\n"),
        Call("a run of 200 programs at three sites", [program, "run"], large, is_sound, STEP),
        Call("a check of its report", [program, "check"], large + large_report, lambda written: written == b"sound\n", STEP),
        Call("200 programs made", [program, "make", "--seed", "1", "--count", "200"], b"", lambda written: written.endswith(b"\ndone\n"), STEP),
    ]


def main():
    program, refuser = (os.path.abspath(it) for it in sys.argv[1:3])
    return 0 if all(it.all_tried(refuser) for it in calls(program)) else 1


if __name__ == "__main__":
    sys.exit(main())
