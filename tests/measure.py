"""Measures the program on large texts, as docs/performance.md tells. Usage: measure.py PROGRAM"""

import random
import subprocess
import sys
import time

LIMIT = 4_194_304
MIB = 1_048_576


def programs(count: int) -> bytes:
    """A workload of one site with so many programs of 32 statements."""
    draw = random.Random(5)
    lines = ["workload 1", "sites 1 together 1"]
    lines += [f"item i{k:04d} {k} at 1" for k in range(1024)]
    lines.append("open lock native")
    for _ in range(count):
        lines.append("program 1")
        lines += [f"read i{draw.randrange(1024):04d} r{s}" for s in range(16)]
        lines += [f"write i{draw.randrange(1024):04d} r{s} + 1 - 2 + 3" for s in range(16)]
        lines.append("end")
    return ("\n".join(lines) + "\ndone\n").encode()


def comment(size: int) -> bytes:
    return b"# " + b"x" * (size - 3) + b"\n"


def words(size: int) -> bytes:
    return (b"workload 1\nsites 1 together 1\nopen lock native " + b"x " * (size // 2))[:size]


def measure(program: str, name: str, text: bytes) -> None:
    best = None
    for _ in range(7):
        start = time.perf_counter()
        done = subprocess.run([program, "run"], input=text, capture_output=True, check=False)
        taken = time.perf_counter() - start
        best = taken if best is None else min(best, taken)
    print(f"{name}: {len(text)} bytes, {best * 1000:.1f} ms, status {done.returncode}, {len(done.stdout)} bytes written")


def main() -> None:
    program = sys.argv[1]
    for count in (500, 1000, 2000):
        measure(program, f"{count} programs", programs(count))
    full = programs(2000)
    measure(program, "2000 programs behind a comment", comment(LIMIT - len(full)) + full)
    for size in (MIB, 2 * MIB, 4 * MIB):
        measure(program, "a comment", comment(size))
        measure(program, "a line of words", words(size))


if __name__ == "__main__":
    main()
