"""Compares the program's reports with those of the reference model, byte for byte.

This script runs FIXED, which takes letters in the fixed order, and the model on the examples, of whatever form, and PROGRAM and the model on random
workloads of one site whose transactions go one at a time, which have one report each. It compares, and doesn't decide which of the two is right.

    serial.py PROGRAM FIXED COUNT [SEED]
"""

import random
import sys
from pathlib import Path

from program import expected, run

LEAST = -(2**63)
MOST = 2**63 - 1


def value(draw: random.Random) -> int:
    """A value: mostly small, at times at an end of the range, so that sums overflow."""
    return draw.choice([draw.randint(-9, 99), draw.randint(-9, 99), draw.randint(-9, 99), MOST, LEAST, MOST - draw.randint(0, 3)])


def term(draw: random.Random) -> str:
    return draw.choice([f"r{draw.randint(0, 15)}", f"r{draw.randint(0, 3)}", str(value(draw))])


def expression(draw: random.Random) -> str:
    words = [term(draw)]
    for _ in range(draw.choice([0, 0, 1, 1, 2, 7])):
        words += [draw.choice("+-"), term(draw)]
    return " ".join(words)


def statement(draw: random.Random, items: list[str]) -> str:
    kind = draw.choice(["read", "read", "write", "write", "stop"]) if items else "stop"
    if kind == "read":
        return f"read {draw.choice(items)} r{draw.choice([draw.randint(0, 3), draw.randint(0, 15)])}"
    if kind == "write":
        return f"write {draw.choice(items)} {expression(draw)}"
    return f"stop if {expression(draw)} < {expression(draw)}"


def workload(draw: random.Random) -> bytes:
    items = [f"{draw.choice('abxyz')}{k}" for k in range(draw.choice([0, 1, 2, 3, 5]))]
    lines = [draw.choice(["workload 1", "workload 2"])]
    lines.append("sites 1 together 1")
    if lines[0] == "workload 2":
        lines.append(f"restarts {draw.randint(0, 3)}")
    lines += [f"item {name} {value(draw)} at 1" for name in items]
    lines.append("open lock native")
    for _ in range(draw.choice([0, 1, 2, 3, 8])):
        lines.append("program 1")
        lines += [statement(draw, items) for _ in range(draw.choice([0, 1, 2, 4, 8, 32]))]
        lines.append("end")
    lines.append("done")
    return ("\n".join(lines) + draw.choice(["\n", ""])).encode()


def differs(command: list[str], name: str, text: bytes) -> bool:
    """Whether the program and the model differ, and then both are printed."""
    ours, theirs = run(command, text), expected(text)
    if ours != theirs:
        print(f"{name}: the program and the model differ\n{text.decode()}\n--- program {ours}\n--- model {theirs}")
    return ours != theirs


def main() -> int:
    program, fixed, count = sys.argv[1], sys.argv[2], int(sys.argv[3])
    seed = int(sys.argv[4]) if len(sys.argv) > 4 else 1
    examples = [(path.name, path.read_bytes()) for path in sorted(Path("examples").glob("*.txt"))]
    drawn = [(f"seed {seed + k}", workload(random.Random(seed + k))) for k in range(count)]
    failed = sum(differs([fixed, "fixed"], name, text) for name, text in examples)
    failed += sum(differs([program, "run"], name, text) for name, text in drawn)
    print(f"serial: {len(examples)} examples, and {count} random workloads run one transaction at a time: {len(examples) + count - failed} reports "
          f"agree with the model, {failed} don't")
    return 1 if failed else 0


if __name__ == "__main__":
    sys.exit(main())
