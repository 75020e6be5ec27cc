"""Times controllers on long histories, as docs/performance.md tells. Usage: speed.py PROGRAM [RUNS]

PROGRAM is what `rt run` builds in crates/raid_speed/out/raid_speed. Each figure is the processor time of the best of RUNS
runs (7) of the whole program, less that of the best of as many runs without input, by the number of verdicts: two for
each transaction, with the three entries that it notes.
"""

import os
import subprocess
import sys
import tempfile

from measuring import peak_memory

LONG = (50_000, 100_000, 200_000, 400_000)
GRAPH = (5_000, 20_000, 100_000, 400_000)
KINDS = ("lock", "stamp", "valid", "graph")
# Nanoseconds of a verdict with its note that a plain body took.
PLAIN = {"lock native": 15, "stamp native": 9, "valid native": 12, "graph native": 21}
GENERIC = 57


def run(program: str, text: str) -> float:
    """Seconds of processor time."""
    with tempfile.TemporaryFile() as given, tempfile.TemporaryFile() as written:
        given.write(text.encode())
        given.seek(0)
        child = subprocess.Popen([program], stdin=given, stdout=written)
        _, status, used = os.wait4(child.pid, 0)
        child.returncode = status
        written.seek(0)
        said = written.read().decode()
    wanted = f"{text.strip()}: {2 * int(text.split()[2])} grants\n" if text else ""
    if status != 0 or said != wanted:
        sys.exit(f"status {status}, {said!r}, and not {wanted!r}")
    return used.ru_utime + used.ru_stime


def best(program: str, text: str, runs: int) -> float:
    return min(run(program, text) for _ in range(runs))


def row(program: str, name: str, sizes: tuple[int, ...], runs: int, empty: float) -> str:
    plain = PLAIN.get(name, GENERIC if name.endswith("generic") else None)
    cells = [name, f"{plain} ns" if plain else ""]
    for count in sizes:
        taken = best(program, f"{name} {count}\n", runs)
        cells.append(f"{(taken - empty) / (2 * count) * 1e9:.0f} ns")
    memory = peak_memory([program], f"{name} {sizes[-1]}\n".encode())
    return "| " + " | ".join([*cells, memory]) + " |"


def table(program: str, names: list[str], sizes: tuple[int, ...], runs: int, empty: float) -> None:
    print("| controller | plain body | " + " | ".join(f"{n:,}" for n in sizes) + " | memory at most |")
    print("|---" * (3 + len(sizes)) + "|")
    for name in names:
        print(row(program, name, sizes, runs, empty), flush=True)


def main() -> None:
    program = sys.argv[1]
    runs = int(sys.argv[2]) if len(sys.argv) > 2 else 7
    empty = best(program, "", runs)
    flat = [f"{kind} {structure}" for structure in ("native", "generic") for kind in KINDS if kind != "graph"]
    table(program, [*flat, "entries alone"], LONG, runs, empty)
    print()
    table(program, ["graph native", "graph generic", "entries alone"], GRAPH, runs, empty)


if __name__ == "__main__":
    main()
