"""Runs workloads of all forms on threads, each several times, and has the reference model and `raid check` judge each report.

The workloads are those of runs.py. Threads get on as they will, so a workload of several sites has many reports. Each has to be sound, and the
count of different ones is told, for all workloads and for the one that has most.

    threads.py PROGRAM WORKLOADS RUNS [SEED]
"""
import random
import sys

import model  # noqa: F401
import fuzz
import oracle
from program import run
from raid_text import print_workload
from runs import drawn


def reports_of(program, text, count):
    """The reports of so many runs, and how often each came; None where a run had another status than 0."""
    seen = {}
    for _ in range(count):
        status, report = run([program, "run"], text)
        key = report if status == 0 else None
        seen[key] = seen.get(key, 0) + 1
    return seen


def judged(program, text, report):
    """What the model and `raid check` say of the report, where it isn't that it is sound."""
    if report is None:
        return "no report"
    said = oracle.judged("check", text + report), run([program, "check"], text + report)
    return None if said == ((0, "sound\n"), (0, b"sound\n")) else said


def main():
    program, count, times = sys.argv[1], int(sys.argv[2]), int(sys.argv[3])
    seed = int(sys.argv[4]) if len(sys.argv) > 4 else 1
    failed, reports, most = 0, 0, 0
    for k in range(count):
        rng = random.Random(f"runs {seed} {k}")
        w = drawn(rng, k // 2) if k % 2 else fuzz.random_workload(rng)
        text = print_workload(w)
        seen = reports_of(program, text, times)
        reports, most = reports + len(seen), max(most, len(seen))
        for report in seen:
            said = judged(program, text, report)
            if said is not None:
                failed += 1
                print(f"workload {k}: judged {said}\n{text.decode()}--- program\n{(report or b'').decode()}")
    print(f"threads: {count * times} runs of {count} workloads: {reports} different reports, of one workload {most} at most; {failed} aren't sound")
    return 1 if failed else 0


if __name__ == "__main__":
    sys.exit(main())
