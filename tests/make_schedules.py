#!/usr/bin/env python3
"""Writes schedules of workloads, and the report that each leads to, for the program raid_world_table.

  make_schedules.py [--workloads N] [--seed N] [--drawn] > crates/raid_world_table/stdin
  make_schedules.py --told < crates/raid_world_table/stdin > crates/raid_world_table/stdout

The reference model is read from the folder that RAID_ORACLE names, ../shared/oracle beside the repository by default.

What is written first, which --drawn leaves out, is

  - worked runs: a site reads and writes an item that another one holds; a site stops before it takes a write, and the
    others go on and renew its copy after its return; and the same as far as the copy is sent for. Their reports are
    worked out by hand, and the model has to agree;
  - every step of a site that stops and returns: a set of schedules of the second worked run's workload, which together go
    through all states that any schedule can come to (clocks and journals left out) and take every step that there is
    from each of them, with the model's report of each;
  - a late stop: the same workload in the order that the program takes, but the site's stop and its return are left out until so many
    letters were taken, 0 to 100 of them, or until no other link holds one;
  - every step of a few more small workloads, each with something rare in it (explored.py).

Then come N random workloads (100), two random schedules of each, and the model's reports.

  workload .. done    the lines of a workload text: the workload of all that follows
  report .. done      the lines of a report text: what the schedules that follow lead to
  picks S<F ..        a schedule: server S takes a letter of server F, and so on; no letter is left
  left S<F ..         one behind which letters are left
  count WORDS..       the end of a part, of which the program tells how many schedules it had

With --told it writes what the program has to say to such lines: how many schedules and picks each part has, and that none ends otherwise.
"""
import argparse
import collections
import random
import sys

import model  # noqa: F401
import explored
import fuzz
import runs
import test_rows
from explored import STOPS
from raid_laws import finding
from raid_report import print_report
from raid_text import parse, print_workload
from raid_world import World, merged, run_fixed, run_schedule

SCHEDULES_OF_A_WORKLOAD = 2

ELSEWHERE = ("workload 1", "sites 2 together 1", "item x 5 at 2", "open lock native", "program 1", "read x r0", "write x r0 + 1",
             "end", "done")
READ_ELSEWHERE = ("report 1", "1 begin t1 at s1", "2 read t1 x at s2", "3 commit t1 reads x=5 writes x=6 under 1,1 applied s2",
                  "4 ack t1 s2", "order t1", "final x 6", "copy s2 x 6 3", "done")

MISSED = ("report 1", "1 begin t1 at s1", "2 commit t1 reads - writes x=1 under 1,1 applied s1,s2", "3 ack t1 s1", "4 down s2",
          "5 begin t2 at s1", "6 read t2 x at s1", "7 commit t2 reads x=1 writes - under 1,- applied -", "8 up s2 session 2")
RENEWED = (*MISSED, "9 clear s2 x at 2", "order t1 t2", "final x 1", "copy s1 x 1 2", "copy s2 x 1 2", "done")
NOT_RENEWED = (*MISSED, "order t1 t2", "final x 1", "copy s1 x 1 2", "copy s2 x 0 0", "done")


# The link by which the site that stops hears the monitor: its server and the monitor's.
LATE = (3, 0)


def schedule_line(schedule, word="picks"):
    return " ".join([word, *(f"{server}<{sender}" for server, sender in schedule)])


def text_lines(text):
    return text.decode().splitlines()


def told(w, schedule):
    """The model's report after the schedule, and whether it leaves no letter."""
    world = World(w)
    run_schedule(world, schedule)
    return print_report(w, world.report()), world.idle()


def worked_lines():
    """The worked runs."""
    w = parse(test_rows.text(*ELSEWHERE))
    elsewhere = run_fixed(World(w))
    stops = parse(test_rows.text(*STOPS))
    _, _, renewed = test_rows.run14(True)
    _, _, missed = test_rows.run14(False)
    runs_worked = ((w, ELSEWHERE, elsewhere, READ_ELSEWHERE, "picks"), (stops, STOPS, merged(renewed), RENEWED, "picks"),
                   (stops, STOPS, merged(missed), NOT_RENEWED, "left"))
    for workload, text, schedule, report, word in runs_worked:
        assert told(workload, schedule) == (test_rows.text(*report), word == "picks"), "the model has another report"
        yield from text
        yield from report
        yield schedule_line(schedule, word)
    yield "count worked runs"


def explored_lines(text, name):
    """All steps of a workload, by the report that they lead to."""
    graph = explored.Graph(text)
    yield from text
    for report, found in explored.by_report(graph).items():
        yield from text_lines(report)
        yield from map(schedule_line, found)
    steps, states = graph.size()
    yield f"count {name}all {steps} steps from {states} states"


def all_explored_lines():
    """The same of each small workload but the first."""
    for name, text in explored.EXPLORED.values():
        if text is STOPS:
            continue
        yield from explored_lines(text, f"{name}, ")


def late_schedule(w, until):
    """The least server's letter from its least sender is the next; but the stop and the return come late."""
    world, schedule = World(w), []
    while choices := world.choices():
        others = [pick for pick in choices if pick != LATE]
        schedule.append(min(others if others and len(schedule) < until else choices))
        world.pick(schedule[-1])
    report = world.report()
    assert finding(w, report) == "sound"
    return schedule, print_report(w, report)


def late_lines():
    """A stop that comes after 0 to 100 letters, by the report that it leads to."""
    w = parse(test_rows.text(*STOPS))
    schedules = collections.defaultdict(list)
    for until in range(101):
        schedule, report = late_schedule(w, until)
        schedules[report].append(schedule)
    yield from STOPS
    for report, found in schedules.items():
        yield from text_lines(report)
        yield from map(schedule_line, found)
    yield "count a stop after 0 to 100 letters"


def small_workload(rng, k):
    """A workload of any form that has a short text."""
    while True:
        w = runs.drawn(rng, k // 2) if k % 2 else fuzz.random_workload(rng)
        text = print_workload(w)
        if len(text) < 700 and w.items:
            return parse(text), text


def drawn_schedule(w, rng):
    """A schedule by one of the model's ways to choose, and its report, which the model calls sound."""
    world, chooser, schedule = World(w), fuzz.Chooser(rng, w), []
    while choices := world.choices():
        schedule.append(chooser.choose(choices, len(schedule)))
        world.pick(schedule[-1])
    report = world.report()
    assert finding(w, report) == "sound"
    return schedule, print_report(w, report)


def drawn_lines(count, seed):
    """Random schedules of random workloads."""
    for k in range(count):
        rng = random.Random(f"schedules {seed} {k}")
        w, text = small_workload(rng, k)
        yield from text_lines(text)
        last = None
        for _ in range(SCHEDULES_OF_A_WORKLOAD):
            schedule, report = drawn_schedule(w, rng)
            if report != last:
                yield from text_lines(report)
            last = report
            yield schedule_line(schedule)
    yield "count random schedules"


def told_lines(lines):
    """What the program says to the lines."""
    part, total = [], []
    for line in lines:
        head, _, words = line.rstrip("\n").partition(" ")
        if head in ("picks", "left"):
            part.append(len(words.split(" ")))
        elif head == "count":
            yield f"{words}: {len(part)} schedules of {sum(part)} picks"
            total, part = total + part, []
    yield f"{len(total)} schedules of {sum(total)} picks, 0 end otherwise"


def main():
    parser = argparse.ArgumentParser(description=__doc__.splitlines()[0])
    parser.add_argument("--workloads", type=int, default=100)
    parser.add_argument("--seed", type=int, default=1)
    parser.add_argument("--drawn", action="store_true")
    parser.add_argument("--told", action="store_true")
    args = parser.parse_args()
    if args.told:
        print("\n".join(told_lines(sys.stdin)))
        return
    lines = [] if args.drawn else [*worked_lines(), *explored_lines(STOPS, ""), *late_lines(), *all_explored_lines()]
    print("\n".join([*lines, *drawn_lines(args.workloads, args.seed)]))


if __name__ == "__main__":
    main()
