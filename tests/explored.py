#!/usr/bin/env python3
"""Small workloads of which all schedules are gone through, and sets of schedules that together take every step of one.

  explored.py      prints how large they are, and for each kind of letter and each case that its step tells apart in which of the workloads it is
                   taken: the tables of docs/tests.md

make_schedules.py writes the schedules for the program raid_world_table. A state leaves out clocks and journals, which decide nothing.
"""
import collections
import copy

import model  # noqa: F401
import explore
import letter_cases
import test_rows
from raid_laws import finding
from raid_report import print_report
from raid_text import parse
from raid_world import World

STOPS = ("workload 1", "sites 2 together 1", "item x 0 at 1 2", "open lock native", "stop 2 after 1", "return 2 after 2",
         "program 1", "write x 1", "end", "program 1", "read x r0", "end", "done")
SOURCE_STOPS = ("workload 1", "sites 2 together 1", "item x 0 at 1 2", "open lock native", "stop 2 after 1", "return 2 after 2", "stop 1 after 2",
                "program 1", "write x 1", "end", "program 1", "end", "done")
STOPS_TWICE = ("workload 1", "sites 2 together 1", "item x 0 at 1 2", "open lock native", "stop 2 after 1", "return 2 after 1", "stop 2 after 1",
               "program 1", "write x 1", "end", "done")
DEADLOCK = ("workload 1", "sites 2 together 2", "item x 0 at 1", "item y 0 at 2", "open lock native", "stop 2 after 1", "return 2 after 1",
            "program 1", "read x r0", "write y 1", "end", "program 1", "read y r0", "write x 1", "end", "done")
OLD_HOME_STOPS = ("workload 1", "sites 2 together 2", "item x 0 at 1", "open lock native", "switch valid by suffix after 1", "stop 2 after 1",
                  "return 2 after 1", "program 2", "end", "program 2", "read x r0", "write x 1", "end", "done")
AGAIN_STOPS = ("workload 2", "sites 1 together 4", "restarts 1", "item x 0 at 1", "item y 0 at 1", "open valid native",
               "switch stamp by convert after 1", "stop 1 after 1", "return 1 after 1",
               "program 1", "read x r0", "stop if r0 < 2", "end", "program 1", "read x r0", "read y r1", "end", "program 1", "read x r0", "end",
               "program 1", "write x 1", "end", "done")
ASKED_STOPS = ("workload 1", "sites 2 together 2", "item x 0 at 2", "open lock native", "stop 2 after 1", "return 2 after 1",
               "program 1", "end", "program 1", "read x r0", "write x 1", "end", "done")
VOTER_STOPS = ("workload 1", "sites 3 together 2", "item x 0 at 2 3", "open lock native", "stop 2 after 1",
               "program 1", "end", "program 1", "write x 1", "end", "done")

# the workloads by the letters of docs/tests.md, with what happens in them
EXPLORED = {"a": ("a site stops and returns", STOPS),
            "b": ("a source stops while its copy is sent for", SOURCE_STOPS),
            "c": ("a site stops twice, and the first stop is announced late", STOPS_TWICE),
            "d": ("a cycle of waits would close, and a site stops and returns", DEADLOCK),
            "e": ("a home of an old transaction stops in a suffix switch", OLD_HOME_STOPS),
            "f": ("the home of a further attempt stops", AGAIN_STOPS),
            "g": ("a site stops of which a read or a vote is awaited", ASKED_STOPS),
            "h": ("one of two sites stops of which votes are awaited", VOTER_STOPS)}


class Graph:
    """All steps from each state that schedules can come to, the states by number; the report at each end; and how often each case was taken."""

    def __init__(self, text):
        explore.share_immutables()
        self.w = parse(test_rows.text(*text))
        self.steps, self.ends, self.cases = {}, {}, collections.Counter()
        world = World(self.w)
        self.numbers, todo = {explore.state_of(world): 0}, [(0, world)]
        while todo:
            todo += self._left(*todo.pop())

    def _left(self, at, world):
        """Takes the steps from a state; the new states that they lead to."""
        self.steps[at] = []
        if world.idle():
            self._end(at, world)
        for pick in world.choices():
            after = copy.deepcopy(world)
            message, case, _ = letter_cases.take(after, pick)
            self.cases[message, case] += 1
            state = explore.state_of(after)
            if state not in self.numbers:
                self.numbers[state] = len(self.numbers)
                yield self.numbers[state], after
            self.steps[at].append((pick, self.numbers[state]))

    def _end(self, at, world):
        report = world.report()
        assert finding(self.w, report) == "sound"
        self.ends[at] = print_report(self.w, report)

    def size(self):
        """How many steps there are, and how many states."""
        return sum(map(len, self.steps.values())), len(self.steps)


def ends_first(steps):
    """The states, each behind all that its steps lead to."""
    order, seen, path = [], {0}, [(0, iter(steps[0]))]
    while path:
        at, rest = path[-1]
        _, after = next(rest, (None, None))
        if after is None:
            order.append(at)
            path.pop()
        elif after not in seen:
            seen.add(after)
            path.append((after, iter(steps[after])))
    return order


def covering(steps):
    """Schedules to an end that together take every step: each is one with the most steps that none before it took."""
    order, left = ends_first(steps), {(at, pick) for at in steps for pick, _ in steps[at]}
    while left:
        best = {}
        for at in order:
            found = [(best[after][0] + ((at, pick) in left), pick, after) for pick, after in steps[at]]
            best[at] = max(found, key=lambda f: f[0], default=(0, None, None))
        at, schedule = 0, []
        while best[at][1] is not None:
            _, pick, after = best[at]
            left.discard((at, pick))
            schedule.append(pick)
            at = after
        yield schedule, at


def by_report(graph):
    """The schedules that take every step, by the report that they lead to."""
    schedules = collections.defaultdict(list)
    for schedule, end in covering(graph.steps):
        schedules[graph.ends[end]].append(schedule)
    return schedules


def cases_of(graphs, message):
    """The cases of a message, each with the letters of the workloads in which it is taken."""
    cases = sorted({case for graph in graphs.values() for kind, case in graph.cases if kind == message})
    return "; ".join(f"{case} ({''.join(name for name, graph in graphs.items() if graph.cases[message, case])})" for case in cases)


def table():
    """The lines of the tables: the workloads, then the messages."""
    graphs = {name: Graph(text) for name, (_, text) in EXPLORED.items()}
    yield "| | in it | states | steps | reports |\n|---|---|---|---|---|"
    for name, graph in graphs.items():
        steps, states = graph.size()
        yield f"| {name} | {EXPLORED[name][0]} | {states:,} | {steps:,} | {len(set(graph.ends.values()))} |"
    yield "\n| letter | what the step finds, and where |\n|---|---|"
    for message in letter_cases.ORDER:
        yield f"| {message} | {cases_of(graphs, message)} |"


if __name__ == "__main__":
    print("\n".join(table()))
