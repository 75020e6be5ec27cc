#!/usr/bin/env python3
"""Lets wrong machines run, and shows that what tests/falls.sh looks at refuses each of them.

  wrong.py                      each wrong machine takes its kept run, and has to be refused with the kept words; the right machine takes the same
                                run, and has to be accepted
  wrong.py --find NAME [TRIES]  looks for a small run in which the wrong machine of this name is refused, and prints it

A machine is the reference model's World with one part changed. A kept run is a workload and the first picks of a schedule: those of them that find
no letter are left out, and behind them the letters are taken in the fixed order.
"""
import random
import sys

import model  # noqa: F401
import falls
import fuzz
import test_rows
from make_schedules import schedule_line
from raid_text import parse, print_workload
from raid_types import U32_MAX
from raid_world import Drop, Hello, Letter, Misfit, Sequencer, SiteServer, Welcome, World

TRIES = 3000
SCHEDULES = 40
MOST_SITES = 3


class KeptNext(SiteServer):
    """A home that goes on, after a return, behind what it began before: a Begin that was lost with its stop isn't sent again."""

    def _forget(self):
        following = getattr(self, "next", 0)
        super()._forget()
        self.next = following

    def _row(self, sender, letter, outs):
        if isinstance(letter.message, Welcome) and self.session > 1:
            letter = Letter(letter.clock, letter.from_, letter.to, Welcome(letter.message.vector, self.next))
        super()._row(sender, letter, outs)


class NotAgain(Sequencer):
    """A sequencer that doesn't take a site down behind a Hello whose session's end was announced before it came."""

    def _site_letter(self, s, n, message):
        announced = self.announced[s - 1]
        if isinstance(message, Hello):
            self.announced[s - 1] = 0
        super()._site_letter(s, n, message)
        self.announced[s - 1] = announced


class CopiesTwice(Sequencer):
    """A sequencer that sends for each locked copy at each step, whether or not it is under way."""

    def _send_copies(self):
        self.out.clear()
        super()._send_copies()


class HomeAlone(Sequencer):
    """A sequencer that sends a Drop to the home alone, and to no site that has voted."""

    def _send(self, s, message):
        if not isinstance(message, Drop) or s == self.w.home(message.txn):
            super()._send(s, message)


def machine(changed, w):
    """A world with this server in place of the model's, or as it is for None."""
    world = World(w)
    if changed is not None and issubclass(changed, Sequencer):
        world.sequencer = changed(w)
    elif changed is not None:
        world.sites = {s: changed(w, s) for s in world.sites}
    return world


def replayed(schedule):
    """Chooses as the schedule says, and behind it in the fixed order."""
    rest = list(schedule)

    def choose(choices, _):
        while rest:
            pick = rest.pop(0)
            if pick in choices:
                return pick
        return choices[0]
    return choose


def refusal(changed, w, choose):
    """The schedule that the machine took, and why it is refused, None where it isn't."""
    schedule = []

    def noted(choices, picks):
        schedule.append(choose(choices, picks))
        return schedule[-1]
    try:
        for _ in falls.followed(machine(changed, w), noted):
            pass
    except falls.Refused as refused:
        return schedule, str(refused)
    except Misfit:
        return schedule, "a letter doesn't fit"
    return schedule, None


def refused_somehow(changed, w, rng, schedule):
    """A schedule in which the machine is refused: this one, or one of some random ones; None where none was found."""
    found = refusal(changed, w, replayed(schedule))
    for _ in range(SCHEDULES):
        if found[1] is not None:
            return found[0]
        found = refusal(changed, w, fuzz.Chooser(rng, w).choose)
    return found[0] if found[1] is not None else None


def shrunk(changed, w, rng, schedule):
    """The workload and the schedule with as much left out as can be."""
    is_smaller = True
    while is_smaller:
        is_smaller = False
        for less in fuzz.smaller(w):
            found = refused_somehow(changed, less, rng, schedule) if less.programs else None
            if found is not None:
                w, schedule, is_smaller = less, found, True
                break
    return w, shortened(changed, w, schedule)


def shortened(changed, w, schedule):
    """The schedule's first picks, as few as can be, each of them needed."""
    schedule = list(schedule)
    for at in reversed(range(len(schedule))):
        less = schedule[:at] + schedule[at + 1:]
        if refusal(changed, w, replayed(less))[1] is not None:
            schedule = less
    return schedule


def size(w, schedule):
    return len(print_workload(w)), len(schedule)


def find(changed, tries):
    """Prints each run that is smaller than those before it."""
    least = U32_MAX, 0
    for k in range(tries):
        rng = random.Random(f"wrong {changed.__name__} {k}")
        w = fuzz.random_workload(rng, MOST_SITES)
        schedule, why = refusal(changed, w, fuzz.Chooser(rng, w).choose)
        if why is None:
            continue
        w, schedule = shrunk(changed, w, rng, schedule)
        if parse(print_workload(w)) == w and size(w, schedule) < least:
            least = size(w, schedule)
            print(f"seed {k}: {refusal(changed, w, replayed(schedule))[1]}\n{print_workload(w).decode()}{schedule_line(schedule)}", flush=True)


# The wrong machines: each with the smallest run that was found, and the words with which it is refused there.
KEPT = (
    (KeptNext, ("workload 1", "sites 1 together 1", "open lock native", "stop 1 after 1", "return 1 after 1",
                "program 1", "end", "program 1", "end", "done"),
     "2<1 1<2 1<2 0<1 2<1 2<0 0<2 1<0", "fails finished: t2 has no Begin"),
    (NotAgain, ("workload 1", "sites 1 together 1", "open lock native", "stop 1 after 1", "return 1 after 1", "stop 1 after 1",
                "program 1", "end", "program 1", "end", "done"),
     "2<1 1<2 1<2 0<1 2<0 2<0 2<0", "fails finished: t2 has no Begin"),
    (CopiesTwice, ("workload 1", "sites 2 together 1", "item x 0 at 1 2", "open lock native", "stop 1 after 1", "return 1 after 1",
                   "program 1", "write x 1", "end", "done"),
     "", "the measure falls by -2 at Ack"),
    (HomeAlone, ("workload 1", "sites 2 together 1", "item x 0 at 1", "open stamp native",
                 "program 1", "read x r0", "end", "program 2", "write x 1", "end", "done"),
     "3<1 1<3", "t2 stays staged at s1"),
)
MACHINES = {changed.__name__: changed for changed, _, _, _ in KEPT}


def kept_is_refused(changed, text, schedule, words):
    """Whether the machine is refused with these words in its kept run, and the right machine accepted; says what isn't so."""
    w = parse(test_rows.text(*text))
    picks = [tuple(map(int, pick.split("<"))) for pick in schedule.split()]
    why, right = refusal(changed, w, replayed(picks))[1], refusal(None, w, replayed(picks))[1]
    if why != words:
        print(f"wrong: {changed.__name__} is refused with {why!r}, not with {words!r}")
    if right is not None:
        print(f"wrong: the right machine is refused in the run of {changed.__name__}: {right}")
    return why == words and right is None


def main():
    if sys.argv[1:2] == ["--find"]:
        find(MACHINES[sys.argv[2]], int(sys.argv[3]) if sys.argv[3:] else TRIES)
        return 0
    refused = [kept_is_refused(*kept) for kept in KEPT]
    print(f"wrong: {sum(refused)} of {len(KEPT)} wrong machines are refused as they are to be, and the right one isn't")
    return 0 if all(refused) else 1


if __name__ == "__main__":
    sys.exit(main())
