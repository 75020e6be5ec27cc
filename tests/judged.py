"""Judges reports, half of which were changed, as the reference model does.

    judged.py PROGRAM COUNT SEED [FEW [RAID]]

PROGRAM is raid_try_check as it is built. COUNT reports are judged: those of runs whose letters are taken in a random order, and as many that
were changed in one place. An entry is dropped, doubled or moved; a number, a name, a cause or an order is changed, or a final value or a copy;
or the text itself is. FEW of them (none by default) are given to the program RAID as well, one at a time, whose status and line are compared.
"""
import collections
import dataclasses
import random
import struct
import subprocess
import sys

import model  # noqa: F401
import fuzz
import oracle
import raid_text
from program import run
from raid_laws import finding
from raid_report import parse_report, print_report
from raid_types import CAUSES, KINDS, METHODS, Abort, Cause, CommitAct, EndedAct, ReadAct, Request, SwitchEnd, SwitchOn
from raid_world import World
from reports import changed as changed_text

# The fields of entries that are numbers.
NUMBERS = ("version", "session", "switch")


def ran(w, rng):
    """The report of a run of the workload."""
    world = World(w)
    while choices := world.choices():
        world.pick(rng.choice(choices))
    return world.report()


def near(rng, number):
    """Another number, mostly a near one."""
    return max(0, number + rng.choice((-1, 1, 1, 2, 7)))


def pairs_changed(w, rng, pairs):
    """The pairs with one value, one item or one pair less or more."""
    pairs, at = list(pairs), rng.randrange(len(pairs) + 1)
    if at == len(pairs):
        pairs += [(rng.randrange(len(w.items)), rng.randint(-9, 9))] if w.items else []
    elif rng.random() < 0.3:
        del pairs[at]
    elif rng.random() < 0.3:
        pairs[at] = rng.randrange(len(w.items)), pairs[at][1]
    else:
        pairs[at] = pairs[at][0], pairs[at][1] + rng.choice((-1, 1))
    return tuple(pairs)


def vector_changed(rng, vector):
    at = rng.randrange(len(vector))
    return tuple(near(rng, n) if k == at else n for k, n in enumerate(vector))


def request_changed(w, rng, request):
    how = rng.randrange(3)
    return Request(pairs_changed(w, rng, request.reads) if how == 0 else request.reads,
                   pairs_changed(w, rng, request.writes) if how == 1 else request.writes,
                   vector_changed(rng, request.under) if how == 2 else request.under)


def act_changed(w, rng, act):
    if isinstance(act, EndedAct):
        return EndedAct(pairs_changed(w, rng, act.reads))
    if isinstance(act, ReadAct):
        return ReadAct(rng.randrange(len(w.items)))
    return CommitAct(request_changed(w, rng, act.request)) if act else act


def cause_changed(w, rng, abort):
    """The abort for another cause that has the same act."""
    name = rng.choice(CAUSES)
    if isinstance(abort.act, EndedAct):
        name = "own" if abort.cause.name == "overflow" else "overflow"
    elif abort.act is None:
        name = rng.choice(("homedown", "switchoff"))
    elif name in ("own", "overflow", "homedown", "switchoff"):
        name = rng.choice(("late", "invalid", "cycle", "deadlock", "nocopy"))
    return Abort(abort.txn, Cause(name, rng.randrange(3) if name == "switchoff" else 0, (1,) * w.sites if name == "stale" else ()), abort.act)


def entry_changed(w, rng, e):
    """The entry with a number, a name, a cause or what it tells changed."""
    fields = [it.name for it in dataclasses.fields(e)]
    name = rng.choice(fields)
    value = getattr(e, name)
    if name == "txn":
        return dataclasses.replace(e, txn=rng.randint(1, w.count))
    if name in ("home", "site"):
        return dataclasses.replace(e, **{name: rng.randint(1, w.sites)})
    if name == "item":
        return dataclasses.replace(e, item=rng.randrange(len(w.items)))
    if name in NUMBERS:
        most = 255 if isinstance(e, (SwitchOn, SwitchEnd)) else 4294967295
        return dataclasses.replace(e, **{name: min(most, near(rng, value))})
    if name == "request":
        return dataclasses.replace(e, request=request_changed(w, rng, value))
    if name == "applied":
        return dataclasses.replace(e, applied=tuple(s for s in range(1, w.sites + 1) if (s in value) ^ (rng.random() < 0.3)))
    if name == "kind":
        return dataclasses.replace(e, kind=rng.choice(KINDS))
    if name == "method":
        return dataclasses.replace(e, method=rng.choice(METHODS))
    if name == "cause":
        return cause_changed(w, rng, e)
    return dataclasses.replace(e, act=act_changed(w, rng, value))


def entries_changed(w, rng, entries):
    """The entries with one dropped, doubled, moved or changed."""
    entries = list(entries)
    if not entries:
        return ()
    # (the last one is dropped often, since little else leaves just something to do)
    at, how = rng.choice((rng.randrange(len(entries)), len(entries) - 1)), rng.randrange(6)
    if how == 0:
        del entries[at]
    elif how == 1:
        entries.insert(rng.randrange(at, len(entries)) + 1, entries[at])
    elif how == 2:
        e = entries.pop(at)
        entries.insert(rng.choice((at + 1, at + 1, rng.randrange(len(entries) + 1))), e)
    else:
        entries[at] = entry_changed(w, rng, entries[at])
    return tuple(entries)


def order_changed(w, rng, order):
    """The order with two exchanged, one left out, one twice, or one more."""
    order = list(order)
    how = rng.randrange(4) if order else 3
    if how == 0:
        a, b = rng.randrange(len(order)), rng.randrange(len(order))
        order[a], order[b] = order[b], order[a]
    elif how == 1:
        del order[rng.randrange(len(order))]
    elif how == 2:
        order.insert(rng.randrange(len(order) + 1), rng.choice(order))
    else:
        order.append(rng.randint(1, w.count))
    return tuple(order)


def changed(w, rng, report):
    """The text of the report with one thing changed."""
    how = rng.randrange(12)
    if how == 0 and report.finals:
        at = rng.randrange(len(report.finals))
        finals = tuple((x, v + rng.choice((-1, 1))) if k == at else (x, v) for k, (x, v) in enumerate(report.finals))
        return print_report(w, dataclasses.replace(report, finals=finals))
    if how <= 2 and report.copies:
        at = rng.randrange(len(report.copies))
        copy = report.copies[at]
        other = dataclasses.replace(copy, version=near(rng, copy.version)) if how == 1 else dataclasses.replace(copy, value=copy.value + rng.choice((-1, 1)))
        return print_report(w, dataclasses.replace(report, copies=report.copies[:at] + (other,) + report.copies[at + 1:]))
    if how == 3:
        return print_report(w, dataclasses.replace(report, order=order_changed(w, rng, report.order)))
    if how == 4:
        return changed_text(print_report(w, report), rng)
    return print_report(w, dataclasses.replace(report, entries=entries_changed(w, rng, report.entries)))


def made(k, seed):
    """The k-th workload's text, the text of a report of it, and that with one thing changed."""
    rng = random.Random(f"judged {seed} {k}")
    w = fuzz.random_workload(rng)
    report = ran(w, rng)
    return raid_text.print_workload(w), print_report(w, report), changed(w, rng, report)


def found(w, text):
    """The line of what the model finds of a report, both being texts."""
    w = raid_text.parse(w)
    report = parse_report(w, text)
    return f"refused report line {report}\n" if isinstance(report, int) else finding(w, report) + "\n"


def answers(program, cases):
    given = b"".join(struct.pack(">I", len(text)) + text for case in cases for text in case)
    told = subprocess.run([program], input=given, stdout=subprocess.PIPE, check=True).stdout
    return told.splitlines(keepends=True)


def main(program, count, seed, few=0, raid=None):
    cases = [(w, text) for w, *texts in (made(k, seed) for k in range((count + 1) // 2)) for text in texts]
    wanted = [found(w, text) for w, text in cases]
    told = answers(program, cases)
    if len(told) != len(cases):
        print(f"judged: {len(told)} answers to {len(cases)} reports")
        return 1
    for (w, text), answer, want in zip(cases, told, wanted):
        if answer != want.encode():
            print(f"judged: {w!r}\n  {text!r}\n  the program: {answer!r}\n  the model: {want!r}")
            return 1
    for w, text in cases[:few]:
        status, want = oracle.judged("check", w + text)
        done = run([raid, "check"], w + text)
        if done != (status, want.encode()):
            print(f"judged: {w!r}\n  {text!r}\n  {raid} check: {done!r}\n  the model: {status}, {want!r}")
            return 1
    counts = collections.Counter(" ".join(want.split()[:2]) for want in wanted)
    print(f"judged: {len(cases)} reports judged as the model does: " + ", ".join(f"{n} {kind}" for kind, n in sorted(counts.items()))
          + (f"; {few} of them by {raid} check" if few else ""))
    return 0


if __name__ == "__main__":
    sys.exit(main(sys.argv[1], int(sys.argv[2]), int(sys.argv[3]), int(sys.argv[4]) if sys.argv[4:] else 0, (sys.argv[5:] or [None])[0]))
