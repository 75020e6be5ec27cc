"""Reads and prints random reports, and reports that were changed, as the reference model does.

    reports.py PROGRAM COUNT SEED

PROGRAM is raid_try_report as it is built. COUNT reports are made, each with a workload. Half are those of a run,
half are drawn entry by entry with no regard to whether they may come. Each is given as it is printed, and twice
more with one thing changed: a byte changed, dropped or put in, a line dropped, doubled or swapped with another, a
word replaced, or the text cut. A report is to be printed again as it was, with its summary; any other text is to
be refused at the line that the model names.
"""
import random
import struct
import subprocess
import sys

import model  # noqa: F401
import fuzz
import raid_laws
import raid_text
import raid_world
from raid_report import brief, parse_report, print_report
from raid_types import (CAUSES, KINDS, METHODS, I64_MAX, I64_MIN, U32_MAX, Abort, Ack, Begin, Cause, Clear, Commit,
                        CommitAct, CopyLine, Down, EndedAct, Read, ReadAct, Report, Request, SwitchEnd, SwitchOn, Up,
                        Wait)

BYTES = b"0123456789 st,-=.\n\r\tabrx_:\x00\xff"
WORDS = (b"", b"-", b"0", b"01", b"-0", b"t0", b"t1.1", b"t1.0", b"t1", b"s0", b"s9", b"s1", b"a", b"a=1", b"256",
         b"4294967295", b"4294967296", b"9223372036854775808", b"-9223372036854775808", b"commit", b"read", b"order", b"done")


def value(rng):
    return rng.choice((0, 1, -1, rng.randint(-999, 999), I64_MIN, I64_MAX, rng.randint(I64_MIN, I64_MAX)))


def number(rng):
    return rng.choice((0, 1, 2, rng.randint(0, 999), U32_MAX, rng.randint(0, U32_MAX)))


def pairs(w, rng):
    return tuple((rng.randrange(len(w.items)), value(rng)) for _ in range(rng.randrange(4))) if w.items else ()


def vector(w, rng):
    return tuple(number(rng) for _ in range(w.sites))


def request(w, rng):
    return Request(pairs(w, rng), pairs(w, rng), vector(w, rng))


def act(w, rng):
    if w.items and rng.random() < 0.5:
        return ReadAct(rng.randrange(len(w.items)))
    return CommitAct(request(w, rng))


def abort(w, t, rng):
    cause = rng.choice(CAUSES)
    if cause in ("own", "overflow"):
        return Abort(t, Cause(cause), EndedAct(pairs(w, rng)))
    if cause == "switchoff":
        return Abort(t, Cause(cause, switch=rng.randrange(256)), None)
    if cause == "homedown":
        return Abort(t, Cause(cause), None)
    return Abort(t, Cause(cause, vector=vector(w, rng) if cause == "stale" else ()), act(w, rng))


def entry(w, rng):
    """An entry that names only what the workload has."""
    s = rng.randint(1, w.sites)
    some = [SwitchOn(rng.randrange(256), rng.choice(KINDS), rng.choice(METHODS)), SwitchEnd(rng.randrange(256)), Down(s),
            Up(s, number(rng))]
    if w.items:
        some.append(Clear(s, rng.randrange(len(w.items)), number(rng)))
    if not w.programs or rng.random() < 0.3:
        return rng.choice(some)
    t = rng.randint(1, len(w.programs) * (w.restarts + 1))
    applied = tuple(r for r in range(1, w.sites + 1) if rng.random() < 0.5)
    some = [Begin(t, s), Wait(t, request(w, rng)), Commit(t, request(w, rng), applied), abort(w, t, rng), Ack(t, s)]
    if w.items:
        some.append(Read(t, rng.randrange(len(w.items)), s))
    return rng.choice(some)


def drawn(w, rng):
    entries = tuple(entry(w, rng) for _ in range(rng.randrange(20)))
    last = len(w.programs) * (w.restarts + 1)
    order = tuple(rng.randint(1, last) for _ in range(rng.randrange(5))) if last else ()
    finals = tuple((x, value(rng)) for x in range(len(w.items)))
    copies = tuple(CopyLine(s, x, value(rng), number(rng)) for s, x in raid_laws.copy_places(w))
    return Report(entries, order, finals, copies)


def ran(w, rng):
    world = raid_world.World(w)
    while choices := world.choices():
        world.pick(rng.choice(choices))
    return world.report()


def changed(text, rng):
    """The text with one thing changed."""
    lines = text.split(b"\n")[:-1]
    at, how = rng.randrange(len(lines)), rng.randrange(8)
    if how < 3:
        k = rng.randrange(len(text))
        put = b"" if how == 0 else bytes((rng.choice(BYTES),))
        return text[:k] + put + text[k + (how < 2):]
    if how == 3:
        return text[:rng.randrange(len(text))]
    if how == 4:
        del lines[at]
    elif how == 5:
        lines.insert(at, lines[at])
    elif how == 6:
        to = rng.randrange(len(lines))
        lines[at], lines[to] = lines[to], lines[at]
    else:
        words = lines[at].split(b" ")
        words[rng.randrange(len(words))] = rng.choice(WORDS)
        lines[at] = b" ".join(words)
    return b"".join(line + b"\n" for line in lines)


def made(k, seed):
    """The k-th workload, and three texts."""
    rng = random.Random(f"report {seed} {k}")
    w = fuzz.random_workload(rng)
    text = print_report(w, ran(w, rng) if k % 2 else drawn(w, rng))
    return w, (text, changed(text, rng), changed(text, rng))


def answers(program, cases):
    given = b"".join(struct.pack(">I", len(text)) + text for w, report in cases for text in (raid_text.print_workload(w), report))
    told = subprocess.run([program], input=given, stdout=subprocess.PIPE, check=True).stdout
    return told.split(b"--\n")[:-1]


def wanted(w, text):
    report = parse_report(w, text)
    if isinstance(report, int):
        return b"line %d\n" % report
    return text + brief(w, report)


def main(program, count, seed):
    cases = [(w, text) for w, texts in (made(k, seed) for k in range(count)) for text in texts]
    told = answers(program, cases)
    if len(told) != len(cases):
        print(f"reports: {len(told)} answers to {len(cases)} texts")
        return 1
    refused = 0
    for (w, text), answer in zip(cases, told):
        want = wanted(w, text)
        refused += want.startswith(b"line")
        if answer != want:
            print(f"reports: {raid_text.print_workload(w)!r}\n  {text!r}\n  the program: {answer!r}\n  the model: {want!r}")
            return 1
    print(f"reports: {len(cases)} texts read as the model does, {refused} of them refused")
    return 0


if __name__ == "__main__":
    sys.exit(main(sys.argv[1], int(sys.argv[2]), int(sys.argv[3])))
