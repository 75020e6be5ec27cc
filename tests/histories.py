"""Writes random histories and runs of the reference model as lemmas that the check computes.

    histories.py CRATE COUNT SEED

COUNT histories go into the proofs of the crate in that folder. Half are legal ones as the model draws them; in
the others one entry is changed, dropped or moved. Each becomes the lemma that it is legal, or that it is up to
an entry that may not come there, as the model says. A third as many runs of the servers come with them. Each
becomes the lemmas that the machine of raid_steps, given the same picks, ends with the same report, clocks and
journals, and that the report is sound, or, where the run was cut off, that it is serial and its switches did
what they may. The line printed has the counts.
"""
import collections
import dataclasses
import os
import random
import sys

from proving import *

import fuzz
import raid_world
from raid_laws import first_illegal
from raid_types import Cause

LENGTHS = (6, 12, 20, 30)


def drawn(w, rng):
    """A legal history, drawn entry by entry from those that may come."""
    p, most, crowded = Prefix(w), rng.choice(LENGTHS), rng.random() < 0.5
    while len(p.entries) < most:
        e = forced(p)
        if e is None:
            choices = fuzz.legal_entries(p, rng)
            if not choices:
                break
            if crowded and rng.random() < 0.5:
                choices = [c for c in choices if name(c) == "Begin"] or choices
            e = rng.choice(choices)
        p.push(e)
    return list(p.entries)


def ran(w, rng):
    """A run under a schedule that is drawn, some of them hostile, cut off at times; and the schedule."""
    world, choose, most = raid_world.World(w), fuzz.Chooser(rng, w), rng.choice((20, 60, 150, 150))
    schedule = []
    for k in range(most):
        choices = world.choices()
        pick = choose.choose(choices, k) if choices else None
        if pick is None:
            break
        world.pick(pick)
        schedule.append(pick)
    return world, schedule


def other(value, least, most, rng):
    """Another number of the range, if there is one."""
    return rng.choice([n for n in range(least, most + 1) if n != value] or [value])


def changed_pairs(w, ps, rng):
    if ps and rng.random() < 0.5:
        k = rng.randrange(len(ps))
        return ps[:k] + ((ps[k][0], ps[k][1] + rng.choice((1, -1))),) + ps[k + 1:]
    if ps and rng.random() < 0.5:
        return ps[:-1]
    return ps + ((rng.randrange(len(w.items)), 1),) if w.items else ps


def changed_request(w, r, rng):
    field = rng.choice(("reads", "writes", "under"))
    if field != "under":
        return dataclasses.replace(r, **{field: changed_pairs(w, getattr(r, field), rng)})
    k = rng.randrange(w.sites)
    return dataclasses.replace(r, under=r.under[:k] + (max(0, r.under[k] + rng.choice((1, -1))),) + r.under[k + 1:])


def changed_act(w, a, rng):
    if name(a) == "ReadAct":
        return dataclasses.replace(a, item=other(a.item, 0, len(w.items) - 1, rng))
    if name(a) == "CommitAct":
        return dataclasses.replace(a, request=changed_request(w, a.request, rng))
    return dataclasses.replace(a, reads=changed_pairs(w, a.reads, rng))


def changed_sites(w, ss, rng):
    return tuple(sorted(set(ss) ^ {rng.randint(1, w.sites)}))


CAUSE_NAMES = ("own", "overflow", "late", "invalid", "cycle", "deadlock", "homedown", "nocopy")


def changed(w, e, rng):
    """The entry with one field changed."""
    ways = dict(txn=lambda v: other(v, 1, w.count + 1, rng), home=lambda v: other(v, 1, w.sites, rng),
                site=lambda v: other(v, 1, w.sites, rng), item=lambda v: other(v, 0, len(w.items) - 1, rng),
                session=lambda v: max(1, v + rng.choice((1, -1))), version=lambda v: max(0, v + rng.choice((1, -1))),
                request=lambda v: changed_request(w, v, rng), applied=lambda v: changed_sites(w, v, rng),
                cause=lambda v: Cause(rng.choice(CAUSE_NAMES)), act=lambda v: v if v is None else changed_act(w, v, rng),
                switch=lambda v: v + 1, kind=lambda v: rng.choice(sorted(KINDS)), method=lambda v: rng.choice(sorted(METHODS)))
    field = rng.choice([f.name for f in dataclasses.fields(e)])
    return dataclasses.replace(e, **{field: ways[field](getattr(e, field))})


def disturbed(w, es, rng):
    """The history with one entry changed, dropped or moved, and which of these."""
    way, k = rng.choice(("changed", "changed", "dropped", "moved")), rng.randrange(len(es))
    rest = es[:k] + es[k + 1:]
    if way == "changed":
        return es[:k] + [changed(w, es[k], rng)] + es[k + 1:], way
    if way == "moved":
        j = rng.randint(0, len(rest))
        return rest[:j] + [es[k]] + rest[j:], way
    return rest, way


def judged(w, es):
    """The lemma that the history is legal, or that it is up to an entry that may not come; and that number."""
    bad = first_illegal(w, es)
    legal_part = es if bad is None else es[:bad - 1]
    proofs, refusal = followed(w, es)
    out = workload(w)
    out += f"\nabbrev h : List Entry\nh ={' ' * (not legal_part)}{stacked([entry(e) for e in legal_part])}\n"
    out += f"\nlegal : Legal w h\nlegal = {all_of(proofs)}\n"
    if bad is not None:
        out += f"\nrefused : Allowed w (noted h) ({entry(es[bad - 1])}) → ⊥\nrefused = {refusal}\n"
    return out, bad


def told(w, world, schedule):
    """The lemmas on a run and its report."""
    out = workload(w) + f"\nabbrev told : Report\ntold = {report(world.report())}\n"
    return out + sound_parts(w, world.report(), finished=world.idle()) + run_lemmas(world, schedule)


def count_parts(counts, w, es):
    counts.update(name(e) for e in es)
    counts.update("opening " + w.kind + " " + w.structure for _ in es[:1])
    counts.update(f"switch {e.method} to {e.kind}" for e in es if name(e) == "SwitchOn")
    counts.update("abort " + e.cause.name for e in es if name(e) == "Abort")
    counts.update("new attempt" for e in es if name(e) == "Begin" and w.attempt_of(e.txn) > 0)


def history(rng, spoil, counts):
    """The module of a history, with one entry changed, dropped or moved where it is to be spoilt."""
    w = fuzz.random_workload(rng)
    es = drawn(w, rng)
    if spoil and es:
        es, way = disturbed(w, es, rng)
        counts["one entry " + way] += 1
    out, bad = judged(w, es)
    counts["histories legal" if bad is None else "histories refused at an entry"] += 1
    count_parts(counts, w, es)
    return out


def run(rng, counts):
    """The module of a run's report."""
    w = fuzz.random_workload(rng)
    world, schedule = ran(w, rng)
    counts["picks"] += len(schedule)
    counts["reports sound" if world.idle() else "reports cut off, serial and switched"] += 1
    count_parts(counts, w, world.report().entries)
    return told(w, world, schedule)


def main():
    crate, count, seed = sys.argv[1], int(sys.argv[2]), sys.argv[3]
    counts = collections.Counter()
    modules = {f"History{k}": history(random.Random(f"{seed} history {k}"), k % 2 == 1, counts) for k in range(count)}
    modules |= {f"Run{k}": run(random.Random(f"{seed} run {k}"), counts) for k in range(count // 3)}
    for module, out in modules.items():
        with open(os.path.join(crate, "proofs", module + ".antt"), "w") as f:
            f.write(f"-- A random one, of seed {seed}.\n{used(HEAD + STEPS_HEAD, out)}{out}")
    with open(os.path.join(crate, "proofs", "Lib.antt"), "w") as f:
        f.write("".join(f"mod {module}\n" for module in sorted(modules)))
    print("; ".join(f"{what}: {n}" for what, n in sorted(counts.items())))


if __name__ == "__main__":
    main()
