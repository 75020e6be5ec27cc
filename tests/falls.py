#!/usr/bin/env python3
"""Takes random schedules of random workloads of all forms on the reference model's World, and looks at what no contract of a run says of the model.

  falls.py [PICKS [SEED]]

As many workloads are run, each to its end, as have PICKS picks together (50,000). In each of them

  - the measure (costs.py) is below `rounds` at the start, and lower after each pick than before it;
  - at the end no letter is left, the model finds the report sound, and nothing is staged for a transaction that was aborted on its request to
    commit: those that it was staged at were told.

The parts of the measure are kept; at every hundredth pick, at the start and at the end of a run they are compared with the whole sum.
Half of the workloads are drawn by the model's own generator, the others by that of runs.py, and the schedules by the model's choosers.
"""
import collections
import random
import sys

import model  # noqa: F401
import costs
import fuzz
import runs
import letter_cases
from raid_laws import finding, unfinished
from raid_types import Abort, CommitAct
from raid_world import World

PICKS = 50000
# at every so many picks the kept parts are compared with the whole sum
COMPARED = 100


class Refused(Exception):
    """What is looked at doesn't hold; the text says what."""


def need(holds, text):
    if not holds:
        raise Refused(text)


def look_at_start(kept):
    need(kept.total() == kept.whole(), "the kept measure isn't the whole one")
    most = costs.rounds(kept.world.w)
    need(kept.total() < most, f"the measure {kept.total()} isn't below {most} at the start")


def look_at_pick(kept, pick, picks):
    """Makes the pick, the picks-th; the fall of the measure."""
    kind = letter_cases.name_of(kept.world.links[pick][0].message)
    fall = kept.pick(pick)
    need(fall > 0, f"the measure falls by {fall} at {kind}")
    need(picks % COMPARED or kept.total() == kept.whole(), "the kept measure isn't the whole one")
    return kind, fall


def staged_in_vain(world):
    """The sites and transactions, aborted on their requests to commit, for which a site still has staged writes."""
    p = world.sequencer.p
    asked = {e.txn for e in p.entries if isinstance(e, Abort) and isinstance(e.act, CommitAct)}
    return [(s, t) for s, site in world.sites.items() for t in site.staged if t in asked]


def look_at_end(kept):
    world = kept.world
    need(world.idle(), "a letter is left")
    need(kept.total() == kept.whole(), "the kept measure isn't the whole one")
    found = finding(world.w, world.report())
    need(found == "sound", f"{found}: {unfinished(world.sequencer.p)}" if found == "fails finished" else found)
    staged = staged_in_vain(world)
    need(not staged, "".join(f"t{t} stays staged at s{s}" for s, t in staged[:1]))


def followed(world, choose):
    """Runs the world to its end, as `choose` says, and looks at all; yields the kind of each letter that was taken, and the fall."""
    kept, picks = costs.Kept(world), 0
    look_at_start(kept)
    while choices := world.choices():
        yield look_at_pick(kept, choose(choices, picks), picks)
        picks += 1
    look_at_end(kept)


def workload(rng, k):
    """The k-th workload."""
    return runs.drawn(rng, k // 2) if k % 2 else fuzz.random_workload(rng)


def told(k, picks, has, kinds, falls):
    """The line for all that was seen."""
    rarest = min(letter_cases.ORDER, key=lambda kind: kinds[kind])
    forms = ", ".join(f"{has[name]} with {name}" for name in ("stops", "returns", "switches", "restarts"))
    return (f"falls: {picks} picks of {k} workloads ({forms}): the measure fell at each, by {falls[0]} to {falls[1]}, and each report is sound; "
            f"of the {len(letter_cases.ORDER)} kinds of letters {rarest} was taken least, {kinds[rarest]} times")


def has_of(w):
    """What the workload has, for the count."""
    yield from runs.counted(w)
    if w.switches:
        yield "switches"
    if any(not e.stop for e in w.events):
        yield "returns"


def main(most, seed):
    picks, k, has, kinds, least, largest = 0, 0, collections.Counter(), collections.Counter(), None, 0
    while picks < most:
        rng = random.Random(f"falls {seed} {k}")
        w = workload(rng, k)
        chooser = fuzz.Chooser(rng, w)
        try:
            for kind, fall in followed(World(w), chooser.choose):
                picks += 1
                kinds[kind] += 1
                least, largest = fall if least is None else min(least, fall), max(largest, fall)
        except Refused as refused:
            print(f"falls: seed {seed}, workload {k}, policy {chooser.policy}: {refused}\n{fuzz.print_workload(w).decode()}")
            return 1
        has.update(has_of(w))
        k += 1
    print(told(k, picks, has, kinds, (least, largest)))
    return 0


if __name__ == "__main__":
    sys.exit(main(int(sys.argv[1]) if sys.argv[1:] else PICKS, int(sys.argv[2]) if sys.argv[2:] else 1))
