"""Runs workloads of all forms, and has the reference model judge each report.

With the word `fixed` the program is one that takes the letters in the fixed order, and each report is compared with the model's, byte for byte.
Otherwise it runs its servers on threads: then only workloads of one site without stops have one report, and the others' are judged alone.

Half of the workloads are drawn by the model's own generator; the others here, each with one to four sites, of
every kind and structure, switches of every method that the structure has, stops and returns, and restarts. Each report
of the program is judged by the model, too.

    runs.py PROGRAM fixed|run COUNT [SEED]
"""
import collections
import itertools
import random
import sys

import model  # noqa: F401
import fuzz
import oracle
from program import expected, run
from raid_text import parse, print_workload
from raid_types import Event, Homed, KINDS, STRUCTURES, Switch

FORMS = list(itertools.product(KINDS, STRUCTURES, (1, 2, 3, 4)))


def switches(rng, kind, structure, count):
    """Switches by every method that the structure has, one after another."""
    methods = ["convert", "suffix"] + (["generic"] if structure == "generic" else [])
    chosen, trigger = [], rng.randint(1, 3)
    for _ in range(count):
        kind = rng.choice([other for other in KINDS if other != kind])
        chosen.append(Switch(kind, rng.choice(methods), trigger))
        trigger += rng.randint(0, 3)
    return tuple(chosen)


def events(rng, sites, count):
    """Stops and returns of sites, in turn."""
    chosen, stopped, trigger = [], set(), 1
    for _ in range(count):
        site = rng.choice(sorted(stopped)) if stopped and rng.random() < 0.5 else rng.randint(1, sites)
        chosen.append(Event(site not in stopped, site, trigger))
        stopped ^= {site}
        trigger += rng.choice((0, 0, 1, 1, 2))
    return tuple(chosen)


def drawn(rng, k):
    """A workload of the k-th form, with more transactions and at more sites than the model's generator draws."""
    kind, structure, sites = FORMS[k % len(FORMS)]
    while True:
        base = fuzz.random_workload(rng, most_sites=sites)
        if base.sites == sites:
            break
    fields = {name: getattr(base, name) for name in base.__dataclass_fields__}
    programs = (fuzz.random_program(rng, len(base.items)) for _ in range(rng.randint(2, 20)))
    fields.update(kind=kind, structure=structure, together=rng.randint(1, 6),
                  programs=tuple(Homed(rng.randint(1, sites), program) for program in programs),
                  switches=switches(rng, kind, structure, rng.randint(0, 4)),
                  events=events(rng, sites, rng.choice((0, 0, 2, 4, 6))))
    return type(base)(**fields)


def counted(w):
    """What the workload has, for the count."""
    yield f"{w.kind} {w.structure}"
    yield "one site" if w.sites == 1 else "several sites"
    for name in {switch.method for switch in w.switches}:
        yield f"{name} switches"
    if w.events:
        yield "stops"
    if w.restarts:
        yield "restarts"


def main():
    program, word, count = sys.argv[1], sys.argv[2], int(sys.argv[3])
    seed = int(sys.argv[4]) if len(sys.argv) > 4 else 1
    failed, tally = 0, collections.Counter()
    for k in range(count):
        rng = random.Random(f"runs {seed} {k}")
        w = drawn(rng, k // 2) if k % 2 else fuzz.random_workload(rng)
        text = print_workload(w)
        w = parse(text)
        status, report = run([program, word], text)
        tally.update(counted(w))
        _, wanted = expected(text)
        judged = oracle.judged("check", text + report) if status == 0 else None
        alike = report == wanted or not (word == "fixed" or w.sites == 1 and not w.events)
        if not alike or judged != (0, "sound\n"):
            failed += 1
            print(f"workload {k}: status {status}, judged {judged}\n{text.decode()}--- program\n{report.decode()}--- model\n{wanted.decode()}")
    fits = "agree with the model and are sound" if word == "fixed" else "are sound"
    print(f"runs: {count} workloads, {count - failed} reports of `{word}` {fits}, {failed} don't; of them: "
          + ", ".join(f"{n} {name}" for name, n in sorted(tally.items())))
    return 1 if failed else 0


if __name__ == "__main__":
    sys.exit(main())
