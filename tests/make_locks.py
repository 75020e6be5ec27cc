#!/usr/bin/env python3
"""Writes random lists of entries, with the answers of the reference model, for the program raid_faillock_table.

  (cat worked_locks.txt; make_locks.py [--lists N] [--seed N]) > crates/raid_faillock_table/stdin

The reference model is read from the folder that RAID_ORACLE names, ../shared/oracle beside the repository by default. In each list
transactions commit as they like, sites stop and return, and only some of what is owed is acknowledged.

A line is a list: words with single spaces. Digits are transactions, sites and sessions, and the letters x, y, z items.

  h12       the holders of the next item
  c1xy@12   an entry: the Commit of t1, of x and y, applied at s1 and s2
  k1s2      the acknowledgement of t1 by s2
  d2        the Down of s2
  u2n3      the Up of s2, in session 3
  l2x       the Clear of x at s2
  v102      the session of each site in the end
  o123      the sites that owe the acknowledgement of t1: s2 and s3
  bx23      the sites whose copies of x are locked
  rx12      a transaction of home s1 reads x at s2; 0 for nowhere
  a1        some copy is locked, or none is: a0
  s23       the sites that have a locked copy

The lists of worked_locks.txt, which stand first, were worked by hand. A line that begins with `#` is a comment there.
"""
from drawing import write_cases
import make_views
from raid_rules import Prefix, items_of
from raid_types import Ack, Begin, Clear, Commit, Down, Homed, ItemLine, Request, Up, Workload


def letter(x):
    return "xyz"[x]


def digits(numbers):
    return "".join(map(str, numbers))


def random_prefix(rng):
    """The prefix of a history of as many transactions as commit in it, at most nine."""
    sites, items, txns = rng.randint(1, 4), rng.randint(1, 3), rng.randint(2, 6)
    lines = tuple(ItemLine("abc"[x], 0, tuple(sorted(rng.sample(range(1, sites + 1), rng.randint(1, sites))))) for x in range(items))
    base = make_views.fuzz.random_workload(rng, most_sites=1, events=False, switches=0)
    fields = {f: getattr(base, f) for f in base.__dataclass_fields__}
    fields.update(sites=sites, items=lines, programs=tuple(Homed(rng.randint(1, sites), ()) for _ in range(txns)), switches=(), events=())
    p = Prefix(Workload(**fields))
    for t in range(1, txns + 1):
        p.push(Begin(t, p.w.home(t)))
    return p


def commit(p, rng):
    """A Commit of a running transaction; now and then an up holder misses it."""
    writes = make_views.some_items(rng, len(p.w.items))
    held = sorted({s for x, _ in writes for s in p.w.holders(x)})
    applied = tuple(s for s in held if p.is_up(s) and rng.random() < 0.9)
    return Commit(rng.choice(sorted(p.running)), Request((), writes, p.vector()), applied)


def entry_word(e):
    if isinstance(e, Commit):
        return f"c{e.txn}{''.join(letter(x) for x in items_of(e.request.writes))}@{digits(e.applied)}"
    if isinstance(e, Ack):
        return f"k{e.txn}s{e.site}"
    if isinstance(e, Down):
        return f"d{e.site}"
    if isinstance(e, Up):
        return f"u{e.site}n{e.session}"
    if isinstance(e, Clear):
        return f"l{e.site}{letter(e.item)}"
    raise ValueError(e)


def list_line(rng):
    p = random_prefix(rng)
    words = ["h" + digits(p.w.holders(x)) for x in range(len(p.w.items))]
    sites, txns = range(1, p.w.sites + 1), sorted(p.running)
    for _ in range(rng.randint(3, 12)):
        e = commit(p, rng) if p.running and rng.random() < 0.4 else make_views.site_entry(p, rng)
        p.push(e)
        words.append(entry_word(e))
    words.append("v" + digits(p.vector()))
    for t in txns:
        if t in p.committed:
            words.append(f"o{t}" + digits(s for s in sites if p.owes(s, t)))
    for x in range(len(p.w.items)):
        words.append("b" + letter(x) + digits(s for s in sites if p.locked(s, x)))
        home, sources = rng.choice(sites), p.sources(x)
        words.append(f"r{letter(x)}{home}{home if home in sources else (sources[0] if sources else 0)}")
    return " ".join(words)


if __name__ == "__main__":
    write_cases(__doc__, "lists", 3000, lambda _, rng: [list_line(rng)])
