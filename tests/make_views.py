#!/usr/bin/env python3
"""Writes random views, with questions and the answers of the reference model, for the program raid_rules_table.

  (cat worked_views.txt; make_views.py [--views N] [--seed N]) > crates/raid_rules_table/stdin

The reference model is read from the folder that RAID_ORACLE names, ../shared/oracle beside the repository by
default. A third of the views come from legal histories, as whole histories or as what a controller sees after a
switch; the others are histories that no controller held back, so that every kind has something to refuse and
many have cycles.

Each line is one word or number after another, with single spaces. Items are counted from 0, everything else
from 1.

  view K SITES                                begins view K of a history of so many sites
  holders SITE..                              the holders of the next item
  entry NUMBER STAMP begin TXN SITE           an entry: begin, read, commit, abort, ack, down, up, clear or
                                              other (a wait or a switch, which no rule here looks at)
  ask-read TXN STAMP ITEM V V V V             the verdicts of lock, stamp, valid and graph on a read
  ask-commit TXN STAMP V V V V ITEM..         the same on a commit that writes the items
  blocks READER WRITER yes|no ITEM..          whether the reader is in the way of the writer of the items
  backward TXN yes|no                         whether the transaction is backward
  vector NUMBER..                             the sessions
  owes SITE TXN yes|no                        whether the site owes an acknowledgement
  locked SITE ITEM yes|no                     whether the site's copy of the item is locked
  source ITEM HOME SITE|0                     where a transaction of this home reads the item, 0 for nowhere
  order TXN..                                 the serial order
  cyclic                                      the committed transactions have a cycle
  end                                         ends the view

The views of worked_views.txt, which stand first, were worked by hand. Their verdicts are of one kind alone: its word and the verdict stand
in place of the four. They have these lines too.

  cyclic TXN..                                the cycle is of these transactions
  leads TXN TXN yes|no                        whether the conflicts lead from the one to the other
  noted                                       the numbers and stamps are those of a whole history
  # WORDS                                     a comment
"""
import model  # noqa: F401
from drawing import write_cases
import fuzz
import raid_rules
from raid_rules import CommitAsk, Control, Prefix, ReadAsk, View, WHOLE
from raid_types import (Abort, Ack, Begin, Cause, Clear, Commit, Down, Homed, ItemLine, KINDS, Read, Request, Up,
                        Workload)


def legal_history(rng):
    """A history drawn entry by entry from those that may come next."""
    w = fuzz.random_workload(rng)
    p = Prefix(w)
    for _ in range(rng.randint(4, 26)):
        entry = raid_rules.forced(p)
        if entry is None:
            choices = fuzz.legal_entries(p, rng)
            if not choices:
                break
            entry = rng.choice(choices)
        p.push(entry)
    return p


def some_items(rng, items):
    return tuple((x, rng.randint(0, 9)) for x in rng.sample(range(items), rng.randint(0, items)))


def free_history(rng):
    """A history in which transactions read, commit and abort as they like, and sites come and go."""
    p, waiting = empty_history(rng, rng.randint(1, 3), rng.randint(1, 3), rng.randint(3, 7))
    for _ in range(rng.randint(6, 22)):
        if waiting or p.running:
            p.push(free_entry(p, rng, waiting))
    return p


def empty_history(rng, sites, items, txns):
    """A history without entries, and its transactions."""
    lines = tuple(ItemLine("abcd"[x], 0, tuple(sorted(rng.sample(range(1, sites + 1), rng.randint(1, sites)))))
                  for x in range(items))
    homes = tuple(Homed(rng.randint(1, sites), ()) for _ in range(txns))
    base = fuzz.random_workload(rng, most_sites=1, events=False, switches=0)
    w = Workload(**{**{f: getattr(base, f) for f in base.__dataclass_fields__}, "sites": sites, "items": lines,
                    "programs": homes, "switches": (), "events": ()})
    return Prefix(w), list(range(1, txns + 1))


def free_entry(p, rng, waiting, weights=(30, 40, 18, 2, 10)):
    w, running = p.w, sorted(p.running)
    items = len(w.items)
    sort = rng.choices(("begin", "read", "commit", "abort", "site"), weights)[0]
    if waiting and (sort == "begin" or not running):
        t = waiting.pop(0)
        return Begin(t, w.home(t))
    if sort in ("read", "begin"):
        return Read(rng.choice(running), rng.randrange(items), rng.randint(1, w.sites))
    if sort == "commit":
        writes = some_items(rng, items)
        held = sorted({s for x, _ in writes for s in w.holders(x)})
        applied = tuple(s for s in held if p.is_up(s) and rng.random() < 0.9)
        return Commit(rng.choice(running), Request((), writes, p.vector()), applied)
    if sort == "abort":
        return Abort(rng.choice(running), Cause("own"), None)
    return site_entry(p, rng)


def site_entry(p, rng):
    """An acknowledgement, a stop, a return or a refreshed copy."""
    w, site = p.w, rng.randint(1, p.w.sites)
    if p.owing and rng.random() < 0.4:
        s, t = rng.choice(sorted(p.owing))
        return Ack(t, s)
    if p.locks and rng.random() < 0.4:
        s, x = rng.choice(sorted(p.locks))
        return Clear(s, x, p.version(x))
    if p.is_up(site):
        return Down(site)
    return Up(site, p.last_session[site - 1] + 1)


def entry_words(p, e):
    """An entry's words; its transaction's stamp is 0 where it names none or it has not begun."""
    stamp = p.begin.get(getattr(e, "txn", 0), 0)
    if isinstance(e, Begin):
        return stamp, f"begin {e.txn} {e.home}"
    if isinstance(e, Read):
        return stamp, f"read {e.txn} {e.item} {e.site}"
    if isinstance(e, Commit):
        items = raid_rules.items_of(e.request.writes)
        return stamp, " ".join(map(str, ["commit", e.txn, len(items), *items, *e.applied]))
    if isinstance(e, Abort):
        return stamp, f"abort {e.txn}"
    if isinstance(e, Ack):
        return stamp, f"ack {e.txn} {e.site}"
    if isinstance(e, Down):
        return stamp, f"down {e.site}"
    if isinstance(e, Up):
        return stamp, f"up {e.site} {e.session}"
    if isinstance(e, Clear):
        return stamp, f"clear {e.site} {e.item} {e.version}"
    return stamp, "other"


def yes(b):
    return "yes" if b else "no"


def ask_lines(p, view, rng):
    """Questions of transactions that go on in the view, with the answers of all four kinds."""
    lines = []
    items = len(p.w.items)
    for t in sorted(p.running):
        for _ in range(2 if items else 0):
            stamp = p.begin[t]
            x = rng.randrange(items)
            read = [raid_rules.verdict_of(p, Control(k, view), ReadAsk(t, x)) for k in KINDS]
            lines.append(f"ask-read {t} {stamp} {x} " + " ".join(read))
            writes = some_items(rng, items)
            listed = " ".join(str(x) for x, _ in writes)
            commit = [raid_rules.verdict_of(p, Control(k, view), CommitAsk(t, writes)) for k in KINDS]
            lines.append((f"ask-commit {t} {stamp} " + " ".join(commit) + " " + listed).rstrip())
            others = [u for u in p.running if u != t]
            if others:
                u = rng.choice(others)
                held = u in raid_rules.readers(p, view, t, writes)
                lines.append(f"blocks {u} {t} {yes(held)} {listed}".rstrip())
    return lines


def whole_lines(p, rng):
    """Questions that are asked of whole histories."""
    w = p.w
    lines = [f"backward {t} {yes(raid_rules.backward(p, t))}" for t in sorted(p.running)]
    lines.append("vector " + " ".join(map(str, p.vector())))
    for s in range(1, w.sites + 1):
        for t in sorted(p.committed):
            lines.append(f"owes {s} {t} {yes(p.owes(s, t))}")
        for x in range(len(w.items)):
            lines.append(f"locked {s} {x} {yes(p.locked(s, x))}")
    for x in range(len(w.items)):
        home = rng.randint(1, w.sites)
        sources = p.sources(x)
        source = home if home in sources else (sources[0] if sources else 0)
        lines.append(f"source {x} {home} {source}")
    listed = raid_rules.order(p)
    if p.committed and not listed:
        lines.append("cyclic")
    else:
        lines.append(" ".join(["order", *map(str, listed)]))
    return lines


def view_lines(k, p, view, rng):
    lines = [f"view {k} {p.w.sites}"]
    for x in range(len(p.w.items)):
        lines.append("holders " + " ".join(map(str, p.w.holders(x))))
    for at, e in enumerate(p.entries, 1):
        if at in view:
            stamp, words = entry_words(p, e)
            lines.append(f"entry {at} {stamp} {words}")
    lines += ask_lines(p, view, rng)
    if view == WHOLE:
        lines += whole_lines(p, rng)
    lines.append("end")
    return lines


def drawn_lines(k, rng):
    """Every third view is of a legal history, the others of free ones."""
    if k % 3 == 0:
        p = legal_history(rng)
        return view_lines(k, p, rng.choice([WHOLE, *(c.view for c in p.controls())]), rng)
    p = free_history(rng)
    view = WHOLE
    if rng.random() < 0.3:
        cut = rng.randint(1, len(p.entries))
        kept = {n for n, e in enumerate(p.entries, 1) if n <= cut and isinstance(e, (Begin, Read))
                and e.txn in p.running}
        view = View(frozenset(kept if rng.random() < 0.5 else ()), cut)
    return view_lines(k, p, view, rng)


if __name__ == "__main__":
    write_cases(__doc__, "views", 320, drawn_lines)
