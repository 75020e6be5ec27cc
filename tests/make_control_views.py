#!/usr/bin/env python3
"""Writes small random views, with questions and the answers of the reference model, for the program raid_controls_table.

  make_control_views.py [--views N] [--seed N] > crates/raid_controls_table/stdin

The reference model is read from the folder that RAID_ORACLE names, ../shared/oracle beside the repository by
default. Each view is of one kind, which has granted each Read and Commit of it. Two views in five have a cut: of
the entries before it they have none, as the new controller's view in a suffix-sufficient switch, or the Begins and
Reads of some transactions that run on, as after a conversion. One view in five goes on with a conversion: what its
controller carries is loaded into a fresh one of another kind, which grants and is asked from then on.

Each line is one word or number after another, with single spaces. Items are counted from 0, everything else
from 1. Lines of entries are those of make_views.py.

  view K KIND                          begins view K of a controller of this kind
  entry NUMBER STAMP ..                an entry, which the controller notes
  ask-read TXN STAMP ITEM V            the verdict on a read
  ask-commit TXN STAMP V ITEM..        the verdict on a commit that writes the items
  blocks READER WRITER yes|no ITEM..   whether the controller says that the reader is in the way of the writer of the items
  backward TXN yes|no                  whether it says that the transaction, not ended, is backward in the view
  carried KIND                         loads what the controller carries into a fresh one of this kind, which is told and
                                       asked all that follows
  end                                  ends the view
"""
import itertools

from drawing import write_cases
from make_views import empty_history, entry_words, free_entry, yes
import raid_rules
from raid_rules import CommitAsk, Control, ReadAsk, View, WHOLE
from raid_types import Begin, Commit, GRANT, KINDS, Read

# How often a Begin, a Read, a Commit, an Abort or an entry of a site comes.
WEIGHTS = (27, 44, 26, 2, 1)


def verdict(p, kind, view, ask):
    return raid_rules.verdict_of(p, Control(kind, view), ask)


def asked(entry):
    """What the transaction of an entry asked for; None where the entry is no action."""
    if isinstance(entry, Read):
        return ReadAsk(entry.txn, entry.item)
    if isinstance(entry, Commit):
        return CommitAsk(entry.txn, entry.request.writes)
    return None


def is_again(p, entry):
    """The entry reads an item that its transaction has read."""
    return isinstance(entry, Read) and any(x == entry.item for _, x, _ in p.acts_of.get(entry.txn, ()))


def granted_entry(p, rng, waiting, weights, draws, judge):
    """An entry that `judge` grants what it asks for, where so many draws find one."""
    for _ in range(draws):
        if not waiting and not p.running:
            return None
        entry = free_entry(p, rng, waiting, weights)
        if is_again(p, entry) and rng.random() < 0.8:
            continue
        ask = asked(entry)
        if ask is None or judge(ask) == GRANT:
            return entry
    return None


def draw(p, rng, waiting, kind, view):
    """Adds an entry that the kind grants over the view, where a few draws find one."""
    entry = granted_entry(p, rng, waiting, WEIGHTS, 6, lambda ask: verdict(p, kind, view, ask))
    if entry:
        p.push(entry)


def kept(p, view, txns):
    """The numbers of these transactions' Begins and Reads in the view."""
    return frozenset(n for n, e in enumerate(p.entries, 1)
                     if n in view and isinstance(e, (Begin, Read)) and e.txn in txns)


def cut(p, rng):
    """A view of what comes next, and maybe of the Begins and Reads of some transactions that run on."""
    some = {t for t in p.running if rng.random() < 0.75} if rng.random() < 0.6 else set()
    return View(kept(p, WHOLE, some), len(p.entries))


def length(p, view):
    return sum(1 for n in range(1, len(p.entries) + 1) if n in view)


def backward(p, view, t):
    """The transaction has not ended in the view, and has a Read there of what a later Commit of another there wrote."""
    return p.end.get(t) not in view and any(
        write and m > n and m in view and u != t
        for n, x, own in p.acts_of.get(t, ()) if not own and n in view
        for m, u, write in p.actions[x])


def asks(p, kind, view):
    """All questions of transactions that go on, by their verdicts."""
    items = len(p.w.items)
    found = {}
    for t in sorted(p.running):
        writes = [tuple((x, 0) for x in some) for k in range(items + 1) for some in itertools.permutations(range(items), k)]
        for ask in [ReadAsk(t, x) for x in range(items)] + [CommitAsk(t, w) for w in writes]:
            found.setdefault(verdict(p, kind, view, ask), []).append(ask)
    return found


def ask_line(p, ask, said):
    """The line of a question and its verdict."""
    stamp = p.begin[ask.txn]
    if isinstance(ask, ReadAsk):
        return f"ask-read {ask.txn} {stamp} {ask.item} {said}"
    return f"ask-commit {ask.txn} {stamp} {said}" + "".join(f" {x}" for x, _ in ask.writes)


def ask_lines(p, rng, kind, view, count):
    """Some of the questions: half of them such as are refused or have to wait, where there are such."""
    by_verdict = asks(p, kind, view)
    lines = []
    for k in range(count):
        held = [v for v in sorted(by_verdict) if v != GRANT and by_verdict[v]]
        said = held[0] if held and k % 2 == 0 else GRANT
        if not by_verdict.get(said):
            continue
        ask = rng.choice(by_verdict[said])
        by_verdict[said].remove(ask)
        lines.append(ask_line(p, ask, said))
    return lines


def more_lines(p, rng, kind, view):
    """Who is backward, and now and then who blocks whom."""
    lines = []
    begun = sorted(p.begin)
    readers = [t for t in begun if any(not write for _, _, write in p.acts_of.get(t, ()))]
    if readers and rng.random() < 0.6:
        t = rng.choice([t for t in readers if backward(p, view, t)] or readers) if rng.random() < 0.5 else rng.choice(begun)
        lines.append(f"backward {t} {yes(backward(p, view, t))}")
    if len(begun) > 1 and p.running and rng.random() < (0.7 if kind == "lock" else 0.1):
        writer = rng.choice(sorted(p.running))
        reader = rng.choice(readers or begun)
        writes = rng.sample(range(len(p.w.items)), rng.randint(1, len(p.w.items)))
        held = kind == "lock" and reader in raid_rules.readers(p, view, writer, [(x, 0) for x in writes])
        lines.append(f"blocks {reader} {writer} {yes(held)} " + " ".join(map(str, writes)))
    return lines


def entry_lines(p, view, after):
    """The entries of the view with larger numbers."""
    lines = []
    for at, e in enumerate(p.entries, 1):
        if at > after and at in view:
            stamp, words = entry_words(p, e)
            lines.append(f"entry {at} {stamp} {words}")
    return lines


def view_lines(k, rng, kind):
    """A view with its questions; None where it is too long or short, and mostly where all questions would be granted."""
    p, waiting = empty_history(rng, rng.choice((1, 1, 2)), rng.choice((1, 2, 2, 2, 3)), rng.randint(2, 4))
    view = WHOLE
    if rng.random() < 0.4:
        before = rng.choice(KINDS)
        for _ in range(rng.randint(2, 7)):
            draw(p, rng, waiting, before, WHOLE)
        view = cut(p, rng)
    wanted = rng.choice((4, 4, 5, 5, 6, 6, 7, 9))
    for _ in range(12):
        if length(p, view) < wanted:
            draw(p, rng, waiting, kind, view)
    if set(asks(p, kind, view)) <= {GRANT} and rng.random() < 0.9:
        return None
    if not 4 <= length(p, view) <= 9:
        return None
    lines = [f"view {k} {kind}", *entry_lines(p, view, 0), *ask_lines(p, rng, kind, view, rng.choice((2, 2, 3, 3, 4))),
             *more_lines(p, rng, kind, view)]
    if k % 5 == 0:
        going = {t for t in p.begin if p.end.get(t) not in view}
        at = len(p.entries)
        view = View(kept(p, view, going), at)
        kind = rng.choice([other for other in KINDS if other != kind])
        for _ in range(rng.randint(0, 3)):
            draw(p, rng, waiting, kind, view)
        lines += [f"carried {kind}", *entry_lines(p, view, at), *ask_lines(p, rng, kind, view, rng.randint(2, 3)),
                  *more_lines(p, rng, kind, view)]
    return lines + ["end"]


def drawn_lines(k, rng):
    """The kinds take turns; a view with fewer than two questions on verdicts won't do."""
    lines = view_lines(k, rng, KINDS[(k - 1) % len(KINDS)])
    return lines if lines and sum(line.startswith("ask") for line in lines) > 1 else None


if __name__ == "__main__":
    write_cases(__doc__, "views", 3000, drawn_lines)
