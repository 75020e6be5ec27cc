#!/usr/bin/env python3
"""Writes random histories with suffix-sufficient switches, with questions and the answers of the reference model, for
the program raid_eras_table.

  make_eras.py [--eras N] [--seed N] > crates/raid_eras_table/stdin

The reference model is read from the folder that RAID_ORACLE names, ../shared/oracle beside the repository by
default. In each history one controller decides at first; then a switch comes on, and a second one of another kind
decides beside it, until the end is due; then that one decides alone, for a few entries more. What is placed, the
controllers in force have granted. The twelve pairs of kinds take turns, and with valid and graph joined every second
history has a place where all old transactions have ended and the end isn't due.

Each line is one word or number after another, with single spaces. Items are counted from 0, everything else
from 1. Lines of entries are those of make_views.py.

  view K KIND                          begins history K, with a controller of this kind
  entry NUMBER STAMP ..                the next entry
  ask-read TXN STAMP ITEM V            the verdict of the controllers in force on a read
  ask-commit TXN STAMP V ITEM..        the verdict on a commit that writes the items
  blocks READER WRITER yes|no ITEM..   whether one of the controllers in force says that the reader is in the way of the writer
                                       of the items
  suffix KIND                          the next entry: a suffix-sufficient switch to the kind comes on
  due yes|no                           whether its end is due; where it is, the next entry is the end
  end                                  ends the history
"""
import itertools

from drawing import write_cases
from make_control_views import ask_line, granted_entry
from make_views import empty_history, entry_words, yes
import raid_rules
from raid_rules import CommitAsk, ReadAsk
from raid_types import GRANT, KINDS, SwitchEnd, SwitchOn

# How often a Begin, a Read, a Commit, an Abort or an entry of a site comes.
WEIGHTS = (25, 42, 28, 4, 1)
PAIRS = list(itertools.permutations(KINDS, 2))


def place(p, entry, words=None):
    """Adds the entry, and says its line."""
    p.push(entry)
    if words:
        return words
    stamp, words = entry_words(p, entry)
    return f"entry {len(p)} {stamp} {words}"


def questions(p):
    """All questions of running transactions, by their verdicts."""
    items = range(len(p.w.items))
    writes = [some for k in range(len(items) + 1) for some in itertools.combinations(items, k)]
    found = {}
    for t in sorted(p.running):
        for ask in [ReadAsk(t, x) for x in items] + [CommitAsk(t, tuple((x, 0) for x in some)) for some in writes]:
            found.setdefault(raid_rules.verdict(p, ask), []).append(ask)
    return found


def question_line(p, rng):
    """A question, mostly one that is refused or has to wait, where there is one."""
    by_verdict = questions(p)
    held = [v for v in sorted(by_verdict) if v != GRANT]
    said = rng.choice(held) if held and rng.random() < 0.75 else GRANT
    if not by_verdict.get(said):
        return []
    return [ask_line(p, rng.choice(by_verdict[said]), said)]


def blocks_line(p, rng):
    """Who keeps whom from writes, now and then where one of the controllers is lock."""
    kinds = [control.kind for control in p.controls()]
    if len(p.running) < 2 or "lock" not in kinds or rng.random() < 0.7:
        return []
    reader, writer = rng.sample(sorted(p.running), 2)
    writes = rng.sample(range(len(p.w.items)), rng.randint(1, len(p.w.items)))
    held = reader in raid_rules.waits_for(p, writer, tuple((x, 0) for x in writes))
    return [f"blocks {reader} {writer} {yes(held)} " + " ".join(map(str, writes))]


def is_late(p):
    """All transactions of the old era have ended, and the end isn't due."""
    return p.joint() and not any(raid_rules.in_old_era(p, t) for t in p.running) and not raid_rules.end_due(p)


def history_lines(k, rng, old, new):
    """A history's lines, and whether its end came late; None where it is too short."""
    p, waiting = empty_history(rng, 1, rng.choice((1, 2, 2, 3)), rng.randint(4, 6))
    p.old = raid_rules.Control(old, raid_rules.WHOLE)
    lines, late, after, ended = [f"view {k} {old}"], False, 0, 0
    before = rng.randint(3, 7)
    for _ in range(22):
        if not p.joint() and not after and len(p) >= before and p.running:
            lines.append(place(p, SwitchOn(1, new, "suffix"), f"suffix {new}"))
            after = 1
        else:
            entry = granted_entry(p, rng, waiting, WEIGHTS, 8, lambda ask: raid_rules.verdict(p, ask))
            if entry is None:
                break
            lines.append(place(p, entry))
            after += 1 if after else 0
        if p.joint():
            due = raid_rules.end_due(p)
            late = late or is_late(p)
            lines.append(f"due {yes(due)}")
            if due:
                p.push(SwitchEnd(1))
        if after and not p.joint():
            ended += 1
        if after or rng.random() < 0.4:
            lines += question_line(p, rng)
        lines += blocks_line(p, rng)
        if after > 11 or ended > 3:
            break
    if after < 4:
        return None
    return lines + ["end"], late, ended > 0


def drawn_lines(k, rng):
    """The pairs of kinds take turns. Every other round of validation and graph testing has a late end, and in three
    rounds of four each history comes to its end."""
    turn, place = divmod(k - 1, len(PAIRS))
    old, new = PAIRS[place]
    wants_late = {old, new} == {"valid", "graph"} and turn % 2 == 0
    wants_end = turn % 4 < 3
    found = history_lines(k, rng, old, new)
    if not found:
        return None
    lines, late, ends = found
    return lines if (late or not wants_late) and (ends or not wants_end) else None


if __name__ == "__main__":
    write_cases(__doc__, "eras", 1000, drawn_lines)
