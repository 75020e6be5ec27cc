#!/usr/bin/env python3
"""Writes random letters to sequencers, with what each sends then, and its history in the end, as the reference model has
them, for the program raid_sequencer_table.

  cat tests/worked_letters.txt > crates/raid_sequencer_table/stdin
  make_sequencer_letters.py [--sequences N] [--seed N] >> crates/raid_sequencer_table/stdin

The reference model is read from the folder that RAID_ORACLE names, ../shared/oracle beside the repository by default.
Most letters are such as sites and the monitor may well send at that moment; one in eight is any letter: of a wrong
sender, of an unknown transaction, item or site; and some others are of another session of their site.

  the lines of a workload text, to its `done`: the workload of all that follows
  sequence NAME  begins a sequence of letters to a new sequencer
  > .., < ..     a letter, and those that the sequencer sends then: see letters.py
  N ENTRY..      an entry of its history in the end, as in a report
  order T..      ends the sequence: the serial order of what has committed, as in a report
"""
from dataclasses import replace

from drawing import write_cases
from letters import Sequences, any_message, some_writes, step_lines, world
import fuzz
from raid_report import print_entry, txn_word
from raid_rules import order
from raid_types import Homed
from raid_world import (AckLetter, BeginAsk, CommitAskLetter, CopyDone, DownLetter, EndAsk, Hello, Letter, MONITOR,
                        ReadAskLetter, Request, SEQUENCER, server_of)

SEQUENCES_OF_A_WORKLOAD = 4


class Around:
    """What the rest of a world may send to the sequencer."""

    def __init__(self, w, rng):
        self.w, self.rng = w, rng
        self.server = world.Sequencer(w)
        self.p = self.server.p

    def of_site(self, s, message, session=None):
        session = self.p.sessions[s - 1] if session is None else session
        return server_of(s), Letter(0, session, 0, message)

    def of_home(self, t, message):
        return self.of_site(self.w.home(t), message)

    def down(self, s, session):
        return MONITOR, Letter(0, 0, 0, DownLetter(s, session))

    def request(self, t):
        """What a transaction asks to commit: what it has read, and some writes."""
        rng, p = self.rng, self.p
        items = {x: rng.randint(-9, 99) for _, x, _ in p.reads_of.get(t, ())}
        under = list(p.vector())
        if rng.random() < 0.07:
            under[rng.randrange(self.w.sites)] = rng.randint(0, 2)
        writes = some_writes(rng, list(range(len(self.w.items))))
        return Request(tuple(items.items()), writes[:2], tuple(under))

    def of_running(self, t):
        """What may come of a transaction that runs."""
        rng, busy = self.rng, 0.3 if t in self.p.waits else 1
        reads = len(self.p.reads_of.get(t, ()))
        found = [((0.5 + min(reads, 2)) * busy, self.of_home(t, CommitAskLetter(t, self.request(t))))]
        found.append((0.1 * busy, self.of_home(t, EndAsk(t, rng.choice(("own", "overflow")), self.request(t).reads))))
        if self.w.items:
            x = rng.randrange(len(self.w.items))
            found.append((3 * busy, self.of_home(t, ReadAskLetter(t, reads + 1, x))))
        return found

    def of_sites(self):
        """What may come of sites, and of the monitor about them."""
        p, found = self.p, []
        for s in range(1, self.w.sites + 1):
            last = p.last_session[s - 1]
            if p.is_up(s):
                found.append((0.15, self.down(s, last)))
                found.append((0.05, self.of_site(s, Hello(), last + 1)))
                if p.next_of(s):
                    found.append((3 if len(p.running) < 3 else 0.5, self.of_site(s, BeginAsk(p.next_of(s)))))
            else:
                found.append((1.5, self.of_site(s, Hello(), last + 1)))
                found.append((0.3, self.down(s, last + 1)))
        return found

    def of_copies(self):
        """What may come of writes that were applied and of copies that are under way."""
        p, found = self.p, []
        for s, t in sorted(p.owing):
            found.append((1.5, self.of_site(s, AckLetter(t))))
        for target, x in sorted(self.server.out):
            version = p.version(x) if self.rng.random() < 0.8 else self.rng.randint(0, 9)
            found.append((3, self.of_site(target, CopyDone(x, version))))
        return found

    def likely(self):
        """A letter that may well come now."""
        p = self.p
        found = self.of_sites() + self.of_copies()
        for t in range(len(self.w.programs) + 1, self.w.count + 1):
            if p.again(t) and t not in p.begin:
                found.append((3, self.of_home(t, BeginAsk(t))))
        for t in sorted(p.running):
            found += self.of_running(t)
        return self.rng.choices([letter for _, letter in found], [weight for weight, _ in found])[0]

    def any(self):
        """Any letter of a server of the world, mostly of the session that its site is in."""
        rng = self.rng
        sender = rng.choice([MONITOR, SEQUENCER, *map(server_of, range(1, self.w.sites + 1))])
        present = self.p.sessions[sender - 2] if sender > SEQUENCER else 0
        session = present if rng.random() < 0.7 else rng.randint(0, 3)
        return sender, Letter(0, session, 0, any_message(self.w, rng))

    def next(self):
        kind = self.rng.random()
        if kind < 0.125:
            return self.any()
        sender, letter = self.likely()
        if kind < 0.18 and sender > SEQUENCER and letter.from_:
            return sender, Letter(0, letter.from_ + self.rng.choice((-1, 1)), 0, letter.message)
        return sender, letter


def history_lines(w, p):
    """The lines of all entries and of the order."""
    entries = [f"{n} {print_entry(w, e)}" for n, e in enumerate(p.entries, 1)]
    return entries + ["order " + (" ".join(txn_word(w, t) for t in order(p)) or "-")]


def sequence_lines(k, w, rng):
    around = Around(w, rng)
    lines = [f"sequence random {k}"]
    for _ in range(rng.randint(5, 23)):
        lines += step_lines(around.server.hear, *around.next())
    return lines + history_lines(w, around.p)


def small_workload(rng):
    """A workload whose programs are empty, since a sequencer doesn't read them."""
    w = fuzz.random_workload(rng, most_sites=3, events=False, switches=3)
    return replace(w, programs=tuple(Homed(homed.home, ()) for homed in w.programs))


if __name__ == "__main__":
    write_cases(__doc__, "sequences", 400, Sequences(small_workload, sequence_lines, SEQUENCES_OF_A_WORKLOAD).lines)
