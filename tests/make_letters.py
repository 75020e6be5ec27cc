#!/usr/bin/env python3
"""Writes random letters to single sites, with what each site sends then and its copies in the end, as the reference
model has them, for the program raid_site_table.

  (cat worked_site_letters.txt; make_letters.py [--sequences N] [--seed N]) > crates/raid_site_table/stdin

The reference model is read from the folder that RAID_ORACLE names, ../shared/oracle beside the repository by default.
Most letters are such as the sequencer and other sites may well send at that moment; one in seven is any letter: of a
wrong sender, to another session, of an unknown transaction, item or site; and some others go to another session.

  the lines of a workload text, to its `done`: the workload of all that follows
  site S         begins a sequence of letters to this site, which is up in session 1
  > .., < ..     a letter, and those that the site sends then: see letters.py
  copies C..     ends the sequence: VALUE@VERSION of each copy of the site, by item

The sequences of worked_site_letters.txt, which stand first, were worked by hand, and have comments. Before `copies` they may have

  state up|down SESSION     whether the site is up then, and its session
"""
from drawing import write_cases
from letters import Sequences, any_message, some_writes, step_lines, world
import fuzz
import raid_text
from raid_world import (Apply, CopyDo, CopyValue, Done, DownNote, Drop, Letter, MONITOR, Prepare, ReadDo, Return, SEQUENCER,
                        Serving, Stop, UpNote, ValueLetter, Vote, Welcome, server_of)

SEQUENCES_OF_A_WORKLOAD = 10


class Around:
    """What the rest of a world may send to one site."""

    def __init__(self, w, site, rng):
        self.w, self.rng = w, rng
        self.server = world.SiteServer(w, site)
        self.others = [s for s in range(1, w.sites + 1) if s != site]
        self.number = 0
        self.once_staged = set()

    def session(self, s):
        """A session of another site: mostly the one that the site knows."""
        known = self.server.vector[s - 1]
        return known if known and self.rng.random() < 0.9 else self.rng.randint(0, 3)

    def of_sequencer(self, message):
        return SEQUENCER, Letter(0, 0, self.server.session, message)

    def of_peer(self, s, message):
        return server_of(s), Letter(0, self.session(s), self.server.session, message)

    def welcome(self):
        vector = [self.rng.choice((0, 1, 1, 1, 2)) for _ in range(self.w.sites)]
        vector[self.server.site - 1] = self.server.session
        here = [t for t in range(1, len(self.w.programs) + 1) if self.w.home(t) == self.server.site]
        return self.of_sequencer(Welcome(tuple(vector), self.rng.choice([*here[:1] * 4, *here, 0])))

    def answers(self, t, run):
        """What may come for a program that runs here."""
        rng, found = self.rng, []
        again = self.w.attempt_of(t) < self.w.restarts and rng.random() < 0.7
        found.append((1, self.of_sequencer(Drop(t, again))))
        if run.outstanding:
            ask = run.outstanding if rng.random() < 0.85 else rng.randint(1, 3)
            if run.item in self.server.copies:
                read = ReadDo(t, ask, run.item, self.server.site, self.server.session)
                found.append((8, self.of_sequencer(read)))
            for s in self.others:
                found.append((2, self.of_sequencer(Serving(t, ask, s))))
                found.append((4, self.of_peer(s, ValueLetter(t, ask, rng.randint(-9, 99)))))
                if run.serving == s:
                    found.append((4, self.of_sequencer(DownNote(s))))
        for s in run.awaited or ():
            no = None if rng.random() < 0.85 else (1, 2)
            found.append((8, self.of_peer(s, Vote(t, no))))
            found.append((1, self.of_sequencer(DownNote(s))))
        if run.outcome is not None and not run.preparing:
            if t in self.server.staged:
                found.append((8, self.of_sequencer(Apply(t, self.number))))
            found.append((6, self.of_sequencer(Done(t))))
        return found

    def for_others(self):
        """What may come whatever runs here."""
        rng, w, held = self.rng, self.w, sorted(self.server.copies)
        found = [(1, (MONITOR, Letter(0, 0, 0, Stop())))]
        t = rng.randint(1, w.count)
        for s in self.others:
            found.append((1, self.of_sequencer(DownNote(s))))
            found.append((2, self.of_sequencer(UpNote(s, rng.randint(1, 3)))))
            found.append((3, self.of_peer(s, Prepare(t, some_writes(rng, held)))))
            if held:
                found.append((2, self.of_sequencer(ReadDo(t, rng.randint(1, 3), rng.choice(held), s, self.session(s)))))
                found.append((2, self.of_sequencer(CopyDo(rng.choice(held), s, self.session(s)))))
                copy = CopyValue(rng.choice(held), rng.randint(-9, 99), rng.choice((0, self.number, self.number + 1)))
                found.append((2, self.of_peer(s, copy)))
        self.once_staged.update(self.server.staged)
        for t in sorted(self.once_staged):
            found.append((4 if t in self.server.staged else 1, self.of_sequencer(Apply(t, self.number))))
            found.append((1, self.of_sequencer(Drop(t, False))))
        return found

    def likely(self):
        """A letter that may well come now."""
        if not self.server.up:
            if self.rng.random() < 0.7:
                return MONITOR, Letter(0, 0, 0, Return())
        elif not any(self.server.vector):
            if self.rng.random() < 0.9:
                return self.welcome()
        self.number += self.rng.randint(1, 3)
        found = self.for_others()
        for t, run in self.server.running.items():
            found += [(3 * weight, letter) for weight, letter in self.answers(t, run)]
        return self.rng.choices([letter for _, letter in found], [weight for weight, _ in found])[0]

    def any(self):
        """Any letter of a server of the world, mostly to the site's session."""
        rng, own = self.rng, self.server.session
        sender = rng.choice([MONITOR, SEQUENCER, SEQUENCER, SEQUENCER, *map(server_of, self.others)])
        to = own if rng.random() < 0.7 else rng.choice((0, own - 1, own + 1))
        return sender, Letter(0, rng.randint(0, 2), to, any_message(self.w, rng))

    def next(self):
        kind = self.rng.random()
        if kind < 0.14:
            return self.any()
        sender, letter = self.likely()
        if kind < 0.2 and sender != MONITOR:
            to = letter.to + self.rng.choice((-1, -1, 1))
            return sender, Letter(letter.clock, letter.from_, to, letter.message)
        return sender, letter


def sequence_lines(_number, w, rng):
    around = Around(w, rng.randint(1, w.sites), rng)
    lines = [f"site {around.server.site}"]
    for _ in range(rng.randint(4, 13)):
        lines += step_lines(around.server.hear, *around.next())
    copies = (f"{value}@{version}" for _, (value, version) in sorted(around.server.copies.items()))
    return lines + [" ".join(["copies", *copies])]


def small_workload(rng):
    """A workload with a home for most programs at few sites."""
    while True:
        w = fuzz.random_workload(rng, most_sites=3, events=False, switches=0)
        if w.items and len(raid_text.print_workload(w)) < 900 and (w.sites > 1 or rng.random() < 0.3):
            return w


if __name__ == "__main__":
    write_cases(__doc__, "sequences", 600, Sequences(small_workload, sequence_lines, SEQUENCES_OF_A_WORKLOAD).lines)
