"""The measure of a world, computed on the reference model's World from the definitions in crates/raid_measure/specs/Measure.antt.

`Costs` has the costs of a workload's letters, events and so on, by their names there, and `measure` sums all parts of a world anew. `Kept`
keeps the parts while a world takes letters, and sums only those again that a pick touches. `rounds` is what the measure is below at the start
(crates/raid_steps/specs/World.antt).
"""
import model  # noqa: F401
import raid_world as letters
from raid_types import Begin
from raid_world import MONITOR, SEQUENCER, server_of, site_of

MOST_READS = 32
READ_COST = 4
RETURN_COST = 2
COPIER_COST = 3
VOTE_COST = 2
# what a stop brings forth beside the starts that are lost: Stop, Halted, Down
STOP_LETTERS = 3
# the letters that cost the same in each workload, but for those that cost 1
FIXED = {letters.ReadAskLetter: READ_COST, letters.ReadDo: 2, letters.Apply: 2, letters.Prepare: 2, letters.CopyDo: COPIER_COST,
         letters.CopyValue: 2, letters.Return: RETURN_COST, letters.Halted: 2}
# of a start in `rounds`: letters, those for each event, and those for each site
START_LETTERS, START_BY_EVENT, START_BY_SITE = 132, 6, 4


def rounds(w):
    """More picks than any run has."""
    events = len(w.events)
    starts = (w.restarts + 1) * len(w.programs) + w.together * events
    return (1 + w.sites + starts * (START_LETTERS + START_BY_EVENT * events + START_BY_SITE * w.sites) + events * (w.sites + 2)
            + COPIER_COST * w.sites * len(w.items) * events)


class Costs:
    """What one thing of a workload may bring forth."""

    def __init__(self, w):
        self.w = w
        self.sites = range(1, w.sites + 1)
        self.commit = 2 * (w.sites - 1) + 1
        self.start = 1 + READ_COST * MOST_READS + self.commit
        self.end = 2 * w.sites + 2
        self.stop = STOP_LETTERS + w.together * self.start
        self.homed = {s: [t for t in range(1, w.count + 1) if w.home(t) == s] for s in self.sites}
        self.down_note = {s: 1 + READ_COST * len(self.homed[s]) for s in self.sites}
        self.up_note = {s: 1 + VOTE_COST * len(self.homed[s]) for s in self.sites}
        self.down = w.sites - 1 + READ_COST * w.count
        self.up = w.sites + VOTE_COST * w.count
        self.stops = {s: sum(e.stop and e.site == s for e in w.events) for s in self.sites}
        self.returns = {s: sum(not e.stop and e.site == s for e in w.events) for s in self.sites}
        self.holding = [(s, x) for s in self.sites for x in range(len(w.items)) if s in w.holders(x)]

    def letter(self, server, message):
        """A letter to a server."""
        kind = type(message)
        if kind is letters.Stop:
            return self.stop
        if kind is letters.DownNote:
            return self.down_note[site_of(server)]
        if kind is letters.UpNote:
            return self.up_note[site_of(server)]
        return FIXED.get(kind, 1)

    def links(self, world):
        """The letters on their way."""
        return sum(self.letter(server, l.message) for (server, _), queue in world.links.items() for l in queue)

    def events(self, fired):
        """The events that aren't sent yet."""
        return sum(self.stop if e.stop else RETURN_COST for e in self.w.events[fired:])

    def ends(self, p):
        """The transactions that haven't ended."""
        return self.end * sum(t not in p.end for t in range(1, self.w.count + 1))

    def program(self, run):
        """A program that runs, by its phase."""
        if run.outstanding:
            return READ_COST * max(0, MOST_READS - (len(run.answers) + 1)) + self.commit
        return 1 if run.preparing else 0

    def site(self, p, state):
        """The transactions that a site may take up, and the programs that run there."""
        idle = sum(t not in p.begin and t not in state.running for t in self.homed[state.site])
        return self.start * idle + sum(map(self.program, state.running.values()))

    def downs_left(self, p, s):
        return max(0, self.stops[s] - len(p.downs.get(s, ())))

    def ups_left(self, p, s):
        return max(0, self.returns[s] - len(p.ups.get(s, ())))

    def turns(self, p):
        """The stops and returns that the history doesn't have yet."""
        return sum(self.down * self.downs_left(p, s) + self.up * self.ups_left(p, s) for s in self.sites)

    def copies(self, sequencer):
        """The copies that may have to be renewed."""
        p, out = sequencer.p, sequencer.out
        downs = {s: self.downs_left(p, s) for s in self.sites}
        all_downs = sum(downs.values())
        count = 0
        for s, x in self.holding:
            is_to_renew = p.is_up(s) and p.locked(s, x) and (s, x) not in out
            count += self.ups_left(p, s) + all_downs - downs[s] + is_to_renew
        return COPIER_COST * count


def measure(costs, world):
    """The measure of the world, all parts summed anew."""
    p = world.sequencer.p
    return (costs.links(world) + costs.events(world.monitor.next) + costs.ends(p) + sum(costs.site(p, state) for state in world.sites.values())
            + costs.turns(p) + costs.copies(world.sequencer))


class Kept:
    """A world whose measure is kept while it takes letters."""

    def __init__(self, world):
        self.world, self.costs = world, Costs(world.w)
        costs, p = self.costs, world.sequencer.p
        self.links, self.events, self.ends = costs.links(world), costs.events(0), costs.ends(p)
        self.sites = {server_of(s): costs.site(p, state) for s, state in world.sites.items()}
        self.turns, self.copies = costs.turns(p), costs.copies(world.sequencer)
        world.sent = self._sent

    def _sent(self, _, receiver, letter):
        self.links += self.costs.letter(receiver, letter.message)

    def total(self):
        return self.links + self.events + self.ends + sum(self.sites.values()) + self.turns + self.copies

    def whole(self):
        """The same, summed anew."""
        return measure(self.costs, self.world)

    def pick(self, pick):
        """Makes the pick, and tells how far the measure fell."""
        world, server, before = self.world, pick[0], self.total()
        history = len(world.sequencer.p)
        self.links -= self.costs.letter(server, world.links[pick][0].message)
        world.pick(pick)
        if server == MONITOR:
            self.events = self.costs.events(world.monitor.next)
        elif server == SEQUENCER:
            self._sequencer(world.sequencer.p.entries[history:])
        else:
            self.sites[server] = self.costs.site(world.sequencer.p, world.sites[site_of(server)])
        return before - self.total()

    def _sequencer(self, placed):
        """The parts that the sequencer's step may touch."""
        sequencer = self.world.sequencer
        if self.costs.w.events:
            self.copies = self.costs.copies(sequencer)
        if placed:
            self.ends, self.turns = self.costs.ends(sequencer.p), self.costs.turns(sequencer.p)
        for e in placed:
            if isinstance(e, Begin):
                self.sites[server_of(e.home)] = self.costs.site(sequencer.p, self.world.sites[e.home])
