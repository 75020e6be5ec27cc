"""Lets a world of the reference model take a letter, and tells which case of the steps that was.

The cases are those that the definitions of crates/raid_steps/specs (Monitor, Sequencer, Site) tell apart: for each message what the server
that takes it may find. `take` makes a pick and gives the message's name and the case; `ORDER` lists the messages as docs/protocol.md does.
"""
import model  # noqa: F401
import raid_world as letters
from raid_types import Abort, Begin, Clear, Commit, Down, Read, Wait
from raid_world import MONITOR, SEQUENCER, site_of

NAMES = {"BeginAsk": "Begin", "ReadAskLetter": "ReadAsk", "CommitAskLetter": "CommitAsk", "AckLetter": "Ack", "ValueLetter": "Value",
         "DownLetter": "Down"}
ORDER = ("Welcome", "ReadDo", "Serving", "Apply", "Done", "Drop", "DownNote", "UpNote", "CopyDo", "Hello", "Begin", "ReadAsk", "CommitAsk",
         "EndAsk", "Ack", "CopyDone", "Value", "Prepare", "Vote", "CopyValue", "Stop", "Return", "Halted", "Down", "Ends")
OLD = "of an old session"
STOPPED = "at a stopped site"


def name_of(message):
    """The message's name in the definitions."""
    kind = type(message).__name__
    return NAMES.get(kind, kind)


def answer_case(entry):
    """How a transaction's letter was answered."""
    if isinstance(entry, Abort):
        return entry.cause.name
    return {Wait: "waits", Commit: "commits"}[type(entry)]


def read_case(w, entry):
    """How a ReadAsk was answered."""
    if isinstance(entry, Read):
        return "read at home" if entry.site == w.home(entry.txn) else "read elsewhere"
    return answer_case(entry)


def hello_case(placed):
    """What a Hello placed beside its Up."""
    downs = [isinstance(e, Down) for e in placed]
    leaves, again = downs[0], any(downs[1:])
    return {(False, False): "up", (True, False): "down and up", (False, True): "up and down", (True, True): "down, up and down"}[leaves, again]


def sequencer_case(w, message, placed):
    """The sequencer's case, by the entries that it placed."""
    kind = name_of(message)
    first = placed[0] if placed else None
    if kind == "Hello":
        return hello_case(placed)
    if kind == "Down":
        return "placed" if isinstance(first, Down) else "announced alone"
    if kind == "CopyDone":
        return "cleared" if isinstance(first, Clear) else "renewed by a Commit before"
    if first is None:
        return "not owed" if kind == "Ack" else "no longer free"
    if kind == "ReadAsk":
        return read_case(w, first)
    return "placed" if kind in ("Begin", "Ack") else answer_case(first)


def given_case(run, ask):
    """Whether the program awaits this value."""
    return "given" if run is not None and run.outstanding == ask else "not awaited"


def note_case(before, sent):
    """What a note on another site brings about."""
    if sent:
        return {"ReadAsk": "asks again", "Prepare": "prepares", "CommitAsk": "last vote"}[name_of(sent[0].message)]
    return "a vote less" if before else "the vector alone"


def vote_case(site, sender, letter):
    """Whether the vote counts."""
    if letter.message.no is not None:
        return "no"
    run = site.running.get(letter.message.txn)
    if letter.from_ != site.vector[site_of(sender) - 1]:
        return "yes of an old session"
    return "yes" if run is not None and run.preparing else "yes, not awaited"


def begun_case(begun):
    return "begins" if begun else "begins none"


def drop_case(runs, is_staged, again):
    """What is dropped."""
    if runs:
        return "begins again" if again else "ends"
    return "staged" if is_staged else "nothing"


def awaits(site, s):
    """A vote of this site is awaited."""
    return any(run.preparing and s in (run.awaited or ()) for run in site.running.values())


class SiteCase:
    """A site's case: what it has before the letter is kept, since the letter changes it."""

    def __init__(self, site, sender, letter):
        message = letter.message
        self.letter, self.kind, self.site = letter, name_of(message), site.site
        self.up, self.is_old = site.up, sender != MONITOR and letter.to != site.session
        run = site.running.get(getattr(message, "txn", 0))
        self.runs, self.staged = run is not None, getattr(message, "txn", 0) in site.staged
        self.given = given_case(run, getattr(message, "ask", 0))
        self.vote = vote_case(site, sender, letter) if self.kind == "Vote" else None
        self.awaits = self.kind == "DownNote" and awaits(site, message.site)
        self.version = site.copies[message.item][1] if self.kind == "CopyValue" and message.item in site.copies else 0

    def case(self, sent):
        """The case, by what was sent."""
        message, kind = self.letter.message, self.kind
        begun = any(name_of(l.message) == "Begin" for l in sent)
        if kind in ("Stop", "Return"):
            return "heard"
        if not self.up:
            return STOPPED
        if self.is_old:
            return f"{OLD}, refused" if sent else OLD
        if kind == "Welcome" or kind == "Done":
            return begun_case(begun)
        if kind == "Drop":
            return drop_case(self.runs, self.staged, message.again)
        if kind == "ReadDo":
            return self.given if message.home == self.site else "to its home"
        if kind in ("Value", "Serving"):
            return self.given
        if kind in ("DownNote", "UpNote"):
            return note_case(self.awaits, sent)
        if kind == "Vote":
            return self.vote
        if kind == "CopyValue":
            return "taken" if message.version >= self.version else "own is newer"
        return "heard"


def take(world, pick):
    """Makes the pick; the message's name, its case, and the entries that were placed."""
    server, sender = pick
    letter = world.links[pick][0]
    p, before, fired = world.sequencer.p, len(world.sequencer.p), world.monitor.next
    is_old = (server == SEQUENCER and sender > SEQUENCER and not isinstance(letter.message, letters.Hello)
              and letter.from_ != p.sessions[site_of(sender) - 1])
    at_site = SiteCase(world.sites[site_of(server)], sender, letter) if server > SEQUENCER else None
    sent = []
    world.sent = lambda _, receiver, sent_letter: sent.append(sent_letter)
    world.pick(pick)
    world.sent = None
    placed = p.entries[before:]
    if at_site is not None:
        case = at_site.case(sent)
    elif server == SEQUENCER:
        case = OLD if is_old else sequencer_case(world.w, letter.message, placed)
    elif name_of(letter.message) == "Ends":
        case = ("none due", "one due", "several due")[min(2, world.monitor.next - fired)]
    else:
        case = "heard"
    return name_of(letter.message), case, placed
