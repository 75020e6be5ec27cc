"""Letters of the reference model as lines, for the programs raid_site_table and raid_sequencer_table.

Each line is one word or number after another, with single spaces. Transactions, sites, switches and sessions are
counted from 1, items from 0; a number that the workload doesn't know is written as it is. Pairs are ITEM=VALUE joined
by commas, or `-`; a vector is a session for each site joined by commas, 0 for a site that is down, or `-` for none.

  > FROM SESSION TO MESSAGE..    a letter that the server hears: its sender's server number, its `from` and its `to`
  < SERVER TO MESSAGE..          a letter that it sends then: the addressee's server number, and its `to`

The messages are

  welcome VECTOR NEXT      readdo TXN ASK ITEM HOME SESSION    serving TXN ASK SITE      apply TXN NUMBER
  done TXN                 drop TXN yes|no                     downnote SITE             upnote SITE SESSION
  copydo ITEM TARGET SESSION                                   hello                     begin TXN
  readask TXN ASK ITEM     commitask TXN READS WRITES VECTOR   endask TXN own|overflow READS
  ack TXN                  copydone ITEM VERSION               value TXN ASK VALUE       prepare TXN WRITES
  vote TXN yes             vote TXN no NAMED OWN               copyvalue ITEM VALUE VERSION
  stop                     return                              halted                    down SITE SESSION
  ends COUNT
"""
import model  # noqa: F401
import raid_text
import raid_world as world

# The word of each message that says all its fields in their order.
PLAIN = {
    world.ReadDo: "readdo", world.Serving: "serving", world.Apply: "apply", world.Done: "done", world.DownNote: "downnote",
    world.UpNote: "upnote", world.CopyDo: "copydo", world.Hello: "hello", world.BeginAsk: "begin",
    world.ReadAskLetter: "readask", world.AckLetter: "ack", world.CopyDone: "copydone", world.ValueLetter: "value",
    world.CopyValue: "copyvalue", world.Stop: "stop", world.Return: "return", world.Halted: "halted",
    world.DownLetter: "down", world.Ends: "ends",
}


def pairs_word(pairs):
    return ",".join(f"{x}={value}" for x, value in pairs) or "-"


def vector_word(vector):
    return ",".join(map(str, vector)) or "-"


def message_words(m):
    if type(m) in PLAIN:
        return " ".join([PLAIN[type(m)], *(str(getattr(m, field)) for field in m.__slots__)])
    if isinstance(m, world.Welcome):
        return f"welcome {vector_word(m.vector)} {m.next}"
    if isinstance(m, world.Drop):
        return f"drop {m.txn} {'yes' if m.again else 'no'}"
    if isinstance(m, world.CommitAskLetter):
        r = m.request
        return f"commitask {m.txn} {pairs_word(r.reads)} {pairs_word(r.writes)} {vector_word(r.under)}"
    if isinstance(m, world.EndAsk):
        return f"endask {m.txn} {m.cause} {pairs_word(m.reads)}"
    if isinstance(m, world.Prepare):
        return f"prepare {m.txn} {pairs_word(m.writes)}"
    if isinstance(m, world.Vote):
        return f"vote {m.txn} " + ("yes" if m.no is None else f"no {m.no[0]} {m.no[1]}")
    raise ValueError(m)


def heard_line(sender, letter):
    return f"> {sender} {letter.from_} {letter.to} {message_words(letter.message)}"


def sent_line(out):
    receiver, to, message = out
    return f"< {receiver} {to} {message_words(message)}"


def some_writes(rng, items):
    return tuple((x, rng.randint(-9, 99)) for x in rng.sample(items, rng.randint(0, len(items))))


def any_message(w, rng):
    """A message with whatever is near what the workload knows."""
    t, s = rng.randint(0, w.count + 1), rng.randint(0, w.sites + 1)
    x, n = rng.randint(0, len(w.items)), rng.randint(0, 3)
    value, number = rng.randint(-9, 99), rng.randint(0, 9)
    ask = rng.randint(1, 3)  # never 0, by which the model says that a program awaits no value
    writes = some_writes(rng, list(range(len(w.items) + 1)))
    vector = tuple(rng.randint(0, 2) for _ in range(w.sites + rng.choice((-1, 0, 0, 0, 1))))
    request = world.Request(some_writes(rng, list(range(len(w.items)))), writes, vector)
    return rng.choice((
        world.Welcome(vector, rng.randint(0, w.count + 1)), world.ReadDo(t, ask, x, s, n), world.Serving(t, ask, s),
        world.Apply(t, number), world.Done(t), world.Drop(t, rng.random() < 0.5), world.DownNote(s), world.UpNote(s, n),
        world.CopyDo(x, s, n), world.Hello(), world.BeginAsk(t), world.ReadAskLetter(t, n, x), world.CommitAskLetter(t, request),
        world.EndAsk(t, rng.choice(("own", "overflow")), writes), world.AckLetter(t), world.CopyDone(x, number),
        world.ValueLetter(t, ask, value), world.Prepare(t, writes), world.Vote(t, rng.choice((None, (n, 1)))),
        world.CopyValue(x, value, number), world.Stop(), world.Return(), world.Halted(), world.DownLetter(max(s, 1), n),
        world.Ends(number)))


def step_lines(hear, sender, letter):
    """Lets a server of the model hear a letter: the lines of the letter, and of what it sends. One that doesn't fit is dropped."""
    try:
        outs = hear(sender, letter)
    except world.Misfit:
        outs = []
    return [heard_line(sender, letter), *map(sent_line, outs)]


class Sequences:
    """Draws sequences of letters, now and then after a new workload, of which they are from then on."""

    def __init__(self, some_workload, sequence_lines, sequences_of_a_workload):
        self.some_workload, self.sequence_lines, self.every, self.w = some_workload, sequence_lines, sequences_of_a_workload, None

    def lines(self, k, rng):
        said = []
        if k % self.every == 1:
            self.w = self.some_workload(rng)
            said = raid_text.print_workload(self.w).decode().splitlines()
        return said + self.sequence_lines(k, self.w, rng)
