"""Writes values of the reference model as terms of the definitions, in the words of proofs/Scene."""
import re

import model  # noqa: F401

KINDS = dict(lock="Lock", stamp="Stamp", valid="Valid", graph="Graph")
METHODS = dict(generic="Generic", convert="Convert", suffix="Suffix")
CAUSES = dict(own="Own", overflow="Overflow", late="Late", invalid="Invalid", cycle="Cycle",
              deadlock="Deadlock", homedown="HomeDown", nocopy="NoCopy")

HEAD = """use Rattle.std.specs.Prelude.{◌≡◌, ℕ, ℤ, pos, negsuc, Bool, true, false, List, [], ◌∷◌, take, slice_get, Option, Some, None, fold, refl}
use Rattle.raid_base.specs.declared.names.Txn.{Txn}
use Rattle.raid_base.specs.declared.names.Item.{Item}
use Rattle.raid_base.specs.declared.names.Site.{Site}
use Rattle.raid_base.specs.declared.entry.Entry.{Entry}
use Rattle.raid_base.specs.declared.entry.Entry.TheVariants.{Begin, Read, Wait, Commit, Abort, Ack, SwitchOn, SwitchEnd, Down, Up, Clear}
use Rattle.raid_base.specs.declared.entry.Act.TheVariants as acts
use Rattle.raid_base.specs.declared.entry.Answer.TheVariants as answers
use Rattle.raid_base.specs.declared.entry.Cause.TheVariants as causes
use Rattle.raid_base.specs.declared.verdict.Kind.TheVariants as kinds
use Rattle.raid_base.specs.declared.verdict.Method.TheVariants as methods
use Rattle.raid_base.specs.declared.verdict.Structure.TheVariants as structures
use Rattle.raid_base.specs.declared.report.Report.{Report}
use Rattle.raid_program.specs.declared.program.Term.TheVariants as terms
use Rattle.raid_workload.specs.declared.workload.Workload.{Workload}
use Rattle.raid_workload.specs.declared.workload.ItemLine.{ItemLine}
use Rattle.raid_workload.specs.declared.workload.Switch.{Switch}
use Rattle.raid_workload.specs.declared.workload.Event.{Event}
use Rattle.raid_workload.specs.declared.workload.Homed.{Homed}
use Rattle.raid_rules.specs.History.{noted}
use Rattle.raid_legal.specs.Legal.{Legal, Allowed}
use Rattle.raid_legal.specs.Serial.{Serial, Copies}
use Rattle.raid_legal.specs.Switched.{Switched, Finished}
use Rattle.raid_legal.specs.Sound.{Sound}
use Rattle.raid_legal.proofs.Scene.{◌also◌, txn, item, site, t1, t2, t3, t4, x, y, z, s1, s2, s3, request, item_line, switch, stops, returns, home_at, sum, number, load, store, stop_if, copy_line}
use Rattle.raid_legal.proofs.Apart.{apart, untrue, site_code, count_code, pairs_code, txns_code, entry_code, answer_code, want_code}
"""

STEPS_HEAD = """use Rattle.std.specs.Option.{option_map_or}
use Rattle.raid_message.specs.declared.letter.Letter.{Letter}
use Rattle.raid_message.specs.declared.letter.Message.TheVariants as letters
use Rattle.raid_message.specs.declared.letter.Pick.{Pick}
use Rattle.raid_steps.specs.State.{Out, Sequencer}
use Rattle.raid_steps.specs.Sequencer.{hear_sequencer}
use Rattle.raid_steps.specs.World.{run, report, is_schedule, is_idle, first_servers}
use Rattle.raid_steps.proofs.Mail.{letter, takes, step}
"""


def used(head, body):
    """Of the head's imports those that the body uses, its comments aside."""
    body = re.sub(r"--.*", "", body)
    kept = []
    for line in head.splitlines():
        if " as " in line and "{" not in line:
            if f"{line.split()[-1]}." in body:
                kept.append(line)
            continue
        where, words = line[:-1].split("{")
        words = [word for word in words.split(", ")
                 if re.search(r"(?<![\w.])" + re.escape(word.strip("◌")) + r"(?!\w)", body)]
        if words:
            kept.append(f"{where}{{{', '.join(words)}}}")
    return "\n".join(kept) + "\n"


def name(value):
    """The class of a value of the model, which is also that of the definition."""
    return type(value).__name__


def listed(parts):
    return "(" + " ∷ ".join([*parts, "[]"]) + ")" if parts else "[]"


def stacked(parts):
    """A list with one element a line."""
    return "\n    " + " ∷\n    ".join([*parts, "[]"]) if parts else "[]"


def integer(n):
    return f"pos {n}" if n >= 0 else f"negsuc {-n - 1}"


def boolean(b):
    return "true" if b else "false"


def txn(t):
    return f"t{t}" if t <= 4 else f"(txn {t})"


def item(k):
    return "xyz"[k] if k < 3 else f"(item {k})"


def site(s):
    return f"s{s}" if s <= 3 else f"(site {s})"


def sites(ss):
    return listed([site(s) for s in ss])


def numbers(ns):
    return listed([str(n) for n in ns])


def pairs(ps):
    return listed([f"({item(k)}, {integer(v)})" for k, v in ps])


def request(r):
    return f"(request {pairs(r.reads)} {pairs(r.writes)} {numbers(r.under)})"


def cause(c):
    if c.name == "switchoff":
        return f"(causes.SwitchOff {c.switch})"
    if c.name == "stale":
        return f"(causes.Stale {numbers(c.vector)})"
    return "causes." + CAUSES[c.name]


def act(a):
    if a is None:
        return "acts.Nothing"
    if name(a) == "EndedAct":
        return f"(acts.Ended {pairs(a.reads)})"
    if name(a) == "ReadAct":
        return f"(acts.Read {item(a.item)})"
    return f"(acts.Commit {request(a.request)})"


def entry(e):
    sort = name(e)
    fields = {
        "Begin": lambda: [txn(e.txn), site(e.home)],
        "Read": lambda: [txn(e.txn), item(e.item), site(e.site)],
        "Wait": lambda: [txn(e.txn), request(e.request)],
        "Commit": lambda: [txn(e.txn), request(e.request), sites(e.applied)],
        "Abort": lambda: [txn(e.txn), cause(e.cause), act(e.act)],
        "Ack": lambda: [txn(e.txn), site(e.site)],
        "SwitchOn": lambda: [str(e.switch), "kinds." + KINDS[e.kind], "methods." + METHODS[e.method]],
        "SwitchEnd": lambda: [str(e.switch)],
        "Down": lambda: [site(e.site)],
        "Up": lambda: [site(e.site), str(e.session)],
        "Clear": lambda: [site(e.site), item(e.item), str(e.version)],
    }[sort]()
    return " ".join([sort, *fields])


def term(t):
    return f"(terms.Reg {t.number})" if name(t) == "Reg" else f"(terms.Value ({integer(t.value)}))"


def expression(e):
    if not e.rest and name(e.first) == "Value":
        return f"(number ({integer(e.first.value)}))"
    rest = listed([f"({boolean(sign)}, {term(t)})" for sign, t in e.rest])
    return f"(sum {term(e.first)} {rest})"


def statement(s):
    if name(s) == "ReadStatement":
        return f"load {item(s.item)} {s.reg}"
    if name(s) == "WriteStatement":
        return f"store {item(s.item)} {expression(s.expr)}"
    return f"stop_if {expression(s.left)} {expression(s.right)}"


def item_line(line):
    text = line.name.encode() if isinstance(line.name, str) else line.name
    return f"item_line {numbers(text)} ({integer(line.value)}) {sites(line.holders)}"


def workload(w):
    """The definitions of the workload `w`: its longer parts, and the record, which keeps the rules by computation."""
    parts = dict(
        items=("ItemLine", [item_line(line) for line in w.items]),
        switches=("Switch", [f"switch kinds.{KINDS[s.kind]} methods.{METHODS[s.method]} {s.trigger}" for s in w.switches]),
        events=("Event", [f"{'stops' if e.stop else 'returns'} {site(e.site)} {e.trigger}" for e in w.events]),
        programs=("Homed", [f"home_at {site(h.home)} {listed([statement(s) for s in h.program])}" for h in w.programs]))
    out = ""
    for part, (sort, lines) in parts.items():
        if lines:
            out += f"\nabbrev {part} : List {sort}\n{part} ={stacked(lines)}\n"
    fields = dict(version=w.version, restarts=w.restarts, sites=w.sites, together=w.together, items="items",
                  kind="kinds." + KINDS[w.kind], structure="structures." + ("Native" if w.structure == "native" else "GenericState"),
                  switches="switches", events="events", programs="programs")
    fields = {k: "[]" if k in parts and not parts[k][1] else v for k, v in fields.items()}
    lines = "".join(f"  {k} = {v};\n" for k, v in dict(fields, kept="refl").items())
    return out + f"\nabbrev w : Workload\nw = record {{\n{lines}}}\n"


def report(r):
    copies = [f"copy_line {site(c.site)} {item(c.item)} ({integer(c.value)}) {c.version}" for c in r.copies]
    return (f"record {{\n  entries ={' ' * (not r.entries)}{stacked([entry(e) for e in r.entries])};\n  order = {listed([txn(t) for t in r.order])};\n"
            f"  finals = {pairs(r.finals)};\n  copies = {listed(copies)};\n}}")


MESSAGES = dict(BeginAsk="Begin", ReadAskLetter="ReadAsk", CommitAskLetter="CommitAsk", AckLetter="Ack",
                ValueLetter="Value", DownLetter="Down")
FIELDS = dict(txn=txn, ask=str, item=item, home=site, home_session=str, site=site, number=str,
              again=boolean, session=str, target=site, target_session=str, vector=numbers, next=str,
              request=request, cause=lambda c: "causes." + CAUSES[c], reads=pairs, writes=pairs,
              version=str, value=lambda v: f"({integer(v)})", count=str,
              no=lambda no: "answers.Yes" if no is None else f"(answers.No {no[0]} {no[1]})")


def message(m):
    sort = MESSAGES.get(name(m), name(m))
    fields = [FIELDS[f](getattr(m, f)) for f in m.__slots__]
    return f"(letters.{sort} {' '.join(fields)})" if fields else f"letters.{sort}"


def letter(l):
    return f"(letter {l.from_} {l.to} {message(l.message)})"
