"""Writes proofs, by computation, of what the reference model says of histories and reports."""
from terms import *

from raid_laws import allowed, runs_free
from raid_program import DONE, prog
from raid_rules import Prefix, answer_commit, answer_read, forced

MAKES = "record { done = refl; reads = refl; writes = refl; sites = refl }"


def allowing(p, e):
    """A proof that the entry may come after the prefix."""
    if forced(p) is not None:
        return "refl"
    sort = name(e)
    if sort == "Begin":
        return "(refl, refl)"
    if sort == "Read" or sort == "Abort" and name(e.act) == "ReadAct":
        return "(refl, refl, refl)"
    if sort in ("Wait", "Commit") or sort == "Abort" and name(e.act) == "CommitAct":
        return f"(refl, refl, {MAKES})"
    if sort == "Abort":
        return "(refl, record { ended = refl; read = refl })"
    return "refl"


def lacking(p, t, r):
    """What the request has that the transaction's program doesn't make."""
    o = prog(p.w.program(t), p.seen(t))
    if o.end != DONE:
        return "apart want_code _ _ refl q.2.done"
    if o.reads != r.reads:
        return "apart pairs_code _ _ refl q.2.reads"
    if o.writes != r.writes:
        return "apart pairs_code _ _ refl q.2.writes"
    return "apart count_code _ _ refl q.2.sites"


def unanswered(p, e, t, answer, code, asks):
    """Why the entry is no answer: its transaction may not ask, the answer is another, or it doesn't ask."""
    if not runs_free(p, t):
        return "untrue q.0"
    if answer != e:
        return f"apart {code} _ _ refl q.1"
    return asks()


def unended(p, e):
    """Why the abort is no end of the program's own."""
    o = prog(p.w.program(e.txn), p.seen(e.txn))
    if not runs_free(p, e.txn):
        return "untrue q.0"
    if e.cause.name not in ("own", "overflow"):
        return "q.1"
    if o.end != e.cause.name:
        return "apart want_code _ _ refl q.1.ended"
    return "apart pairs_code _ _ refl q.1.read"


def refusing(p, e):
    """A proof that the entry may not come after the prefix: of its rule, the part that fails."""
    sort, act_sort = name(e), name(getattr(e, "act", None))
    if forced(p) is not None:
        return "λ q. apart entry_code _ _ refl q"
    if sort == "Begin":
        home = p.w.programs[(e.txn - 1) % len(p.w.programs)].home
        return "λ q. untrue q.1" if home == e.home else "λ q. apart site_code _ _ refl q.0"
    if sort == "Read" or act_sort == "ReadAct":
        x = e.item if sort == "Read" else e.act.item
        answer = answer_read(p, e.txn, x) if runs_free(p, e.txn) else None
        return "λ q. " + unanswered(p, e, e.txn, answer, "entry_code", lambda: "untrue q.2")
    if sort in ("Wait", "Commit") or act_sort == "CommitAct":
        r = e.act.request if sort == "Abort" else e.request
        answer = answer_commit(p, e.txn, r) if runs_free(p, e.txn) else None
        return "λ q. " + unanswered(p, e, e.txn, answer, "answer_code", lambda: lacking(p, e.txn, r))
    if act_sort == "EndedAct":
        return "λ q. " + unended(p, e)
    if sort in ("Abort", "SwitchOn", "SwitchEnd"):
        return "λ q. q"
    return "λ q. untrue q"


def all_of(proofs):
    """A proof of a fact for each entry, in order: a row of them or, where they are many, nested pairs, which check faster."""
    if len(proofs) <= 16:
        return "\n    also ".join([*proofs, "tt"])
    return "".join(f"({proof},\n  " for proof in proofs) + "tt" + ")" * len(proofs)


def followed(w, es):
    """For each entry the proof that it may come, up to the first that may not: with that one's refusal."""
    p, proofs = Prefix(w), []
    for e in es:
        if not allowed(p, e):
            return proofs, refusing(p, e)
        proofs.append(allowing(p, e))
        p.push(e)
    return proofs, None


def switching(w, es):
    """For each entry the proof of what switches must do there."""
    p, proofs = Prefix(w), []
    for e in es:
        granted = "refl" if p.joint() else "tt"
        proofs.append({"Read": f"({granted}, refl)", "Commit": granted, "Abort": "refl",
                       "SwitchOn": "record { follow = refl; no_other = refl }"}.get(name(e), "tt"))
        p.push(e)
    return proofs


def serial_lines(r):
    runs = " also ".join(["refl"] * len(r.order) + ["tt"])
    return f"record {{ in_order = refl; all = refl; no_other = refl; runs = {runs}; ends = refl; finals = refl }}"


def copies_lines(p, r):
    current = ["(refl, refl)" if p.is_up(c.site) and not p.locked(c.site, c.item) else "tt" for c in r.copies]
    return f"record {{ all = refl; current = {' also '.join([*current, 'tt'])} }}"


FINISHED = "record { unforced = refl; ended = refl; once = refl; served = refl; settled = refl; acked = refl }"


def sound_parts(w, r, finished=True):
    """Lemmas on a report, named `legal`, `serial` and so on, the report being `told`."""
    p = Prefix(w, tuple(r.entries))
    proofs, refused = followed(w, r.entries)
    assert refused is None
    out = f"\n-- its history is legal\nlegal : Legal w told.entries\nlegal = {all_of(proofs)}\n"
    out += f"\n-- it is serial\nserial : Serial w told\nserial = {serial_lines(r)}\n"
    out += f"\n-- its switches did what they may\nswitched : Switched w told.entries\nswitched = {all_of(switching(w, r.entries))}\n"
    if finished:
        out += f"\n-- its copies are right\ncopies : Copies w told\ncopies = {copies_lines(p, r)}\n"
        out += f"\n-- nothing is left to do\nfinished : Finished w told.entries\nfinished = {FINISHED}\n"
        out += "\n-- so it is sound\nsound : Sound w told\nsound = record { legal = legal; serial = serial; copies = copies; switched = switched; finished = finished }\n"
    return out


def run_lemmas(world, schedule):
    """Lemmas on a run of the workload `w`, whose end the report `told` tells."""
    out = f"\n-- who takes a letter from whom\nabbrev schedule : List Pick\nschedule = {listed([f'takes {a} {b}' for a, b in schedule])}\n"
    out += "\n-- the run ends so\nends_so : report w (run w schedule).servers ≡ told\nends_so = refl\n"
    out += "\n-- each pick found a letter\nis_one : is_schedule w schedule ≡ true\nis_one = refl\n"
    left = "no letter is left" if world.idle() else "letters are left"
    out += f"\n-- {left}\nidle : is_idle (run w schedule) ≡ {boolean(world.idle())}\nidle = refl\n"
    out += f"\n-- the servers' clocks, in the order of their numbers\nclocks : (run w schedule).clocks ≡ {numbers(world.clocks)}\nclocks = refl\n"
    journals = stacked([listed([f"step {c} {f}" for c, f in j]) for j in world.journals])
    return out + f"\n-- the steps of each server\njournals : (run w schedule).journals ≡{journals}\njournals = refl\n"
