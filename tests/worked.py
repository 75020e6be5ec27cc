"""Writes the worked examples of crates/raid_legal/proofs and crates/raid_steps/proofs once more.

Each is a run or a list of letters of the reference model, and what the model says of it becomes lemmas that
the check computes. With names of modules, only these. `--all CRATES` writes those that the repository doesn't
keep, too, into the crates of a scratch copy.
"""
import os
import sys

from model import HERE
from proving import *

import raid_world
import test_rows
from raid_laws import make_report
from raid_rules import Prefix
from raid_types import Ack, Commit

LEGAL = os.path.join(HERE, "..", "crates", "raid_legal", "proofs")
STEPS = os.path.join(HERE, "..", "crates", "raid_steps", "proofs")

LETTERS7 = test_rows.LETTERS7
READ_AND_WRITE = [["read x r0", "write y 1"], ["write x 5"]]
CROSSED = [["read x r0", "write y 1"], ["read y r0", "write x 2"]]
CROSSING = ["begin 1", "begin 2", "read 1 x", "read 2 y", "commit 1 x=0 y=1", "commit 2 y=0 x=2"]


def applied_copies(w, es):
    """The copies after all that the history applies has been applied."""
    held = {(s, k): (line.value, 0) for k, line in enumerate(w.items) for s in line.holders}
    for n, e in enumerate(es, 1):
        if isinstance(e, Commit):
            held.update({(s, k): (v, n) for k, v in e.request.writes for s in e.applied if (s, k) in held})
    return held


def fed(letters, last=(), **options):
    """The report of a sequencer that heard the letters, once the sites have acknowledged."""
    w, sequencer = test_rows.feed([*letters, *last], **options)
    p = Prefix(w, tuple(sequencer.p.entries))
    for s, t in sorted(p.owing):
        p.push(Ack(t, s))
    return w, make_report(w, p, applied_copies(w, p.entries))


def ran(*lines):
    """The report of a run in the fixed order of picks."""
    w = test_rows.workload(test_rows.text(*lines))
    world = raid_world.World(w)
    raid_world.run_fixed(world)
    return w, world.report()


def one_site(item, *program, head=("workload 1", "sites 1 together 1")):
    return ran(*head, item, "open lock native", *(["program 1", *program, "end"] if program else []), "done")


def stopped():
    _, _, world = test_rows.run14(True)
    return world.w, world.report()


# module name: (what it shows, report maker); those of KEPT stand in the repository
LEGAL_EXAMPLES = {
    "Nothing": ("No transaction: the empty history is sound.", lambda: one_site("item x 7 at 1")),
    "OneTransaction": ("A transaction reads an item, adds to it, commits, and its site acknowledges.",
                       lambda: one_site("item x 100 at 1", "read x r0", "write x r0 + 5")),
    "SameValue": ("A transaction writes back what it read: that is a write like any other.",
                  lambda: one_site("item x 100 at 1", "read x r0", "write x r0")),
    "OwnWrite": ("A transaction reads what it wrote itself: no Read is asked.",
                 lambda: one_site("item x 100 at 1", "write x 9", "read x r0", "write x r0 + 1")),
    "OwnEnd": ("A program stops itself: its transaction is aborted with what it had read.",
               lambda: one_site("item x 100 at 1", "read x r0", "stop if r0 < 200")),
    "TooLarge": ("A sum leaves the range of values: the transaction is aborted.",
                 lambda: one_site("item x 9223372036854775807 at 1", "read x r0", "write x r0 + 1")),
    "SecondText": ("A workload of version 2 without restarts runs like one of version 1.",
                   lambda: one_site("item x 100 at 1", "read x r0", "write x r0 + 5",
                                    head=("workload 2", "sites 1 together 1", "restarts 0"))),
    "OtherSite": ("A transaction reads and writes an item that only another site holds.",
                  lambda: ran("workload 1", "sites 2 together 1", "item x 5 at 2", "open lock native", "program 1",
                              "read x r0", "write x r0 + 1", "end", "done")),
    "Deadlock": ("Locking: both have read an item that both write. The first waits; the second would close the cycle of waits and is aborted; "
                 "then the first commits.",
                 lambda: fed(test_rows.LETTERS6, programs=[["read x r0", "write x 1"], ["read x r0", "write x 2"]])),
    "LaterCommit": ("Timestamps: a reader commits after the writer of what it read, and stands before it in the serial order.",
                    lambda: fed(LETTERS7, opening="stamp native", programs=READ_AND_WRITE)),
    "LateRead": ("Timestamps: a read comes after a younger transaction wrote the item, and is refused.",
                 lambda: fed(["begin 1", "begin 2", "commit 2 - x=5", "read 1 x"], opening="stamp native",
                             programs=READ_AND_WRITE)),
    "InvalidRead": ("Validation: what a transaction read was overwritten before its commit, and it is refused.",
                    lambda: fed(LETTERS7, opening="valid native", programs=READ_AND_WRITE)),
    "ValidRead": ("Validation: the reader commits first, and both are granted.",
                  lambda: fed(LETTERS7[:3] + [LETTERS7[4], LETTERS7[3]], opening="valid native", programs=READ_AND_WRITE)),
    "CycleRefused": ("Graph testing: two transactions read what the other writes; the second commit would close a cycle.",
                     lambda: fed(CROSSING, opening="graph native", programs=CROSSED)),
    "CycleRefusedGeneric": ("Graph testing on the generic state refuses the same cycle.",
                            lambda: fed(CROSSING, opening="graph generic", programs=CROSSED)),
    "GraphGrants": ("Graph testing: a reader commits after the writer of what it read.",
                    lambda: fed(LETTERS7, opening="graph native", programs=READ_AND_WRITE)),
    "GenericSwitch": ("A switch on the generic state to validation aborts nobody; the new kind refuses a commit for a read made before it.",
                      lambda: fed(LETTERS7, opening="stamp generic", switches=["switch valid by generic after 1"],
                                  programs=READ_AND_WRITE)),
    "GenericToGraph": ("A switch on the generic state to graph testing aborts nobody, and grants what closes no cycle.",
                       lambda: fed(LETTERS7, opening="valid generic", switches=["switch graph by generic after 1"],
                                   programs=READ_AND_WRITE)),
    "CycleKept": ("A switch to graph testing finds a transaction on a cycle already: its next action is refused.",
                  lambda: fed(["begin 1", "begin 2", "begin 3", "read 1 x", "commit 2 - x=5,y=6", "read 1 y",
                               "commit 3 - z=1", "begin 4", "read 4 z", "commit 1 x=0,y=6 -"], ["commit 4 z=1 -"],
                              opening="valid generic", switches=["switch graph by generic after 2"],
                              programs=[["read x r0", "read y r1"], ["write x 5", "write y 6"], ["write z 1"], ["read z r0"]])),
    "ConvertSwitch": ("A conversion to locking aborts the transaction whose read was overwritten, directly behind its SwitchOn.",
                      lambda: fed(LETTERS7[:4], opening="stamp native", switches=["switch lock by convert after 1"],
                                  programs=READ_AND_WRITE)),
    "ConvertGeneric": ("A conversion on the generic state aborts the same.",
                       lambda: fed(LETTERS7[:4], opening="stamp generic", switches=["switch valid by convert after 1"],
                                   programs=READ_AND_WRITE)),
    "BothGrant": ("A suffix-sufficient switch: a commit that the old controller alone would grant is refused by the new one; "
                  "the switch ends with the last old transaction.",
                  lambda: fed(test_rows.LETTERS12, opening="valid native", switches=["switch stamp by suffix after 1"],
                              programs=[["write x 1"], ["read x r0"], ["write z 1"]])),
    "SuffixEnds": ("A suffix-sufficient switch goes on after its last old transaction has ended, as long as a running one comes before "
                   "it in conflicts.",
                   lambda: fed(test_rows.LETTERS13, opening="valid native", switches=["switch graph by suffix after 1"],
                               programs=[["write x 1"], ["write z 1"], ["read x r0", "write y 2"]])),
    "StopAndReturn": ("A site stops before it took a write, so its copy is locked; it returns, and the copy is renewed.", stopped),
    "NewAttempt": ("A transaction that validation refused begins again as a new one, and commits.",
                   lambda: fed(LETTERS7, ["begin 3", "read 3 x", "commit 3 x=5 y=6"], opening="valid native", restarts=1,
                               count=2, programs=[["read x r0", "write y r0 + 1"], ["write x 5"]])),
}

# what to look at in an example: a name, what it says, the statement, and its proof where that is no computation
FACTS = {
    "Deadlock": [
        ("closes", "were the second to wait too, it would wait for itself",
         "closes_waits w (before 5) t2 (request ((x, pos 0) ∷ []) ((x, pos 2) ∷ []) (1 ∷ [])) ≡ true"),
        ("woken_first", "once it is gone the first must be answered",
         "woken w (before 6) ≡ Some (Commit t1 (request ((x, pos 0) ∷ []) ((x, pos 1) ∷ []) (1 ∷ [])) (s1 ∷ []))"),
        ("not_the_first", "the first may not be aborted in its place",
         "Allowed w (before 5) (Abort t1 causes.Deadlock (acts.Commit (request ((x, pos 0) ∷ []) ((x, pos 1) ∷ []) (1 ∷ [])))) → ⊥",
         "λ q. untrue q.0"),
    ],
    "LaterCommit": [
        ("not_by_commits", "in the order of the Commits the report would not be serial",
         "Serial w (record told { order = t2 ∷ t1 ∷ [] }) → ⊥",
         "λ q. apart txns_code _ _ refl q.in_order"),
    ],
    "LateRead": [
        ("late", "the younger one's write refuses the read",
         "verdict w (before 3) (reading t1 1 x) ≡ verdicts.Reject refusals.Late"),
    ],
    "InvalidRead": [
        ("invalid", "the write since its Begin refuses the commit",
         "verdict w (before 4) (writing t1 1 ((y, pos 1) ∷ [])) ≡ verdicts.Reject refusals.Invalid"),
    ],
    "CycleRefused": [
        ("cycle", "the second commit would come before and behind the first",
         "verdict w (before 5) (writing t2 2 ((x, pos 2) ∷ [])) ≡ verdicts.Reject refusals.Cycle"),
    ],
    "GenericSwitch": [
        ("nobody", "the switch aborts nobody", "off_list w (before 4) methods.Generic kinds.Valid ≡ []"),
        ("no_abort", "so its abort may not come",
         "Allowed w (before 5) (Abort t1 (causes.SwitchOff 1) acts.Nothing) → ⊥",
         "λ q. q"),
    ],
    "ConvertSwitch": [
        ("first", "the switch aborts the reader", "off_list w (before 4) methods.Convert kinds.Lock ≡ t1 ∷ []"),
        ("nothing_before", "nothing may come before its abort",
         "Allowed w (before 5) (Ack t2 s1) → ⊥",
         "λ q. apart entry_code _ _ refl q"),
    ],
    "BothGrant": [
        ("old", "the old controller would grant the commit",
         "verdict_of kinds.Valid (before 6) (writing t1 1 ((x, pos 1) ∷ [])) ≡ verdicts.Grant"),
        ("both", "the two together don't",
         "verdict w (before 6) (writing t1 1 ((x, pos 1) ∷ [])) ≡ verdicts.Reject refusals.Late"),
        ("not_by_one", "so it may not come",
         "Allowed w (before 6) (Commit t1 (request [] ((x, pos 1) ∷ []) (1 ∷ [])) (s1 ∷ [])) → ⊥",
         "λ q. apart answer_code _ _ refl q.1"),
    ],
    "SuffixEnds": [
        ("not_yet", "no old transaction runs any more, but a running one comes before one of them",
         "end_due w (before 7) ≡ false"),
        ("over", "once that one has ended, the switch is over", "end_due w (before 8) ≡ true"),
        ("no_end_yet", "the switch may not end before that", "Allowed w (before 7) (SwitchEnd 1) → ⊥", "λ q. q"),
    ],
    "StopAndReturn": [
        ("locked", "the site went down owing the write, so its copy is locked", "is_locked w (before 4) s2 x ≡ true"),
        ("alone", "and the other site is the only source", "sources w (before 4) x ≡ s1 ∷ []"),
        ("once", "a copy that isn't locked may not be cleared",
         "Allowed w (before 9) (Clear s2 x 2) → ⊥",
         "λ q. untrue q"),
    ],
    "NewAttempt": [
        ("again_due", "the third transaction is the first one's second attempt, and due",
         "again w (before 5) t3 ≡ true"),
        ("begins_once", "and begins once", "Allowed w (before 6) (Begin t3 s1) → ⊥", "λ q. untrue q.1"),
    ],
}

FACT_IMPORTS = """use Rattle.raid_base.specs.declared.entry.Noted.{Noted}
use Rattle.raid_base.specs.declared.verdict.Refusal.TheVariants as refusals
use Rattle.raid_base.specs.declared.verdict.Verdict.TheVariants as verdicts
use Rattle.raid_rules.specs.Verdicts.{reading, writing, verdict_of}
use Rattle.raid_legal.specs.Seen.{is_locked, sources, again}
use Rattle.raid_legal.specs.InForce.{off_list, verdict, end_due}
use Rattle.raid_legal.specs.Answers.{closes_waits}
use Rattle.raid_legal.specs.Forced.{woken}
"""

KEPT = ["OneTransaction", "OwnEnd", "OtherSite", "Deadlock", "LaterCommit", "LateRead", "InvalidRead", "CycleRefused",
        "GenericSwitch", "CycleKept", "ConvertSwitch", "BothGrant", "SuffixEnds", "StopAndReturn", "NewAttempt"]


def legal_example(module, folder):
    shows, make = LEGAL_EXAMPLES[module]
    w, r = make()
    facts = FACTS.get(module, [])
    out = "\n-- what was run" + workload(w)
    out += f"\n-- what is told of it\nabbrev told : Report\ntold = {report(r)}\n"
    if any("before" in fact[2] for fact in facts):
        out += "\n-- the first entries\nabbrev before : ℕ → List Noted\nbefore k = noted (take k told.entries)\n"
    for fact, says, claim, *proof in facts:
        out += f"\n-- {says}\n{fact} : {claim}\n{fact} = {proof[0] if proof else 'refl'}\n"
    out += sound_parts(w, r)
    with open(os.path.join(folder, module + ".antt"), "w") as f:
        f.write(f"-- {shows}\n{used(HEAD + FACT_IMPORTS, out)}{out}")


def letters_heard(letters, **options):
    """The workload, each letter that a sequencer heard with what it sent, and the history at the end."""
    log, hear = [], raid_world.Sequencer.hear

    def spy(self, sender, l):
        outs = hear(self, sender, l)
        log.append((sender, l, list(outs)))
        return outs
    raid_world.Sequencer.hear = spy
    try:
        w, sequencer = test_rows.feed(letters, **options)
    finally:
        raid_world.Sequencer.hear = hear
    return w, log, sequencer.p.entries


def heard(shows, *args, **options):
    """An example of letters to the sequencer: its history after them, and what each sends."""
    w, log, es = letters_heard(*args, **options)
    out = "\n-- what is run" + workload(w)
    lines = [f"({sender}, {letter(l)})" for sender, l, _ in log]
    out += f"\n-- what the sequencer hears: the sender's server number, and the letter\nabbrev heard : List (ℕ × Letter)\nheard ={stacked(lines)}\n"
    out += ("\n-- the sequencer after so many letters\nabbrev after : ℕ → Sequencer\n"
            "after k = fold (λ s l. (hear_sequencer w s l.0 l.1).state) (first_servers w).sequencer (take k heard)\n")
    out += ("\n-- what the next letter sends\nabbrev sent : ℕ → List Out\n"
            "sent k = option_map_or (λ l. (hear_sequencer w (after k) l.0 l.1).outs) (slice_get heard k) []\n")
    out += f"\n-- the history at the end\nentries : (after {len(log)}).history ≡{stacked([entry(e) for e in es])}\nentries = refl\n"
    out += "\n-- what each letter sends, in order\n"
    for k, (_, _, outs) in enumerate(log):
        sends = listed([f"({to}, {session}, {message(m)})" for to, session, m in outs])
        out += f"{chr(10) * (k > 0)}sent_{k} : sent {k} ≡ {sends}\nsent_{k} = refl\n"
    return f"-- {shows}\n{used(HEAD + STEPS_HEAD, out)}{out}"


def run_of(shows, w, schedule):
    """An example of a run: what is told at its end, its clocks and its journals."""
    world = raid_world.World(w)
    for p in schedule:
        assert world.pick(p)
    out = "\n-- what is run" + workload(w) + f"\n-- what is told at the end\nabbrev told : Report\ntold = {report(world.report())}\n"
    out += run_lemmas(world, schedule)
    return f"-- {shows}\n{used(HEAD + STEPS_HEAD, out)}{out}"


def fixed(shows, *lines):
    """An example of a run in the fixed order of picks."""
    w = test_rows.workload(test_rows.text(*lines))
    return run_of(shows, w, raid_world.run_fixed(raid_world.World(w)))


def stop_in_run(shows):
    _, _, world = test_rows.run14(True)
    return run_of(shows, world.w, raid_world.merged(world))


TWO_SITES = dict(sites=2, homes=[2])
STEPS_EXAMPLES = {
    "FirstRun": lambda: fixed("A run of one transaction at one site, letter by letter.", "workload 1", "sites 1 together 1",
                              "item x 100 at 1", "open lock native", "program 1", "read x r0", "write x r0 + 5", "end", "done"),
    "ReadElsewhere": lambda: fixed("A run in which the only site that holds the item is not the home.", "workload 1",
                                   "sites 2 together 1", "item x 5 at 2", "open lock native", "program 1", "read x r0",
                                   "write x r0 + 1", "end", "done"),
    "StopInRun": lambda: stop_in_run("A run in which a site stops before it takes an Apply. Its copy is locked and, after its return, renewed."),
    "DeadlockHeard": lambda: heard("The second of two commits would close a cycle of waits: one letter gives its abort and the other's commit.",
                                   test_rows.LETTERS6),
    "CopierHeard": lambda: heard("Two sites that hold an item are down in turn. The one that missed the write gets a copy once the other is back.",
                                 test_rows.LETTERS17, sites=3, homes=[3, 3], holders="1 2"),
    "LateCopy": lambda: heard("A copy that comes after the item was written again unlocks nothing.",
                              test_rows.LETTERS17[:9] + ["begin 3", "commit 3 - x=9 2,2,1", "done x 3 @2 /2"], sites=3,
                              homes=[3, 3, 3], holders="1 2"),
    "LateDown": lambda: heard("A site stops and returns, and its Hello comes before the Down is announced: the late Down gives nothing.",
                              ["begin 1", "hello @2 /2", "down 2 1"], **TWO_SITES),
    "LostBegin": lambda: heard("A Begin of an old session is dropped, and the site's welcome names the transaction again.",
                               ["down 2 1", "begin 1", "hello @2 /2", "begin 1 /2"], **TWO_SITES),
    "DoubleStop": lambda: heard("A site stops twice before its Hello is heard: it comes up, and goes down again in the same step.",
                                ["down 2 1", "down 2 2", "hello @2 /2"], **TWO_SITES),
    "StaleCommit": lambda: heard("A commit was prepared at a site that has stopped and returned since: it is refused.",
                                 ["begin 1", "down 2 1", "hello @2 /2", "commit 1 - x=1 1,1"], sites=2),
    "AttemptHeard": lambda: heard("A transaction that validation refused begins again as a new one, which commits.",
                                  LETTERS7 + ["begin 3", "read 3 x", "commit 3 x=5 y=6"], opening="valid native", restarts=1, count=2),
    "AttemptTwice": lambda: heard("A new attempt begins once, however often it is asked for.", LETTERS7 + ["begin 3", "begin 3"],
                                  opening="valid native", restarts=1, count=2),
    "AttemptLost": lambda: heard("A stop of the home ends the attempts that haven't begun.",
                                 LETTERS7 + ["down 1 1", "hello @1 /2", "begin 3 /2"], opening="valid native", restarts=1,
                                 count=2, sites=2, holders="1"),
}
STEPS_KEPT = ["FirstRun", "StopInRun", "DeadlockHeard", "CopierHeard", "LateDown", "DoubleStop", "StaleCommit", "AttemptHeard"]


def steps_example(module, folder):
    with open(os.path.join(folder, module + ".antt"), "w") as f:
        f.write(STEPS_EXAMPLES[module]())


def main():
    words = sys.argv[1:]
    if words[:1] == ["--all"]:
        for module in LEGAL_EXAMPLES:
            legal_example(module, os.path.join(words[1], "raid_legal", "proofs"))
        for module in STEPS_EXAMPLES:
            steps_example(module, os.path.join(words[1], "raid_steps", "proofs"))
        return
    for module in words or KEPT + STEPS_KEPT:
        if module in LEGAL_EXAMPLES:
            legal_example(module, LEGAL)
        else:
            steps_example(module, STEPS)


if __name__ == "__main__":
    main()
