#!/usr/bin/env python3
"""Replays a report: runs the committed programs of its workload one after another, in the printed order, and compares what each reads
and writes and the final values with what the report says.

    referee.py WORKLOAD < REPORT

It is written from docs/workload.md, docs/programs.md and docs/report.md alone, and knows nothing of servers, controllers or locks: just
what a program is, and that one runs after the other. Ends with status 1, and says where, if the report tells anything else.
"""
import sys

LEAST, MOST = -(2**63), 2**63 - 1


def workload(text):
    """The items with the values that they open with, and the programs as lists of statements, each a list of words."""
    items, programs, body = {}, [], None
    for words in map(str.split, text.split("\n")):
        if not words or words[0].startswith("#"):
            continue
        if words[0] == "item":
            items[words[1]] = int(words[2])
        elif words[0] == "program":
            body = []
            programs.append(body)
        elif words[0] == "end":
            body = None
        elif body is not None:
            body.append(words)
    return items, programs


def value(expression, registers):
    """The value of an expression, computed from left to right; OverflowError where a sum leaves 64 bits."""
    terms = [registers.get(it, 0) if it.startswith("r") else int(it) for it in expression[::2]]
    total = terms[0]
    for sign, term in zip(expression[1::2], terms[1:]):
        total += term if sign == "+" else -term
        if not LEAST <= total <= MOST:
            raise OverflowError
    return total


def run(program, items):
    """What a program reads and what it writes, alone on these values; None in place of both where it ends itself."""
    registers, reads, writes = {}, {}, {}
    for word, *rest in program:
        if word == "read":
            item, register = rest
            if item not in writes:
                reads.setdefault(item, items[item])
            registers[register] = writes.get(item, items[item])
        elif word == "write":
            writes[rest[0]] = value(rest[1:], registers)
        else:
            # stop if EXPRESSION < EXPRESSION
            sign = rest.index("<")
            if value(rest[1:sign], registers) < value(rest[sign + 1:], registers):
                return None
    return reads, writes


def pairs(word):
    """The pairs of a list `x=1,y=2`, or of `-`."""
    return {} if word == "-" else {name: int(number) for name, number in (it.split("=") for it in word.split(","))}


def report(text):
    """What the report says that was committed, in which order, and the final values."""
    committed, order, finals = {}, [], {}
    for words in map(str.split, text.split("\n")):
        if words[1:2] == ["commit"]:
            committed[words[2]] = pairs(words[4]), pairs(words[6])
        elif words[:1] == ["order"]:
            order = [it for it in words[1:] if it != "-"]
        elif words[:1] == ["final"]:
            finals[words[1]] = int(words[2])
    return committed, order, finals


def judge(workload_text, report_text):
    """The first thing that the report tells and the replay doesn't, or None; and how many transactions were replayed."""
    items, programs = workload(workload_text)
    committed, order, finals = report(report_text)
    if not report_text.endswith("\ndone\n"):
        return "the report doesn't end in `done`", 0
    if sorted(order) != sorted(committed):
        return "the order doesn't list just the committed transactions", 0
    for number, txn in enumerate(order):
        try:
            done = run(programs[int(txn[1:].split(".")[0]) - 1], items)
        except OverflowError:
            done = None
        if done != committed[txn]:
            return f"{txn} reads and writes {done}, and the report says {committed[txn]}", number
        items.update(done[1])
    return (f"the final values are {items}, and the report says {finals}" if items != finals else None), len(order)


def main():
    with open(sys.argv[1], encoding="utf-8", errors="replace") as file:
        wrong, count = judge(file.read(), sys.stdin.read())
    if wrong:
        print(f"{sys.argv[1]}: {wrong}")
        return 1
    print(f"{sys.argv[1]}: {count} committed transactions, replayed one after another in the printed order: reads, writes and final values agree")
    return 0


if __name__ == "__main__":
    sys.exit(main())
