"""Compares what random workload texts read as with what the reference model says.

    texts.py PROGRAM COUNT SEED

PROGRAM is the built raid_try_text. COUNT texts are drawn: good ones with other spacing, comments and zeros, and
such with words, lines or bytes dropped, doubled, moved or replaced. Texts at the limits and texts cut short come
with them. Each is read by both; the printed workload or the refusal line has to be the same byte for byte.
The line printed has how many texts came to a workload and to each fault.
"""
import collections
import random
import struct
import subprocess
import sys

import model  # noqa: F401
import raid_text

VALUES = ["0", "-0", "5", "007", "-12", "9223372036854775807", "-9223372036854775808", "9223372036854775808",
          "-9223372036854775809", "09223372036854775807", "12345678901234567890", "x", "r3", "r15", "r16", "r01",
          "--1", "-", "+1"]
NUMBERS = ["1", "2", "3", "01", "4", "8", "9", "0", "16", "17", "000000001", "0000000001", "2000", "2001", "-1", "x"]
NAMES = ["a", "b", "c1", "d_2", "abcdefghijklmnop"]
ODD_NAMES = ["A", "1a", "abcdefghijklmnopq", "_a", "a-b", "e"]
WORDS = ["1", "at", "r1", "+", "a", "x\x7f", "<", "\xe9", "by", "after", "end", "done", "workload", "2", "stop", "if"]
SKIPPED = ["# x \xff", "", "  \t", "#", "  # hello", "\r", "\t#\x00"]
KINDS = ["lock", "stamp", "valid", "graph"]


def number(rng):
    return rng.choice(NUMBERS) if rng.random() < 0.25 else str(rng.randint(1, 3))


def term(rng):
    return rng.choice(VALUES) if rng.random() < 0.1 else rng.choice(["r0", "r1", "7", "-3"])


def expression(rng):
    most = rng.choice([0, 1, 6, 7, 8]) if rng.random() < 0.2 else rng.randint(0, 2)
    return " ".join([term(rng)] + [rng.choice("+-") + " " + term(rng) for _ in range(most)])


def statement(names, rng):
    name = rng.choice(names) if names and rng.random() < 0.98 else rng.choice(ODD_NAMES)
    draw = rng.random()
    if draw < 0.4:
        return f"read {name} r{rng.randint(0, 15)}"
    if draw < 0.7:
        return f"write {name} {expression(rng)}"
    return f"stop if {expression(rng)} < {expression(rng)}"


def good(rng):
    """The lines of a text that mostly has a reading."""
    version = rng.choice([1, 2])
    sites = rng.choice([3, 3, 4, 8])
    lines = [f"workload {version}", f"sites {sites} together {rng.randint(1, 16)}"]
    if version == 2:
        lines.append(f"restarts {rng.randint(0, 3)}")
    names = rng.sample(NAMES, rng.randint(0, 5))
    for name in names:
        holders = rng.sample(range(1, sites + 1), rng.randint(1, sites))
        lines.append(f"item {name} {rng.choice(VALUES[:7])} at " + " ".join(map(str, holders)))
    structure = rng.choice(["native", "generic"])
    kind = rng.choice(KINDS)
    lines.append(f"open {kind} {structure}")
    triggers, stopped = [1, 1], set()
    for _ in range(rng.randint(0, 8)):
        draw = rng.random()
        odd = rng.random() < 0.1
        if draw < 0.25:
            triggers[0] = max(1, triggers[0] + rng.randint(-3 * odd, 3))
            kind = rng.choice([k for k in KINDS if k != kind or odd])
            method = rng.choice(["convert", "suffix"] + ["generic"] * (structure == "generic" or odd))
            lines.append(f"switch {kind} by {method} after {triggers[0]}")
        elif draw < 0.5:
            triggers[1] = max(1, triggers[1] + rng.randint(-3 * odd, 3))
            site = rng.randint(1, sites + odd)
            lines.append(f"{'return' if (site in stopped) != (odd and draw < 0.4) else 'stop'} {site} after {triggers[1]}")
            stopped ^= {site}
        else:
            lines.append(f"program {rng.randint(1, sites)}")
            lines += [statement(names, rng) for _ in range(rng.randint(0, 4))]
            lines.append("end")
    return lines + ["done"]


def broken(lines, rng):
    """The lines with none, one or two changes."""
    lines = list(lines)
    for _ in range(rng.choice([0, 0, 1, 1, 2])):
        if not lines:
            break
        k = rng.randrange(len(lines))
        words = lines[k].split(" ")
        draw = rng.random()
        if draw < 0.1:
            del lines[k]
            continue
        if draw < 0.2:
            lines.insert(k, rng.choice(lines))
            continue
        if draw < 0.3:
            lines.insert(k, rng.choice(SKIPPED))
            continue
        if draw < 0.45:
            del words[rng.randrange(len(words))]
        elif draw < 0.6:
            words.insert(rng.randrange(len(words) + 1), rng.choice(WORDS))
        elif draw < 0.75:
            words[rng.randrange(len(words))] = number(rng)
        elif draw < 0.85:
            words[rng.randrange(len(words))] = rng.choice(NAMES + ODD_NAMES)
        elif draw < 0.95:
            words[rng.randrange(len(words))] = rng.choice(VALUES)
        else:
            words[rng.randrange(len(words))] = rng.choice(KINDS + WORDS)
        lines[k] = rng.choice([" ", " ", "\t", "  ", " \r"]).join(words)
    return lines


def drawn(rng):
    text = "\n".join(broken(good(rng), rng)).encode("latin1")
    if rng.random() < 0.8:
        text += b"\n"
    if rng.random() < 0.05:
        at = rng.randrange(len(text) + 1)
        text = text[:at] + bytes([rng.randrange(256)]) + text[at + rng.randint(0, 1):]
    return text


def at_limits():
    """Texts with the most of each, and with one more; and texts of a few words."""
    head = "workload 1\nsites 2 together 1\n"

    def items(count):
        return "".join(f"item i{k} 0 at 1\n" for k in range(count))

    texts = []
    for count in (1024, 1025):
        texts.append(head + items(count) + "open lock native\ndone\n")
    for count in (2000, 2001):
        texts.append(head + "open lock native\n" + "program 1\nend\n" * count + "done\n")
    for count in (32, 33):
        texts.append(head + items(1) + "open lock native\nprogram 1\n" + "read i0 r0\n" * count + "end\ndone\n")
    for count in (64, 65):
        switches = "".join(f"switch {['stamp', 'lock'][k % 2]} by suffix after 1\n" for k in range(count))
        events = "".join(f"{['stop', 'return'][k % 2]} 1 after 1\n" for k in range(count))
        texts += [head + "open lock native\n" + switches + "done\n", head + "open lock native\n" + events + "done\n"]
    texts += ["", "\n", "#", "workload 1", "workload 01\n", "workload\n", "workload 1 1\n", " workload\t1\r\n", "workload 3\n",
              "workload 2\n", "workload 2\nsites 1 together 1\n", "workload 2\nsites 1 together 1\nrestarts 4\n",
              "workload 1\nsites 1 together 1\nrestarts 0\n", "workload 1" + " 1" * 1_000_000 + "\n", head + "item a 0 at" + " 1" * 1_000_000 + "\n"]
    return [text.encode() for text in texts]


def cuts(text):
    """The text cut behind each line feed, and before it."""
    ends = [k for k, byte in enumerate(text) if byte == 10]
    return [text[:k] for k in ends] + [text[:k + 1] for k in ends]


def answers(program, texts):
    given = b"".join(struct.pack(">I", len(text)) + text for text in texts)
    told = subprocess.run([program], input=given, stdout=subprocess.PIPE, check=True).stdout
    return told.split(b"--\n")[:-1]


def main(program, count, seed):
    rng = random.Random(seed)
    texts = at_limits() + cuts("\n".join(good(rng) + [""]).encode())
    texts += [drawn(rng) for _ in range(count - len(texts))]
    counts, told = collections.Counter(), answers(program, texts)
    if len(told) != len(texts):
        print(f"texts: {len(told)} answers to {len(texts)} texts")
        return 1
    for text, answer in zip(texts, told):
        read = raid_text.parse(text)
        if isinstance(read, raid_text.Refusal):
            counts[f"fault {read.fault}"] += 1
            wanted = read.text().encode()
        else:
            counts["read"] += 1
            wanted = raid_text.print_workload(read)
        if answer != wanted:
            print(f"texts: {text!r}\n  the program: {answer!r}\n  the model: {wanted!r}")
            return 1
    each = ", ".join(f"{name} {counts[name]}" for name in ["read"] + [f"fault {k}" for k in range(1, 15)])
    print(f"texts: {len(texts)} read as the model does: {each}")
    return 0


if __name__ == "__main__":
    sys.exit(main(sys.argv[1], int(sys.argv[2]), int(sys.argv[3])))
