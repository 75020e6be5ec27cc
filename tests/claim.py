#!/usr/bin/env python3
"""Lists what has to be believed: the definitions behind the contract of the program's call `run`, in five tiers, in docs/claim.md.

    claim.py            compares docs/claim.md with what the definitions are now, and with the most lines that it allows to each tier
    claim.py --write    writes docs/claim.md anew, and leaves the most lines as they are there

A contract is worth what the definitions mean that it cites, and those that they cite in turn. From the roots below this follows each
name through the `use` lines of its file, definition by definition, down to the standard library, which it takes as known. Counted are
lines of code: no blank ones, no comments and no imports; of a Rust type those of its declaration, without attributes and comments.
Ends with status 1 where the page is out of date, or a tier is larger than the page allows.
"""
import argparse
import glob
import os
import re
import sys

ROOT = os.path.dirname(os.path.dirname(os.path.abspath(__file__)))
PAGE = f"{ROOT}/docs/claim.md"

# The tiers: a heading, what it says, and the definitions that it begins with. What an earlier tier has is no part of a later one.
TIERS = (
    ("The claim on a report", "what holds of each report that the program prints, as a value: no word of texts, and none of the machine that made it",
     ["raid_legal.specs.Sound.Sound"]),
    ("How texts are read and printed", "which text says which workload, what is refused, and how a report, a summary and a made workload are printed",
     ["raid_text.specs.Outcome.Reads", "raid_text.specs.Outcome.IsFirstFault", "raid_text.specs.Spelling.print_of", "raid_report.specs.Spelling.print_of",
      "raid_report.specs.Brief.brief_of", "raid_generator.specs.Made.IsMade", "raid_command.specs.Asked.command_of", "raid_app.specs.Lines.usage_line",
      "raid_app.specs.Lines.too_long_line", "raid_app.specs.Lines.fault_line"]),
    ("What is found of a report", "which bytes are a workload's text and a report's, which text says which report, and when a report that anybody sends is "
     "sound, or fails, and how", ["raid_check.specs.Finding.Finds", "raid_report.specs.Beginnings.IsTextOf", "raid_report.specs.Beginnings.IsFirstUnfit",
                                  "raid_app.specs.Input.workload_text", "raid_app.specs.Input.report_text", "raid_app.specs.Lines.unfit_line",
                                  "raid_app.specs.Lines.finding_line"]),
    ("What is advised", "which switch a sound report speaks for, and how it is printed",
     ["raid_advise.specs.Advice.advice", "raid_app.specs.Lines.advice_line"]),
    ("Which run it was", "that the report is that of a run of the definitions, by the schedule that the call answers, and how a call ends: its "
     "status, what it read and what it wrote", ["raid_app.specs.Ended.Ends"]),
)
HEAD = """# What has to be believed

The contract of `run` ([call.rt](../crates/raid_app/src/call.rt)) is proved, and its proof is checked, so nobody has to read it. What has to
be read is what the contract *says*: the definitions that it cites, and those behind them. Here they all are, each file after those that it
needs. A tier can be read by itself: who wants to know what is claimed of a report reads the first.

Lines of code are counted, without comments and imports. The script `tests/claim.py` writes this page, and fails where it is out of date or
where a tier has more lines than are allowed to it here. The two conditions of `run`, that its controllers are whole and cleared, are met where
`main` calls it, and the check proves that; so they needn't be believed. Beside the definitions there are the toolchain, the C library and the
machine.
"""
WORD = re.compile(r"[A-Za-z_]\w*(?:-\w+)*(?:\.[A-Za-z_]\w*)*|[◌≡≤]+")
HEADED = re.compile(r"(?:(?:abbrev|unfoldable|pub|data|record|opaque)\s+)+([^\s:({]+)")
TYPE = r"^(?:#\[[^\n]*\]\n)*pub (?:struct|enum|trait) %s\b.*?(?:^}|;\s*$)"


class File:
    """A file of specs/: the lines of its definitions, and what its `use` lines bring in."""

    def __init__(self, path):
        self.path, self.definitions, self.imported, self.modules = path, {}, {}, {}
        name = None
        with open(path, encoding="utf-8") as lines:
            for line in lines:
                line = line.rstrip("\n")
                if not line.strip() or line.strip().startswith("--") or line.startswith(("pub mod ", "mod ")):
                    continue
                if line.startswith(("use ", "pub use ")):
                    self.take(line)
                    continue
                if not line.startswith(" "):
                    headed = HEADED.match(line)
                    word = headed.group(1) if headed else line.split()[0]
                    name = word if headed or word in self.definitions else name
                self.definitions.setdefault(name, []).append(line)

    def take(self, line):
        """Notes what a `use` line brings in: names of a module, or a module under a name."""
        path, brace, names = line.split("use ", 1)[1].strip().partition(".{")
        if not brace:
            module, _, alias = path.partition(" as ")
            self.modules[alias or module.rpartition(".")[2]] = module
        for name in filter(None, (it.strip() for it in names.rstrip("}").split(","))):
            original, _, alias = name.partition(" as ")
            self.imported[alias or original] = path, original

    def named(self, name):
        """The definition that a name belongs to: itself, or the `data` that it is a case of."""
        if name in self.definitions:
            return name
        case = re.compile(r"\s+" + re.escape(name) + r"\s*:")
        return next((it for it, lines in self.definitions.items() if any(map(case.match, lines))), None)


class Trusted:
    """The definitions and the types that are reachable from roots, with what each of their files needs."""

    def __init__(self):
        self.files, self.found, self.types, self.needs, self.missing = {}, {}, {}, {}, []

    def file(self, path):
        if path not in self.files:
            self.files[path] = File(path)
        return self.files[path]

    def follow(self, roots, tier):
        """Adds what these roots cite and isn't there yet, as of this tier."""
        waiting = []
        for root in roots:
            module, _, name = root.rpartition(".")
            self.resolve(f"Rattle.{module}", name, tier, None, waiting)
        while waiting:
            path, name = waiting.pop()
            file = self.file(path)
            for line in file.definitions[name]:
                for word in WORD.findall(line):
                    first, _, rest = word.partition(".")
                    if first in file.modules and rest:
                        self.resolve(file.modules[first], rest.split(".")[0], tier, path, waiting)
                    elif first in file.imported:
                        self.resolve(*file.imported[first], tier, path, waiting)
                    elif file.named(first) not in (None, name):
                        self.add(path, file.named(first), tier, waiting)

    def resolve(self, module, name, tier, cited_in, waiting):
        """Finds a name of a module: a definition or a type of the repository, or one of the library, which is taken as known."""
        parts = module.split(".")
        if not (parts[0] == "Rattle" and os.path.isdir(f"{ROOT}/crates/{parts[1]}") and parts[2:3] == ["specs"]):
            return
        crate, rest = parts[1], parts[3:]
        if rest[:1] == ["declared"]:
            named = [it for it in rest if it[0].isupper() and it != "TheVariants"]
            self.add_type(crate, named[-1] if named else name, tier, cited_in)
            return
        path = f"{ROOT}/crates/{crate}/specs/{'/'.join(rest)}.antt"
        if not os.path.exists(path):
            path, name = f"{ROOT}/crates/{crate}/specs/{'/'.join(rest[:-1])}.antt", rest[-1]
        file = self.file(path)
        if cited_in and cited_in != path:
            self.needs.setdefault(cited_in, set()).add(path)
        if file.named(name):
            self.add(path, file.named(name), tier, waiting)
        elif name in file.imported:
            self.resolve(*file.imported[name], tier, cited_in, waiting)
        else:
            self.missing.append(f"{module}.{name}")

    def add(self, path, name, tier, waiting):
        if (path, name) not in self.found:
            self.found[path, name] = tier
            waiting.append((path, name))

    def add_type(self, crate, name, tier, cited_in):
        """Adds a Rust type of the crate, and the types of the repository that its declaration names."""
        for path in sorted(glob.glob(f"{ROOT}/crates/{crate}/src/**/*.rt", recursive=True)):
            with open(path, encoding="utf-8") as file:
                text = file.read()
            declared = re.search(TYPE % name, text, re.M | re.S)
            if not declared:
                continue
            if cited_in:
                self.needs.setdefault(cited_in, set()).add(path)
            if (path, name) in self.types:
                return
            lines = [it for it in declared.group(0).split("\n") if it.strip() and not it.strip().startswith(("//", "#["))]
            self.types[path, name] = tier, len(lines)
            for word in set(re.findall(r"\b[A-Z]\w+", " ".join(lines))) - {name}:
                used = re.search(r"^use (\w+)(?:::\w+)*::(?:\{[^}]*\b" + word + r"\b[^}]*\}|" + word + ");", text, re.M)
                owner = used.group(1) if used else crate
                if os.path.isdir(f"{ROOT}/crates/{owner}") or owner == "crate":
                    self.add_type(crate if owner == "crate" else owner, word, tier, path)
            return


def ordered(files, needs):
    """The files, each after those that it needs."""
    done = []

    def visit(path, above):
        for low in sorted(needs.get(path, ())):
            if low not in above and low not in done:
                visit(low, above | {low})
        if path not in done:
            done.append(path)

    for path in sorted(files):
        visit(path, {path})
    return [it for it in done if it in files]


def rows(trusted, tier):
    """For each file of the tier: its definitions in the file's order, and how many lines they have."""
    found = {}
    for (path, name), of in trusted.found.items():
        if of == tier:
            found.setdefault(path, []).append(name)
    for path, names in found.items():
        file = trusted.file(path)
        names.sort(key=list(file.definitions).index)
        found[path] = names, sum(len(file.definitions[it]) for it in names)
    types = {}
    for (path, name), (of, count) in trusted.types.items():
        if of == tier:
            names, lines = types.get(path, ([], 0))
            types[path] = sorted([*names, name]), lines + count
    return found, types


def page(trusted, most):
    """The text of docs/claim.md, and what is wrong with it."""
    text, wrong, summary = "", [], []
    for tier, (heading, says, _) in enumerate(TIERS):
        definitions, types = rows(trusted, tier)
        lines, of_types = sum(it for _, it in definitions.values()), sum(it for _, it in types.values())
        limit = most.get(heading, lines + of_types)
        names = sum(len(it) for it, _ in definitions.values())
        summary.append(f"| {tier + 1}. {heading} | {names} | {lines} | {of_types} | {lines + of_types} | {limit} |")
        if lines + of_types > limit:
            wrong.append(f"the tier '{heading}' has {lines + of_types} lines, and docs/claim.md allows {limit}")
        text += f"\n## {tier + 1}. {heading}\n\nIt says {says}.\n\n| file | definitions | lines |\n|---|---|---|\n"
        for path in ordered({**types, **definitions}, trusted.needs):
            names, count = definitions.get(path) or types[path]
            short = os.path.relpath(path, f"{ROOT}/crates")
            text += f"| [{short}](../crates/{short}) | {', '.join(f'`{it}`' for it in names)} | {count} |\n"
    table = "\n| tier | definitions | their lines | lines of types | together | allowed |\n|---|---|---|---|---|---|\n" + "\n".join(summary) + "\n"
    return HEAD + table + text, wrong


def allowed():
    """The most lines that the page allows to each tier."""
    if not os.path.exists(PAGE):
        return {}
    with open(PAGE, encoding="utf-8") as file:
        return {heading: int(most) for heading, most in re.findall(r"^\| \d\. (.*?) \|.*\| (\d+) \|$", file.read(), re.M)}


def main():
    parser = argparse.ArgumentParser(description=__doc__.splitlines()[0])
    parser.add_argument("--write", action="store_true")
    args = parser.parse_args()
    trusted = Trusted()
    for tier, (_, _, roots) in enumerate(TIERS):
        trusted.follow(roots, tier)
    text, wrong = page(trusted, allowed())
    wrong += [f"{it} is nowhere" for it in trusted.missing]
    if args.write:
        with open(PAGE, "w", encoding="utf-8") as file:
            file.write(text)
    else:
        with open(PAGE, encoding="utf-8") as file:
            wrong += ["docs/claim.md is out of date: python3 tests/claim.py --write"] if file.read() != text else []
    for it in wrong:
        print(f"claim: {it}")
    print(f"claim: {'FAILED' if wrong else 'the page is what the definitions are'}; "
          + ", ".join(f"{sum(n for _, n in definitions.values()) + sum(n for _, n in types.values())} lines" for definitions, types in
                      (rows(trusted, tier) for tier in range(len(TIERS)))) + " in its tiers")
    return 1 if wrong else 0


if __name__ == "__main__":
    sys.exit(main())
