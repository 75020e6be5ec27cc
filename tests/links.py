#!/usr/bin/env python3
"""Looks for what leads nowhere in the repository's Markdown: a link to a file that isn't there, or to a heading that its page doesn't
have; and, set as code, a path of the repository or the name of a crate that isn't there.

    links.py

Links to other places, as `https://..`, are not tried. Names with a `*`, a `{` or capitals stand for others, and are left out. Status 1
where a link is dead; a name is told alone.
"""
import re
import subprocess
import sys
from pathlib import Path

ROOT = Path(__file__).resolve().parent.parent
NAMED = re.compile(r"`((?:bin|tests|docs|examples|crates)/[\w./-]*\w|raid_[a-z_]+)(?:/?`|[ :.][^`\n]*`)")
LINK = re.compile(r"\[[^\]\n]*\]\(([^)\s]+)\)")
CODE = re.compile(r"^```.*?^```|`[^`\n]*`", re.M | re.S)
ELSEWHERE = re.compile(r"[a-z]+:")


def pages():
    """The Markdown files that git knows, or would add."""
    command = ["git", "-C", str(ROOT), "ls-files", "--cached", "--others", "--exclude-standard", "*.md"]
    return [ROOT / it for it in sorted(subprocess.run(command, capture_output=True, text=True, check=True).stdout.split("\n")) if it]


def anchors(page):
    """The names by which the headings of a page can be linked."""
    text = re.sub(r"^```.*?^```", "", page.read_text(encoding="utf-8"), flags=re.M | re.S)
    headings = re.findall(r"^#+ +(.*?) *#*$", text, re.M)
    return {re.sub(r"[^\w\- ]", "", it.lower()).replace(" ", "-") for it in headings}


def dead(page):
    """The links of a page that lead nowhere."""
    for target in LINK.findall(CODE.sub("", page.read_text(encoding="utf-8"))):
        if ELSEWHERE.match(target):
            continue
        path, _, heading = target.partition("#")
        file = (page.parent / path).resolve() if path else page
        if not file.exists() or (heading and file.suffix == ".md" and heading not in anchors(file)):
            yield target


def missing(page, crates):
    """The paths and the crates that a page names as code and that aren't there."""
    for name in NAMED.findall(re.sub(r"^```.*?^```", "", page.read_text(encoding="utf-8"), flags=re.M | re.S)):
        if not (name in crates if "/" not in name else (ROOT / name).exists() or name.split("/")[2:3] in (["out"], ["must-fail"])):
            yield name


def main():
    crates = re.findall(r"^(\w+):", (ROOT / "crates.txt").read_text(encoding="utf-8"), re.M)
    written = [page for page in pages() if page.exists()]
    links = [(page, it) for page in written for it in dead(page)]
    names = [(page, it) for page in written for it in missing(page, crates)]
    for page, target in links:
        print(f"links: {page.relative_to(ROOT)}: the link to {target} leads nowhere")
    for page, name in names:
        print(f"links: {page.relative_to(ROOT)}: there is no {name}")
    print(f"links: {len(written)} pages, {len(links)} dead links, {len(names)} names of what isn't there")
    return 1 if links else 0


if __name__ == "__main__":
    sys.exit(main())
