"""Holds docs/BELIEVE.md to the tree: usage check_believe.py [--write], in the repository's root; --write puts the counts right

Every file of definitions is listed there once, with its count of lines in brackets, and every file listed is there. No file that is to
be believed names one that is said to be inside. Files that apply theorems to data are not listed, and no other file names one.
"""
import re
import sys
from pathlib import Path

from faults import report

PAGE = Path("docs/BELIEVE.md")
INSIDE = "### Inside"


def applies(name):
    """Whether crate/specs/File.antt applies theorems to data."""
    crate, _, file = name.split("/")
    return file == "Applied.antt" or crate.endswith("_applications")


def module(name):
    """crate/specs/File.antt as a `use` line names it."""
    crate, _, file = name.split("/")
    return f"use Rattle.{crate}.specs.{file[:-5]}."


def main():
    text = PAGE.read_text(encoding="utf-8")
    row = r"`([\w/]+\.antt)` \((\d+)\)"
    rows = re.findall(row, text)
    inside = {name for name, _ in re.findall(row, text[text.index(INSIDE):])}
    listed = {name: int(lines) for name, lines in rows}
    there, applied = {}, set()
    for path in Path("crates").glob("*/specs/*.antt"):
        if path.name != "Lib.antt":
            name = str(path.relative_to("crates"))
            if applies(name):
                applied.add(name)
            else:
                there[name] = len(path.read_text(encoding="utf-8").splitlines())

    if "--write" in sys.argv[1:]:
        text = re.sub(row, lambda m: f"`{m.group(1)}` ({there.get(m.group(1), m.group(2))})", text)
        PAGE.write_text(text, encoding="utf-8")
        listed = {name: int(lines) for name, lines in re.findall(row, text)}
    faults = [f"{name} is listed twice" for name in sorted(listed) if sum(row[0] == name for row in rows) > 1]
    faults += [f"{name} is not listed" for name in sorted(there.keys() - listed.keys())]
    faults += [f"{name} is listed and not there" for name in sorted(listed.keys() - there.keys())]
    faults += [
        f"{name} has {there[name]} lines, and not {listed[name]}"
        for name in sorted(there.keys() & listed.keys())
        if there[name] != listed[name]
    ]
    for name in sorted(there.keys()):
        uses = re.findall(r"^(?:pub )?(use Rattle\..*)$", (Path("crates") / name).read_text(encoding="utf-8"), flags=re.M)
        barred = applied if name in inside else applied | inside
        named = {other for other in barred for line in uses if line.startswith(module(other))}
        faults += [f"{name} {'is inside' if name in inside else 'is to be believed'} and names {other}" for other in sorted(named)]
    return report("believe", faults, f"{len(there)} files of definitions with {sum(there.values())} lines, each listed")


if __name__ == "__main__":
    sys.exit(main())
