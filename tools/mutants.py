#!/usr/bin/env python3
"""Changes the source of a crate in one place at a time and sorts what the checker says of each change.

  mutants.py CRATE [--definitions] [--since REV] [--most N] [--seed S] [--limit SECONDS] [--list]

accepted    the crate is still proved: the change is equal in meaning, or a promise is too weak
fact        a statement no longer holds: what one hopes for
shape       the proof file no longer fits the code, which shows nothing of the promise
no program  the compiler refuses the change, or the changed definition is none
no verdict  the checks of the change took longer than the limit

With --definitions the files of specs/ are changed and the code is not. What the crate itself does not notice is put to the crates
that stand on it, one after the other: an accepted change is one that no code and no law of any of them notices. It tells of changes
that in the code are refused for shape only, such as a sum made a difference.

With --since only lines are changed that are new since that commit, so that after a change a crate need not be gone through again.

Each change is checked in a copy outside the repository, over what earlier checks have kept.
"""
import argparse
import os
import random
import re
import shutil
import signal
import subprocess
import sys
import tempfile
import time
from pathlib import Path

ROOT = Path(__file__).resolve().parent.parent
sys.path.append(str(ROOT / "tests"))
from archives import dependencies

# a comparison or sum between spaces, as the formatter lays it out
SWAPS = [(" < ", " <= "), (" <= ", " < "), (" == ", " != "), (" != ", " == "), (" + ", " - "), (" - ", " + "), (" && ", " || "),
         (" || ", " && "), (" * ", " + "), (" / ", " % "), (" % ", " / "), (" << ", " >> "), (" >> ", " << "), (" += ", " -= "),
         (" -= ", " += ")]
WORDS = [("true", "false"), ("false", "true")]
NUMBER = re.compile(r"(?<![\w.])(0x[0-9A-Fa-f]+|\d+)(?![\w.])")
# the same in a definition, where tests are functions
DEFINITION_SWAPS = [(" + ", " - "), (" - ", " + "), (" * ", " + "), (" / ", " % "), (" % ", " / "), (" && ", " || "), (" || ", " && "),
                    ("leb ", "ltb "), ("ltb ", "leb "), ("take ", "drop "), ("drop ", "take "), (" < ", " ≤ "), (" ≤ ", " < ")]
HOME = "Rattle.std.specs.Prelude"  # of all these words
# an error that only says that a proof file no longer fits: a name that the change took away, and what cites that proof
NO_LONGER_FITS = re.compile(r"(note: )?(\./)?proofs/.*(has no field|is not in scope|has no `|was not admitted|was not checked)|.*no proof:")
# what says nothing of numbers; a field of a record is a statement, and is changed
NO_DEFINITION = re.compile(r"^\s*(--|use |pub mod |mod |module |unfolding |$)")
PASSED_OVER = re.compile(r"^\s*(//|ghost |use |mod |pub use |requires|ensures|#\[|pub struct|pub enum|\}|\{|$)")
STATEMENT = re.compile(r"^\s*(?!let |return|pub |fn |while |if |\} else)\S.*;$")


def code_lines(text):
    """The lines that may be changed: no contract, which may go over several lines, and no table of constants."""
    in_contract = in_table = False
    for number, line in enumerate(text.split("\n")):
        if re.match(r"^\s*(requires|ensures)\b", line):
            in_contract = not line.rstrip().endswith("}")
            continue
        if in_contract:
            in_contract = not line.rstrip().endswith("}")
            continue
        if re.match(r"^(pub )?const \w+: \[", line):
            in_table = True
        if in_table:
            in_table = line.strip() != "];"
            continue
        if not PASSED_OVER.match(line):
            yield number, line


def changed(text, number, new):
    lines = text.split("\n")
    lines[number] = new
    return "\n".join(lines)


def mutants(text):
    for number, line in code_lines(text):
        for old, new in SWAPS:
            for found in re.finditer(re.escape(old), line):
                yield number, changed(text, number, line[:found.start()] + new + line[found.end():])
        for old, new in WORDS:
            for found in re.finditer(rf"\b{old}\b", line):
                yield number, changed(text, number, line[:found.start()] + new + line[found.end():])
        for found in NUMBER.finditer(line):
            value = int(found.group(), 0)
            for other in (value + 1, value - 1):
                if other >= 0:
                    yield number, changed(text, number, line[:found.start()] + str(other) + line[found.end():])
        for found in re.finditer(r"!(?=\w+\()", line):
            yield number, changed(text, number, line[:found.start()] + line[found.end():])
        if STATEMENT.match(line):
            yield number, changed(text, number, "")
    yield from reordered(text)


def brought(text, word):
    """The text with the word in its `use` lines, or nothing where its module is not used at all."""
    name = word if word.isalpha() else f"◌{word}◌"
    uses = re.search(rf"^use {re.escape(HOME)}\.\{{(.*)\}}$", text, flags=re.M)
    if not uses:
        return None
    if name in uses.group(1).split(", "):
        return text
    return text[:uses.end() - 1] + f", {name}" + text[uses.end() - 1:]


def changed_definitions(text):
    lines = text.split("\n")
    for number, line in enumerate(lines):
        if NO_DEFINITION.match(line):
            continue
        for old, new in DEFINITION_SWAPS:
            for found in re.finditer(r"(?<!\w)" + re.escape(old) if old[0] != " " else re.escape(old), line):
                other = brought(changed(text, number, line[:found.start()] + new + line[found.end():]), new.strip())
                if other:
                    yield number, other
        for old, new in WORDS:
            for found in re.finditer(rf"(?<![\w-]){old}(?![\w-])", line):
                other = brought(changed(text, number, line[:found.start()] + new + line[found.end():]), new)
                if other:
                    yield number, other
        for found in NUMBER.finditer(line):
            if not line[:found.start()].endswith(("Type ", "-")):  # a universe, or a part of a name
                yield number, changed(text, number, line[:found.start()] + str(int(found.group(), 0) + 1) + line[found.end():])


def reordered(text):
    """Two tests of three lines, one right after the other, each with a return: the other way round."""
    lines = text.split("\n")
    for i in range(len(lines) - 5):
        one, two = lines[i:i + 3], lines[i + 3:i + 6]
        if all(b[0].strip().startswith("if ") and "return" in b[1] and b[2].strip() == "}" for b in (one, two)):
            yield i, "\n".join(lines[:i] + two + one + lines[i + 6:])


def new_lines(path, since):
    """The numbers of the lines, from 0, that the file has not had at the commit `since`."""
    diff = subprocess.run(["git", "diff", "--unified=0", since, "--", str(path)], cwd=ROOT, capture_output=True, text=True)
    if diff.returncode != 0:
        sys.exit(f"mutants: {diff.stderr.strip()}")
    parts = [(int(first), int(count or 1)) for first, count in re.findall(r"^@@ \S+ \+(\d+)(?:,(\d+))? @@", diff.stdout, flags=re.M)]
    return {first - 1 + k for first, count in parts for k in range(count)}


def check(place, crate, until=None):
    """The exit status and the words of rt; a run that is not over in time is ended, with all that it started."""
    run = subprocess.Popen(["rt", "check"], cwd=place / "crates" / crate, stdout=subprocess.PIPE, stderr=subprocess.STDOUT, text=True,
                           errors="replace", start_new_session=True)
    try:
        said, _ = run.communicate(timeout=until and max(until - time.monotonic(), 1))
    except subprocess.TimeoutExpired:
        os.killpg(run.pid, signal.SIGKILL)
        run.communicate()
        raise
    return run.returncode, said


def users(crate):
    """The crates that stand on the crate, in the order of crates.txt."""
    return [name for name, below in dependencies((ROOT / "crates.txt").read_text()).items() if crate in below]


def verdict(place, crate, definitions, limit):
    until = time.monotonic() + limit
    try:
        return verdict_until(place, crate, definitions, until)
    except subprocess.TimeoutExpired:
        return "no verdict", ""


def verdict_until(place, crate, definitions, until):
    code, said = check(place, crate, until)
    if code == 0:
        asked = users(crate) if definitions else []
        refusing = next((name for name in asked if check(place, name, until)[0] != 0), None)
        return ("fact", f"noticed by {refusing}") if refusing else ("accepted", "")
    errors = [line for line in said.split("\n") if ": error" in line or "it is not proved that" in line or "no proof:" in line]
    first = errors[0] if errors else ""
    if "logic=not-proved" not in said or re.search(r"\berror\[[\w-]+\]", said):
        return "no program", first
    if definitions:
        return "no program" if re.match(r"(\./)?specs/", first) else "fact", first
    return "shape" if all(NO_LONGER_FITS.match(line) for line in errors) else "fact", first


def copy(place):
    shutil.copytree(ROOT / "crates", place / "crates", ignore=shutil.ignore_patterns("out", "must-fail"))
    shutil.copy(ROOT / "crates.txt", place / "crates.txt")
    (place / ".git").mkdir()


def main():
    parser = argparse.ArgumentParser(description=__doc__, formatter_class=argparse.RawDescriptionHelpFormatter)
    parser.add_argument("crate")
    parser.add_argument("--definitions", action="store_true", help="change specs/ and not src/")
    parser.add_argument("--since", metavar="REV", help="change only lines that are new since that commit")
    parser.add_argument("--most", type=int, default=0, help="as many at the most, picked at random (0: all)")
    parser.add_argument("--seed", type=int, default=1)
    parser.add_argument("--limit", type=int, default=600, metavar="SECONDS", help="for all checks of one change (600)")
    parser.add_argument("--list", action="store_true", help="only list the changes")
    asked = parser.parse_args()
    folder, kind_of_file, changes = ("specs", "*.antt", changed_definitions) if asked.definitions else ("src", "*.rt", mutants)
    sources = sorted((ROOT / "crates" / asked.crate / folder).glob(kind_of_file))
    if not sources:
        sys.exit(f"mutants: there is no crate {asked.crate} with {folder}/")
    found = [(path, number, new) for path in sources for number, new in changes(path.read_text())]
    if asked.since:
        new = {path: new_lines(path, asked.since) for path in sources}
        found = [change for change in found if change[1] in new[change[0]]]
    if asked.most and asked.most < len(found):
        picked = sorted(random.Random(asked.seed).sample(range(len(found)), asked.most))
        found = [found[k] for k in picked]
    if asked.list:
        for path, number, new in found:
            print(shown(path, number, new))
        return
    with tempfile.TemporaryDirectory(prefix="mednukals-") as folder:
        try_all(Path(folder).resolve(), asked, found)


def shown(path, number, new):
    """Where a change is, and what it is."""
    old = path.read_text().split("\n")[number].strip()
    after = new.split("\n")[number].strip() if number < len(new.split("\n")) else ""
    return f"{path.relative_to(ROOT)}:{number + 1}: {old}  =>  {after}"


def try_all(place, asked, found):
    copy(place)
    if check(place, asked.crate)[0] != 0:
        sys.exit(f"mutants: {asked.crate} is not proved as it stands")
    counts, began = {}, time.time()
    for k, (path, number, new) in enumerate(found, 1):
        target = place / path.relative_to(ROOT)
        target.write_text(new)
        kind, why = verdict(place, asked.crate, asked.definitions, asked.limit)
        target.write_text(path.read_text())
        counts[kind] = counts.get(kind, 0) + 1
        print(f"[{k}/{len(found)}, {time.time() - began:.0f} s] {kind}: {shown(path, number, new)}", flush=True)
        if kind == "shape" or why.startswith("noticed by"):
            print(f"    {why[:160]}", flush=True)
    print(", ".join(f"{counts.get(kind, 0)} {kind}" for kind in ("accepted", "fact", "shape", "no program", "no verdict")))


if __name__ == "__main__":
    main()
