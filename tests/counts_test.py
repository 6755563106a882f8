"""Holds the instructions that each export takes to tests/instructions.txt: usage counts_test.py [--write | --print] PROGRAM
ARCHIVE..., in the repository's root; --write puts the file right and says what has changed, --print prints what would be in it

PROGRAM, tests/counts/counts.c, calls the exports on fixed inputs, and callgrind counts. Only what the archives' own functions take
is counted: memcpy and memset are the C library's, and differ by machine.

It is a fault where a count is off by more than 3 percent, where the file and the program have not the same counts, and where an
export of the header has none. A count that is smaller by as much is a fault too: the file has to follow, or the next one that grows
would not be seen. And it is one where a board's call takes no fewer than the loop of single calls on the same line. There what the
C library takes to move and to clear bytes counts too: it is what a board's call saves, and both are counted on one machine. The
counts whose names have `worst:` are those of the table in docs/PERFORMANCE.md, 'The worst work', each within 3 percent.
"""
import re
import subprocess
import sys
import tempfile
from collections import Counter
from pathlib import Path

from check_header import functions, symbols
from faults import report

HEADER = Path("include/mednukals.h")
STORED = Path("tests/instructions.txt")
PAGE = Path("docs/PERFORMANCE.md")
HEADING, WORST = "## The worst work", "worst: "
A_WORST = re.compile(r"^((?:dxl_\w+(?:, )?)+ {2,})(\S.*?)( {2,}[\d,]+)( {2,}[\d,]+)$", flags=re.M)
PERCENT = 3
PATIENCE = 300  # seconds for all counts
LOOPS = {"dxl_board_feed_parts": "dxl_feed single calls,", "dxl_board_gap_parts": "dxl_gap single calls,"}
NOT_COMPARED = "refused"
# Nearly all of these are the checksums of 112 packets, and by where the compiler cuts its functions a board takes up to 0.2 percent
# more than the loop.
EVEN = {"worst call", "worst call held"}
EVEN_PERCENT = 0.5
MOVES = re.compile(r"(__)?mem(cpy|move|set)(_\w+)?")  # glibc's have the processor in their names
CALLGRIND = ["valgrind", "--tool=callgrind", "--quiet", "--toggle-collect=counted", "--dump-after=counted", "--skip-plt=no",
             "--demangle=no", "--compress-strings=no", "--compress-pos=no"]
HEAD = """\
# The instructions that each export takes on an input of tests/counts/counts.c, within the library's own functions.
# Written by make counts. The gate fails where one is off by more than 3 percent: docs/CONTRIBUTING.md says what to do then.
# Archives of the kit {}
"""


class Unusable(Exception):
    """Nothing can be said of the counts."""


def costs(text):
    """Function -> its own instructions, of a file of callgrind. A line behind `calls=` has those of the function that is called."""
    found, function, called = Counter(), "", False
    for line in text.splitlines():
        if line.startswith("fn="):
            function = line[len("fn="):]
        elif line.startswith("calls="):
            called = True
        elif re.fullmatch(r"\d+ \d+", line):
            if not called:
                found[function] += int(line.split()[1])
            called = False
    total = re.search(r"^totals: (\d+)$", text, flags=re.M)
    if total is None or sum(found.values()) != int(total.group(1)):
        raise Unusable("a file of callgrind is not as it was when this was written")
    return found


def run(program, folder):
    """The names of the counts, and for each what callgrind has counted, function by function."""
    ended = subprocess.run([*CALLGRIND, f"--callgrind-out-file={folder}/part", program], capture_output=True, text=True,
                           timeout=PATIENCE, check=False)
    if ended.returncode != 0:
        raise Unusable(f"the program failed under valgrind: {ended.stderr.strip()[-500:]}")
    names = ended.stdout.splitlines()
    parts = [Path(folder, f"part.{number}") for number in range(1, len(names) + 1)]
    if not names or len(set(names)) < len(names) or not all(part.exists() for part in parts):
        raise Unusable(f"{len(names)} counts are named, and callgrind has not written one for each")
    return {name: costs(part.read_text(encoding="utf-8")) for name, part in zip(names, parts)}


def count(program, archives):
    """Name -> instructions within the archives' functions; the same with the C library's that move and clear bytes."""
    own = {name for archive in archives for name, kind in symbols(archive, "--defined-only") if kind in "tT"}
    counted, with_moves = {}, {}
    with tempfile.TemporaryDirectory(prefix="mednukals-") as folder:
        for name, found in run(program, folder).items():
            if found[name.split()[0]] == 0:
                raise Unusable(f"{name}: the export was not called")
            counted[name] = sum(cost for function, cost in found.items() if function in own)
            with_moves[name] = counted[name] + sum(cost for function, cost in found.items() if MOVES.fullmatch(function))
    return counted, with_moves


def kit():
    return subprocess.run(["rt", "version"], check=True, capture_output=True, text=True, timeout=PATIENCE).stdout.strip()


def stored():
    rows = [line.rsplit(None, 1) for line in STORED.read_text(encoding="utf-8").splitlines() if not line.startswith("#")]
    return {name.strip(): int(number) for name, number in rows}


def changes(old, new, percent):
    """A line for each count that is off by more than so much."""
    return [f"{name}: {old[name]} instructions before, {new[name]} now ({(new[name] - old[name]) / old[name]:+.1%})"
            for name in new if name in old and abs(new[name] - old[name]) * 100 > percent * old[name]]


def no_fewer(counts):
    """A line for each row of a board that does not take fewer instructions than the loop beside it, or has none beside it."""
    found = []
    for name, taken in counts.items():
        export, line = name.split(None, 1)
        loop = f"{LOOPS.get(export)} {line}"
        if export not in LOOPS or line == NOT_COMPARED or line.startswith(WORST):
            continue
        if loop not in counts:
            found.append(f"{name}: no count of '{loop}' beside it")
        elif taken >= counts[loop] * (1 + EVEN_PERCENT / 100 if line in EVEN else 1):
            found.append(f"{name}: {taken} instructions, and {counts[loop]} by the single calls, memset and memcpy counted in")
    return found


def worst_said(text):
    """Of the table of the worst calls: the name of a count -> its instructions on x86-64, and on a Cortex-M0."""
    said = {}
    for row in A_WORST.finditer(text.split(HEADING)[1]):
        figures = [int(figure.replace(",", "")) for figure in row.groups()[2:]]
        said.update({f"{export} {WORST}{row[2]}": figures for export in re.findall(r"dxl_\w+", row[1])})
    return said


def put_right(text, counts):
    """The page with the instructions of x86-64 as they are counted; of several exports in a row, those of the first."""
    def row(found):
        count = counts[f"{re.match(r'dxl_[a-z0-9_]+', found[1])[0]} {WORST}{found[2]}"]
        return found[1] + found[2] + f"{count:,}".rjust(len(found[3])) + found[4]
    before, worst = text.split(HEADING)
    return before + HEADING + A_WORST.sub(row, worst)


def page_faults(new):
    """A line for each worst call that docs/PERFORMANCE.md lacks, or of which it says another number."""
    said, worst = worst_said(PAGE.read_text(encoding="utf-8")), {name: count for name, count in new.items() if f" {WORST}" in name}
    found = [f"{name}: {count} instructions, and no row in {PAGE}" for name, count in worst.items() if name not in said]
    found += [f"{name}: a row in {PAGE}, and not counted" for name in said if name not in worst]
    return found + [f"{PAGE}: {line}" for line in changes({name: figures[0] for name, figures in said.items()}, worst, PERCENT)]


def faults(old, new, with_moves):
    found = changes(old, new, PERCENT) + page_faults(new)
    found += [f"{name}: {new[name]} instructions, and no line in {STORED}" for name in new if name not in old]
    found += [f"{name}: a line in {STORED}, and not counted" for name in old if name not in new]
    if found and HEAD.format(kit()) not in STORED.read_text(encoding="utf-8"):
        found.append(f"the kit is {kit()}, and {STORED} is of another one")
    if found:
        found.append("make counts writes the counts as they are now; docs/CONTRIBUTING.md says when to do so")
    found += no_fewer(with_moves)
    exports = {name.split()[0] for name in new}
    return found + [f"{export} has no count in tests/counts/counts.c" for export in sorted(functions(HEADER) - exports)]


def lines(counts):
    return "".join(f"{name:<44} {number:>9}\n" for name, number in counts.items())


def main(words):
    option = words.pop(0) if words[0].startswith("--") else ""
    program, *archives = words
    try:
        new, with_moves = count(program, archives)
    except Unusable as why:
        return report("instructions", [str(why)], "")
    if option == "--print":
        print(lines(new), end="")
        return 0
    if option == "--write":
        print("".join(f"{line}\n" for line in changes(stored(), new, 0)), end="")
        STORED.write_text(HEAD.format(kit()) + lines(new), encoding="utf-8")
        PAGE.write_text(put_right(PAGE.read_text(encoding="utf-8"), new), encoding="utf-8")
    good = f"{len(new)} counts, each within {PERCENT} percent of {STORED}"
    return report("instructions", faults(stored(), new, with_moves), good)


if __name__ == "__main__":
    sys.exit(main(sys.argv[1:]))
