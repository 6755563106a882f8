"""Holds the C header to the archive: usage check_header.py HEADER ARCHIVE

Every function that one has, the other has too; and the archive is as the header says, without state and without allocation: it
has no writable section and asks for no function but the four that compilers call for copying and comparing memory. None of its
objects asks for another, so that a program has only those that it calls, and no function is defined in two.

The table at the header's beginning has its sections, in their order, and each function in that of its section.
"""
import re
import subprocess
import sys
from collections import Counter

from faults import report

MEMORY_FUNCTIONS = {"memcpy", "memmove", "memset", "memcmp"}


def symbols(archive, *words):
    text = subprocess.run(["nm", "-P", *words, archive], check=True, capture_output=True, text=True).stdout
    return [line.split()[:2] for line in text.splitlines() if len(line.split()) >= 2 and not line.endswith(":")]


def text_of(header):
    with open(header, encoding="utf-8") as file:
        return file.read()


def without_comments(text):
    return re.sub(r"/\*.*?\*/", "", text, flags=re.S)


def functions(header):
    """The functions that a header declares, without those that it defines."""
    return set(re.findall(r"\b(dxl_\w+)\s*\([^;{]*\)\s*;", without_comments(text_of(header))))


def by_section(text):
    """Section -> the functions that it declares or defines, in the order of the header; those with no function are left out."""
    parts = re.split(r"^/\* ---- (.*) ---- \*/$", text, flags=re.M)
    found = {name: set(re.findall(r"^\w.*?\b(dxl_\w+)\(", without_comments(part), flags=re.M))
             for name, part in zip(parts[1::2], parts[2::2])}
    return {name: names for name, names in found.items() if names}


def by_table(text):
    """The same as the table at the beginning has it."""
    table = re.search(r"^/\*\n \* What to call, .*?^ \*/$", text, flags=re.M | re.S)
    parts = re.split(r"^ \*   (\w.*)$", table.group() if table else "", flags=re.M)
    return {name: set(re.findall(r"\bdxl_\w+", part)) for name, part in zip(parts[1::2], parts[2::2])}


def wrong_table(text):
    said, there = by_table(text), by_section(text)
    if list(said) != list(there):
        yield f"the table has the sections {', '.join(said)}, and the header {', '.join(there)}"
    for name in said.keys() & there.keys():
        yield from (f"{call} is under '{name}' in the table or in the header, and not in both" for call in sorted(said[name] ^ there[name]))


def main(header, archive):
    declared = functions(header)
    shared = symbols(archive, "-g", "--defined-only")
    defined = {name for name, kind in shared if kind == "T"}
    often = [name for name, count in Counter(name for name, kind in shared).items() if count > 1]
    writable = {name for name, kind in symbols(archive, "--defined-only") if kind in "bBdDcCsS"}
    wanted = {name for name, kind in symbols(archive, "-u")} - MEMORY_FUNCTIONS

    faults = []
    faults += [f"{name} is declared and the archive has it not" for name in sorted(declared - defined)]
    faults += [f"{name} is in the archive and not declared" for name in sorted(defined - declared)]
    faults += [f"{name} is defined in more than one object" for name in sorted(often)]
    faults += [f"{name} is writable memory of the archive" for name in sorted(writable)]
    faults += [f"the archive asks for {name}" for name in sorted(wanted)]
    if not declared:
        faults.append("no function is declared")
    faults += wrong_table(text_of(header))
    return report("header", faults, f"{len(declared)} functions, each declared and in the archive; no state, nothing else asked for")


if __name__ == "__main__":
    sys.exit(main(sys.argv[1], sys.argv[2]))
