"""Looks for tables: usage check_leaves.py ARCHIVE SMALL_ARCHIVE FOLD_ARCHIVE, in the repository's root

A row is four neighbours of the table of 256 numbers; its first sixteen numbers are the small table. The small archive has no row
beyond these, and is smaller by most of the large table. The archive without a table has no row at all. In the first archive all rows
are found, and in the small one its own, so that the search is known to find them.
"""
import re
import struct
import subprocess
import sys
from pathlib import Path

from faults import report

TABLE = Path("crates/crc16/src/table.rt")
ROW = 4  # numbers: as many as one instruction may hold
SMALL = 16 // ROW  # rows of the small table
LESS = 400  # bytes, of the 480 that the tables differ by: the code differs too


def rows():
    numbers = [int(word, 16) for word in re.findall(r"\b(0x[0-9a-f]+),", TABLE.read_text(encoding="utf-8"))]
    return [struct.pack(f"<{ROW}H", *numbers[at:at + ROW]) for at in range(0, len(numbers), ROW)]


def found(archive):
    """The rows that the archive has, by number."""
    held = Path(archive).read_bytes()
    return {number for number, row in enumerate(rows()) if row in held}


def size(archive):
    """Bytes of code and constants."""
    text = subprocess.run(["size", "-t", archive], check=True, capture_output=True, text=True).stdout
    return int(text.splitlines()[-1].split()[0])


def main(archive, small, fold):
    faults = []
    if len(found(archive)) < 54 or len(found(small)) < SMALL:
        faults.append(f"{len(found(archive))} and {len(found(small))} rows are found where the tables are: the search is worth nothing")
    if beyond := found(small) - set(range(SMALL)):
        faults.append(f"{len(beyond)} rows of the large table are in {small}")
    if found(fold):
        faults.append(f"{len(found(fold))} rows of a table are in {fold}")
    if size(small) + LESS > size(archive):
        faults.append(f"{small} has {size(small)} bytes of code and constants, the other {size(archive)}")
    sizes = ", ".join(f"{Path(each).name} {size(each)}" for each in (archive, small, fold))
    return report("leaves", faults, f"no table where none may be; bytes of code and constants: {sizes}")


if __name__ == "__main__":
    sys.exit(main(*sys.argv[1:]))
