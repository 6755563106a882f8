"""Builds the exports over another checksum leaf: usage other_leaf.py LEAF FOLDER, in the repository's root

All leaves make the same promise to the letter. A copy of the tree is made outside the repository, in which the callers of the leaf
`crc16` name LEAF instead: in their sources, their proofs and crates.txt, and nothing else. There `rt ci` proves the callers over it and
all crates above them, and the compiler the exports (tools/prove.py). The archives of the exports go to FOLDER, with the modules that
the compiler was handed: CRATE.bc.
"""
import re
import sys
from pathlib import Path

from archives import dependencies

sys.path.append(str(Path(__file__).resolve().parent.parent / "tools"))
import prove

LEAF = "crc16"
NAMED = re.compile(rf"(?<![\w-]){LEAF}(?=::|\.)")  # as a source calls it and a proof cites it


def promise(leaf):
    """The head of the leaf's function, and where each name that it cites comes from."""
    source = Path("crates", leaf, "src", "lib.rt").read_text(encoding="utf-8")
    head = re.search(r"^pub fn update.*?^\{", source, flags=re.M | re.S).group()
    words = set(re.findall(r"[^\s(){},;.]+", head))
    brought = re.findall(r"^ghost use (\S+)\.\{(.*?)\};", source, flags=re.M | re.S)
    return {name: module for module, names in brought for name in names.split(", ") if name.strip("◌") in words}, head


def callers(stands_on):
    return sorted(crate for crate, names in stands_on.items() if LEAF in names)


def change_over(room, leaf):
    """Puts the other leaf's name in the place of the first one's. Answers how many lines that changes in each caller."""
    table = room / "crates.txt"
    text = table.read_text(encoding="utf-8")
    changed = {}
    for crate in callers(dependencies(text)):
        text = re.sub(rf"^({crate}(?: staticlib)?:.*?)\b{LEAF}\b(?!\w)", rf"\1{leaf}", text, flags=re.M)
        if not (room / "crates" / crate).exists():  # no export stands on it
            continue
        changed[crate] = 0
        for path in sorted((room / "crates" / crate).rglob("*")):
            if path.suffix in (".rt", ".antt"):
                old = path.read_text(encoding="utf-8")
                new = NAMED.sub(leaf, old)
                changed[crate] += sum(a != b for a, b in zip(old.splitlines(), new.splitlines()))
                path.write_text(new, encoding="utf-8")
    table.write_text(text, encoding="utf-8")
    return changed


def main(leaf, folder):
    if promise(leaf) != promise(LEAF):
        sys.exit(f"other_leaf: {leaf}::update and {LEAF}::update do not make the same promise")
    changed = {}
    try:
        with prove.proved([*prove.exports(), leaf], lambda room: changed.update(change_over(room, leaf))) as copy:
            copy.archives(folder, folder)
            proved = set(re.findall(r"^rt: (\w+) (?:proved|is kept: .*)$", copy.said, flags=re.M)) | {*prove.exports()}
    except prove.Failed as fault:
        sys.exit(f"other_leaf: {fault}")
    if not changed or changed.keys() - proved or not all(changed.values()):
        sys.exit(f"other_leaf: not proved over {leaf}: {sorted(changed.keys() - proved)}; lines changed: {changed}")
    lines = ", ".join(f"{crate} {count}" for crate, count in changed.items())
    print(f"other leaf: the callers name {leaf} (lines changed: {lines}), and nothing else differs")
    print(f"other leaf: proved over it: {', '.join(sorted(proved))}")


if __name__ == "__main__":
    main(*sys.argv[1:])
