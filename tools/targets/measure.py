"""Measures the library on an emulated Cortex-M0 or M4, beside plain C: usage measure.py TARGET ARCHIVE, in the repository's root

Bytes are those of the library in the board of examples/bare. The deepest stack of an export is the sum of the frames on the deepest
way through its calls, as the compilers tell them; there is no recursion and no call through a pointer. Instructions are exact; the
cycles are those of the processors' manuals, with memory that never waits, and right to some percent. Plain C is that of tests/bench,
which keeps the same rules, by arm-none-eabi-gcc -O2.
"""
import re
import subprocess
import sys
import tempfile
from pathlib import Path

import archive
import program

HERE = Path(__file__).resolve().parent
BENCH = Path("tests/bench")
PLAIN = [BENCH / f"{name}.c" for name in ("baseline", "baseline_reader", "baseline_device", "baseline_board")]
OF_PLAIN = ["crc16", "encode", "reader_feed", "fresh", "measure", "status", "exchange", "board_feed_parts", "board_gap_parts"]
RENAMED = [f"-Ddxl_{name}=baseline_{name}" for name in OF_PLAIN]
BOARD = [Path("examples/uart_board.c"), program.BARE / "hardware.c"]
MEASURED = [Path("tests/targets/measure.c")]
WORST = [BENCH / f"{name}.c" for name in ("worst", "lines", "baseline", "baseline_reader", "baseline_log", "baseline_plan")]
OF_WORST = ["-DWORST_OF_EACH", f"-I{BENCH}"]
AS_PROGRAMS = ["-fbuiltin", "-ftree-loop-distribute-patterns"]  # what program.py switches off for memory functions
NOISE = 704  # bytes of the worst noise; the figure is for one
MEMORY_FUNCTIONS = 24  # bytes of stack: memcpy of examples/bare


def said(*words):
    ended = subprocess.run([str(word) for word in words], capture_output=True, text=True, check=False)
    if ended.returncode != 0:
        sys.exit(f"mednukals: FAILED: {' '.join(map(str, words))}: {ended.stderr[-2000:]}")
    return ended.stdout


# ---- bytes ----


def bytes_of(listing, owners):
    """By the linker's map: bytes of code and constants that come from files whose names have one of the owners in them."""
    listing = re.sub(r"^( \.\S+)\n\s+", r"\1 ", listing.split("Linker script and memory map")[1], flags=re.M)
    sizes = {"text": 0, "rodata": 0}
    for kind, size, owner in re.findall(r"^ \.(text|rodata)\S*\s+0x[0-9a-f]+\s+0x([0-9a-f]+)\s+(\S+)$", listing, flags=re.M):
        if any(name in owner for name in owners):
            sizes[kind] += int(size, 16)
    return sizes


def bytes_in_board(target, room, made, owners, words=()):
    """Of the library in the board of examples/bare, and all RAM of that board but the stack."""
    parts = program.objects(target, [*program.port(target), *BOARD], room, words)
    linked, listing = Path(room, "board"), Path(room, "board.map")
    program.link(target, [f"-Wl,-Map={listing}", *parts], made, linked)
    held = said("arm-none-eabi-size", linked).splitlines()[1].split()
    return {**bytes_of(listing.read_text(encoding="utf-8"), owners), "RAM": int(held[1]) + int(held[2])}


# ---- stack ----


def plain_name(name):
    """Without what gcc puts behind the name of a changed copy: its list of frames has only the first of these words."""
    return re.sub(r"\.(constprop|isra|part)[.\d]*.*$", r".\1", name)


def calls_of(made):
    """Function -> those that it calls, by the relocations of an object."""
    calls, at = {}, ""
    for line in said("arm-none-eabi-objdump", "-dr", made).splitlines():
        if found := re.match(r"[0-9a-f]+ <(.*)>:$", line):
            at = plain_name(found[1])
            calls.setdefault(at, set())
        elif found := re.search(r"R_ARM_THM_(?:CALL|JUMP\d+)\s+(\S.*)$", line):
            calls[at].add(plain_name(found[1]))
        elif re.search(r"\tblx\t", line):
            sys.exit(f"mednukals: FAILED: {at} calls through a pointer: its stack is not known")
    return calls


def frames_of(made):
    """Function -> bytes of its frame, by what the compiler wrote beside the object."""
    frames = {}
    for row in made.with_suffix(".su").read_text(encoding="utf-8").splitlines():
        place, size, how = row.split("\t")
        if how != "static":
            sys.exit(f"mednukals: FAILED: no frame of a fixed size: {row}")
        name = plain_name(re.sub(r"^[^:]*:(\d+:\d+:)?", "", place))
        frames[name] = max(int(size), frames.get(name, 0))
    return frames


class Stacks:
    """The calls and frames of some objects. A name is looked for in the object first, and then among the exports of all."""

    def __init__(self, made):
        self.objects = [(calls_of(each), frames_of(each)) for each in made]
        self.exports = {name: at for at, (calls, _) in enumerate(self.objects) for name in calls if re.match(r"(dxl|baseline)_", name)}

    def deepest(self, name, at):
        at = at if name in self.objects[at][0] else self.exports.get(name)
        if at is None:
            return MEMORY_FUNCTIONS
        calls, frames = self.objects[at]
        return frames[name] + max((self.deepest(each, at) for each in calls[name]), default=0)

    def all(self):
        return {name: self.deepest(name, at) for name, at in sorted(self.exports.items())}


# ---- instructions and cycles ----


def registers(words):
    """How many registers a list in braces has."""
    count = 0
    for part in words.split(","):
        ends = part.strip().split("-")
        count += int(ends[1][1:]) - int(ends[0][1:]) + 1 if len(ends) == 2 else 1
    return count


def cycles(target, name, words, count, jumped):
    """Of one instruction that was run `count` times and went elsewhere `jumped` times."""
    small = target == "thumbv6m"
    name = name.split(".")[0]
    if found := re.search(r"\{(.*)\}", words):
        return count * (1 + registers(found[1])) + jumped * (3 if small else 2)
    if name.startswith(("ldrd", "strd")):
        return count * 3
    if name.startswith("ldr"):
        return count * 2 + jumped * 2
    if name.startswith("str"):
        return count * (2 if small else 1)
    if name == "bl":
        return count * (4 if small else 3)
    if name.startswith(("udiv", "sdiv")):
        return count * 7
    return count + jumped * 2


def plugin(room):
    made = Path(room, "count.so")
    said("gcc", "-std=c99", "-Wall", "-Wextra", "-Werror", "-O2", "-fPIC", "-shared", "-o", made, HERE / "count_plugin.c")
    return made


def counted(target, room, made, more=(), words=()):
    """Case -> its instructions and cycles; of a program with these files more."""
    parts = program.objects(target, [*program.port(target), *MEASURED, *more], room, ["-Itests/targets", *words])
    linked, counts = Path(room, "measure"), Path(room, "counts")
    program.link(target, parts, made, linked, more=True)
    at = {name: int(place, 16) & ~1 for place, name in re.findall(r"^(\w+) [tT] (begins|ends)$", said("arm-none-eabi-nm", linked), flags=re.M)}
    code = {int(place, 16): rest for place, *rest in re.findall(r"^\s*([0-9a-f]+):\t(\S+)[ \t]*(.*)$", said(
        "arm-none-eabi-objdump", "-d", "--no-show-raw-insn", linked), flags=re.M)}
    ended = program.output(target, linked, "-plugin", f"{plugin(room)},begin={at['begins']:#x},end={at['ends']:#x},out={counts}")
    if ended is None or ended[1] != 0:
        sys.exit(f"mednukals: FAILED: the measured program: {ended}")
    figures = []
    for region in counts.read_text(encoding="utf-8").split("region\n")[1:]:
        rows = [(int(place, 16), int(count), int(jumped)) for place, count, jumped in map(str.split, region.splitlines())]
        figures.append((sum(count for _, count, _ in rows), sum(cycles(target, *code[place], count, jumped) for place, count, jumped in rows)))
    nothing = figures[0]
    return {name: (ours[0] - nothing[0], ours[1] - nothing[1]) for name, ours in zip(ended[0].splitlines(), figures)}


def worst_counted(target, room, library):
    """The same of a library, with the worst call of each export."""
    return counted(target, room, [library], WORST, OF_WORST)


# ---- what is printed ----


def show(title, rows):
    print(title)
    for name, *figures in rows:
        print(f"  {name:<44}" + "".join(f"{figure:>14}" for figure in figures))


def per_byte(name, figures):
    """Of the worst noise a byte's share."""
    return tuple(round(figure / NOISE) for figure in figures) if "worst noise" in name else figures


def of_library(target, library, room):
    """Bytes, stacks and counts of the library."""
    leaf = Path(library).stem.removeprefix("libmednukals").strip("_") or "table"
    modules = [path for path in sorted(Path("build", leaf).glob("capi*.bc")) if path.stem != "capi_test"]
    made = [archive.compiled(target, module, room, ["-fstack-usage"])[0] for module in modules]
    return bytes_in_board(target, room, [library], [Path(library).name]), Stacks(made).all(), worst_counted(target, room, library)


def of_plain(target, room):
    """The same of plain C, by the names of the library."""
    made = program.objects(target, PLAIN, room, [*AS_PROGRAMS, "-fstack-usage", f"-I{BENCH}"])
    depths = {name.replace("baseline_", "dxl_"): depth for name, depth in Stacks(made).all().items()}
    return bytes_in_board(target, room, made, ["baseline"], RENAMED), depths, counted(target, room, made, words=RENAMED)


def main(target, library):
    if lacks := program.missing(target):
        sys.exit(f"mednukals: Debian's {' and '.join(lacks)} {'is' if len(lacks) == 1 else 'are'} needed")
    with tempfile.TemporaryDirectory(prefix="mednukals-") as folder:
        rooms = Path(folder, "library"), Path(folder, "plain")
        for room in rooms:
            room.mkdir()
        sizes, depths, counts = of_library(target, library, rooms[0])
        plain_sizes, plain_depths, plain_counts = of_plain(target, rooms[1])
    show(f"the library in the board of examples/bare, {target}, in bytes; beside it plain C",
         [(kind, size, plain_sizes[kind]) for kind, size in sizes.items()])
    show("deepest stack of each export, in bytes; beside it plain C",
         [(name, depth, plain_depths.get(name, "")) for name, depth in depths.items()])
    show("instructions and cycles; beside them those of plain C",
         [(name, *per_byte(name, counts[name]), *per_byte(name, plain_counts.get(name, ()))) for name in counts if name != "nothing"])


if __name__ == "__main__":
    if len(sys.argv) != 3 or sys.argv[1] not in program.BOARDS:
        sys.exit(f"usage: measure.py TARGET ARCHIVE; TARGET is one of {', '.join(program.BOARDS)}")
    main(*sys.argv[1:])
