"""Programs on other processors: how they are linked with an archive of the library, and how they are run

Those for Cortex-M are bare: startup and UART of examples/bare, linked by arm-none-eabi-gcc as firmware is, and run on an emulated
board. The others make Linux's system calls (tests/targets/linux.c), are linked by the kit's own tools, and run natively or under
qemu-user.
"""
import shutil
import subprocess
import sys
import tempfile
from pathlib import Path

from archive import HERE, OF_C, TARGETS, X86_64, clang
from record import tool

BARE = Path("examples/bare")
BOARDS = {"thumbv6m": ("cortex_m0", "microbit", ["-mcpu=cortex-m0"]),
          "thumbv7em": ("cortex_m4", "mps2-an386", ["-mcpu=cortex-m4", "-mfloat-abi=soft"])}
LINUX = {"rv32imac": ("elf32lriscv", TARGETS["rv32imac"]), "i686": ("elf_i386", TARGETS["i686"]), "x86_64": ("elf_x86_64", X86_64)}
EMULATOR = {"rv32imac": ["qemu-riscv32"], "i686": [], "x86_64": []}
# what a target needs besides the kit: the command, and Debian's package
NEEDS = {"thumbv6m": {"arm-none-eabi-gcc": "gcc-arm-none-eabi", "qemu-system-arm": "qemu-system-arm"},
         "thumbv7em": {"arm-none-eabi-gcc": "gcc-arm-none-eabi", "qemu-system-arm": "qemu-system-arm"},
         "rv32imac": {"qemu-riscv32": "qemu-user"}, "i686": {}, "x86_64": {}}
OF_GCC = ["-std=c99", "-Wall", "-Wextra", "-Wpedantic", "-Werror", "-mthumb", "-O2", "-g", "-ffreestanding", "-ffunction-sections",
          "-fdata-sections", "-fno-tree-loop-distribute-patterns"]
PATIENCE = 120  # seconds for one program
MORE_RAM = 65536


def missing(target):
    """Debian's packages that the target lacks."""
    return sorted({package for command, package in NEEDS[target].items() if not shutil.which(command)})


def run(words):
    made = subprocess.run([str(word) for word in words], capture_output=True, text=True, check=False)
    if made.returncode != 0:
        sys.exit(f"mednukals: FAILED: {' '.join(map(str, words))}: {made.stderr[-3000:]}")


def port(target):
    """The files of C and assembler that a program stands on."""
    if target in LINUX:
        return [Path("tests/targets/linux.c")]
    return [BARE / name for name in ("start.c", f"{BOARDS[target][0]}.c", "memory.S", "memory.c")]


def objects(target, sources, room, words=()):
    """Compiles the sources into the folder; a source is a path, or a path and the words for it alone."""
    made = []
    for source in sources:
        path, *own = source if isinstance(source, tuple) else (source,)
        made.append(Path(room, f"{Path(path).name}.o"))
        if target in LINUX:
            clang("-c", *LINUX[target][1], "-O1", "-fno-builtin", "-ffunction-sections", *words, *own, *OF_C, f"-I{BARE}", path, "-o", made[-1])
        else:
            run(["arm-none-eabi-gcc", "-c", *BOARDS[target][2], *OF_GCC, *words, *own, f"-I{BARE}", "-Iinclude", path, "-o", made[-1]])
    return made


def link(target, made, archives, program, more=False):
    """Links objects, port included, and archives; for a program that needs `more` RAM than the board has. Of libgcc only the 64-bit
    arithmetic of dxl_plan is used."""
    if target in LINUX:
        run([tool("ld.lld"), "-m", LINUX[target][0], "--gc-sections", "-e", "_start", "-o", program, *made, *archives])
        return
    cpu, script = BOARDS[target][2], f"{BOARDS[target][0]}.ld"
    flags = [f"-L{BARE}", f"-T{script}", *[f"-Wl,--defsym=ram_size={MORE_RAM}"] * more, "-Wl,--gc-sections", "-Wl,--fatal-warnings",
             "-Wl,--no-warn-rwx-segments", "-Wl,-z,noexecstack"]
    run(["arm-none-eabi-gcc", *cpu, "-mthumb", "-nostdlib", *flags, "-o", program, *made, *archives, "-lgcc"])


def command(target, program, *words):
    """What runs a program; a board has more RAM then, and its UART is standard output."""
    if target in LINUX:
        return [*EMULATOR[target], program]
    return ["qemu-system-arm", "-M", BOARDS[target][1], "-global", f"nrf51-soc.sram-size={MORE_RAM}", "-display", "none", "-monitor", "none",
            "-serial", "stdio", "-semihosting-config", "enable=on,target=native", "-kernel", program, *words]


def output(target, program, *words, patience=PATIENCE):
    """What a program prints, and its exit code; None where it does not end in time."""
    try:
        ended = subprocess.run(list(map(str, command(target, program, *words))), stdin=subprocess.DEVNULL, capture_output=True,
                               text=True, errors="replace", timeout=patience, check=False)
    except subprocess.TimeoutExpired:
        return None
    return ended.stdout, ended.returncode


def main(target, archive, program, *sources):
    """program.py TARGET ARCHIVE PROGRAM SOURCE...: links a program with an archive"""
    if lacks := missing(target):
        sys.exit(f"mednukals: Debian's {' and '.join(lacks)} {'is' if len(lacks) == 1 else 'are'} needed")
    Path(program).parent.mkdir(parents=True, exist_ok=True)
    with tempfile.TemporaryDirectory(prefix="mednukals-") as room:
        link(target, objects(target, [*port(target), *sources], room), [archive], program)


if __name__ == "__main__":
    if len(sys.argv) < 5 or sys.argv[1] not in NEEDS:
        sys.exit(f"usage: program.py TARGET ARCHIVE PROGRAM SOURCE...; TARGET is one of {', '.join(NEEDS)}")
    main(*sys.argv[1:])
