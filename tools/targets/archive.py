"""Builds the library for another processor: usage archive.py TARGET ARCHIVE MODULE..., in the repository's root

From each module of Rattle (record.py), the layer over it (layer.py) and the kit's own compiler: one object. The archive has them
all, and beside it stands a text that says what of it is proved and what is believed.
"""
import subprocess
import sys
import tempfile
from pathlib import Path

from layer import Layer
from record import kit, tool
from retarget import exports, joined

HEADER = Path("include/mednukals.h")
HERE = Path(__file__).resolve().parent
# Short enums, so that no linker warns of them; no enum crosses the calls.
TARGETS = {
    "thumbv6m": ["--target=thumbv6m-none-eabi", "-mcpu=cortex-m0", "-fshort-enums"],
    "thumbv7em": ["--target=thumbv7em-none-eabi", "-mcpu=cortex-m4", "-mfloat-abi=soft", "-fshort-enums"],
    "rv32imac": ["--target=riscv32-unknown-elf", "-march=rv32imac", "-mabi=ilp32"],
    "i686": ["--target=i686-linux-gnu", "-march=i686", "-fno-pic"],
}
X86_64 = ["--target=x86_64-unknown-linux-gnu", "-march=x86-64"]  # that of the modules
LEVEL = "-O2"
# As the kit compiles for x86-64: a section for each function, no code where none can be reached, and none of the steps of LLVM that the
# kit leaves out.
LEFT_OUT = ["-no-x86-call-frame-opt", "-disable-machine-licm", "-disable-postra-machine-licm", "-sink-common-insts=false"]
CODE = ["-ffunction-sections", "-fdata-sections", "-fno-unwind-tables", "-fno-asynchronous-unwind-tables", "-Wno-override-module",
        *(word for step in ("-trap-unreachable", "-no-trap-after-noreturn", *LEFT_OUT) for word in ("-mllvm", step))]
OF_C = ["-std=c99", "-ffreestanding", "-Wall", "-Wextra", "-Werror", "-Wno-c11-extensions", f"-I{HERE / 'freestanding'}", f"-I{HEADER.parent}"]


def clang(*words):
    """The kit's compiler: its standard output."""
    made = subprocess.run([tool("clang"), "--no-default-config", *map(str, words)], capture_output=True, text=True, check=False)
    if made.returncode != 0:
        sys.exit(f"mednukals: FAILED: clang {' '.join(map(str, words))}: {made.stderr[-3000:]}")
    return made.stdout


def text_of(module):
    """Rattle's module as text."""
    return clang("-S", "-emit-llvm", *X86_64, "-Xclang", "-disable-llvm-passes", "-x", "ir", module, "-o", "-")


def compiled(target, module, room, words=()):
    """The object of one module. Answers its path and the exports in it."""
    name = Path(module).stem
    rattle = text_of(module)
    source = Path(room, f"{name}_layer.c")
    source.write_text(Layer(HEADER.read_text(encoding="utf-8")).text(set(exports(rattle))), encoding="utf-8")
    clang("-fsyntax-only", *X86_64, *OF_C, "-DLAYER_CHECK", source)
    layer = clang("-S", "-emit-llvm", *TARGETS[target], LEVEL, *OF_C, "-Xclang", "-disable-llvm-passes", source, "-o", "-")
    whole, made = Path(room, f"{name}_whole.ll"), Path(room, f"{name}.o")
    whole.write_text(joined(rattle, layer), encoding="utf-8")
    clang("-c", *TARGETS[target], LEVEL, *CODE, *words, "-x", "ir", whole, "-o", made)
    return made, set(exports(rattle))


def build(target, archive, modules):
    with tempfile.TemporaryDirectory(prefix="mednukals-") as room:
        made = [compiled(target, module, room) for module in modules]
        missing = {name for _, name, _ in Layer(HEADER.read_text(encoding="utf-8")).functions} - set().union(*(names for _, names in made))
        if missing:
            sys.exit(f"mednukals: FAILED: no module has {', '.join(sorted(missing))}")
        Path(archive).parent.mkdir(parents=True, exist_ok=True)
        Path(archive).unlink(missing_ok=True)
        subprocess.run([tool("llvm-ar"), "rcsD", archive, *(path for path, _ in made)], check=True)


def main(target, archive, *modules):
    build(target, archive, modules)
    said = (HERE / "PROVED.txt").read_text(encoding="utf-8")
    identity = (kit() / "KIT-ID").read_text(encoding="utf-8").strip()
    words = {"ARCHIVE": Path(archive).name, "TARGET": target, "FLAGS": " ".join([*TARGETS[target], LEVEL]), "KIT": identity}
    for word, value in words.items():
        said = said.replace(f"@{word}@", value)
    Path(archive).with_suffix(".txt").write_text(said, encoding="utf-8")


if __name__ == "__main__":
    if len(sys.argv) < 4 or sys.argv[1] not in TARGETS:
        sys.exit(f"usage: archive.py TARGET ARCHIVE MODULE...; TARGET is one of {', '.join(TARGETS)}")
    main(*sys.argv[1:])
