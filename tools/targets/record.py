"""Keeps the LLVM module that the kit's compiler is handed

The kit's `rattle build` is given a toolchain whose files are links to those of the kit, all but `clang`: in its place stands a script
that copies its input and then runs the kit's own. So the verdict, and the archive for x86-64, come out as always.
"""
import shutil
import sys
import tempfile
from contextlib import contextmanager
from pathlib import Path

COMPILER = Path("toolchain", "bin", "clang")
# rattle gives its compiler no environment and a folder of its own, so that the names stand here. The input follows `-x ir`.
SCRIPT = """#!/bin/sh
before=
for word; do
    [ "$before" != ir ] || cat "$word" >'{module}'
    before=$word
done
exec '{compiler}' "$@"
"""


def kit():
    """The folder of the Rattle kit."""
    found = shutil.which("rt")
    if not found:
        sys.exit("mednukals: rt is needed and is not on the PATH")
    return Path(found).resolve().parent.parent


def tool(name):
    """A tool of the kit's compiler."""
    return str(kit() / COMPILER.parent / name)


def link(own, made, way):
    """Links to all that `own` has, but for the file at the end of `way`: its folders are made anew."""
    made.mkdir()
    for path in own.iterdir():
        if path.name != way[0]:
            (made / path.name).symlink_to(path.resolve())
    if len(way) > 1:
        link(own / way[0], made / way[0], way[1:])


@contextmanager
def recording(module):
    """A toolchain that keeps what its compiler is handed as the file `module`."""
    Path(module).unlink(missing_ok=True)
    with tempfile.TemporaryDirectory(prefix="mednukals-") as folder:
        made, way = Path(folder, "toolchain"), COMPILER.parts[1:]
        link(kit() / COMPILER.parts[0], made, way)
        script = made.joinpath(*way)
        script.write_text(SCRIPT.format(module=Path(module).resolve(), compiler=kit() / COMPILER), encoding="utf-8")
        script.chmod(0o755)
        yield made
