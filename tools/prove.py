#!/usr/bin/env python3
"""Proves crates in a copy of the tree, and builds what C links and a user runs: in the repository's root

  prove.py archives            build/lib/libmednukals.a and libmednukals_test.a, and build/table/CRATE.bc, what the compiler was handed
  prove.py program NAME FILE   the program of that crate

In the copy `rt ci` proves what is asked for and all that it stands on: the crates that an earlier run on this machine has proved as
they are it takes from there, and what it proves counts for the gate. Must-fail edits are left out. The crates with exports are proved
by the compiler as it builds them: it makes an archive of a proved crate alone.
"""
import os
import shutil
import subprocess
import sys
import tempfile
from concurrent.futures import ThreadPoolExecutor
from contextlib import contextmanager
from pathlib import Path

ROOT = Path(__file__).resolve().parent.parent
sys.path += [str(ROOT / "tests"), str(ROOT / "tools/targets")]
from archives import archives, dependencies, join
from record import kit, recording

LIBRARIES, MODULES = Path("build/lib"), Path("build/table")
LEFT_OUT = shutil.ignore_patterns("out", "must-fail")
# Any processor of x86-64; the kit's own choice is a later one.
PROCESSOR = "x86-64"
AT_ONCE = max(1, (os.cpu_count() or 1) // 2)  # crates with exports; each check has two jobs


class Failed(Exception):
    """What could not be proved or built."""


def closure(stands_on, names):
    """The crates and all crates of the tree that they stand on; a library of the kit is none."""
    found, ahead = set(), list(names)
    while ahead:
        crate = ahead.pop()
        if crate in stands_on and crate not in found:
            found.add(crate)
            ahead += stands_on[crate]
    return found


def run(words, folder, log):
    """What a command says; it goes to the log too."""
    ended = subprocess.run([str(word) for word in words], cwd=folder, stdin=subprocess.DEVNULL, stdout=subprocess.PIPE, stderr=subprocess.STDOUT,
                           text=True, errors="replace", check=False)
    print(ended.stdout, end="", file=log, flush=True)
    if ended.returncode != 0:
        raise Failed(f"{Path(words[0]).name} {words[1]}: {ended.stdout[-6000:]}")
    return ended.stdout


class Copy:
    """The crates in a copy: `said` is what rt printed as it proved them. What commands print goes to the log."""

    def __init__(self, folder, log):
        self.top, self.exports, self.said, self.log = folder / "tree", folder / "exports", "", log

    def fill(self, names, change):
        text = Path("crates.txt").read_text(encoding="utf-8")
        for crate in closure(dependencies(text), names):
            shutil.copytree(Path("crates", crate), self.top / "crates" / crate, ignore=LEFT_OUT)
        (self.top / "crates.txt").write_text(text, encoding="utf-8")
        if Path("HANDLES").exists():
            shutil.copy("HANDLES", self.top)
        (self.top / ".git").mkdir()  # to rt it is the top of a repository
        if change:
            change(self.top)
        text = (self.top / "crates.txt").read_text(encoding="utf-8")
        self.stands_on = dependencies(text)
        needed = closure(self.stands_on, names)
        exports = needed & set().union(*archives(text).values())
        self.exports.mkdir()
        for path in list((self.top / "crates").iterdir()):
            if path.name in exports:
                path.rename(self.exports / path.name)
            elif path.name not in needed:
                shutil.rmtree(path)
        lines = [line for line in text.splitlines() if line.split("#")[0].split(":")[0].strip() in needed - exports]
        (self.top / "crates.txt").write_text("\n".join(lines) + "\n", encoding="utf-8")

    def prove(self):
        self.said = run(["rt", "ci"], self.top, self.log)

    def library(self, crate):
        folder = self.top / "crates" / crate / "out/rlib" if crate in self.stands_on else kit() / "rlibs"
        return folder / f"{crate}.rlib"

    def archive(self, crate, module):
        """Proves the crate's exports and builds them. Keeps what the compiler was handed as `module`. Answers the archive."""
        below, made = closure(self.stands_on, self.stands_on[crate]), self.exports / f"lib{crate}.a"
        libraries = {name: self.library(name) for name in ("std", *self.stands_on[crate])}
        words = [word for name, path in libraries.items() for word in ("--extern", f"{name}={path}")]
        words += [word for path in (kit() / "rlibs", *(self.library(name).parent for name in sorted(below)))
                  for word in ("-L", f"dependency={path}")]
        words += ["--antt-project", kit() / "rattle/logic/antt-project.json", "--logic-built", kit() / "logic_built"]
        words += ["--crate-type", "staticlib", "--cpu", PROCESSOR, "--jobs", "2", "-o", made]
        with recording(module) as toolchain:
            words = [kit() / "bin/rattle", "build", "--crate-name", crate, "src/lib.rt", *words, "--toolchain", toolchain]
            said = run(words, self.exports / crate, self.log)
        if "\nlogic=proved " not in f"\n{said}" or not Path(module).exists():
            raise Failed(f"the archive of {crate}: {said[-6000:]}")
        return made

    def archives(self, libraries, modules):
        """All archives, into the folder `libraries`, and the modules into `modules`."""
        for folder in (libraries, modules):
            Path(folder).mkdir(parents=True, exist_ok=True)
        wanted = archives(Path("crates.txt").read_text(encoding="utf-8"))
        crates = [crate for own in wanted.values() for crate in own]
        with ThreadPoolExecutor(AT_ONCE) as pool:
            made = dict(zip(crates, pool.map(lambda crate: self.archive(crate, Path(modules, f"{crate}.bc")), crates)))
        for archive, own in wanted.items():
            join(Path(libraries, archive), [made[crate] for crate in own])

    def program(self, crate, file):
        Path(file).parent.mkdir(parents=True, exist_ok=True)
        shutil.copy(self.top / "crates" / crate / "out" / crate, file)


@contextmanager
def proved(names, change=None, log=sys.stdout):
    """A copy of the crates and of all that they stand on, proved but for the crates with exports; `change` changes it before."""
    with tempfile.TemporaryDirectory(prefix="mednukals-") as folder:
        os.chmod(folder, 0o755)
        copy = Copy(Path(folder).resolve(), log)
        copy.fill(names, change)
        copy.prove()
        yield copy


def exports():
    return sorted(set().union(*archives(Path("crates.txt").read_text(encoding="utf-8")).values()))


def main(what, *words):
    if what == "archives":
        with proved(exports()) as copy:
            copy.archives(LIBRARIES, MODULES)
    else:
        name, file = words
        with proved([name]) as copy:
            copy.program(name, file)


if __name__ == "__main__":
    if sys.argv[1:] != ["archives"] and not (len(sys.argv) == 4 and sys.argv[1] == "program"):
        sys.exit("usage: prove.py archives, or prove.py program NAME FILE")
    try:
        main(*sys.argv[1:])
    except Failed as fault:
        sys.exit(f"mednukals: FAILED: {fault}")
