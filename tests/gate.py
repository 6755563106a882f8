"""Runs the command given, which is `rt ci`, and the tests beside it: usage gate.py COMMAND..., in the repository's root

`rt ci` proves every crate and tries the must-fail edits, which takes longer than all else. As soon as the crates are proved, the
archives that the tests link are made in a copy of the tree (tools/prove.py), and the tests run while the edits are tried. So nothing
is proved twice but the crates with exports; leaf_test proves besides what stands on the other checksum functions, in copies.

Of what `rt ci` prints, a line for each crate is shown, one for each crate's edits, and what a failure says; build/log/rt-ci.log has
all of it. An edit that cannot be applied or read fails this, and so does one that is not counted as refused. The last line of `rt ci`,
the count, comes last here too, when the tests have passed.
"""
import os
import re
import shutil
import signal
import subprocess
import sys
import tempfile
import threading
import time
from pathlib import Path

from archives import FIRMWARE, TESTS as FOR_TESTS, dependencies

sys.path.append(str(Path(__file__).resolve().parent.parent / "tools"))
import prove

LOG = Path("build/log/rt-ci.log")
PROGRAMS = ["line", "checksum"]
TESTS = ["c_test", "header_test", "install_test", "docs_test", "programs_test", "cli_test", "man_test", "show_test", "send_test",
         "python_test", "demo_test", "counts_test", "rust_test", "leaf_test", "targets_test"]
# what the tests link is there: make must not make it anew
MADE = [f"build/lib/{archive}" for archive in (FIRMWARE, FOR_TESTS)] + [f"build/bin/{program}" for program in PROGRAMS]
# Those of an earlier run say nothing of this tree, and make would not build some of them anew: to it what they are made of is old.
OTHERS = ["build/lib/libmednukals_*.a", "build/lib/*/*.a", "build/lib/*.so*"]
LINKED = Path("build/c")
MOST_LINES, MOST_CHARACTERS = 40, 500  # of what a failed proof says
BESIDE = str(max(1, (os.cpu_count() or 1) // 2))  # checks at a time for leaf_test, while the edits are tried


def say(label, seconds):
    """A step and its time, as tools/step.sh prints them."""
    print(f"{label:<64}{seconds:>6} s", flush=True)


def linked():
    """Archives and programs under build/, from what is proved. Answers what is wrong."""
    began = time.monotonic()
    log = LOG.with_name("archives.log").open("w", encoding="utf-8")
    try:
        with log, prove.proved([*prove.exports(), *PROGRAMS], log=log) as copy:
            copy.archives(prove.LIBRARIES, prove.MODULES)
            for program in PROGRAMS:
                copy.program(program, Path("build/bin", program))
    except prove.Failed as fault:
        return f"the archives: {fault}"
    say("archives and programs", round(time.monotonic() - began))
    return ""


class Tests(threading.Thread):
    """The tests beside the command. `fault` is empty where they have passed; at a fault the command is ended."""

    def __init__(self, command):
        super().__init__()
        self.command, self.fault = command, "they did not run"

    def run(self):
        self.fault = linked() or self.targets()
        if self.fault:
            end(self.command)

    def targets(self):
        """The tests by make, whose lines are handed on as they come."""
        old = [f"--old-file={file}" for file in [*MADE, *prove.MODULES.glob("*.bc")]]
        for archive in [path for pattern in OTHERS for path in Path().glob(pattern) if str(path) not in MADE]:
            archive.unlink()
        shutil.rmtree(LINKED, ignore_errors=True)
        make = subprocess.Popen(["make", "--no-print-directory", *old, *TESTS], stdout=subprocess.PIPE, stderr=subprocess.STDOUT,
                                text=True, env={"RT_JOBS": BESIDE, **os.environ})
        for line in make.stdout:
            print(line, end="", flush=True)
        return "a test" if make.wait() != 0 else ""


def end(command):
    """The command with all that it has started."""
    if command.poll() is None:
        os.killpg(command.pid, signal.SIGTERM)


class Progress:
    """Shows what the command does, line by line."""

    def __init__(self, crates):
        self.said = []  # of the crate that is being proved
        self.left, self.kept = set(crates), 0  # crates that are not proved yet, and those that an earlier run has proved
        self.of, self.count, self.refused = "", 0, 0  # the edits of one crate, and of all
        self.ok, self.began = "", time.monotonic()

    def all_proved(self):
        return not self.left

    def show(self, line):
        proved = re.fullmatch(r"rt: (\w+) (proved|is kept: .*)\n", line)
        trying = re.fullmatch(r"rt: (\w+): trying its must-fail edits \((\d+)\)\n", line)
        refused = re.fullmatch(r"rt: must-fail (\w+)/[\w.-]+: refused, as it must be.*\n", line)
        ran = re.fullmatch(r"rt: (\w+) ran( \(built by .*\))?, and wrote what its file stdout has\n", line)
        if refused:
            self.edit(refused.group(1))
            if "as it must be (only" in line:  # for a limit, or for a name that the edit took away: that says less
                print(line[:MOST_CHARACTERS].rstrip("\n"), flush=True)
        elif proved:
            self.said.clear()
            self.proved(*proved.groups())
        elif trying:
            say(f"trying the must-fail edits of {trying.group(1)}, {trying.group(2)}, begun after", self.seconds())
        elif ran:
            self.edits_end()
            say(f"stored run: {ran.group(1)}{ran.group(2) or ''}", self.seconds())
        elif re.fullmatch(r"rt: \w+: (its tests are proved|\d+ of its \d+ must-fail edits were tried by an earlier run .*)\n", line):
            self.said.clear()
        elif line.startswith("rt: "):
            self.edits_end()
            self.ok = line if line.startswith("rt: ok") else self.ok
            for said in [*self.said, line]:
                print(said[:MOST_CHARACTERS].rstrip("\n"), flush=True)
            self.said.clear()
        else:
            self.said = [*self.said, line][-MOST_LINES:]

    def seconds(self):
        """Since the command began; it works on several crates at a time."""
        return round(time.monotonic() - self.began)

    def proved(self, crate, how):
        self.left.discard(crate)
        if how == "proved":
            say(f"proved from nothing: {crate}, after", self.seconds())
        else:
            self.kept += 1
        if not self.left and self.kept:
            say(f"proved as they are by an earlier run on this machine: {self.kept} crates", self.seconds())

    def edit(self, crate):
        if crate != self.of:
            self.edits_end()
            self.of = crate
        self.count += 1
        self.refused += 1

    def edits_end(self):
        """The edits of one crate have been told."""
        if self.of:
            print(f"edits refused, as they must be: {self.of}, {self.count}", flush=True)
        self.of, self.count = "", 0

    def wrong_edits(self):
        """What is wrong with the edits, though the command has not failed."""
        there = len(list(Path("crates").glob("*/must-fail/*.edit")))
        counts = re.search(r"; must-fail edits: (\d+) refused(?:, \d+ of them only by a limit)?(?:, (\d+) bad)?;", self.ok)
        if not self.ok:
            return "it does not say that all is ok"
        if counts and int(counts.group(2) or 0):
            return f"{counts.group(2)} must-fail edits are bad"
        refused = int(counts.group(1)) if counts else 0
        if (refused, self.refused) != (there, there):
            return f"there are {there} must-fail edits, and {refused} are refused"
        return ""


def hand_on(command, tests, progress):
    """Shows what the command prints, but for its last line; the tests begin where the crates are proved."""
    held = ""
    LOG.parent.mkdir(parents=True, exist_ok=True)
    with LOG.open("w", encoding="utf-8") as log:
        for line in command.stdout:
            log.write(line)
            log.flush()
            if held:
                progress.show(held)
            held = line
            if tests.ident is None and progress.all_proved():
                tests.start()
    progress.edits_end()
    return held


def gate():
    """Command and tests."""
    began = time.monotonic()
    command = subprocess.Popen(sys.argv[1:], stdout=subprocess.PIPE, stderr=subprocess.STDOUT, text=True, errors="replace",
                               start_new_session=True)
    tests, progress = Tests(command), Progress(dependencies(Path("crates.txt").read_text(encoding="utf-8")))
    try:
        last = hand_on(command, tests, progress)
    finally:
        end(command)
    status = command.wait()
    if tests.ident is not None:
        tests.join()
    if tests.fault and (status == 0 or tests.ident is not None):
        print(f"mednukals: FAILED: the tests beside rt ci: {tests.fault}", file=sys.stderr)
        return 1
    wrong = "" if status != 0 else progress.wrong_edits()
    if status != 0 or wrong:
        print(f"mednukals: FAILED: rt ci{': ' if wrong else ''}{wrong}; all that it said is in {LOG}", file=sys.stderr, flush=True)
    if wrong:
        return 1
    say("proofs, edits and tests, together", round(time.monotonic() - began))
    print(last, end="", flush=True)
    return status


def main():
    with tempfile.TemporaryDirectory(prefix="mednukals-", ignore_cleanup_errors=True) as temporary:
        os.chmod(temporary, 0o755)  # rt runs programs as nobody, who has to reach what they read there
        os.environ["TMPDIR"], tempfile.tempdir = temporary, None
        return gate()


if __name__ == "__main__":
    sys.exit(main())
