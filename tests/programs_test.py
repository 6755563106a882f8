"""Runs the programs line and checksum where something is wrong, and `make run` and `make checksum` over odd names: usage
programs_test.py LINE CHECKSUM, in the repository's root

A Rattle program has no exit status. Where a read or a write fails, it says so on standard error and does not print its last line;
tools/run_program.sh looks for that line, so that make fails.
"""
import os
import pty
import shutil
import stat
import subprocess
import sys
import tempfile
import tty
import unittest
from pathlib import Path

import suite

LINE, CHECKSUM = sys.argv[1:] if len(sys.argv) == 3 else ("", "")
SCRIPT = "tools/run_program.sh"
NOBODY = 65534
PATIENCE = 60  # seconds for one command

PING = bytes.fromhex("FF FF FD 00 01 03 00 01 19 4E")
# Promises 1,031 bytes, which do not come: what stands behind it is an event only when the segment ends.
PROMISE = bytes.fromhex("FF FF FD 00 07 00 04")


def run(*words, data=None, **more):
    """A command's exit code, output and error output."""
    streams = {"stdout": subprocess.PIPE, **({} if "stdin" in more else {"input": data or b""}), **more}
    ended = subprocess.run(words, stderr=subprocess.PIPE, timeout=PATIENCE, check=False, **streams)
    return ended.returncode, (ended.stdout or b"").decode(), ended.stderr.decode()


def make(target, **more):
    """make on what is built already, as from a shell of its own."""
    outside = {name: value for name, value in os.environ.items() if not name.startswith(("MAKE", "MFLAGS", "CAPTURE"))}
    words = ["make", "--no-print-directory", "-o", LINE, "-o", CHECKSUM, target]
    words += [f"CAPTURE={more.pop('capture')}"] if "capture" in more else []
    return run(*words, env={**outside, **more.pop("environment", {})}, **more)


def closing(number):
    """For a process that is to start without that descriptor."""
    return lambda: os.close(number)


class Program(unittest.TestCase):
    """What the programs do by themselves."""

    def test_line(self):
        self.assertEqual(run(LINE, data=PING[:3] + PING), (0, "packet 1 1 0\nend 13\n", ""))
        self.assertEqual(run(LINE, data=PROMISE + PING), (0, "packet 1 1 0\nend 17\n", ""))
        self.assertEqual(run(LINE), (0, "end 0\n", ""))

    def test_checksum(self):
        self.assertEqual(run(CHECKSUM, data=PING[:8]), (0, "4e19 8\n", ""))
        self.assertEqual(run(CHECKSUM), (0, "0000 0\n", ""))
        for parts in [1, 2]:  # as long as its buffer, and twice that
            self.assertEqual(run(CHECKSUM, data=bytes(65536 * parts)), (0, f"0000 {65536 * parts}\n", ""))
            self.assertEqual(run(CHECKSUM, data=bytes(65536 * parts) + PING[:8]), (0, f"4e19 {65536 * parts + 8}\n", ""))

    each = [(program, Path(program).name) for program in (LINE, CHECKSUM)]

    # [L7]
    def test_directory(self):
        for program, name in self.each:
            folder = os.open(".", os.O_RDONLY)
            self.assertEqual(run(program, stdin=folder), (0, "", f"{name}: standard input cannot be read\n"))
            os.close(folder)

    def test_closed_input(self):
        for program, name in self.each:
            answer = run(program, stdin=None, preexec_fn=closing(0))
            self.assertEqual(answer, (0, "", f"{name}: standard input cannot be read\n"))

    def test_read_fails_behind_some_bytes(self):
        for program, name in self.each:
            board, line = pty.openpty()
            tty.setraw(line)
            os.write(line, PING)
            os.close(line)  # Linux hands on what was written, and then fails with EIO
            self.assertEqual(run(program, stdin=board), (0, "", f"{name}: standard input cannot be read\n"))
            os.close(board)

    # [L7]
    def test_no_room_for_output(self):
        for program, name in self.each:
            with open("/dev/full", "wb") as full:
                answer = run(program, data=PING + PROMISE + PING, stdout=full)
            self.assertEqual(answer, (0, "", f"{name}: standard output cannot be written\n"))

    def test_closed_output(self):
        for program, name in self.each:
            answer = run(program, data=PING, stdout=None, preexec_fn=closing(1))
            self.assertEqual(answer, (0, "", f"{name}: standard output cannot be written\n"))


class Command(unittest.TestCase):
    """make run and make checksum."""

    each = [("run", "events in", "packet 1 1 0\nend 10\n"), ("checksum", "checksum and byte count of", "73f7 10\n")]

    def fails(self, answer, *reasons):
        code, _, errors = answer
        self.assertNotEqual(code, 0)
        for reason in reasons:
            self.assertIn(f"{reason}\n", errors)

    def test_samples(self):
        sample = "packet 1 1 0\ncrc 1\ncrc 2\npacket 1 2 4\npacket 2 1 0\npacket 1 3 6\nend 88\n"
        self.assertEqual(make("run")[:2], (0, "events in examples/capture.bin:\n" + sample))
        self.assertIn(f"\n```\n{sample}```\n", Path("README.md").read_text(encoding="utf-8"))
        self.assertEqual(make("checksum")[:2], (0, "checksum and byte count of examples/ping.bin:\n4e19 8\n"))

    def test_names(self):
        with tempfile.TemporaryDirectory() as folder:
            for name in ["a b", "it's", 'a"b', "a$b", "$(x", "$$", "a\\b", "a;b", "#a", "-", "*"]:
                path = Path(folder, name)
                path.write_bytes(PING)
                for target, what, lines in self.each:
                    wanted = (0, f"{what} {path}:\n{lines}", "")
                    self.assertEqual(make(target, capture=str(path)), wanted)
                    self.assertEqual(make(target, environment={"CAPTURE": str(path)}), wanted)

    def test_standard_input(self):
        for target, what, lines in self.each:
            self.assertEqual(make(target, capture="-", data=PING), (0, f"{what} standard input:\n{lines}", ""))
            self.fails(make(target, capture="-", stdin=None, preexec_fn=closing(0)), "standard input cannot be read",
                       "has not come to its end, over standard input")

    def test_no_such_file(self):
        for target, _, _ in self.each:
            self.fails(make(target, capture="no/where"), "mednukals: FAILED: there is no file no/where")
            self.fails(make(target, capture="docs"), "mednukals: FAILED: docs is a directory, and no file")

    def test_no_room_for_output(self):
        for target, _, _ in self.each:
            with open("/dev/full", "wb") as full:
                self.fails(make(target, stdout=full), "mednukals: FAILED: standard output cannot be written")

    def test_a_file_that_may_not_be_read(self):
        """Root may read every file, so that the script runs as nobody then, on copies in a folder that nobody reaches."""
        with tempfile.TemporaryDirectory() as folder:
            os.chmod(folder, 0o755)
            secret, script = Path(folder, "secret"), shutil.copy(SCRIPT, folder)
            secret.write_bytes(PING)
            secret.chmod(0)
            os.chmod(script, stat.S_IRUSR | stat.S_IRGRP | stat.S_IROTH)
            user = {"user": NOBODY, "group": NOBODY, "extra_groups": []} if os.geteuid() == 0 else {}
            answer = run("sh", str(script), "true", "end [0-9]+", "events in", str(secret), cwd=folder, **user)
            self.fails(answer, f"mednukals: FAILED: {secret} may not be read")

    def test_the_last_line_is_missing(self):
        for said in ["", "end", "packet 1 1 0", "end 5\npacket 1 1 0", "end 5x", "the end 5"]:
            with self.subTest(said):
                self.fails(self.over(f"printf '%s\\n' '{said}'"), "has not come to its end, over standard input")
        self.fails(self.over("printf 'end 5'"), "has not come to its end, over standard input")
        self.assertEqual(self.over("echo end 5"), (0, "events in standard input:\nend 5\n", ""))

    def over(self, text):
        """The script over a program that does this."""
        with tempfile.TemporaryDirectory() as folder:
            program = Path(folder, "program")
            program.write_text(f"#!/bin/sh\n{text}\n", encoding="utf-8")
            program.chmod(0o755)
            return run("sh", SCRIPT, str(program), "end [0-9]+", "events in", "-")


if __name__ == "__main__":
    sys.exit(suite.run(usage=None if LINE else "programs_test.py LINE CHECKSUM", done="programs: line and checksum"))
