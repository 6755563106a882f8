"""Runs the tool dxl: usage cli_test.py PROGRAM, in the repository's root

What its commands print, how they end, and that a log or a plan is there complete or not at all. What the exports answer is compared elsewhere.
"""
import os
import pty
import resource
import signal
import struct
import subprocess
import sys
import tempfile
import threading
import time
import unittest
from pathlib import Path

import suite

sys.path.append("examples")
from talk import packet

PROGRAM = sys.argv[1] if len(sys.argv) == 2 else ""
PATIENCE = 120  # seconds for one command
PING = bytes.fromhex("FF FF FD 00 01 03 00 01 19 4E")
PING_2 = bytes.fromhex("FF FF FD 00 02 03 00 01 19 72")
TO_ALL = bytes.fromhex("FF FF FD 00 FE 03 00 01 31 42")
DONE, NO, USAGE, FAILED, ALTERED = 0, 1, 2, 3, 4
LONG = bytes.fromhex("FF FF FD 00 01 FF 03") * 1_500_000  # takes some seconds: a packet begins at each seventh byte, its checksum wrong


def run(*words, **more):
    ended = subprocess.run([PROGRAM, *map(str, words)], capture_output=True, timeout=PATIENCE, text=True, check=False, **more)
    return ended.returncode, ended.stdout, ended.stderr


def usage_of(*words):
    """The lines of a help up to the first blank one, which stand below a message."""
    return run(*words, "--help")[1].split("\n\n")[0] + "\n"


def numbers(log, at, count):
    return list(struct.unpack_from(f"<{count}I", log, at))


def heard_until(program, heard, wanted, listens):
    """What comes from the file, up to the words wanted; then the program is ended. It counts the signals of its timer, so that some
    more of them make seconds pass, as soon as it listens to them."""
    text = b""
    os.set_blocking(heard, False)
    ends = time.monotonic() + PATIENCE
    while wanted not in text and program.poll() is None and time.monotonic() < ends:
        if listens():
            program.send_signal(signal.SIGALRM)
        time.sleep(0.01)
        try:
            text += os.read(heard, 1000)
        except BlockingIOError:
            pass
    program.send_signal(signal.SIGTERM)
    program.wait(PATIENCE)
    return text


class Folder(unittest.TestCase):
    def setUp(self):
        self.folder = tempfile.TemporaryDirectory(dir="build")
        self.addCleanup(self.folder.cleanup)
        self.out = self.file("out.log")

    def file(self, name, contents=None):
        path = Path(self.folder.name, name)
        if contents is not None:
            path.write_bytes(contents)
        return path

    def names(self):
        return sorted(path.name for path in Path(self.folder.name).iterdir())


class Write(Folder):
    # [I1-I5 L8 X27]
    def test_one_capture(self):
        self.assertEqual(run("log", "write", self.out, self.file("ping", PING)), (DONE, "", ""))
        log = self.out.read_bytes()
        self.assertEqual((len(log), numbers(log, 0, 6)), (1050, [1, 16, 254, 24, 1040, 10]))
        self.assertEqual((sum(numbers(log, 24, 254)), numbers(log, 28, 1), log[1040:]), (1, [1], PING))
        self.assertEqual(self.names(), ["out.log", "ping"])

    def test_several_captures(self):
        captures = [self.file("a", PING + b"\x07" + PING), self.file("b", b""), self.file("c", TO_ALL), self.file("d", b"\x01\x02\x03")]
        self.assertEqual(run("log", "write", self.out, *captures), (DONE, "", ""))
        log = self.out.read_bytes()
        self.assertEqual(numbers(log, 16, 8), [1064, 21, 1085, 0, 1085, 10, 1095, 3])
        self.assertEqual(log[1064:], b"".join(path.read_bytes() for path in captures))
        self.assertEqual(run("log", "check", self.out), (DONE, f"{self.out}: sound, 4 segments in 1098 bytes\n", ""))
        self.assertEqual(run("log", "last", self.out, 1), (DONE, "segment 0 offset 11\n", ""))
        self.assertEqual(run("log", "last", self.out, 254), (DONE, "segment 2 offset 0\n", ""))
        self.assertEqual(self.names(), ["a", "b", "c", "d", "out.log"])

    def test_empty_captures(self):
        empty = self.file("empty", b"")
        self.assertEqual(run("log", "write", self.out, empty, empty), (DONE, "", ""))
        self.assertEqual(len(self.out.read_bytes()), 1048)

    def test_mode_and_a_log_that_is_there(self):
        self.out.write_bytes(b"an older one")
        self.assertEqual(run("log", "write", self.out, self.file("ping", PING))[0], DONE)
        self.assertEqual(len(self.out.read_bytes()), 1050)
        mask = os.umask(0)
        os.umask(mask)
        self.assertEqual(self.out.stat().st_mode & 0o777, 0o666 & ~mask)
        self.out.chmod(0o600)
        self.assertEqual(run("log", "write", self.out, self.file("ping", PING))[0], DONE)
        self.assertEqual(self.out.stat().st_mode & 0o777, 0o600)

    # [L9]
    def test_names(self):
        """The longest name that a file may have; a link is replaced, and what it leads to stays."""
        ping, link, long = self.file("ping", PING), self.file("link"), self.file("n" * 255)
        self.assertEqual((run("log", "write", long, ping), len(long.read_bytes())), ((DONE, "", ""), 1050))
        long.unlink()
        for aim in ["ping", "none", "link"]:
            with self.subTest(aim):
                link.unlink(missing_ok=True)
                link.symlink_to(aim)
                self.assertEqual(run("log", "write", link, self.file("other", b"")), (DONE, "", ""))
                self.assertEqual((link.is_symlink(), len(link.read_bytes()), ping.read_bytes()), (False, 1040, PING))
                self.assertEqual(self.names(), ["link", "other", "ping"])

    # [L9]
    def test_no_regular_files(self):
        """What is no regular file is neither replaced by a log nor waited for."""
        ping, pipe, folder = self.file("ping", PING), self.file("pipe"), self.file("folder")
        os.mkfifo(pipe)
        folder.mkdir()
        for out, capture, named in [(pipe, ping, pipe), (folder, ping, folder), (self.out, "/dev/null", "/dev/null"), (self.out, pipe, pipe)]:
            with self.subTest(out=out, capture=capture):
                self.assertEqual(run("log", "write", out, capture), (FAILED, "", f"dxl: {named}: not a regular file\n"))
                self.assertEqual(self.names(), ["folder", "ping", "pipe"])

    # [L18]
    def test_pipes(self):
        """A pipe is read as a file is, also where its writer comes late or is slow, or writes nothing."""
        pipe, ping, goals = self.file("pipe"), self.file("ping", PING), self.file("goals", b"3 7\n")
        os.mkfifo(pipe)

        def given(text, *words, late=0.0, slow=0.0):
            """What the command prints where the pipe gives it this."""
            def write():
                time.sleep(late)
                with open(pipe, "wb", buffering=0) as file:
                    time.sleep(slow)
                    file.write(text)
            writer = threading.Thread(target=write)
            writer.start()
            ended = run(*words)
            writer.join()
            return ended

        self.assertEqual(given(PING_2, "log", "write", self.out, ping, pipe, late=0.1), (DONE, "", ""))
        log = self.out.read_bytes()
        self.assertEqual(log[1048:], PING + PING_2)
        self.assertEqual(given(log, "log", "check", pipe, slow=0.7), (DONE, f"{pipe}: sound, 2 segments in 1068 bytes\n", ""))
        self.assertEqual(given(log, "log", "last", pipe, 2), (DONE, "segment 1 offset 0\n", ""))
        self.assertEqual(given(b"", "log", "write", self.out, pipe), (DONE, "", ""))
        self.assertEqual(len(self.out.read_bytes()), 1040)
        self.assertEqual(given(log, "log", "salvage", pipe, self.out)[0], DONE)
        self.assertEqual(self.out.read_bytes(), log)
        plan = run("plan", "make", goals)[1]
        self.assertEqual(given(b"3 7\n", "plan", "make", pipe), (DONE, plan, ""))
        self.assertEqual(given(plan.encode(), "plan", "check", goals, pipe)[0], DONE)

    # [L18]
    def test_standard_input_once(self):
        """It may be named twice: `log` and `plan` keep what they have read of it, and to `show` it is empty the second time."""
        self.file("standard", PING)
        with self.file("standard").open("rb") as file:
            self.assertEqual(run("log", "write", self.out, "-", "-", stdin=file), (DONE, "", ""))
        self.assertEqual(self.out.read_bytes()[1048:], PING + PING)
        self.assertEqual(run("plan", "check", "-", "-", input=""), (DONE, "standard input: accepted, 0 goals in 0 packets\n", ""))
        code, shown, errors = run("show", "-", "-", input="")
        self.assertEqual((code, shown.count("-:\n0 bytes: "), errors), (DONE, 2, ""))

    # [L9]
    def test_complete_or_not_there(self):
        """Whatever goes wrong, OUT is as it was, and no other file stays."""
        ping = self.file("ping", PING)
        self.out.write_bytes(b"an older one")
        for words in [[self.file("none")], [ping, self.file("none")], [self.folder.name], [ping, self.out], ["/dev/zero"]]:
            with self.subTest(words):
                status, out, err = run("log", "write", self.out, *words)
                self.assertEqual((status, out, err.startswith("dxl: ") and err.count("\n")), (FAILED, "", 1))
                self.assertEqual((self.out.read_bytes(), self.names()), (b"an older one", ["out.log", "ping"]))
        status, out, err = run("log", "write", self.file("no/out.log"), ping)
        self.assertEqual((status, out, "No such file" in err), (FAILED, "", True))

    def test_no_room(self):
        """A file that may not become so long; the disk that is full is told in the same way."""
        big = self.file("big", bytes(200_000))

        def small_files():
            resource.setrlimit(resource.RLIMIT_FSIZE, (100_000, 100_000))

        status, out, err = run("log", "write", self.out, big, preexec_fn=small_files)
        self.assertEqual((status, out, err), (FAILED, "", f"dxl: {self.out}: File too large\n"))
        self.assertEqual(self.names(), ["big"])

    def test_too_long(self):
        """Captures that together pass what 32 bits hold; sparse ones, which take no room on the disk. [I12]"""
        half = self.file("half")
        with half.open("wb") as file:
            file.truncate(1 << 31)
        whole = self.file("whole")
        with whole.open("wb") as file:
            file.truncate(1 << 32)
        for captures in [[half, half], [whole], [whole, whole]]:
            status, out, err = run("log", "write", self.out, *captures)
            self.assertEqual((status, out, err),
            (FAILED, "", f"dxl: {self.out}: 31, the log would have more than 4294967295 bytes\n"))
        self.assertEqual(self.names(), ["half", "whole"])

    def signalled(self, number, disposition):
        """How a program ends that gets the signal while it writes, and what is there then. The gate itself may have been started with
        the signal ignored, and its programs with it: so the disposition is set."""
        capture = self.file("capture", LONG)
        program = subprocess.Popen([PROGRAM, "log", "write", str(self.out), str(capture)], stderr=subprocess.DEVNULL,
                                   preexec_fn=lambda: signal.signal(number, disposition))
        waited = time.monotonic()
        while len(self.names()) < 2 and program.poll() is None and time.monotonic() < waited + PATIENCE:
            time.sleep(0.001)
        program.send_signal(number)
        return program.wait(PATIENCE), self.names()

    # [L9]
    def test_ended(self):
        """A program that is ended while it writes leaves nothing behind."""
        for number in [signal.SIGTERM, signal.SIGINT, signal.SIGQUIT]:
            with self.subTest(number):
                self.assertEqual(self.signalled(number, signal.SIG_DFL), (-number, ["capture"]))

    # [L9]
    def test_signal_ignored(self):
        """Where its caller ignores a signal, as a shell does for work in the background, so does it."""
        self.assertEqual(self.signalled(signal.SIGINT, signal.SIG_IGN), (DONE, ["capture", self.out.name]))


class Ask(Folder):
    # [I16 I18 L8]
    def test_answers(self):
        self.assertEqual(run("log", "write", self.out, self.file("ping", PING))[0], DONE)
        log = self.out.read_bytes()
        self.assertEqual(run("log", "check", self.out), (DONE, f"{self.out}: sound, 1 segment in 1050 bytes\n", ""))
        self.assertEqual(run("log", "last", self.out, 2), (NO, "no packet for ID 2\n", ""))
        self.assertEqual(run("log", "last", self.out, 253), (FAILED, "", "dxl: 253: 32, an ID of 253 or 255 is never valid\n"))
        self.out.write_bytes(log[:-1])
        why = "31, not laid out as a log: segment 0 ends at 1050, and the file at 1049\n"
        self.assertEqual(run("log", "check", self.out), (NO, f"{self.out}: not sound: {why}", ""))
        for words in [["last", self.out, 1], ["last", self.out], ["list", self.out], ["show", self.out, 0], ["extract", self.out, 0, "x"]]:
            self.assertEqual(run("log", *words), (FAILED, "", f"dxl: {self.out}: {why}"))
        self.assertEqual(run("log", "check", self.file("none")),
        (FAILED, "", f"dxl: {self.file('none')}: No such file or directory\n"))

    # [L8]
    def test_what_is_wrong(self):
        """The number, the segment or the ID that is wrong is named."""
        captures = [self.file("a", PING), self.file("b", PING_2 + TO_ALL)]
        self.assertEqual(run("log", "write", self.out, *captures), (DONE, "", ""))
        log = self.out.read_bytes()

        def put(at, number):
            return log[:at] + struct.pack("<I", number) + log[at + 4:]

        layout, index = "31, not laid out as a log: ", "34, the index is not that of the segments: "
        for wrong, why in [
                (b"", layout + "it has 0 bytes, and a log has 1032 to 4294967295"),
                (put(0, 3), layout + "the place of the index, at 12, is 32 and should be 40"),
                (put(4, 17), layout + "the place of the directory, at 4, is 17 and should be 16"),
                (put(8, 253), layout + "the count of index numbers, at 8, is 253 and should be 254"),
                (put(12, 0), layout + "the place of the index, at 12, is 0 and should be 32"),
                (struct.pack("<4I", 9, 16, 254, 88) + bytes(1040), layout + "9 segments need 1104 bytes before the first, and it has 1056"),
                (put(16, 1000), layout + "the start of segment 0 is 1000 and should be 1048"),
                (put(24, 1059), layout + "the start of segment 1 is 1059 and should be 1058"),
                (put(20, 11), layout + "the start of segment 1 is 1058 and should be 1059"),
                (put(28, 21), layout + "segment 1 ends at 1079, and the file at 1078"),
                (log + b"xyz", layout + "3 bytes stand behind the last segment"),
                (put(32 + 4 * 7, 3), layout + "the index number for ID 7 is 3, and there are 2 segments"),
                (put(32 + 4 * 7, 1), index + "for ID 7 it names segment 0, and the last one with a packet is no segment"),
                (put(32 + 4 * 2, 0), index + "for ID 2 it names no segment, and the last one with a packet is segment 1"),
                (put(32 + 4 * 253, 1), index + "for ID 254 it names segment 0, and the last one with a packet is segment 1")]:
            with self.subTest(why):
                self.out.write_bytes(wrong)
                self.assertEqual(run("log", "check", self.out), (NO, f"{self.out}: not sound: {why}\n", ""))

    # [I10]
    def test_too_long(self):
        """A file that is longer than a log may be is told by its length; it takes no room on the disk."""
        with self.out.open("wb") as file:
            file.truncate(1 << 32)
        why = "31, not laid out as a log: it has 4294967296 bytes, and a log has 1032 to 4294967295\n"
        self.assertEqual(run("log", "check", self.out), (NO, f"{self.out}: not sound: {why}", ""))
        self.assertEqual(run("log", "last", self.out, 1), (FAILED, "", f"dxl: {self.out}: {why}"))

    def test_full_output(self):
        self.assertEqual(run("log", "write", self.out, self.file("ping", PING))[0], DONE)
        with open("/dev/full", "wb") as full:
            ended = subprocess.run([PROGRAM, "log", "last", str(self.out), "1"], stdout=full, stderr=subprocess.PIPE, check=False)
        self.assertEqual((ended.returncode, ended.stderr.startswith(b"dxl: standard output: ")), (FAILED, True))


class Salvage(Folder):
    def setUp(self):
        super().setUp()
        captures = [self.file("a", PING), self.file("b", PING_2)]
        self.assertEqual(run("log", "write", self.out, *captures), (DONE, "", ""))
        for capture in captures:
            capture.unlink()
        self.log = self.out.read_bytes()
        self.new = self.file("new.log")

    def salvage(self, contents, warning="", ends=ALTERED):
        self.out.write_bytes(contents)
        status, out, err = run("log", "salvage", self.out, self.new)
        said = f"dxl: {self.out}: warning: {warning}\n" if warning else ""
        self.assertEqual((status, err, self.names()), (ends, said, ["new.log", "out.log"]))
        self.assertEqual((run("log", "check", self.new)[0], self.out.read_bytes()), (DONE, contents))
        return out.replace(f"{self.folder.name}/", "")

    # [I29 L10]
    def test_sound(self):
        self.assertEqual(self.salvage(self.log, ends=DONE), "out.log: 2 of 2 segments kept, 1068 bytes written to new.log\n"
                         "header unchanged\n0 index numbers changed\n0 bytes left over\n")
        self.assertEqual(self.new.read_bytes(), self.log)

    # [I22 I24-I28 L10 X29]
    def test_cut(self):
        self.assertEqual(self.salvage(self.log[:-1]), "out.log: 1 of 2 segments kept, 1050 bytes written to new.log\n"
                         "segment 1 dropped: 2, it ends behind the end of the file\n"
                         "header changed\n1 index number changed\n9 bytes left over\n")
        self.assertEqual((self.new.read_bytes()[1040:], numbers(self.new.read_bytes(), 0, 6)), (PING, [1, 16, 254, 24, 1040, 10]))

    # [I21 I23 L10 X31]
    def test_another_count(self):
        start = "1, it starts before the end of the index or of the last segment kept\n"
        warning = "its header counts 3 segments, and the place of its index tells 2"
        self.assertEqual(self.salvage(b"\x03" + self.log[1:], warning), "out.log: 1 of 3 segments kept, 1050 bytes written to new.log\n"
                         f"segment 0 dropped: {start}segment 2 dropped: {start}"
                         "header changed\n4 index numbers changed\n2 bytes left over\n")
        warning = "its header counts 2 segments, and the place of its index, 7, is none"
        self.assertEqual(self.salvage(self.log[:12] + b"\7" + self.log[13:], warning), "out.log: 2 of 2 segments kept, 1068 bytes written "
                         "to new.log\nheader changed\n0 index numbers changed\n0 bytes left over\n")

    # [L10 X32]
    def test_count_overwritten(self):
        """Every dropped entry is still listed, in few lines."""
        warning = "its header counts 4294967295 segments, and the place of its index tells 2"
        text = self.salvage(b"\xff" * 4 + self.log[4:] + bytes(8_000_000), warning)
        start = "1, it starts before the end of the index or of the last segment kept"
        self.assertEqual(text.splitlines()[1:-3], [f"segments 0 to 128 dropped: {start}",  # the last of these are in the bytes of a Ping
                                                   "segments 129 to 131 dropped: 2, it ends behind the end of the file",
                                                   f"segments 132 to 1000003 dropped: {start}"])
        self.assertTrue(text.startswith("out.log: 0 of 1000004 segments kept, 1032 bytes written to new.log\n"), text)

    # [L10 X33]
    def test_any_change_is_told(self):
        """Bytes left over alone, and one index number alone, end it with 4."""
        kept = "out.log: 2 of 2 segments kept, 1068 bytes written to new.log\nheader unchanged\n"
        self.assertEqual(self.salvage(self.log + b"\0\0\0"), kept + "0 index numbers changed\n3 bytes left over\n")
        self.assertEqual(self.salvage(self.log[:32] + b"\1" + self.log[33:]), kept + "1 index number changed\n0 bytes left over\n")

    # [L10]
    def test_lines_of_dropped_segments(self):
        """One line for those side by side with one reason, and one for each change of it."""
        starts = [1072 + 10 * i for i in range(5)]
        entries = [(starts[0], 10), (7, 1), (8, 1), (starts[1], 999999), (starts[1], 10)]
        log = struct.pack("<4I", 5, 16, 254, 56) + b"".join(struct.pack("<2I", *entry) for entry in entries) + bytes(1016) + PING * 5
        dropped = [line for line in self.salvage(log).splitlines() if "dropped" in line]
        self.assertEqual(dropped, ["segments 1 to 2 dropped: 1, it starts before the end of the index or of the last segment kept",
                                   "segment 3 dropped: 2, it ends behind the end of the file"])

    # [L10]
    def test_mode_and_a_log_that_is_there(self):
        self.new.write_bytes(b"x" * 5000)
        self.new.chmod(0o600)
        self.salvage(self.log[:-1])
        self.assertEqual((len(self.new.read_bytes()), self.new.stat().st_mode & 0o777), (1050, 0o600))

    # [I31 L10 N18]
    def test_refused(self):
        """A file of no size that is accepted: nothing is written. The long one takes no room on the disk."""
        for size in [0, 4, 1031, 1 << 32]:
            with self.subTest(size), self.out.open("wb") as file:
                file.truncate(size)
                self.assertEqual(run("log", "salvage", self.out, self.new),
                                 (FAILED, "", f"dxl: {self.out}: 33, a log has 1032 to 4294967295 bytes\n"))
                self.assertEqual(self.names(), ["out.log"])

    # [L10]
    def test_never_over_the_log_that_is_read(self):
        hard, soft = self.file("hard"), self.file("soft")
        os.link(self.out, hard)
        soft.symlink_to("out.log")
        for log, out in [(self.out, self.out), (self.out, hard), (hard, self.out), (self.out, soft), (soft, self.out),
                         (self.out, Path(self.folder.name, ".", "..", Path(self.folder.name).name, "out.log"))]:
            with self.subTest(log=log, out=out):
                self.assertEqual(run("log", "salvage", log, out),
                                 (FAILED, "", f"dxl: {log}: the log that is read and the one to be written are one file\n"))
                self.assertEqual((self.out.read_bytes(), self.names()), (self.log, ["hard", "out.log", "soft"]))

    # [L10]
    def test_complete_or_not_there(self):
        """Whatever goes wrong, OUT is as it was, and no other file stays."""
        self.new.write_bytes(b"an older one")
        pipe = self.file("pipe")
        os.mkfifo(pipe)

        def small_files():
            resource.setrlimit(resource.RLIMIT_FSIZE, (1000, 1000))

        for log, out, more in [(self.file("none"), self.new, {}), (pipe, self.new, {}), (self.out, pipe, {}),
                               (self.out, self.file("no/new.log"), {}), (self.out, self.new, {"preexec_fn": small_files})]:
            with self.subTest(log=log, out=out):
                status, text, err = run("log", "salvage", log, out, **more)
                self.assertEqual((status, text, err.startswith("dxl: ") and err.count("\n")), (FAILED, "", 1))
                self.assertEqual((self.new.read_bytes(), self.names()), (b"an older one", ["new.log", "out.log", "pipe"]))

    # [L10]
    def test_full_output(self):
        with open("/dev/full", "wb") as full:
            ended = subprocess.run([PROGRAM, "log", "salvage", str(self.out), str(self.new)], stdout=full, stderr=subprocess.PIPE,
                                   check=False)
        self.assertEqual((ended.returncode, ended.stderr.startswith(b"dxl: standard output: ")), (FAILED, True))
        self.assertEqual((self.new.read_bytes(), self.names()), (self.log, ["new.log", "out.log"]))

    # [L10]
    def test_long_work(self):
        """A line says how long it takes, and nothing unfinished stays where it is ended."""
        self.long_log()
        ours, theirs = os.pipe()
        program = subprocess.Popen([PROGRAM, "log", "salvage", str(self.out), str(self.new)], stderr=theirs)
        os.close(theirs)
        text = heard_until(program, ours, b"10 s\n", lambda: len(self.names()) > 1)
        os.close(ours)
        self.assertEqual((text, self.names()), (b"dxl: salvaging the log, 10 s\n", ["out.log"]))

    # [L10]
    def test_closed_stream(self):
        """Where standard error is closed, what is said of long work does not go into the log that is being written."""
        self.long_log()
        program = subprocess.Popen([PROGRAM, "log", "salvage", str(self.out), str(self.new)], preexec_fn=lambda: os.close(2))
        ends = time.monotonic() + PATIENCE
        while self.unfinished() != struct.pack("<I", 1) and time.monotonic() < ends:
            time.sleep(0.01)
        for _ in range(25):
            program.send_signal(signal.SIGALRM)
            time.sleep(0.01)
        begins = self.unfinished()
        program.terminate()
        program.wait(PATIENCE)
        self.assertEqual(begins, struct.pack("<I", 1))

    def long_log(self):
        self.out.write_bytes(struct.pack("<6I", 1, 16, 254, 24, 1040, len(LONG)) + bytes(1016) + LONG)

    def unfinished(self):
        """How the file that is being written begins."""
        for path in Path(self.folder.name).iterdir():
            if path != self.out:
                with path.open("rb") as file:
                    return file.read(4)
        return b""


class Plan(Folder):
    TWO = bytes.fromhex("FF FF FD 00 FE 11 00 83 74 00 04 00 03 07 00 00 00 09 FF 00 00 00 90 10")

    def goals(self, text):
        return self.file("goals", text.encode("ascii"))

    # [L11]
    def test_hex(self):
        """What plan make prints is a plan too."""
        goals = self.goals("3 7\n9 255\n")
        printed = run("plan", "make", goals)[1]
        self.out.write_text(printed, encoding="ascii")
        self.assertEqual(run("plan", "check", goals, self.out), (DONE, f"{self.out}: accepted, 2 goals in 1 packet\n", ""))
        self.assertEqual(run("plan", "check", goals, "-", input=printed),
        (DONE, "standard input: accepted, 2 goals in 1 packet\n", ""))
        self.out.write_text("# by hand\n" + printed.lower().replace(" ", ""), encoding="ascii")
        self.assertEqual(run("plan", "check", goals, self.out)[0], DONE)
        for text, line, why in [("FF FF\nFG\n", 2, "not bytes in hex"), ("FF F FF F00\n", 1, "not bytes in hex")]:
            self.out.write_text(text, encoding="ascii")
            self.assertEqual(run("plan", "check", goals, self.out), (FAILED, "", f"dxl: {self.out}:{line}: {why}\n"))
        self.out.write_text("0.5 FF\n", encoding="ascii")
        self.assertEqual(run("plan", "check", goals, self.out),
        (FAILED, "", f"dxl: {self.out}: bytes in hex are wanted, and no times\n"))

    # [L11]
    def test_show(self):
        """The goals of a plan, as a list that makes the same plan."""
        goals = self.goals("".join(f"{id} {4095 - id}\n" for id in range(253)))
        self.assertEqual(run("plan", "make", goals, self.out), (DONE, "", ""))
        status, text, err = run("plan", "show", self.out)
        self.assertEqual((status, err, text.splitlines()[:2], text.splitlines()[204]),
                         (DONE, "", ["# the packet at offset 0: 203 goals", "0 4095"], "# the packet at offset 1029: 50 goals"))
        again, plan = self.file("again", text.encode("ascii")), self.file("plan")
        self.assertEqual((run("plan", "make", again, plan), plan.read_bytes()), ((DONE, "", ""), self.out.read_bytes()))
        one = "# the packet at offset 0: 2 goals\n3 7\n9 255\n"
        for more, said in [(b"", ""), (PING, "# the packet at offset 24 is no Sync Write of goal positions to all devices\n"),
                           (packet(1, 0x83, self.TWO[8:-2]), "# the packet at offset 24 is no Sync Write of goal positions to all devices\n"),
                           (b"\0" + PING, "# no well-formed packet begins at offset 24\n")]:
            self.out.write_bytes(self.TWO + more)
            self.assertEqual(run("plan", "show", self.out), (NO if more else DONE, one + said, ""))
        os.truncate(self.out, 1 << 40)
        self.assertEqual(run("plan", "show", self.out)[0], NO)
        self.assertEqual(run("plan", "show", self.file("none"))[0], FAILED)

    # [L11 W3 W6]
    def test_make(self):
        goals = self.goals("# the north row\n\n9 255  # the far one\n  3\t7\r\n252 -1")
        self.assertEqual(run("plan", "make", goals), (DONE, self.TWO.hex(" ").upper() + "\n", ""))
        self.assertEqual(run("plan", "make", goals, self.out), (DONE, "", ""))
        self.assertEqual((self.out.read_bytes(), self.names()), (self.TWO, ["goals", "out.log"]))
        self.assertEqual(run("plan", "check", goals, self.out), (DONE, f"{self.out}: accepted, 2 goals in 1 packet\n", ""))

    # [W6]
    def test_all_devices(self):
        goals = self.goals("".join(f"{id} {4095 - id}\n" for id in reversed(range(253))))
        status, text, err = run("plan", "make", goals)
        self.assertEqual((status, [len(bytes.fromhex(line)) for line in text.splitlines()], err),
        (DONE, [14 + 5 * 203, 14 + 5 * 50], ""))
        self.out.write_bytes(bytes.fromhex(text))
        self.assertEqual(run("plan", "check", goals, self.out), (DONE, f"{self.out}: accepted, 253 goals in 2 packets\n", ""))

    def test_nothing_wanted(self):
        goals = self.goals("7 -1\n")
        self.assertEqual(run("plan", "make", goals), (DONE, "", ""))
        self.assertEqual(run("plan", "make", goals, self.out), (DONE, "", ""))
        self.assertEqual(self.out.read_bytes(), b"")
        self.assertEqual(run("plan", "check", goals, self.out), (DONE, f"{self.out}: accepted, 0 goals in 0 packets\n", ""))

    # [L12 W2]
    def test_bad_goals(self):
        """What is wrong is told with its line, whether a plan is made or tested, and OUT is as it was."""
        self.out.write_bytes(b"an older one")
        bad = "42, the goal is neither 0 to 4095 nor -1, which is none"
        for text, line, why in [("3 7\n253 1", 2, "the ID is not 0 to 252"), ("-1 7", 1, "the ID is not 0 to 252"),
                                ("1000000000000000000000 7", 1, "the ID is not 0 to 252"), ("# one\n\n3 4096\n", 3, bad),
                                ("3 -2", 1, bad),
                                ("3 1000000000000000000000", 1, bad), ("3 7\n4 8\n3 -1\n", 3, "ID 3 stands in line 1 already"),
                                ("3", 1, "not an ID and a goal"), ("3 #7", 1, "not an ID and a goal"),
                                ("3 7 8", 1, "not an ID and a goal"),
                                ("3 7x", 1, "not an ID and a goal"), ("x 7", 1, "not an ID and a goal"),
                                ("3 - 7", 1, "not an ID and a goal"),
                                ("3 0x7", 1, "not an ID and a goal"), ("3,7", 1, "not an ID and a goal"),
                                ("3 7\n\0\n", 2, "not an ID and a goal")]:
            goals = self.goals(text)
            for words in [["make", goals], ["make", goals, self.out], ["check", goals, self.out]]:
                with self.subTest(text, words=words):
                    self.assertEqual(run("plan", *words), (FAILED, "", f"dxl: {goals}:{line}: {why}\n"))
        self.assertEqual((self.out.read_bytes(), self.names()), (b"an older one", ["goals", "out.log"]))

    # [L12]
    def test_files(self):
        goals = self.goals("3 7\n")
        none = self.file("none")
        missing = f"dxl: {none}: No such file or directory\n"
        for words in [["make", none], ["make", none, self.out], ["check", none, goals], ["check", goals, none]]:
            self.assertEqual(run("plan", *words), (FAILED, "", missing))
        folder = f"dxl: {self.folder.name}: not a regular file\n"
        for words in [["make", self.folder.name], ["make", goals, self.folder.name], ["check", self.folder.name, goals], ["check", goals, self.folder.name]]:
            self.assertEqual(run("plan", *words), (FAILED, "", folder))
        self.assertEqual((goals.read_bytes(), self.names()), (b"3 7\n", ["goals"]))
        with open("/dev/full", "wb") as full:
            ended = subprocess.run([PROGRAM, "plan", "make", str(goals)], stdout=full, stderr=subprocess.PIPE, check=False)
        self.assertEqual((ended.returncode, ended.stderr.startswith(b"dxl: standard output: ")), (FAILED, True))
        closed = run("plan", "make", goals, preexec_fn=lambda: os.close(1))
        self.assertEqual(closed, (FAILED, "", "dxl: standard output: Bad file descriptor\n"))

    # [L11]
    def test_never_over_the_goals(self):
        """The plan is not written over the goals, whatever name leads to them."""
        goals, hard, soft = self.goals("3 7\n"), self.file("hard"), self.file("soft")
        os.link(goals, hard)
        soft.symlink_to("goals")
        for out in [goals, hard, soft]:
            self.assertEqual(run("plan", "make", goals, out),
            (FAILED, "", f"dxl: {out}: the goals and the plan to be written are one file\n"))
        self.assertEqual((goals.read_bytes(), self.names()), (b"3 7\n", ["goals", "hard", "soft"]))

    # [L11]
    def test_complete_or_not_there(self):
        """Whatever goes wrong, OUT is as it was, and no other file stays."""
        goals, pipe = self.goals("3 7\n"), self.file("pipe")
        os.mkfifo(pipe)
        self.out.write_bytes(b"an older one")
        self.out.chmod(0o600)

        def small_files():
            resource.setrlimit(resource.RLIMIT_FSIZE, (10, 10))

        for words, more in [([pipe, self.out], {}), ([goals, pipe], {}), ([goals, self.file("no/out")], {}),
                            ([goals, self.out], {"preexec_fn": small_files})]:
            with self.subTest(words):
                status, text, err = run("plan", "make", *words, **more)
                self.assertEqual((status, text, err.startswith("dxl: ") and err.count("\n")), (FAILED, "", 1))
                self.assertEqual((self.out.read_bytes(), self.names()), (b"an older one", ["goals", "out.log", "pipe"]))
        self.assertEqual(run("plan", "make", goals, self.out), (DONE, "", ""))
        self.assertEqual((len(self.out.read_bytes()), self.out.stat().st_mode & 0o777), (19, 0o600))

    # [L11]
    def test_long_file(self):
        """What stands behind the first thing that is wrong is not read: these files take no room on the disk, and hours to read."""
        goals = self.goals("3 7\n9 255\n")
        for plan in [b"", self.TWO]:
            self.out.write_bytes(plan)
            os.truncate(self.out, 1 << 40)
            why = f"no well-formed packet begins at offset {len(plan)}"
            self.assertEqual(run("plan", "check", goals, self.out), (NO, f"{self.out}: not accepted: {why}\n", ""))

    # [L11 W3-W5 W9]
    def test_not_accepted(self):
        """One thing is wrong; the first is told."""
        goals = self.goals("3 7\n9 255\n")

        def sync_write(*params, to=254):
            return packet(to, 0x83, bytes(params))

        def plan(*entries):
            return sync_write(116, 0, 4, 0, *(byte for id, goal in entries for byte in [id, *struct.pack("<I", goal)]))

        three, nine = plan((3, 7)), plan((9, 255))
        first = "the packet at offset 0: "
        for wrong, why in [(b"", "ID 3 is wanted and does not stand in it"), (three, "ID 9 is wanted and does not stand in it"),
                           (self.TWO + b"\0", "no well-formed packet begins at offset 24"),
                           (b"\0" + self.TWO, "no well-formed packet begins at offset 0"),
                           (self.TWO[:-1] + b"\x11", "no well-formed packet begins at offset 0"),
                           (sync_write(116, 0, 4, 0, 3, 7, 0, 0, 0, to=3), first + "it is for ID 3 and not for all devices"),
                           (sync_write(104, 0, 4, 0, 3, 7, 0, 0, 0), first + "it is no Sync Write of goal positions"),
                           (sync_write(), first + "it is no Sync Write of goal positions"), (plan(), first + "its list is empty"),
                           (sync_write(116, 0, 4, 0, 3, 7, 0, 0), first + "the last entry of its list is cut short"),
                           (plan((3, 7), (253, 1)), first + "its list has 253, which is no device's ID"),
                           (plan((3, 7), (3, 7)), first + "its list has ID 3 twice"), (plan((3, 7),
                           (4, 7)), first + "no goal is wanted for ID 4"),
                           (plan((3, 8)), first + "ID 3 has the goal 8 and not 7"),
                           (plan((3, 0xFFFFFFFF)), first + "ID 3 has the goal 4294967295 and not 7"),
                           (three + nine + three, f"the packet at offset {len(three + nine)}: ID 3 stands in a packet before it too")]:
            with self.subTest(why):
                self.out.write_bytes(wrong)
                self.assertEqual(run("plan", "check", goals, self.out), (NO, f"{self.out}: not accepted: {why}\n", ""))
        self.out.write_bytes(nine + three)
        self.assertEqual(run("plan", "check", goals, self.out), (DONE, f"{self.out}: accepted, 2 goals in 2 packets\n", ""))

    def test_words(self):
        status, text, err = run("plan", "--help")
        self.assertEqual((status, err, text.startswith("usage: dxl plan make GOALS [OUT]")), (DONE, "", True))
        for name, operand in [("make", "GOALS"), ("check", "GOALS"), ("show", "PLAN")]:
            status, more, err = run("plan", name, "--help")
            self.assertEqual((status, err, more.startswith(f"usage: dxl plan {name} {operand}")), (DONE, "", True))
            self.assertEqual(run("plan", name), (USAGE, "", f"dxl: plan {name}: {operand} is missing\n" + usage_of("plan", name)))
            extra = "b" if name == "show" else "c"
            self.assertEqual(run("plan", name, "a", "b", "c"),
            (USAGE, "", f"dxl: {extra}: one word too many\n" + usage_of("plan", name)))
        for words, said in [([], "plan: a command is missing"), (["none"], "none: no such command")]:
            self.assertEqual(run("plan", *words), (USAGE, "", f"dxl: {said}\n" + usage_of("plan")))
        self.assertEqual(run("plan", "check", "a"), (USAGE, "", "dxl: plan check: PLAN is missing\n" + usage_of("plan", "check")))
        self.assertEqual(self.names(), [])

    def test_sample(self):
        """What README.md shows."""
        goals = self.goals("3 7      # ID and goal\n9 255\n")
        made = run("plan", "make", goals)[1]
        self.assertEqual(run("plan", "make", goals, self.out), (DONE, "", ""))
        check = run("plan", "check", goals, self.out)[1].replace(str(self.out), "row.plan")
        sample = ("$ cat row.txt\n" + goals.read_text(encoding="ascii") + "$ dxl plan make row.txt\n" + made + "$ dxl plan make row.txt row.plan\n"
                  + "$ dxl plan check row.txt row.plan\n" + check)
        self.assertIn(sample, Path("README.md").read_text(encoding="utf-8"))


class Words(Folder):
    def test_help(self):
        status, text, err = run("--help")
        self.assertEqual((status, err, text.splitlines()[0].startswith("usage: dxl show FILE...")), (DONE, "", True))
        self.assertEqual(run("log", "--help")[1].splitlines()[0].split()[:4], ["usage:", "dxl", "log", "write"])
        for name in ["write", "check", "list", "show", "extract", "last", "salvage"]:
            status, more, err = run("log", name, "--help")
            self.assertEqual((status, err, more.startswith(f"usage: dxl log {name} ")), (DONE, "", True))
            first = "OUT" if name == "write" else "LOG"
            self.assertEqual(run("log", name), (USAGE, "", f"dxl: log {name}: {first} is missing\n" + usage_of("log", name)))
            self.assertEqual(run("log", name, self.out, "--help"), (DONE, more, ""))
        self.assertEqual(self.names(), [])
        header = Path("include/mednukals.h").read_text(encoding="utf-8")
        self.assertIn(f'#define DXL_VERSION "{run("--version")[1].split()[1]}"\n', header)

    def test_other_words(self):
        """What is wrong stands in one line above the usage."""
        no_id = "not an ID: 0 to 252, or 254 for all devices"
        no_number = "not a number; an ID is 0 to 252, or 254 for all devices"
        for words, said in [([], "a command is missing"), (["none"], "none: no such command"),
                            (["log"], "log: a command is missing"),
                            (["log", "none"], "none: no such command"), (["log", "check"], "log check: LOG is missing"),
                            (["log", "check", "a", "b"], "b: one word too many"),
                            (["log", "write", "a"], "log write: CAPTURE is missing"),
                            (["log", "last", "a", "256"], f"256: {no_id}"), (["log", "last", "a", "300"], f"300: {no_id}"),
                            (["log", "last", "a", "99999999999999999999"], f"99999999999999999999: {no_id}"),
                            (["log", "last", "a", "0x07"], "0x07: an ID is given in decimal: 0 to 252, or 254 for all devices"),
                            (["log", "last", "a", "abc"], f"abc: {no_number}"), (["log", "last", "a", ""], f": {no_number}"),
                            (["log", "last", "a", "1", "2"], "2: one word too many"),
                            (["log", "salvage", "a"], "log salvage: OUT is missing"),
                            (["log", "salvage", "a", "b", "c"], "c: one word too many"), (["show"], "show: FILE is missing"),
                            (["timeline", "a", "b"], "b: one word too many"),
                            (["log", "extract", "a", "1"], "log extract: OUT is missing")]:
            with self.subTest(words):
                known = [word for word in words[:2] if word in ("log", "check", "write", "last", "salvage", "show", "timeline", "extract")]
                self.assertEqual(run(*words), (USAGE, "", f"dxl: {said}\n" + usage_of(*known)))
        for word, why in [("x", "not a number"), ("0x1", "numbers are given in decimal"), ("99999999999", "too large")]:
            self.assertEqual(run("log", "show", "a", word), (USAGE, "", f"dxl: {word}: {why}\n" + usage_of("log", "show")))
        self.assertEqual(self.names(), [])

    # [L18]
    def test_names(self):
        """What would control a terminal, and what is not UTF-8, is written out; other names are as they are."""
        for name, shown in [(b"a\x1b[2J\n\x7f", "a\\x1B[2J\\x0A\\x7F"),
                            ("\u00fc\u4e16\U0001f600".encode(), "\u00fc\u4e16\U0001f600"),
                            (b"\xc2\x9b31m", "\\xC2\\x9B31m"), (b"\xff\xc0\xaf", "\\xFF\\xC0\\xAF"),
                            (b"\xed\xa0\x80", "\\xED\\xA0\\x80"),
                            (b"\xe2\x82", "\\xE2\\x82"), (b"\xf4\x90\x80\x80", "\\xF4\\x90\\x80\\x80")]:
            ended = subprocess.run([PROGRAM, "show", name], capture_output=True, timeout=PATIENCE, check=False)
            self.assertEqual((ended.returncode, ended.stderr), (FAILED, f"dxl: {shown}: No such file or directory\n".encode()))
        path = self.file("a\tb", PING)
        self.assertEqual(run("log", "write", self.out, path)[0], DONE)
        self.assertEqual(run("show", path, path)[1].splitlines()[0], str(path).replace("\t", "\\x09") + ":")

    # [L18]
    def test_standard_input(self):
        log = self.file("log")
        for captures, given in [(["-"], PING), ([self.file("b", PING_2), "-"], PING)]:
            ended = subprocess.run([PROGRAM, "log", "write", str(log), *map(str, captures)], input=given, capture_output=True, check=False)
            self.assertEqual((ended.returncode, ended.stdout, ended.stderr), (DONE, b"", b""))
            self.assertEqual(log.read_bytes()[1032 + 8 * len(captures):], PING_2[:10 * (len(captures) - 1)] + PING)
        log_bytes = log.read_bytes()

        def given(*words):
            ended = subprocess.run([PROGRAM, *map(str, words)], input=log_bytes, capture_output=True, check=False)
            return ended.returncode, ended.stdout.decode(), ended.stderr.decode()

        self.assertEqual(given("log", "check", "-"), (DONE, "standard input: sound, 2 segments in 1068 bytes\n", ""))
        self.assertEqual(given("log", "last", "-", "1"), (DONE, "segment 1 offset 0\n", ""))
        self.assertEqual(given("log", "extract", "-", "0", self.out), (DONE, "", ""))
        self.assertEqual(self.out.read_bytes(), PING_2)
        self.assertEqual(given("log", "salvage", "-", self.out)[0], DONE)
        self.assertEqual((self.out.read_bytes(), run("plan", "make", "-", input="3 7\n")[0]), (log_bytes, DONE))
        no_output = "a file is written, and not standard output; one of this name is given with ./ before it"
        for words in [["log", "write", "-", log], ["log", "salvage", log, "-"], ["log", "extract", log, "0", "-"], ["plan", "make", self.file("g", b"3 7"), "-"]]:
            self.assertEqual(run(*words), (FAILED, "", f"dxl: -: {no_output}\n"))

    # [L9]
    def test_folder_is_synced(self):
        """The file before it gets its name, and the folder after that."""
        library = self.file("synced.so")
        subprocess.run([os.environ.get("CC", "gcc"), "-shared", "-fPIC", "-o", library, "tests/c/synced.c"], check=True, timeout=PATIENCE)
        for out in [self.out, Path("only.log")]:
            place = {} if out == self.out else {"cwd": self.folder.name}
            ended = subprocess.run([str(Path(PROGRAM).resolve()), "log", "write", str(out), str(Path("examples/ping.bin").resolve())],
                                   env={**os.environ, "LD_PRELOAD": str(library.resolve())}, capture_output=True, check=False, **place)
            self.assertEqual((ended.returncode, ended.stderr), (DONE, b"file\nrename\nfolder\n"))

    # [L8]
    def test_options(self):
        """No word that begins with - is taken for a name; help is given wherever it is asked for."""
        goals = self.file("goals", b"3 7\n")
        for words, option in [(["log", "write", "--to", goals], "--to"), (["log", "check", "--"], "--"),
                              (["log", "last", goals, "-1"], "-1"),
                              (["log", "salvage", goals, "-o"], "-o"), (["plan", "make", goals, "--hex"], "--hex"),
                              (["plan", "check", goals, "--all", goals], "--all"),
                              (["log", "show", goals, "1", "--gap", "7"], "--gap")]:
            with self.subTest(words):
                more = run(*words[:2], "--help")[1]
                said = f"dxl: {option}: no such option; a file of this name is given with ./ before it\n"
                self.assertEqual(run(*words), (USAGE, "", said + usage_of(*words[:2])))
                self.assertEqual(run(*words[:2], goals, "--help"), (DONE, more, ""))
                self.assertEqual(run(*words[:2], goals, goals, "-h"), (DONE, more, ""))
        self.assertEqual(self.names(), ["goals"])

    def test_sample(self):
        """What README.md shows."""
        words = ["examples/capture.bin", "examples/exchange.bin"]
        self.assertEqual(run("log", "write", self.out, *words), (DONE, "", ""))
        check = run("log", "check", self.out)[1].replace(str(self.out), "shift.log")
        last = run("log", "last", self.out, 2)[1]
        sample = ("$ dxl log write shift.log examples/capture.bin examples/exchange.bin\n$ dxl log check shift.log\n" + check
                  + "$ dxl log last shift.log 2\n" + last)
        self.assertIn(sample, Path("README.md").read_text(encoding="utf-8"))
        cut, whole = self.file("cut.log", self.out.read_bytes()[:-1]), self.file("whole.log")
        report = run("log", "salvage", cut, whole)[1].replace(f"{self.folder.name}/", "")
        self.assertIn("$ dxl log salvage cut.log whole.log\n" + report, Path("README.md").read_text(encoding="utf-8"))


class Progress(Folder):
    """Work that takes long is told."""

    def long_work(self, stderr):
        capture = self.file("capture", LONG)
        return subprocess.Popen([PROGRAM, "log", "write", str(self.out), str(capture)], stderr=stderr)

    def said(self, program, heard, wanted):
        return heard_until(program, heard, wanted, lambda: len(self.names()) > 1)

    def test_on_a_terminal(self):
        ours, theirs = pty.openpty()
        program = self.long_work(theirs)
        os.close(theirs)
        text = self.said(program, ours, b"3 s")
        os.close(ours)
        self.assertTrue(text.startswith(b"\rdxl: writing the log, 2 s\rdxl: writing the log, 3 s"), text)

    def test_elsewhere(self):
        ours, theirs = os.pipe()
        program = self.long_work(theirs)
        os.close(theirs)
        text = self.said(program, ours, b"20 s\n")
        os.close(ours)
        self.assertEqual(text, b"dxl: writing the log, 10 s\ndxl: writing the log, 20 s\n")


if __name__ == "__main__":
    sys.exit(suite.run(usage=None if PROGRAM else "cli_test.py PROGRAM", done="dxl"))
