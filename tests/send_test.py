"""Runs dxl send: usage send_test.py DXL CHECKED BOARD UART_PTY, in the repository's root

The tool talks to the example boards, and to a scripted device on a pseudo-terminal that damages, echoes, delays, answers for others,
is silent or goes away. What it sends is compared byte for byte with the packets of examples/talk.py, which has an encoder of its own.
CHECKED is the tool with the compiler's checks of memory. Answers come at once and are waited for with generous bounds; short ones
stand only where nobody answers, so that a busy machine makes this slower and nothing else.
"""
import fcntl
import os
import pty
import random
import re
import select
import signal
import struct
import subprocess
import sys
import tempfile
import termios
import threading
import time
import tty
import unittest
from pathlib import Path

import suite

sys.path.append("examples")
from talk import (ACTION, ALL, BULK_READ, BULK_WRITE, GOAL_POSITION, GOAL_VELOCITY, HOMING_OFFSET, LAMP, MODEL_AND_FIRMWARE, PING,
                  PRESENT_POSITION, READ, REBOOT, REG_WRITE, SYNC_READ, SYNC_WRITE, TORQUE, WRITE, at, damaged, packet, status, word)

DXL, CHECKED, BOARD, UART_PTY = sys.argv[1:] if len(sys.argv) == 5 else ("", "", "", "")
PATIENCE = 60  # seconds for one command
LONG = ["--timeout", "20000"]  # for an answer that comes
QUICK = ["--timeout", "1", "--baud", "4000000"]  # for a scan, which asks again who is late
SHORT = ["--timeout", "20", "--retries", "0"]  # for one that does not
DONE, NO, USAGE, FAILED = 0, 1, 2, 3
RESET = 0x06
FOUND = "Status: ok; model number = 1030, firmware version = 38"
NO_ACCESS = "error 07 (no register there, read only, or locked while torque is on)"
TCGETS2, TIOCSCTTY = 0x802C542A, 0x540E


def run(*words, program=None, **more):
    ended = subprocess.run([program or DXL, "send", *map(str, words)], capture_output=True, timeout=PATIENCE, text=True, check=False, **more)
    return ended.returncode, ended.stdout, ended.stderr


class Device:
    """A scripted device as long as the block: `answer`, called with a packet and how many came before it, returns what it says: bytes,
    or several with seconds to wait between them. `heard` has the packets that came."""

    def __init__(self, answer):
        self.answer, self.heard, self.ends = answer, [], False

    def __enter__(self):
        self.ours, self.theirs = os.openpty()
        tty.setraw(self.theirs)
        os.set_blocking(self.ours, False)
        self.path = os.ttyname(self.theirs)
        self.thread = threading.Thread(target=self.listen)
        self.thread.start()
        return self

    def __exit__(self, *_):
        self.ends = True
        self.thread.join()
        self.hang_up()
        os.close(self.theirs)

    def hang_up(self):
        if self.ours is not None:
            os.close(self.ours)
        self.ours = None

    def listen(self):
        came = b""
        while self.ours is not None:
            if not select.select([self.ours], [], [], 0.01)[0]:
                if self.ends:  # and all that was sent is heard
                    break
                continue
            came += os.read(self.ours, 4096)
            while len(came) >= 7 and len(came) >= 7 + int.from_bytes(came[5:7], "little"):
                size = 7 + int.from_bytes(came[5:7], "little")
                self.heard.append(came[:size])
                self.say(self.answer(came[:size], len(self.heard) - 1))
                came = came[size:]

    def say(self, parts):
        for part in [parts] if isinstance(parts, bytes) else parts:
            if self.ends:
                break
            if part == "hang up":
                self.hang_up()
            elif isinstance(part, bytes):
                self.write(part)
            else:
                time.sleep(part)

    def write(self, part):
        try:
            os.write(self.ours, part)
        except BlockingIOError:  # nobody reads any more
            pass


def silent(_packet, _before):
    return b""


def obliging(instruction, _before):
    """Does what it is told: a status with as much data as was asked for."""
    device, code, params = instruction[4], instruction[7], instruction[8:-2]
    if device == ALL and code == SYNC_READ:
        return b"".join(status(listed, 0, bytes(params[2])) for listed in params[4:])
    if device == ALL and code == BULK_READ:
        return b"".join(status(params[i], 0, bytes(params[i + 3])) for i in range(0, len(params), 5))
    if device == ALL:
        return b""
    return status(device, 0, MODEL_AND_FIRMWARE if code == PING else bytes(int.from_bytes(params[2:4], "little")) if code == READ else b"")


def saying(*replies):
    """Answers its packets with these, in turn."""
    return lambda _packet, before: replies[before] if before < len(replies) else b""


class Board:
    """An example board as long as the block."""

    def __init__(self, *words):
        self.words = [*words, "--seconds", str(PATIENCE)]

    def __enter__(self):
        self.process = subprocess.Popen(self.words, stdout=subprocess.PIPE, stderr=subprocess.DEVNULL, text=True)
        self.path = re.fullmatch(r"line: (/dev/\S+)\n", self.process.stdout.readline()).group(1)
        return self

    def __exit__(self, *_):
        self.process.kill()
        self.process.wait()
        self.process.stdout.close()


class Boards(unittest.TestCase):
    """As a new user would."""

    def talk(self, path):
        """Words, how it ends, and what it prints."""
        for words, ends, said in [
                (f"{' '.join(QUICK)} scan", DONE, FOUND), ("ping 1", DONE, FOUND), ("write 1 torque-enable 1", DONE, "Status: ok"),
                ("write 1 goal-position 512", DONE, "Status: ok"), ("read 1 goal_position", DONE, "Status: ok; goal position = 512"),
                ("write 1 116 513", DONE, "Status: ok"), ("read 1 GOAL-POSITION", DONE, "Status: ok; goal position = 513"),
                ("write 1 goal-velocity -7", DONE, "Status: ok"), ("read 1 104", DONE, "Status: ok; goal velocity = -7"),
                ("read 1 104 4", DONE, "Status: ok; goal velocity = -7"),
                ("read 1 104:2", DONE, "Status: ok; goal velocity (only bytes 104 to 105) = F9 FF"),
                ("read 1 max-position 8", DONE, "Status: ok; max position = 4095, min position = 0"),
                ("read 1 31 2", NO, f"Status: {NO_ACCESS}"), ("write 1 present-position 1", NO, f"Status: {NO_ACCESS}"),
                ("write 1 goal-position 5000", NO, "Status: error 04 (a value outside its range)"),
                ("write 1 104:2 1", NO, "Status: error 05 (a wrong length, or a register in part)"),
                ("write 1 homing-offset 1", NO, f"Status: {NO_ACCESS}"), ("write 1 torque-enable 0", DONE, "Status: ok"),
                ("write 1 homing-offset -131073", DONE, "Status: ok"),
                ("read 1 homing-offset", DONE, "Status: ok; homing offset = -131073"),
                ("write 1 max-position 100", NO, "Status: error 06 (the goal position would lie outside the limits, or these have changed)"),
                ("reg-write 1 goal-position 77", DONE, "Status: ok"), ("read 1 registered-instruction", DONE, "Status: ok; registered instruction = 1"),
                ("action 1", DONE, "Status: ok"), ("read 1 goal-position", DONE, "Status: ok; goal position = 77"),
                ("action 1", NO, "Status: error 02 (undefined instruction, or Action with nothing registered)"),
                ("sync read goal-position 1", DONE, "Status: ok; goal position = 77"),
                ("bulk read 1 lamp", DONE, "Status: ok; lamp = 0"), ("reboot 1", DONE, "Status: ok"),
                ("read 1 goal-position", DONE, "Status: ok; goal position = 0"), ("reset 1 but-id-and-baud", DONE, "Status: ok"),
                ("read 1 homing-offset", DONE, "Status: ok; homing offset = 0")]:
            with self.subTest(words):
                self.assertEqual(run(*LONG, path, *words.split()), (ends, f"ID 1    {said}\n", ""))
        for words, said in [("write 254 lamp 1", "Write"), ("sync write goal-position 1 300 2 400", "Sync Write"),
                            ("bulk write 1 goal-velocity 5 2 lamp 0", "Bulk Write")]:
            self.assertEqual(run(path, *words.split()), (DONE, f"all     {said} sent, which no device answers\n", ""))
        for register, value in [("lamp", 1), ("goal-position", 300), ("goal-velocity", 5)]:
            said = f"Status: ok; {register.replace('-', ' ')} = {value}"
            self.assertEqual(run(*LONG, path, "read", 1, register), (DONE, f"ID 1    {said}\n", ""))
        with tempfile.TemporaryDirectory(dir="build") as folder:
            plan = Path(folder, "row.plan")
            plan.write_bytes(packet(ALL, SYNC_WRITE, word(GOAL_POSITION) + word(4) + bytes([1]) + word(900, 4) + bytes([9]) + word(1, 4)))
            self.assertEqual(run(path, "plan", plan), (DONE, f"{plan}: sent, 2 goals in 1 packet\n", ""))
        self.assertEqual(run(*LONG, path, "read", 1, "goal-position"), (DONE, "ID 1    Status: ok; goal position = 900\n", ""))

    # [L19]
    def test_board(self):
        with Board(BOARD) as board:
            self.talk(board.path)

    # [L19]
    def test_uart_board(self):
        with Board(UART_PTY) as board:
            self.talk(board.path)

    def test_another_id(self):
        """The ID is written too, and the device answers with the old one."""
        with Board(BOARD, "--id=7") as board:
            self.assertEqual(run(*LONG, board.path, "write", 7, "ID", 9), (DONE, "ID 7    Status: ok\n", ""))
            self.assertEqual(run(*QUICK, board.path, "scan"), (DONE, f"ID 9    {FOUND}\n", ""))
            said = f"dxl: {board.path}: no answer from ID 7 in 20 ms\n"
            self.assertEqual(run(*SHORT, board.path, "ping", 7), (FAILED, "", said))
            self.assertEqual(run("--baud", 4000000, board.path, "ping", 254), (DONE, f"ID 9    {FOUND}\n", ""))

    def test_sample(self):
        """What README.md shows."""
        page = Path("README.md").read_text(encoding="utf-8")
        sample = re.search(r"^```\n(\$ dxl send .*?)^```$", page, flags=re.M | re.S).group(1)
        with Board(BOARD) as board:
            shown = ""
            for command in re.findall(r"^\$ dxl send /dev/ttyUSB0 (.*)$", sample, flags=re.M):
                wait = QUICK if command == "scan" else [] if command == "ping 2" else LONG
                shown += f"$ dxl send /dev/ttyUSB0 {command}\n" + "".join(run(*wait, board.path, *command.split())[1:])
            self.assertEqual(sample, shown.replace(board.path, "/dev/ttyUSB0"))


class Sent(unittest.TestCase):
    """The packets, byte for byte."""

    def sent(self, *words, program=CHECKED, **more):
        with Device(obliging) as device:
            self.assertEqual(run(*LONG, device.path, *words, program=program, **more)[::2], (DONE, ""), words)
        return b"".join(device.heard)

    # [L19]
    def test_packets(self):
        entries = bytes([2]) + word(LAMP) + word(1), bytes([1]) + word(GOAL_POSITION) + word(4)
        for words, wanted in [
                (["ping", 1], packet(1, PING)), (["ping", 0], packet(0, PING)), (["ping", 252], packet(252, PING)),
                (["read", 1, "present-position"], packet(1, READ, word(PRESENT_POSITION) + word(4))),
                (["read", 3, 300, 20], packet(3, READ, word(300) + word(20))),
                (["read", 3, "65535:1000"], packet(3, READ, word(65535) + word(1000))),
                (["write", 1, "lamp", 255], packet(1, WRITE, at(LAMP, 255, 1))),
                (["write", 1, "Goal Position", 2147483647], packet(1, WRITE, at(GOAL_POSITION, 2147483647))),
                (["write", 1, "goal-velocity", -2147483648], packet(1, WRITE, at(GOAL_VELOCITY, -2147483648))),
                (["write", 1, "goal-velocity", -1], packet(1, WRITE, at(GOAL_VELOCITY, -1))),
                (["write", 1, "homing-offset", -131073], packet(1, WRITE, at(HOMING_OFFSET, -131073))),
                (["write", 1, "300:1", -128], packet(1, WRITE, at(300, -128, 1))),
                (["write", 1, "300:2", 65535], packet(1, WRITE, at(300, 65535, 2))),
                (["write", 1, "300:4", 4294967295], packet(1, WRITE, at(300, 4294967295))),
                (["write", ALL, "torque-enable", 0], packet(ALL, WRITE, at(TORQUE, 0, 1))),
                (["reg-write", 1, "goal-position", 5], packet(1, REG_WRITE, at(GOAL_POSITION, 5))),
                (["reg-write", ALL, "goal-position", 5], packet(ALL, REG_WRITE, at(GOAL_POSITION, 5))),
                (["action", 1], packet(1, ACTION)), (["action", ALL], packet(ALL, ACTION)),
                (["reboot", 1], packet(1, REBOOT)), (["reset", 1, "all"], packet(1, RESET, b"\xff")),
                (["reset", 1, "but-id"], packet(1, RESET, b"\x01")), (["reset", ALL, "but-id-and-baud"], packet(ALL, RESET, b"\x02")),
                (["sync", "read", "lamp", 7, 1], packet(ALL, SYNC_READ, word(LAMP) + word(1) + bytes([7, 1]))),
                (["sync", "write", "lamp", 7, 1, 2, 0], packet(ALL, SYNC_WRITE, word(LAMP) + word(1) + bytes([7, 1, 2, 0]))),
                (["bulk", "read", 2, "lamp", 1, "goal-position"], packet(ALL, BULK_READ, b"".join(entries))),
                (["bulk", "write", 2, "lamp", 1, 1, "goal-position", -9],
                 packet(ALL, BULK_WRITE, entries[0] + b"\x01" + entries[1] + word(-9, 4)))]:
            with self.subTest(words):
                self.assertEqual(self.sent(*words), wanted)

    # [L19]
    def test_plan(self):
        """As written by the tool and as hex, from a file and from standard input; one of two packets; an empty one."""
        with tempfile.TemporaryDirectory(dir="build") as folder:
            goals, plan = Path(folder, "goals"), Path(folder, "plan")
            for text, count, packets in [("3 7\n9 255\n", 2, 1), ("".join(f"{i} {i}\n" for i in range(253)), 253, 2), ("", 0, 0)]:
                goals.write_text(text, encoding="ascii")
                subprocess.run([DXL, "plan", "make", goals, plan], check=True, timeout=PATIENCE)
                printed = subprocess.run([DXL, "plan", "make", goals], check=True, timeout=PATIENCE, capture_output=True, text=True).stdout
                said = f"sent, {count} goals in {packets} packet{'' if packets == 1 else 's'}\n" if count else "no goals in it, and nothing sent\n"
                with Device(silent) as device:
                    self.assertEqual(run(device.path, "plan", plan, program=CHECKED), (DONE, f"{plan}: {said}", ""))
                    self.assertEqual(run(device.path, "plan", "-", input=printed), (DONE, f"standard input: {said}", ""))
                self.assertEqual(b"".join(device.heard), plan.read_bytes() * 2)

    # [L19]
    def test_plan_refused(self):
        """Nothing is sent, and no line is opened."""
        good = packet(ALL, SYNC_WRITE, word(GOAL_POSITION) + word(4) + bytes([3]) + word(7, 4))
        first = "not sent: no well-formed packet begins at offset 0"
        range_ = packet(ALL, SYNC_WRITE, word(GOAL_POSITION) + word(4) + bytes([3]) + word(4096, 4))
        goals = "not sent: a list of goals is no plan; 'dxl plan make' makes one of it"
        with tempfile.TemporaryDirectory(dir="build") as folder:
            plan = Path(folder, "plan")
            for contents, ends, why in [
                    (good + good, NO, "not sent: the packet at offset 19: ID 3 stands in a packet before it too"),
                    (good + packet(1, PING), NO, "not sent: the packet at offset 19: it is for ID 1 and not for all devices"),
                    (good + b"\x00", NO, "not sent: no well-formed packet begins at offset 19"),
                    (damaged(good), NO, first),
                    (range_, NO, "not sent: the packet at offset 0: no goal is wanted for ID 3"),
                    (b"10 20\n", NO, goals), (b"# a row\n\n 1 512\n", NO, goals), (b"#", DONE, ""), (b"0xFF\n", NO, first),
                    (b"FF FG\n", FAILED, "1: not bytes in hex")]:
                plan.write_bytes(contents)
                said = f"dxl: {plan}:{'' if why[0] == '1' else ' '}{why}\n" if why else "dxl: nothing/there: No such file or directory\n"
                self.assertEqual(run("nothing/there", "plan", plan, program=CHECKED), (ends or FAILED, "", said))
            self.assertEqual(run("nothing/there", "plan", f"{folder}/none")[0], FAILED)

    def test_hex(self):
        """What is sent is shown too."""
        ping, reply = packet(1, PING), status(1, 0, MODEL_AND_FIRMWARE)
        with Device(obliging) as device:
            said = f">  ID 1    Ping  | {ping.hex(' ').upper()}\n<  ID 1    {FOUND}  | {reply.hex(' ').upper()}\n"
            self.assertEqual(run(*LONG, "--hex", device.path, "ping", 1, program=CHECKED), (DONE, said, ""))


class Heard(unittest.TestCase):
    """What comes."""

    def heard(self, words, *replies, options=(), program=CHECKED):
        """How it ends and what it says, without the line's name; and how many packets came."""
        with Device(saying(*replies)) as device:
            code, output, errors = run(*(options or LONG), device.path, *words, program=program)
        self.count = len(device.heard)
        return code, output, errors.replace(f"dxl: {device.path}: ", "")

    # [L20]
    def test_as_show_does(self):
        """Each error, the alert and registers, in the words of dxl show for the same bytes; that data are missing is said besides."""
        data = [b"", b"\x01", bytes(range(8)), b"\xff\xff\xfd\xff"]
        for words, sent in [(["ping", 1], packet(1, PING)), (["read", 1, "goal-position"], packet(1, READ, word(GOAL_POSITION) + word(4))),
                            (["write", 1, "lamp", 1], packet(1, WRITE, at(LAMP, 1, 1)))]:
            for reply in [*(status(1, error) for error in (0, 1, 2, 4, 5, 6, 7, 0x80, 0x87)), *(status(1, 0, part) for part in data),
                          status(1, 0x80, bytes(4)), status(1, 0, MODEL_AND_FIRMWARE), packet(1, 0x55)]:
                with self.subTest(words=words, reply=reply):
                    shown = subprocess.run([DXL, "show", "-"], input=sent + reply, capture_output=True, check=True, timeout=PATIENCE)
                    line = shown.stdout.decode().splitlines()[1]
                    wanted = re.sub(r" \[stuffed: 1 FD\]$", "", line).split("  <  ")[1]
                    if words[0] != "write" and reply in (status(1), status(1, 0x80)):
                        wanted = wanted.replace(" [", " (not as many bytes of data as were asked for) [")
                    code, output, errors = self.heard(words, reply, program=DXL)
                    name = {"ping": "Ping", "read": "Read", "write": "Write"}[words[0]]
                    self.assertEqual((output.rstrip("\n") + f" [to the {name} at 0]", errors), (wanted, ""))
                    good = re.fullmatch(r"ID 1    Status: ok(, alert \(hardware error is not 0\))?(; [\w ,=-]+)?\n", output)
                    self.assertEqual(code, DONE if good else NO, output)

    # [L20]
    def test_wrong_length(self):
        """A status with other data than was asked for is not taken for a good answer, nor one with none."""
        note = "(not as many bytes of data as were asked for)"
        for words, n in [(["ping", 1], 3), (["read", 1, "goal-position"], 4), (["sync", "read", "lamp", 1], 1), (["bulk", "read", 1, "lamp"], 1)]:
            self.assertEqual(self.heard(words, status(1)), (NO, f"ID 1    Status: ok {note}\n", ""))
            self.assertEqual(self.heard(words, status(1, 0, bytes(n + 1))), (NO, f"ID 1    Status: ok; {'00 ' * (n + 1)}{note}\n", ""))

    # [L20]
    def test_echo(self):
        """What was sent comes back first, and once more damaged."""
        ping = packet(1, PING)
        good = status(1, 0, MODEL_AND_FIRMWARE)
        self.assertEqual(self.heard(["ping", 1], ping + good), (DONE, f"ID 1    {FOUND}\n", ""))
        code, output, errors = self.heard(["ping", 1], damaged(ping) + good)
        self.assertEqual((code, output, self.count), (DONE, f"ID 1    {FOUND}\n", 1))
        self.assertRegex(errors, r"^ID 1: bad checksum .* of 10 bytes that say: Ping\n$")
        sync = packet(ALL, SYNC_READ, word(LAMP) + word(1) + bytes([1, 2]))
        self.assertEqual(self.heard(["sync", "read", "lamp", 1, 2], sync + status(1, 0, b"\x01") + status(2, 0, b"\x00")),
                         (DONE, "ID 1    Status: ok; lamp = 1\nID 2    Status: ok; lamp = 0\n", ""))

    # [L20]
    def test_noise(self):
        """Before the answer, also such as promises a long packet: that waits until it is late."""
        good = status(1, 0, MODEL_AND_FIRMWARE)
        self.assertEqual(self.heard(["ping", 1], b"\x00\x55" + good),
                         (DONE, f"ID 1    {FOUND}\n", "noise, 2 bytes: nothing in it begins a packet\n"))
        promise = bytes.fromhex("FF FF FD 00 07 00 04")
        code, output, errors = self.heard(["ping", 1], promise + good, options=["--timeout", "300", "--retries", "0"])
        self.assertEqual((code, output), (DONE, f"ID 1    {FOUND}\n"))
        self.assertRegex(errors, r"^noise, 7 bytes: cut off: 21 of 1031 bytes of a packet stand at 10\n$")

    # [L20]
    def test_pieces(self):
        """A status byte by byte, with waits."""
        parts = [part for byte in status(1, 0, MODEL_AND_FIRMWARE) for part in (bytes([byte]), 0.003)]
        self.assertEqual(self.heard(["ping", 1], parts), (DONE, f"ID 1    {FOUND}\n", ""))

    # [L21]
    def test_damaged_answers(self):
        """Asked again, as often as it may be."""
        good = status(1, 0, MODEL_AND_FIRMWARE)
        wait = ["--timeout", "100"]
        for replies, ends, count in [([damaged(good), good], DONE, 2), ([damaged(good)] * 2 + [good], DONE, 3), ([damaged(good)] * 4, FAILED, 3)]:
            code, output, errors = self.heard(["ping", 1], *replies, options=wait)
            self.assertEqual((code, output, self.count), (ends, "" if ends else f"ID 1    {FOUND}\n", count))
            lines = errors.splitlines()
            self.assertRegex(lines[0], r"^ID 1: bad checksum .. .. where .. .. would be right, of 14 bytes that say: Status: ok, 06 04 26$")
            last = [] if ends == DONE else ["no answer from ID 1 in 100 ms, asked 3 times; what came was damaged"]
            self.assertEqual((len(lines), lines[count:] if ends else lines[count - 1:]), (count + 1 if ends else count - 1, last))
        self.assertEqual(self.heard(["ping", 1], options=["--timeout=20", "--retries=4"]),
                         (FAILED, "", "no answer from ID 1 in 20 ms, asked 5 times\n"))
        self.assertEqual(self.count, 5)

    # [L21]
    def test_checksum_refused(self):
        """By error 03 the device has not carried it out: what may be repeated is, at once."""
        refused, good = status(1, 3), status(1)
        self.assertEqual(self.heard(["write", 1, "lamp", 1], refused, refused, good),
                         (DONE, "ID 1    Status: ok\n", "ID 1: Status: error 03 (wrong checksum) [to the Write at 0]\n"
                          "ID 1: Status: error 03 (wrong checksum) [to the Write at 24]\n"))
        code, output, errors = self.heard(["write", 1, "lamp", 1], refused, refused, refused)
        self.assertEqual((code, output, self.count, len(errors.splitlines())), (NO, "ID 1    Status: error 03 (wrong checksum)\n", 3, 2))
        heard = self.heard(["write", 1, "lamp", 1], damaged(packet(1, WRITE, at(LAMP, 1, 1))) + refused, good)  # with a damaged echo
        self.assertEqual((*heard[:2], self.count, len(heard[2].splitlines())), (DONE, "ID 1    Status: ok\n", 2, 2))
        self.assertNotIn("unexpected", heard[2])
        self.assertEqual(self.heard(["reboot", 1], refused, good), (NO, "ID 1    Status: error 03 (wrong checksum)\n", ""))
        self.assertEqual(self.count, 1)

    # [L21]
    def test_silence(self):
        """What twice is not the same as once is sent once."""
        for words, count in [("ping 1", 2), ("read 1 lamp", 2), ("write 1 lamp 1", 2), ("sync read lamp 1", 2), ("bulk read 1 lamp", 2),
                             ("reg-write 1 lamp 1", 1), ("action 1", 1), ("reboot 1", 1), ("reset 1 all", 1)]:
            name = words.split()[0].title().replace("-", " ").replace("Reset", "Factory Reset")
            more = ", asked 2 times" if count == 2 else f"; the {name}, which is sent once, may have been carried out"
            more += "; the Write may have been carried out" if words.startswith("write") else ""
            self.assertEqual(self.heard(words.split(), options=["--timeout", "20", "--retries", "1"]),
                             (FAILED, "", f"no answer from ID 1 in 20 ms{more}\n"), words)
            self.assertEqual(self.count, count, words)
        self.assertEqual(self.heard(["ping", ALL], options=["--baud", "4000000", *SHORT]), (FAILED, "", "no device answers\n"))

    # [L21]
    def test_two_answers(self):
        """The first comes when the instruction has been sent again; the second one is not left to the next command."""
        good = status(1, 0, b"\x01")
        with Device(saying([0.6, good], [0.05, good])) as device:
            self.assertEqual(run("--timeout", 400, device.path, "read", 1, "lamp"), (DONE, "ID 1    Status: ok; lamp = 1\n", ""))
            self.assertEqual(len(device.heard), 2)
            time.sleep(0.2)
            self.assertEqual(fcntl.ioctl(device.theirs, termios.FIONREAD, bytes(4)), bytes(4))

    # [L20]
    def test_another_device(self):
        """Its status is told, and is no answer; nor is one behind the instruction of another master."""
        once = ["--timeout", "100", "--retries", "0"]
        code, output, errors = self.heard(["ping", 1], status(2, 0, MODEL_AND_FIRMWARE), options=once)
        self.assertEqual((code, output), (FAILED, ""))
        self.assertEqual(errors, "unexpected: ID 2: Status: ok; 06 04 26 [to nothing before it]\nno answer from ID 1 in 100 ms\n")
        code, output, errors = self.heard(["ping", 1], status(2) + status(1, 0, MODEL_AND_FIRMWARE))
        self.assertEqual((code, output, errors), (DONE, f"ID 1    {FOUND}\n", "unexpected: ID 2: Status: ok [to nothing before it]\n"))
        code, output, errors = self.heard(["ping", 1], packet(1, READ, word(LAMP) + word(1)) + status(1, 0, b"\x01"), options=once)
        self.assertEqual((code, output), (FAILED, ""))
        self.assertEqual(errors, "unexpected: ID 1: Read lamp\nunexpected: ID 1: Status: ok; lamp = 1 [to the Read at 10]\n"
                         "no answer from ID 1 in 100 ms\n")

    # [L21]
    def test_lists(self):
        """Those that are missing are asked again and named; a missing one counts for more than a refusal."""
        words, wait = ["sync", "read", "lamp", 5, 1, 9], ["--timeout", "100", "--retries", "1"]
        one, nine, no = status(1, 0, b"\x01"), status(9, 0, b"\x00"), status(5, 7)
        both = "ID 1    Status: ok; lamp = 1\nID 9    Status: ok; lamp = 0\n"
        with Device(saying(one, nine)) as device:
            ended = run(*wait, device.path, *words, program=CHECKED)
        self.assertEqual(ended, (FAILED, both, f"dxl: {device.path}: no answer from ID 5 in 100 ms, asked 2 times\n"))
        self.assertEqual(device.heard[1], packet(ALL, SYNC_READ, word(LAMP) + word(1) + bytes([5, 9])))
        self.assertEqual(self.heard(words, no + one + nine), (NO, f"ID 5    Status: {NO_ACCESS}\n{both}", ""))
        self.assertEqual(self.heard(words, no, options=["--timeout=100", "--retries=0"]),
                         (FAILED, f"ID 5    Status: {NO_ACCESS}\n", "no answer from IDs 1, 9 in 100 ms\n"))
        with Device(saying(status(9, 0, bytes(4)), b"")) as device:
            ended = run(*wait, device.path, "bulk", "read", 7, "lamp", 9, "goal-position", 8, "lamp", program=CHECKED)
        self.assertEqual(ended[:2], (FAILED, "ID 9    Status: ok; goal position = 0\n"))
        self.assertEqual(device.heard[1], packet(ALL, BULK_READ, b"".join(bytes([i]) + word(LAMP) + word(1) for i in (7, 8))))

    # [L20]
    def test_any_bytes(self):
        """Random ones, and a line that never becomes silent."""
        source = random.Random(7)
        good = status(1, 0, MODEL_AND_FIRMWARE)
        for _ in range(10):
            parts = [source.randbytes(source.randrange(1, 30)), good[:source.randrange(14)], bytes.fromhex("FFFFFD00"), damaged(good)]
            noise = b"".join(source.choice(parts) for _ in range(source.randrange(1, 60)))
            code, output, errors = self.heard(["ping", 1], noise, options=SHORT)
            self.assertEqual((code, output != "", errors != ""), (FAILED, False, True), noise)
        began = time.monotonic()
        self.assertEqual(self.heard(["ping", 1], [b"\x55" * 40, 0.001] * 10000, options=["--timeout=100", "--retries=0"])[0], FAILED)
        self.assertLess(time.monotonic() - began, 9)


class Scan(unittest.TestCase):
    # [L19 L21]
    def test_all(self):
        """Every ID is asked once, with rising numbers; what is damaged is asked again, and who is late too."""
        def answer(instruction, _before):
            device = instruction[4]
            times[device] = times.get(device, 0) + 1
            good = status(device, 0, MODEL_AND_FIRMWARE)
            if device == 100:
                return damaged(good)
            if device == 60:
                return damaged(good) if times[device] == 1 else good
            return b"" if device in (7, 50) else good

        times = {}
        with Device(answer) as device:
            code, output, errors = run("--timeout", 200, device.path, "scan", program=CHECKED)
        found = [i for i in range(253) if i not in (7, 50, 100)]
        self.assertEqual((code, output), (DONE, "".join(f"ID {i:<3}  {FOUND}\n" if i > 99 else f"{f'ID {i}':<6}  {FOUND}\n" for i in found)))
        self.assertEqual([packet_[4] for packet_ in device.heard], [*range(60), 60, *range(60, 100), 100, 100, *range(100, 253)])
        self.assertEqual(len(re.findall(r": ID (?:60|100): bad checksum ", errors)), 4)
        self.assertEqual(errors.splitlines()[-1], f"dxl: {device.path}: no answer from ID 100 in 200 ms, asked 3 times; what came was damaged")

    # [L19]
    def test_late(self):
        """A status that comes when the next ID is asked already: the device is asked once more, with patience."""
        def answer(instruction, _before):
            if instruction[4] == 5:
                asked.append(5)
            return status(5, 0, MODEL_AND_FIRMWARE) if instruction[4] == (7 if len(asked) == 1 else 5) else b""

        asked = []
        with Device(answer) as device:
            self.assertEqual(run(*QUICK, device.path, "scan", program=CHECKED), (DONE, f"ID 5    {FOUND}\n", ""))

    # [L21]
    def test_none(self):
        with Device(silent) as device:
            self.assertEqual(run(*QUICK, device.path, "scan"), (FAILED, "", f"dxl: {device.path}: no device answers\n"))
        self.assertEqual(len(device.heard), 253)
        with Device(lambda _, before: ["hang up"] if before == 3 else b"") as device:
            self.assertEqual(run("--timeout", 20, device.path, "scan"), (FAILED, "", f"dxl: {device.path}: the line was closed\n"))

    def test_progress(self):
        """On a terminal; it counts the signals of its timer, so that some more of them make seconds pass. Elsewhere there is none."""
        ours, theirs = pty.openpty()
        text = b""
        with Device(silent) as device:
            scan = subprocess.Popen([DXL, "send", "--timeout", "50", device.path, "scan"], stderr=theirs)
            os.close(theirs)
            until = time.monotonic() + PATIENCE
            while b" 3 s" not in text and time.monotonic() < until:
                if len(device.heard) > 1:
                    scan.send_signal(signal.SIGALRM)
                if select.select([ours], [], [], 0.01)[0]:
                    text += os.read(ours, 1000)
            scan.terminate()
            scan.wait(PATIENCE)
        os.close(ours)
        self.assertRegex(text, rb"^\rdxl: scanning, \d+ of 253 IDs, 2 s\rdxl: scanning, \d+ of 253 IDs, 3 s")


class Lines(unittest.TestCase):
    # [L19]
    def test_no_line(self):
        with tempfile.TemporaryDirectory(dir="build") as folder:
            none = "neither a serial line nor a pseudo-terminal"
            for path, why in [("/dev/null", none), ("README.md", none), (f"{folder}/none", "No such file or directory"), (folder, "Is a directory")]:
                self.assertEqual(run(path, "ping", 1, program=CHECKED), (FAILED, "", f"dxl: {path}: {why}\n"))

    # [L21]
    def test_closed(self):
        for reply in [["hang up"], [status(1)[:5], "hang up"]]:
            with Device(saying(reply)) as device:
                self.assertEqual(run(*LONG, device.path, "ping", 1, program=CHECKED), (FAILED, "", f"dxl: {device.path}: the line was closed\n"))

    # [L19]
    def test_taken(self):
        """Two masters: the second one is told."""
        with Device(obliging) as device:
            fcntl.flock(device.theirs, fcntl.LOCK_EX)
            self.assertEqual(run(device.path, "ping", 1), (FAILED, "", f"dxl: {device.path}: another program has taken the line\n"))
            fcntl.flock(device.theirs, fcntl.LOCK_UN)
            self.assertEqual(run(*LONG, device.path, "ping", 1)[0], DONE)

    # [L19]
    def test_own_terminal(self):
        ours, theirs = pty.openpty()
        path = os.ttyname(theirs)
        for name in [path, "/dev/tty"]:
            ended = run(name, "ping", 1, start_new_session=True, preexec_fn=lambda: fcntl.ioctl(os.open(path, os.O_RDWR), TIOCSCTTY, 0))
            self.assertEqual(ended, (FAILED, "", f"dxl: {name}: this is the terminal that the tool was called from\n"))
        os.close(ours)
        os.close(theirs)

    # [L21]
    def test_full(self):
        """A line that takes nothing is not waited for."""
        ours, theirs = os.openpty()
        tty.setraw(theirs)
        os.set_blocking(theirs, False)
        for _ in range(20):  # what is written moves on for a while
            time.sleep(0.01)
            try:
                while True:
                    os.write(theirs, b"\0")
            except BlockingIOError:
                pass
        path = os.ttyname(theirs)
        self.assertEqual(run(path, "ping", 1), (FAILED, "", f"dxl: {path}: the line takes no bytes\n"))
        os.close(ours)
        os.close(theirs)

    # [L19]
    def test_what_came_before(self):
        """It is thrown away."""
        with Device(obliging) as device:
            os.write(device.ours, b"\x00\x55" + status(1))
            self.assertEqual(run(*LONG, device.path, "ping", 1), (DONE, f"ID 1    {FOUND}\n", ""))

    def modes(self, device, *words, ends=None):
        """The mode before, while the tool waits, and after it has ended or was ended by a signal. The gate may have been started with
        that signal ignored, as a shell does for work in the background."""
        before = termios.tcgetattr(device.theirs)
        tool = subprocess.Popen([DXL, "send", *words[:-2], device.path, *words[-2:]], stdout=subprocess.DEVNULL, stderr=subprocess.DEVNULL,
                                preexec_fn=lambda: ends and signal.signal(ends, signal.SIG_DFL))
        until = time.monotonic() + PATIENCE
        while not device.heard and time.monotonic() < until:
            time.sleep(0.01)
        while_ = fcntl.ioctl(device.theirs, TCGETS2, bytes(44))
        if ends:
            tool.send_signal(ends)
        self.assertEqual(tool.wait(PATIENCE), -ends if ends else FAILED)
        return before, struct.unpack("4IB19s2I", while_), termios.tcgetattr(device.theirs)

    # [L19]
    def test_mode(self):
        """Raw, and at the speed that was asked for, whether it has a name or not; then as it was, also where a signal ends the tool."""
        for words, speed, ends in [([], 57600, None), (["--baud", "4500000"], 4500000, None), ([], 57600, signal.SIGINT),
                                   (["--baud", "9600"], 9600, signal.SIGTERM), (["--baud=31250"], 31250, signal.SIGHUP)]:
            with Device(silent) as device:
                cooked = termios.tcgetattr(device.theirs)
                cooked[2] |= termios.CSTOPB | termios.CRTSCTS
                cooked[3] |= termios.ECHO | termios.ICANON
                termios.tcsetattr(device.theirs, termios.TCSANOW, cooked)
                wait = ["--timeout", "20000" if ends else "100", "--retries", "0"]
                before, mode, after = self.modes(device, *words, *wait, "ping", "1", ends=ends)
                self.assertEqual((mode[:2], mode[3], mode[6:]), ((0, 0), 0, (speed, speed)))
                asked = termios.CSIZE | termios.PARENB | termios.CSTOPB | termios.CRTSCTS | termios.CREAD | termios.CLOCAL
                self.assertEqual(mode[2] & asked, termios.CS8 | termios.CREAD | termios.CLOCAL)
                self.assertEqual(before, after)

    def test_full_output(self):
        with Device(obliging) as device, open("/dev/full", "w", encoding="ascii") as full:
            ended = subprocess.run([DXL, "send", *LONG, device.path, "ping", "1"], stdout=full, stderr=subprocess.PIPE, text=True, check=False)
        self.assertEqual((ended.returncode, ended.stderr), (FAILED, "dxl: standard output: No space left on device\n"))


class Words(unittest.TestCase):
    def usage(self, *command):
        """The line of the help that shows the command; all of them."""
        lines = run("--help")[1].split("\n\n")[0].splitlines()
        named = [line for line in lines if line[7:].startswith(" ".join(["dxl send LINE", *command, ""]))]
        return "usage: " + named[0][7:] + "\n" if command else "\n".join(lines) + "\n"

    def test_help(self):
        code, text, errors = run("--help")
        self.assertEqual((code, errors, text.startswith("usage: dxl send [--baud N] ")), (DONE, "", True))
        for words in [["-h"], ["a", "--help"], ["a", "read", "1", "-h"]]:
            self.assertEqual(run(*words), (DONE, text, ""))
        registers = re.findall(r'REGISTER\(\w+, "(.*)"\)', Path("cli/registers.c").read_text(encoding="ascii"))
        names = text.split("are spaces:\n")[1].split("VALUE")[0].split()
        self.assertEqual(names, [name.lower().replace(" ", "-") for name in registers])

    # [L18 L19]
    def test_wrong_words(self):
        """One line, above the usage; no line is opened."""
        before = "the line comes before the command; one of this name is given with ./ before it"
        no_id, fit = "not an ID: 0 to 252, or 254 for all devices", "it does not fit into"
        one, twice, name = "this is asked of one device: 0 to 252", "this ID stands in the list already", "no register has this name"
        for words, said, *command in [
                ([], "send: LINE is missing"), (["a"], "send: COMMAND is missing"), (["a", "none"], "none: no such command"),
                (["ping", "1"], f"ping: {before}"), (["sync", "read", "lamp", "1"], f"sync: {before}"),
                (["a", "ping"], "send ping: ID is missing", "ping"), (["a", "ping", "1", "2"], "2: one word too many", "ping"),
                (["a", "scan", "1"], "1: one word too many", "scan"), (["a", "ping", "253"], f"253: {no_id}", "ping"),
                (["a", "ping", "255"], f"255: {no_id}", "ping"), (["a", "ping", "256"], f"256: {no_id}", "ping"),
                (["a", "ping", "-1"], "-1: not a number; an ID is 0 to 252, or 254 for all devices", "ping"),
                (["a", "ping", "0x01"], "0x01: an ID is given in decimal: 0 to 252, or 254 for all devices", "ping"),
                (["a", "read", "lamp", "1"], "lamp: not a number; an ID is 0 to 252, or 254 for all devices", "read"),
                (["a", "read", "254", "lamp"], f"254: {one}", "read"), (["a", "read", "1"], "send read: REGISTER is missing", "read"),
                (["a", "read", "1", "goal"], f"goal: {name}; 'dxl send --help' lists them", "read"),
                (["a", "read", "1", ""], f"'': {name}; 'dxl send --help' lists them", "read"),
                (["a", "read", "1", "lamps"], f"lamps: {name}; 'dxl send --help' lists them", "read"),
                (["a", "read", "1", "117"], "117: no register begins there; ADDRESS:COUNT takes any bytes", "read"),
                (["a", "read", "1", "0x74", "4"], "0x74: numbers are given in decimal", "read"),
                (["a", "read", "1", "65536", "4"], "65536: an address is 0 to 65535", "read"),
                (["a", "read", "1", "0" * 15 + "116"], f"{'0' * 15}116: an address is 0 to 65535", "read"),
                (["a", "write", "1", "0" * 15 + "116:4", "5"], f"{'0' * 15}116:4: an address is 0 to 65535", "write"),
                (["a", "read", "1", "9:"], "'': not a number", "read"), (["a", "read", "1", "lamp", "0"], "0: 1 to 1000 bytes can be read", "read"),
                (["a", "read", "1", "lamp", "1001"], "1001: 1 to 1000 bytes can be read", "read"),
                (["a", "read", "1", "lamp", "1", "2"], "2: one word too many", "read"),
                (["a", "write", "1", "lamp"], "send write: VALUE is missing", "write"),
                (["a", "write", "1", "lamp", "on"], "on: not a number", "write"),
                (["a", "write", "1", "lamp", "256"], f"256: {fit} 1 byte: 0 to 255", "write"),
                (["a", "write", "1", "lamp", "-1"], f"-1: {fit} 1 byte: 0 to 255", "write"),
                (["a", "write", "1", "model-number", "65536"], f"65536: {fit} 2 bytes: 0 to 65535", "write"),
                (["a", "write", "1", "goal-position", "2147483648"], f"2147483648: {fit} 4 bytes: -2147483648 to 2147483647", "write"),
                (["a", "write", "1", "300:1", "-129"], f"-129: {fit} 1 byte: -128 to 255", "write"),
                (["a", "write", "1", "300:3", "1"], "1: a value has 1, 2 or 4 bytes", "write"),
                (["a", "write", "1", "lamp", "99999999999"], "99999999999: too large", "write"),
                (["a", "reg-write", "253", "lamp", "1"], f"253: {no_id}", "reg-write"),
                (["a", "reset", "1"], "send reset: all|but-id|but-id-and-baud is missing", "reset"),
                (["a", "reset", "1", "some"], "some: all, but-id or but-id-and-baud is wanted", "reset"),
                (["a", "reset", "254", "all"], "all: no device does that for all devices: they would have one ID", "reset"),
                (["a", "sync"], "sync: read or write is missing"), (["a", "bulk", "1"], "1: read or write comes here"),
                (["a", "sync", "read", "lamp"], "send sync read: ID is missing", "sync", "read"),
                (["a", "sync", "read", "lamp", "1", "1"], f"1: {twice}", "sync", "read"),
                (["a", "sync", "read", "lamp", "254"], f"254: {one}", "sync", "read"),
                (["a", "sync", "write", "lamp", "1"], "send sync write: VALUE is missing", "sync", "write"),
                (["a", "sync", "write", "lamp", "1", "1", "2"], "2: behind it VALUE is missing", "sync", "write"),
                (["a", "bulk", "read", "1", "lamp", "2"], "2: behind it REGISTER is missing", "bulk", "read"),
                (["a", "bulk", "read", "1", "lamp", "1", "lamp"], f"1: {twice}", "bulk", "read"),
                (["a", "bulk", "write", "1", "lamp", "0", "2"], "2: behind it REGISTER is missing", "bulk", "write"),
                (["a", "bulk", "write", "1", "lamp", "0", "2", "lamp"], "lamp: behind it VALUE is missing", "bulk", "write"),
                (["a", "plan"], "send plan: PLAN is missing", "plan"),
                (["--fast", "a", "scan"], "--fast: no such option; a file of this name is given with ./ before it"),
                (["--baud", "0", "a", "scan"], "--baud 0: a line has 300 bits per second or more"),
                (["a", "scan", "--timeout"], "--timeout: its value is missing"),
                (["a", "scan", "--timeout=0"], "--timeout 0: a timeout is 1 to 60000 milliseconds"),
                (["a", "scan", "--timeout=60001"], "--timeout 60001: a timeout is 1 to 60000 milliseconds"),
                (["a", "scan", "--retries", "101"], "--retries 101: 0 to 100 of them"),
                (["a", "scan", "--retries", "-1"], "--retries -1: not a number")]:
            with self.subTest(words):
                self.assertEqual(run(*words), (USAGE, "", f"dxl: {said}\n" + self.usage(*command)))

    def test_long_lists(self):
        """As many devices as a packet has room for, and one more."""
        entries = [text for i in range(253) for text in (str(i), "goal-position", "1")]
        long = "the list is too long for one packet\n"
        code, _, errors = run("a", "bulk", "write", *entries, program=CHECKED)
        self.assertEqual((code, errors.splitlines(keepends=True)[0].split(": ", 2)[2]), (USAGE, long))
        most = [text for i in range(203) for text in (str(i), "-1")]
        with Device(silent) as device:
            self.assertEqual(run(device.path, "sync", "write", "goal-position", *most, program=CHECKED)[0], DONE)
        code, _, errors = run("a", "sync", "write", "goal-position", *most, "252", "-1", program=CHECKED)
        self.assertEqual((code, errors.splitlines(keepends=True)[0].split(": ", 2)[2]), (USAGE, long))
        with Device(obliging) as device:
            code, output, _ = run(*LONG, device.path, "sync", "read", "lamp", *map(str, range(253)), program=CHECKED)
        self.assertEqual((code, len(output.splitlines())), (DONE, 253))


if __name__ == "__main__":
    sys.exit(suite.run(usage=None if UART_PTY else "send_test.py DXL CHECKED BOARD UART_PTY", done="dxl send"))
