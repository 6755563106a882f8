"""Runs the example boards and their master: usage demo_test.py BOARD REFUSING_BOARD UART_PTY DXL, in the repository's root

The talk of master and board, the demo's script, and what each of them does where something is wrong. Replies are waited for with
generous bounds, and waits of a board are checked from below: a busy machine makes this slower and nothing else. No test leaves a
process running. REFUSING_BOARD is the board linked with tests/c/refusing.c, UART_PTY examples/uart_board.c on a pseudo-terminal.
"""
import os
import re
import select
import signal
import subprocess
import sys
import tempfile
import time
import tty
import unittest
from pathlib import Path

import suite

BOARD, REFUSING_BOARD, UART_PTY, DXL = sys.argv[1:] if len(sys.argv) == 5 else ("", "", "", "")
TALK = [sys.executable, "examples/talk.py"]
DEMO = ["sh", "examples/demo.sh"]
PATIENCE = 9  # seconds for what is done at once
LONG_GAP = "10000000"  # microseconds, longer than that: a reply that waits for the gap is missed
WHOLE = 60  # seconds for all tests

PING = bytes.fromhex("FF FF FD 00 01 03 00 01 19 4E")
PING_ALL = bytes.fromhex("FF FF FD 00 FE 03 00 01 31 42")
PING_STATUS = bytes.fromhex("FF FF FD 00 01 07 00 55 00 06 04 26 65 5D")
READ_POSITION = bytes.fromhex("FF FF FD 00 01 07 00 02 84 00 04 00 1D 15")
POSITION_STATUS = bytes.fromhex("FF FF FD 00 01 08 00 55 00 00 00 00 00 BF B8")  # of a fresh board: 0

DONE = bytes.fromhex("FF FF FD 00 01 04 00 55 00 A1 0C")
DONE_BY_2 = bytes.fromhex("FF FF FD 00 02 04 00 55 00 29 0C")
PING_STATUS_OF_0 = bytes.fromhex("FF FF FD 00 00 07 00 55 00 06 04 26 63 4D")
BAD_CHECKSUM = bytes.fromhex("FF FF FD 00 01 04 00 55 03 AB 0C")

# What the talk has to show, in this order: published packets where there are some, each refusal, and the meanings.
SHOWN = """
> FF FF FD 00 01 03 00 01 19 4E
< FF FF FD 00 01 07 00 55 00 06 04 26 65 5D  model number 1030, firmware 38
> FF FF FD 00 FE 03 00 01 31 42
< FF FF FD 00 01 07 00 55 00 06 04 26 65 5D  device 1 answers in its slot
> FF FF FD 00 01 07 00 02 84 00 04 00 1D 15
< FF FF FD 00 01 08 00 55 00 00 00 00 00 BF B8  present position is 0
> FF FF FD 00 01 09 00 03 74 00 00 02 00 00 CA 89
< FF FF FD 00 01 04 00 55 00 A1 0C  stored: the arm goes to 512
< FF FF FD 00 01 08 00 55 00 00 02 00 00 94 38  present position is 512
< FF FF FD 00 01 04 00 55 00 A1 0C  registered: 1024, for Action
> FF FF FD 00 01 03 00 05 02 CE
< FF FF FD 00 01 04 00 55 00 A1 0C  done: the arm goes to 1024
< FF FF FD 00 01 08 00 55 00 00 04 00 00 EC 38  present position is 1024
< FF FF FD 00 01 04 00 55 02 AE 8C  02: nothing is registered any more
> FF FF FD 00 01 03 00 01 19 4F FF FF FD 00 01 03 00 01 19 4E
< FF FF FD 00 01 04 00 55 03 AB 0C  03: a bad checksum
< FF FF FD 00 01 07 00 55 00 06 04 26 65 5D  the good one is answered
< FF FF FD 00 01 04 00 55 03 AB 0C  03: a bad checksum
< FF FF FD 00 01 07 00 55 00 06 04 26 65 5D  the Ping inside is answered
< FF FF FD 00 01 07 00 55 00 06 04 26 65 5D  the Ping is answered after the gap
< FF FF FD 00 01 04 00 55 02 AE 8C  02: undefined instruction
< FF FF FD 00 01 04 00 55 04 BA 8C  04: out of range
< FF FF FD 00 01 04 00 55 05 BF 0C  05: only a part of it
< FF FF FD 00 01 04 00 55 07 B0 8C  07: read only
< FF FF FD 00 01 04 00 55 06 B5 0C  06: min above max
< FF FF FD 00 01 04 00 55 06 B5 0C  06: the goal position is above it
< FF FF FD 00 01 04 00 55 00 A1 0C  stored: the goal position is inside
< FF FF FD 00 01 04 00 55 06 B5 0C  06: the limits are others by now
> FF FF FD 00 01 0A 00 03 14 00 FF FF FD FD FF 23 83
< FF FF FD 00 01 05 00 55 00 01 56 A1  in slot 1: the lamp is on
< FF FF FD 00 01 05 00 55 00 00 53 21  in slot 1: the lamp is off
> FF FF FD 00 FE 09 00 82 41 00 01 00 02 01 0D AC FF FF FD 00 01 03 00 01 19 4E
< FF FF FD 00 01 07 00 55 00 06 04 26 65 5D  the Ping alone is answered
> FF FF FD 00 FE 09 00 82 41 00 01 00 02 01 0D AC FF FF FD 00 02 03 00 01 19 72
""".strip().splitlines()


def run(*words, **environment):
    """A command's exit code, output and error output. Where it takes too long, it ends with all that it started."""
    process = subprocess.Popen(words, stdout=subprocess.PIPE, stderr=subprocess.PIPE, text=True, start_new_session=True,
                               env={**os.environ, **environment})
    try:
        output, errors = process.communicate(timeout=WHOLE)
    except BaseException:
        os.killpg(process.pid, signal.SIGKILL)
        process.communicate()
        raise
    return process.returncode, output, errors


def read_for(fd, count):
    """So many bytes, or those that come while patience lasts."""
    deadline, got = time.monotonic() + PATIENCE, b""
    while len(got) < count and select.select([fd], [], [], max(0, deadline - time.monotonic()))[0]:
        part = os.read(fd, count - len(got))
        if not part:
            break
        got += part
    return got


class Board:
    """A board that runs as long as the block; its line is open."""

    def __init__(self, *options, program=None, **environment):
        self.words = [program or BOARD, *options, "--seconds", str(WHOLE)]
        self.environment = {**os.environ, **environment}

    def __enter__(self):
        self.errors = tempfile.NamedTemporaryFile()
        self.process = subprocess.Popen(self.words, stdout=subprocess.PIPE, stderr=self.errors, env=self.environment)
        said = b""
        while not said.endswith(b"\n"):
            byte = read_for(self.process.stdout.fileno(), 1)
            if not byte:
                raise AssertionError(f"the board prints no line, only {said!r}")
            said += byte
        self.path = re.fullmatch(r"line: (/dev/\S+)\n", said.decode()).group(1)
        self.line = os.open(self.path, os.O_RDWR | os.O_NOCTTY)
        return self

    def __exit__(self, *_):
        if self.process.poll() is None:
            self.process.kill()
            self.process.wait()
        self.leave()
        self.process.stdout.close()
        self.errors.close()

    def leave(self):
        """Closes the line, as a master does that goes away."""
        if self.line is not None:
            os.close(self.line)
        self.line = None

    def send(self, data):
        os.write(self.line, data)

    def end(self, number):
        """The exit code after a signal."""
        self.process.send_signal(number)
        return self.process.wait(PATIENCE)

    def said(self):
        """What stands on standard error so far. The file is opened anew: the board writes on where its own offset is."""
        return Path(self.errors.name).read_text(encoding="utf-8")


class TalkTest(unittest.TestCase):
    def shown_in_order(self, output):
        lines = iter(line.strip() for line in output.splitlines())
        for wanted in SHOWN:
            self.assertIn(wanted, lines, "it is not shown, or not in its place")

    def talked(self, board, *waits):
        """The master talks to the board, which has to wait as long as that, and a signal ends it."""
        code, output, errors = run(*TALK, *waits, board.path)
        self.assertEqual((code, errors), (0, ""))
        self.shown_in_order(output)
        self.assertRegex(output, r"\ntalk: \d+ exchanges, each reply as expected\n$")
        self.assertEqual(board.end(signal.SIGTERM), 0)
        return board.said()

    def test_board_and_master(self):
        with Board("--gap", "200000", "--slot", "100000") as board:
            self.assertEqual(self.talked(board, "--gap", "200000", "--slot", "100000"), "board: ended, as a signal asked\n")

    def test_uart_board_and_master(self):
        with Board(program=UART_PTY) as board:
            self.assertEqual(self.talked(board, "--gap", "1500", "--slot", "6000"), "uart_pty: ended, as a signal asked\n")

    def test_master_notices_an_early_reply(self):
        with Board("--gap", "1000", "--slot", "1000") as board:
            board.leave()
            code, _, errors = run(*TALK, "--slot", "60000000", board.path)
            self.assertEqual((code, errors), (1, "talk: FAILED: the reply came before its slot\n"))
            code, _, errors = run(*TALK, "--gap", "60000000", board.path)
            self.assertEqual((code, errors), (1, "talk: FAILED: the reply came before the gap\n"))

    def test_master_notices_silence(self):
        board, line = os.openpty()
        code, _, errors = run(*TALK, "--timeout", "0.1", os.ttyname(line))
        os.close(board)
        os.close(line)
        self.assertEqual(code, 1)
        self.assertIn("no reply within 0.1 s", errors)

    def test_master_notices_a_wrong_reply(self):
        wrong = {"error": bytes.fromhex("FF FF FD 00 01 04 00 55 02 AE 8C"), "ID": DONE_BY_2, "checksum": DONE[:-1] + b"\x0D",
                 "header": b"\0" + DONE, "more": PING_STATUS}
        for name, reply in wrong.items():
            with self.subTest(name):
                self.assertIn("talk: FAILED: wanted FF FF FD 00 01 04 00 55 00 A1 0C", self.answered_with(reply))

    def answered_with(self, reply):
        """What the master says to this reply to its first packet."""
        board, line = os.openpty()
        tty.setraw(line)
        talk = subprocess.Popen([*TALK, os.ttyname(line)], stdout=subprocess.DEVNULL, stderr=subprocess.PIPE, text=True)
        read_for(board, 10)
        os.write(board, reply)
        _, errors = talk.communicate(timeout=WHOLE)
        os.close(board)
        os.close(line)
        self.assertEqual(talk.returncode, 1)
        return errors

    def test_master_without_a_line(self):
        for path in ["/dev/null", "/dev/nothing-there"]:
            code, _, errors = run(*TALK, path)
            self.assertEqual(code, 1)
            self.assertIn(f"talk: {path} cannot be opened as a line", errors)

    def test_master_options(self):
        bad = {"LINE": [], "unrecognized arguments: --nonsense": ["--nonsense", "/dev/null"],
               "argument --id: 253 is not within 0 and 252": ["--id", "253", "/dev/null"],
               "argument --id: 'one' is no number": ["--id=one", "/dev/null"],
               "argument --id: '' is no number": ["--id=", "/dev/null"],
               "argument --gap: expected one argument": ["/dev/null", "--gap"],
               "unrecognized arguments: --time=1": ["--time=1", "/dev/null"],
               "unrecognized arguments: more": ["/dev/null", "more"],
               "argument -h/--help: ignored explicit argument '1'": ["--help=1"]}
        for message, words in bad.items():
            with self.subTest(words):
                code, output, errors = run(*TALK, *words)
                self.assertEqual((code, output), (2, ""))
                self.assertRegex(errors, r"\ntalk: error: .*" + re.escape(message))
        for word in ["-h", "--help"]:
            code, output, errors = run(*TALK, word)
            self.assertEqual((code, errors), (0, ""))
            self.assertIn("--id", output)

    def test_another_id(self):
        with Board("--id=7", "--gap=1000", "--slot=1000") as board:
            board.leave()
            code, output, errors = run(*TALK, "--id=7", "--gap=1000", "--slot=1000", board.path)
            self.assertEqual((code, errors), (0, ""))
            self.assertIn("> FF FF FD 00 07 03 00 01 19 36", output)
            self.assertIn("device 7 answers in its slot", output)


class BoardTest(unittest.TestCase):
    def test_byte_by_byte(self):
        with Board("--gap", LONG_GAP) as board:
            for byte in PING:
                board.send(bytes([byte]))
            self.assertEqual(read_for(board.line, len(PING_STATUS)), PING_STATUS)
            self.assertEqual(board.end(signal.SIGINT), 0)

    def test_several_events_in_one_chunk(self):
        with Board("--gap", LONG_GAP) as board:
            board.send(PING + READ_POSITION + PING)
            wanted = PING_STATUS + POSITION_STATUS + PING_STATUS
            self.assertEqual(read_for(board.line, len(wanted)), wanted)
            # A packet in a damaged one: no byte is left to feed when the first is told.
            board.send(bytes.fromhex("FF FF FD 00 01 0D 00 03") + PING + b"\0\0")
            wanted = BAD_CHECKSUM + PING_STATUS
            self.assertEqual(read_for(board.line, len(wanted)), wanted)

    def test_the_arm_rests_without_torque(self):
        with Board("--slot", "100000") as board:
            board.send(bytes.fromhex("FF FF FD 00 01 09 00 03 74 00 00 02 00 00 CA 89"))
            self.assertEqual(read_for(board.line, len(DONE)), DONE)
            board.send(PING_ALL)  # for as long as its slot lasts the arm could move
            self.assertEqual(read_for(board.line, len(PING_STATUS)), PING_STATUS)
            board.send(READ_POSITION)
            self.assertEqual(read_for(board.line, len(POSITION_STATUS)), POSITION_STATUS)

    def test_signal_in_noise(self):
        with Board() as board, subprocess.Popen(["cat", "/dev/zero"], stdout=board.line, stderr=subprocess.DEVNULL) as noise:
            self.wait_until(lambda: not select.select([], [board.line], [], 0)[1])  # the line is full
            self.assertEqual(board.end(signal.SIGTERM), 0)
            noise.kill()

    # [B2]
    def test_refusals(self):
        at_start = {"dxl_encode": [11, 12, 13], "dxl_board_feed_parts": [25, 22, 23], "dxl_status": [11, 12, 24],
                    "dxl_measure": [21]}
        for call, number in [(call, number) for call, numbers in at_start.items() for number in numbers]:
            with self.subTest(call=call, number=number):
                code, _, errors = run(REFUSING_BOARD, "--seconds", str(PATIENCE), REFUSING=call, REFUSAL=str(number))
                self.assertEqual(code, 3)
                self.refused(errors, call, number)

    def refused(self, errors, call, number):
        """The board names the call as its source has it: without the parts of a record."""
        self.assertRegex(errors, rf"^board: {call.removesuffix('_parts')} refuses with {number}: (?!a number).*\n$")

    # [B2]
    def test_refusal_of_a_gap(self):
        for number in [25, 22, 23]:
            with Board(program=REFUSING_BOARD, REFUSING="dxl_board_gap_parts", REFUSAL=str(number)) as board:
                board.send(PING[:3])
                self.assertEqual(board.process.wait(PATIENCE), 3)
                self.refused(board.said(), "dxl_board_gap_parts", number)

    def test_refusal_in_the_trace(self):
        for call, begin in {"dxl_reader_feed": "", "dxl_reader_gap": "gap, held: FF FF FD\n"}.items():
            with Board("--trace", program=REFUSING_BOARD, REFUSING=call, REFUSAL="25") as board:
                board.send(PING[:3])
                self.assertEqual(board.process.wait(PATIENCE), 3)
                self.assertEqual(board.said(), f"{begin}board: {call} refuses with 25: the reader's count is above 1,030\n")

    def test_bytes_that_waited_are_no_gap(self):
        with Board("--gap", "500000") as board:
            while not self.stopped_in_time(board, PING + PING[:5], 0.5):
                self.resume(board)
            time.sleep(0.6)
            board.send(PING[5:])
            self.resume(board)
            self.assertEqual(read_for(board.line, len(PING_STATUS)), PING_STATUS)

    def stopped_in_time(self, board, data, gap):
        """Sends a Ping and more, and stops the board when the Ping is answered; whether that was before the gap."""
        begin = time.monotonic()
        board.send(data)
        self.assertEqual(read_for(board.line, len(PING_STATUS)), PING_STATUS)
        board.process.send_signal(signal.SIGSTOP)
        os.waitid(os.P_PID, board.process.pid, os.WSTOPPED)
        return time.monotonic() - begin < gap

    def resume(self, board):
        board.process.send_signal(signal.SIGCONT)

    def test_a_status_that_waits_gives_way(self):
        with Board("--slot", "300000") as board:
            board.send(PING_ALL + PING)
            self.assertEqual(read_for(board.line, len(PING_STATUS)), PING_STATUS)
            begin = time.monotonic()
            board.send(PING_ALL)
            self.assertEqual(read_for(board.line, len(PING_STATUS)), PING_STATUS)
            self.assertGreaterEqual(time.monotonic() - begin, 0.3)
            board.send(READ_POSITION)
            self.assertEqual(read_for(board.line, len(POSITION_STATUS)), POSITION_STATUS)

    def test_a_status_waits_while_others_speak(self):
        with Board("--slot", "300000") as board:
            begin = time.monotonic()
            board.send(PING_ALL + PING_STATUS_OF_0)
            self.assertEqual(read_for(board.line, len(PING_STATUS)), PING_STATUS)
            self.assertGreaterEqual(time.monotonic() - begin, 0.3)

    def test_nobody_reads(self):
        with Board("--trace") as board:
            heard = 0
            while "a status is lost: nobody reads the line" not in board.said():
                board.send(PING * 10)
                heard += 10
                self.wait_until(lambda: board.said().count("packet:") >= heard)
            board.send(READ_POSITION)
            got = b""
            while not got.endswith(POSITION_STATUS):
                byte = read_for(board.line, 1)
                self.assertTrue(byte, "the board answers no more")
                got += byte

    def wait_until(self, holds):
        deadline = time.monotonic() + PATIENCE
        while not holds():
            self.assertLess(time.monotonic(), deadline, "it does not come about")
            time.sleep(0.002)

    def test_options(self):
        bad = [["--gap"], ["--gap", "0"], ["--gap", "-5"], ["--gap", "1.5"], ["--gap", "10000001"], ["--slot", "x"],
               ["--slot", ""], ["--seconds", "0"], ["--seconds", "123456789"], ["--trace", "--gap"], ["--nonsense"], ["-x"],
               ["extra"], ["--gap=0"], ["--gap="], ["--gap=5=5"], ["--gap=x"], ["--gapp=5"], ["--ga=5"], ["--id", "253"],
               ["--id=-1"], ["--id"], ["--id="], ["--trace=1"], ["--help=1"], ["-h=1"], ["--help", "--nonsense"], [""], ["-"],
               ["--"]]
        for words in bad:
            with self.subTest(words):
                code, output, errors = run(BOARD, *words)
                self.assertEqual((code, output), (2, ""))
                self.assertRegex(errors, r"^board: '\S*': .* \(--help lists the options\)\n$")
        for words in [["--help"], ["-h"], ["--gap=5", "-h"], ["-h", "--trace"]]:
            code, output, errors = run(BOARD, *words)
            self.assertEqual((code, errors), (0, ""))
            self.assertIn("--gap", output)

    def test_options_of_the_uart_board(self):
        bad = [["--seconds", word] for word in ["0", "86401", "x", "", "-5", "1.5", "123456"]]
        bad += [["--seconds"], ["--seconds", "1", "1"], ["--nonsense"], ["1"], [""]]
        for words in bad:
            with self.subTest(words):
                code, output, errors = run(UART_PTY, *words)
                self.assertEqual((code, output), (2, ""))
                self.assertRegex(errors, r"^uart_pty: '\S*': .* \(--help says more\)\n$")
        for word in ["--help", "-h"]:
            code, output, errors = run(UART_PTY, word)
            self.assertEqual((code, errors), (0, ""))
            self.assertIn("uart_pty [--seconds N]\n", output)
        code, output, errors = run(UART_PTY, "--seconds", "1")
        self.assertEqual((code, errors), (0, "uart_pty: ended, its time is over\n"))
        self.assertRegex(output, r"^line: /dev/\S+\n$")

    def test_self_test(self):
        self.assertEqual(run(BOARD, "--self-test"), (0, "Ping: FF FF FD 00 01 03 00 01 19 4E\n"
                                                        "status: FF FF FD 00 01 07 00 55 00 06 04 26 65 5D\n", ""))
        for words in [["--id=0"], ["--id", "0"]]:
            self.assertEqual(run(BOARD, "--self-test", *words), (0, "Ping: FF FF FD 00 00 03 00 01 1A DA\n"
                                                                    "status: FF FF FD 00 00 07 00 55 00 06 04 26 63 4D\n", ""))

    def test_end_after_seconds(self):
        code, output, errors = run(BOARD, "--seconds", "1")
        self.assertEqual((code, errors), (0, "board: ended, its time is over\n"))
        self.assertRegex(output, r"^line: /dev/\S+\n$")

    def test_trace(self):
        stuffed = bytes.fromhex("FF FF FD 00 01 0A 00 03 14 00 FF FF FD FD FF 23 83")
        with Board("--trace") as board:
            board.send(PING[:-1] + b"\0" + PING + stuffed)
            read_for(board.line, 36)
            board.send(PING[:3])
            self.wait_until(lambda: "gap" in board.said())
            self.assertEqual(board.end(signal.SIGTERM), 0)
            self.assertEqual(board.said(), "bad checksum, ID: 01\nsent: FF FF FD 00 01 04 00 55 03 AB 0C\n"
                                           "packet: FF FF FD 00 01 03 00 01 19 4E\n"
                                           "sent: FF FF FD 00 01 07 00 55 00 06 04 26 65 5D\n"
                                           "packet: FF FF FD 00 01 0A 00 03 14 00 FF FF FD FD FF 23 83\n"
                                           "sent: FF FF FD 00 01 04 00 55 00 A1 0C\n"
                                           "gap, held: FF FF FD\n"
                                           "board: ended, as a signal asked\n")

    def test_trace_at_the_gap(self):
        """Packets that come out at the gap are shown there, each before its status."""
        noise = bytes.fromhex("FF FF FD 00 07 00 04")
        with Board("--trace") as board:
            board.send(noise + PING + READ_POSITION)
            read_for(board.line, len(PING_STATUS + POSITION_STATUS))
            self.assertEqual(board.end(signal.SIGTERM), 0)
            self.assertEqual(board.said(), f"gap, held: {(noise + PING + READ_POSITION).hex(' ').upper()}\n"
                                           f"packet: {PING.hex(' ').upper()}\nsent: {PING_STATUS.hex(' ').upper()}\n"
                                           f"packet: {READ_POSITION.hex(' ').upper()}\nsent: {POSITION_STATUS.hex(' ').upper()}\n"
                                           "board: ended, as a signal asked\n")


class DemoTest(unittest.TestCase):
    def shows_the_passage(self, output):
        shown = re.search(r"\n```\n(A damaged Ping.*?)```\n", Path("README.md").read_text(encoding="utf-8"), flags=re.S)
        self.assertIn(shown.group(1), output)

    def test_demo(self):
        code, output, errors = run(*DEMO, BOARD, DXL)
        self.assertEqual((code, errors), (0, "board: ended, as a signal asked\n"))
        self.shows_the_passage(output)
        self.assertIn("each reply as expected", output)
        self.assertRegex(output, r"\n\$ dxl send /dev/\S+ read 1 goal-position\nID 1    Status: ok; goal position = 512\n")
        self.assertTrue(output.endswith("demo: the board is ended; every reply was as expected\n"))

    def test_demo_without_dxl(self):
        code, output, errors = run(*DEMO, BOARD)
        self.assertEqual((code, errors), (0, "board: ended, as a signal asked\n"))
        self.shows_the_passage(output)
        self.assertIn("each reply as expected", output)
        self.assertNotIn("dxl", output.replace(BOARD, ""))
        self.assertTrue(output.endswith("demo: the board is ended; every reply was as expected\n"))

    def test_demo_fails_and_leaves_nothing(self):
        with tempfile.TemporaryDirectory() as folder:
            board, number = Path(folder, "board"), Path(folder, "pid")
            board.write_text(f"#!/bin/sh\necho $$ >{number}\necho line: /dev/null\nexec sleep {WHOLE}\n")
            board.chmod(0o755)
            code, _, errors = run(*DEMO, str(board), DXL)
            self.assertEqual(code, 1)
            self.assertIn("\ndemo: the talk failed\n", errors)
            with self.assertRaises(ProcessLookupError):
                os.kill(int(number.read_text()), 0)

    def test_demo_without_a_board(self):
        for words in [["nothing/there"], ["nothing/there", DXL], [BOARD, "nothing/there"]]:
            self.assertEqual(run(*DEMO, *words)[::2], (1, "demo: nothing/there is not there; make demo builds it\n"))
        self.assertEqual(run(*DEMO, "/bin/true", DXL)[::2], (1, "demo: the board has not printed its line\n"))
        self.assertEqual(run(*DEMO)[::2], (1, "demo: usage: demo.sh BOARD\n"))

    def test_demo_stops_where_dxl_fails(self):
        code, output, errors = run(*DEMO, BOARD, "/bin/false")
        self.assertEqual((code, errors.splitlines()[:2]), (1, ["send: it ended with 1 and not with 0", "demo: the talk of dxl failed"]))
        self.assertIn("each reply as expected", output)


def too_long(*_):
    raise TimeoutError(f"the tests take more than {WHOLE} s")


def main():
    signal.signal(signal.SIGALRM, too_long)
    signal.alarm(WHOLE)
    return suite.run(usage=None if BOARD else "demo_test.py BOARD REFUSING_BOARD UART_PTY DXL", done="demo: boards and master")


if __name__ == "__main__":
    sys.exit(main())
