"""Runs dxl show, dxl timeline and what prints captures of a log: usage show_test.py PROGRAM CHECKED, in the repository's root

CHECKED is the same tool with the compiler's checks of memory and of undefined behaviour. The stored lines of examples/wet.txt and
examples/wet.bin are held, and the events of random captures are compared with a reading by the rules, written here in Python.
"""
import html
import json
import os
import pty
import random
import re
import resource
import signal
import struct
import subprocess
import sys
import tempfile
import time
import unittest
from pathlib import Path

import suite

sys.path.append("examples")
from talk import HEADER, PING, READ, STATUS, WRITE, at, crc16, damaged, packet, status, stuffed, word

PROGRAM, CHECKED = sys.argv[1:] if len(sys.argv) == 3 else ("", "")
PATIENCE = 60  # seconds for one command
DONE, NO, USAGE, FAILED, ALTERED = 0, 1, 2, 3, 4
READ_POSITION = packet(1, READ, word(132) + word(4))
MODEL = bytes([6, 4, 38])


def run(*words, program=None, **more):
    ended = subprocess.run([program or PROGRAM, *map(str, words)], capture_output=True, timeout=PATIENCE, text=True, check=False, **more)
    return ended.returncode, ended.stdout, ended.stderr


def old_packet(device, *body):
    """A packet of Protocol 1.0."""
    front = bytes([device, len(body) + 1, *body])
    return b"\xff\xff" + front + bytes([~sum(front) & 0xFF])


class Folder(unittest.TestCase):
    def setUp(self):
        self.folder = tempfile.TemporaryDirectory(dir="build")
        self.addCleanup(self.folder.cleanup)

    def file(self, name, contents=None):
        path = Path(self.folder.name, name)
        if isinstance(contents, str):
            path.write_text(contents, encoding="ascii")
        elif contents is not None:
            path.write_bytes(contents)
        return path

    def show(self, contents, *options):
        """The lines without the totals; the capture must be read well."""
        code, out, err = run("show", *options, self.file("capture", contents))
        self.assertEqual((code, err), (DONE, ""))
        return out.splitlines()[:-1]

    def words(self, contents, *options):
        """Sign, ID and meaning of each line."""
        return [" ".join(line.split()[1:]) for line in self.show(contents, *options)]

    def objects(self, contents, *options):
        code, out, err = run("show", "--json", *options, self.file("capture", contents))
        self.assertEqual((code, err), (DONE, ""))
        return [json.loads(line) for line in out.splitlines()]


class Stored(Folder):
    # [L13-L15]
    def test_wet(self):
        """The captures in examples/ are what wet.py writes, and what is shown of them is stored beside them."""
        subprocess.run([sys.executable, "examples/wet.py", self.folder.name], check=True, timeout=PATIENCE)
        for name in ["wet.txt", "wet.bin"]:
            self.assertEqual(self.file(name).read_bytes(), Path("examples", name).read_bytes())
        for stored, words in [("wet.shown", ["--baud", 1000000, "examples/wet.txt"]), ("wet_raw.shown", ["examples/wet.bin"])]:
            self.assertEqual(run("show", *words), (DONE, Path("examples", stored).read_text(encoding="ascii"), ""))

    def test_sample(self):
        """What README.md shows."""
        shown = run("show", "--baud", 1000000, "--id", 2, "--errors", "examples/wet.txt")[1]
        readme = Path("README.md").read_text(encoding="utf-8")
        self.assertIn("$ dxl show --baud 1000000 --id 2 --errors examples/wet.txt\n" + shown, readme)
        log = self.file("shift.log")
        self.assertEqual(run("log", "write", log, "examples/capture.bin", "examples/exchange.bin")[0], DONE)
        for words in [["list"], ["last"], ["show", "1"]]:
            said = run("log", words[0], log, *words[1:])[1]
            self.assertIn(f"$ dxl log {words[0]} shift.log{''.join(' ' + word for word in words[1:])}\n{said}", readme)
        plan = self.file("row.plan", packet(254, 0x83, word(116) + word(4) + bytes([3]) + word(7, 4) + bytes([9]) + word(255, 4)))
        self.assertIn("$ dxl plan show row.plan\n" + run("plan", "show", plan)[1], readme)


# ---- the reading of a segment, by RULES V2 to V6

def look(bytes_, p):
    """The packet at p: its kind and its count of bytes."""
    front = bytes_[p:p + 7]
    if front[:4] != HEADER or len(front) < 7 or front[4] in (253, 255):
        return None
    count = 7 + int.from_bytes(front[5:7], "little")
    if not 10 <= count <= 1031 or p + count > len(bytes_):
        return None
    whole = bytes_[p:p + count]
    if crc16(whole[:-2]).to_bytes(2, "little") != whole[-2:]:
        return "bad checksum", count
    body = whole[7:-2]
    good = all(body[i + 3:i + 4] == b"\xfd" for i in range(len(body)) if body[i:i + 3] == b"\xff\xff\xfd")
    return ("packet", count) if good else None


def reading(bytes_):
    """The events with their offsets, and the bytes that are neither in a packet nor in what a bad checksum announces."""
    events, loose, p = [], set(range(len(bytes_))), 0
    while p < len(bytes_):
        found = look(bytes_, p)
        if found is not None:
            events.append((p, found[0], bytes_[p + 4], found[1]))
            loose -= set(range(p, p + found[1]))
        p += found[1] if found is not None and found[0] == "packet" else 1
    return events, loose


def beginning(bytes_, p):
    """How many bytes from p on agree with a packet, and what is wrong behind them."""
    front, there = bytes_[p:p + 7], len(bytes_) - p
    for k in range(min(4, there)):
        if front[k] != HEADER[k]:
            return k, "header" if k > 0 else "none"
    if there > 4 and front[4] in (253, 255):
        return 4, "ID"
    if there < 7:
        return there, "cut off"
    count = 7 + int.from_bytes(front[5:7], "little")
    if not 10 <= count <= 1031:
        return 6, "length"
    return (count, "stuffing") if count <= there else (there, "cut off")


def random_capture(chance, pieces):
    """Packets, damaged ones, packets in packets, beginnings and noise that looks like them."""
    parts = []
    for _ in range(pieces):
        params = bytes(chance.choice([0xFF, 0xFD, 0, chance.randrange(256)]) for _ in range(chance.randrange(20)))
        good = packet(chance.choice([1, 2, 252, 254]), chance.choice([1, 2, 3, 0x55, 0x82, 0x83, 0x92, 0x93, 0x10]), params)
        parts.append(chance.choice([
            lambda: good, lambda: good, lambda: damaged(good), lambda: good[:chance.randrange(len(good))],
            lambda: bytes(chance.choice([0xFF, 0xFF, 0xFD, 0, 1, 3]) for _ in range(chance.randrange(30))),
            lambda: HEADER + bytes([chance.choice([1, 253, 255])]) + word(chance.choice([2, 40, 900, 1024, 1025])),
            lambda: damaged(packet(7, 3, b"ab")[:-2] + good + b"\0\0"), lambda: not_stuffed(chance.randrange(253), b"\3\xff\xff\xfd" + params)])())
    return b"".join(parts)


def not_stuffed(device, body):
    front = HEADER + bytes([device]) + word(len(body) + 2) + body
    return front + crc16(front).to_bytes(2, "little")


class Events(Folder):
    def compare(self, bytes_):
        events, loose = reading(bytes_)
        there = self.objects(bytes_)
        shown = [(found["offset"], "packet" if found["kind"] in ("instruction", "status") else found["kind"], found["id"], found["length"])
                 for found in there if found["kind"] != "noise"]
        self.assertEqual(shown, events)
        noise = [found for found in there if found["kind"] == "noise"]
        self.assertEqual([p for found in noise for p in range(found["offset"], found["offset"] + found["length"])], sorted(loose))
        for found in noise:
            agreed, reason, p = max(((*beginning(bytes_, p), p) for p in range(found["offset"], found["offset"] + found["length"])),
                                    key=lambda each: (each[0], -each[2]))
            self.assertEqual((found["agreed"], found["reason"], found["at"] if agreed > 0 else p), (agreed, reason, p))
        self.assertEqual([found["offset"] for found in there], sorted(found["offset"] for found in there))

    # [L13]
    def test_as_the_rules_say(self):
        chance = random.Random(39)
        for _ in range(80):
            self.compare(random_capture(chance, chance.randrange(12)))

    # [L13]
    def test_over_blocks(self):
        """Packets, bad checksums and noise that lie across the blocks in which a file is read."""
        for before in [65536 - 5, 65536 - 1031, 2 * 65536 - 1, 65536]:
            front = bytes(before - 1031) + damaged(packet(9, WRITE, bytes(1019)))
            self.compare(front + READ_POSITION + HEADER + bytes([1]) + word(1000) + bytes(500) + READ_POSITION)

    # [L13]
    def test_noise(self):
        """Why the longest beginning in it became no packet."""
        ping = packet(1, PING)
        long_one = HEADER + bytes([7]) + word(1024)
        for bytes_, said in [
                (b"\0\1\2", "nothing in it begins a packet"), (b"\xff", "cut off: 1 byte of a packet stands at 0"),
                (b"\xff\0", "header: 1 of its 4 bytes stand at 0, and then 00"),
                (b"\0\xff\xff\xfd\1\xff\xff\0", "header: 3 of its 4 bytes stand at 1, and then 01"),
                (b"\xff\xff\xff\xff\0", "header: 2 of its 4 bytes stand at 0, and then FF"),
                (HEADER + b"\xfd\0", "ID: the header at 0 is followed by 253, which is no ID"),
                (b"\xff\1" + HEADER + b"\xff\0", "ID: the header at 2 is followed by 255, which is no ID"),
                (HEADER + b"\5\2\0\1", "length: header and ID 5 at 0 are followed by 2, which is no length"),
                (HEADER + b"\5\1\4\1", "length: header and ID 5 at 0 are followed by 1025, which is no length"),
                (ping[:6], "cut off: 6 bytes of a packet stand at 0"), (ping[:9], "cut off: 9 of 10 bytes of a packet stand at 0"),
                (not_stuffed(9, b"\3\xff\xff\xfd"), "stuffing: 13 bytes at 0 for ID 9 have a right checksum, and their body is not well stuffed"),
                (HEADER + b"\xff" + ping[:9], "cut off: 9 of 10 bytes of a packet stand at 5")]:
            with self.subTest(said):
                self.assertEqual(self.words(bytes_), [f"~ noise, {len(bytes_)} byte{'' if len(bytes_) == 1 else 's'}: {said}"])
        self.assertEqual(self.words(long_one + ping), ["~ noise, 7 bytes: cut off: 17 of 1031 bytes of a packet stand at 0", "> ID 1 Ping"])
        self.assertEqual(self.words(b""), [])

    # [L13]
    def test_bad_checksum(self):
        """Its bytes are in its own line, and packets among them are marked."""
        ping = packet(1, PING)
        outer = HEADER + bytes([2, len(ping) + 3, 0, WRITE]) + ping + b"\0\0"
        right = crc16(outer[:-2]).to_bytes(2, "little").hex(" ").upper()
        self.assertEqual(self.words(outer + b"\7"), [
            f"! ID 2 bad checksum 00 00 where {right} would be right, of 20 bytes, not well stuffed",
            "> ID 1 Ping [inside the bad checksum at 0]", "~ noise, 1 byte: nothing in it begins a packet"])
        good, bad = status(3, 0x84), damaged(status(3, 0x84))
        sums = f"bad checksum {bad[-2:].hex(' ').upper()} where {good[-2:].hex(' ').upper()} would be right"
        error = "error 04 (a value outside its range), alert (hardware error is not 0)"
        self.assertEqual(self.words(bad), [f"! ID 3 {sums}, of 11 bytes that say: Status: {error}"])

    # [L13 O1-O5]
    def test_old_protocols(self):
        ping, read, answer = old_packet(1, 1), old_packet(1, 2, 43, 1), old_packet(1, 0, 32)
        lines = ["> ID 1 Read byte 43", "< ID 1 Status: ok; 20 [to the Read at 0]", "> ID 1 Ping"]
        for protocol in ["1", "mercury"]:
            self.assertEqual(self.words(read + answer + ping, "--protocol", protocol), lines)
        write = old_packet(3, 3, 30, 0, 2)
        self.assertEqual(self.words(write + old_packet(3, 0x24) + old_packet(4, 0x77), "--protocol=1"), [
            "> ID 3 Write bytes 30 to 31 = 00 02", "< ID 3 Status: error 24 [to the Write at 0]", "> ID 4 undefined instruction 77"])
        self.assertEqual(self.words(old_packet(253, 1), "--protocol", "1", "--id", "253"), ["> ID 253 Ping"])
        self.assertEqual(self.words(old_packet(253, 1), "--protocol", "mercury"), ["~ noise, 6 bytes: ID: the header at 0 is followed by 253, which is no ID"])
        for bytes_, said in [(b"\xff\xff\xff", "ID: the header at 0 is followed by 255, which is no ID"),
                             (b"\xff\xff\7\1", "length: header and ID 7 at 0 are followed by 1, which is no length"),
                             (b"\xff\xff\7\x09\1", "cut off: 5 of 13 bytes of a packet stand at 0"),
                             (b"\xff\7", "header: 1 of its 2 bytes stand at 0, and then 07")]:
            self.assertEqual(self.words(bytes_, "--protocol", "1"), [f"~ noise, {len(bytes_)} bytes: {said}"])
        wrong = ping[:-1] + b"\0"
        self.assertEqual(self.words(wrong, "--protocol", "1"), [f"! ID 1 bad checksum 00 where {ping[-1]:02X} would be right, of 6 bytes with the body 01"])


class Meaning(Folder):
    # [L13 T2]
    def test_registers(self):
        """Names, addresses and sizes are those of the header, and nothing else is a register."""
        header = Path("include/mednukals.h").read_text(encoding="utf-8")
        known = {address: (name.lower().replace("_", " "), int(re.search(rf"DXL_SIZE_{name} = (\d+)", header).group(1)))
                 for name, address in ((name, int(number)) for name, number in re.findall(r"DXL_REG_(\w+) = (\d+),", header))}
        self.assertEqual(len(known), 15)
        there = self.objects(packet(1, READ, word(0) + word(200)))[0]["registers"]
        self.assertEqual({field["address"]: (field["name"].lower(), field["count"]) for field in there if "name" in field}, known)
        self.assertEqual([field["address"] for field in there], [0, *(before["address"] + before["count"] for before in there[:-1])])
        self.assertEqual(sum(field["count"] for field in there), 200)
        for address, (name, size) in known.items():
            field, = self.objects(packet(1, WRITE, at(address, 2 ** (8 * size) - 1, size)))[0]["registers"]
            self.assertEqual((field["name"].lower(), field["value"]), (name, -1 if size == 4 else 2 ** (8 * size) - 1))

    # [L13]
    def test_instructions_and_errors(self):
        """Each number that the header names has a name here, and no other."""
        header = Path("include/mednukals.h").read_text(encoding="utf-8")
        names = {int(number, 16): name.replace("_", " ").title() for name, number in re.findall(r"DXL_INST_(\w+) = (0x\w+)", header)}
        errors = {int(number, 16) for number in re.findall(r"DXL_ERROR_\w+ = (0x\w+)", header)} - {0x80}
        found = self.objects(b"".join(packet(254, code) for code in range(256)))
        self.assertEqual({each["code"]: each["instruction"] for each in found if "instruction" in each},
                         {code: name for code, name in names.items() if code != STATUS})
        lines = self.words(b"".join(status(1, error) for error in range(256)))
        self.assertEqual([error for error in range(128) if f"error {error:02X} (" in lines[error] and "not a defined error" not in lines[error]], sorted(errors))
        self.assertEqual([("alert" in line) for line in lines], [error >= 128 for error in range(256)])
        self.assertEqual(lines[0], "< ID 1 Status: ok [to nothing before it]")

    # [L13]
    def test_instructions(self):
        entry = bytes([3]) + word(7, 4) + bytes([9]) + word(-1, 4)
        for bytes_, said in [
                (packet(1, PING), "> ID 1 Ping"), (packet(254, PING), "> all Ping"),
                (packet(1, PING, b"\1"), "> ID 1 Ping: 01 (it takes no parameters)"),
                (READ_POSITION, "> ID 1 Read present position"),
                (packet(1, READ, b"\1"), "> ID 1 Read: 01 (it takes an address and a length, four bytes)"),
                (packet(1, READ, word(116) + word(2)), "> ID 1 Read goal position (only bytes 116 to 117)"),
                (packet(1, READ, word(135) + word(1)), "> ID 1 Read present position (only byte 135)"),
                (packet(1, READ, word(63) + word(3)), "> ID 1 Read no register at 63, torque enable, lamp"),
                (packet(1, READ, word(7) + word(0)), "> ID 1 Read: (it asks for no bytes)"),
                (packet(1, READ, word(65535) + word(65535)), "> ID 1 Read no register at 65535 to 131069"),
                (packet(1, WRITE, at(116, -5)), "> ID 1 Write goal position = -5"),
                (packet(1, WRITE, word(116)), "> ID 1 Write: 74 00 (it has no data)"),
                (packet(1, WRITE, b"\1"), "> ID 1 Write: 01 (it takes an address of two bytes, and data)"),
                (packet(1, WRITE, at(48, 100) + word(200, 4)), "> ID 1 Write max position = 100, min position = 200"),
                (packet(1, WRITE, word(118) + b"\1\2\3"), "> ID 1 Write goal position (only bytes 118 to 119) = 01 02, no register at 120 = 03"),
                (packet(1, WRITE, at(20, -131073)), "> ID 1 Write homing offset = -131073 [stuffed: 1 FD]"),
                (packet(1, 4, at(65, 1, 1)), "> ID 1 Reg Write lamp = 1"), (packet(1, 5), "> ID 1 Action"),
                (packet(1, 8), "> ID 1 Reboot"),
                (packet(1, 6, b"\xff"), "> ID 1 Factory Reset: FF (everything, the ID too)"),
                (packet(1, 6, b"\1"), "> ID 1 Factory Reset: 01 (all but the ID)"),
                (packet(1, 6, b"\2"), "> ID 1 Factory Reset: 02 (all but ID and baud code)"),
                (packet(1, 6, b"\3"), "> ID 1 Factory Reset: 03 (its option is not defined)"),
                (packet(1, 6), "> ID 1 Factory Reset: (its option is not defined)"),
                (packet(1, 0x10, b"\1\2"), "> ID 1 undefined instruction 10: 01 02"),
                (packet(254, 0x82, word(132) + word(4) + b"\1\2"), "> all Sync Read present position from IDs 1, 2"),
                (packet(254, 0x82, word(132) + word(4) + b"\1"), "> all Sync Read present position from ID 1"),
                (packet(254, 0x82, word(1)), "> all Sync Read: 01 00 (it takes an address, a length and a list)"),
                (packet(254, 0x83, word(116) + word(4) + entry), "> all Sync Write: ID 3 goal position = 7; ID 9 goal position = -1"),
                (packet(254, 0x83, word(116) + word(4) + entry[:-1]),
                 "> all Sync Write: ID 3 goal position = 7, and 09 FF FF FF (its list is cut short, and no device acts on that)"),
                (packet(254, 0x83, word(64) + word(2) + b"\1\1\1\1\0\0"), "> all Sync Write: ID 1 torque enable = 1, lamp = 1; "
                 "ID 1 torque enable = 0, lamp = 0 (its list has an ID twice, and no device acts on that)"),
                (packet(254, 0x83, word(64) + word(0) + b"\1"), "> all Sync Write: (its length is 0, and no device acts on that)"),
                (packet(254, 0x82, word(65) + word(1) + b"\1\2\1"),
                 "> all Sync Read lamp from IDs 1, 2, 1 (its list has an ID twice, and no device acts on that)"),
                (packet(254, 0x82, word(65) + word(0) + b"\1"), "> all Sync Read from ID 1 (its length is 0, and no device acts on that)"),
                (packet(254, 0x83, word(65) + word(1) + b"\xfd\1"),
                 "> all Sync Write: ID 253 lamp = 1 (its list has an ID above 252, and no device acts on that)"),
                (packet(254, 0x92, 2 * (b"\1" + word(65) + word(1))),
                 "> all Bulk Read: ID 1 lamp; ID 1 lamp (its list has an ID twice, and no device acts on that)"),
                (packet(254, 0x92, b"\1" + word(65) + word(0)), "> all Bulk Read: (a length in it is 0, and no device acts on that)"),
                (packet(254, 0x92, b"\1" + word(132) + word(4) + b"\2" + word(65) + word(1)), "> all Bulk Read: ID 1 present position; ID 2 lamp"),
                (packet(254, 0x92, b"\1" + word(132) + word(4) + b"\2"), "> all Bulk Read: ID 1 present position, and 02 (its list is cut short, and no device acts on that)"),
                (packet(254, 0x93, b"\1" + word(116) + word(4) + word(512, 4) + b"\2" + word(65) + word(1) + b"\1"),
                 "> all Bulk Write: ID 1 goal position = 512; ID 2 lamp = 1"),
                (packet(254, 0x93, b"\1" + word(116) + word(4) + b"\0"), "> all Bulk Write: 01 74 00 04 00 00 (its list is cut short, and no device acts on that)"),
                (packet(1, STATUS), "< ID 1 Status: (it has no error byte) [to nothing before it]"),
                (status(1, 0, b"\1\2"), "< ID 1 Status: ok; 01 02 [to nothing before it]")]:
            with self.subTest(said):
                self.assertEqual(self.words(bytes_), [said])

    # [L15]
    def test_pairs(self):
        """A status beside the instruction that it answers, and what it read from which register."""
        sync = packet(254, 0x82, word(65) + word(1) + b"\1\2")
        bulk = packet(254, 0x92, b"\1" + word(132) + word(4) + b"\2" + word(65) + word(1))
        def nothing(more=""):
            return f"Status: ok{more} [to nothing before it]"

        for parts, said in [
                ([packet(1, PING), status(1, 0, MODEL)], ["Status: ok; model number = 1030, firmware version = 38 [to the Ping at 0]"]),
                ([packet(1, PING), status(2, 0, MODEL)], [nothing("; 06 04 26")]), ([READ_POSITION, status(1, 7)],
                 ["Status: error 07 (no register there, read only, or locked while torque is on) [to the Read at 0]"]),
                ([READ_POSITION, status(1, 0, word(9, 4)), status(1)], ["Status: ok; present position = 9 [to the Read at 0]", nothing()]),
                ([READ_POSITION, status(1, 0, b"\1\2")], ["Status: ok; 01 02 (not as many bytes of data as were asked for) [to the Read at 0]"]),
                ([packet(1, PING), status(1, 0, b"\1")], ["Status: ok; 01 (not as many bytes of data as were asked for) [to the Ping at 0]"]),
                ([packet(254, PING), status(1, 0, MODEL), status(7, 0, MODEL)], ["Status: ok; model number = 1030, firmware version = 38 [to the Ping at 0]"] * 2),
                ([packet(254, PING), status(1), status(1)], ["Status: ok [to the Ping at 0]", nothing()]),
                ([READ_POSITION, status(1, 0x80)], ["Status: ok, alert (hardware error is not 0) [to the Read at 0]"]),
                ([packet(1, READ, word(132) + word(0)), status(1)], ["Status: ok [to the Read at 0]"]),
                ([packet(254, PING, b"\1"), status(1)], [nothing()]),
                ([sync, status(1, 0, b"\0"), status(2, 0x80, b"\1"), status(3, 0, b"\1")],
                 ["Status: ok; lamp = 0 [to the Sync Read at 0]", "Status: ok, alert (hardware error is not 0); lamp = 1 [to the Sync Read at 0]", nothing("; 01")]),
                ([bulk, status(1, 0, word(-2, 4)), status(2, 0, b"\1")],
                 ["Status: ok; present position = -2 [to the Bulk Read at 0]", "Status: ok; lamp = 1 [to the Bulk Read at 0]"]),
                ([damaged(packet(1, PING)), status(1, 3), status(1, 3)],
                 ["Status: error 03 (wrong checksum) [to the bad checksum at 0]", "Status: error 03 (wrong checksum) [to nothing before it]"]),
                ([packet(254, WRITE, at(65, 1, 1)), status(1)], [nothing()]), ([packet(1, 0x10), status(1, 2)],
                 ["Status: error 02 (undefined instruction, or Action with nothing registered) [to the undefined instruction at 0]"]),
                ([damaged(packet(1, PING)), packet(1, PING), status(1, 3), status(1, 0, MODEL)],
                 ["Status: error 03 (wrong checksum) [to the bad checksum at 0]", "Status: ok; model number = 1030, firmware version = 38 [to the Ping at 10]"])]:
            with self.subTest(said):
                lines = [line.split(" ", 3)[3] for line in self.words(b"".join(parts)) if line[0] == "<"]
                self.assertEqual(lines, said)


class Times(Folder):
    LINES = [(0.001, packet(1, PING)), (0.0015, status(1, 0, MODEL))]
    SAID = ["> ID 1 Ping", "< ID 1 Status: ok; model number = 1030, firmware version = 38 [to the Ping at 0, 0.500 ms later]"]

    def timed(self, text, *options):
        return [(line.split()[0], " ".join(line.split()[2:])) for line in self.show(text, *options)]

    # [L14]
    def test_forms(self):
        """Comma or blank, one byte or many in a line, 0x, a heading, comments, ends of lines."""
        whole = "".join(f"{time} {data.hex(' ')}\n" for time, data in self.LINES)
        bytes_ = "".join(f"{time:.7f},0x{byte:02X},,\r\n" for time, data in self.LINES for byte in data)
        for text in [whole, whole.upper(), whole.rstrip("\n"), whole.replace(" ", "\t"), whole.replace(" ", ", "), "# a log\n\n" + whole, "Time [s],Value,Parity\n" + whole, ("\ufeff" + whole).encode(), ("Time [\u00b5s]\n" + whole).encode(),
                     bytes_, "Time [s],Value,Parity Error,Framing Error\r\n" + bytes_, whole.replace("0.001 ", "1e-3 ").replace("0.0015", "+15.0E-4"),
                     "".join(f"{time}; {data.hex()[:20]} {data.hex()[20:]}  # a packet\n" for time, data in self.LINES)]:
            with self.subTest(text[:30]):
                self.assertEqual(self.timed(text), list(zip(["0.001000", "0.001500"], self.SAID)))
        plain = "".join(f"{data.hex(' ')}\n" for _, data in self.LINES)
        self.assertEqual(self.words(plain), [said.replace(", 0.500 ms later", "") for said in self.SAID])
        self.assertEqual(self.words("-0.5 " + packet(1, PING).hex(" "))[0][-6:], "1 Ping")
        self.assertEqual(self.timed("7 00\n\n8\n12\n12 " + packet(1, PING).hex(" "))[1], ("12.000000", "> ID 1 Ping"))

    # [L14]
    def test_wrong_text(self):
        for text, line, why in [("0.1 FF\n0.2 FG\n", 2, "not bytes in hex"),
                                ("0.1 FF\nFF FF\n", 2, "it does not begin with a time in seconds"),
                                ("0.2 FF\n0.1 FF\n", 2, "its time lies before that of the line above"),
                                ("hello\n", 2, "neither a time in seconds nor bytes in hex; --raw takes the file as it is"),
                                ("hello", 1, "neither a time in seconds nor bytes in hex; --raw takes the file as it is"),
                                ("FF F\nFF FFF", 2, "not bytes in hex"), ("FF 0x\n", 1, "not bytes in hex"),
                                ("0.1 " + "F" * 4096, 1, "a longer word than 4095 characters"),
                                ("1.2.3 FF\n0.1 FF\n", 1, "neither a time in seconds nor bytes in hex; --raw takes the file as it is"),
                                ("0.1 FF\n1e99 FF", 2, "it does not begin with a time in seconds"),
                                ("0.1 FF\n0.2 FF\n1.2.3 FF", 3, "it does not begin with a time in seconds"),
                                ("# x\nTime\nText\n", 2, "neither a time in seconds nor bytes in hex; --raw takes the file as it is")]:
            with self.subTest(text[:20]):
                capture = self.file("capture", text)
                code, _, err = run("show", capture)
                self.assertEqual((code, err), (FAILED, f"dxl: {capture}:{line}: {why}\n"))
        code, out, _ = run("show", self.file("capture", packet(1, PING).hex() + "\nFG\n"))  # what stands before it is shown
        self.assertEqual((code, out.split()[1:]), (FAILED, [">", "ID", "1", "Ping"]))

    # [L14]
    def test_raw_or_text(self):
        """A file of printed characters is text; --raw says that it is not."""
        capture = self.file("capture", "hello there\n")
        self.assertEqual(run("show", "--raw", capture)[1].splitlines()[0].split("  ")[-1], "noise, 12 bytes: nothing in it begins a packet")
        self.assertEqual(self.words(b" " * 255 + b"\1")[0], "~ noise, 256 bytes: nothing in it begins a packet")
        self.assertEqual(self.words(packet(1, PING)), ["> ID 1 Ping"])

    # [L14 V1]
    def test_gaps(self):
        """A longer silence than the gap ends a segment: a packet that it cuts is none."""
        ping = packet(1, PING)
        text = f"0.0 {ping[:5].hex(' ')}\n0.0015 {ping[5:].hex(' ')}\n"
        self.assertEqual(self.words(text)[0][-6:], "1 Ping")
        cut = text.replace("0.0015", "0.001501")
        self.assertEqual([line[1] for line in self.timed(cut)], ["~ noise, 5 bytes: cut off: 5 bytes of a packet stand at 0", "~ noise, 5 bytes: nothing in it begins a packet"])
        self.assertEqual([each["segment"] for each in self.objects(cut)], [0, 1])
        self.assertEqual(self.words(cut, "--gap", 1501)[0][-6:], "1 Ping")
        self.assertEqual(len(self.words(text, "--gap", 1499)), 2)
        self.assertEqual(len(self.words(text, "--gap", 1459, "--baud", 1000000)), 2)  # five bytes have taken 50 us
        self.assertEqual(self.words(text, "--gap=1460", "--baud=1000000")[0][-6:], "1 Ping")
        self.assertEqual([self.words(text, "--gap", gap, "--baud", 1000000)[0][-6:] == "1 Ping" for gap in (1449, 1450)], [False, True])

    # [L14]
    def test_missing(self):
        """A status that has not come before the next instruction, or before the end, is a line of its own; without times it is none."""
        sync, ping = packet(254, 0x82, word(65) + word(1) + b"\1\2"), packet(3, PING)
        lines = [(0.0, sync), (0.001, status(2, 0, b"\1")), (0.004, ping), (0.009, damaged(status(3, 0, MODEL))),
        (0.02, packet(254, WRITE, at(65, 0, 1))), (0.03, ping)]
        text = "".join(f"{time} {data.hex(' ')}\n" for time, data in lines)
        places = [sum(len(data) for _, data in lines[:i]) for i in range(len(lines))]
        self.assertEqual([line for line in self.timed(text) if line[1][0] == "?"], [
            ("0.004000", "? ID 1 no status to the Sync Read at 0 in 4.000 ms"),
            ("0.020000", f"? ID 3 no status to the Ping at {places[2]} in 16.000 ms; the bad checksum at {places[3]} may have been it"),
            ("0.030000", f"? ID 3 no status to the Ping at {places[5]} in 0.000 ms")])
        self.assertIn(("0.050000", f"? ID 3 no status to the Ping at {places[5]} in 20.000 ms"), self.timed(text + "0.05 00\n"))
        total = run("show", self.file("capture", text))[1].splitlines()[-1]
        self.assertIn("; 3 missing statuses; ", total)
        self.assertNotIn("?", "".join(self.words(b"".join(data for _, data in lines))))
        bad_list = packet(254, 0x92, b"\1" + word(132) + word(4) + b"\2")  # nobody answers that
        self.assertNotIn("?", "".join(self.words(f"0.0 {bad_list.hex(' ')}\n0.5 {ping.hex(' ')}\n", "--id", 1)))
        missing = [each for each in self.objects(text) if each["kind"] == "missing status"]
        self.assertEqual([(each["id"], each["unanswered"], each["waited"]) for each in missing][0], (1, 0, 0.004))

    # [L14]
    def test_over_blocks(self):
        """Times stay with their bytes where a packet lies across two blocks."""
        ping, answer = packet(1, PING), status(1, 0, MODEL)
        lines = ["0.5" + " 00" * 1000] * 65 + ["0.5" + " 00" * 530]
        lines += [f"{0.6 + i / 1000:.3f} {byte:02X}" for i, byte in enumerate(ping)] + [f"{0.7 + i / 1000:.3f} {byte:02X}" for i, byte in enumerate(answer)]
        objects = self.objects("\n".join(lines), "--gap", 1000000)
        self.assertEqual([(each["offset"], each["time"]) for each in objects], [(0, 0.5), (65530, 0.6), (65540, 0.7)])
        self.assertEqual(objects[2]["delay"], 0.091)

    # [L14]
    def test_delays(self):
        ping = packet(1, PING)
        text = f"10.0 {ping.hex(' ')}\n10.000725 {status(1, 0, MODEL).hex(' ')}\n"
        self.assertIn("0.725 ms later", self.words(text)[1])
        self.assertIn("0.625 ms later", self.words(text, "--baud", 1000000)[1])
        self.assertEqual(self.objects(text, "--baud", 1000000)[1]["delay"], 0.000625)

    # [L14]
    def test_first_word(self):
        """Pairs of hex digits are bytes, so a time is written with a point."""
        self.assertEqual(self.words("1000 FF\n"), ["~ noise, 3 bytes: cut off: 1 byte of a packet stands at 2"])
        self.assertEqual(self.timed("1000.0 FF\n")[0][0], "1000.000000")


class Options(Folder):
    WET = ["--baud", "1000000", "examples/wet.txt"]

    def lines(self, *options):
        code, out, err = run("show", *options, *self.WET)
        self.assertEqual((code, err), (DONE, ""))
        return out.splitlines()

    # [L13]
    def test_filters(self):
        """--id and --errors choose among the lines, and nothing else changes."""
        whole = self.lines()
        errors = self.lines("--errors")
        self.assertEqual(errors[:-1], [line for line in whole[:-1] if line[22] in "!~?" or re.search(r": (ok, alert|error \d)", line)])
        about = [line for line in whole[:-1] if line[25:30] == "ID 2 " or (line[25:28] == "all" and "2" in line.split("all", 1)[1])]
        self.assertEqual(self.lines("--id", "2")[:-1], about)
        self.assertEqual(self.lines("--id=2", "--errors")[:-1], [line for line in about if line in errors])
        self.assertEqual(self.lines("--id", "254")[:-1], [line for line in whole if line[25:28] == "all"])
        self.assertEqual((self.lines("--id", "77")[:-1], whole[-1]), ([], self.lines("--id", "77")[-1]))
        self.assertEqual(self.words(packet(254, 5), "--id", "9"), ["> all Action"])

    def test_hex(self):
        bytes_ = Path("examples/wet.bin").read_bytes()
        for line in self.lines("--hex")[:-1]:
            if line[22] != "?":
                shown = bytes.fromhex(line.split(" | ")[1])
                self.assertEqual(bytes_[int(line[12:20]):][:len(shown)], shown)
                self.assertGreater(len(shown), 4)
        self.assertEqual(self.show(bytes(40), "--hex")[0].split(" | ")[1], " ".join(["00"] * 32) + " ..")

    # [L13]
    def test_json(self):
        """An object in each line, with what the lines say."""
        code, out, err = run("show", "--json", "--hex", *self.WET)
        objects = [json.loads(line) for line in out.splitlines()]
        whole = self.lines()[:-1]
        self.assertEqual((code, err, len(objects)), (DONE, "", len(whole)))
        keys = re.search(r"Its keys, where they apply: (.*?)\. Times", run("show", "--help")[1], flags=re.S).group(1)
        self.assertEqual(set().union(*objects) | {"inside"}, set(re.sub(r"\(.*?\)|,|\band\b", " ", keys).split()))
        for each, line in zip(objects, whole):
            self.assertEqual(each["text"], line[33:])
            self.assertEqual(each["offset"], int(line[12:20]))
            self.assertAlmostEqual(each["time"], float(line[:12]))
        read = [each for each in objects if each.get("answers") == 24][0]
        self.assertEqual((read["kind"], read["id"], read["error"], read["alert"], read["registers"], read["delay"], read["bytes"]),
                         ("status", 1, 0, False, [{"address": 132, "count": 4, "name": "present position", "value": 166, "bytes": "A6 00 00 00"}],
                          0.00025, "FF FF FD 00 01 08 00 55 00 A6 00 00 00 8C C0"))
        self.assertEqual({each["reason"] for each in objects if each["kind"] == "noise"}, {"header", "cut off", "ID", "length", "stuffing"})
        name = Path(self.folder.name, 'a"b\\\x1b\u00fc')
        name.write_bytes(packet(1, PING))
        self.assertEqual(json.loads(run("show", "--json", name)[1])["file"], str(name).replace("\x1b", "\\x1B"))

    # [L18]
    def test_bad_options(self):
        usage = run("show", "--help")[1].split("\n\n")[0] + "\n"
        for words, said in [(["--id", "x", "f"], "--id x: not a number; an ID is 0 to 252, or 254 for all devices"),
                            (["--id", "255", "f"], "--id 255: 255 is never an ID"),
                            (["--id=253", "f"], "--id 253: 253 is an ID in Protocol 1.0 only"),
                            (["f", "--id"], "--id: its value is missing"),
                            (["--protocol", "3", "f"], "--protocol 3: a protocol is 2, 1 or mercury"),
                            (["--gap", "-1", "f"], "--gap -1: not a number"),
                            (["--gap", "0x1", "f"], "--gap 0x1: numbers are given in decimal"),
                            (["--gap", "9999999999", "f"], "--gap 9999999999: too large"),
                            (["--baud", "299", "f"], "--baud 299: a line has 300 bits per second or more"),
                            (["--hex=1", "f"], "--hex=1: no such option; a file of this name is given with ./ before it"),
                            (["--hexx", "f"], "--hexx: no such option; a file of this name is given with ./ before it"),
                            (["--hex"], "show: FILE is missing")]:
            with self.subTest(words):
                self.assertEqual(run("show", *words), (USAGE, "", f"dxl: {said}\n{usage}"))

    # [L13]
    def test_several_files(self):
        """Each with its name above it; one that cannot be read keeps no other from being shown."""
        none, ping = self.file("none"), self.file("ping", packet(1, PING))
        code, out, err = run("show", ping, none, self.folder.name, ping)
        one = run("show", ping)[1]
        self.assertEqual((code, out), (FAILED, f"{ping}:\n{one}\n{none}:\n\n{self.folder.name}:\n\n{ping}:\n{one}"))
        self.assertEqual(err, f"dxl: {none}: No such file or directory\ndxl: {self.folder.name}: Is a directory\n")
        self.assertEqual(subprocess.run([PROGRAM, "show", "-"], input=packet(1, PING), capture_output=True, check=False).stdout.decode(), one)
        self.assertEqual(run("show", "-", preexec_fn=lambda: os.close(0))[1], "0 bytes: 0 packets, 0 with an error or the alert; 0 bad checksums; 0 bytes of noise\n")

    # [L13]
    def test_colour(self):
        """On a terminal alone."""
        ours, theirs = pty.openpty()
        subprocess.run([PROGRAM, "show", "examples/capture.bin"], stdout=theirs, check=True, timeout=PATIENCE)
        os.close(theirs)
        text = os.read(ours, 10000)
        os.close(ours)
        self.assertIn(b"\x1b[33m       0  ~", text)
        self.assertNotIn("\x1b", run("show", "examples/capture.bin")[1])

    # [L13 L18]
    def test_nobody_takes_it(self):
        """A full disk, a closed stream, and a reader that has gone: a message and an exit status, soon."""
        long_one = self.file("long", packet(1, PING) * 300_000)
        for words in [["show", long_one], ["show", "--json", long_one], ["timeline", long_one], ["log", "--help"]]:
            with open("/dev/full", "wb") as full:
                ended = subprocess.run([PROGRAM, *map(str, words)], stdout=full, stderr=subprocess.PIPE, check=False, timeout=PATIENCE)
            self.assertEqual((ended.returncode, ended.stderr), (FAILED, b"dxl: standard output: No space left on device\n"))
            self.assertEqual(run(*words, preexec_fn=lambda: os.close(1)),
            (FAILED, "", "dxl: standard output: Bad file descriptor\n"))
        for words in [["show", long_one], ["timeline", long_one]]:
            program = subprocess.Popen([PROGRAM, *map(str, words)], stdout=subprocess.PIPE, stderr=subprocess.PIPE)
            program.stdout.read(1000)
            program.stdout.close()
            self.assertEqual((program.stderr.read(), program.wait(PATIENCE)), (b"dxl: standard output: Broken pipe\n", FAILED))
            program.stderr.close()

    # [L13]
    def test_endless(self):
        """A capture without an end is read only as long as somebody takes the lines."""
        for command in ["show", "timeline"]:
            with subprocess.Popen(["yes", packet(1, PING).hex(" ")], stdout=subprocess.PIPE) as endless:
                program = subprocess.Popen([PROGRAM, command, "-"], stdin=endless.stdout, stdout=subprocess.PIPE, stderr=subprocess.PIPE)
                endless.stdout.close()
                self.assertIn(b"Ping" if command == "show" else b"html", program.stdout.read(1000))
                program.stdout.close()
                try:
                    self.assertEqual(program.wait(PATIENCE), FAILED)
                finally:
                    program.kill()
                self.assertEqual(program.stderr.read(), b"dxl: standard output: Broken pipe\n")
                program.stderr.close()

    # [L13]
    def test_long_captures(self):
        """Of half a gigabyte, in 32 MB of memory. It takes no room on the disk."""
        long_one = self.file("long", packet(1, PING))
        os.truncate(long_one, 1 << 29)
        code, out, err = run("show", long_one, preexec_fn=lambda: resource.setrlimit(resource.RLIMIT_AS, (1 << 25, 1 << 25)))
        self.assertEqual((code, err), (DONE, ""))
        self.assertEqual(out.splitlines()[1].split("  ")[-1], f"noise, {(1 << 29) - 10} bytes: nothing in it begins a packet")

    def test_progress(self):
        """What takes long is told on a terminal, with what was read. The timer's signals are sent by the test."""
        ours, theirs = pty.openpty()
        program = subprocess.Popen([PROGRAM, "show", "-"], stdin=subprocess.PIPE, stdout=subprocess.DEVNULL, stderr=theirs)
        os.close(theirs)
        program.stdin.write(bytes(3 << 20))
        program.stdin.flush()
        text, ends = b"", time.monotonic() + PATIENCE
        os.set_blocking(ours, False)
        while b"reading the capture, " not in text and time.monotonic() < ends:
            program.send_signal(signal.SIGALRM)
            time.sleep(0.02)
            try:
                text += os.read(ours, 1000)
            except BlockingIOError:
                pass
        program.stdin.close()
        self.assertEqual((program.wait(PATIENCE), re.match(rb"\rdxl: reading the capture, [123] MB, \d+ s", text) is not None),
        (DONE, True), text)
        os.close(ours)


class Timeline(Folder):
    def page(self, *words):
        code, out, err = run("timeline", *words)
        self.assertEqual((code, err), (DONE, ""))
        rows = out.split("const EVENTS = [\n")[1].split("];\n")[0]
        return out, json.loads("[" + rows.rstrip().rstrip(",") + "]")

    # [L16]
    def test_wet(self):
        """A row for each line of dxl show, with its places; the page asks for nothing from elsewhere."""
        page, rows = self.page("--baud", 1000000, "examples/wet.txt")
        objects = [json.loads(line) for line in run("show", "--json", "--baud", 1000000, "examples/wet.txt")[1].splitlines()]
        kinds = ["instruction", "status", "bad checksum", "noise", "missing status"]
        self.assertEqual([(kinds[row[0]], row[1], row[4], row[9]) for row in rows], [(each["kind"], each.get("id", -1), each["offset"], each["text"]) for each in objects])
        self.assertEqual([row[7] for row in rows], [each.get("answers", each.get("unanswered", -1)) for each in objects])
        for row, each in zip(rows, objects):
            began = each["time"] - each.get("waited", 0)
            self.assertAlmostEqual(row[2], began * 1e6, places=2)
            self.assertAlmostEqual(row[3] - row[2], each["waited"] * 1e6 if "waited" in each else each["length"] * 10, places=2)
        self.assertEqual(sum(row[6] for row in rows), len(run("show", "--errors", *Options.WET)[1].splitlines()) - 1)
        self.assertIsNone(re.search(r"https?:|src=|@import|url\(|fetch\(|XMLHttp|<link|@EVENTS@|@ABOUT@", page))
        self.assertEqual((page.count("<script>"), page.count("</script>"), page.rstrip()[-7:]), (1, 1, "</html>"))
        about = page.split("const ABOUT =\n")[1].split("\n;\n")[0]
        self.assertIn('name: "examples/wet.txt", timed: true, first: 4000.000', about)
        source = Path("cli/timeline.html").read_text(encoding="utf-8")
        self.assertEqual((page.startswith(source.split("@EVENTS@\n")[0]), page.endswith(source.split("@ABOUT@\n")[1])), (True, True))

    # [L16]
    def test_without_times(self):
        page, rows = self.page("examples/wet.bin")
        self.assertTrue(all(row[2] == row[4] and row[3] == row[4] + row[5] for row in rows))
        self.assertIn("timed: false", page)
        self.assertEqual(len(self.page("--protocol", 1, "examples/old_boards.bin")[1]), 7)
        self.assertEqual(self.page(self.file("empty", b""))[1], [])

    # [L16]
    def test_names(self):
        """A name cannot end the script."""
        path = Path(self.folder.name, "<script>'\"\\")
        path.write_bytes(packet(1, PING))
        page = self.page(path)[0]
        self.assertEqual((page.count("<script>"), page.count("</script>")), (1, 1))
        self.assertIn(html.unescape("\\u003Cscript>'\\\"\\\\\""), page)

    # [L16 L18]
    def test_words(self):
        none = self.file("none")
        self.assertEqual(run("timeline", none), (FAILED, "", f"dxl: {none}: No such file or directory\n"))
        code, out, err = run("timeline", self.file("text", "0.1 FF\n0.2 XX\n"))
        self.assertEqual((code, err), (FAILED, f"dxl: {self.file('text')}:2: not bytes in hex\n"))
        self.assertEqual(run("timeline", "--hex", none)[0], USAGE)
        ours, theirs = pty.openpty()
        ended = subprocess.run([PROGRAM, "timeline", "examples/wet.bin"], stdout=theirs, stderr=subprocess.PIPE, check=False, timeout=PATIENCE)
        os.close(theirs)
        os.close(ours)
        self.assertEqual((ended.returncode, ended.stderr.split(b"\n")[0]),
                         (USAGE, b"dxl: standard output: a page for a browser is printed: send it to a file, > OUT.html"))


class Logs(Folder):
    def setUp(self):
        super().setUp()
        self.log = self.file("log")
        self.captures = ["examples/wet.bin", self.file("empty", b""), "examples/exchange.bin"]
        self.assertEqual(run("log", "write", self.log, *self.captures), (DONE, "", ""))

    # [L17]
    def test_list(self):
        self.assertEqual(run("log", "list", self.log),
        (DONE, "segment 0: 443 bytes at 1056, 28 packets, 3 bad checksums; IDs 1, 2, 3, 254\n"
                         "segment 1: 0 bytes at 1499, 0 packets, 0 bad checksums\nsegment 2: 24 bytes at 1499, 2 packets, 0 bad checksums; IDs 2\n", ""))

    # [L17]
    def test_show(self):
        """As dxl show prints the capture, with the same options."""
        for number, capture in enumerate(self.captures):
            for options in [[], ["--hex", "--errors"], ["--id", "2"], ["--protocol", "mercury"]]:
                self.assertEqual(run("log", "show", *options, self.log, number), run("show", *options, capture))
        objects = [json.loads(line) for line in run("log", "show", "--json", self.log, 0)[1].splitlines()]
        self.assertEqual((objects[0]["file"], len(objects)), (str(self.log), 33))
        why = f"dxl: {self.log}: no segment 3: it has 3, numbered from 0\n"
        self.assertEqual(run("log", "show", self.log, 3), (NO, "", why))
        self.assertEqual(run("log", "extract", self.log, 3, "x"), (NO, "", why))

    # [L17 L9]
    def test_extract(self):
        out = self.file("out")
        for number, capture in enumerate(self.captures):
            self.assertEqual(run("log", "extract", self.log, number, out), (DONE, "", ""))
            self.assertEqual(out.read_bytes(), Path(capture).read_bytes())
        before = self.log.read_bytes()
        self.assertEqual(run("log", "extract", self.log, 0, self.log),
        (FAILED, "", f"dxl: {self.log}: the log and the capture to be written are one file\n"))
        self.assertEqual(self.log.read_bytes(), before)
        self.assertEqual(run("log", "extract", self.log, 0, self.folder.name),
        (FAILED, "", f"dxl: {self.folder.name}: not a regular file\n"))
        code, text, err = run("log", "extract", self.log, 0, out, preexec_fn=lambda: resource.setrlimit(resource.RLIMIT_FSIZE, (100, 100)))
        self.assertEqual((code, text, err, out.read_bytes()),
        (FAILED, "", f"dxl: {out}: File too large\n", Path(self.captures[2]).read_bytes()))

    # [L17]
    def test_last(self):
        """A line for each ID that has a packet; each is what the question for that ID answers."""
        lines = run("log", "last", self.log)[1].splitlines()
        self.assertEqual([line.split(":")[0] for line in lines], ["ID 1", "ID 2", "ID 3", "ID 254"])
        for line in lines:
            self.assertEqual(run("log", "last", self.log, line.split(":")[0][3:])[1], line.split(": ")[1] + "\n")
        self.assertEqual(run("log", "write", self.log, self.file("empty"))[0], DONE)
        self.assertEqual(run("log", "last", self.log), (NO, "no packet for any ID\n", ""))


class Checked(Folder):
    """Random and damaged files, by the tool with the compiler's checks: whatever it says, it ends by itself, as it should."""

    def held(self, *words, ends=(DONE, NO, FAILED, ALTERED)):
        ended = subprocess.run([CHECKED, *map(str, words)], stdout=subprocess.DEVNULL, stderr=subprocess.PIPE, check=False, timeout=PATIENCE)
        self.assertNotIn(b"Sanitizer", ended.stderr)
        self.assertNotIn(b"runtime error", ended.stderr)
        self.assertIn(ended.returncode, ends, ended.stderr[-2000:])

    def files(self, make, count):
        chance = random.Random(f"{make.__name__} {count}")
        return [self.file(f"{make.__name__}{i}", make(chance)) for i in range(count)]

    # [L13]
    def test_captures(self):
        def noise(chance):
            return chance.randbytes(chance.randrange(3000))

        def mixed(chance):
            return random_capture(chance, chance.randrange(40))

        def long(chance):
            return random_capture(chance, 20) + chance.randbytes(65536 - chance.randrange(2000)) + random_capture(chance, 60)

        files = self.files(noise, 50) + self.files(mixed, 250) + self.files(long, 6)
        for options in [["--hex"], ["--json"], ["--errors", "--id", "2"], ["--protocol", "1", "--hex"], ["--protocol", "mercury", "--json"]]:
            self.held("show", *options, *files, ends=[DONE])
        for file in files[::30]:
            self.held("timeline", file, ends=[DONE])

    # [L14]
    def test_texts(self):
        good = Path("examples/wet.txt").read_bytes()

        def altered(chance):
            bytes_ = bytearray(good[:chance.randrange(len(good) + 1)])
            for _ in range(chance.randrange(4)):
                bytes_[chance.randrange(len(bytes_)) if bytes_ else 0:0] = chance.choice([b"\n", b",", b"#", b"x", b"-", b"e", b".", b"9" * 60, b"\0", b"\xff"])
            return bytes(bytes_)

        def letters(chance):
            return bytes(chance.choice(b"0123456789ABCDEFx.,;# \t\r\n+-e") for _ in range(chance.randrange(400)))

        for options in [["--baud", "57600"], ["--gap", "0", "--json"]]:
            self.held("show", *options, *self.files(altered, 400), *self.files(letters, 300))

    # [L17]
    def test_logs(self):
        log = self.file("log")
        self.assertEqual(run("log", "write", log, "examples/wet.bin", "examples/capture.bin", "examples/exchange.bin")[0], DONE)
        good, chance = log.read_bytes(), random.Random(7)
        for _ in range(20):
            bytes_ = bytearray(good)
            for _ in range(chance.randrange(3)):
                place = chance.choice([0, 4, 8, 12, 16, 20, 24, 28, 32, 36, 40 + 4 * chance.randrange(254)])
                struct.pack_into("<I", bytes_, place, chance.choice([0, 1, 2, 3, 1056, 0xFFFFFFFF, chance.randrange(1 << 32)]))
            log.write_bytes(bytes(bytes_[:chance.choice([len(bytes_), chance.randrange(len(bytes_))])]))
            for words in [["check", log], ["list", log], ["last", log], ["show", log, 1], ["extract", log, 2, self.file("x")], ["salvage", log, self.file("y")]]:
                self.held("log", *words)

    # [L11]
    def test_plans(self):
        goals, chance = self.file("goals", "3 7\n9 255\n"), random.Random(11)
        plan = packet(254, 0x83, word(116) + word(4) + bytes([3]) + word(7, 4) + bytes([9]) + word(255, 4))
        for i in range(12):
            bytes_ = bytearray(plan if i % 2 else plan.hex(" ").encode())
            bytes_[chance.randrange(len(bytes_))] = chance.randrange(256)
            file = self.file("plan", bytes(bytes_[:chance.randrange(len(bytes_) + 1)]))
            self.held("plan", "check", goals, file)
            self.held("plan", "show", file)


if __name__ == "__main__":
    sys.exit(suite.run(usage=None if PROGRAM else "show_test.py PROGRAM CHECKED", done="dxl show"))
