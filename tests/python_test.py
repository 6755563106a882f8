"""Holds python/mednukals.py to the header and to the packets, and runs its examples: usage python_test.py CC LIBRARY..., in the
repository's root

LIBRARY is the shared library, and after it those over other checksum functions. Numbers, texts, records and types are those of the
header. The docstrings run as tests, and so does what README.md shows. What the library answers is compared elsewhere; here it is
that its answers come through: on the published packets, and on random ones beside the encoder of examples/talk.py.
"""
import array
import ctypes
import doctest
import inspect
import os
import pickle
import random
import re
import subprocess
import sys
import tempfile
import time
import unittest
from pathlib import Path

import suite
from check_header import without_comments
from check_vectors import rows

CC, LIBRARY, *OTHERS = sys.argv[1:] if len(sys.argv) > 2 else ("", "")
os.environ["MEDNUKALS_LIB"] = LIBRARY
sys.path[:0] = ["python", "examples"]
if LIBRARY:
    import mednukals
    from mednukals import Board, Instruction, Kind, Reader, Refusal
import talk

HEADER = Path("include/mednukals.h").read_text(encoding="utf-8")
CODE = without_comments(HEADER)
PATIENCE = 60  # seconds for one command
ROUNDS = 300
# Calls that the module has no use for: it has those on a board, the reader in parts, and the version of the library's symbols.
NOT_CALLED = {"dxl_reader_feed", "dxl_reader_gap", "dxl_device", "dxl_exchange", "dxl_carry_out", "dxl_carry_out_packet", "dxl_version"}
NOT_HERE = {"dxl_board", "dxl_reader", "dxl_answer", "dxl_carried"}  # records, likewise
PING = bytes.fromhex("FF FF FD 00 01 03 00 01 19 4E")


def run(*words, code=0, **environment):
    """What a command prints, or says where it ends with another code."""
    ended = subprocess.run(words, capture_output=True, text=True, timeout=PATIENCE, check=False,
                           env={**os.environ, "PYTHONPATH": "python", **environment})
    if ended.returncode != code:
        raise AssertionError(f"{words}: {ended.returncode} {ended.stdout}{ended.stderr}")
    return ended.stderr if code else ended.stdout


class Header(unittest.TestCase):
    """One place for each number: the header. The module says them again, and is held to it."""

    def numbers(self, begin=""):
        found = re.findall(rf"\bDXL_{begin}(\w+)\s*=\s*(\w+)", CODE)
        return {name: int(value, 0) for name, value in found}

    def test_version(self):
        self.assertIn(f'#define DXL_VERSION "{mednukals.__version__}"\n', HEADER)

    def test_numbers(self):
        names = {name for name, value in vars(mednukals).items() if name.isupper() and isinstance(value, int)}
        self.assertGreater(len(names), 8)
        there = self.numbers()
        self.assertEqual({name: getattr(mednukals, name) for name in names}, {name: there[name] for name in names})

    def test_enums(self):
        for names, begin in (Instruction, "INST_"), (mednukals.StatusError, "ERROR_"):
            self.assertEqual({name.name: name.value for name in names}, self.numbers(begin))
        there = self.numbers()
        self.assertEqual(there["NO_EVENT"], 0)
        for names in Kind, mednukals.Why:
            self.assertEqual({name.name: name.value for name in names}, {name.name: there[name.name] for name in names})

    def test_refusals(self):
        text = re.search(r"/\* Refusals\..*?enum \{(.*?)\};", HEADER, flags=re.S).group(1)
        found = re.findall(r"DXL_(\w+) = (\d+),? +/\*(.*?)\*/", text, flags=re.S)
        self.assertEqual(mednukals.REFUSALS, {int(number): (name, " ".join(words.split())) for name, number, words in found})

    def test_registers(self):
        addresses, sizes, fresh = (self.numbers(begin) for begin in ("REG_", "SIZE_", "FRESH_"))
        comments = dict(re.findall(r"DXL_REG_(\w+) = \d+, +/\* (.*) \*/", HEADER))
        there = {}
        for name, address in addresses.items():
            area, access = comments[name].split(", ")
            limits = None if access == "read only" else tuple(map(int, access.split(" to ")))
            there[name.lower()] = (address, sizes[name], fresh[name], area, limits)
        self.assertEqual({name: tuple(register) for name, register in mednukals.REGISTERS.items()}, there)

    def test_records(self):
        """Sizes and offsets, as the compiler has them."""
        records = {name: value for name, value in vars(mednukals).items() if name.startswith("dxl_")}
        declared = set(re.findall(r"^struct (\w+) \{", CODE, flags=re.M))
        self.assertEqual(set(records), declared - NOT_HERE)
        lines = []
        for name, record in records.items():
            said = re.search(rf"^struct {name} \{{(.*?)^\}};", CODE, flags=re.M | re.S).group(1)
            fields = re.findall(r"(\w+)(?:\[\w+\])?;", said)
            self.assertEqual([field[0] for field in record._fields_], fields)
            lines.append(f'printf("{name} %zu\\n", sizeof(struct {name}));')
            lines += [f'printf("{name}.{field} %zu %zu\\n", offsetof(struct {name}, {field}), sizeof(((struct {name} *)0)->{field}));'
                      for field in fields]
        with tempfile.TemporaryDirectory() as folder:
            source = Path(folder, "records.c")
            source.write_text('#include <stdio.h>\n#include "mednukals.h"\nint main(void)\n{\n' + "\n".join(lines) + "\n}\n", encoding="utf-8")
            run(CC, "-Iinclude", "-o", f"{folder}/records", str(source))
            printed = run(f"{folder}/records")
        ours = []
        for name, record in records.items():
            ours.append(f"{name} {ctypes.sizeof(record)}")
            ours += [f"{name}.{field} {getattr(record, field).offset} {getattr(record, field).size}" for field, _ in record._fields_]
        self.assertEqual(ours, printed.splitlines())

    def test_calls(self):
        """Each call's result and arguments."""
        types = {"uint8_t": ctypes.c_uint8, "uint16_t": ctypes.c_uint16, "int32_t": ctypes.c_int32, "int64_t": ctypes.c_int64,
                 "size_t": ctypes.c_size_t, "const uint8_t *": mednukals._IN, "uint8_t *": mednukals._OUT,
                 "size_t *": mednukals._COUNT, "const uint32_t *": mednukals._NUMBERS, "uint32_t *": mednukals._NUMBERS,
                 "const int32_t *": ctypes.POINTER(ctypes.c_int32)}

        def type_of(text):
            text = re.sub(r"\w+\[\w+\]$", "*", " ".join(text.split()))
            text = re.sub(r"(?<=\*)\w+$|(?<=\w) \w+$", "", text)
            return getattr(mednukals, text.removeprefix("struct ")) if text.startswith("struct ") else types[text]

        declared = re.findall(r"^((?:struct )?\w+) (dxl_\w+)\(([^{;]*)\);", CODE, flags=re.M)
        there = {name: (type_of(f"{result} _"), *map(type_of, arguments.split(",")))
                 for result, name, arguments in declared if name not in NOT_CALLED}
        self.assertEqual(mednukals._CALLS, there)


class Module(unittest.TestCase):
    def test_docstrings(self):
        failed, tried = doctest.testmod(mednukals)
        self.assertEqual(failed, 0)
        self.assertGreater(tried, 25)
        for name in mednukals.__all__:
            value = getattr(mednukals, name)
            if callable(value):
                self.assertTrue(inspect.getdoc(value), name)

    def test_readme(self):
        [shown] = re.findall(r"^```python\n(.*?)^```$", Path("README.md").read_text(encoding="utf-8"), flags=re.M | re.S)
        failed, tried = doctest.DocTestRunner().run(doctest.DocTestParser().get_doctest(shown, {}, "README.md", None, 0))
        self.assertEqual((failed, tried > 5), (0, True))

    def test_all(self):
        """What has no underscore before it can be imported by *, but for numbers and records of the header."""
        own = {name for name, value in vars(mednukals).items() if not name.startswith(("_", "dxl_"))
               and getattr(value, "__module__", None) == "mednukals"}
        self.assertLessEqual(own, set(mednukals.__all__))
        self.assertTrue(all(hasattr(mednukals, name) for name in mednukals.__all__))

    def test_annotations(self):
        own = [value for value in vars(mednukals).values() if getattr(value, "__module__", None) == "mednukals"]
        functions = [value for value in own if inspect.isfunction(value)]
        for one in [value for value in own if inspect.isclass(value)]:
            members = [member.fget if isinstance(member, property) else member for member in vars(one).values()]
            functions += [member for member in members if inspect.isfunction(member) and member.__code__.co_filename == mednukals.__file__]
        self.assertGreater(len(functions), 40)
        for function in functions:
            named = set(inspect.signature(function).parameters) - {"self"} | {"return"}
            self.assertLessEqual(named, set(function.__annotations__), function)


class Published(unittest.TestCase):
    """The maker's packets, and what our device answers to them."""

    def test_packets(self):
        for document, line, _, status, text in rows("packets.txt"):
            with self.subTest(f"{document} {line}"):
                packet = bytes.fromhex(text)
                good = mednukals.crc16(packet[:-2]) == int.from_bytes(packet[-2:], "little")
                if status == "good":
                    [event] = mednukals.events(b"\0" + packet)
                    self.assertEqual((good, event.offset, event.kind, event.packet), (True, 1, Kind.PACKET, packet))
                    self.assertEqual(mednukals.encode(event.id, event.body[0], event.body[1:]), packet)
                elif status == "misprint":
                    self.assertNotIn(packet, [event.packet for event in mednukals.events(packet)])

    def test_old_packets(self):
        for document, line, _, _, text in rows("packets_v1.txt"):
            with self.subTest(f"{document} {line}"):
                packet, protocol = bytes.fromhex(text), {"003": "1", "004": "mercury"}[document]
                [event] = mednukals.events(b"\0\xFF" + packet, protocol)
                self.assertEqual((event.offset, event.kind, event.packet), (2, Kind.PACKET, packet))
                encode = {"1": mednukals.p1_encode, "mercury": mednukals.mercury_encode}[protocol]
                self.assertEqual(encode(event.id, event.body[0], event.body[1:]), packet)

    def test_exchanges(self):
        packets = {(document, line): bytes.fromhex(text) for document, line, _, _, text in rows("packets.txt")}
        for document, line, words, reply, answer in rows("exchanges.txt"):
            with self.subTest(f"{document} {line} {words}"):
                number, *state = words.split()
                board = Board(int(number))
                if state[:1] == ["at"]:
                    board.measure(int(state[1]))
                if state[:1] == ["after"]:
                    board.feed(packets[document, state[1]])
                replies = [event.reply for event in board.feed(packets[document, line]) + board.gap() if event.reply]
                sent = b"".join(reply.status() for reply in replies)
                if answer == "as printed":
                    self.assertEqual(sent, packets[document, reply])
                elif answer.startswith("error "):
                    self.assertEqual(sent, talk.status(int(number), int(answer[6:8], 16)))
                else:
                    self.assertEqual((sent, answer[:6]), (b"", "silent"))


class Found(unittest.TestCase):
    def test_no_packet_begins_in_another(self):
        """A packet that ends in FF FF FD, and behind it the rest of another that begins so: reading goes on behind the first."""
        ends = (mednukals.encode(1, 3, bytes([*n.to_bytes(2, "little"), 0xFF])) for n in range(1 << 16))
        packet = next(packet for packet in ends if packet.endswith(b"\xFF\xFF\xFD"))
        self.assertEqual([event.packet for event in mednukals.events(packet + PING[3:])], [packet])
        self.assertEqual([event.packet for event in mednukals.events(packet[-3:] + PING[3:])], [PING])

    def test_253_is_an_id_of_protocol_1_only(self):
        packet = mednukals.p1_encode(253, 1)
        self.assertEqual([event.id for event in mednukals.events(packet, "1")], [253])
        self.assertEqual(list(mednukals.events(packet, "mercury")), [])


class Random(unittest.TestCase):
    def setUp(self):
        self.random = random.Random(2026)

    def some_bytes(self, most):
        """Bytes among which FF FF FD is frequent."""
        return bytes(self.random.choice([0xFF, 0xFF, 0xFD, 0x00, self.random.randrange(256)]) for _ in range(self.random.randrange(most)))

    def cut(self, data):
        while data:
            n = self.random.randrange(1, 40)
            yield data[:n]
            data = data[n:]

    def segment(self):
        """Noise, packets and damaged ones."""
        parts = []
        for _ in range(self.random.randrange(8)):
            good = talk.packet(self.random.choice([1, 2, 254]), self.random.randrange(256), self.some_bytes(30))
            parts += [self.some_bytes(10), self.random.choice([good, talk.damaged(good), good[:-1]])]
        return b"".join(parts)

    def test_checksums(self):
        for _ in range(ROUNDS):
            before, data, after, start = self.some_bytes(40), self.some_bytes(40), self.some_bytes(40), self.random.randrange(1 << 16)
            self.assertEqual(mednukals.crc16(data), talk.crc16(data))
            self.assertEqual(mednukals.crc16(after, mednukals.crc16(data)), talk.crc16(data + after))
            flips = self.random.randbytes(len(data))
            flipped = bytes(a ^ b for a, b in zip(data, flips))
            self.assertEqual(mednukals.crc16_flipped(mednukals.crc16(before + data + after, start), flips, len(after)),
                             mednukals.crc16(before + flipped + after, start))

    def test_packets(self):
        for _ in range(ROUNDS):
            params, device, instruction = self.some_bytes(200), self.random.randrange(253), self.random.randrange(256)
            packet = mednukals.encode(device, instruction, params)
            self.assertEqual(packet, talk.packet(device, instruction, params))
            self.assertEqual(mednukals.unstuff(packet[7:-2]), bytes([instruction]) + params)
            [event] = mednukals.events(packet)
            self.assertEqual(event.body, bytes([instruction]) + params)
            [heard] = Board().feed(packet)
            self.assertEqual((heard.id, heard.body), (device, event.body))

    def test_readers(self):
        """A reader that is fed in chunks finds what stands in the whole, at the same offsets, also in a second segment."""
        for _ in range(ROUNDS):
            for protocol in "2", "1", "mercury":
                reader, begin = Reader(protocol), 0
                for segment in self.segment(), self.segment():
                    found = [event for chunk in self.cut(segment) for event in reader.feed(chunk)] + reader.gap()
                    wanted = [event._replace(offset=event.offset + begin) for event in mednukals.events(segment, protocol)]
                    self.assertEqual((found, reader.held), (wanted, b""))
                    for event in found:
                        at = event.offset - begin
                        self.assertEqual(segment[at:at + len(event.packet)], event.packet)
                        self.assertTrue(event.packet or segment[at:].startswith(b"\xFF\xFF"))
                    begin += len(segment)

    def test_boards(self):
        """However the bytes are cut, and beside the plain reader."""
        for _ in range(ROUNDS):
            segment, whole, cut = self.segment(), Board(), Board()
            events = whole.feed(segment) + whole.gap()
            self.assertEqual([event for chunk in self.cut(segment) for event in cut.feed(chunk)] + cut.gap(), events)
            self.assertEqual((cut.table, cut.registered), (whole.table, whole.registered))
            self.assertEqual([(event.kind, event.id, event.body) for event in events],
                             [(event.kind, event.id, event.body) for event in mednukals.events(segment)])

    def test_logs(self):
        for _ in range(ROUNDS):
            segments = [self.segment() for _ in range(self.random.randrange(5))]
            log = mednukals.log_write(segments)
            mednukals.log_check(log)
            for device in [1, 2, 7, 254]:
                places = [(number, event.offset) for number, segment in enumerate(segments) for event in mednukals.events(segment)
                          if (event.kind, event.id) == (Kind.PACKET, device)]
                self.assertEqual(mednukals.log_last(log, device), places[-1] if places else None)
            self.assertEqual(mednukals.log_salvage(log), (log, [], 0, 0, False))
            self.salvaged(log, segments)

    def salvaged(self, log, segments):
        """Of a log that was cut behind its index the segments before the cut are kept."""
        front = 1032 + 8 * len(segments)
        size = self.random.randrange(front, len(log) + 1)
        ends = [front + sum(map(len, segments[:number + 1])) for number in range(len(segments))]
        kept = [segment for segment, end in zip(segments, ends) if end <= size]
        saved = mednukals.log_salvage(log[:size])
        self.assertEqual(saved.log, mednukals.log_write(kept))
        self.assertEqual(saved.dropped, [(number, mednukals.Why.BAD_END) for number in range(len(kept), len(segments))])
        self.assertEqual(saved.leftover, size - front - sum(map(len, kept)))
        self.assertEqual(saved.header_changed, len(kept) < len(segments))

    def test_plans(self):
        for _ in range(ROUNDS // 10):
            goals = {self.random.randrange(253): self.random.randrange(4096) for _ in range(self.random.randrange(300))}
            plan = mednukals.plan(goals)
            self.assertEqual(mednukals.plan([goals.get(device, -1) for device in range(253)]), plan)
            self.assertTrue(mednukals.plan_check(goals, plan))
            self.assertFalse(mednukals.plan_check({**goals, 3: (goals.get(3, 0) + 1) % 4096}, plan))
            for device, goal in list(goals.items())[:10]:
                board = Board(device)
                board.feed(plan)
                self.assertEqual(board["goal_position"], goal)


class BoardTest(unittest.TestCase):
    def test_registers(self):
        board = Board()
        self.assertEqual(dict(board), {name: register.fresh for name, register in mednukals.REGISTERS.items()})
        for name, register in mednukals.REGISTERS.items():
            for value in register.range or register.values:
                board[name] = value
                self.assertEqual(board[name], value)
                self.assertEqual(board.table[register.address:register.address + register.size], talk.word(value, register.size))
                self.assertEqual(register.write(value), talk.at(register.address, value, register.size))
                with self.assertRaisesRegex(ValueError, f"^{name}: .* is not within "):
                    board[name] = (register.range or register.values)[1] + 1
            self.assertEqual(register.read(), talk.word(register.address) + talk.word(register.size))
        self.assertEqual((len(board), "lamp" in board, "arm" in board), (len(mednukals.REGISTERS), True, False))
        with self.assertRaisesRegex(KeyError, "'arm' is no register"):
            board["arm"] = 1

    def test_registered(self):
        board = Board()
        self.assertIsNone(board.registered)
        [event] = board.feed(talk.packet(1, talk.REG_WRITE, talk.at(talk.GOAL_POSITION, 800)))
        self.assertEqual(board.registered, (116, talk.word(800, 4), 0, 4095))
        self.assertEqual((event.error, board["registered_instruction"], board["goal_position"]), (0, 1, 0))
        board.feed(talk.packet(254, talk.ACTION))
        self.assertEqual((board.registered, board["goal_position"]), (None, 800))

    def test_slots(self):
        [event] = Board(5).feed(talk.packet(254, talk.SYNC_READ, talk.word(65) + talk.word(1) + bytes([1, 2, 5])))
        self.assertEqual((event.reply.slot, event.reply.data, event.instruction), (2, b"\0", Instruction.SYNC_READ))
        [event] = Board(5).feed(talk.packet(254, talk.PING))
        self.assertEqual(event.reply.slot, 5)

    def test_alert(self):
        board = Board()
        board.measure(-5, hardware_error=4)
        [event] = board.feed(talk.packet(1, 0x10))
        self.assertEqual((event.instruction, event.error, event.reply.error), (0x10, mednukals.StatusError.INSTRUCTION, 0x82))
        self.assertEqual(event.reply.status(), talk.status(1, 0x82))
        self.assertEqual((board["present_position"], board["hardware_error"]), (-5, 4))

    def test_a_long_chunk(self):
        """As many bytes as a second of a fast line has, at once: each is copied once."""
        began, board = time.monotonic(), Board()
        self.assertEqual(len(board.feed(PING * 40000)), 40000)
        self.assertEqual(len(list(mednukals.events(PING * 40000))), 40000)
        self.assertLess(time.monotonic() - began, PATIENCE)

    def test_boards_are_apart(self):
        first, second = Board(1), Board(1)
        first.feed(talk.packet(1, talk.WRITE, talk.at(talk.LAMP, 1, 1)) + PING[:5])
        self.assertEqual((second["lamp"], second.held, first.held), (0, b"", PING[:5]))
        self.assertEqual(len({first, second}), 2)


class Wrong(unittest.TestCase):
    """What cannot be done is said in one line, with the number where the library refuses."""

    def refused(self, number, call, *words):
        with self.assertRaises(Refusal) as caught:
            call(*words)
        self.assertEqual((caught.exception.number, str(caught.exception)), (number, f"refused, {number}: {mednukals.REFUSALS[number][1]}"))
        self.assertEqual(pickle.loads(pickle.dumps(caught.exception)).number, number)

    def test_refusals(self):
        for device in 253, 255:
            self.refused(11, mednukals.encode, device, 1)
            self.refused(11, mednukals.mercury_encode, device, 1)
            self.refused(32, mednukals.log_last, mednukals.log_write([]), device)
        self.refused(11, mednukals.p1_encode, 255, 1)
        self.refused(11, mednukals.Reply(254, 0, b"", 0).status)
        self.assertEqual(len(mednukals.encode(1, 2, bytes(1021))), 1031)
        self.refused(12, mednukals.encode, 1, 2, bytes(1022))
        self.refused(12, mednukals.p1_encode, 1, 2, bytes(254))
        self.refused(12, mednukals.Reply(1, 0, bytes(9), 0).status)
        self.refused(14, mednukals.unstuff, b"\xFF\xFF\xFD")
        self.refused(31, mednukals.log_check, b"")
        self.refused(31, mednukals.log_last, bytes(2000), 1)
        log = bytearray(mednukals.log_write([PING]))
        log[24 + 4] = 0
        self.refused(34, mednukals.log_check, log)
        self.refused(33, mednukals.log_salvage, bytes(1031))
        self.refused(41, mednukals.plan, [1])
        self.refused(41, mednukals.plan_check, [], b"")
        self.refused(42, mednukals.plan, {1: 4096})
        board = Board()
        board._table[7] = 253
        self.refused(22, board.feed, PING)
        board._count.value = 1031
        self.refused(25, board.gap)
        reader = Reader("1")
        reader._count.value = 259
        self.refused(25, reader.feed, b"")

    def test_types(self):
        for call, words, said in [
                (mednukals.crc16, ["FF FF"], "the bytes: bytes are wanted, and not str; bytes.fromhex reads hex"),
                (mednukals.crc16, [5], "the bytes: bytes are wanted, and not int"),
                (mednukals.crc16, [[1, 2]], "the bytes: bytes are wanted, and not list"),
                (mednukals.crc16, [array.array("H", [1])], "the bytes: bytes are wanted, and not numbers of 2 bytes"),
                (mednukals.encode, ["1", 1], "id: a number is wanted, and not str"),
                (mednukals.encode, [1, 1.0], "instruction: a number is wanted, and not float"),
                (mednukals.encode, [1, 1, None], "params: bytes are wanted, and not NoneType"),
                (mednukals.log_write, [PING], "segments: a list of segments is wanted, and not bytes"),
                (mednukals.plan, [{"1": 5}], "an ID of the goals: a number is wanted, and not str"),
                (mednukals.plan, [{1: None}], "a goal: a number is wanted, and not NoneType"),
                (Board().feed, ["FF"], "the bytes: bytes are wanted, and not str; bytes.fromhex reads hex")]:
            with self.subTest(said), self.assertRaises(TypeError) as caught:
                call(*words)
            self.assertEqual(str(caught.exception), said)

    def test_numbers(self):
        """C would take another number in its place, without a word."""
        for call, words, said in [
                (mednukals.encode, [257, 1], "id: 257 is not within 0 and 255"),
                (mednukals.encode, [-1, 1], "id: -1 is not within 0 and 255"),
                (mednukals.encode, [1, 256], "instruction: 256 is not within 0 and 255"),
                (mednukals.crc16, [b"", 65536], "start: 65536 is not within 0 and 65535"),
                (mednukals.crc16_flipped, [65536, b"", 0], "crc: 65536 is not within 0 and 65535"),
                (mednukals.crc16_flipped, [0, b"", -1], f"after: -1 is not within 0 and {2**64 - 1}"),
                (mednukals.plan, [{253: 1}], "an ID of the goals: 253 is not within 0 and 252"),
                (mednukals.plan, [{1: 2**32}], f"a goal: {2**32} is not within {-2**31} and {2**31 - 1}"),
                (mednukals.log_last, [b"", 256], "id: 256 is not within 0 and 255"),
                (Board, [253], "id: 253 is not within 0 and 252"),
                (mednukals.REGISTERS["lamp"].write, [256], "the value: 256 is not within 0 and 255"),
                (mednukals.REGISTERS["lamp"].write, [-1], "the value: -1 is not within 0 and 255"),
                (Board().measure, [2**31], f"position: {2**31} is not within {-2**31} and {2**31 - 1}"),
                (Board().measure, [0, 256], "hardware_error: 256 is not within 0 and 255"),
                (Reader, ["3"], "protocol: '3' is not one of '2', '1', 'mercury'"),
                (mednukals.events, [b"", "3"], "protocol: '3' is not one of '2', '1', 'mercury'")]:
            with self.subTest(said), self.assertRaises(ValueError) as caught:
                call(*words)
            self.assertEqual(str(caught.exception), said)

    def test_bytes_like(self):
        for data in bytearray(PING), memoryview(PING), array.array("B", PING), memoryview(PING + PING)[:10]:
            self.assertEqual([event.packet for event in mednukals.events(data)], [PING])
            self.assertEqual(len(Board().feed(data)), 1)
        self.assertEqual(mednukals.crc16(memoryview(PING)[::2]), mednukals.crc16(PING[::2]))

    def test_salvage_reports(self):
        log = bytearray(mednukals.log_write([PING, PING, PING]))
        log[16:20] = (5).to_bytes(4, "little")
        saved = mednukals.log_salvage(log)
        self.assertEqual((saved.dropped, saved.index_changed, saved.leftover, saved.header_changed), ([(0, 1)], 1, 10, True))


class Library(unittest.TestCase):
    """Which library is taken, and what is said where it is not one."""

    def says(self, place, code=1, path="python"):
        said = run(sys.executable, "-c", "import mednukals; print(mednukals._library._name)", code=code, MEDNUKALS_LIB=place, PYTHONPATH=path)
        return said.splitlines()[-1]

    def test_over_other_checksums(self):
        for library in OTHERS:
            self.assertEqual(run(sys.executable, "-m", "doctest", "python/mednukals.py", MEDNUKALS_LIB=library), "")

    def test_named(self):
        """From the folder in which it lies too, where a name alone would be looked for by the system."""
        there = Path(LIBRARY).resolve()
        self.assertEqual(self.says(LIBRARY, code=0), os.path.abspath(LIBRARY))
        code = f"import os; os.chdir({str(there.parent)!r}); import mednukals; print(mednukals._library._name)"
        path = str(Path("python").resolve())
        self.assertEqual(run(sys.executable, "-c", code, MEDNUKALS_LIB=there.name, PYTHONPATH=path), f"{there}\n")

    def test_missing(self):
        self.assertRegex(self.says("/nowhere.so"), "^ImportError: mednukals: the library cannot be loaded: /nowhere.so: .*; make lib builds it")
        self.assertRegex(self.says("README.md"), "^ImportError: mednukals: the library cannot be loaded: .*/README.md: .*; make lib builds it")

    def test_found(self):
        """In the tree, and beside the module; a copy elsewhere has to ask the system."""
        name = f"libmednukals.so.{mednukals.__version__.split('.', maxsplit=1)[0]}"
        self.assertEqual(self.says("", code=0), str(Path("build/lib").resolve() / name))
        with tempfile.TemporaryDirectory() as folder:
            place = Path(folder, "one/two/three")
            place.mkdir(parents=True)
            (place / "mednukals.py").write_bytes(Path("python/mednukals.py").read_bytes())
            self.assertRegex(self.says("", path=str(place)), f"^ImportError: mednukals: the library cannot be loaded: {name}: ")
            for beside in place, Path(folder, "one"):
                (beside / name).symlink_to(Path(LIBRARY).resolve())
                self.assertEqual(self.says("", code=0, path=str(place)), str(beside.resolve() / name))
                (beside / name).unlink()

    def test_another_version(self):
        with tempfile.TemporaryDirectory() as folder:
            library = f"{folder}/libmednukals.so.99.0.0"
            run("sh", "tools/shared.sh", library, str(Path(LIBRARY).parent / "libmednukals.a"), CC)
            self.assertRegex(self.says(library), rf"^ImportError: mednukals: {library} has no dxl_crc16 of version [\d.]+, and this module "
                                                 f"is of version {mednukals.__version__}$")


class Examples(unittest.TestCase):
    FLIPS = [sys.executable, "examples/flips.py"]

    def test_flips(self):
        """The same as a new pass over the changed packet."""
        packet = talk.packet(1, talk.WRITE, talk.at(talk.GOAL_POSITION, 512))
        for bits in [], ["4.4"], ["0.7", "13.0"], ["5.3", "5.3"], [f"{byte}.{byte % 8}" for byte in range(14)]:
            changed = bytearray(packet[:-2])
            for bit in bits:
                changed[int(bit.split(".")[0])] ^= 1 << int(bit.split(".")[1])
            crc = talk.crc16(changed).to_bytes(2, "little")
            self.assertEqual(run(*self.FLIPS, packet.hex(" "), *bits), f"{talk.spaced(crc)}\n")

    def test_flips_is_wrong(self):
        for words in [], ["xx"], ["FF FF FF F"], ["FF FF"], [""], ["F F F F F F"]:
            self.assertRegex(run(*self.FLIPS, *words, code=1), r"\Ausage: flips.py 'PACKET IN HEX' BYTE.BIT...: [^\n]*\n\Z")
        for word in "8.0", "4.8", "4", "x.1", "4.-1", "-1.0", "":
            said = f"flips.py: {word} is no BYTE.BIT in bytes 0 to 7, which the checksum covers; bits are 0 to 7\n"
            self.assertEqual(run(*self.FLIPS, PING.hex(), word, code=1), said)

    def test_ten_lines(self):
        code = Path("examples/flips.py").read_text(encoding="utf-8").partition("import mednukals\n")[2]
        self.assertEqual(len(code.split("\n")) - 2, 10)

    def test_board_and_master(self):
        board = subprocess.Popen([sys.executable, "examples/pty_board.py", "7"], stdout=subprocess.PIPE, text=True,
                                 env={**os.environ, "PYTHONPATH": "python"})
        try:
            line = re.fullmatch(r"line: (/dev/\S+)\n", board.stdout.readline()).group(1)
            said = run(sys.executable, "examples/talk.py", "--id", "7", line)
        finally:
            board.terminate()
            board.wait(PATIENCE)
            board.stdout.close()
        self.assertRegex(said, r"\ntalk: \d+ exchanges, each reply as expected\n\Z")

    def test_board_is_wrong(self):
        said = "pty_board.py: id: 253 is not within 0 and 252\n"
        self.assertEqual(run(sys.executable, "examples/pty_board.py", "253", code=1), said)
        for words in ["x"], [""], ["-1"], ["--help"], ["1", "2"]:
            self.assertRegex(run(sys.executable, "examples/pty_board.py", *words, code=1), r"\Ausage: pty_board.py \[ID\]: [^\n]*\n\Z")


if __name__ == "__main__":
    sys.exit(suite.run(usage=None if LIBRARY else "python_test.py CC LIBRARY...", done="python/mednukals.py"))
