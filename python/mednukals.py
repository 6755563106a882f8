"""Mednukals from Python: packets, checksums, captures, boards, logs and plans by the calls of libmednukals.so

The functions have the names of the C header, include/mednukals.h, without `dxl_`, and do what it says there. What they find, test
and write is found, tested and written by the library; this module passes bytes to it.

    >>> ping = encode(1, Instruction.PING)
    >>> ping.hex(" ")
    'ff ff fd 00 01 03 00 01 19 4e'
    >>> board = Board()
    >>> [event] = board.feed(ping)
    >>> event.reply.status().hex(" ")
    'ff ff fd 00 01 07 00 55 00 06 04 26 65 5d'

A call that the library refuses raises Refusal, which has the number:

    >>> encode(253, Instruction.PING)
    Traceback (most recent call last):
    mednukals.Refusal: refused, 11: the ID is 253 or 255; in Protocol 1.0 only 255; in a status also 254

Bytes are given as bytes, or as anything bytes-like, which is copied. Other types raise TypeError, and numbers that a call cannot
be handed ValueError. It needs Linux and Python 3.8 or later, and no other package.

The library is the file that the environment variable MEDNUKALS_LIB names. Without it, it is looked for beside this file, in the
folder `lib` of the prefix in which this file is installed, in build/lib of the tree, and where the system looks for libraries.
"""
from __future__ import annotations

import ctypes
import os
from ctypes import POINTER, Structure, c_char_p, c_int32, c_int64, c_size_t, c_uint16, c_uint32, c_uint8, c_void_p
from enum import IntEnum
from operator import index
from pathlib import Path
from typing import Any, Callable, Iterable, Iterator, Mapping, NamedTuple, Sequence, Union

__version__ = "0.1.0"
__all__ = ["Board", "BoardEvent", "BROADCAST_ID", "Event", "Instruction", "Kind", "Place", "REFUSALS", "REGISTERS", "Reader",
           "Refusal", "Register", "Registered", "Reply", "Salvaged", "StatusError", "Why", "crc16", "crc16_flipped", "encode",
           "events", "log_check", "log_last", "log_salvage", "log_write", "mercury_encode", "p1_encode", "plan", "plan_check",
           "unstuff"]

BytesLike = Union[bytes, bytearray, memoryview]
Goals = Union[Mapping[int, int], Sequence[int]]

# ---- numbers of the header ----

MAX_PACKET, MAX_BODY, MAX_HELD = 1031, 1022, 1030
V1_MAX_PACKET, V1_MAX_HELD = 259, 258
TABLE_BYTES, MIN_REPLY = 136, 32
LOG_FRONT, LOG_ENTRY = 1032, 8
BROADCAST_ID = 254  # addresses all devices

REFUSALS: dict[int, tuple[str, str]] = {
    11: ("BAD_ID", "the ID is 253 or 255; in Protocol 1.0 only 255; in a status also 254"),
    12: ("TOO_LONG", "the length, which counts stuffed body and checksum, would pass 1,024; on the old boards 255; in a status, more "
                     "than 8 bytes of data"),
    13: ("NO_ROOM", "the output buffer is too small; in a salvage also the report"),
    14: ("BAD_STUFFING", "the body is not well stuffed"),
    21: ("NOT_A_TABLE", "the control table is not 136 bytes long"),
    22: ("BAD_TABLE_ID", "the control table's ID, byte 7, is above 252"),
    23: ("BAD_REGISTERED", "the registered write's count is above 8"),
    24: ("SHORT_REPLY", "the reply buffer has fewer than 32 bytes"),
    25: ("BAD_READER", "the reader's count is above 1,030; on the old boards above 258"),
    31: ("BAD_LOG", "the file is not laid out as a log, or no log can be made of the segments"),
    32: ("BAD_LOG_ID", "a log was asked for ID 253 or 255"),
    33: ("BAD_LOG_SIZE", "the file to be salvaged is shorter or longer than a log can be"),
    34: ("WRONG_INDEX", "the log's index does not match its segments"),
    41: ("NOT_GOALS", "the list of wanted goals is not 253 long"),
    42: ("BAD_GOAL", "a wanted goal is below -1 or above 4,095"),
}
"""Each refusal's name and meaning, by its number."""


class Refusal(Exception):
    """A call was refused, and has changed nothing.

    >>> try:
    ...     unstuff(bytes.fromhex("02 FF FF FD 00"))
    ... except Refusal as refusal:
    ...     print(refusal.number, refusal.name, "-", refusal.text)
    14 BAD_STUFFING - the body is not well stuffed
    """

    def __init__(self, number: int) -> None:
        self.number = number
        self.name, self.text = REFUSALS.get(number, ("", "a number that this module does not know"))
        super().__init__(number)

    def __str__(self) -> str:
        return f"refused, {self.number}: {self.text}"


class Kind(IntEnum):
    """The kinds of events."""
    PACKET = 1
    BAD_CHECKSUM = 2


class Instruction(IntEnum):
    """The instructions, the first byte of a body."""
    PING = 0x01
    READ = 0x02
    WRITE = 0x03
    REG_WRITE = 0x04
    ACTION = 0x05
    FACTORY_RESET = 0x06
    REBOOT = 0x08
    STATUS = 0x55
    SYNC_READ = 0x82
    SYNC_WRITE = 0x83
    BULK_READ = 0x92
    BULK_WRITE = 0x93


class StatusError(IntEnum):
    """The errors of a status; its error byte has the alert besides, while hardware error is not 0."""
    INSTRUCTION = 0x02
    CHECKSUM = 0x03
    DATA_RANGE = 0x04
    DATA_LENGTH = 0x05
    DATA_LIMIT = 0x06
    ACCESS = 0x07
    ALERT = 0x80


class Why(IntEnum):
    """Why an entry of a log's directory was dropped by a salvage."""
    BAD_START = 1
    BAD_END = 2


class Register(NamedTuple):
    """A register of the control table. `range` has the values that a master may write, and is None for one that it can only read."""
    address: int
    size: int
    fresh: int
    area: str
    range: tuple[int, int] | None

    @property
    def values(self) -> tuple[int, int]:
        """The least and the greatest number that its bytes hold; those of four bytes are signed."""
        bits = 8 * self.size
        return (-1 << bits - 1, (1 << bits - 1) - 1) if self.size == 4 else (0, (1 << bits) - 1)

    def bytes_of(self, value: int) -> bytes:
        """A value as it is stored; one that its bytes do not hold raises ValueError."""
        return _number(value, *self.values, "the value").to_bytes(self.size, "little", signed=self.values[0] < 0)

    def read(self) -> bytes:
        """The parameters of a Read of it."""
        return self.address.to_bytes(2, "little") + self.size.to_bytes(2, "little")

    def write(self, value: int) -> bytes:
        """The parameters of a Write of it. Its range is left to the device.

        >>> encode(1, Instruction.WRITE, REGISTERS["goal_position"].write(512)).hex(" ")
        'ff ff fd 00 01 09 00 03 74 00 00 02 00 00 ca 89'
        """
        return self.address.to_bytes(2, "little") + self.bytes_of(value)


REGISTERS: dict[str, Register] = {
    "model_number": Register(0, 2, 1030, "ROM", None),
    "firmware_version": Register(6, 1, 38, "ROM", None),
    "id": Register(7, 1, 1, "ROM", (0, 252)),
    "baud_code": Register(8, 1, 1, "ROM", (0, 7)),
    "homing_offset": Register(20, 4, 0, "ROM", (-1044479, 1044479)),
    "max_position": Register(48, 4, 4095, "ROM", (0, 4095)),
    "min_position": Register(52, 4, 0, "ROM", (0, 4095)),
    "torque_enable": Register(64, 1, 0, "RAM", (0, 1)),
    "lamp": Register(65, 1, 0, "RAM", (0, 1)),
    "status_return_level": Register(68, 1, 2, "RAM", (0, 2)),
    "registered_instruction": Register(69, 1, 0, "RAM", None),
    "hardware_error": Register(70, 1, 0, "RAM", None),
    "goal_velocity": Register(104, 4, 0, "RAM", (-330, 330)),
    "goal_position": Register(116, 4, 0, "RAM", (0, 4095)),
    "present_position": Register(132, 4, 0, "RAM", None),
}
"""The registers by name."""

# ---- records of the header ----


class dxl_registered(Structure):
    _fields_ = [("address", c_uint16), ("count", c_uint8), ("bytes", c_uint8 * 8), ("min", c_int32), ("max", c_int32)]


class dxl_reply(Structure):
    _fields_ = [("speaks", c_uint8), ("id", c_uint8), ("error", c_uint8), ("count", c_uint8), ("bytes", c_uint8 * 8),
                ("slot", c_size_t)]


class dxl_board_step(Structure):
    _fields_ = [("taken", c_size_t), ("count", c_size_t), ("kind", c_uint8), ("id", c_uint8), ("instruction", c_uint8),
                ("error", c_uint8), ("reply", dxl_reply), ("registered", dxl_registered)]


class dxl_step(Structure):
    _fields_ = [("taken", c_size_t), ("count", c_size_t), ("kind", c_uint8), ("id", c_uint8)]


class dxl_event(Structure):
    _fields_ = [("offset", c_size_t), ("count", c_size_t), ("next", c_size_t), ("kind", c_uint8), ("id", c_uint8)]


class dxl_found(Structure):
    _fields_ = [("found", c_int64), ("segment", c_size_t), ("offset", c_size_t)]


class dxl_salvaged(Structure):
    _fields_ = [("count", c_int64), ("dropped", c_size_t), ("index_changed", c_size_t), ("leftover", c_size_t),
                ("header_changed", c_uint8)]


# ---- the library ----

_IN, _OUT, _COUNT, _NUMBERS = c_void_p, POINTER(c_uint8), POINTER(c_size_t), POINTER(c_uint32)
_ENCODE = (c_int64, c_uint8, c_uint8, _IN, c_size_t, _OUT, c_size_t, c_size_t)
_FEED, _GAP = (dxl_step, _OUT, _COUNT, _IN, c_size_t, _OUT), (dxl_step, _OUT, _COUNT, _OUT)
# What each call returns and takes.
_CALLS: dict[str, tuple[Any, ...]] = {
    "dxl_crc16": (c_uint16, c_uint16, _IN, c_size_t),
    "dxl_crc16_flipped": (c_uint16, c_uint16, _IN, c_size_t, c_size_t),
    "dxl_encode": _ENCODE,
    "dxl_p1_encode": _ENCODE,
    "dxl_mercury_encode": _ENCODE,
    "dxl_unstuff": (c_int64, _IN, c_size_t, _OUT, c_size_t),
    "dxl_next_event": (dxl_event, _IN, c_size_t, c_size_t),
    "dxl_feed": _FEED,
    "dxl_gap": _GAP,
    "dxl_p1_feed": _FEED,
    "dxl_p1_gap": _GAP,
    "dxl_mercury_feed": _FEED,
    "dxl_mercury_gap": _GAP,
    "dxl_fresh": (c_int64, _OUT, c_size_t),
    "dxl_measure": (c_int64, _OUT, c_size_t, c_int32, c_uint8),
    "dxl_board_feed_parts": (dxl_board_step, _OUT, _COUNT, _IN, c_size_t, _OUT, _OUT, dxl_registered),
    "dxl_board_gap_parts": (dxl_board_step, _OUT, _COUNT, _OUT, _OUT, dxl_registered),
    "dxl_status": (c_int64, dxl_reply, _OUT, c_size_t),
    "dxl_log_write": (c_int64, _IN, c_size_t, _NUMBERS, c_size_t, _OUT, c_size_t),
    "dxl_log_check": (c_int64, _IN, c_size_t),
    "dxl_log_last": (dxl_found, _IN, c_size_t, c_uint8),
    "dxl_log_salvage": (dxl_salvaged, _IN, c_size_t, _OUT, c_size_t, _NUMBERS, c_size_t),
    "dxl_plan": (c_int64, POINTER(c_int32), c_size_t, _OUT, c_size_t),
    "dxl_plan_check": (c_int64, POINTER(c_int32), c_size_t, _IN, c_size_t),
}


def _places() -> Iterator[str]:
    """Where the library may be. A name without a folder is looked for by the system."""
    name = f"libmednukals.so.{__version__.split('.', maxsplit=1)[0]}"
    here = Path(__file__).resolve().parent
    for folder in (here, here.parent.parent, here.parent / "build/lib"):
        if (folder / name).exists():
            yield str(folder / name)
    yield name


def _load() -> Any:
    """The library, with its calls declared. PyDLL: no thread of Python runs meanwhile, so that none writes memory that is in use."""
    named = os.environ.get("MEDNUKALS_LIB")
    place = os.path.abspath(named) if named else next(_places())
    try:
        library = ctypes.PyDLL(place)
    except OSError as error:
        raise ImportError(f"mednukals: the library cannot be loaded: {error}; make lib builds it, MEDNUKALS_LIB names it") from None
    major, minor, _ = __version__.split(".")
    calls = f"{major}.{minor}" if major == "0" else major
    find = ctypes.PyDLL(None).dlvsym
    find.restype, find.argtypes = c_void_p, [c_void_p, c_char_p, c_char_p]
    for name, (result, *arguments) in _CALLS.items():
        if not find(library._handle, name.encode(), f"MEDNUKALS_{calls}".encode()):
            raise ImportError(f"mednukals: {place} has no {name} of version {calls}, and this module is of version {__version__}")
        call = getattr(library, name)
        call.restype, call.argtypes = result, arguments
    return library


_library = _load()


def _bytes(data: BytesLike, what: str = "the bytes") -> bytes:
    """The bytes of something bytes-like."""
    if isinstance(data, bytes):
        return data
    try:
        view = memoryview(data)
    except TypeError:
        hint = "; bytes.fromhex reads hex" if isinstance(data, str) else ""
        raise TypeError(f"{what}: bytes are wanted, and not {type(data).__name__}{hint}") from None
    if view.itemsize != 1:
        raise TypeError(f"{what}: bytes are wanted, and not numbers of {view.itemsize} bytes")
    return view.tobytes()


def _number(number: int, least: int, most: int, what: str) -> int:
    """A number that lies within these; C would take another one in its place."""
    try:
        number = index(number)
    except TypeError:
        raise TypeError(f"{what}: a number is wanted, and not {type(number).__name__}") from None
    if not least <= number <= most:
        raise ValueError(f"{what}: {number} is not within {least} and {most}")
    return number


def _byte(number: int, what: str) -> int:
    return _number(number, 0, 255, what)


def _accepted(answer: int) -> int:
    """The count that a call returned, if it was not refused."""
    if answer < 0:
        raise Refusal(-answer)
    return answer


def _room(count: int) -> Any:
    """A buffer; never without a place, since no pointer may be null."""
    return (c_uint8 * max(1, count))()


def _named(names: type[IntEnum], number: int) -> int:
    """The number with its name, where it has one."""
    return names(number) if number in names.__members__.values() else number


def _steps(call: Callable[[int, int], Any], data: bytes = b"") -> Iterator[Any]:
    """The steps in which a call finds an event in bytes, of which it gets address and count. After each event it gets the rest, even
    if that is empty, until it finds none."""
    at, address = 0, ctypes.cast(data, c_void_p).value or 0
    while (step := call(address + at, len(data) - at)).kind:
        if step.kind > Kind.BAD_CHECKSUM:
            raise Refusal(step.kind)
        at += step.taken
        yield step


# ---- packets and checksums ----


def crc16(data: BytesLike, start: int = 0) -> int:
    """The checksum of bytes. `start` is 0, or the checksum of the bytes before.

    >>> hex(crc16(bytes.fromhex("FF FF FD 00 01 03 00 01")))
    '0x4e19'
    """
    data = _bytes(data)
    return _library.dxl_crc16(_number(start, 0, 0xFFFF, "start"), data, len(data))


def crc16_flipped(crc: int, flips: BytesLike, after: int) -> int:
    """The checksum after chosen bits were flipped, without the bytes: `crc` is the one before, `flips` has a 1 for each flipped
    bit, and `after` counts the covered bytes behind `flips`.

    Bit 4 of the ID, byte 4 of the 8 that the checksum of a Ping covers, makes a Ping to 17 of the Ping to 1:

    >>> hex(crc16_flipped(0x4E19, b"\\x10", 3)), hex(crc16(bytes.fromhex("FF FF FD 00 11 03 00 01")))
    ('0xe1f', '0xe1f')
    """
    flips = _bytes(flips, "flips")
    return _library.dxl_crc16_flipped(_number(crc, 0, 0xFFFF, "crc"), flips, len(flips), _number(after, 0, 2**64 - 1, "after"))


def _encoded(call: Any, most: int, device: int, instruction: int, params: BytesLike) -> bytes:
    params, out = _bytes(params, "params"), _room(most)
    count = call(_byte(device, "id"), _byte(instruction, "instruction"), params, len(params), out, most, 0)
    return ctypes.string_at(out, _accepted(count))


def encode(id: int, instruction: int, params: BytesLike = b"") -> bytes:
    """A packet. `params` are the parameters, not stuffed; refused with 11 and 12.

    >>> encode(1, Instruction.READ, REGISTERS["present_position"].read()).hex(" ")
    'ff ff fd 00 01 07 00 02 84 00 04 00 1d 15'
    """
    return _encoded(_library.dxl_encode, MAX_PACKET, id, instruction, params)


def p1_encode(id: int, instruction: int, params: BytesLike = b"") -> bytes:
    """A packet of Protocol 1.0; refused with 11 and 12.

    >>> p1_encode(1, 2, bytes([0x2B, 1])).hex(" ")
    'ff ff 01 04 02 2b 01 cc'
    """
    return _encoded(_library.dxl_p1_encode, V1_MAX_PACKET, id, instruction, params)


def mercury_encode(id: int, instruction: int, params: BytesLike = b"") -> bytes:
    """A packet of Mercury, which has no ID 253; refused with 11 and 12.

    >>> mercury_encode(253, 1)
    Traceback (most recent call last):
    mednukals.Refusal: refused, 11: the ID is 253 or 255; in Protocol 1.0 only 255; in a status also 254
    """
    return _encoded(_library.dxl_mercury_encode, V1_MAX_PACKET, id, instruction, params)


def unstuff(body: BytesLike) -> bytes:
    """A body without its stuffing; refused with 14.

    >>> unstuff(bytes.fromhex("03 14 00 FF FF FD FD FF")).hex(" ")
    '03 14 00 ff ff fd ff'
    """
    body = _bytes(body, "body")
    out = _room(len(body))
    return ctypes.string_at(out, _accepted(_library.dxl_unstuff(body, len(body), out, len(body))))


# ---- captures ----

# The calls of a protocol's reader, and the sizes of its buffers.
_PROTOCOLS = {"2": ("dxl_feed", "dxl_gap", MAX_HELD, MAX_PACKET),
              "1": ("dxl_p1_feed", "dxl_p1_gap", V1_MAX_HELD, V1_MAX_PACKET),
              "mercury": ("dxl_mercury_feed", "dxl_mercury_gap", V1_MAX_HELD, V1_MAX_PACKET)}


class Event(NamedTuple):
    """What was found on a line. `offset` is where it begins, `packet` the bytes of a packet as received; a bad checksum has none."""
    offset: int
    kind: Kind
    id: int
    packet: bytes

    @property
    def body(self) -> bytes:
        """The packet's body without stuffing: first the instruction; for the old boards also the error byte of a status.

        >>> [event] = events(encode(1, Instruction.WRITE, REGISTERS["homing_offset"].write(-131073)))
        >>> event.packet[7:-2].hex(" "), event.body.hex(" ")
        ('03 14 00 ff ff fd fd ff', '03 14 00 ff ff fd ff')
        """
        if not self.packet:
            return b""
        # What begins so is no packet of the old boards: 0 is no length there.
        return unstuff(self.packet[7:-2]) if self.packet.startswith(b"\xFF\xFF\xFD\x00") else self.packet[4:-1]


class Reader:
    """Finds the packets in the bytes of a line, however they are cut into chunks: of Protocol 2.0, or of the old boards with
    protocol "1" or "mercury". Offsets count from the first byte that was ever fed.

    >>> reader = Reader("1")
    >>> reader.feed(bytes.fromhex("00 FF FF 01 04 02"))
    []
    >>> reader.feed(bytes.fromhex("2B 01 CC FF FF"))
    [Event(offset=1, kind=<Kind.PACKET: 1>, id=1, packet=b'\\xff\\xff\\x01\\x04\\x02+\\x01\\xcc')]
    >>> reader.held, reader.gap(), reader.held
    (b'\\xff\\xff', [], b'')
    """

    def __init__(self, protocol: str = "2") -> None:
        if protocol not in _PROTOCOLS:
            raise ValueError(f"protocol: {protocol!r} is not one of {', '.join(map(repr, _PROTOCOLS))}")
        feed, gap, held, packet = _PROTOCOLS[protocol]
        self._feed, self._gap = getattr(_library, feed), getattr(_library, gap)
        self._held, self._packet, self._count, self._taken = _room(held), _room(packet), c_size_t(0), 0

    @property
    def held(self) -> bytes:
        """The bytes that wait for more, or for a gap."""
        return ctypes.string_at(self._held, self._count.value)

    def feed(self, data: BytesLike) -> list[Event]:
        """The events that received bytes complete."""
        return [self._event(step) for step in _steps(self._take, _bytes(data))]

    def gap(self) -> list[Event]:
        """The line was silent for more than 1.5 ms: the events in what is held, as no more bytes follow. Nothing is held then."""
        return [self._event(step) for step in _steps(lambda address, count: self._gap(self._held, self._count, self._packet))]

    def _take(self, address: int, count: int) -> dxl_step:
        step = self._feed(self._held, self._count, address, count, self._packet)
        self._taken += step.taken
        return step

    def _event(self, step: dxl_step) -> Event:
        """All that was taken is held from where reading goes on: behind a packet, or one byte behind the start of a bad checksum."""
        offset = self._taken - self._count.value - (step.count or 1)
        return Event(offset, Kind(step.kind), step.id, ctypes.string_at(self._packet, step.count))


def events(segment: BytesLike, protocol: str = "2") -> Iterator[Event]:
    """The events of a whole capture, with offsets: all bytes between two gaps.

    >>> for event in events(b"noise" + encode(1, Instruction.PING) + encode(2, Instruction.PING)[:-1] + b"?"):
    ...     print(event.offset, event.kind.name, "ID", event.id)
    5 PACKET ID 1
    15 BAD_CHECKSUM ID 2
    """
    segment = _bytes(segment, "segment")
    return _plain(segment) if protocol == "2" else _read(segment, Reader(protocol))


def _plain(segment: bytes) -> Iterator[Event]:
    event = _library.dxl_next_event(segment, len(segment), 0)
    while event.kind:
        yield Event(event.offset, Kind(event.kind), event.id, segment[event.offset:event.offset + event.count])
        event = _library.dxl_next_event(segment, len(segment), event.next)


def _read(segment: bytes, reader: Reader) -> Iterator[Event]:
    yield from reader.feed(segment)
    yield from reader.gap()


# ---- a board ----


class Reply(NamedTuple):
    """A status that a board wants to send. `slot` says when: 0 at once; the own ID for a Ping to all devices; the place of the own
    entry, from 0, for a Sync Read or a Bulk Read."""
    id: int
    error: int
    data: bytes
    slot: int

    def status(self) -> bytes:
        """Its packet.

        >>> Reply(id=1, error=0, data=b"", slot=0).status().hex(" ")
        'ff ff fd 00 01 04 00 55 00 a1 0c'
        """
        data = _bytes(self.data, "data")
        if len(data) > 8:
            raise Refusal(12)
        reply = dxl_reply(1, _byte(self.id, "id"), _byte(self.error, "error"), len(data), (c_uint8 * 8)(*data), 0)
        out = _room(MIN_REPLY)
        return ctypes.string_at(out, _accepted(_library.dxl_status(reply, out, MIN_REPLY)))


class BoardEvent(NamedTuple):
    """What a board has heard and done.

    instruction   of a packet to the board's own ID or to all devices; otherwise 0
    error         the error number of that instruction without the alert, even if no status is sent; 3 for a bad checksum with the
                  own ID; otherwise 0
    reply         None for silence
    body          the packet's body without stuffing, even if it is for another device; a bad checksum has none
    """
    kind: Kind
    id: int
    instruction: int
    error: int
    reply: Reply | None
    body: bytes


class Registered(NamedTuple):
    """A write that waits for Action, with the position limits of when it was registered."""
    address: int
    data: bytes
    min: int
    max: int


class Board(Mapping[str, int]):
    """A device with its control table. Registers are read and stored by name; REGISTERS lists them.

    >>> board = Board(id=7)
    >>> [event] = board.feed(encode(7, Instruction.WRITE, REGISTERS["goal_position"].write(512)))
    >>> event.instruction, event.error, event.reply
    (<Instruction.WRITE: 3>, 0, Reply(id=7, error=0, data=b'', slot=0))
    >>> board["goal_position"]
    512

    One thread at a time feeds a board.
    """

    def __init__(self, id: int = 1) -> None:
        self._held, self._packet, self._table = _room(MAX_HELD), _room(MAX_PACKET), _room(TABLE_BYTES)
        self._count, self._registered = c_size_t(0), dxl_registered()
        _accepted(_library.dxl_fresh(self._table, TABLE_BYTES))
        self["id"] = id

    def feed(self, data: BytesLike) -> list[BoardEvent]:
        """Takes received bytes, carries out what they complete, and returns what that was.

        An instruction takes the place of an older reply that still waits for its slot: the master no longer waits for that.
        """
        return [self._event(step) for step in _steps(self._take, _bytes(data))]

    def gap(self) -> list[BoardEvent]:
        """The line was silent for more than 1.5 ms: carries out what is left in the held bytes. Nothing is held then.

        >>> board = Board()
        >>> promise = bytes.fromhex("FF FF FD 00 07 00 04")  # 1,031 bytes, which do not come
        >>> board.feed(promise + encode(1, Instruction.PING))
        []
        >>> [event.instruction for event in board.gap()]
        [<Instruction.PING: 1>]
        """
        return [self._event(step) for step in _steps(lambda address, count: self._pass())]

    def measure(self, position: int, hardware_error: int = 0) -> None:
        """Stores the present position, and the hardware error."""
        position = _number(position, *REGISTERS["present_position"].values, "position")
        _accepted(_library.dxl_measure(self._table, TABLE_BYTES, position, _byte(hardware_error, "hardware_error")))

    @property
    def held(self) -> bytes:
        """The bytes that wait for more, or for a gap."""
        return ctypes.string_at(self._held, self._count.value)

    @property
    def table(self) -> bytes:
        """All 136 bytes of the control table."""
        return ctypes.string_at(self._table, TABLE_BYTES)

    @property
    def registered(self) -> Registered | None:
        """The write that waits for Action."""
        write = self._registered
        return Registered(write.address, bytes(write.bytes[:write.count]), write.min, write.max) if write.count else None

    def __getitem__(self, name: str) -> int:
        register = _register(name)
        stored = self.table[register.address:register.address + register.size]
        return int.from_bytes(stored, "little", signed=register.values[0] < 0)

    def __setitem__(self, name: str, number: int) -> None:
        """Stores a value in the table, as firmware does between the calls: not by an instruction, and read-only registers too.
        Whether the goal position lies between the limits is not tested.

        >>> board = Board()
        >>> board["id"] = 253
        Traceback (most recent call last):
        ValueError: id: 253 is not within 0 and 252
        """
        register = _register(name)
        number = _number(number, *(register.range or register.values), name)
        self._table[register.address:register.address + register.size] = tuple(register.bytes_of(number))

    def __iter__(self) -> Iterator[str]:
        return iter(REGISTERS)

    def __len__(self) -> int:
        return len(REGISTERS)

    def __repr__(self) -> str:
        return f"Board(id={self['id']})"

    def __eq__(self, other: object) -> bool:
        return self is other

    def __hash__(self) -> int:
        return object.__hash__(self)

    def _take(self, address: int, count: int) -> dxl_board_step:
        return self._stored(_library.dxl_board_feed_parts(self._held, self._count, address, count, self._packet, self._table,
                                                          self._registered))

    def _pass(self) -> dxl_board_step:
        return self._stored(_library.dxl_board_gap_parts(self._held, self._count, self._packet, self._table, self._registered))

    def _stored(self, step: dxl_board_step) -> dxl_board_step:
        self._registered = step.registered
        return step

    def _event(self, step: dxl_board_step) -> BoardEvent:
        reply = step.reply
        answer = Reply(reply.id, reply.error, bytes(reply.bytes[:reply.count]), reply.slot) if reply.speaks else None
        return BoardEvent(Kind(step.kind), step.id, _named(Instruction, step.instruction), _named(StatusError, step.error), answer,
                          self._body(step.count) if step.count else b"")

    def _body(self, count: int) -> bytes:
        """The body in the packet buffer, of a packet with so many bytes as received: one fewer for each FF FF FD in it."""
        packet, at, end = ctypes.string_at(self._packet, count - 2), 7, count - 2
        while (at := packet.find(b"\xFF\xFF\xFD", at, end)) >= 0:
            at, end = at + 3, end - 1
        return packet[7:end]


def _register(name: str) -> Register:
    try:
        return REGISTERS[name]
    except KeyError:
        raise KeyError(f"{name!r} is no register; REGISTERS lists them") from None


# ---- logs ----


class Place(NamedTuple):
    """Where a packet begins in a log: the number of its segment, from 0, and the offset in it."""
    segment: int
    offset: int


class Salvaged(NamedTuple):
    """A log made of what was whole in another, and what was changed: the number of each entry dropped, with the reason; how many
    index numbers differ; how many bytes lie in no kept segment; and whether the header differs."""
    log: bytes
    dropped: list[tuple[int, Why]]
    index_changed: int
    leftover: int
    header_changed: bool


def log_write(segments: Iterable[BytesLike]) -> bytes:
    """A log of captured segments; refused with 31 if it would have more than 4,294,967,295 bytes.

    >>> log = log_write([encode(1, Instruction.PING), b"noise" + encode(1, Instruction.PING)])
    >>> log_last(log, 1)
    Place(segment=1, offset=5)
    """
    if isinstance(segments, (bytes, bytearray, memoryview, str)):
        raise TypeError(f"segments: a list of segments is wanted, and not {type(segments).__name__}")
    parts = [_bytes(segment, "a segment") for segment in segments]
    joined = b"".join(parts)
    most = LOG_FRONT + LOG_ENTRY * len(parts) + len(joined)
    if most > 0xFFFFFFFF:
        raise Refusal(31)
    lengths = (c_uint32 * max(1, len(parts)))(*map(len, parts))
    out = _room(most)
    return ctypes.string_at(out, _accepted(_library.dxl_log_write(joined, len(joined), lengths, len(parts), out, most)))


def log_check(log: BytesLike) -> None:
    """Returns if the log is sound; refused with 31 or 34 if not.

    >>> log_check(log_write([]))
    >>> log_check(b"none")
    Traceback (most recent call last):
    mednukals.Refusal: refused, 31: the file is not laid out as a log, or no log can be made of the segments
    """
    log = _bytes(log, "log")
    _accepted(_library.dxl_log_check(log, len(log)))


def log_last(log: BytesLike, id: int) -> Place | None:
    """Where the last packet with an ID begins, or None if there is none; refused with 31 and 32. The index is taken at its word."""
    log = _bytes(log, "log")
    found = _library.dxl_log_last(log, len(log), _byte(id, "id"))
    return Place(found.segment, found.offset) if _accepted(found.found) else None


def log_salvage(log: BytesLike) -> Salvaged:
    """A sound log of what is whole in one that was cut off or has a wrong directory; refused with 33.

    >>> log = log_write([encode(1, Instruction.PING), encode(2, Instruction.PING)])
    >>> saved = log_salvage(log[:-1])
    >>> saved.log == log_write([encode(1, Instruction.PING)]), saved.dropped, saved.leftover
    (True, [(1, <Why.BAD_END: 2>)], 9)
    """
    log = _bytes(log, "log")
    entries = min(int.from_bytes(log[:4], "little"), max(0, len(log) - LOG_FRONT) // LOG_ENTRY)
    report, out = (c_uint32 * max(1, 2 * entries))(), _room(len(log))
    salvaged = _library.dxl_log_salvage(log, len(log), out, len(log), report, 2 * entries)
    written = ctypes.string_at(out, _accepted(salvaged.count))
    dropped = [(report[2 * i], Why(report[2 * i + 1])) for i in range(salvaged.dropped)]
    return Salvaged(written, dropped, salvaged.index_changed, salvaged.leftover, bool(salvaged.header_changed))


# ---- plans of goals ----


def _goals(goals: Goals) -> Any:
    """The goals as C takes them: by ID, -1 for none."""
    if isinstance(goals, Mapping):
        wanted = [-1] * 253
        for device, goal in goals.items():
            wanted[_number(device, 0, 252, "an ID of the goals")] = goal
        goals = wanted
    numbers = [_number(goal, -1 << 31, (1 << 31) - 1, "a goal") for goal in goals]
    return (c_int32 * max(1, len(numbers)))(*numbers), len(numbers)


def plan(goals: Goals) -> bytes:
    """The goals of many devices as Sync Writes. `goals` has a goal for each ID that is to get one, or is a list of 253, with -1 for
    none; refused with 41 and 42.

    >>> plan({3: 7, 9: 255}).hex(" ")
    'ff ff fd 00 fe 11 00 83 74 00 04 00 03 07 00 00 00 09 ff 00 00 00 90 10'
    """
    numbers, count = _goals(goals)
    out = _room(2 * MAX_PACKET)
    return ctypes.string_at(out, _accepted(_library.dxl_plan(numbers, count, out, 2 * MAX_PACKET)))


def plan_check(goals: Goals, packets: BytesLike) -> bool:
    """Whether packets from any source set exactly these goals; refused with 41 and 42.

    >>> plan_check({3: 7}, plan({3: 7})), plan_check({3: 8}, plan({3: 7}))
    (True, False)
    """
    numbers, count = _goals(goals)
    packets = _bytes(packets, "packets")
    return bool(_accepted(_library.dxl_plan_check(numbers, count, packets, len(packets))))
