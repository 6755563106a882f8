"""Writes examples/wet.txt and examples/wet.bin, a capture of a line that is not dry: wet.py [FOLDER]

Three devices were asked for, and two are there. The line has 1,000,000 bits per second. wet.txt has a line for each burst of bytes,
with its time in seconds; wet.bin has the same bytes without the times, as one segment.
"""
import sys
from pathlib import Path

from talk import (ACTION, ALL, BULK_READ, CLEAR, GOAL_POSITION, HEADER, HOMING_OFFSET, LAMP, MODEL_AND_FIRMWARE, PING, PRESENT_POSITION,
                  READ, REG_WRITE, SYNC_READ, SYNC_WRITE, TORQUE, WRITE, at, crc16, damaged, packet, status, word)

BYTE = 10e-6  # seconds: ten bits
HARDWARE_ERROR = 70
ALERT = 0x80


def not_stuffed(device, body):
    """A packet with a right checksum whose body has FF FF FD as it is."""
    front = HEADER + bytes([device]) + word(len(body) + 2) + body
    return front + crc16(front).to_bytes(2, "little")


class Line:
    """What is heard, with times. Between two exchanges the line is silent for four milliseconds."""

    def __init__(self):
        self.lines, self.now = [], 0.0

    def hear(self, data, after=0.0):
        self.now += after
        self.lines.append((self.now, data))
        self.now += len(data) * BYTE

    def exchange(self, sent, *replies):
        self.hear(sent, 4e-3)
        for reply in replies:
            self.hear(reply, 0.25e-3)


def moves(line):
    line.exchange(packet(1, PING), status(1, 0, MODEL_AND_FIRMWARE))
    line.exchange(packet(1, READ, word(PRESENT_POSITION) + word(4)), status(1, 0, word(166, 4)))
    line.exchange(packet(1, WRITE, at(TORQUE, 1, 1)), status(1))
    line.exchange(packet(1, WRITE, at(GOAL_POSITION, 5000)), status(1, 4))
    line.exchange(packet(1, REG_WRITE, at(GOAL_POSITION, 800)), status(1))
    line.exchange(packet(1, ACTION), status(1))
    line.exchange(packet(2, WRITE, at(HOMING_OFFSET, -131073)), status(2))  # FF FF FD FF, which is stuffed


def water(line):
    """Noise before a packet, a packet that a gap cuts off, and beginnings of packets with a wrong ID, length and stuffing."""
    line.exchange(bytes.fromhex("3E FF FF FD 41") + packet(2, READ, word(LAMP) + word(1)), status(2, 0, bytes([1])))
    line.hear(packet(1, READ, word(PRESENT_POSITION) + word(4))[:9], 4e-3)
    line.hear(HEADER + bytes([253, 3, 0, 1]), 4e-3)
    line.hear(HEADER + bytes([7]) + word(1200) + bytes([2]), 4e-3)
    line.hear(not_stuffed(2, bytes([WRITE]) + word(HOMING_OFFSET) + word(-131073, 4)), 4e-3)
    line.exchange(damaged(packet(2, PING)), status(2, 3))


def many(line):
    line.exchange(packet(ALL, SYNC_WRITE, word(GOAL_POSITION) + word(4) + bytes([1]) + word(512, 4) + bytes([2]) + word(1024, 4)))
    line.exchange(packet(ALL, SYNC_READ, word(HARDWARE_ERROR) + word(1) + bytes([1, 2])), status(1, 0, b"\0"), status(2, ALERT, b"\x04"))
    entries = bytes([1]) + word(PRESENT_POSITION) + word(4) + bytes([2]) + word(LAMP) + word(1)
    line.exchange(packet(ALL, BULK_READ, entries), status(1, 0, word(498, 4)), damaged(status(2, ALERT, b"\1")))
    line.exchange(packet(3, PING))
    line.exchange(packet(2, WRITE, at(PRESENT_POSITION, 1)), status(2, ALERT | 7))
    line.exchange(packet(1, CLEAR, b"\1"), status(1, 2))


def main(folder):
    line = Line()
    moves(line)
    water(line)
    many(line)
    text = "".join(f"{time:.6f} {data.hex(' ').upper()}\n" for time, data in line.lines)
    (folder / "wet.txt").write_text("# made by examples/wet.py; 1,000,000 bits per second\n" + text, encoding="ascii")
    (folder / "wet.bin").write_bytes(b"".join(data for _, data in line.lines))


if __name__ == "__main__":
    main(Path(sys.argv[1] if len(sys.argv) > 1 else "examples"))
