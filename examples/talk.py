#!/usr/bin/env python3
"""A master for the example boards: talks to one, shows each exchange in hex with what it means, and checks every reply.

It has its own encoder, from the rules of the protocol, and computes the replies that it expects. What is sent (>) goes out in one
write. Exit codes: 0 every reply is as expected, 1 one is not or the line fails, 2 a bad option.
"""
import argparse
import os
import select
import sys
import termios
import time
import tty

HEADER = bytes([0xFF, 0xFF, 0xFD, 0x00])
ALL = 254  # the ID that addresses all devices
PING, READ, WRITE, REG_WRITE, ACTION, REBOOT = 0x01, 0x02, 0x03, 0x04, 0x05, 0x08
CLEAR, STATUS, SYNC_READ, SYNC_WRITE, BULK_READ, BULK_WRITE = 0x10, 0x55, 0x82, 0x83, 0x92, 0x93
HOMING_OFFSET, MAX_POSITION, TORQUE, LAMP, REGISTERED = 20, 48, 64, 65, 69
GOAL_VELOCITY, GOAL_POSITION, PRESENT_POSITION = 104, 116, 132
MODEL_AND_FIRMWARE = (1030).to_bytes(2, "little") + bytes([38])
ARRIVAL = 30  # the most seconds that the arm may take


class Failure(Exception):
    """What the board did other than expected."""


# ---- packets ----


def crc16(data):
    """The shift register of x^16 + x^15 + x^2 + 1, highest bit first, from 0."""
    register = 0
    for byte in data:
        register ^= byte << 8
        for _ in range(8):
            register = (register << 1) ^ (0x8005 if register & 0x8000 else 0)
            register &= 0xFFFF
    return register


def stuffed(body):
    return body.replace(b"\xff\xff\xfd", b"\xff\xff\xfd\xfd")


def unstuffed(body):
    return body.replace(b"\xff\xff\xfd\xfd", b"\xff\xff\xfd")


def packet(device, instruction, params=b""):
    body = stuffed(bytes([instruction]) + params)
    front = HEADER + bytes([device]) + (len(body) + 2).to_bytes(2, "little") + body
    return front + crc16(front).to_bytes(2, "little")


def status(device, error=0, data=b""):
    return packet(device, STATUS, bytes([error]) + data)


def damaged(good):
    """The packet with another checksum."""
    return good[:-1] + bytes([good[-1] ^ 0x01])


def word(number, size=2):
    return number.to_bytes(size, "little", signed=number < 0)


def at(address, number, size=4):
    """The parameters of a write of one register."""
    return word(address) + word(number, size)


def spaced(data):
    return data.hex(" ").upper()


# ---- the line ----


class Line:
    """A terminal in raw mode, on which every reply has to begin within the timeout."""

    def __init__(self, path, timeout):
        self.timeout = timeout
        self.fd = os.open(path, os.O_RDWR | os.O_NOCTTY | os.O_NONBLOCK)
        tty.setraw(self.fd, termios.TCSANOW)
        termios.tcflush(self.fd, termios.TCIFLUSH)  # what was left of an earlier exchange

    def send(self, data):
        if os.write(self.fd, data) != len(data):
            raise Failure("the line does not take a packet in one write")

    def receive(self):
        """One packet, as far as header and length tell where it ends; fewer bytes where no more come in time."""
        deadline = time.monotonic() + self.timeout
        got = self.take(b"", 7, deadline)
        if got[:4] != HEADER or len(got) < 7:
            return got
        return self.take(got, 7 + int.from_bytes(got[5:7], "little"), deadline)

    def take(self, got, count, deadline):
        while len(got) < count:
            ready, _, _ = select.select([self.fd], [], [], max(0, deadline - time.monotonic()))
            if not ready:
                break
            got += os.read(self.fd, count - len(got))
        return got

    def rest(self):
        """What has come and was not expected."""
        return self.take(b"", 4096, time.monotonic())


# ---- the talk ----


class Talk:
    """Exchanges with one board."""

    def __init__(self, line, device):
        self.line = line
        self.device = device
        self.exchanges = 0

    def say(self, what, sent):
        self.exchanges += 1
        print(f"{what}\n  > {spaced(sent)}", flush=True)
        self.line.send(sent)

    def receive(self, wanted):
        got = self.line.receive()
        if not got:
            raise Failure(f"no reply within {self.line.timeout:g} s; wanted {wanted}")
        return got

    def hear(self, meaning, wanted):
        """One reply, which has to be the wanted one."""
        got = self.receive(f"{spaced(wanted)} ({meaning})")
        if got != wanted:
            raise Failure(f"wanted {spaced(wanted)} ({meaning}), got {spaced(got)}")
        print(f"  < {spaced(got)}  {meaning}", flush=True)

    def ask(self, what, instruction, params, meaning, error=0, data=b""):
        """An instruction to the board, and its status."""
        self.say(what, packet(self.device, instruction, params))
        self.hear(meaning, status(self.device, error, data))

    def ping(self, what="Ping"):
        self.ask(what, PING, b"", "model number 1030, firmware 38", data=MODEL_AND_FIRMWARE)

    def read(self, what, address, number, size):
        self.ask(f"Read of {what}", READ, word(address) + word(size), f"{what} is {number}", data=word(number, size))

    def position(self):
        """The present position, wherever the arm is."""
        self.say("Read of present position", packet(self.device, READ, word(PRESENT_POSITION) + word(4)))
        got = self.receive("the present position")
        data = unstuffed(got[7:-2])[2:]
        if got != status(self.device, 0, data) or len(data) != 4:
            raise Failure(f"wanted a status without error and with four bytes, got {spaced(got)}")
        number = int.from_bytes(data, "little", signed=True)
        print(f"  < {spaced(got)}  present position is {number}", flush=True)
        return number


def greet(talk, slot):
    # Torque off, no registered write: whatever was said to the board before.
    talk.ask("Reboot", REBOOT, b"", "done: RAM is fresh")
    talk.ping()
    begin = time.monotonic()
    talk.say("Ping to all devices", packet(ALL, PING))
    talk.hear(f"device {talk.device} answers in its slot", status(talk.device, 0, MODEL_AND_FIRMWARE))
    not_before(begin + talk.device * slot, "the reply came before its slot")


def not_before(moment, what):
    """Waits are checked from below only, so that a busy machine does no harm."""
    if time.monotonic() < moment:
        raise Failure(what)


def arrive(talk, goal):
    """Reads the position until it is the goal; it may only come nearer."""
    deadline = time.monotonic() + ARRIVAL
    away = None
    while away != 0:
        last, away = away, abs(talk.position() - goal)
        if last is not None and away > last:
            raise Failure(f"the arm went away from {goal}")
        if time.monotonic() > deadline:
            raise Failure(f"the arm has not arrived at {goal} within {ARRIVAL} s")
        if away != 0:
            time.sleep(0.05)
    talk.read("present position", PRESENT_POSITION, goal, 4)


def move(talk):
    talk.position()
    talk.ask("Write of torque enable", WRITE, at(TORQUE, 1, 1), "stored: torque is on")
    talk.ask("Write of goal position", WRITE, at(GOAL_POSITION, 512), "stored: the arm goes to 512")
    arrive(talk, 512)


def register_and_act(talk):
    talk.ask("Reg Write of goal position", REG_WRITE, at(GOAL_POSITION, 1024), "registered: 1024, for Action")
    talk.read("registered instruction", REGISTERED, 1, 1)
    talk.read("goal position", GOAL_POSITION, 512, 4)
    talk.ask("Action", ACTION, b"", "done: the arm goes to 1024")
    talk.read("registered instruction", REGISTERED, 0, 1)
    arrive(talk, 1024)
    talk.ask("Action", ACTION, b"", "02: nothing is registered any more", error=0x02)


def damage(talk, gap):
    ping = packet(talk.device, PING)
    answer = status(talk.device, 0, MODEL_AND_FIRMWARE)

    talk.say("A damaged Ping, directly followed by a good one", damaged(ping) + ping)
    talk.hear("03: a bad checksum", status(talk.device, 0x03))
    talk.hear("the good one is answered", answer)

    # Not stuffed: the bytes of a Ping stand in the body as they are.
    length = (1 + len(ping) + 2).to_bytes(2, "little")
    outer = HEADER + bytes([talk.device]) + length + bytes([WRITE]) + ping
    outer += (crc16(outer) ^ 0x0100).to_bytes(2, "little")
    talk.say("Noise, and a Ping inside a packet with a bad checksum", bytes([0x00, 0x55, 0xFF, 0xFF, 0xFD]) + outer)
    talk.hear("03: a bad checksum", status(talk.device, 0x03))
    talk.hear("the Ping inside is answered", answer)

    promise = HEADER + bytes([7]) + (1024).to_bytes(2, "little")
    begin = time.monotonic()
    talk.say("Noise that promises 1,031 bytes, and a Ping", promise + ping)
    talk.hear("the Ping is answered after the gap", answer)
    not_before(begin + gap, "the reply came before the gap")


def refusals(talk):
    talk.ask("Clear, which is no instruction here", CLEAR, b"", "02: undefined instruction", error=0x02)
    talk.ask("Write of goal velocity 331", WRITE, at(GOAL_VELOCITY, 331), "04: out of range", error=0x04)
    talk.ask("Write of half a goal velocity", WRITE, at(GOAL_VELOCITY, 1, 2), "05: only a part of it", error=0x05)
    talk.ask("Write of present position", WRITE, at(PRESENT_POSITION, 1), "07: read only", error=0x07)
    talk.ask("Write of a homing offset under torque", WRITE, at(HOMING_OFFSET, 1), "07: ROM is locked", error=0x07)
    talk.ask("Write of torque enable", WRITE, at(TORQUE, 0, 1), "stored: torque is off")
    talk.ask("Write of max position 100 with min position 200", WRITE, at(MAX_POSITION, 100) + word(200, 4),
             "06: min above max", error=0x06)


def narrow(talk):
    # The goal position is 1024. Limits that leave it outside are refused, so that it is moved first.
    talk.ask("Write of max position 1000", WRITE, at(MAX_POSITION, 1000), "06: the goal position is above it", error=0x06)
    talk.ask("Write of goal position", WRITE, at(GOAL_POSITION, 900), "stored: 900")
    talk.ask("Reg Write of goal position", REG_WRITE, at(GOAL_POSITION, 800), "registered: 800, under max position 4095")
    talk.ask("Write of max position 1000", WRITE, at(MAX_POSITION, 1000), "stored: the goal position is inside")
    talk.ask("Action", ACTION, b"", "06: the limits are others by now", error=0x06)
    talk.read("goal position", GOAL_POSITION, 900, 4)
    talk.ask("Write of max position", WRITE, at(MAX_POSITION, 4095), "stored: 4095 again")


def stuffing(talk):
    # -131073 is FF FF FD FF
    talk.ask("Write of homing offset, stuffed", WRITE, at(HOMING_OFFSET, -131073), "stored: -131073")
    talk.read("homing offset", HOMING_OFFSET, -131073, 4)
    talk.ask("Write of homing offset", WRITE, at(HOMING_OFFSET, 0), "stored: 0 again")


def sync(talk, slot):
    other = 2 if talk.device != 2 else 3
    entries = bytes([other, 0, talk.device, 1])
    talk.say("Sync Write of the lamp, to two devices, which nobody answers",
             packet(ALL, SYNC_WRITE, word(LAMP) + word(1) + entries))
    begin = time.monotonic()
    talk.say("Sync Read of the lamp, from two devices",
             packet(ALL, SYNC_READ, word(LAMP) + word(1) + bytes([other, talk.device])))
    talk.hear("in slot 1: the lamp is on", status(talk.device, 0, bytes([1])))
    not_before(begin + slot, "the reply came before its slot")


def bulk(talk, slot):
    other = 2 if talk.device != 2 else 3
    entries = bytes([other]) + word(31) + word(1) + bytes([80]) + bytes([talk.device]) + word(LAMP) + word(1) + bytes([0])
    talk.say("Bulk Write of a register of another device and of the lamp, which nobody answers", packet(ALL, BULK_WRITE, entries))
    begin = time.monotonic()
    entries = bytes([other]) + word(144) + word(2) + bytes([talk.device]) + word(LAMP) + word(1)
    talk.say("Bulk Read of a register of another device and of the lamp", packet(ALL, BULK_READ, entries))
    talk.hear("in slot 1: the lamp is off", status(talk.device, 0, bytes([0])))
    not_before(begin + slot, "the reply came before its slot")


def give_way(talk, slot):
    # Where slots last no time, both are answered.
    if slot == 0:
        return
    other = 2 if talk.device != 2 else 3
    read = packet(ALL, SYNC_READ, word(LAMP) + word(1) + bytes([other, talk.device]))
    talk.say("Sync Read of the lamp, directly followed by a Ping", read + packet(talk.device, PING))
    talk.hear("the Ping alone is answered", status(talk.device, 0, MODEL_AND_FIRMWARE))
    talk.say("The same, followed by a Ping of another device, which is not there", read + packet(other, PING))
    time.sleep(2 * slot)
    talk.ping("Ping, after these slots")


def talk_to(line, device, gap, slot):
    talk = Talk(line, device)
    greet(talk, slot)
    move(talk)
    register_and_act(talk)
    damage(talk, gap)
    refusals(talk)
    narrow(talk)
    stuffing(talk)
    sync(talk, slot)
    bulk(talk, slot)
    give_way(talk, slot)
    talk.ping("Ping, the last one")
    rest = line.rest()
    if rest:
        raise Failure(f"bytes that nothing asked for: {spaced(rest)}")
    print(f"talk: {talk.exchanges} exchanges, each reply as expected")


def number_within(kind, least, most):
    """A type for argparse."""
    def read(text):
        try:
            number = kind(text)
        except ValueError:
            raise argparse.ArgumentTypeError(f"{text!r} is no number") from None
        if not least <= number <= most:
            raise argparse.ArgumentTypeError(f"{text} is not within {least} and {most}")
        return number
    return read


def options():
    parser = argparse.ArgumentParser(prog="talk", description=__doc__, formatter_class=argparse.RawDescriptionHelpFormatter,
                                     allow_abbrev=False)
    micros = number_within(int, 0, 99999999)
    parser.add_argument("line", metavar="LINE", help="the pseudo-terminal that the board prints")
    parser.add_argument("--id", type=number_within(int, 0, 252), default=1, metavar="ID", help="the board's ID (1)")
    parser.add_argument("--timeout", type=number_within(float, 0, 3600), default=10, metavar="SECONDS",
                        help="how long to wait for a reply (10)")
    parser.add_argument("--gap", type=micros, default=0, metavar="MICROSECONDS",
                        help="the board's gap: a reply that waits for it may not come earlier (0)")
    parser.add_argument("--slot", type=micros, default=0, metavar="MICROSECONDS", help="the board's slot time, likewise; 0: unknown (0)")
    return parser.parse_args()


def main():
    words = options()
    try:
        line = Line(words.line, words.timeout)
    except (OSError, termios.error) as error:
        print(f"talk: {words.line} cannot be opened as a line: {error}", file=sys.stderr)
        return 1
    try:
        talk_to(line, words.id, words.gap / 1e6, words.slot / 1e6)
    except Failure as failure:
        print(f"talk: FAILED: {failure}", file=sys.stderr)
        return 1
    except OSError as error:
        print(f"talk: FAILED: the line: {error}", file=sys.stderr)
        return 1
    except KeyboardInterrupt:
        print("talk: interrupted", file=sys.stderr)
        return 1
    return 0


if __name__ == "__main__":
    sys.exit(main())
