"""Holds the input of the program vectors to the published packets: usage check_vectors.py [--write], in the repository's root

Makes the input from tests/vectors/packets.txt and tests/vectors/exchanges.txt and compares it with crates/vectors/stdin, or writes it
there. crates/vectors/src/main.rt says what a record is.
"""
import sys
from pathlib import Path

from faults import report

FOLDER = Path("tests/vectors")
INPUT = Path("crates/vectors/stdin")
TEXT, DEVICE, SEGMENT = 0, 1, 2


def rows(name):
    lines = (FOLDER / name).read_text(encoding="utf-8").splitlines()
    return [[field.strip() for field in line.split("|")] for line in lines if not line.startswith("#")]


def record(kind, content):
    return bytes([kind, len(content)]) + content


def text(line):
    return record(TEXT, line.encode("ascii"))


def device(id, position):
    return record(DEVICE, bytes([id]) + position.to_bytes(2, "little"))


def set_up(words, earlier):
    """A device as an exchange has it: '1', '1 at 166' or '1 after 273', where earlier gives the bytes at a line."""
    id, *state = words.split()
    position, heard = 0, b""
    if state[:1] == ["at"]:
        position = int(state[1])
    elif state[:1] == ["after"]:
        heard = record(SEGMENT, earlier(state[1]))
    elif state:
        raise ValueError(f"no such device: {words}")
    return device(int(id), position) + heard


def wanted(reply, answer):
    if answer == "as printed":
        return f"wanted: as printed at {reply}"
    printed = "" if reply == "-" else f"; another reply is printed at {reply}"
    return f"wanted: {answer}{printed}"


def no_instruction(packet, status):
    """A status is heard by the device whose ID it carries; of a part of one nothing is heard."""
    id = packet[4] if status == "good" and packet[4] <= 252 else 1
    return text("wanted: no event" if status == "part" else "wanted: silent") + device(id, 0)


def make():
    packets = {(document, line): bytes.fromhex(hex) for document, line, _, _, hex in rows("packets.txt")}
    exchanges = {}
    for document, line, *rest in rows("exchanges.txt"):
        exchanges.setdefault((document, line), []).append(rest)
    unknown = exchanges.keys() - packets.keys()
    if unknown:
        raise ValueError(f"packets.txt has no {sorted(unknown)}")
    made = b""
    for document, line, what, status, _ in rows("packets.txt"):
        packet = packets[document, line]
        mark = "" if status == "good" else f" ({status})"
        title = text(f"== {document} line {line}: {what}{mark}")
        for words, reply, answer in exchanges.get((document, line), []):
            made += title + text(wanted(reply, answer))
            made += set_up(words, lambda before: packets[document, before]) + record(SEGMENT, packet)
        if (document, line) not in exchanges:
            made += title + no_instruction(packet, status) + record(SEGMENT, packet)
    return made


def main():
    made = make()
    if sys.argv[1:] == ["--write"]:
        INPUT.write_bytes(made)
    stored = INPUT.read_bytes()
    faults = [] if stored == made else [f"{INPUT} is not what check_vectors.py --write makes of {FOLDER}"]
    return report("vectors", faults, f"{INPUT} is what {FOLDER} makes, {len(made)} bytes")


if __name__ == "__main__":
    sys.exit(main())
