#!/usr/bin/env python3
"""flips.py 'PACKET IN HEX' BYTE.BIT...: which checksum a recorded packet has after chosen bits were flipped, without a new pass"""
import re
import sys
import mednukals

if not re.fullmatch("( *[0-9A-Fa-f]{2}){3,} *", " ".join(sys.argv[1:2])):
    sys.exit(f"usage: {__doc__}")
packet = bytes.fromhex(sys.argv[1])
covered, crc = len(packet) - 2, int.from_bytes(packet[-2:], "little")
for word in sys.argv[2:]:
    byte, _, bit = word.partition(".")
    if not byte.isdecimal() or int(byte) >= covered or bit not in [*"01234567"]:
        sys.exit(f"flips.py: {word} is no BYTE.BIT in bytes 0 to {covered - 1}, which the checksum covers; bits are 0 to 7")
    crc = mednukals.crc16_flipped(crc, bytes([1 << int(bit)]), covered - 1 - int(byte))
print(crc.to_bytes(2, "little").hex(" ").upper())
