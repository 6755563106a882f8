"""Runs the example that prints the events of a captured file with their offsets: usage segment_test.py PROGRAM, in the repository's
root
"""
import subprocess
import sys
import tempfile
import unittest
from pathlib import Path

import suite

PROGRAM = sys.argv[1] if len(sys.argv) == 2 else ""
PATIENCE = 60  # seconds for one command
PING = bytes.fromhex("FF FF FD 00 01 03 00 01 19 4E")
# A body with an FD that was added, and one whose checksum is wrong.
STUFFED = bytes.fromhex("FF FF FD 00 01 0A 00 03 14 00 FF FF FD FD FF 23 83")
FAILED = PING[:9] + b"\x4F"
# Promises 1,031 bytes, which do not come.
PROMISE = bytes.fromhex("FF FF FD 00 07 00 04")
# What README.md shows.
SAMPLE = "5 packet 1 1 0\n15 crc 1\n29 crc 2\n37 packet 1 2 4\n51 packet 2 1 0\n68 packet 1 3 6\nend 88\n"


def run(*words, data=b"", **more):
    streams = {"stdout": subprocess.PIPE, **more}
    ended = subprocess.run([PROGRAM, *words], input=data, stderr=subprocess.PIPE, timeout=PATIENCE, check=False, **streams)
    return ended.returncode, (ended.stdout or b"").decode(), ended.stderr.decode()


class Segment(unittest.TestCase):
    # [R3 R4 R6]
    def test_sample(self):
        self.assertEqual(run("examples/capture.bin"), (0, SAMPLE, ""))
        self.assertEqual(run("-", data=Path("examples/capture.bin").read_bytes()), (0, SAMPLE, ""))
        self.assertIn(f"\n```\n{SAMPLE}```\n", Path("README.md").read_text(encoding="utf-8"))

    def test_events(self):
        self.assertEqual(run("-"), (0, "end 0\n", ""))
        self.assertEqual(run("-", data=PING), (0, "0 packet 1 1 0\nend 10\n", ""))
        self.assertEqual(run("-", data=PROMISE + PING + PING[:9]), (0, "7 packet 1 1 0\nend 26\n", ""))
        self.assertEqual(run("-", data=STUFFED + FAILED), (0, "0 packet 1 3 6\n17 crc 1\nend 27\n", ""))

    def test_any_length(self):
        for n in [65525, 65526, 65527, 131072, 1000000]:  # the packet ends with a buffer, or goes on in the next
            self.assertEqual(run("-", data=bytes(n) + PING), (0, f"{n} packet 1 1 0\nend {n + 10}\n", ""))

    def test_faults(self):
        self.assertEqual(run(), (2, "", "usage: segment FILE, or segment - for standard input\n"))
        with tempfile.TemporaryDirectory() as folder:
            self.assertEqual(run(f"{folder}/none")[:2], (1, ""))
            status, out, err = run(folder)
            self.assertEqual((status, out, err.startswith(f"segment: {folder}: ")), (1, "", True))
        with open("/dev/full", "wb") as full:
            status, _, err = run("-", data=PING, stdout=full)
            self.assertEqual((status, err.startswith("segment: standard output: ")), (1, True))


if __name__ == "__main__":
    sys.exit(suite.run(usage=None if PROGRAM else "segment_test.py PROGRAM"))
