"""Runs the example that reads and writes packets of the old boards: usage old_boards_test.py PROGRAM, in the repository's root"""
import subprocess
import sys
import tempfile
import unittest
from pathlib import Path

import suite

PROGRAM = sys.argv[1] if len(sys.argv) == 2 else ""
PATIENCE = 60  # seconds for one command
READ = bytes.fromhex("FF FF 01 04 02 2B 01 CC")
TO_253 = bytes.fromhex("FF FF FD 02 01 FF")
# Promises 259 bytes, which do not come.
PROMISE = bytes.fromhex("FF FF 07 FF")
# What README.md shows.
SAMPLE = "packet 1 02 2B 01\npacket 1 00 20\nchecksum 1\npacket 253 01\npacket 254 05\nend 40\n"


def run(*words, data=b"", **more):
    streams = {"stdout": subprocess.PIPE, **more}
    ended = subprocess.run([PROGRAM, *words], input=data, stderr=subprocess.PIPE, timeout=PATIENCE, check=False, **streams)
    return ended.returncode, (ended.stdout or b"").decode(), ended.stderr.decode()


class OldBoards(unittest.TestCase):
    # [O2 O6 O12 O13]
    def test_sample(self):
        self.assertEqual(run("examples/old_boards.bin"), (0, SAMPLE, ""))
        self.assertEqual(run("-", data=Path("examples/old_boards.bin").read_bytes()), (0, SAMPLE, ""))
        self.assertEqual(run("--mercury", "examples/old_boards.bin"), (0, SAMPLE.replace("packet 253 01\n", ""), ""))
        self.assertIn(f"\n```\n{SAMPLE}```\n", Path("README.md").read_text(encoding="utf-8"))

    def test_events(self):
        self.assertEqual(run("-"), (0, "end 0\n", ""))
        self.assertEqual(run("-", data=PROMISE + READ * 2), (0, "packet 1 02 2B 01\n" * 2 + "end 20\n", ""))
        for n in range(50, 70):  # across the end of a chunk
            self.assertEqual(run("-", data=bytes(n) + READ), (0, f"packet 1 02 2B 01\nend {n + 8}\n", ""))
            self.assertEqual(run("-", data=b"\xFF" * n + TO_253), (0, f"packet 253 01\nend {n + 6}\n", ""))

    # what is printed of a packet is what makes it [O9 O11]
    def test_packets(self):
        for option in [], ["--mercury"]:
            for words, packet in {"1 02 2B 01": READ, "254 5": bytes.fromhex("FF FF FE 02 05 FA")}.items():
                self.assertEqual(run(*option, "--packet", *words.split()), (0, packet.hex(" ").upper() + "\n", ""))
        _, longest, _ = run("--packet", "253", *["7f"] * 254)
        self.assertEqual(run("-", data=bytes.fromhex(longest)), (0, "packet 253" + " 7F" * 254 + "\nend 259\n", ""))

    # [O10]
    def test_refusals(self):
        for option, number in ["--mercury", 253], ["--mercury", 255], [None, 255]:
            words = ["--packet", str(number), "01"]
            refused = (1, "", f"old_boards: refused, 11: the protocol has no ID {number}\n")
            self.assertEqual(run(*([option] if option else []), *words), refused)
        for n in 255, 300:
            self.assertEqual(run("--packet", "1", *["00"] * n), (1, "", "old_boards: refused, 12: a body has at most 254 bytes\n"))

    def test_faults(self):
        for words in [], ["--packet", "1"], ["--mercury"], ["--old", "-"], ["-", "-"], ["-h"]:
            status, out, err = run(*words)
            self.assertEqual((status, out, err.startswith("usage: old_boards ")), (2, "", True))
        for words in ["256", "01"], ["x", "01"], ["1", "100"], ["1", "02", "0g"], ["1", ""]:
            self.assertEqual(run("--packet", *words), (2, "", "old_boards: the ID is 0 to 255, and a byte of the body 00 to FF\n"))
        with tempfile.TemporaryDirectory() as folder:
            for name in folder, f"{folder}/none":
                status, out, err = run(name)
                self.assertEqual((status, out, err.startswith(f"old_boards: {name}: ")), (1, "", True))
        with open("/dev/full", "wb") as full:
            status, _, err = run("-", data=READ, stdout=full)
            self.assertEqual((status, err.startswith("old_boards: standard output: ")), (1, True))


if __name__ == "__main__":
    sys.exit(suite.run(usage=None if PROGRAM else "old_boards_test.py PROGRAM"))
