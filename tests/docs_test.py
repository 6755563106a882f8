"""Holds the documents to the tree: usage docs_test.py CC ARCHIVE, in the repository's root

Links lead to files, and commands of make to targets; crates.txt lists what is named. The code that docs/INTEGRATING.md shows stands so
in a file that the gate runs, and its sizes are those of archive and header. The loops that the header shows stand in
tests/c/exchange.c. The program in README.md is compiled and run, and prints what its comments say.
"""
import re
import subprocess
import sys
import tempfile
import textwrap
import unittest
from pathlib import Path

import suite
from archives import dependencies

CC, ARCHIVE = sys.argv[1:] if len(sys.argv) == 3 else ("", "")
PAGES = [Path("README.md"), Path("CHANGELOG.md"), *sorted(Path("docs").glob("*.md"))]
SHOWN = [Path("examples", name) for name in ("uart_board.c", "uart_board.h", "segment.c", "old_boards.c")]
SHOWN += [Path("tests/c/empty.cpp")]
UART_BOARD = [Path("examples", name) for name in ("uart_board.c", "uart_pty.c", "pty_line.c", "host.c")]
PATIENCE = 60  # seconds for one command


def text(path):
    return path.read_text(encoding="utf-8")


def blocks(path, *languages):
    found = re.findall(r"^```(\w+)\n(.*?)^```$", text(path), flags=re.M | re.S)
    return [code for language, code in found if language in languages]


class Documents(unittest.TestCase):
    def test_links(self):
        for page in PAGES:
            for link in re.findall(r"\]\(([^)#]+)(?:#[^)]*)?\)", text(page)):
                if not link.startswith(("http:", "https:")):
                    self.assertTrue((page.parent / link).exists(), f"{page}: {link}")

    def test_index(self):
        for page in Path("docs").glob("*.md"):
            self.assertIn(f"](docs/{page.name})", text(Path("README.md")), "the index of documents")

    def test_commands(self):
        names = subprocess.run(["awk", "-v", "names=1", "-f", "tools/help.awk", "Makefile"], capture_output=True, check=True, text=True)
        targets = {*names.stdout.split(), "build/bin/line"}
        for page in PAGES:
            commands = re.findall(r"(?:^|`)make ([\w/]+)", text(page), flags=re.M)
            self.assertLessEqual(set(commands), targets, page)

    def test_crates(self):
        """crates.txt lists for each crate those that it names; the kit refuses one that is named and not listed."""
        for crate, listed in dependencies(text(Path("crates.txt"))).items():
            paths = [path for part in ("src", "specs", "proofs") for path in Path("crates", crate, part).rglob("*.*t")]
            sources = "".join(text(path) for path in paths if path.suffix in (".rt", ".antt"))
            self.assertEqual([name for name in listed if not re.search(rf"Rattle\.{name}\b|\b{name}::", sources)], [], crate)

    def test_code_of_integrating(self):
        sources = [text(path) for path in SHOWN]
        shown = blocks(Path("docs/INTEGRATING.md"), "c", "cpp")
        self.assertGreater(len(shown), 3)
        for code in shown:
            parts = [code, textwrap.indent(textwrap.dedent(code), "    ")]
            self.assertTrue(any(part in source for part in parts for source in sources), code)

    def test_loops_of_the_header(self):
        """Paragraph by paragraph, comments left out."""
        comments = re.findall(r"^/\*\n.*?^ \*/$", text(Path("include/mednukals.h")), flags=re.M | re.S)
        shown = ["\n".join(re.findall(r"^ \* {5}(.*)$|^ \*$", comment, flags=re.M)) for comment in comments]
        loops = [code for code in shown if "struct dxl_step" in code or "struct dxl_board_step" in code]
        self.assertEqual(len(loops), 2)
        source = text(Path("tests/c/exchange.c"))
        for part in "\n\n".join(loops).split("\n\n"):
            code = re.sub(r" *//.*$", "", part, flags=re.M).strip()
            self.assertIn(f"\n{code}\n" if code else "", source)

    def linked(self):
        """How many bytes of the archive are in the example board, linked without what it does not call."""
        with tempfile.TemporaryDirectory() as folder:
            words = [CC, "-O2", "-Iinclude", f"-Wl,--gc-sections,-Map={folder}/map", "-o", f"{folder}/board", *UART_BOARD, ARCHIVE]
            subprocess.run(words, check=True, timeout=PATIENCE)
            kept = text(Path(folder, "map")).split("Linker script and memory map")[1]
        return sum(int(size, 16) for size in re.findall(r"^ \.(?:text|rodata)\S*\s+0x\w+\s+0x(\w+) \S*\.a\(capi", kept, flags=re.M))

    def test_sizes_of_integrating(self):
        page = text(Path("docs/INTEGRATING.md"))
        row = re.search(r"^\| code \| about (\S+) with .*, (\S+) with .*, (\S+) with .* about (\S+) stay \|$", page, flags=re.M)
        size = subprocess.run(["size", ARCHIVE], capture_output=True, check=True, timeout=PATIENCE, text=True).stdout
        objects = {line.split()[5]: int(line.split()[0]) for line in size.splitlines()[1:]}
        sizes = [objects[name] for name in ("capi_board.o", "capi.o", "capi_v1.o")] + [self.linked()]
        self.assertEqual(len(objects), 3)
        for said, bytes_ in zip(row.groups(), sizes):
            self.assertAlmostEqual(int(said.replace(",", "")), bytes_, delta=0.005 * bytes_, msg="make memory prints the sizes")

    def test_records(self):
        """The sizes of the header's structs, as make memory prints them."""
        with tempfile.TemporaryDirectory() as folder:
            subprocess.run([CC, "-Iinclude", "-o", f"{folder}/memory", "tests/bench/memory.c"], check=True, timeout=PATIENCE)
            printed = subprocess.run([f"{folder}/memory"], capture_output=True, check=True, timeout=PATIENCE, text=True).stdout
        self.assertIn(printed, text(Path("docs/PERFORMANCE.md")), "PERFORMANCE, 'Memory'")
        board = re.search(r"struct dxl_board +(\d+)$", printed, flags=re.M).group(1)
        kept, single = re.findall(r"together +(\d+)$", printed, flags=re.M)
        row = re.search(r"^\| kept [^|]*\| (\S+) \| `struct dxl_board`, of (\S+) bytes, .* take (\S+) in the board's place \|$",
                        text(Path("docs/INTEGRATING.md")), flags=re.M)
        self.assertEqual([said.replace(",", "") for said in row.groups()], [kept, board, single])

    def test_program_of_readme(self):
        programs = [code for code in blocks(Path("README.md"), "c") if "int main" in code]
        self.assertEqual(len(programs), 1)
        with tempfile.TemporaryDirectory() as folder:
            source, program = Path(folder, "example.c"), Path(folder, "example")
            source.write_text(programs[0], encoding="utf-8")
            warnings = ["-std=c99", "-Wall", "-Wextra", "-Wpedantic", "-Werror"]
            subprocess.run([CC, *warnings, "-Iinclude", "-o", program, source, ARCHIVE], check=True, timeout=PATIENCE)
            ended = subprocess.run([program], capture_output=True, check=True, timeout=PATIENCE, text=True)
        for line in ended.stdout.splitlines():
            self.assertRegex(programs[0], rf"/\* {re.escape(line.strip())}\b")


if __name__ == "__main__":
    sys.exit(suite.run(usage=None if CC else "docs_test.py CC ARCHIVE"))
