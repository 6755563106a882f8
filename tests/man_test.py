"""Holds man/dxl.1 and completion/dxl.bash to what the tool says of itself: usage man_test.py PROGRAM, in the repository's root

Every command, option, form of `dxl send`, register and exit status of `--help` is on the page, and nothing else is. The page is
formatted without a warning, where groff is there; its examples run. Completion is asked as bash asks it.
"""
import re
import shlex
import shutil
import subprocess
import sys
import tempfile
import unittest
from pathlib import Path

import suite

PROGRAM = sys.argv[1] if len(sys.argv) == 2 else ""
PAGE = Path("man/dxl.1")
COMPLETION = Path("completion/dxl.bash")
PATIENCE = 60  # seconds for one command


def said(*words):
    ended = subprocess.run([PROGRAM, *words], capture_output=True, text=True, timeout=PATIENCE, check=False)
    return ended.stdout if ended.returncode == 0 else ""


def usage(*words):
    """The lines of usage of a command, each with what goes on below it and without the text behind it."""
    lines = []
    for line in said(*words, "--help").split("\n\n")[0].splitlines():
        line = re.sub(r"  .*", "", line.removeprefix("usage:").strip())
        if line.startswith("dxl "):
            lines.append(line)
        else:
            lines[-1] += f" {line}"
    return lines


def commands():
    """Command -> its lines of usage. `dxl log --help` lists commands, which have a help each."""
    first = re.findall(r"^dxl ([a-z]+) ", "\n".join(usage()), flags=re.M)
    below = {name: re.findall(rf"^dxl {name} ([a-z]+) ", "\n".join(usage(name)), flags=re.M) for name in first}
    names = [[name, *more] for name in first for more in ([[one] for one in below[name]] or [[]])]
    return {" ".join(name): usage(*name) for name in names}


def options_of(text):
    return set(re.findall(r"(?<![\w-])--[a-z]+", text))


def plain(text):
    """Without the marks of the page."""
    return re.sub(r"\\f[A-Z]|\"", "", text.replace(r"\-", "-").replace(r"\e", "\\"))


def parts(text, mark):
    """Heading -> text, for the headings that such a mark makes."""
    found = re.split(rf"^\.{mark} (.*)$", text, flags=re.M)
    return dict(zip(found[1::2], found[2::2]))


def tags(text):
    """The words that a list explains."""
    return [plain(line) for line in re.findall(r"^\.TP\n\.B[RI]? (.*)$", text, flags=re.M)]


class Page(unittest.TestCase):
    def setUp(self):
        self.sections = parts(PAGE.read_text(encoding="utf-8"), "SH")
        self.commands = commands()

    def test_synopsis(self):
        lines = [plain(line) for line in re.findall(r"^\.HP\n(.*)$", self.sections["SYNOPSIS"], flags=re.M)]
        first = [lines_of[0] for lines_of in self.commands.values()]
        self.assertGreater(len(first), 10)
        self.assertEqual(lines, [*first, "dxl [COMMAND] --help", "dxl --version"])

    def test_commands(self):
        self.assertEqual(list(parts(self.sections["COMMANDS"], "SS")), [f"dxl {name}" for name in self.commands])

    def test_options(self):
        """What the help of a command explains, the page explains in its section."""
        for name, text in parts(self.sections["COMMANDS"], "SS").items():
            with self.subTest(name):
                help_ = said(*name.split()[1:], "--help")
                explained = set(re.findall(r"^  (--[a-z]+)", help_, flags=re.M))
                self.assertLessEqual(explained, options_of(self.commands[name.removeprefix("dxl ")][0]))
                self.assertEqual({tag.split()[0] for tag in tags(text) if tag.startswith("--")}, explained)
        self.assertEqual({tag.split()[0] for tag in tags(self.sections["OPTIONS"])}, {"--help", "--version"})
        self.assertIn("--version", usage()[-1])

    def test_values(self):
        """What an option is if it is not given: the numbers in brackets."""
        for name, text in parts(self.sections["COMMANDS"], "SS").items():
            help_ = re.findall(r"^  --([a-z]+).*?\((\d+)\b", said(*name.split()[1:], "--help"), flags=re.M)
            page = re.findall(r"^\.BI --([a-z]+).*\n.*?\((\d+)\b", text.replace(r"\-", "-"), flags=re.M)
            self.assertEqual(page, help_, name)

    def test_signs(self):
        signs = re.findall(r"^  ([^\w\s-])  ", said("show", "--help"), flags=re.M)
        self.assertEqual([tag for tag in tags(parts(self.sections["COMMANDS"], "SS")["dxl show"]) if not tag.startswith("-")], signs)

    def test_send(self):
        """Its forms, and the registers."""
        section = parts(self.sections["COMMANDS"], "SS")["dxl send"]
        forms = [line.removeprefix("dxl send LINE ") for line in self.commands["send"][1:]]
        self.assertGreater(len(forms), 10)
        self.assertEqual([tag for tag in tags(section) if not tag.startswith("--")], forms)
        names = re.search(r"^REGISTER is a name.*\n((?:  .*\n)+)", said("send", "--help"), flags=re.M).group(1).split()
        self.assertEqual(plain(re.search(r"^\.IP\n(.*?)^\.PP$", section, flags=re.M | re.S).group(1)).split(), names)
        header = re.findall(r"DXL_REG_(\w+) =", Path("include/mednukals.h").read_text(encoding="utf-8"))
        self.assertEqual([name.upper().replace("-", "_") for name in names], header)

    def test_exit_status(self):
        numbers = re.findall(r"\b(\d) where", said("--help"))
        self.assertEqual(numbers, list("01234"))
        self.assertEqual(tags(self.sections["EXIT STATUS"]), numbers)

    def test_formatted(self):
        if not shutil.which("groff"):
            self.skipTest("groff is not there: how the page is formatted was not tried")
        ended = subprocess.run(["groff", "-man", "-Tutf8", "-ww", PAGE], capture_output=True, text=True, timeout=PATIENCE, check=True)
        self.assertEqual(ended.stderr, "")
        text = re.sub(r"\x1B\[\d*m|.\x08", "", ended.stdout)
        self.assertIn("dxl show [--hex] [--json]", text)
        self.assertEqual([line for line in text.splitlines() if len(line) > 80 and "/" not in line], [])

    def test_examples(self):
        """Each line runs. A serial line that is not there cannot be opened: the words are known."""
        examples = [line for text in re.findall(r"^\.EX\n(.*?)^\.EE$", self.sections["EXAMPLES"], flags=re.M | re.S)
                    for line in plain(text).splitlines()]
        self.assertGreater(len(examples), 6)
        with tempfile.TemporaryDirectory() as folder:
            for line in examples:
                words = line.replace("examples/", f"{Path('examples').resolve()}/").replace("/dev/ttyUSB0", f"{folder}/none")
                run = f"dxl() {{ {shlex.quote(str(Path(PROGRAM).resolve()))} \"$@\"; }}\n{words}"
                ended = subprocess.run(["bash", "-c", run], cwd=folder, capture_output=True, text=True, timeout=PATIENCE, check=False)
                self.assertEqual(ended.returncode, 3 if " send " in line else 0, f"{line}: {ended.stderr}")


class Completion(unittest.TestCase):
    def offered(self, *words):
        """What is offered for the last of these words behind `dxl`."""
        script = 'source "$1"; shift; COMP_WORDS=("$@"); COMP_CWORD=$(($# - 1)); _dxl; printf "%s\\n" "${COMPREPLY[@]}"'
        ended = subprocess.run(["bash", "-c", script, "bash", COMPLETION, PROGRAM, *words], capture_output=True, text=True,
                               timeout=PATIENCE, check=True)
        self.assertEqual(ended.stderr, "")
        return ended.stdout.split()

    def test_commands(self):
        names = [name.split() for name in commands()]
        self.assertEqual(self.offered(""), sorted({name[0] for name in names}))
        for first in {name[0] for name in names if len(name) == 2}:
            self.assertEqual(self.offered(first, ""), sorted(name[1] for name in names if name[0] == first))
        self.assertEqual(self.offered("log", "sa"), ["salvage"])
        self.assertEqual(self.offered("-"), ["--help", "--version"])

    def test_options(self):
        for name, lines in commands().items():
            self.assertEqual(self.offered(*name.split(), "--"), sorted(options_of(lines[0]) | {"--help"}), name)

    def test_values(self):
        self.assertEqual(self.offered("show", "--protocol", ""), ["1", "2", "mercury"])
        self.assertEqual(self.offered("show", "--protocol", "="), ["1", "2", "mercury"])
        self.assertEqual(self.offered("show", "--protocol", "=", "m"), ["mercury"])
        self.assertEqual(self.offered("show", "--baud", ""), [])

    def test_files(self):
        for words in (["show"], ["show", "a"], ["show", "--id", "1", "--hex"], ["show", "--id", "=", "1"], ["timeline"], ["log", "check"],
                      ["log", "write", "a", "b"], ["log", "extract", "a", "1"], ["plan", "check", "a"], ["send"],
                      ["send", "--baud", "9600"], ["send", "a", "plan"]):
            self.assertEqual(self.offered(*words, "READ"), ["README.md"], words)
        for words in ["log", "list", "a"], ["log", "show", "a"], ["timeline", "a"], ["nothing"], ["log", "nothing"], ["send", "a", "ping"]:
            self.assertEqual(self.offered(*words, ""), [], words)

    def test_send(self):
        forms = [line.removeprefix("dxl send LINE ") for line in usage("send")[1:]]
        self.assertEqual(self.offered("send", "a", ""), sorted({form.split()[0] for form in forms}))
        self.assertEqual(self.offered("send", "--hex", "a", "sync", ""), ["read", "write"])
        self.assertEqual(self.offered("send", "a", "reset", "1", ""), ["all", "but-id", "but-id-and-baud"])
        for words in (["read", "1"], ["sync", "write"], ["bulk", "read", "1"], ["bulk", "read", "1", "lamp", "2"],
                      ["bulk", "write", "1", "lamp", "0", "2"]):
            self.assertEqual(self.offered("send", "a", *words, "goal-"), ["goal-position", "goal-velocity"], words)
        for words in ["read"], ["read", "1", "lamp"], ["write", "1", "lamp"], ["sync", "read", "lamp", "1"], ["scan"]:
            self.assertEqual(self.offered("send", "a", *words, ""), [], words)


if __name__ == "__main__":
    sys.exit(suite.run(usage=None if PROGRAM else "man_test.py PROGRAM", done="man page and completion"))
