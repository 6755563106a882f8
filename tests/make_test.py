"""Tries what a user of make meets, and tools/step.sh, tests/gate.py and tests/counts_test.py, with stand-ins for the tools: usage
make_test.py, in the repository's root
"""
import os
import re
import shutil
import subprocess
import sys
import tempfile
import unittest
from pathlib import Path

import suite
from counts_test import HEAD

sys.path.append("tools/targets")
from record import COMPILER

ROOT = Path.cwd()
INSIDE = {"replay_file"}  # targets that nobody asks for
PATIENCE = 60  # seconds for one command
VERSION = re.search(r'^#define DXL_VERSION "(.*)"$', Path("include/mednukals.h").read_text(encoding="utf-8"), flags=re.M).group(1)
CRATES = "lists:\nline: lists\nchecksum: lists\ncapi staticlib: lists\ncapi_other staticlib: lists\ncapi_test staticlib: lists\n"
ALL = re.findall(r"^\w+", CRATES, flags=re.M)

KEPT = "rt: {} is kept: an earlier run on this machine proved the same files over the same libraries\n"
PROVED = """== lists
fn lists::one: proved
logic=proved functions=1
rt: lists proved
rt: lists: its tests are proved
rt: lists: trying its must-fail edits (2)
""" + "".join(map(KEPT.format, ALL[1:]))
EDITS = """rt: must-fail lists/one.edit: refused, as it must be: src/lib.rt:1:1: error: `returns`
rt: must-fail lists/two.edit: refused, as it must be (only by a limit of the prover)
rt: capi: 1 of its 1 must-fail edits were tried by an earlier run on this machine, and nothing that they stand on has changed
rt: must-fail capi/one.edit: refused, as it must be: src/lib.rt:1:1: error: `returns`
"""
RAN = "rt: line ran, and wrote what its file stdout has\nrt: line ran (built by Rattle's own compiler), and wrote what its file stdout has\n"
OK = "rt: ok; handles allowed: none; must-fail edits: 3 refused, 1 of them only by a limit{}; done in this run: 1 of the 6 proofs\n"
GOOD = PROVED + EDITS + RAN + OK.format("") + "9 passed, 0 failed\n"
SHOWN = """proved from nothing: lists, after
trying the must-fail edits of lists, 2, begun after
proved as they are by an earlier run on this machine: 5 crates
rt: must-fail lists/two.edit: refused, as it must be (only by a limit of the prover)
edits refused, as they must be: lists, 2
edits refused, as they must be: capi, 1
stored run: line
stored run: line (built by Rattle's own compiler)
""" + OK.format("") + """proofs, edits and tests, together
9 passed, 0 failed
"""
BESIDE = "archives and programs\nall tests\n"

# rt ci in the copy for the archives: a file for each program
RT = """[ "$*" = ci ] && for crate in $(sed 's/:.*//' crates.txt); do
    mkdir crates/$crate/out && echo "the program $crate" >crates/$crate/out/$crate && echo "rt: $crate proved"
done
"""
RATTLE = """while [ $# -gt 0 ]; do
    case $1 in --crate-name) name=$2;; --toolchain) toolchain=$2;; -o) made=$2;; --cpu) [ $2 = x86-64 ] || exit;; esac
    shift
done
[ -f src/lib.rt ] && : >$name.o && ar qc "$made" $name.o && echo logic=proved functions=1
echo the module of $name >module.bc && [ "$("$toolchain/bin/clang" -x ir module.bc)" = compiled ]
"""

VALGRIND = """for word; do
    case $word in --callgrind-out-file=*) out=${word#*=};; esac
done
for number in 1 2; do
    sed -n "s/^$number //p" costs >"$out.$number"
done
cat names
"""
COSTS = """fn=memset
0 50
fn=dxl_one
0 60
cfn=memset
calls=1 0
0 50
0 40
fn=counted
7 3
totals: 153
"""


def run(*words, **more):
    """A command's exit code, output and error output."""
    ended = subprocess.run(words, capture_output=True, timeout=PATIENCE, text=True, check=False, **more)
    return ended.returncode, ended.stdout, ended.stderr


def untimed(text):
    """Without the times of the steps."""
    return re.sub(r" {2,}\d+ s$", "", text, flags=re.M)


def stand_ins(folder, tools):
    """Puts shell scripts of these names into folder/bin. Answers a PATH on which they come first."""
    for name, does in tools.items():
        path = Path(folder, "bin", name)
        path.parent.mkdir(exist_ok=True)
        path.write_text(f"#!/bin/sh\n{does}\n", encoding="utf-8")
        path.chmod(0o755)
    return f"{folder}/bin:{os.environ['PATH']}"


class Help(unittest.TestCase):
    def make(self, *words):
        return run("make", *words, env={"PATH": os.environ["PATH"]})

    def setUp(self):
        self.text = self.make("help")[1]

    def test_make_alone(self):
        self.assertEqual(self.make(), (0, self.text, ""))

    def test_every_command_has_a_text(self):
        """By the list of targets that make has; one with a slash in it is a file."""
        listed = self.make("--print-data-base", "--dry-run", "help")[1]
        targets = set(re.findall(r"(?<!# Not a target:\n)^([a-z]\w*):(?!=)", listed, flags=re.M))
        texts = re.findall(r"^  make (\w+)(?: [A-Z]+=\S+)* +[a-z]\S* .*$", self.text, flags=re.M)
        self.assertGreater(len(texts), 30)
        self.assertEqual(sorted(texts), sorted(targets - INSIDE))

    def test_every_variable_is_read(self):
        makefile = "".join(Path(name).read_text(encoding="utf-8") for name in ("Makefile", "tools/install.mk"))
        names = set(re.findall(r"\b([A-Z]+)=", self.text))
        self.assertGreater(len(names), 10)
        for name in names:
            self.assertRegex(makefile, rf"\$\((value )?{name}\)")


class Commands(unittest.TestCase):
    """The Makefile in a folder of its own."""

    TOOLS = {**dict.fromkeys(["cargo", "g++", "nm", "rt", "size", "valgrind"], ":"),
             "gcc": 'echo "$@" >>calls; while [ "$1" != -o ]; do shift; done; : >"$2"',
             "python3": """seq 1000; [ "$*" != 'tools/prove.py archives' ] || {
    mkdir -p build/lib build/table && touch build/lib/libmednukals.a build/lib/libmednukals_test.a build/table/capi.bc build/table/capi_other.bc
}"""}
    STEP = "proving the exports and building the archives"
    ARCHIVES = "archives: build/lib/libmednukals.a build/lib/libmednukals_test.a\n"

    def setUp(self):
        room = tempfile.TemporaryDirectory()
        self.addCleanup(room.cleanup)
        self.folder = Path(room.name)
        for part in ["tools", "include", "cli"]:
            shutil.copytree(part, self.folder / part)
        shutil.copy("Makefile", self.folder)
        for file in ["tests/archives.py", "KIT"]:
            (self.folder / file).parent.mkdir(exist_ok=True)
            shutil.copy(file, self.folder / file)
        (self.folder / "crates/capi/src").mkdir(parents=True)
        (self.folder / "crates.txt").write_text(CRATES, encoding="utf-8")
        self.path = stand_ins(self.folder, self.TOOLS)

    def make(self, *words):
        code, output, errors = run(shutil.which("make"), *words, cwd=self.folder, env={"PATH": self.path})
        return code, untimed(output), errors

    def later(self, name, change=Path.touch):
        """A file is changed ten seconds after all that is there: the clock of files may not tell less apart."""
        for path in [path for path in self.folder.rglob("*") if not path.is_symlink()]:
            times = path.stat()
            os.utime(path, ns=(times.st_atime_ns - 10**10, times.st_mtime_ns - 10**10))
        change(self.folder / name)

    def why(self, *words):
        """What is said where make refuses something: one line, and perhaps make's own that it failed. Nothing is built."""
        code, output, errors = self.make(*words)
        self.assertEqual((code, output), (2, ""))
        line, *rest = errors.splitlines()
        self.assertRegex("\n".join(rest), r"\A(make: \*\*\* \[.*\] Error 1)?\Z")
        self.assertFalse((self.folder / "build").exists())
        return re.sub(r"^(?:[\w./]+:\d+|make): \*\*\* (.*)\.  Stop\.$", r"\1", line)

    def test_unknown(self):
        self.assertEqual(self.why("nothing"), "No rule to make target 'nothing'")
        self.assertEqual(self.why("build/c/nothing"), "mednukals: the Makefile names no sources of build/c/nothing")
        self.assertEqual(self.why("lib", "LEAF=none"), "mednukals: LEAF=none: only LEAF=small LEAF=fold are known")
        self.assertEqual(self.why("c_test", "bench", "LEAF=small"),
                         "mednukals: LEAF is for make lib, make install, make uninstall, make bench, make counts and make memory")
        self.assertEqual(self.why("lib", "TARGET=none"),
                         "mednukals: TARGET=none: only TARGET=thumbv6m TARGET=thumbv7em TARGET=rv32imac TARGET=i686 are known")
        self.assertEqual(self.why("test", "TARGET=i686"),
                         "mednukals: TARGET is for make lib, make install, make uninstall, make demo and make memory")
        self.assertEqual(self.why("demo", "TARGET=i686"),
                         "mednukals: make demo and make memory are for TARGET=thumbv6m and TARGET=thumbv7em")
        self.assertEqual(self.why("replay", "FILE=no where"), "mednukals: there is no file no where")

    def test_a_variable_is_missing(self):
        self.assertEqual(self.why("replay"), "mednukals: make replay FILE=build/fuzz/difference-SEED-CASE.txt")
        self.assertRegex(self.why("mutants"), "^mednukals: make mutants CRATE=NAME ")

    def only_stand_ins(self):
        """From now on the PATH has nothing else but what every command takes."""
        self.path = f"{self.folder}/bin"
        for name in ["awk", "echo", "find", "sed"]:
            (self.folder / "bin" / name).symlink_to(shutil.which(name))

    def test_a_tool_is_missing(self):
        self.only_stand_ins()
        for tool, targets in {"rt": ["kit", "test", "format", "fmt", "bench", "lib", "run"], "gcc": ["kit", "dxl"],
                              "python3": ["c_test", "make_test", "test", "bench", "mutants", "promises"],
                              "cargo": ["kit", "rust_test", "leaf_test", "fuzz"], "valgrind": ["counts", "counts_test"],
                              "nm": ["counts_test"], "size": ["memory", "leaf_test"]}.items():
            (self.folder / "bin" / tool).unlink()
            for target in targets:
                said = self.why("--old-file=build/lib/libmednukals.a", target)
                self.assertEqual(said, f"mednukals: {tool} is needed and is not on the PATH")
            stand_ins(self.folder, self.TOOLS)

    def test_what_is_built_needs_no_tool(self):
        self.make("lib", "dxl")
        self.only_stand_ins()
        for tool in self.TOOLS:
            (self.folder / "bin" / tool).unlink()
        self.assertEqual(self.make("lib", "dxl"), (0, self.ARCHIVES + "the tool: build/c/dxl\n", ""))

    def test_a_line_for_each_step(self):
        self.assertEqual(self.make("lib"), (0, f"{self.STEP}\n{self.ARCHIVES}", ""))
        self.later("lib")  # a file of the command's name is not what the command makes
        self.assertEqual(self.make("lib"), (0, self.ARCHIVES, ""))
        for change in Path.touch, Path.unlink:
            self.later("crates/capi/src/new", change)
            self.assertEqual(self.make("lib"), (0, f"{self.STEP}\n{self.ARCHIVES}", ""))
        self.later("crates/capi/out", Path.mkdir)  # what rt keeps of a crate is none of its files
        self.later("crates/capi/out/rlib")
        self.assertEqual(self.make("lib"), (0, self.ARCHIVES, ""))

    def test_a_step_fails(self):
        stand_ins(self.folder, {"python3": "echo the goal does not follow; exit 1"})
        code, output, errors = self.make("lib")
        self.assertEqual((code, output), (2, f"{self.STEP}\n"))
        self.assertRegex(errors, rf"^the goal does not follow\nmednukals: FAILED: {self.STEP}; .*\nmake: .*\n$")

    def test_a_program_in_c(self):
        for file in ["cli/dxl.c", "include/mednukals.h", "cli/files.h"]:
            self.later(file)
            self.assertEqual(self.make("lib", "dxl")[::2], (0, ""))
        self.assertEqual(self.make("dxl"), (0, "the tool: build/c/dxl\n", ""))
        calls = (self.folder / "calls").read_text(encoding="utf-8").splitlines()
        self.assertRegex(calls.pop(0), rf"^-shared .* -o build/lib/libmednukals.so.{VERSION} .* build/lib/libmednukals.a ")
        self.assertEqual(len(calls), 3)
        self.assertRegex(calls[0], r"^-std=c99 -Wall .* -o build/c/dxl cli/.* cli/dxl.c .* build/lib/libmednukals.a$")

    def test_a_program_in_c_is_wrong(self):
        self.make("lib")
        stand_ins(self.folder, {"gcc": "echo line 1: error >&2; : >build/c/dxl; exit 1"})
        code, output, errors = self.make("dxl")
        self.assertEqual((code, output), (2, ""))
        self.assertEqual(errors.splitlines()[:2], ["line 1: error", "mednukals: FAILED: compiling build/c/dxl"])
        self.assertFalse((self.folder / "build/c/dxl").exists())


class Step(unittest.TestCase):
    def step(self, *words):
        with tempfile.TemporaryDirectory() as folder:
            answer = run("sh", str(ROOT / "tools/step.sh"), "name", "a label", *words, cwd=folder)
            return *answer, Path(folder, "build/log/name.log").read_text(encoding="utf-8")

    def test_good(self):
        code, output, errors, log = self.step("sh", "-c", "echo much; echo more >&2")
        self.assertEqual((code, errors, log), (0, "", "much\nmore\n"))
        self.assertRegex(output, r"^a label {57} {5}\d s\n$")

    def test_failed(self):
        code, output, errors, log = self.step("sh", "-c", "seq 100; exit 3")
        self.assertEqual((code, untimed(output)), (1, "a label\n"))
        self.assertEqual(len(log.splitlines()), 100)
        self.assertEqual(errors.splitlines()[:-1], [str(n) for n in range(61, 101)])
        self.assertEqual(errors.splitlines()[-1], "mednukals: FAILED: a label; all that it said is in build/log/name.log")


class Gate(unittest.TestCase):
    """gate.py with stand-ins for rt and make, in a folder of its own."""

    EARLIER = ["build/lib/earlier/libmednukals.a", "build/lib/libmednukals_fold.a", "build/lib/libmednukals.so.0"]

    def gate(self, text, status=0, make=f"for file in build/c {' '.join(EARLIER)}; do [ ! -e $file ] || exit; done; echo all tests",
             rt=RT, edits=("lists/one", "lists/two", "capi/one")):
        with tempfile.TemporaryDirectory() as folder:
            for part in ["build/c/of_an_earlier_run", "build/lib/earlier", COMPILER.parent, *(f"crates/{crate}/src" for crate in ALL)]:
                Path(folder, part).mkdir(parents=True)
            for file in [*(f"crates/{crate}/src/lib.rt" for crate in ALL), *self.EARLIER]:
                Path(folder, file).touch()
            for edit in edits:
                path = Path(folder, "crates", *edit.split("/")[:1], "must-fail", edit.split("/")[1]).with_suffix(".edit")
                path.parent.mkdir(exist_ok=True)
                path.touch()
            Path(folder, "crates.txt").write_text(CRATES, encoding="utf-8")
            Path(folder, "said").write_text(text, encoding="utf-8")
            path = stand_ins(folder, {"rt": rt, "rattle": RATTLE, "make": make, "ci": f"cat said; sleep 0.2; exit {status}"})
            compiler = Path(folder, COMPILER)
            compiler.write_text("#!/bin/sh\necho compiled\n", encoding="utf-8")
            compiler.chmod(0o755)
            code, output, errors = run(sys.executable, str(ROOT / "tests/gate.py"), "ci", cwd=folder, env={**os.environ, "PATH": path})
            self.assertEqual(Path(folder, "build/log/rt-ci.log").read_text(encoding="utf-8"), text)
            if code == 0:
                self.assertEqual(run("ar", "t", f"{folder}/build/lib/libmednukals.a")[1], "capi.o\ncapi_other.o\n")
                self.assertEqual(Path(folder, "build/table/capi.bc").read_text(encoding="utf-8"), "the module of capi\n")
                self.assertEqual(Path(folder, "build/bin/line").read_text(encoding="utf-8"), "the program line\n")
            return code, untimed(output), errors

    def test_good(self):
        code, output, errors = self.gate(GOOD)
        self.assertEqual((code, errors), (0, ""))
        lines = output.splitlines()
        self.assertEqual(lines[-1], "9 passed, 0 failed")
        self.assertEqual(sorted(lines), sorted((SHOWN + BESIDE).splitlines()))
        self.assertEqual([line for line in lines if line in SHOWN.splitlines()], SHOWN.splitlines())

    def test_a_crate_is_not_proved(self):
        said = PROVED[:PROVED.index("rt: capi ")] + "the goal does not follow\n" * 99
        said += "rt: capi NOT PROVED\nrt: FAILED: capi\n1 passed, 1 failed\n"
        code, output, errors = self.gate(said, 1)
        self.assertEqual(code, 1)
        self.assertEqual(output.count("the goal does not follow\n"), 40)
        self.assertIn("rt: capi NOT PROVED\nrt: FAILED: capi\n", output)
        self.assertEqual(errors, "mednukals: FAILED: rt ci; all that it said is in build/log/rt-ci.log\n")
        self.assertTrue(output.endswith("\n1 passed, 1 failed\n"))

    def test_an_edit_is_not_refused(self):
        wrong = "rt: must-fail capi/two.edit: NOT REFUSED: the crate is still proved with this edit (remove it)\n"
        code, output, _ = self.gate(PROVED + EDITS + wrong + "rt: FAILED: capi/two.edit\n9 passed, 1 failed\n", 1)
        self.assertEqual(code, 1)
        self.assertIn(wrong, output)
        self.assertTrue(output.endswith("\n9 passed, 1 failed\n"))

    def test_an_edit_is_bad(self):
        wrong = "rt: must-fail capi/two.edit: BAD EDIT: it changes nothing\n"
        code, output, errors = self.gate(PROVED + EDITS + wrong + OK.format(", 1 bad") + "9 passed, 0 failed\n")
        self.assertEqual((code, errors), (1, "mednukals: FAILED: rt ci: 1 must-fail edits are bad; all that it said is in build/log/rt-ci.log\n"))
        self.assertIn(wrong, output)
        self.assertNotIn("passed", output)

    def test_an_edit_is_passed_over(self):
        code, output, errors = self.gate(GOOD, edits=("lists/one", "lists/two", "capi/one", "capi/two"))
        said = "mednukals: FAILED: rt ci: there are 4 must-fail edits, and 3 are refused; all that it said is in build/log/rt-ci.log\n"
        self.assertEqual((code, errors), (1, said))
        self.assertNotIn("passed", output)

    def test_it_does_not_say_that_all_is_ok(self):
        code, output, errors = self.gate(GOOD.replace("rt: ok;", "rt: well;"))
        self.assertEqual(code, 1)
        self.assertIn("it does not say that all is ok", errors)
        self.assertNotIn("passed", output)

    def test_a_test_fails(self):
        code, output, errors = self.gate(GOOD, make="echo a test says no; exit 2")
        self.assertEqual((code, errors), (1, "mednukals: FAILED: the tests beside rt ci: a test\n"))
        self.assertIn("a test says no\n", output)
        self.assertNotIn("passed", output)

    def test_an_archive_fails(self):
        code, output, errors = self.gate(GOOD, rt="echo no archive; exit 1")
        self.assertEqual((code, errors), (1, "mednukals: FAILED: the tests beside rt ci: the archives: rt ci: no archive\n\n"))
        self.assertNotIn("passed", output)

    def test_the_tests_never_ran(self):
        code, output, errors = self.gate(PROVED[:PROVED.index("rt: line ")] + "4 passed, 0 failed\n")
        self.assertEqual((code, errors), (1, "mednukals: FAILED: the tests beside rt ci: they did not run\n"))
        self.assertNotIn("passed", output)


class Counts(unittest.TestCase):
    """counts_test.py with stand-ins for its tools: two exports take 100 instructions each, beside 50 of memset."""

    def counts(self, *words, stored="dxl_one Ping 100\ndxl_two 7 bytes 100\n", first=COSTS,
               second=COSTS.replace("dxl_one", "dxl_two"), names="dxl_one Ping\ndxl_two 7 bytes\n",
               header="int dxl_one(void);\nint dxl_two(void);\n", page="## The worst work\n"):
        with tempfile.TemporaryDirectory() as folder:
            for part in ["docs", "include", "tests"]:
                Path(folder, part).mkdir()
            costs = "".join(f"{number} {line}\n" for number, text in enumerate([first, second], 1) for line in text.splitlines())
            files = {"costs": costs, "names": names, "include/mednukals.h": header, "tests/instructions.txt": stored,
                     "docs/PERFORMANCE.md": page}
            for name, text in files.items():
                Path(folder, name).write_text(text, encoding="utf-8")
            own = "".join(f"echo {name} T 0 1\n" for name in ["dxl_one", "dxl_two", "dxl_board_feed_parts", "dxl_feed"])
            path = stand_ins(folder, {"valgrind": VALGRIND, "nm": own + "echo table r 0 1", "rt": "echo kit $1 2"})
            answer = run(sys.executable, str(ROOT / "tests/counts_test.py"), *words, "program", "archive", cwd=folder,
                         env={**os.environ, "PATH": path})
            self.page = Path(folder, "docs/PERFORMANCE.md").read_text(encoding="utf-8")
            return *answer, Path(folder, "tests/instructions.txt").read_text(encoding="utf-8")

    def fault(self, text, **more):
        code, _, errors, _ = self.counts(**more)
        self.assertEqual(code, 1)
        self.assertEqual(errors.splitlines()[0], f"instructions: {text}")

    def test_good(self):
        for number in 98, 100, 103:
            code, output, errors, _ = self.counts(stored=f"# counts\ndxl_one Ping {number}\ndxl_two 7 bytes  100\n")
            self.assertEqual((code, errors), (0, ""))
            self.assertEqual(output, "instructions: 2 counts, each within 3 percent of tests/instructions.txt\n")

    def test_one_has_grown(self):
        self.fault("dxl_two 7 bytes: 96 instructions before, 100 now (+4.2%)", stored="dxl_one Ping 98\ndxl_two 7 bytes 96\n")

    def test_one_has_shrunk(self):
        self.fault("dxl_one Ping: 104 instructions before, 100 now (-3.8%)", stored="dxl_one Ping 104\ndxl_two 7 bytes 100\n")

    def test_another_kit(self):
        for name, said in {"version 1": True, "version 2": False}.items():
            _, _, errors, _ = self.counts(stored=f"{HEAD.format('kit ' + name)}dxl_one Ping 50\ndxl_two 7 bytes 100\n")
            warning = "instructions: the kit is kit version 2, and tests/instructions.txt is of another one\n"
            self.assertEqual(warning in errors, said)

    def test_a_line_is_missing(self):
        self.fault("dxl_two 7 bytes: 100 instructions, and no line in tests/instructions.txt", stored="dxl_one Ping 100\n")
        self.fault("dxl_two Ping: a line in tests/instructions.txt, and not counted",
                   stored="dxl_one Ping 100\ndxl_two 7 bytes 100\ndxl_two Ping 1\n")

    def test_an_export_is_not_counted(self):
        self.fault("dxl_three has no count in tests/counts/counts.c",
                   header="int dxl_one(void);\nint dxl_two(void);\nint dxl_three(int n);\n")
        self.fault("dxl_two 7 bytes: the export was not called", second=COSTS)

    def test_the_page_says_another_number(self):
        rows = {"stored": "dxl_one Ping 100\ndxl_two worst: a call 100\n", "names": "dxl_one Ping\ndxl_two worst: a call\n"}
        page = "## The worst work\ndxl_two  a call  {}  7\n"
        self.assertEqual(self.counts(page=page.format(100), **rows)[0], 0)
        self.fault("docs/PERFORMANCE.md: dxl_two worst: a call: 96 instructions before, 100 now (+4.2%)", page=page.format(96), **rows)
        self.fault("dxl_two worst: a call: 100 instructions, and no row in docs/PERFORMANCE.md", **rows)
        self.fault("dxl_two worst: a call: a row in docs/PERFORMANCE.md, and not counted", page=page.format(100))

    def board(self, line="Write", loop="single calls, Write", second=COSTS):
        """A board's call takes 100 instructions and 50 of memset; the second row is that of the loop."""
        rows = ["dxl_board_feed_parts " + line, "dxl_feed " + loop]
        return {"names": "".join(f"{row}\n" for row in rows), "stored": "".join(f"{row} 100\n" for row in rows),
                "header": "int dxl_board_feed_parts(void);\nint dxl_feed(void);\n",
                "first": COSTS.replace("dxl_one", "dxl_board_feed_parts"), "second": second.replace("dxl_one", "dxl_feed")}

    def test_a_board_takes_fewer_than_the_loop(self):
        moves = COSTS.replace("fn=counted\n7 3\n", "fn=__memmove_avx_unaligned_erms\n0 3\n")
        self.assertEqual(self.counts(**self.board(second=moves))[0], 0)
        self.fault("dxl_board_feed_parts Write: 150 instructions, and 150 by the single calls, memset and memcpy counted in",
                   **self.board())
        self.fault("dxl_board_feed_parts Write: no count of 'dxl_feed single calls, Write' beside it", **self.board(loop="Write"))
        self.assertEqual(self.counts(**self.board(line="refused", loop="refused"))[0], 0)
        self.assertEqual(self.counts(**self.board(line="worst call", loop="single calls, worst call"))[0], 0)
        fewer = COSTS.replace("50\n", "49\n").replace("153", "152")
        self.fault("dxl_board_feed_parts worst call: 150 instructions, and 149 by the single calls, memset and memcpy counted in",
                   **self.board(line="worst call", loop="single calls, worst call", second=fewer))

    def test_the_counts_are_unusable(self):
        self.fault("a file of callgrind is not as it was when this was written", second=COSTS.replace("153", "154"))
        self.fault("2 counts are named, and callgrind has not written one for each", names="dxl_one Ping\ndxl_one Ping\n")
        self.fault("3 counts are named, and callgrind has not written one for each", names="dxl_one a\ndxl_one b\ndxl_one c\n")

    def test_the_page_of_the_worst_calls(self):
        names = ["dxl_one worst: 7 bytes", "dxl_two worst: 7 bytes"]
        rows = {"names": "".join(f"{name}\n" for name in names), "stored": "".join(f"{name} 100\n" for name in names)}
        page = "dxl_one  no row  1  2\n## The worst work\ndxl_one, dxl_two  7 bytes      98  1,300\n"
        self.assertEqual(self.counts(**rows, page=page)[0], 0)
        self.fault("docs/PERFORMANCE.md: dxl_one worst: 7 bytes: 90 instructions before, 100 now (+11.1%)", **rows,
                   page=page.replace("98", "90"))
        self.fault("dxl_two worst: 7 bytes: 100 instructions, and no row in docs/PERFORMANCE.md", **rows,
                   page=page.replace(", dxl_two", ""))
        self.fault("dxl_two worst: 8 bytes: a row in docs/PERFORMANCE.md, and not counted", **rows,
                   page=page + "dxl_two  8 bytes  1  2\n")
        self.counts("--write", **rows, page=page)
        self.assertEqual(self.page, page.replace(" 98", "100"))

    def test_the_file_is_written(self):
        code, output, _, text = self.counts("--write", stored="dxl_one Ping 99\n")
        self.assertEqual(code, 0)
        self.assertIn("dxl_one Ping: 99 instructions before, 100 now (+1.0%)\n", output)
        self.assertRegex(text, r"^(# .*\n)+# Archives of the kit kit version 2\ndxl_one Ping +100\ndxl_two 7 bytes +100\n$")
        code, output, _, text = self.counts("--print", stored="")
        self.assertRegex(output, r"^dxl_one Ping +100\ndxl_two 7 bytes +100\n$")
        self.assertEqual((code, text), (0, ""))


if __name__ == "__main__":
    sys.exit(suite.run())
