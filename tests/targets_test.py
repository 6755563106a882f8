"""Runs the library on other processors: usage targets_test.py MODULES ARCHIVES, in the repository's root

MODULES has the modules over each checksum function, as build/table/capi.bc, and ARCHIVES the archives: those for x86-64, and below
it, by target, the others. One program for each target and each checksum function runs the tests of tests/c and the random lives of
tests/targets/lives.c; every line that it prints has to be the one that the archive for x86-64 gives.

`targets_test.py --missing` says in one line which targets cannot be tried here, and what they need. They are passed over.
"""
import os
import random
import re
import subprocess
import sys
import tempfile
import unittest
from pathlib import Path

import counts_test
import suite

sys.path += ["tools", "tools/targets"]
import archive
import measure
import program
from layer import FITS, Layer
from retarget import exports, joined
from statements import Statements

MODULES, ARCHIVES = sys.argv[1:] if len(sys.argv) == 3 else ("", "")
HEADER = Path("include/mednukals.h").read_text(encoding="utf-8")
LEAVES = {"table": "", "small": "_small", "fold": "_fold"}
OURS = Path("tests/targets")
OF_C = ["published", "exchange", "board_calls", "plan"]  # of tests/c
SOURCES = [*(OURS / name for name in ("tests.c", "lives.c", "library.c", "packets.S")),
           *((Path("tests/c", f"{name}.c"), f"-Dmain={name}_main") for name in OF_C)]
PASSED = [f"{name}: passed" for name in OF_C]
PARTS = 8  # of the lives
ASKED = r"mem(cpy|move|set)|__aeabi_mem(cpy|move|clr|set)[48]?|__udivdi3|__aeabi_(uldivmod|lmul)"
# Changes of one number or one comparison in a module, drawn by this seed: so many are made, and so many at least are seen. The others
# are one turn more of a loop that has nothing left to do, or a bound that no memory reaches. The module of the old boards is left
# out: it has the code of Protocol 2.0 too, which none of its calls comes to.
SEED, CHANGES, SEEN = 37, 12, 6
ENDLESS = 5  # seconds; the unchanged one takes a fifth of one


def tried():
    return [target for target in archive.TARGETS if not program.missing(target)]


def missing():
    """One line for what is not tried, or nothing."""
    left = {target: program.missing(target) for target in archive.TARGETS if program.missing(target)}
    packages = sorted({package for names in left.values() for package in names})
    return f"targets: not tried: {', '.join(left)}; Debian's packages {', '.join(packages)} are missing" if left else ""


class Programs:
    """The tests as one program for each target; compiled once, and linked with any archive."""

    def __init__(self, folder):
        self.folder, self.made = Path(folder), {}

    def objects(self, target):
        if target not in self.made:
            room = self.folder / target
            room.mkdir()
            self.made[target] = program.objects(target, [*program.port(target), *SOURCES], room, [f"-I{OURS / 'include'}", f"-I{OURS}"])
        return self.made[target]

    def output(self, target, *libraries, **more):
        """What the tests print with these archives, and how they ended."""
        linked = self.folder / "program"
        program.link(target, self.objects(target), libraries, linked, more=True)
        return program.output(target, linked, **more)


def changed(text, draw):
    """A module with one comparison or one number changed, and where that is."""
    lines = text.split("\n")
    places = [at for at, line in enumerate(lines) if re.search(r"= icmp u?(lt|le|gt|ge) |= (add|sub) .*, \d+$", line)]
    at = draw.choice(places)
    if found := re.search(r"(\d+)$", lines[at]) if " icmp " not in lines[at] else None:
        lines[at] = lines[at][:found.start()] + str(int(found[1]) + 1)
    else:
        turned = {"ult": "ule", "ule": "ult", "ugt": "uge", "uge": "ugt"}
        lines[at] = re.sub(r"\b(ult|ule|ugt|uge)\b", lambda word: turned[word[0]], lines[at])
    return "\n".join(lines), f"line {at + 1}: {lines[at].strip()}"


class Targets(unittest.TestCase):
    @classmethod
    def setUpClass(cls):
        cls.room = tempfile.TemporaryDirectory(prefix="mednukals-")
        cls.programs = Programs(cls.room.name)
        cls.expected = cls.programs.output("x86_64", Path(ARCHIVES, "libmednukals.a"))

    @classmethod
    def tearDownClass(cls):
        cls.room.cleanup()

    def test_every_export_is_called(self):
        lives = (OURS / "lives.c").read_text(encoding="utf-8")
        names = [name for _, name, _ in Layer(HEADER).functions] + re.findall(r"^static inline .*?\b(dxl_\w+)\(", HEADER, flags=re.M)
        self.assertGreaterEqual(len(names), 33)
        self.assertEqual([name for name in names if f"{name}(" not in lives], [])

    def test_the_first_archive(self):
        text, code = self.expected
        self.assertEqual((code, [line for line in text.splitlines() if line.endswith(": passed")]), (0, PASSED))
        self.assertEqual(len(set(re.findall(r"^\w+ [0-9a-f]{16}$", text, flags=re.M))), PARTS)

    def test_the_same_everywhere(self):
        for target in ["x86_64", *tried()]:
            for leaf, name in LEAVES.items():
                with self.subTest(target=target, leaf=leaf):
                    folder = Path(ARCHIVES, "" if target == "x86_64" else target)
                    self.assertEqual(self.programs.output(target, folder / f"libmednukals{name}.a"), self.expected)

    def test_names(self):
        """An archive has the header's functions and shows no other name; it asks for memory functions and 64-bit arithmetic alone."""
        wanted = sorted(name for _, name, _ in Layer(HEADER).functions)
        for target in archive.TARGETS:
            for name in LEAVES.values():
                with self.subTest(target=target, name=name):
                    shown = subprocess.run(["nm", "-g", Path(ARCHIVES, target, f"libmednukals{name}.a")], capture_output=True, text=True,
                                           check=True).stdout
                    self.assertEqual(sorted(re.findall(r"^\w+ [A-Z] (\w+)$", shown, flags=re.M)), wanted)
                    asked = re.findall(r"^ +U (\w+)$", shown, flags=re.M)
                    self.assertEqual([each for each in asked if not re.fullmatch(ASKED, each)], [])

    def test_a_changed_module_is_seen(self):
        """On i686, which runs without an emulator."""
        draw, unseen = random.Random(SEED), []
        for _ in range(CHANGES):
            unseen += self.change(draw.choice(["capi", "capi_board"]), draw)
        self.assertLessEqual(len(unseen), CHANGES - SEEN, "\n".join(unseen))

    def change(self, crate, draw):
        """Changes a module in one place; its object comes before the archive. Answers where, unless the tests see it."""
        with tempfile.TemporaryDirectory(prefix="mednukals-") as folder:
            text, where = changed(archive.text_of(Path(MODULES, "fold", f"{crate}.bc")), draw)
            module = Path(folder, f"{crate}.ll")
            module.write_text(text, encoding="utf-8")
            made, _ = archive.compiled("i686", module, folder)
            got = self.programs.output("i686", made, Path(ARCHIVES, "i686/libmednukals_fold.a"), patience=ENDLESS)
            return [f"{crate}, {where}"] if got == self.expected else []


@unittest.skipIf(program.missing("thumbv7em"), "no tools for Cortex-M")
class CortexM(unittest.TestCase):
    def test_the_bare_boards_talk(self):
        """The demo of examples/bare on both boards, side by side."""
        with tempfile.TemporaryDirectory(prefix="mednukals-") as folder:
            demos = {}
            for target, (_, machine, _) in program.BOARDS.items():
                linked = Path(folder, target)
                program.main(target, Path(ARCHIVES, target, "libmednukals_fold.a"), linked, *measure.BOARD)
                demos[target] = subprocess.Popen(["sh", "examples/bare/demo.sh", machine, linked, "build/c/dxl"], stdout=subprocess.PIPE,
                                                 stderr=subprocess.STDOUT, text=True)
            for target, demo in demos.items():
                with self.subTest(target):
                    said = demo.communicate(timeout=program.PATIENCE)[0]
                    self.assertEqual(demo.returncode, 0, said)
                    self.assertRegex(said, r"talk: \d+ exchanges, each reply as expected\n")
                    self.assertIn("sync read goal-position 1\nID 1    Status: ok; goal position = 512\n", said)

    def test_sizes_of_integrating(self):
        """Code within a percent, and the stack of a board's call exactly."""
        page = Path("docs/INTEGRATING.md").read_text(encoding="utf-8")
        for target in program.BOARDS:
            with self.subTest(target), tempfile.TemporaryDirectory(prefix="mednukals-") as folder:
                said = re.search(rf"^\| [^|]* \| `{target}` \| (\S+) \| (\S+) \|$", page, flags=re.M).groups()
                code, stack = (int(number.replace(",", "")) for number in said)
                sizes = measure.bytes_in_board(target, folder, [Path(ARCHIVES, target, "libmednukals_fold.a")], ["libmednukals_fold.a"])
                self.assertAlmostEqual(code, sizes["text"] + sizes["rodata"], delta=code / 100, msg="make memory TARGET=NAME LEAF=fold")
                made, _ = archive.compiled(target, Path(MODULES, "fold/capi_board.bc"), folder, ["-fstack-usage"])
                self.assertEqual(stack, max(measure.Stacks([made]).all().values()))

    def test_worst_of_performance(self):
        """The instructions of the worst call of each export on a Cortex-M0, within a few percent."""
        said = counts_test.worst_said(counts_test.PAGE.read_text(encoding="utf-8"))
        with tempfile.TemporaryDirectory(prefix="mednukals-") as folder:
            counts = measure.worst_counted("thumbv6m", folder, Path(ARCHIVES, "thumbv6m/libmednukals_fold.a"))
        self.assertEqual(set(said), {name for name in counts if f" {counts_test.WORST}" in name})
        for name, (_, figure) in said.items():
            with self.subTest(name):
                self.assertAlmostEqual(figure, counts[name][0], delta=figure * counts_test.PERCENT / 100,
                                       msg="make memory TARGET=thumbv6m LEAF=fold")

    def test_any_way_to_pass_fractions(self):
        """The archive links with programs that pass fractions in registers, and with others."""
        source = ("#include <mednukals.h>\nfloat part(float x);\nfloat part(float x) { return x / 2; }\n"
                  "void reset(void);\nvoid reset(void) { for (;;) dxl_measure((uint8_t *)64, (size_t)part(4.0f), 0, 0); }\n")
        with tempfile.TemporaryDirectory(prefix="mednukals-") as folder:
            path = Path(folder, "program.c")
            path.write_text(source, encoding="utf-8")
            for way in ("soft", "softfp", "hard"):
                compiler = ["arm-none-eabi-gcc", "-mcpu=cortex-m4", "-mthumb", "-mfpu=fpv4-sp-d16", f"-mfloat-abi={way}", "-ffreestanding"]
                linker = ["-nostdlib", "-Wl,--gc-sections", "-Wl,-z,noexecstack", "-Wl,--fatal-warnings", "-Wl,-e,reset"]
                program.run([*compiler, "-Iinclude", *linker, "-o", Path(folder, way), path,
                             Path(ARCHIVES, "thumbv7em/libmednukals_fold.a"), "-lgcc"])


class Narrowed(unittest.TestCase):
    def test_its_export_promises_that_it_fits(self):
        """What the layer narrows, by the theorems that it names. [K10]"""
        statements = Statements()
        sources = [path.read_text(encoding="utf-8") for path in Path("crates").glob("capi*/src/lib.rt")]
        functions = [(result, name) for result, name, _ in Layer(HEADER).functions if result in FITS]
        self.assertEqual({result for result, _ in functions}, set(FITS))
        for result, name in functions:
            source, = [text for text in sources if re.search(rf"\bfn {name}\b", text)]
            contract = re.search(rf"\bfn {name}\b.*?\n{{\n", source, flags=re.S)[0]
            promised = statements.led_to(source, contract)
            for theorem in " ".join(FITS[result].values()).split():
                with self.subTest(f"{name}: {theorem}"):
                    record, field = theorem.split(".")
                    self.assertIn(("fits", "Fits", record), promised)
                    self.assertIn(field, statements.fields["fits", "Fits", record])


class Missing(unittest.TestCase):
    def test_it_is_said_in_one_line(self):
        said = subprocess.run([sys.executable, "tests/targets_test.py", "--missing"], env={**os.environ, "PATH": "/nowhere"},
                              capture_output=True, text=True, check=True).stdout
        self.assertEqual(said, "targets: not tried: thumbv6m, thumbv7em, rv32imac; Debian's packages gcc-arm-none-eabi, qemu-system-arm,"
                               " qemu-user are missing\n")


class Understood(unittest.TestCase):
    """What the layer and the change of target do not know stops them."""

    def stops(self, make):
        with self.assertRaises(SystemExit) as stopped:
            make()
        return str(stopped.exception)

    def test_the_header(self):
        for text in ("int64_t dxl_one(double x);", "int64_t dxl_one(uint8_t **x);", "struct dxl_new dxl_one(size_t n);",
                     "struct s { uint8_t a : 1; };", "int64_t dxl_one(struct dxl_reply *r);", "typedef int dxl_t;",
                     "int64_t dxl_one(int64_t *x);", "struct s { size_t a[4]; };\nstruct s dxl_one(size_t n);", "void dxl_one(size_t n);",
                     "struct s { uint8_t b[16]; size_t a; };\nstruct s dxl_one(size_t n);", "int64_t dxl_one(size_t *n);"):
            with self.subTest(text):
                made = HEADER.replace("\n#ifdef __cplusplus\n}", f"\n{text}\n\n#ifdef __cplusplus\n}}")
                self.assertNotEqual(made, HEADER)
                self.assertIn("the header is not understood", self.stops(lambda: Layer(made).text({"dxl_one"})))

    def test_the_module(self):
        module = "define noundef i64 @dxl_one(ptr noundef %a0, i64 noundef %a1) #0 {\n  ret i64 0\n}\nattributes #0 = { nounwind }\n"
        layer = "declare i64 @raw_dxl_one(ptr noundef, i64 noundef) #1\n"
        self.assertIn("define internal noundef i64 @raw_dxl_one(", joined(module, layer))
        self.assertEqual(exports(module), {"dxl_one": ("i64", ["ptr", "i64"])})
        pair = "%r1 = load { i8, i64 }, ptr %a0, align 8"
        made = joined(module.replace("ret i64 0", f"{pair}\n  %r2 = extractvalue {{ i8, i64 }} %r1, 1\n  ret i64 %r2"), layer)
        self.assertNotIn("load {", made)
        self.assertIn("%r1.at = getelementptr i8, ptr %a0, i64 8\n  %r1.second = load i64, ptr %r1.at, align 8\n", made)
        for old, new in {"ret i64 0": "%x = ptrtoint ptr %a0 to i64", "  ret i64 0": "  %x = ptrtoaddr ptr %a0 to i64\n  ret i64 0",
                         "i64 noundef %a1": "i32 noundef %a1",
                         "  ret": "  store { i8, i64 } %x, ptr %a0, align 8\n  ret", " ret": f" {pair.replace('i8, ', 'i8, i8, ')}\n  ret",
                         "attributes": "@table = constant [1 x i8] zeroinitializer\nattributes"}.items():
            self.assertIn("not known to mean the same", self.stops(lambda: joined(module.replace(old, new), layer)))


if __name__ == "__main__":
    if sys.argv[1:] == ["--missing"]:
        print(missing(), end="\n" if missing() else "")
        sys.exit(0)
    sys.exit(suite.run(usage=None if MODULES else "targets_test.py MODULES ARCHIVES", done=f"targets: {', '.join(tried())}"))
