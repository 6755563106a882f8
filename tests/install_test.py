"""Installs the library, links programs with what is there, removes it again, and holds the version to CHANGELOG.md: usage
install_test.py CC ARCHIVE DXL LEAF_ARCHIVE TARGET_ARCHIVE SHARED LEAF_SHARED, in the repository's root

LEAF_ARCHIVE is that over crc16_fold, and TARGET_ARCHIVE the same for another processor, in a folder with the processor's name.
SHARED and LEAF_SHARED are the shared libraries of the first and the third.
"""
import os
import re
import shlex
import shutil
import subprocess
import sys
import tempfile
import unittest
from pathlib import Path

import suite
from check_header import MEMORY_FUNCTIONS, functions

CC, ARCHIVE, DXL, LEAF_ARCHIVE, TARGET_ARCHIVE, SHARED, LEAF_SHARED = sys.argv[1:] if len(sys.argv) == 8 else [""] * 7
TARGET = Path(TARGET_ARCHIVE).parent.name
HEADER = Path("include/mednukals.h")
PATIENCE = 60  # seconds for one command
PYTHON = "lib/python3/site-packages/mednukals.py"  # below a prefix in which python3 does not look


def libraries(archive, shared):
    """The files of a library below lib. A link leads to the shared library itself."""
    plain, name = Path(archive).stem, Path(shared).name
    names = [name, f"{plain}.so", f"{plain}.so.{name.removeprefix(f'{plain}.so.').split('.', maxsplit=1)[0]}"]
    return {f"lib/{plain}.a": Path(archive), f"lib/pkgconfig/{plain[3:]}.pc": None, **{f"lib/{name}": Path(shared) for name in names}}


FILES = {"bin/dxl": Path(DXL), "include/mednukals.h": HEADER, **libraries(ARCHIVE, SHARED), PYTHON: Path("python/mednukals.py"),
         "share/man/man1/dxl.1": Path("man/dxl.1"), "share/bash-completion/completions/dxl": Path("completion/dxl.bash")}
OF_LEAF = {"include/mednukals.h": HEADER, **libraries(LEAF_ARCHIVE, LEAF_SHARED)}
OF_TARGET = {"include/mednukals.h": HEADER, f"lib/{TARGET}/libmednukals_fold.a": Path(TARGET_ARCHIVE),
             f"lib/{TARGET}/libmednukals_fold.txt": Path(TARGET_ARCHIVE).with_suffix(".txt"),
             f"lib/{TARGET}/pkgconfig/mednukals_fold.pc": None}


def run(*words, **environment):
    """The output of a command that must go well."""
    outside = {name: value for name, value in os.environ.items() if not name.startswith(("MAKE", "MFLAGS", "PREFIX", "DESTDIR"))}
    ended = subprocess.run(words, capture_output=True, timeout=PATIENCE, text=True, check=False, env={**outside, **environment})
    if ended.returncode != 0:
        raise AssertionError(f"{shlex.join(words)}: {ended.stdout}{ended.stderr}")
    return ended.stdout


def install(*words, task="install"):
    made = [word for file in (ARCHIVE, DXL, LEAF_ARCHIVE, TARGET_ARCHIVE, SHARED, LEAF_SHARED) for word in ("-o", file)]
    return run("make", "--no-print-directory", *made, task, *words)


def uninstall(*words):
    return install(*words, task="uninstall")


def version():
    return re.search(r'^#define DXL_VERSION "(.*)"$', HEADER.read_text(encoding="utf-8"), flags=re.M).group(1)


def loaded(name="libmednukals"):
    """The name by which a program asks for a shared library."""
    return f"{name}.so.{version().split('.', maxsplit=1)[0]}"


def calls():
    """The part of the version within which calls stay as they are; CHANGELOG.md says how."""
    major, minor, _ = version().split(".")
    return f"{major}.{minor}" if major == "0" else major


def fields(path):
    """A pkg-config file's fields, with the variables put in."""
    text = path.read_text(encoding="utf-8")
    values = dict(re.findall(r"^(\w+)=(.*)$", text, flags=re.M))
    for _ in values:
        text = re.sub(r"\$\{(\w+)\}", lambda name: values[name.group(1)], text)
    return dict(re.findall(r"^(\w+): (.*)$", text, flags=re.M))


def flags(folder, name="mednukals", *options):
    """What a compiler needs, by pkg-config where it is there."""
    if shutil.which("pkg-config"):
        return shlex.split(run("pkg-config", *options, "--cflags", "--libs", name, PKG_CONFIG_PATH=str(folder)))
    found = fields(folder / f"{name}.pc")
    return shlex.split(f"{found['Cflags']} {found['Libs']}")


def needed(file):
    """The shared libraries that a program or library asks for, and its own name among them."""
    return re.findall(r"\[(lib.*)\]$", run("readelf", "-d", file), flags=re.M)


class Install(unittest.TestCase):
    def linked(self, folder, *words):
        """A program that was made with these words; it runs, and prints the version."""
        program = str(Path(folder, "program"))
        run(CC, "-std=c99", "-o", program, "tests/c/header.c", *words)
        self.assertEqual(run(program), f"{version()} {version()}\n")
        return needed(program)

    def test_a_program_is_linked(self):
        """With the shared library, unless the compiler is told -static or gets the archive by name."""
        for name in ["plain", "with a space"]:
            with self.subTest(name), tempfile.TemporaryDirectory() as folder:
                prefix = Path(folder, name)
                said = install(f"PREFIX={prefix}").splitlines()
                self.assertRegex(said[0], f"^installed below {prefix}: ")
                self.assertTrue(said[1].endswith(f": PYTHONPATH={(prefix / PYTHON).parent}"))
                self.hold(prefix)
                there = flags(prefix / "lib/pkgconfig")
                self.assertIn(loaded(), self.linked(prefix, *there))
                self.assertEqual(self.linked(prefix, "-static", *flags(prefix / "lib/pkgconfig", "mednukals", "--static")), [])
                self.assertNotIn(loaded(), self.linked(prefix, there[0], str(prefix / "lib/libmednukals.a")))

    def test_what_pkg_config_says(self):
        with tempfile.TemporaryDirectory() as folder:
            install(f"PREFIX={folder}")
            text = Path(folder, "lib/pkgconfig/mednukals.pc").read_text(encoding="utf-8")
            self.assertIn("\narchive=${libdir}/libmednukals.a\n", text)
            self.assertIn("\nlibdir=${prefix}/lib\n", text)

    def test_python(self):
        """The module in its place finds its library, wherever it is called from."""
        with tempfile.TemporaryDirectory() as folder:
            prefix = Path(folder, "with a space")
            install(f"PREFIX={prefix}")
            says = "import mednukals; print(mednukals._library._name, mednukals.encode(1, 1).hex())"
            said = run(sys.executable, "-c", says, PYTHONPATH=str((prefix / PYTHON).parent), PYTHONDONTWRITEBYTECODE="1")
            self.assertEqual(said, f"{prefix.resolve()}/lib/{loaded()} fffffd0001030001194e\n")

    def test_python_looks_there(self):
        """A folder in which python3 looks is taken, if there is one below the prefix."""
        with tempfile.TemporaryDirectory() as folder:
            own = Path(folder, "own")
            run(sys.executable, "-m", "venv", "--without-pip", str(own))
            path = f"{own}/bin:{os.environ['PATH']}"
            made = [word for file in (ARCHIVE, DXL, SHARED) for word in ("-o", file)]
            run("make", "--no-print-directory", *made, "install", f"PREFIX={own}", PATH=path)
            self.assertEqual(run(f"{own}/bin/python3", "-c", "import mednukals; print(mednukals.__version__)"), f"{version()}\n")
            run("make", "--no-print-directory", "uninstall", f"PREFIX={own}", PATH=path)
            self.assertEqual([path for path in own.rglob("*") if "mednukals" in path.name], [])

    def hold(self, prefix, files=FILES):
        """All files are there, as they should be, and no other."""
        there = {str(path.relative_to(prefix)) for path in prefix.rglob("*") if path.is_file()}
        self.assertEqual(there, set(files))
        for name, source in files.items():
            self.assertEqual((prefix / name).stat().st_mode & 0o777, 0o755 if name.startswith("bin/") else 0o644)
            if source is None:
                self.assertEqual(fields(prefix / name)["Version"], version())
            else:
                self.assertEqual((prefix / name).read_bytes(), source.read_bytes())

    def test_a_leaf(self):
        with tempfile.TemporaryDirectory() as folder:
            install(f"PREFIX={folder}", "LEAF=fold")
            self.hold(Path(folder), OF_LEAF)
            self.assertIn(loaded("libmednukals_fold"), self.linked(folder, *flags(Path(folder, "lib/pkgconfig"), "mednukals_fold")))

    def test_another_processor(self):
        """The text names the archive, the processor and the kit, and says what is proved and what is believed."""
        with tempfile.TemporaryDirectory() as folder:
            self.assertIn(f"lib/{TARGET}/libmednukals_fold.txt", install(f"PREFIX={folder}", f"TARGET={TARGET}", "LEAF=fold"))
            self.hold(Path(folder), OF_TARGET)
            lib = Path(folder, "lib", TARGET)
            self.assertEqual(fields(lib / "pkgconfig/mednukals_fold.pc")["Libs"], f'-L"{lib}" -lmednukals_fold')
            text = (lib / "libmednukals_fold.txt").read_text(encoding="utf-8")
            self.assertIn(f"libmednukals_fold.a for {TARGET}: ", text)
            self.assertIn(run("rt", "version").strip(), text)
            self.assertNotIn("@", text)
            for part in ("Proved, by this kit:", "Believed besides, and tested"):
                self.assertIn(part, text)

    def test_destdir(self):
        with tempfile.TemporaryDirectory() as folder:
            self.assertIn(f"installed below {folder}/opt/mednukals: ", install("PREFIX=/opt/mednukals/", f"DESTDIR={folder}"))
            self.hold(Path(folder, "opt/mednukals"))
            self.assertIn('"/opt/mednukals/include"', fields(Path(folder, "opt/mednukals/lib/pkgconfig/mednukals.pc"))["Cflags"])

    def test_a_relative_prefix(self):
        with tempfile.TemporaryDirectory(dir="build") as folder:
            install(f"PREFIX={folder}")
            self.hold(Path(folder))
            self.assertIn(f'"{Path.cwd() / folder}/lib"', fields(Path(folder, "lib/pkgconfig/mednukals.pc"))["Libs"])


class Uninstall(unittest.TestCase):
    def setUp(self):
        room = tempfile.TemporaryDirectory()
        self.addCleanup(room.cleanup)
        self.prefix = Path(room.name, "prefix")

    def there(self):
        return sorted(str(path.relative_to(self.prefix)) for path in self.prefix.rglob("*"))

    def test_nothing_is_left(self):
        for words in [], ["LEAF=fold"], [f"TARGET={TARGET}", "LEAF=fold"]:
            with self.subTest(words):
                install(f"PREFIX={self.prefix}", *words)
                self.assertRegex(uninstall(f"PREFIX={self.prefix}", *words), r" include/mednukals\.h\n\Z")
                self.assertEqual(self.there(), [])
        self.assertEqual(uninstall(f"PREFIX={self.prefix}"), f"nothing of it is below {self.prefix}\n")

    def test_destdir(self):
        words = ["PREFIX=/opt/mednukals", f"DESTDIR={self.prefix}"]
        install(*words)
        uninstall(*words)
        self.assertEqual([path for path in self.prefix.rglob("*") if not path.is_dir()], [])

    def test_others_stay(self):
        """Files of others, among ours and with names like ours; what python keeps of the module is ours."""
        others = ["bin/other", "include/mednukals.hpp", "lib/libmednukals.so.9", "lib/pkgconfig/other.pc", "share/man/man1/dxl.1.gz",
                  "lib/python3/site-packages/mednukals_more.py"]
        for name in others:
            (self.prefix / name).parent.mkdir(parents=True, exist_ok=True)
            (self.prefix / name).touch()
        before = self.there()
        install(f"PREFIX={self.prefix}")
        run(sys.executable, "-c", "import mednukals", PYTHONPATH=str((self.prefix / PYTHON).parent), PYTHONDONTWRITEBYTECODE="")
        self.assertTrue(any("__pycache__/mednukals" in name for name in self.there()))
        uninstall(f"PREFIX={self.prefix}")
        self.assertEqual(self.there(), before)

    def test_the_header_stays_while_a_library_does(self):
        names = [[], ["LEAF=fold"], [f"TARGET={TARGET}", "LEAF=fold"]]
        for words in names:
            install(f"PREFIX={self.prefix}", *words)
        for words in names:
            self.assertIn("include/mednukals.h", self.there())
            uninstall(f"PREFIX={self.prefix}", *words)
        self.assertEqual(self.there(), [])


class Shared(unittest.TestCase):
    """The shared library has the exports of the header and nothing else, and no memory of its own."""

    def test_exports(self):
        declared = functions(HEADER)
        for library in SHARED, LEAF_SHARED:
            symbols = [line.split() for line in run("nm", "-D", "--with-symbol-versions", library).splitlines()]
            defined = {name for *_, kind, name in symbols if kind == "T"}
            self.assertEqual(defined, {f"{name}@@MEDNUKALS_{calls()}" for name in declared})
            self.assertLessEqual({name.split("@")[0] for *_, kind, name in symbols if kind in "Uw"}, MEMORY_FUNCTIONS)
            sections = run("readelf", "-SW", library)
            self.assertEqual(re.findall(r" (\.\S+) +\S+ +\w+ \w+ \w+ \w+ +WA", sections), [".dynamic", ".got"])

    def test_how_it_is_loaded(self):
        """Its calls to each other are its own, whatever else a program has; its code is not written, and its stack holds none."""
        for library in SHARED, LEAF_SHARED:
            dynamic = run("readelf", "-dW", library)
            self.assertIn("(SYMBOLIC)", dynamic)
            self.assertIn(" NOW", dynamic)
            self.assertNotIn("TEXTREL", dynamic)
            self.assertRegex(run("readelf", "-lW", library), r"GNU_STACK +(\S+ +){5}RW +0x")

    def test_objects_are_those_of_the_archive(self):
        """Byte for byte, but for the addresses that the linker fills in: the same functions, of the same sizes."""
        for archive, library in (ARCHIVE, SHARED), (LEAF_ARCHIVE, LEAF_SHARED):
            sizes = [sorted(re.findall(r"^(dxl_\w+)\S* T \w+ (\w+)$", run("nm", "-P", "-t", "d", "-g", *words), flags=re.M))
                     for words in (["--defined-only", archive], ["-D", library])]
            self.assertGreater(len(sizes[0]), 20)
            self.assertEqual(*sizes)

    def test_names(self):
        self.assertEqual(Path(SHARED).name, f"libmednukals.so.{version()}")
        self.assertIn(loaded(), needed(SHARED))
        self.assertIn(loaded("libmednukals_fold"), needed(LEAF_SHARED))

    def test_another_version(self):
        """A program is not started with a library whose calls may be others."""
        with tempfile.TemporaryDirectory() as folder:
            program = f"{folder}/program"
            run(CC, "-std=c99", "-Iinclude", "-o", program, "tests/c/header.c", SHARED)
            major, minor, patch = map(int, version().split("."))
            for name, good in {f"{major}.{minor}.{patch + 1}": True, f"{major}.{minor + 1}.0": major > 0}.items():
                run("sh", "tools/shared.sh", f"{folder}/libmednukals.so.{name}", ARCHIVE, CC)
                ended = subprocess.run([program], capture_output=True, text=True, check=False, env={"LD_LIBRARY_PATH": folder})
                self.assertEqual(ended.returncode == 0, good, ended.stderr)


class Linked(unittest.TestCase):
    """A program has the objects whose exports it calls, and no other."""

    def exports(self, *calls):
        """The exports in a program that names these."""
        with tempfile.TemporaryDirectory() as folder:
            source, program = Path(folder, "program.c"), str(Path(folder, "program"))
            names = ", ".join(f"(void (*)(void)){name}" for name in calls)
            source.write_text('#include "mednukals.h"\n'
                              f"void (*volatile const called[])(void) = {{{names}}};\n"
                              "int main(void) { return called[0] == 0; }\n", encoding="utf-8")
            run(CC, "-std=c99", "-Iinclude", "-o", program, str(source), ARCHIVE)
            run(program)
            return set(re.findall(r"\bT (dxl_\w+)$", run("nm", program), flags=re.M))

    def test_only_what_is_called(self):
        new, old, both = self.exports("dxl_crc16"), self.exports("dxl_p1_encode"), self.exports("dxl_crc16", "dxl_p1_encode")
        self.assertIn("dxl_reader_feed", new)
        self.assertIn("dxl_mercury_encode", old)
        self.assertEqual((new & old, new | old), (set(), both))


class Version(unittest.TestCase):
    def test_one_version(self):
        text = HEADER.read_text(encoding="utf-8")
        numbers = [re.search(rf"^#define DXL_VERSION_{part} (\d+)$", text, flags=re.M).group(1) for part in ("MAJOR", "MINOR", "PATCH")]
        headings = re.findall(r"^## (.*)$", Path("CHANGELOG.md").read_text(encoding="utf-8"), flags=re.M)
        self.assertEqual(headings[0], "Unreleased")
        self.assertEqual([version(), ".".join(numbers)], [headings[1]] * 2)
        self.assertEqual(headings[1:], sorted(headings[1:], key=lambda text: [int(n) for n in text.split(".")], reverse=True))


if __name__ == "__main__":
    sys.exit(suite.run(usage=None if CC else "install_test.py CC ARCHIVE DXL LEAF_ARCHIVE TARGET_ARCHIVE SHARED LEAF_SHARED"))
