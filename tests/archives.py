"""Which archive has the exports of which crates, by crates.txt; the Makefile goes by the same rule

Every crate whose name begins with capi has exports. Those of capi_test are for tests and benchmarks, in an archive of their own;
each other crate is an object of the archive that firmware links.
"""
import re
import subprocess
from pathlib import Path

JOIN = Path(__file__).resolve().parent.parent / "tools/join.sh"
FIRMWARE, TESTS = "libmednukals.a", "libmednukals_test.a"
ONLY_TESTS = "capi_test"


def dependencies(text):
    """The lines of crates.txt by crate: what each stands on."""
    lines = (line.split("#")[0].split(":") for line in text.splitlines())
    return {words[0].split()[0]: words[1].split() for words in lines if len(words) == 2}


def archives(text):
    """Archive -> its crates, by the text of crates.txt."""
    crates = re.findall(r"^(capi\w*) staticlib:", text, flags=re.M)
    return {FIRMWARE: [crate for crate in crates if crate != ONLY_TESTS], TESTS: [ONLY_TESTS]}


def join(archive, parts):
    """One archive of the objects of the parts."""
    subprocess.run(["sh", JOIN, archive, *parts], check=True)
