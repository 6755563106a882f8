"""Counts the places of docs/DESIGN-PASS.md in src/: usage places.py [--list] [COMMIT], in the repository's root

For each point of that page a line with the count, of the tree or of a commit; --list prints the places too. What a pattern finds is
a place to look at: which of them are changed and which are kept, and why, says the page.
"""
import re
import subprocess
import sys
from collections import Counter
from pathlib import Path

FUNCTION = re.compile(r"^( *)(?:pub(?:\([a-z]+\))? )?(?:unsafe )?(?:extern \"C\" )?fn (\w+)(.*?)^\1\}", flags=re.M | re.S)
WORD = re.compile(r"[A-Za-z_]\w*|\d\w*")
KEPT = {"fn", "let", "mut", "if", "else", "match", "while", "for", "in", "loop", "return", "self", "Self", "true", "false", "as"}
ABSENT = r"\b(?:Nothing|Nowhere|Silent|NoRoom|Past|Bad|Done|Refused)\b"
NUMBERS = r"^(?:pub )?const (?:BAD_|TOO_|NO_|NOT_|WRONG_|SHORT_|INST_|ERROR_(?!ALERT)|PERMITS_|KIND_|LEVEL_|RESET_|PASSED|OWN)\w*: u"
LIMITS = r"9223372036854775807|18446744073709551615|4294967295|2147483648|2147483647"
HALVES = r"[%/*] (?:256|65536|16777216)\b"


def sources(commit):
    """Path -> text of each file of src/."""
    if not commit:
        return {str(path): path.read_text(encoding="utf-8") for path in sorted(Path("crates").glob("*/src/*.rt"))}
    run = lambda *words: subprocess.run(["git", *words], check=True, capture_output=True, text=True).stdout
    names = run("ls-tree", "-r", "--name-only", commit, "crates").split()
    return {name: run("show", f"{commit}:{name}") for name in names if re.fullmatch(r"crates/\w+/src/\w+\.rt", name)}


def code(text):
    """The text without its comments, ghost lines and clauses."""
    text = re.sub(r"//.*", "", text)
    text = re.sub(r"^ *ghost use .*;$", "", text, flags=re.M)
    return re.sub(r"^ *(?:ensures|requires)\b[^{]*\{.*?\}\n(?= *(?:ensures|requires|\{))", "", text, flags=re.M | re.S)


def enums(files):
    """Enums of the shape of Option or Result: of two variants one with a value, or with one that says that there is none."""
    for path, text in files.items():
        for name, body in re.findall(r"^(?:pub )?enum (\w+) \{\n(.*?)^\}", text, flags=re.M | re.S):
            variants = re.findall(r"^    (\w+)([ ({,].*)$", re.sub(r"//.*", "", body), flags=re.M)
            if len(variants) == 2 and any(rest[0] in "( {" and rest != "," for _, rest in variants) or re.search(ABSENT, body):
                yield f"{path}: enum {name}"


def flags(files):
    """Flags and errors beside a value: fields of a struct."""
    for path, text in files.items():
        for name, body in re.findall(r"^(?:pub )?struct (\w+)(?:<.*>)? \{\n(.*?)^\}", text, flags=re.M | re.S):
            for field in re.findall(r"^    (?:pub )?(\w+): (?:bool|Replied|Outcome|u8),", body, flags=re.M):
                if field in {"failed", "speaks", "refused", "outcome", "error", "kind", "permits", "header", "level"}:
                    yield f"{path}: {name}.{field}"


def numbers(files):
    """Constants that are numbers for kinds or refusals."""
    for path, text in files.items():
        yield from (f"{path}: {line.group(0)[:60]}" for line in re.finditer(NUMBERS, text, flags=re.M))


def twins(files):
    """Functions whose code is the same but for names and numbers."""
    found = {}
    for path, text in files.items():
        for match in FUNCTION.finditer(code(text)):
            body = match.group(3)
            shape = WORD.sub(lambda word: word.group(0) if word.group(0) in KEPT else ("N" if word.group(0)[0].isdigit() else "w"), body)
            shape = re.sub(r"\s", "", shape).replace(",)", ")")
            if len(shape) > 60:
                found.setdefault(shape, []).append(f"{path}: {match.group(2)}")
    for places in found.values():
        if len(places) > 1:
            yield from (f"{place} ~ {len(places)}" for place in places)


def loops(files):
    """Loops that are no `for`."""
    for path, text in files.items():
        for number, line in enumerate(text.splitlines(), 1):
            if re.match(r"\s*(?:'\w+: )?(?:while (?!let)|loop \{)", line):
                yield f"{path}:{number}: {line.strip()}"


def by_hand(files):
    """Bytes of numbers, limits of types and matches that answer true and false, written out."""
    for path, text in files.items():
        for number, line in enumerate(code(text).splitlines(), 1):
            if re.search(LIMITS, line) or re.search(HALVES, line) or re.search(r"=> (?:true|false),$", line):
                yield f"{path}: {line.strip()}"


def together(files):
    """Parameters that stand first in three functions of a crate or more, beside arguments of their own."""
    for path, text in files.items():
        first = re.findall(r"^(?:pub )?fn \w+\(\s*((?:protocol|table|held|file|goals|registered): [^,)]*),", text, flags=re.M)
        for parameter, count in Counter(first).items():
            if count > 2:
                yield f"{path}: {parameter} ({count})"


def counted(files):
    """Buffers with a length beside them: an array and a count in a struct."""
    for path, text in files.items():
        for name, body in re.findall(r"^(?:pub )?struct (\w+)(?:<.*>)? \{\n(.*?)^\}", text, flags=re.M | re.S):
            if re.search(r"\w+: \[", body) and re.search(r"\bcount: ", body):
                yield f"{path}: {name}"


def proofs():
    lines = sum(path.read_text(encoding="utf-8").count("\n") for path in Path("crates").glob("*/proofs/**/*.antt"))
    folders = sum(1 for path in Path("crates").glob("*/proofs/*") if path.is_dir())
    return f"{lines} lines of proofs, {folders} functions with files of their own"


POINTS = [("1", enums), ("1", flags), ("1", numbers), ("2", twins), ("3", loops), ("4", by_hand), ("5", together), ("6", counted)]


def main(words):
    listing = "--list" in words
    commits = [word for word in words if word != "--list"]
    files = sources(commits[0] if commits else None)
    for point, look in POINTS:
        places = list(look(files))
        print(f"{point}  {len(places):4}  {look.__doc__}")
        for place in places if listing else []:
            print(f"         {place}")
    if not commits:
        print(f"8        {proofs()}")


if __name__ == "__main__":
    main(sys.argv[1:])
