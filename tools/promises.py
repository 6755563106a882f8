#!/usr/bin/env python3
"""Writes docs/PROMISES.md from the comments in the tree, and looks for what is missing.

  promises.py            write the page
  promises.py --check    fail where the page is not what would be written, or where something below is missing

A comment names the rules of docs/RULES.md that its definition, function, must-fail edit or test is for, in brackets at the end of
a line: [P2], [S9 S10], [E1-E9]. Definitions are those of crates/*/specs, functions those of crates/*/src, edits those of
crates/*/must-fail, where the words stand before the first `file:` line; tests are Rust functions with #[test], C functions and
Python functions or methods under tests/, and the stored run of a program.

What each group of rules asks for stands in the first table of RULES, in its last column: a definition, a promise (a public
function with an `ensures`), something that can fail (an edit or a test).
"""
import re
import sys
from collections import defaultdict
from pathlib import Path

from statements import Statements, clauses, read

PAGE = Path("docs/PROMISES.md")
RULES = Path("docs/RULES.md")
# the head of a function with its contract: its body's brace stands alone, and where there is no contract it ends the head's last line
HEAD_OF = r'^( *)(pub )?(?:const )?(?:extern "C" )?fn (\w+)(?:(?:(?!\b(?:ensures|requires|decreases)\b)[^{])*?( \{)$|.*?^\1\{)'
IMPL = r"^impl(?:<.*?>)? (?:([\w:]+)(<.*?>)? for )?(\w+)\b[^\n]*\{\n(.*?)^\}"
# a ghost member of an impl that says what its method answers
GIVES = r"^    ghost \w+_gives = (\{.*?\});$"
TAG = re.compile(r"\[((?:[A-Z]\d+(?:-[A-Z]\d+)?)(?:[ ,]+[A-Z]\d+(?:-[A-Z]\d+)?)*)\]\s*(?:\*/)?\s*(?:\"\"\")?$")


# ---- the rules

def rules():
    """Rule -> its words, in the order of the page; group -> what it asks for."""
    text = read(RULES)
    found = {}
    for line in text.split("\n"):
        item = re.match(r"- \*\*([A-Z]\d+)\*\* (.*)", line)
        row = re.match(r"\| \*\*([A-Z]\d+)\*\* \| (.*) \|$", line)
        if item:
            found[item.group(1)] = item.group(2)
        elif row:
            found[row.group(1)] = " ".join(cell.strip() for cell in row.group(2).split("|"))
    asked = {}
    for groups, needs in re.findall(r"^\| ([A-Z](?:, [A-Z])*) \| [^|]* \| ([^|]*) \|$", text, flags=re.M):
        for group in groups.split(", "):
            asked[group] = {need.strip() for need in needs.split(",")} - {"–"}
    titles = dict(re.findall(r"^## ([A-Z])\. (.*)$", text, flags=re.M))
    return found, asked, titles


def expanded(words, known):
    """The rules of a tag; a range goes by number within one group."""
    for word in re.split(r"[ ,]+", words):
        first, _, last = word.partition("-")
        if not last:
            yield word
            continue
        letter, start, end = first[0], int(first[1:]), int(last[1:])
        if last[0] != letter or end < start:
            raise ValueError(f"[{words}] is no range of rules")
        yield from (f"{letter}{number}" for number in range(start, end + 1))


def tags(comment, known):
    """The rules that the lines of a comment name."""
    named = []
    for line in comment:
        found = TAG.search(line.rstrip())
        if found:
            named += [rule for rule in expanded(found.group(1), known) if rule not in named]
    return named


# ---- the places

def above(lines, number, comment, between=r"^$(?!)"):
    """The lines of the comment that ends right above a line; lines that match `between` may stand between them."""
    found = []
    for line in reversed(lines[:number]):
        if re.match(comment, line):
            found.append(line)
        elif found or not re.match(between, line):
            break
    return list(reversed(found))


def definitions():
    """(crate, file, name, comment) of each definition, and of each field or case of one that has a comment with rules."""
    for path in sorted(Path("crates").glob("*/specs/*.antt")):
        lines = read(path).split("\n")
        owner = None
        for number, line in enumerate(lines):
            named = re.match(r"^\s*(?:abbrev |unfoldable )?pub (?:record |data )?([^\s:({]+)(?= [:({]| :|$)", line)
            part = re.match(r"^\s+(?:pub )?(\S+) :", line)
            if named and not line.startswith("pub mod") and not (owner and line.startswith("  pub ") and " : " in line):
                owner = named.group(1) if re.match(r"^\s*pub (record|data) ", line) else None
                yield path.parts[1], path, named.group(1), above(lines, number, r"^\s*--")
            elif owner and part:
                yield path.parts[1], path, f"{owner}.{part.group(1)}", above(lines, number, r"^\s+--")
            elif line and not line.startswith((" ", "--")):
                owner = None


def functions():
    """(crate, name, public, head with contract, comment, path) of each function and method of the crates. An impl of a conversion is
    one function, whose contract is what its ghost member gives."""
    for path in sorted(Path("crates").glob("*/src/**/*.rt")):
        text = read(path)
        lines = text.split("\n")
        impls = list(re.finditer(IMPL, text, flags=re.M | re.S))
        for head in re.finditer(HEAD_OF, text, flags=re.M | re.S):
            number = text[:head.start()].count("\n")
            inside = next((impl for impl in impls if impl.start() < head.start() < impl.end()), None)
            if not inside or not inside.group(1):
                comment = above(lines, number, r"^ *//", r"^ *#\[")
                owner = f"{inside.group(3)}::" if inside else ""
                yield path.parts[1], owner + head.group(3), bool(head.group(2)), head.group(), comment, path
        for impl in impls:
            trait, given, name, body = impl.groups()
            gives = re.findall(GIVES, body, flags=re.M | re.S)
            if trait and gives:
                comment = above(lines, text[:impl.start()].count("\n"), r"^//", r"^#\[")
                head = "\n".join(f"ensures {each}" for each in gives)
                yield path.parts[1], f"{trait}{given or ''} for {name}", True, head, comment, path


def edits():
    for path in sorted(Path("crates").glob("*/must-fail/*.edit")):
        words = []
        for line in read(path).split("\n"):
            if line.startswith(("file:", "old:", "new:")):
                break
            words.append(line)
        yield f"{path.parts[1]}/{path.stem}", words


def unfit_edits():
    """Edits that would not change what they say: their file is not there, an old text does not stand there exactly once when the
    texts before it are replaced, or they have a line that the kit passes over, as it does with the second line of a text."""
    for path in sorted(Path("crates").glob("*/must-fail/*.edit")):
        file, text, old = None, "", ""
        for line in read(path).split("\n"):
            word, _, rest = line.partition(": ")
            if file and line and not line.startswith(("file: ", "old: ", "new:")):
                yield f"the edit {path} has a line that is passed over: {line}"
            if word == "file":
                file = path.parent.parent / rest
                if not file.exists():
                    yield f"the edit {path} is of {file}, which is not there"
                    break
                text = read(file)
            if word == "old":
                old = rest
                if text.count(old) != 1:
                    yield f"the old text of the edit {path} stands {text.count(old)} times in {file}"
            if line.startswith("new:"):
                text = text.replace(old, line.removeprefix("new:").removeprefix(" "), 1)


def tests():
    """(file, name, comment) of each test."""
    for path in sorted(Path("tests").glob("*/tests/**/*.rs")) + sorted(Path("tests").glob("*/src/**/*.rs")):
        lines = read(path).split("\n")
        for number, line in enumerate(lines):
            named = re.match(r"\s*fn (\w+)", line)
            if named and number and "#[test]" in lines[number - 1]:
                yield path, named.group(1), above(lines, number - 1, r"^\s*//")
    for path in sorted(Path("tests").glob("c/*.c")):
        lines = read(path).split("\n")
        for number, line in enumerate(lines):
            named = re.match(r"(?:static )?[\w ]+ \**(\w+)\(.*\)$", line)
            if named and number + 1 < len(lines) and lines[number + 1] == "{":
                yield path, named.group(1), above(lines, number, r"^\s*(/\*| \*)")
    for path in sorted(Path("tests").glob("*.py")):
        lines = read(path).split("\n")
        words = re.match(r'"""(.*?)"""', read(path), flags=re.S)
        yield path, "", (words.group(1).split("\n") if words else [])
        for number, line in enumerate(lines):
            named = re.match(r"\s*def (\w+)", line)
            if named:
                inside = re.match(r'\s*"""(.*)"""', lines[number + 1]) if number + 1 < len(lines) else None
                yield path, named.group(1), above(lines, number, r"^\s*#") + ([inside.group(1)] if inside else [])
    for path in sorted(Path("crates").glob("*/src/main.rt")):
        comment = [line for line in read(path).split("\n") if line.startswith("//")]
        if (path.parent.parent / "stdout").exists():
            yield path.parent.parent / "stdout", "", comment


# ---- the page

class Tree:
    def __init__(self):
        self.rules, self.asked, self.titles = rules()
        self.statements = Statements()
        self.faults = []
        self.by_rule = {kind: defaultdict(list) for kind in ("definition", "promise", "edit", "test")}
        self.functions = list(functions())
        self.edits = list(edits())
        for crate, path, name, comment in definitions():
            self.place("definition", tags_of(self, comment, f"{path}: {name}"), (f"{crate}/{path.stem}", name))
        for crate, name, public, head, comment, path in self.functions:
            named = tags_of(self, comment, f"{crate}::{name}")
            if named and not (public and has(head, "ensures")) and "main" not in path.stem:
                self.faults.append(f"{crate}::{name} names rules and is no public function with an ensures")
            if "main" not in path.stem:
                self.place("promise", named, f"{crate}::{name}")
        for edit, comment in self.edits:
            named = tags_of(self, comment, f"edit {edit}")
            if not "".join(comment).strip():
                self.faults.append(f"the edit {edit} does not say what is wrong")
            if not named:
                self.faults.append(f"the edit {edit} names no rule")
            if len(named) > 2:
                self.faults.append(f"the edit {edit} names more than two rules")
            self.place("edit", named, edit)
        for path, name, comment in tests():
            file = path.name if path.parts[0] == "tests" else str(path)
            self.place("test", tags_of(self, comment, f"{path} {name}"), (file, name))

    def place(self, kind, named, place):
        for rule in named:
            self.by_rule[kind][rule].append(place)

    def missing(self):
        for rule in self.rules:
            asked = self.asked.get(rule[0], set())
            if "definition" in asked and not self.by_rule["definition"][rule]:
                yield f"{rule} has no definition"
            if "promise" in asked and not self.by_rule["promise"][rule]:
                yield f"{rule} is promised by no function"
            if "edit or test" in asked and not (self.by_rule["edit"][rule] or self.by_rule["test"][rule]):
                yield f"{rule} has nothing that can fail"
            if "test" in asked and not self.by_rule["test"][rule]:
                yield f"{rule} has no test"

    def weak_contracts(self):
        for crate, name, public, head, _, path in self.functions:
            if not public:
                continue
            if has(head, "requires"):
                yield f"{crate}::{name} is public and requires something"
            if not has(head, "ensures"):
                yield f"{crate}::{name} is public and has no ensures"
            # what standard input still holds no contract can say
            for lent in re.findall(r"(\w+): &(?:'\w+ )?mut (?!Stdin\b)", head):
                if not re.search(rf"(?<![\w.])(?:{lent}|«{lent}»)\.new\b", head):
                    yield f"{crate}::{name} does not say what it leaves of {lent}"

    def promised(self):
        """Function -> the definitions that its contract leads to."""
        return {f"{crate}::{name}": self.statements.led_to(read(path), head) for crate, name, _, head, _, path in self.functions}

    def unpromised(self):
        """A theorem has to be led to by a public function's contract, any other statement by some function's, or be asked by one."""
        promised = self.promised()
        asked = set().union(*(self.statements.asked(read(path), head) for *_, head, _, path in self.functions))
        public = {f"{crate}::{name}" for crate, name, public, _, _, _ in self.functions if public}
        by_public = set().union(*(places for who, places in promised.items() if who in public))
        for place in sorted(self.statements.statements.keys() - set().union(asked, *promised.values()) | self.statements.theorems - by_public):
            yield f"no function promises {place[2]} of {self.statements.statements[place]}"

    def unapplied(self):
        """Each theorem that an export promises is applied to data in a proof, and each of its fields is used there."""
        cited = set()
        for crate, name, public, head, _, path in self.functions:
            if crate.startswith("capi") and public:
                cited |= set(self.statements.cited(read(path), head)) & self.statements.theorems
        proofs = {}
        for place, theorems in self.statements.applications.items():
            texts = [uncommented(read(path)) for path in sorted(Path("crates", place[0], "proofs").glob("*.antt"))]
            texts = [text for text in texts if re.search(rf": {place[2]}$", text, flags=re.M)]
            if not texts:
                yield f"{place[2]} of crates/{place[0]} is proved nowhere"
            if not all(uses_supposition(text, place[2]) for text in texts):
                yield f"the proof of {place[2]} of crates/{place[0]} does not use what it supposes"
            for theorem in theorems:
                proofs.setdefault(theorem, []).extend(texts)
        for theorem in sorted(cited):
            if theorem[2] in COMPUTED:
                continue
            parts = self.statements.reached([theorem])
            text = "\n".join("\n".join(texts) for applied, texts in proofs.items() if applied in parts)
            text = re.sub(r"^(?:pub )?use .*$", "", text, flags=re.M)
            if not any(theorem in self.statements.reached([applied]) or applied in parts for applied in proofs):
                yield f"{theorem[2]} of crates/{theorem[0]} has no application"
                continue
            for place, field in self.statements.applied_fields(theorem):
                if not re.search(rf"(?<=[\w)'])\.{re.escape(field)}(?![\w'-])", text):
                    yield f"no application of {theorem[2]} uses {place[2]}.{field} of crates/{place[0]}"

    def page(self):
        out = [HEAD.strip(), ""]
        for letter, title in self.titles.items():
            own = [rule for rule in self.rules if rule[0] == letter]
            if not own:
                continue
            out += [f"## {letter}. {title}", "", *self.lines(own), ""]
        out += [THEOREMS.strip(), "", *self.theorems()]
        return "\n".join(out).rstrip() + "\n"

    def lines(self, rules):
        """One line for each rule: definitions; promises; edits and tests. Neighbours with the same places share one."""
        rows = []
        for rule in rules:
            places = {kind: self.by_rule[kind][rule] for kind in self.by_rule}
            fails = [*(f"`{edit}`" for edit in places["edit"]), *by_file(tested(places["test"]))]
            promises = [called(place) for place in places["promise"]]
            parts = [", ".join(names) for names in (by_file(defined(places["definition"])), promises, fails)]
            if rows and rows[-1][1] == parts:
                rows[-1][0].append(rule)
            else:
                rows.append(([rule], parts))
        for named, parts in rows:
            yield f"- **{spanned(named)}** {'; '.join(filter(None, parts)) or '–'}"

    def theorems(self):
        """A line for the theorems that the same exports promise; exports that only tests link stand where there is no other."""
        promised = self.promised()
        rows = defaultdict(list)
        for place in sorted(self.statements.theorems):
            exports = [who for who, places in promised.items() if place in places and who.startswith("capi")]
            linked = [who for who in exports if not who.startswith("capi_test::")]
            rows[", ".join(called(who) for who in linked or exports)].append(place)
        for exports, places in rows.items():
            applied = sorted({f"`{use[0]}/{use[1]}`" for use, theorems in self.statements.applications.items() if set(places) & set(theorems)})
            stands = by_file((f"{crate}/{file}", name) for crate, file, name in places)
            yield "- " + "; ".join(filter(None, [", ".join(stands), exports or "–", ", ".join(applied)]))


def has(head, kind):
    """Whether a function's head has a clause of that kind."""
    return next(clauses(head, kind), None) is not None


def spanned(rules):
    """The rules of one line: `X8`, or `X8 to X10`, or one by one where their numbers do not follow each other."""
    numbers = [int(rule[1:]) for rule in rules]
    if len(rules) > 2 and numbers == list(range(numbers[0], numbers[0] + len(rules))):
        return f"{rules[0]} to {rules[-1]}"
    return ", ".join(rules)


def called(place):
    """crate::function; an export has the name that C calls."""
    crate, _, name = place.partition("::")
    return f"`{name}`" if crate.startswith("capi") else f"`{place}`"


def defined(places):
    """Definitions without a record that is named beside one of its fields."""
    return [(file, name) for file, name in places if not any(other.startswith(f"{name}.") for _, other in places)]


def tested(places):
    """A test by the stem of its file and its name; a stored run by its file."""
    return [(file if "/" in file else Path(file).stem, name) for file, name in places]


def by_file(places):
    """file.name, and then .name for each other name of the same file; a place without a name is the file."""
    names = defaultdict(dict)
    for file, name in places:
        names[file][name] = None
    for file, own in names.items():
        first, *others = sorted(own, key=bool)
        yield f"`{file}.{first}`" if first else f"`{file}`"
        yield from (f"`.{name}`" for name in others)


def tags_of(tree, comment, where):
    try:
        named = tags(comment, tree.rules)
    except ValueError as wrong:
        tree.faults.append(f"{where}: {wrong}")
        return []
    for rule in named:
        if rule not in tree.rules:
            tree.faults.append(f"{where} names {rule}, which is no rule")
    return [rule for rule in named if rule in tree.rules]


def uncommented(source):
    """A file of proofs without its comments."""
    return re.sub(r"(^|\s)--.*$", r"\1", source, flags=re.M)


def uses_supposition(source, name):
    """Whether the theorem that an application is given occurs in its proof."""
    proof = re.search(rf"^(?:pub )?(\S+) : {name}$\n(?:unfolding .*\n)?\1 (\w+) =(.*?)(?=^\S|\Z)", source, flags=re.M | re.S)
    return proof is None or bool(re.search(rf"\b{proof.group(2)}\b", proof.group(3)))


# theorems that are applications themselves: tables of worked examples, which the checker computes
COMPUTED = {"CasesHold", "SalvageCases"}

HEAD = """
# Promises

From each rule of [RULES.md](RULES.md) to its definitions; the functions that promise it; and the edits and tests that fail if it does not hold, in this order. `tools/promises.py` writes this page from the comments in the tree. An export is listed with the rules about the call itself, and also promises what the functions that it calls promise; a test of everything, as `device.random_calls`, is listed where no other test is.

- `packet_front/Front.good_id` is a definition: `good_id` in `crates/packet_front/specs/Front.antt`; `.name` behind it is in the same file.
- `dxl_encode` is the contract of an export, `packet_protocols::Protocol::judge` that of a method in `crates/packet_protocols/src/lib.rt`. What the checker does not find of its proof by itself stands in `proofs/Protocol/judge/`.
- `packet_front/id_253` is an edit: `crates/packet_front/must-fail/id_253.edit`, a change that the checker has to refuse.
- `verdict.every_id` is a test: `every_id` in the file `verdict` under `tests/`; `.name` behind it is in the same file.
"""

THEOREMS = """
## Theorems

Statements in `specs/` that are not about one call's arguments; the exports that promise them; and where they are applied to data. A part of another theorem is applied with that. The gate fails if a statement in `specs/` is promised by no function, or if a theorem that an export names, or a field of it, is applied nowhere.
"""


def main():
    tree = Tree()
    faults = tree.faults + list(unfit_edits()) + list(tree.missing()) + list(tree.weak_contracts()) + list(tree.unpromised()) + list(tree.unapplied())
    page = tree.page()
    if "--check" in sys.argv[1:]:
        if not PAGE.exists() or read(PAGE) != page:
            faults.append("docs/PROMISES.md is not what tools/promises.py writes: run make promises")
    else:
        PAGE.write_text(page, encoding="utf-8")
    for fault in faults:
        print(f"promises: {fault}", file=sys.stderr)
    if not faults:
        print(f"promises: {len(tree.rules)} rules, {len(tree.edits)} must-fail edits, each rule with what it asks for")
    return 1 if faults else 0


if __name__ == "__main__":
    sys.exit(main())
