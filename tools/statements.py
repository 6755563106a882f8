"""The definitions in specs/ and what leads to them from the contracts in src/."""
import re
from pathlib import Path

# files that apply theorems to data: nothing is promised by them
APPLIED = re.compile(r"crates/(?:\w+/specs/Applied|\w+_applications/specs/\w+)\.antt$")
# what a conclusion states by its name: definitions of the rules, whose own fields no application has to take apart
BY_NAME = {"WellFormed", "Sound", "Plan", "Laws"}
BEGINS = re.compile(r"(?:(?:abbrev|unfoldable|pub) )*(?P<sort>record |data )?(?P<name>[^\s(]+)")
USES = re.compile(r"^(?:ghost |pub )?use Rattle\.(\w+)\.specs\.(\w+)\.\{(.*)\};?$", flags=re.M)
# the parameters of a theorem that is not about one call's arguments: packet rules, a reader, the IDs of a protocol, a number
GENERAL = re.compile(r"[^:]* (?:\((?:R : Rules|M : AnyReader|good : ℕ → Bool)\) )*: (?:(?:Rules|AnyReader|ℕ) → )*Type [01](?: where)?$")


def read(path):
    return path.read_text(encoding="utf-8")


def definitions(source):
    """Name, sort, type and whole text of each definition in a file of specs/, also in a `module _ .. where`."""
    scopes, found, in_type = [0], [], False
    for line in source.splitlines():
        words, indent = line.strip(), len(line) - len(line.lstrip())
        if not words or words.startswith(("--", "use ", "pub use ", "pub mod ", "mod ")):
            continue
        while indent < scopes[-1]:
            scopes.pop()
        if words.startswith("module "):
            scopes.append(indent + 2)
            continue
        if indent == scopes[-1]:
            # a definition begins with its type; its clauses stand below it, and begin with its name alone
            in_type = bool(re.match(r"(abbrev|unfoldable|pub|record|data) |\S+ : ", words))
            if in_type:
                head = BEGINS.match(words)
                found.append({"name": head["name"], "sort": head["sort"], "type": "", "text": ""})
        found[-1]["text"] += " " + words
        if in_type:
            found[-1]["type"] += " " + words
            in_type = not words.endswith(" where")
    return found


def brought_in(source):
    """What each name that a file brings in from some specs/ stands for: the crate, the file and the name there."""
    names = {}
    for crate, file, items in USES.findall(source):
        for item in items.split(", ") if Path("crates", crate).is_dir() else []:
            name, _, other = item.partition(" as ")
            names[other or name] = (crate, file, name)
    return names


def fields(source):
    """(record, field, type) of each field of the records in a file of specs/."""
    found, record, depth = [], None, 0
    for line in source.splitlines():
        words, indent = line.strip(), len(line) - len(line.lstrip())
        if not words or words.startswith("--"):
            continue
        head = re.match(r"pub record (\S+)", words)
        if head:
            record, depth, in_head = head.group(1), indent, not words.endswith(" where")
        elif record and in_head:
            in_head = not words.endswith(" where")
        elif record and indent > depth:
            part = re.match(r"pub (\S+) : (.*)", words)
            if part and indent == depth + 2:
                found.append([record, part.group(1), part.group(2)])
            elif found:
                found[-1][2] += " " + words
        else:
            record = None
    return found


def conclusion(statement):
    """What stands behind the last arrow that is in no parentheses."""
    depth, last = 0, 0
    for at, sign in enumerate(statement):
        depth += (sign in "({[") - (sign in ")}]")
        if sign == "→" and depth == 0:
            last = at + 1
    return statement[last:]


def clauses(contract, kind):
    """What stands in the braces of each clause of a kind: `ensures { .. }`, `ensures label { .. }`."""
    for begin in re.finditer(rf"\b{kind}(?: \w+)? \{{", contract):
        depth, at = 1, begin.end()
        while depth:
            depth += (contract[at] == "{") - (contract[at] == "}")
            at += 1
        yield contract[begin.end():at - 1]


def named_in(text, scope):
    return [scope[word] for word in re.findall(r"[^\s(){},;.]+", text) if word in scope]


class Statements:
    """Places are (crate, file, name)."""

    def __init__(self):
        self.named, self.statements, self.fields, self.concluded, self.applications = {}, {}, {}, {}, {}
        general, claims = set(), set()
        for path in sorted(Path("crates").glob("*/specs/*.antt")):
            source = read(path)
            own = definitions(source)
            place = {d["name"]: (path.parts[1], path.stem, d["name"]) for d in own}
            scope = brought_in(source) | place
            for record, field, text in fields(source):
                self.fields.setdefault(place[record], {})[field] = named_in(conclusion(text), scope)
            for d in own:
                self.named[place[d["name"]]] = named_in(d["text"], scope)
                body = d["text"][len(d["type"]):].partition(" = ")[2]
                self.concluded[place[d["name"]]] = named_in(conclusion(body), scope)
                if APPLIED.match(str(path)) and d["name"].endswith("Applied") and not d["sort"]:
                    premises = re.findall(r"(?:^|\()\s*([^\s()]+)[^()→]*(?:\([^()→]*\)[^()→]*)*→", body)
                    self.applications[place[d["name"]]] = named_in(" ".join(premises), scope)
                if APPLIED.match(str(path)):
                    continue
                if d["sort"] != "data " and re.search(r" Type [01]( where)?$", d["type"]):
                    self.statements[place[d["name"]]] = path
                    if GENERAL.match(d["type"].strip()):
                        general.add(place[d["name"]])
                    if re.search(r"[≡≤<¬]", d["text"]):
                        claims.add(place[d["name"]])
        # a record of plain data claims nothing, and neither does one that holds only such
        more = claims
        while more:
            more = {place for place in self.statements.keys() - claims if claims & set(self.named[place])}
            claims |= more
        self.claims = claims
        self.theorems = general & claims

    def cited(self, source, contract):
        """The definitions that a contract names; `source` is the file that it stands in."""
        return [place for clause in clauses(contract, "ensures") for place in named_in(clause, brought_in(source))]

    def asked(self, source, contract):
        """The definitions that a `requires` names."""
        return {place for clause in clauses(contract, "requires") for place in named_in(clause, brought_in(source))}

    def led_to(self, source, contract):
        """All definitions that a contract leads to."""
        return self.reached(self.cited(source, contract))

    def reached(self, ahead):
        ahead, seen = list(ahead), set()
        while ahead:
            place = ahead.pop()
            if place not in seen:
                seen.add(place)
                ahead += self.named.get(place, [])
        return seen

    def applied_fields(self, theorem):
        """The fields of a theorem's record, and of those in its conclusions, that an application has to use."""
        ahead, seen, found = [theorem], set(), []
        while ahead:
            place = ahead.pop()
            if place in seen or place[2] in BY_NAME:
                continue
            seen.add(place)
            for field, concluded in self.fields.get(place, {}).items():
                if place in self.claims:
                    found.append((place, field))
                    ahead += concluded
            ahead += self.concluded.get(place, []) if place not in self.fields else []
        return found
