"""Holds the names for numbers in the header to the definitions, and the constants of the code to the header: usage
check_constants.py HEADER, in the repository's root

Refusals: crates/answers/specs/Refusals.antt. Registers, with area, access and range in their comments:
crates/table_registers/specs/Registers.antt. Instructions and the errors 02 and
03: crates/device_dispatch/specs/Reactions.antt. Errors 04 to 07: crates/table_rules/specs/Outcomes.antt. The alert:
crates/device_status/specs/Status.antt. The version: crates/capi/specs/Version.antt. A definition may write a number or the name of one that is defined elsewhere under specs/.

A constant of the code, or a variant with a number of one of its enums, has the header's name without DXL_, and its number, and is
said once.
"""
import re
import sys
from pathlib import Path

from faults import report

REFUSALS = Path("crates/answers/specs/Refusals.antt")
REGISTERS = Path("crates/table_registers/specs/Registers.antt")
REACTIONS = Path("crates/device_dispatch/specs/Reactions.antt")
OUTCOMES = Path("crates/table_rules/specs/Outcomes.antt")
STATUS = Path("crates/device_status/specs/Status.antt")
VERSION = Path("crates/capi/specs/Version.antt")
# Where a definition has another word than the header.
WORDS = {"DEVICE_ID": "ID", "NO_ACCESS": "ACCESS"}
# Names of the header for which the code may have no constant: it gives these numbers in one place.
NOT_IN_CODE = {"MAX_STATUS", "NO_EVENT", "PACKET", "BAD_CHECKSUM"}
# A constant that begins so is in the header.
GROUPS = ("REG_", "SIZE_", "FRESH_", "INST_", "ERROR_", "VERSION_")
# Enums whose variants with numbers are names of the header, and what these begin with there.
ENUMS = {"Refusal": "", "Instruction": "INST_", "ErrorNumber": "ERROR_", "Fault": ""}


def upper(name):
    """goal_position and GoalPosition as GOAL_POSITION."""
    word = re.sub(r"(?<=[a-z])(?=[A-Z])|(?<=[A-Z])(?=[A-Z][a-z])", "_", name).upper()
    return WORDS.get(word, word)


def number(text):
    """A number, or what a name stands for."""
    while not re.fullmatch(r"0x[0-9A-Fa-f]+|\d+", text):
        pattern = re.compile(rf"^{re.escape(text)} = (\S+)$", flags=re.M)
        found = {value for path in Path("crates").glob("*/specs/*.antt") for value in pattern.findall(path.read_text(encoding="utf-8"))}
        if len(found) != 1:
            raise ValueError(f"{text} is no number and stands for {sorted(found)}")
        text = found.pop()
    return int(text, 0)


def registers():
    """Name and number of each register's address, size and fresh value, and its comment."""
    text = REGISTERS.read_text(encoding="utf-8")
    row = r"^(\w+) = register (\S+) (\S+) (?:read_only|\(read_write \((\w+) (\S+)\) \((\w+) (\S+)\)\)) (rom|ram) (\S+)$"
    values, comments = {}, {}
    for name, address, size, low_sign, low, high_sign, high, area, fresh in re.findall(row, text, flags=re.M):
        name = upper(name)
        values.update({f"DXL_REG_{name}": number(address), f"DXL_SIZE_{name}": number(size), f"DXL_FRESH_{name}": number(fresh)})
        sign = {"pos": 1, "minus": -1}
        access = f"{sign[low_sign] * number(low)} to {sign[high_sign] * number(high)}" if low else "read only"
        comments[f"DXL_REG_{name}"] = f"{area.upper()}, {access}"
    listed = re.search(r"^registers =\n((?:.*\n)*?)\n", text, flags=re.M).group(1)
    names = {f"DXL_REG_{upper(name)}" for name in re.findall(r"(\w+)\n", listed)}
    if names != comments.keys():
        raise ValueError(f"{REGISTERS} lists {sorted(names ^ comments.keys())} in one place only")
    return values, comments


def instructions():
    text = REACTIONS.read_text(encoding="utf-8")
    found = re.findall(r"\(?cond \(eqb instruction (\S+)\) \((?:heard_(\w+)|reacting \(unchanged)", text)
    return {f"DXL_INST_{upper(name) if name else 'STATUS'}": number(code) for code, name in found}


def errors():
    reactions, outcomes = REACTIONS.read_text(encoding="utf-8"), OUTCOMES.read_text(encoding="utf-8")
    undefined = re.search(r"^heard_undefined all table w = reacting \(refusing table w (\S+)\)", reactions, flags=re.M).group(1)
    checksum = re.search(r"^reaction BadChecksum all table w body = reacting \(refusing table w (\S+)\)", reactions, flags=re.M).group(1)
    found = re.findall(r"^denial_number (\w+) = (\S+)$", outcomes, flags=re.M)
    values = {f"DXL_ERROR_{upper(name)}": number(code) for name, code in found if name != "NotTable"}
    alert = re.search(r"\(error % (\S+) \+ \1\)", STATUS.read_text(encoding="utf-8")).group(1)
    return {"DXL_ERROR_INSTRUCTION": number(undefined), "DXL_ERROR_CHECKSUM": number(checksum), "DXL_ERROR_ALERT": number(alert),
            **values}


def refusals():
    found = re.findall(r"^number_of (\w+) = (\S+)$", REFUSALS.read_text(encoding="utf-8"), flags=re.M)
    return {f"DXL_{upper(name)}": number(code) for name, code in found}


def version():
    found = re.findall(r"^(version_\w+) = (\S+)$", VERSION.read_text(encoding="utf-8"), flags=re.M)
    return {f"DXL_{upper(name)}": number(value) for name, value in found}


def constants():
    """Name -> number and file of each constant of the code that is no array, and of each variant with a number."""
    written = {}
    for path in sorted(Path("crates").glob("*/src/**/*.rt")):
        text = path.read_text(encoding="utf-8")
        for name, value in re.findall(r"^(?:pub )?const (\w+): \w+ = (.*);$", text, flags=re.M):
            written.setdefault(name, []).append((value, path))
        for enum, body in re.findall(r"^pub enum (\w+) \{\n(.*?)^\}", text, flags=re.M | re.S):
            for name, value in re.findall(r"^    (\w+) = (\w+),$", body, flags=re.M) if enum in ENUMS else []:
                written.setdefault(ENUMS[enum] + upper(name), []).append((value, path))

    def value_of(text):
        terms = [re.sub(r" as \w+$", "", term) for term in text.split(" + ")]
        return sum(int(term, 0) if re.fullmatch(r"-?\d\w*", term) else value_of(written[term][0][0]) for term in terms)

    return {name: [(value_of(value), path) for value, path in places] for name, places in written.items()}


def of_the_code(there):
    """What is wrong with the constants of the code beside the names of the header."""
    names = {name.removeprefix("DXL_"): value for name, value in there.items()}
    code = constants()
    for name, places in sorted(code.items()):
        if name not in names:
            if name.startswith(GROUPS):
                yield f"{name} of {places[0][1]} is not in the header"
            continue
        if len(places) > 1:
            yield f"{name} is said in {' and in '.join(str(path) for _, path in places)}"
        yield from (f"{name} is {value} in {path}, and {names[name]} in the header" for value, path in places if value != names[name])
    for name, value in sorted(names.items()):
        if name not in code and name not in NOT_IN_CODE and not (name.startswith("FRESH_") and value == 0):
            yield f"the code has no constant {name}"


def main(header):
    text = Path(header).read_text(encoding="utf-8")
    code = re.sub(r"/\*.*?\*/", "", text, flags=re.S)
    named = re.findall(r"\b(DXL_\w+)\s*=\s*(\w+)", code) + re.findall(r"^#define (DXL_VERSION_\w+) (\d+)$", code, flags=re.M)
    numbers = {name: int(value, 0) for name, value in named}
    refused = re.search(r"/\* Refusals\..*?enum \{(.*?)\};", text, flags=re.S).group(1)
    there = {name: value for name, value in numbers.items()
             if name.removeprefix("DXL_").startswith(GROUPS) or re.search(rf"^ +{name} =", refused, flags=re.M)}
    said = dict(re.findall(r"^ +(DXL_REG_\w+) = \d+, +/\* (.*) \*/$", text, flags=re.M))
    values, comments = registers()
    values.update(instructions())
    values.update(errors())
    values.update(refusals())
    values.update(version())
    table = number(re.search(r"^table_size = (\S+)$", REGISTERS.read_text(encoding="utf-8"), flags=re.M).group(1))

    faults = [f"{name} is {values[name]} and the header has it not" for name in sorted(values.keys() - there.keys())]
    faults += [f"{name} is in the header and not defined" for name in sorted(there.keys() - values.keys())]
    faults += [f"{name} is {values[name]}, and not {there[name]}" for name in sorted(values.keys() & there.keys())
               if values[name] != there[name]]
    faults += [f"{name} is {comments[name]}, and not {said.get(name)}" for name in sorted(comments) if comments[name] != said.get(name)]
    faults += [] if f"DXL_TABLE_BYTES = {table}," in text else [f"DXL_TABLE_BYTES is {table}"]
    faults += of_the_code(numbers)
    return report("constants", faults, f"{len(values)} names, each with the number that is defined; the constants of the code are the same")


if __name__ == "__main__":
    sys.exit(main(sys.argv[1]))
