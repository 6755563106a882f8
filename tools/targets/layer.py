"""The layer of C between the header, where a size_t has 32 bits, and the functions of Rattle's module, where a usize has 64

All of it is made from the header's text; what is not understood there ends the program. Of a function dxl_X the layer calls raw_X:

  size_t n             becomes a 64-bit number
  T *p, T p[N]         stays, for a T of one, two or four bytes
  size_t *n            becomes a 64-bit copy, taken before the call and put back behind it
  struct S *p          of bytes and a count alone: its bytes, and its count as above, to the function without reader_ in its name
  struct S s           becomes a pointer to a private copy with 64-bit numbers
  a struct as result   is written through a first pointer, and narrowed field by field

What is narrowed behind the call fits: FITS names the theorem for each such number, and one that is not there ends the program.
The header's inline functions are C for any processor, and are passed over. Structs that cross the calls are asserted to lie as on
x86-64: compiled for it with LAYER_CHECK, their layout is compared with the header's own.
"""
import re
import sys

NUMBERS = {"uint8_t", "uint16_t", "uint32_t", "int32_t"}
WIDE = {"size_t": "wide", "int64_t": "wide_signed"}
READER = ["uint8_t", "size_t"]  # the types of a reader's fields
# By the call's result, each number that is narrowed behind it, and the fields in crates/fits/specs/Fits.antt that say that it fits:
# the export promises their record (tests/targets_test.py). LENT is a count that is lent.
LENT = "*"
FITS = {
    "struct dxl_step": {"taken": "StepFits.taken", "count": "StepFits.count", LENT: "StepFits.held"},
    "struct dxl_board_step": {
        "taken": "BoardFits.taken", "count": "BoardFits.count", "reply.slot": "BoardFits.slot", LENT: "BoardFits.held"},
    "struct dxl_answer": {"slot": "DeviceFits.slot DeviceFits.packet_slot"},
    "struct dxl_carried": {"reply.slot": "DeviceFits.waiting_slot DeviceFits.waiting_packet_slot"},
    "struct dxl_event": {"offset": "EventFits.offset", "count": "EventFits.count", "next": "EventFits.next"},
    "struct dxl_found": {"segment": "FoundFits.segment", "offset": "FoundFits.offset"},
    "struct dxl_salvaged": {
        "dropped": "SalvagedFits.dropped", "index_changed": "SalvagedFits.index", "leftover": "SalvagedFits.leftover"},
}
FRONT = """/* Made from mednukals.h by tools/targets/layer.py. */
#include "mednukals.h"
typedef uint64_t wide __attribute__((aligned(8))); /* i686 would align it to 4 in a struct */
typedef int64_t wide_signed __attribute__((aligned(8)));
#ifdef __arm__ /* no call passes a fraction: the object links with programs that pass them in registers, and with others */
__asm__(".eabi_attribute 28, 3");
#endif
"""


def stop(what, where):
    sys.exit(f"mednukals: FAILED: the header is not understood: {what} in {where}")


def narrowed(result, number, source):
    """A number of 64 bits behind a call with this result, as a size_t."""
    if number not in FITS.get(result, {}):
        stop(f"no theorem says that {number} fits", result)
    return f"(size_t){source}"


def without_inline(text):
    """The header without its inline functions."""
    while (begin := text.find("static inline")) >= 0:
        at, depth = text.index("{", begin) + 1, 1
        while depth:
            depth += {"{": 1, "}": -1}.get(text[at], 0)
            at += 1
        text = text[:begin] + text[at:]
    return text


def bare(text):
    """The header without comments, directives, names for numbers and inline functions."""
    text = re.sub(r"/\*.*?\*/", " ", text, flags=re.S)
    text = re.sub(r"^\s*#.*$", "", text, flags=re.M)
    text = text.replace('extern "C" {', "")
    return re.sub(r"\benum\s*\{[^}]*\}\s*;", " ", without_inline(text))


def fields_of(name, body):
    """(type, name, array) of each field."""
    fields = []
    for line in filter(str.strip, body.split(";")):
        found = re.fullmatch(r"\s*((?:struct )?\w+) (\w+)(\[\w+\])?\s*", line)
        if not found:
            stop(line.strip(), f"struct {name}")
        fields.append((found[1], found[2], found[3] or ""))
    return fields


def parameters_of(name, text):
    """(type, whether it is a pointer, name, as it is declared) of each parameter; without const."""
    parameters, words = [], " ".join(text.split())
    for declared in [] if words == "void" else words.split(", "):
        found = re.fullmatch(r"(?:const )?((?:struct )?\w+) (\*?)(\w+)(\[\w+\])?", declared)
        if not found:
            stop(declared, name)
        parameters.append((found[1], bool(found[2] or found[4]), found[3], declared))
    return parameters


class Layer:
    def __init__(self, header):
        text = bare(header)
        a_struct, a_function = r"struct (\w+)\s*\{([^}]*)\}\s*;", r"((?:struct )?\w+) (dxl_\w+)\s*\(([^)]*)\)\s*;"
        self.structs = {name: fields_of(name, body) for name, body in re.findall(a_struct, text)}
        text = re.sub(a_struct, " ", text)
        self.functions = [(result, name, parameters_of(name, words)) for result, name, words in re.findall(a_function, text)]
        if left := re.sub(r"[\s}]", "", re.sub(a_function, "", text)):
            stop(left[:200], "what is left of it")

    def fields(self, kind):
        return self.structs.get(kind.removeprefix("struct ")) or stop(kind, "a function or a struct")

    def is_wide(self, kind):
        """Whether a type has another layout here: a number in it has 64 bits in the module, or is aligned to 8."""
        return kind in WIDE or kind.startswith("struct ") and any(self.is_wide(field) for field, _, _ in self.fields(kind))

    def raw(self, kind):
        """The type in the module."""
        if kind.startswith("struct "):
            return f"struct raw_{kind[7:]}" if self.is_wide(kind) else kind
        if kind not in NUMBERS and kind not in WIDE:
            stop(kind, "a function or a struct")
        return WIDE.get(kind, kind)

    def crossing(self, kind):
        """A struct that crosses the calls, behind those that it has in it."""
        inner = [each for field, _, _ in self.fields(kind) if field.startswith("struct ") for each in self.crossing(field)]
        return [*inner, kind]

    def records(self, functions):
        """The structs by the module's layout, and their test. Up to 16 bytes they would not be passed by a pointer."""
        used = {result for result, _, _ in functions if result.startswith("struct ")}
        used |= {kind for _, _, words in functions for kind, pointer, _, _ in words if kind.startswith("struct ") and not pointer}
        sizes = [f'_Static_assert(sizeof({self.raw(kind)}) > 16, "{kind} would be passed in registers");' for kind in sorted(used)]
        made, tests = [], []
        for kind in dict.fromkeys(each for one in sorted(used) for each in self.crossing(one) if self.is_wide(each)):
            raw, fields = self.raw(kind), self.fields(kind)
            made.append(f"{raw} {{ " + " ".join(f"{self.raw(field)} {name}{array};" for field, name, array in fields) + " };")
            tests.append(f'_Static_assert(sizeof({raw}) == sizeof({kind}), "{kind}");')
            tests += [f'_Static_assert(__builtin_offsetof({raw}, {name}) == __builtin_offsetof({kind}, {name}), "{kind}.{name}");'
                      for _, name, _ in fields]
        return [*made, *sizes, "#ifdef LAYER_CHECK", *tests, "#endif"]

    def carried(self, kind, source, goal, number, path=""):
        """Statements that carry a struct over, field by field; `number` says what a size_t becomes, by its name and its source."""
        lines = []
        for field, name, array in self.fields(kind):
            if field.startswith("struct ") and self.is_wide(field):
                lines += self.carried(field, f"{source}.{name}", f"{goal}.{name}", number, f"{path}{name}.")
            elif array:
                if field not in NUMBERS:
                    stop(f"an array of {field}", kind)
                lines.append(f"__builtin_memcpy({goal}.{name}, {source}.{name}, sizeof {goal}.{name});")
            else:
                value = f"{source}.{name}"
                lines.append(f"{goal}.{name} = {number(path + name, value) if field == 'size_t' else value};")
        return lines

    def passed(self, result, kind, pointer, name):
        """Of a parameter: statements before the call, what the call is given with the type of each, and statements behind it."""
        if pointer and kind.startswith("struct "):
            if [field for field, _, _ in self.fields(kind)] != READER:
                stop(f"a pointer to {kind}", "a function")
            held, count = (field for _, field, _ in self.fields(kind))
            return ([f"wide {name}_{count} = {name}->{count};"], [("uint8_t *", f"{name}->{held}"), ("wide *", f"&{name}_{count}")],
                    [f"{name}->{count} = {narrowed(result, LENT, f'{name}_{count}')};"])
        if pointer and kind == "size_t":
            return [f"wide {name}_wide = *{name};"], [("wide *", f"&{name}_wide")], [f"*{name} = {narrowed(result, LENT, f'{name}_wide')};"]
        if pointer:
            if kind not in NUMBERS:
                stop(f"a pointer to {kind}", "a function")
            return [], [(f"{kind} *", f"({kind} *){name}")], []
        if kind.startswith("struct ") and self.is_wide(kind):
            lines = self.carried(kind, name, f"{name}_raw", lambda _, source: f"(wide){source}")
            return [f"{self.raw(kind)} {name}_raw = {{0}};", *lines], [(f"{self.raw(kind)} *", f"&{name}_raw")], []
        return [], [(f"{kind} *", f"&{name}")] if kind.startswith("struct ") else [(self.raw(kind), name)], []

    def function(self, result, name, parameters):
        """The prototype of the module's function, and ours over it."""
        before, given, behind = [], [], []
        for kind, pointer, word, _ in parameters:
            first, words, last = self.passed(result, kind, pointer, word)
            before, given, behind = before + first, given + words, behind + last
        whole = any(pointer and kind.startswith("struct ") for kind, pointer, _, _ in parameters)
        raw = "raw_" + (name.replace("reader_", "") if whole else name)
        if result.startswith("struct "):
            given.insert(0, (f"{self.raw(result)} *", "&answer"))
        call = f"{raw}({', '.join(word for _, word in given)});"
        types = ", ".join(kind for kind, _ in given) or "void"
        if result.startswith("struct "):
            prototype = f"extern void *{raw}({types});"
            lines = [*before, f"{self.raw(result)} answer;", call, *behind, f"{result} own;"]
            lines += [*self.carried(result, "answer", "own", lambda number, source: narrowed(result, number, source)), "return own;"]
        else:
            prototype = f"extern {self.raw(result)} {raw}({types});"
            lines = [*before, f"{result} answer = {call}", *behind, "return answer;"]
        head = f"{result} {name}({', '.join(declared for *_, declared in parameters) or 'void'})"
        return prototype, head + "\n{\n" + "".join(f"    {line}\n" for line in lines) + "}"

    def text(self, exports):
        """The layer over a module that exports these functions."""
        functions = [each for each in self.functions if each[1] in exports or each[1].replace("reader_", "") in exports]
        made = [self.function(*each) for each in functions]
        prototypes = dict.fromkeys(prototype for prototype, _ in made)
        return "\n".join([FRONT, *self.records(functions), *prototypes, *(body for _, body in made), ""])
