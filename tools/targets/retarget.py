"""Rattle's module and the layer as one module for the layer's target

Of Rattle's module these go: datalayout, triple, processor and stack probes of x86-64. Each export dxl_X becomes the internal
raw_dxl_X, and what it gets by value it gets by a pointer, to the private copy that the layer makes. Where a pair of numbers is loaded
as a whole, each is loaded by itself, from where x86-64 has it: other processors may have the second one elsewhere. Of the layer these go: its
declarations of raw_dxl_X, once they have been compared with the module's functions, and what its calls say of how small numbers are
extended. Nothing else is changed.
"""
import re
import sys

# Where a pointer is a number, or the text is for one processor, the module might mean another thing with pointers of 32 bits. Data of
# its own, which it does not have either, would have to be looked at.
BOUND = ["ptrtoaddr", "ptrtoint", "inttoptr", "asm", "addrspace", "thread_local", "fp128", "x86_fp80"]
# A pair is a function's answer or is taken apart, and is read from memory in this one way.
PAIR = r"\{ (\w+), (\w+) \}"
LOADED = rf"^  (%[\w.]+) = load {PAIR}, ptr (%[\w.]+), align (\d+)$"
HANDED_ON = rf"^define internal (?:noundef )?{PAIR} @|= call (?:noundef )?{PAIR} @|= (?:extract|insert)value {PAIR} |^  ret {PAIR} "
SIZES = {"i8": 1, "i16": 2, "i32": 4, "i64": 8, "ptr": 8}
EXPORT = r"^define (?:noundef )?(\w+) @(dxl_\w+)\((.*)\) #\d+ \{$"


def stop(what):
    sys.exit(f"mednukals: FAILED: {what}: the module is not known to mean the same for another processor")


def types(parameters):
    """The types alone."""
    parameters = re.sub(r"\([^()]*\)", "", parameters)
    return [words.split()[0] for words in parameters.split(",") if words.strip()]


def exports(module):
    """The module's exports: name -> the type of the result and of each parameter."""
    return {name: (result, types(words)) for result, name, words in re.findall(EXPORT, module, flags=re.M)}


def alike(module, layer):
    """What the layer declares is what the module has."""
    there = exports(module)
    for line in re.findall(r"^declare .*@raw_dxl_.*$", layer, flags=re.M):
        words, name, parameters = re.fullmatch(r"declare (.*)@raw_(\w+)\((.*)\).*", line).groups()
        if there.get(name) != (words.split()[-1], types(parameters)):
            stop(f"{name} is {there.get(name)} in the module and {line} in the layer")


def apart(found):
    """The loads of both numbers of a pair."""
    name, first, second, place, align = found.groups()
    if not {first, second} <= SIZES.keys():
        stop(found[0].strip())
    offset = max(SIZES[first], SIZES[second])  # each is aligned to its size
    pair, second_align = f"{{ {first}, {second} }}", min(int(align), SIZES[second])
    return "\n".join(f"  {line}" for line in (
        f"{name}.first = load {first}, ptr {place}, align {align}",
        f"{name}.at = getelementptr i8, ptr {place}, i64 {offset}",
        f"{name}.second = load {second}, ptr {name}.at, align {second_align}",
        f"{name}.half = insertvalue {pair} poison, {first} {name}.first, 0",
        f"{name} = insertvalue {pair} {name}.half, {second} {name}.second, 1"))


def of_module(module):
    """Rattle's module without its target, its exports internal."""
    code = re.sub(r'"[^"\n]*"|;[^\n]*', "", module)  # without names and comments
    if found := re.search(rf"\b(?:{'|'.join(BOUND)})\b|^@.*", code, flags=re.M):
        stop(found[0])
    module = re.sub(r"^(?:target|source_filename) .*\n", "", module, flags=re.M)
    module = re.sub(r' "(?:target-cpu|probe-stack|stack-probe-size)"="[^"]*"', "", module)
    module = re.sub(r"^define (?=[^\n\"]*@dxl_)", "define internal ", module, flags=re.M)
    module = re.sub(r" byval\(\[\d+ x i8\]\) align \d+", "", module.replace("@dxl_", "@raw_dxl_"))
    for left in ("byval", "sret", "x86", "target-features"):
        if left in module:
            stop(left)
    module = re.sub(LOADED, apart, module, flags=re.M)
    for line in module.splitlines():
        if "{ " in re.sub(HANDED_ON, "", re.sub(r'"[^"]*"|;.*| \{$|^attributes .*|^!.*', "", line)):
            stop(line.strip())
    return module


def of_layer(layer, module):
    """The layer without what the module has: declarations, and the numbers of attributes and metadata."""
    layer = re.sub(r"^declare [^\n]*@raw_dxl_[^\n]*\n", "", layer, flags=re.M)
    layer = re.sub(r"^.*call [^\n]*@raw_dxl_[^\n]*$", lambda call: re.sub(r" (?:zeroext|signext)", "", call[0]), layer, flags=re.M)
    layer = re.sub(r"(?<![\w.])#(\d+)", r"#9\1", layer)
    layer = re.sub(r"!(\d+)\b", r"!9\1", layer)
    shared = set(re.findall(r"^declare [^\n]*@(llvm\.[\w.]+)", module, flags=re.M))
    layer = re.sub(r"^declare [^\n]*@(llvm\.[\w.]+)[^\n]*\n", lambda line: "" if line[1] in shared else line[0], layer, flags=re.M)
    return re.sub(r"^!llvm\.ident = .*\n", "", layer, flags=re.M)


def joined(module, layer):
    alike(module, layer)
    return of_layer(layer, module) + "\n" + of_module(module)
