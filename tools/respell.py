"""The definitions and lemmas of the project in the spelling of today's Rattle: words in snake case, types and modules in camel case.

usage: python3 tools/respell.py [--dry]    at the top of the repository, once, after the kit's port.py

Renames what specs/ and proofs/ declare wherever it is named: in the proofs, in the contracts, in the must-fail edits and, in quotes of
code, in the pages. Names of src/ keep their spelling. It says where two names fall together.
"""
import os
import re
import sys

DECLARED = re.compile(r"^(\s*)((?:abbrev |unfoldable |pub )*)(record |data |ruleset )?([^\s:(){}«»]+)\s*(?:[({].*[)}]\s*)?:\s*(.*)$")
CONSTRUCTOR = re.compile(r"^\s+(?:pub )?([^\s:(){}«»]+)\s*:")
TOKEN = re.compile(r"[^\s(){}\[\];,.:|\"`«»]+")
NAME = re.compile(r"^[A-Za-z][A-Za-z0-9_'₀-₉-]*$")
KEPT = {"_", "f", "n"}
# Where a name of src/, of the library or another of the project's has the spelling already.
OTHER = {}
# Names of definitions: a lemma or a field that would get one of these has _lem behind it.
WORDS = set()


def snake(word):
    """One part of a name: a word that begins with a capital is a type's, and keeps it."""
    if not word or not word[0].islower():
        return word
    word = word.replace("getD", "get_or")
    if re.search("[a-z0-9][A-Z]", word):
        word = re.sub(r"(?<=[a-z])(?=[0-9])", "_", word)
    word = re.sub(r"(?<=[a-z0-9])(?=[A-Z])", "_", word)
    return word.lower()


def respelled(name):
    if name in OTHER:
        return OTHER[name]
    new = "_".join(snake(w) for w in name.split("-"))
    return new + "_lem" if "-" in name and new in WORDS else new


def antt(root):
    for folder, dirs, files in os.walk(os.path.join(root, "crates")):
        dirs[:] = sorted(d for d in dirs if d != "out")
        for f in sorted(files):
            if f.endswith(".antt"):
                yield os.path.join(folder, f)


def is_proof(path):
    """A file beside a function: what Rattle names there keeps its name."""
    return os.path.basename(os.path.dirname(path)) not in ("specs", "proofs")


def declarations(path):
    with open(path, encoding="utf-8") as f:
        for line in f:
            m = DECLARED.match(line)
            if m and NAME.match(m.group(4)):
                yield m.group(4)


def declared(path):
    names = set()
    with open(path, encoding="utf-8") as f:
        for line in f:
            m = DECLARED.match(line)
            if m and NAME.match(m.group(4)) and not (is_proof(path) and m.group(5).startswith("tie.")):
                names.add(m.group(4))
    return {n for n in names if respelled(n) != n}


def code(line, mark):
    """The part of a line before its comment, and the comment."""
    at = line.find(mark)
    while at > 0 and line[at - 1] not in " \t":
        at = line.find(mark, at + 1)
    return (line, "") if at < 0 else (line[:at], line[at:])


def turned(text, names):
    return TOKEN.sub(lambda m: names.get(m.group(0), m.group(0)), text)


def joined(text):
    """An alias with a middle dot, as Call·feed, is one name: call_feed."""
    both = lambda m: "_".join(re.sub(r"(?<=[a-z])(?=[A-Z])", "_", w).lower() for w in (m.group(1), snake(m.group(2))))
    return re.sub(r"(?<![#\w·])([A-Z]\w+)·([\w-]+)", lambda m: m.group(0) if m.group(1) == "Rattle" else both(m).replace("-", "_"), text)


def imported(path):
    """Names of the library that a file takes."""
    found = set()
    with open(path, encoding="utf-8") as f:
        for line in f:
            m = re.match(r"(?:ghost )?use ([^{]*)\.\{(.*)\}", line)
            if m:
                found |= {re.split(r"\s+as\s+", n.strip())[-1] for n in m.group(2).split(",")}
    return found


def together(path, text, names):
    """Names that were two before and are one now."""
    old = set(TOKEN.findall(re.sub(r"Rattle[.\w]*|\bfn \w+|\b[\w:]+\(", "", text)))
    return [(n, names[n]) for n in sorted(old) if n in names and names[n] in old and names[n] not in names]


def main(argv):
    root = "."
    everywhere, here = {}, {}
    listed = [(p, m) for p in antt(root) if not is_proof(p) for m in declarations(p)]
    camels = {respelled(n) for p, n in listed if "-" not in n and respelled(n) != n}
    specs = {n for p, n in listed if "/specs/" in p and "-" not in n and respelled(n) == n}
    WORDS.update(camels | specs)
    everywhere.update({n: n + "_lem" for p, n in listed if "-" not in n and n in camels})
    for p in antt(root):
        found = declared(p)
        here[p] = found
        if not is_proof(p):
            everywhere.update({n: respelled(n) for n in found})
    changed, clashes = 0, []
    spelled = {n for n in everywhere if "-" in n or re.search("[a-z0-9][A-Z]", n)}
    if "--names" in argv:
        print("\n".join("%s %s" % c for c in sorted(everywhere.items())))
    camel = {n: v for n, v in everywhere.items() if re.search("[a-z][A-Z]", n)}
    for p in list(antt(root)):
        names = everywhere | {n: respelled(n) for n in here[p]}
        with open(p, encoding="utf-8") as f:
            text = f.read()
        clashes += [(p, *c) for c in together(p, "\n".join(code(l, "--")[0] for l in text.split("\n")), names)]
        lines = []
        for line in text.split("\n"):
            c, comment = code(line, "--")
            lines.append(joined(turned(c, names)) + turned(comment, camel))
        new = "\n".join(lines)
        if new != text:
            changed += 1
            if "--dry" not in argv:
                with open(p, "w", encoding="utf-8") as f:
                    f.write(new)
    others = []
    for folder, dirs, files in os.walk("."):
        dirs[:] = sorted(d for d in dirs if d not in ("out", ".git", "build", "target"))
        for f in sorted(files):
            if f.endswith((".rt", ".edit", ".md", ".py")) and f != "respell.py":
                others.append(os.path.join(folder, f))
    for p in others:
        with open(p, encoding="utf-8") as f:
            text = f.read()
        if p.endswith((".rt", ".edit")):
            of_src = p.endswith(".rt") or "\nfile: src" in "\n" + text
            if p.endswith(".rt"):
                clashes += [(p, *c) for c in together(p, text, everywhere)]
            lines = []
            for line in text.split("\n"):
                c, comment = code(line, "//" if of_src else "--")
                if p.endswith(".edit") and not line.startswith(("old:", "new:")):
                    lines.append(turned(line, camel))
                else:
                    lines.append(joined(turned(c, {n: v for n, v in everywhere.items() if n in spelled})) + turned(comment, camel))
            new = "\n".join(lines)
        else:
            # in the pages and the tools, what has a capital inside; a name with dashes only in quotes of code
            new = turned(text, camel)
            new = re.sub(r"`([^`\n]*)`", lambda m: "`" + turned(m.group(1), everywhere) + "`", new) if p.endswith(".md") else new
        if new != text:
            changed += 1
            if "--dry" not in argv:
                with open(p, "w", encoding="utf-8") as f:
                    f.write(new)
    for c in clashes:
        print("together: %s: %s, %s" % c)
    print("%d files, %d names" % (changed, len(everywhere)))
    return 0


if __name__ == "__main__":
    raise SystemExit(main(sys.argv[1:]))
