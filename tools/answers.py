"""Proof.antt files of the older form as Invariants.antt and Answers.antt, once, while the project was brought to today's Rattle.

usage: python3 tools/answers.py NAMES CRATE ..    at the top of the repository

NAMES is the file names.json that `rt check --generated FOLDER --old-names` writes in the crate's folder. What is answered by the
plain search is left out: the check tries it itself. Places that the script cannot turn are marked TODO.
"""
import json
import os
import re
import sys

NAME = r"[^\s(){}\[\];,.:|\"«»]+"
PATH = re.compile(r"(?<![\w.'{])(" + NAME + r")((?:\." + NAME + r")+)?")


def norm(s):
    return s.replace("-", "_").lower()


LENT = {}


def labels_of(root):
    """Of each function the labels of its ensures and requires."""
    found = {}
    for c in os.listdir(os.path.join(root, "crates")):
        src = os.path.join(root, "crates", c, "src")
        if not os.path.isdir(src):
            continue
        for f in os.listdir(src):
            if not f.endswith(".rt"):
                continue
            text = open(os.path.join(src, f), encoding="utf-8").read()
            for m in re.finditer(r"fn (\w+)\b.*?\n\{|fn (\w+)\b[^{;]*\{", text, re.S):
                name = m.group(1) or m.group(2)
                head = m.group(0)
                found[c + "::" + name] = (re.findall(r"\n\s+ensures (\w+) \{", head), re.findall(r"\n\s+requires (\w+) \{", head))
                LENT[c + "::" + name] = re.findall(r"(\w+): &mut", head.split("->")[0].split("\n    ensures")[0])
    return found


def blocks(text):
    """Top-level pieces: a list of (comment lines, lines)."""
    out, comment, cur = [], [], []
    for line in text.split("\n"):
        if line and not line[0].isspace() and not line.startswith(")"):
            if line.startswith("--"):
                if cur:
                    out.append((comment, cur))
                    comment, cur = [], []
                comment.append(line)
                continue
            word = line.split()[0]
            cont = cur and (line.startswith("unfolding ") or (word == head_name(cur[0]) and ":" not in line.split("=")[0].replace("::", "")))
            if not cont and cur:
                out.append((comment, cur))
                comment, cur = [], []
            cur.append(line)
        else:
            cur.append(line)
    if cur:
        out.append((comment, cur))
    return out


def head_name(line):
    words = [w for w in line.split() if w not in ("abbrev", "pub", "unfoldable")]
    return words[0] if words else ""


class Function:
    def __init__(self, crate, name, entry, labels):
        self.crate, self.name, self.j, self.labels = crate, name, entry, labels
        self.places = entry["places"]
        self.byname = entry["places_by_name"]
        self.old_place = {norm(p[0]): i for i, p in enumerate(self.places)}
        self.needs = entry["needs"]
        self.used = set()
        self.todo = 0
        self.unknown = []
        self.raw = self.raw_now = False
        self.helpers = {}

    def place(self, old):
        return self.old_place.get(norm(old))

    def parent(self, i):
        p = self.places[i][1]
        return None if p is None else self.old_place[norm(p)]

    def canon(self, i):
        """Where a read stands at several places, the place before it: what helpers are over."""
        name = re.sub(r"-unread(-\d+)?$", "", self.places[i][0])
        if any(re.match(re.escape(name) + r"-unread(-\d+)?$", p[0]) for p in self.places) and self.parent(i) is not None:
            return self.canon(self.parent(i))
        return i

    def need(self, old):
        n = norm(old)
        cands = [n]
        for pre in ("overflow_", "slice_bounds_"):
            if n.startswith(pre):
                cands.append(n[len(pre):])
                cands.append("part_" + n[len(pre):])
        for k, (o, w) in enumerate(self.needs):
            if norm(o) in cands:
                return k
        return None

    def resolve(self, i, segs, home=None):
        """From the place i along the old fields: (place, None) where only places are passed, else (place, new fields)."""
        segs = list(segs)
        while segs and segs[0] == "before":
            p = self.parent(i)
            i = i if p is None else p
            segs.pop(0)
        if not segs:
            return (i, None)
        found = self.fields(i, segs)
        if found == segs and segs[0] not in ("args", "requires", "ranges") and home is not None:
            # the older kit had other places on the way
            found = self.fields(home, segs)
        return (i, found)

    def fields(self, i, segs):
        first, rest = segs[0], segs[1:]
        # what tools/respell.py took for a lemma of the project
        if first.endswith("_lem"):
            first = first[:-4]
        # an arm's fields
        k = None if self.raw_now else i
        while k is not None:
            arm = self.j["arms"][k] if k < len(self.j["arms"]) else None
            if arm:
                for new, old, path in arm[2]:
                    if norm(old) == norm(first) and rest[:len(path)] == path and path:
                        return [arm[0], new] + self.rest(None, rest[len(path):])
            k = self.parent(k)
        # what a type says
        if rest and rest[0] == "given":
            k = None if self.raw_now else i
            while k is not None:
                for new, old in self.j["typed"][k]:
                    if norm(old) == norm(first):
                        return ["type_inv", new] + rest[1:]
                k = self.parent(k)
        k = i
        while k is not None:
            fld = self.places[k][2]
            if fld[0] and norm(fld[0]) == norm(first):
                if rest and (fld[1].startswith("if-") or fld[1].endswith("-test")):
                    rest = [{"taken": "true", "left": "false"}.get(rest[0], rest[0])] + rest[1:]
                return [fld[1]] + self.rest(self.places[k][3], rest)
            k = self.parent(k)
        if first in ("args", "requires", "ranges", "lifetimes"):
            return [first] + (self.rest_own(first, rest))
        return [first] + rest

    def rest_own(self, first, rest):
        if first == "args" and rest and rest[0] == "own_val":
            return ["own"] + rest[1:]
        if first == "requires" and rest and rest[0].isdigit():
            labels = self.labels.get(self.crate + "::" + self.name, ([], []))[1]
            if int(rest[0]) < len(labels):
                return [labels[int(rest[0])]] + rest[1:]
        return rest

    def rest(self, callee, rest):
        out = []
        for s in rest:
            if s == "inv":
                s = "invariant"
            elif s == "type-inv":
                s = "type_inv"
            elif s == "came":
                s = "branch"
            out.append(s)
        if callee and len(out) > 1 and out[0] == "auto" and out[1].isdigit() and len(LENT.get(callee, [])) == 1:
            out[1] = LENT[callee][0]
        if callee and len(out) > 1 and out[0] == "new" and out[1].isdigit():
            lent = LENT.get(callee, [])
            k = 1
            while k < len(out) and out[k].isdigit():
                k += 1
            out[1:k] = [lent[0]] if len(lent) == 1 else ["TODO" + "_".join(out[1:k])]
        if callee and len(out) > 1 and out[0] in ("ensures", "requires") and out[1].isdigit():
            labels = self.labels.get(callee, ([], []))[0 if out[0] == "ensures" else 1]
            out = [out[0]] + self.by_label(labels, out[1:])
        return out

    def by_label(self, labels, segs):
        """.1.1.0 over right-nested pairs, as the older kit had them, or .k"""
        if len(labels) < 2:
            return segs
        k = 0
        segs = list(segs)
        while segs and segs[0] == "1" and k < len(labels) - 2 and len(labels) > 2:
            k += 1
            segs.pop(0)
        if segs and segs[0].isdigit():
            d = int(segs[0])
            if k + d < len(labels):
                return [labels[k + d]] + segs[1:]
        return segs


def split_tuple(s):
    """The parts of a text in parentheses at its top level, or None."""
    s = s.strip()
    if not s.startswith("(") or not s.endswith(")"):
        return None
    depth, parts, cur = 0, [], ""
    for k, ch in enumerate(s):
        if ch in "([{":
            depth += 1
            if depth == 1:
                continue
        elif ch in ")]}":
            depth -= 1
            if depth == 0:
                if k != len(s) - 1:
                    return None
                continue
        if ch == "," and depth == 1:
            parts.append(cur)
            cur = ""
        else:
            cur += ch
    if cur.strip():
        parts.append(cur)
    return [p.strip() for p in parts]


def tail_tuple(body):
    """(what stands before, the tuple) where a body ends in one."""
    b = body.rstrip()
    if not b.endswith(")"):
        return None
    depth = 0
    for k in range(len(b) - 1, -1, -1):
        if b[k] in ")]}":
            depth += 1
        elif b[k] in "([{":
            depth -= 1
            if depth == 0:
                head = b[:k].rstrip()
                if head.endswith("=") or head.endswith(" in") or head.endswith("\nin") or head == "":
                    return b[:k], b[k:]
                return None
    return None


def labelled(body, labels):
    t = tail_tuple(body)
    if not t:
        if "record {" in body or re.match(r"rw |simp |elim |λ", body.strip()):
            return body
        at = max(body.rfind(" in "), body.rfind(" in\n"))
        head, last = ("", body) if at < 0 else (body[:at + 3], body[at + 3:])
        if re.match(r"\s*(rw |simp |elim |λ|search|grind|omega)", last):
            return body
        fields, path = [], ""
        for k, l in enumerate(labels):
            fields.append("%s = both%s" % (l, path + (".0" if k + 1 < len(labels) else "")))
            path += ".1"
        return head + (" " if head else "") + "let both = " + last.strip() + " in record { " + "; ".join(fields) + " }"
    head, tup = t
    parts = split_tuple(tup)
    if not parts or len(parts) < 2:
        return body
    while len(parts) < len(labels):
        more = split_tuple(parts[-1])
        if not more or len(more) < 2:
            return body + "  -- TODO clauses " + " ".join(labels)
        parts = parts[:-1] + more
    if len(parts) > len(labels):
        parts = parts[:len(labels) - 1] + ["(" + ", ".join(parts[len(labels) - 1:]) + ")"]
    keep = [(l, p) for l, p in zip(labels, parts)]
    return head + "record {\n      " + ";\n      ".join("%s = %s" % (l, re.sub(r"\n\s*", "\n      ", p)) for l, p in keep) + ";\n    }"


def inlined(text):
    """Names that modules over a place give to a path from it, written out."""
    opening = re.compile(r"module _ \((" + NAME + r") : tie\.(?!Need)")
    lines = text.split("\n")
    module, param, defs, out, k = 0, None, [], [], 0
    while k < len(lines):
        line = lines[k]
        m = opening.match(line)
        if m:
            param = m.group(1)
            module += 1
        elif line and not line[0].isspace():
            param = None
        m = re.match(r"  abbrev (?:pub )?(" + NAME + r") : ", line)
        if param and m and k + 1 < len(lines):
            q = re.match(r"  " + re.escape(m.group(1)) + r" = (.*)$", lines[k + 1])
            if q:
                body = q.group(1)
                for name, par, b, mod in defs:
                    body = applied(body, name, par, b, mod == module)
                mm = re.match(r"^\(?(" + NAME + r"(?:\." + NAME + r")*)\)?$", body)
                if mm and mm.group(1).split(".")[0] == param:
                    defs.append((m.group(1), param, mm.group(1), module))
                    k += 2
                    if k < len(lines) and not lines[k].strip():
                        k += 1
                    continue
        out.append(line)
        k += 1
    module, param, final = 0, None, []
    for line in out:
        m = opening.match(line)
        if m:
            param = m.group(1)
            module += 1
        elif line and not line[0].isspace():
            param = None
        if not line.startswith("use ") and not line.lstrip().startswith("--"):
            for _ in range(6):
                was = line
                for name, par, b, mod in reversed(defs):
                    line = applied(line, name, par, b, param and mod == module)
                if line == was:
                    break
        final.append(line)
    # modules that are empty now
    return re.sub(r"(?m)^module _ \([^\n]*where\n(?=(\s*\n)*(\S|\Z))", "", "\n".join(final))


def applied(text, name, par, body, inside):
    """The name at an argument, or by itself within its module, as the path."""
    n = r"(?<![\w.'-])" + re.escape(name) + r"(?![\w'-])"
    path = r"(" + NAME + r"(?:\." + NAME + r")*)"
    put = lambda m: re.sub(r"^" + re.escape(par) + r"(?=\.|$)", lambda q: m.group(1), body)
    if inside:
        text = re.sub(n + r"(?! [:=])", lambda m: body, text)
    else:
        text = re.sub(n + r" \(" + path + r"\)", put, text)
        text = re.sub(n + r" ((?:[a-z]\w?'?)(?:\." + NAME + r")*)(?![\w.'-])(?! =)", put, text)
    text = re.sub(r"\((" + NAME + r"(?:\." + NAME + r")+)\)(?=\.)", r"\1", text)
    return re.sub(r"\((" + NAME + r"(?:\.before)+(?:\." + NAME + r")*)\)", r"\1", text)


class Body:
    """A text in which some names are places."""

    def __init__(self, fn, env, goal):
        self.fn, self.env, self.goal = fn, dict(env), goal
        self.ens, self.steps = {}, {}

    def expr(self, root, at, fields):
        return root + "." + ".".join(fields)

    def placed(self, root, i):
        i = self.fn.canon(i)
        if self.fn.raw:
            base, home = self.env[root][0], self.env[root][3]
            n, k = 0, home
            while k is not None and k != i:
                k = self.fn.parent(k)
                n += 1
            if self.goal and base == "c":
                n += 1
            return base + ".before" * n
        base = self.env[root][0]
        home = self.env[root][3]
        if i == home:
            return base
        new = self.fn.byname[i]
        self.fn.used.add(new)
        if self.goal and base == "c":
            return "(goal.at.%s c).%s" % (self.goal, new)
        for k, (o, w) in enumerate(self.fn.j["asked_at"]):
            if w == self.fn.byname[home] and k < len(self.fn.needs) and not self.fn.needs[k][1].endswith("-requires"):
                return "(goal.at.%s %s).%s" % (self.fn.needs[k][1], base, new)
        self.fn.todo += 1
        return "(TODO %s %s)" % (base, new)

    def turn(self, text):
        # a let of a place
        def let(m):
            name, root, segs = m.group(1), m.group(2), m.group(3)
            segs = segs.split(".")[1:] if segs else []
            if root in self.env:
                r = self.fn.resolve(self.env[root][1], segs, self.env[root][3])
                if r and r[1] is None:
                    base, _, _, home = self.env[root]
                    self.env[name] = (base, r[0], True, home)
                    return ""
                if r and r[1] and r[1][-1] in ("ensures",) and self.callee(r, segs):
                    self.ens[name] = self.callee(r, segs)
                if r and r[1] and len(r[1]) == 1 and self.callee(r, segs):
                    self.steps[name] = self.callee(r, segs)
            return m.group(0)
        out, pos = "", 0
        pat = re.compile(r"let (" + NAME + r") = (" + NAME + r")((?:\." + NAME + r")*) in\s*")
        while True:
            m = pat.search(text, pos)
            if not m:
                out += self.paths(text[pos:])
                break
            out += self.paths(text[pos:m.start()])
            r = let(m)
            out += self.paths(r) if r else ""
            pos = m.end()
        return out

    def callee(self, r, segs):
        i, fields = r
        k = i
        while k is not None:
            if self.fn.places[k][2][1] == fields[0] and self.fn.places[k][3]:
                return self.fn.labels.get(self.fn.places[k][3], ([], []))[0]
            k = self.fn.parent(k)
        return None

    def paths(self, text):
        def sub(m):
            root, segs = m.group(1), m.group(2)
            before = re.search(r"(" + NAME + r")\s+\(?$", text[:m.start()])
            helper = self.fn.helpers.get(before.group(1)) if before else None
            if root in self.ens and segs:
                return root + "." + ".".join(self.fn.by_label(self.ens[root], segs.split(".")[1:]))
            if root in self.steps and segs and segs.startswith(".ensures."):
                return root + ".ensures." + ".".join(self.fn.by_label(self.steps[root], segs.split(".")[2:]))
            if root not in self.env:
                return m.group(0)
            segs = segs.split(".")[1:] if segs else []
            r = self.fn.resolve(self.env[root][1], segs, self.env[root][3])
            if r is None:
                self.fn.todo += 1
                return "(TODO %s)" % m.group(0)
            if r[1] is None:
                k, home = self.env[root][3], self.env[root][3]
                while helper is not None and k is not None and k != helper:
                    k = self.fn.parent(k)
                return self.placed(root, helper if helper is not None and k == helper else r[0])
            return self.env[root][0] + "." + ".".join(r[1])
        return PATH.sub(sub, text)


def convert(fn, text):
    inv, ans, uses = [], [], []
    fnl = fn.labels.get(fn.crate + "::" + fn.name, ([], []))[0]
    inv_names = set()
    loops = {norm(l[0][0]): (l, ch) for l, ch in zip(fn.j["loops"], fn.j["changed"])}
    locals_used = {}
    # what helpers are over
    for comment, lines in blocks(text):
        t = "\n".join(lines)
        m = re.match(r"module _ \((" + NAME + r") : tie\.(\S+?)((?: [^()\s]+)*)\)", t)
        if m and fn.place(m.group(2)) is not None:
            for q in re.finditer(r"(?m)^  (?:abbrev )?(" + NAME + r") :", t):
                fn.helpers[q.group(1)] = fn.canon(fn.place(m.group(2)))
        m = re.match(r"(?:abbrev )?(" + NAME + r") : \((" + NAME + r") : tie\.(\S+?)((?: [^()\s]+)*)\)", t)
        if m and fn.place(m.group(3)) is not None:
            fn.helpers[m.group(1)] = fn.canon(fn.place(m.group(3)))
    for comment, lines in blocks(text):
        first = lines[0]
        if first.startswith("use "):
            uses += [l for l in lines if l.strip() and not re.search(r"\.(Statement\.\{statement\}|Tie as tie)$", l)]
            continue
        name = head_name(first)
        m = re.match(r"(?:abbrev )?(?:pub )?(" + NAME + r") : tie\.(invariant|decreases)-(\S+)\s*$", first)
        if m:
            kind, loop = m.group(2), m.group(3)
            entry = loops.get(norm(loop))
            rest = "\n".join(lines[1:])
            mm = re.match(r"\S+ (.*?) =\s?(.*)$", rest, re.S)
            if entry is None or not mm:
                fn.unknown.append("loop " + loop)
                continue
            (old, new), names = entry[0][0], entry[0][1]
            changed = entry[1]
            params = mm.group(1).split()
            body = mm.group(2)
            cur = [n for n, c in zip(names, changed) if c]
            want = len(names) + len(cur)
            table = {}
            if len(params) == want:
                for p, n, c in zip(params, names, changed):
                    table[p] = "l.initial." + n if c else "l." + n
                for p, n in zip(params[len(names):], cur):
                    table[p] = "l." + n
            else:
                fn.unknown.append("loop %s: %d parameters for %d" % (loop, len(params), want))
                body += "  -- TODO parameters " + " ".join(params) + " names " + " ".join(names)
            body = PATH.sub(lambda q: table.get(q.group(1), q.group(1)) + (q.group(2) or ""), body)
            nm = kind + "-" + new
            inv_names.add((m.group(1), nm))
            inv.append("\n".join(comment + ["abbrev pub %s : goal.%s" % (nm, nm)] + [l for l in lines[1:1]] + ["%s l = %s" % (nm, body.rstrip())]))
            continue
        m = re.match(r"(?:pub )?(" + NAME + r") : tie\.Need-(\S+)(.*)$", first)
        if m:
            k = fn.need(m.group(2))
            sig_rest = [l for l in lines[1:]]
            unf = [l for l in sig_rest if l.startswith("unfolding ")]
            eqs = [l for l in sig_rest if not l.startswith("unfolding ")]
            body = "\n".join(eqs)
            mm = re.match(r"\S+((?: \S+)*?) =\s?(.*)$", body, re.S)
            if not mm:
                fn.unknown.append("need " + m.group(2))
                continue
            args, b = mm.group(1).split(), mm.group(2).strip()
            if b in ("search rules", "omega arith", "tt", "search (rules, paste-other)") and not unf:
                continue
            if k is None:
                fn.unknown.append("need %s = %s" % (m.group(2), b[:60].replace("\n", " ")))
                continue
            new = fn.needs[k][1]
            at = fn.old_place.get(norm(fn.j["asked_at"][k][0]))
            env = {args[0]: ("c", at, False, at)} if args and at is not None else {}
            fn.raw_now = False
            body = Body(fn, env, new).turn(re.sub(r"not-(?:true|false) (?:_|[\w.]+) (" + NAME + r"\.[\w.'-]+)", r"\1", b))
            if "⊎_elim" in body and ".branch" in body:
                fn.todo += 1
            asked = fn.j["asked"].get(new) or fn.j["asked"].get(fn.needs[k][0])
            if asked and len(asked) > 1:
                body = labelled(body, asked)
            elif new.startswith("returns") and len(fnl) > 1:
                body = labelled(body, fnl)
            ans.append("\n".join(comment + ["pub %s : goal.%s" % (new, new)] + unf + ["%s c =" % new + ("\n    " if "\n" in body else " ") + body.rstrip()]))
            continue
        if re.search(r"statement M", first) or name.endswith("_spec") and "tie.close" in "\n".join(lines):
            continue
        # a helper, or a module of helpers
        text_ = "\n".join(lines)
        if "tie." not in text_:
            locals_used[name] = "\n".join(comment + lines).rstrip()
            ans.append("\n".join(comment + lines).rstrip())
            continue
        env = {}
        for q in re.finditer(r"\((" + NAME + r") : tie\.(\S+?)((?: [^()\s]+)*)\)", text_):
            i = fn.place(q.group(2))
            if i is not None:
                env[q.group(1)] = (q.group(1), i, False, fn.canon(i))
        for q in re.finditer(r"abbrev (" + NAME + r") : tie\.(\S+)", text_):
            i = fn.place(q.group(2))
        def place_type(q):
            i = fn.place(q.group(2))
            if i is None:
                fn.unknown.append("place " + q.group(2))
                return q.group(0)
            i = fn.canon(i)
            if fn.raw:
                args = "".join(" goal.the-invariant-%s" % l[0][1] for l in fn.j["loops"]) + "".join(" goal.the-decreases-%s" % l[0][1] for l in fn.j["loops"])
                return "(%s : tie.%s%s)" % (q.group(1), fn.byname[i], args)
            fn.used.add(fn.byname[i])
            return "(%s : %s)" % (q.group(1), fn.byname[i])
        fn.raw_now = fn.raw
        text_ = re.sub(r"not-(?:true|false) (?:_|[\w.]+) (" + NAME + r"\.[\w.'-]+)", r"\1", text_)
        b = Body(fn, env, None)
        t = re.sub(r"\((" + NAME + r") : tie\.(\S+?)((?: [^()\s]+)*)\)", place_type, text_)
        # the signature and each equation: paths from the place
        t = "\n".join(l for l in t.split("\n"))
        t = b.turn(t)
        ans.append("\n".join(comment) + ("\n" if comment else "") + t.rstrip())
    ans = [re.sub(r"\.inv(?=[.\s)])", ".invariant", a) for a in ans]
    return inv, ans, uses, locals_used


def main(argv):
    names = json.load(open(argv[0]))
    root = "."
    labels = labels_of(root)
    for crate in argv[1:]:
        done = 0
        for folder, dirs, files in os.walk(os.path.join(root, "crates", crate, "proofs")):
            if "Proof.antt" not in files:
                continue
            rel = os.path.relpath(folder, os.path.join(root, "crates", crate, "proofs")).replace("/", ".")
            entry = names.get("Rattle-%s-proofs.%s.Lts" % (crate, rel))
            p = os.path.join(folder, "Proof.antt")
            text = open(p, encoding="utf-8").read()
            if entry is None or "tie.close" not in text:
                print("%s: %s: no names; left as it is" % (crate, rel))
                continue
            text = inlined(text)
            for raw in (False,):
                fn = Function(crate, rel.split(".")[-1].lstrip("+"), entry, labels)
                fn.raw = raw
                inv, ans, uses, loc = convert(fn, text)
                if not any("TODO" in a for a in ans):
                    break
            if fn.raw:
                print("%s: %s: raw places" % (crate, rel))
            mod = "Rattle.%s.proofs.%s" % (crate, rel)
            if inv:
                need = [t for n, t in loc.items() if any(re.search(r"(?<![\w'-])" + re.escape(n) + r"(?![\w'-])", i) for i in inv)]
                for t in need:
                    if t in ans:
                        ans.remove(t)
                moved = [re.sub(r"^((?:--.*\n)*)(abbrev )?(?!pub)", lambda q: q.group(1) + (q.group(2) or "") + "pub ", t, 1) for t in need]
                with open(os.path.join(folder, "Invariants.antt"), "w", encoding="utf-8") as f:
                    f.write("\n".join(uses + ["use %s.Given as goal" % mod]) + "\n\n" + "\n\n".join(moved + inv) + "\n")
            if any(re.match(r"(--.*\n)*pub \S+ : goal", a) for a in ans):
                places = sorted(u for u in fn.used if re.search(r"(?<![\w.-])" + re.escape(u) + r"(?![\w-])", re.sub(r"\.[\w-]+", "", "\n".join(ans))))
                lines = uses + (["use %s.Tie as tie" % mod] if fn.raw else []) + ["use %s.Goals as goal" % mod] + (["use %s.Goals.{%s}" % (mod, ", ".join(places))] if places else [])
                if inv and loc:
                    moved_names = [n for n, t in loc.items() if t in need]
                    if moved_names:
                        lines.append("use %s.Invariants.{%s}" % (mod, ", ".join(moved_names)))
                with open(os.path.join(folder, "Answers.antt"), "w", encoding="utf-8") as f:
                    f.write("\n".join(lines) + "\n\n" + "\n\n".join(ans) + "\n")
            os.remove(p)
            done += 1
            if fn.unknown or fn.todo:
                print("%s: %s: todo %d; %s" % (crate, rel, fn.todo, "; ".join(fn.unknown)))
        print("%s: %d functions turned" % (crate, done))
    return 0


if __name__ == "__main__":
    raise SystemExit(main(sys.argv[1:]))
