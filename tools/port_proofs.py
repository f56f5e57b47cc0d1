#!/usr/bin/env python3
"""Turns proofs/F/Proof.antt of the older form to Invariants.antt and Answers.antt.

usage: python3 tools/port_proofs.py NAMES CRATE [FUNCTION ..]     at the top of the repository

NAMES/CRATE/names.json is what the toolchain writes under '--generated NAMES/CRATE --old-names'. A file that it cannot turn stays, with a
line that says why. What it writes is a start: the check decides.
"""

import json
import os
import re
import sys

IDENT = r"[^\W\d][\w'-]*[₀-₉]?"


def norm(name):
    return name.replace("_", "-")


class Refused(Exception):
    pass


class Function:
    def __init__(self, of):
        self.needs = of["needs"]
        self.loops = of["loops"]
        self.changed = of["changed"]
        self.asked = of["asked_at"]
        self.places = {}
        for i, (name, parent, step, callee, _) in enumerate(of["places"]):
            self.places[norm(name)] = (norm(parent) if parent else None, step[0], step[1], callee, of["arms"][i], of["typed"][i])

    def up(self, place):
        return self.places[place][0]

    def resolve(self, place, fields, warn):
        """The fields of c in the new form, or the place alone where the fields only go up."""
        i = 0
        while i < len(fields) and fields[i] == "before":
            if self.up(place) is None:
                warn("above the start")
            place = self.up(place) or place
            i += 1
        if i == len(fields):
            return place, None
        rest = fields[i + 1 :]
        field = fields[i]
        if field in ("args", "requires", "ranges"):
            return place, [field, *rest]
        at = place
        while at is not None:
            _, old, new, callee, arms, typed = self.places[at]
            if norm(old) == norm(field) and old:
                if arms:
                    for made, ostep, opath in arms[2]:
                        if norm(ostep) == norm(field) and rest[: len(opath)] == opath and opath:
                            return place, [arms[0], made, *rest[len(opath) :]]
                if rest[:1] == ["given"]:
                    for var, ostep in typed:
                        if norm(ostep) == norm(field):
                            return place, ["type_inv", var, *rest[1:]]
                if arms and field.startswith("match"):
                    return place, [arms[0], *rest]
                if callee and len(rest) > 1 and rest[0] in ("new", "auto") and rest[1].isdigit():
                    lent = LENT.get((callee.split("::")[0], callee.split("::")[-1]), [])
                    if int(rest[1]) < len(lent):
                        return place, [new, rest[0], lent[int(rest[1])], *rest[2:]]
                if callee and len(rest) > 1 and rest[0] == "ensures" and rest[1].isdigit():
                    labels = LABELS.get((callee.split("::")[0], callee.split("::")[-1]))
                    if labels:
                        n, skip = int(rest[1]), 2
                        while n == 1 and len(labels) > 2 and len(rest) > skip and rest[skip] in ("0", "1"):
                            n, skip = (n, skip + 1) if rest[skip] == "0" else (n + 1, skip + 1)
                            if rest[skip - 1] == "0":
                                break
                        return place, [new, "ensures", labels[min(n, len(labels) - 1)], *rest[skip:]]
                return place, [new, *rest]
            at = self.up(at)
        if field == "well-formed":
            return place, ["well_formed", *rest]
        warn(f"no step {field}")
        return place, [field, *rest]


def turn_paths(fn, text, binder, place, warn):
    """The text of an answer whose argument is binder and whose goal is asked at place."""
    aliases = {binder: place}
    path = re.compile(r"(?<![\w.'-])(" + IDENT + r")((?:\.[\w'«»-]+)+)")

    def paths(segment):
        def one(m):
            name, fields = m.group(1), m.group(2)[1:].split(".")
            if name not in aliases:
                return m.group(0)
            _, new = fn.resolve(aliases[name], fields, warn)
            return "c" if new is None else "c." + ".".join(new)

        return path.sub(one, segment)

    out = []
    at = 0
    # A let that only goes up names a place; it goes, and its name stands for c at that place.
    lets = re.compile(r"let (" + IDENT + r") = (" + IDENT + r")((?:\.before)+) in\n?[ \t]*")
    for m in lets.finditer(text):
        if m.group(2) not in aliases:
            continue
        out.append(paths(text[at : m.start()]))
        where, new = fn.resolve(aliases[m.group(2)], m.group(3)[1:].split("."), warn)
        aliases[m.group(1)] = where
        at = m.end()
    out.append(paths(text[at:]))
    text = "".join(out)
    for name in aliases:
        if name != "c" and name != binder:
            text = re.sub(r"(?<![\w.'-])" + re.escape(name) + r"(?![\w'-])", "c", text) if re.search(r"(?<![\w.'-])" + re.escape(name) + r"(?![\w.'-])", text) else text
    return text


def blocks(text):
    """The declarations of a file: comments and use lines apart."""
    head, uses, decls, current = [], [], [], []
    for line in text.split("\n"):
        if line.startswith("use "):
            uses.append(line)
        elif not decls and not current and (line.startswith("--") or not line.strip()):
            if line.strip():
                head.append(line)
        elif not line.strip():
            if current:
                decls.append("\n".join(current))
                current = []
        else:
            current.append(line)
    if current:
        decls.append("\n".join(current))
    return head, uses, decls


def arguments(text):
    """The arguments of tie.spec .., at depth 0."""
    found, depth, start = [], 0, None
    for i, ch in enumerate(text):
        if ch in "([{":
            if depth == 0 and start is None:
                start = i
            depth += 1
        elif ch in ")]}":
            depth -= 1
        elif ch.isspace() and depth == 0:
            if start is not None:
                found.append(text[start:i])
                start = None
            continue
        if start is None and not ch.isspace():
            start = i
    if start is not None:
        found.append(text[start:])
    return found


def cover(text):
    """The text without one pair of parentheses around it all."""
    text = text.strip()
    if text.startswith("("):
        depth = 0
        for i, ch in enumerate(text):
            depth += ch == "("
            depth -= ch == ")"
            if depth == 0:
                return text[1:-1].strip() if i == len(text) - 1 else text
    return text


LABELS = {}
LENT = {}


def read_labels():
    """The names of the ensures clauses of each function that has several."""
    for crate in sorted(os.listdir("crates")):
        for folder, _, files in os.walk(f"crates/{crate}/src"):
            for name in files:
                with open(os.path.join(folder, name), encoding="utf-8") as f:
                    text = f.read()
                for m in re.finditer(r"\bfn (\w+)(.*?)\n *\{\n", text, re.S):
                    LENT[(crate, m.group(1))] = re.findall(r"\b(\w+): &(?:'\w+ )?mut\b", m.group(2)) + re.findall(r"&mut (self)\b", m.group(2))
                    found = re.findall(r"^ *ensures (\w+) \{", m.group(2), re.M)
                    if len(found) > 1:
                        LABELS[(crate, m.group(1))] = found


def parts(text, count):
    """A tuple's parts, right-nested or flat."""
    inner = cover(text)
    if inner == text.strip():
        return None
    found, depth, start = [], 0, 0
    for i, ch in enumerate(inner):
        depth += ch in "([{"
        depth -= ch in ")]}"
        if ch == "," and depth == 0:
            found.append(inner[start:i])
            start = i + 1
    if inner[start:].strip():
        found.append(inner[start:])
    if len(found) == count:
        return [it.strip() for it in found]
    if len(found) == 2 and count > 2:
        more = parts(found[1], count - 1)
        return more and [found[0].strip(), *more]
    return None


def fielded(goal, body, labels):
    """An answer whose last term is a tuple, where the goal wants a record of the clauses."""
    if not labels or not goal.startswith("returns"):
        return body
    depth = 0
    text = body.rstrip()
    if not text.endswith(")"):
        return body
    for i in range(len(text) - 1, -1, -1):
        depth += text[i] == ")"
        depth -= text[i] == "("
        if depth == 0:
            found = parts(text[i:], len(labels))
            if not found:
                return body
            return text[:i] + "record { " + "; ".join(f"{l} = {t}" for l, t in zip(labels, found)) + " }"
    return body


def loop_body(fn, k, params, body):
    (old, _), variables = fn.loops[k]
    changed = fn.changed[k]
    names = {}
    want = list(variables) + [v for v, c in zip(variables, changed) if c]
    if len(params) != len(want):
        raise Refused(f"loop {old}: {params} for {want} ")
    for i, (p, v) in enumerate(zip(params, want)):
        if i < len(variables):
            names[p] = f"l.initial.{v}" if changed[i] else f"l.{v}"
        else:
            names[p] = f"l.{v}"
    names.pop("_", None)

    def one(m):
        return names.get(m.group(0), m.group(0))

    return re.sub(r"(?<![\w.'-])[A-Za-z_][\w'-]*[₀-₉]?(?![\w'₀-₉-])", one, body)


def turn(crate, path, of, text, warn):
    fn = Function(of)
    head, uses, decls = blocks(text)
    module = "Rattle." + crate + ".proofs." + path
    measures = {}
    answers = {}
    helpers = []
    spec = None
    typed = {}
    for decl in decls:
        first = decl.split("\n", 1)[0]
        m = re.match(r"(?:--[^\n]*\n)*(?:abbrev )?(?:pub )?(" + IDENT + r") : tie\.(invariant|decreases)-(\S+)", decl)
        if m:
            lines = decl[m.start(1) :].split("\n", 1)[1]
            d = re.match(re.escape(m.group(1)) + r"((?: [\w'₀-₉-]+)*) =(.*)", lines, re.S)
            if not d:
                raise Refused("measure: " + first)
            measures[m.group(1)] = (m.group(2), d.group(1).split(), d.group(2))
            continue
        m = re.match(r"((?:--[^\n]*\n)*)(" + IDENT + r") : tie\.Need-(\S+)([^\n]*)\n(.*)", decl, re.S)
        if m:
            name, need, body = m.group(2), m.group(3), m.group(5)
            d = re.match(r"(unfolding [^\n]*\n)?" + re.escape(name) + r"((?: " + IDENT + r"| \([^)]*\)| _)*) =(.*)", body, re.S)
            if not d:
                raise Refused("answer: " + first)
            binders = re.findall(r"\([^)]*\)|\S+", d.group(2))
            used = re.findall(r"[^\W\d][\w'-]*[₀-₉]?", d.group(3))
            while len(binders) > 1 and binders[-1].strip("()").split(" ")[0] not in used:
                binders.pop()
            typed[name] = (norm(need), m.group(1), d.group(1) or "", binders, d.group(3))
            continue
        if re.search(r"tie\.close", decl):
            m = re.search(r"tie\.close\s*\(tie\.spec(.*)\)\s*$", decl, re.S)
            if not m:
                raise Refused("no spec")
            spec = arguments(m.group(1))
            continue
        helpers.append(decl)
    if spec is None:
        raise Refused("no tie.spec")
    per = 2 * len(fn.loops)
    by_place = len(spec) == per + len(fn.needs)
    invariants = []
    if by_place:
        order = spec[:per]
        for i, name in enumerate(order):
            # tie.spec has each loop's invariant and then its measure
            kind, params, body = measures.get(name, (None, None, None))
            if kind is None:
                raise Refused("measure argument " + name)
            loop = i // 2
            new = fn.loops[loop][0][1]
            b = loop_body(fn, loop, params, body)
            invariants.append(f"abbrev pub {kind}-{new} : goal.{kind}-{new}\n{kind}-{new} l ={b}")
        pairs = list(enumerate(spec[per:]))
    else:
        if fn.loops:
            raise Refused(f"tie.spec has {len(spec)} arguments for {per + len(fn.needs)}")
        warn(f"tie.spec has {len(spec)} arguments for {len(fn.needs)}: answers go by name")
        by_name = {norm(old): i for i, (old, _) in enumerate(fn.needs)}
        pairs = []
        for name, (need, *_) in typed.items():
            if need in by_name:
                pairs.append((by_name[need], name))
            else:
                warn(f"no goal for {need}")
    renamed = {}
    labels = LABELS.get((crate, path.split(".")[-1].lstrip("+")), [])
    for i, arg in pairs:
        old, new = fn.needs[i]
        place = norm(fn.asked[i][0])
        inner = cover(arg)
        if inner in ("search rules", "search needs"):
            continue
        if inner in typed:
            _, comment, unfolding, params, body = typed[inner]
            binder = params[0].strip("()").split(" ")[0] if params else "c"
            body = turn_paths(fn, body, binder, place, warn)
            renamed[inner] = new
            more = "".join(" " + it for it in params[1:])
            answers[new] = f"{comment}pub {new} : goal.{new}\n{unfolding}{new} c{more} ={fielded(new, body, labels)}"
            continue
        lam = re.match(r"λ (" + IDENT + r"(?: " + IDENT + r")*)\.(\s.*)$", inner, re.S)
        if lam:
            binders = lam.group(1).split()
            used = re.findall(r"[^\W\d][\w'-]*[₀-₉]?", lam.group(2))
            while len(binders) > 1 and binders[-1] not in used:
                binders.pop()
            body = turn_paths(fn, lam.group(2), binders[0], place, warn)
            if cover(body.strip()) in ("search rules", "search needs"):
                continue
            more = "".join(" " + it for it in binders[1:])
            answers[new] = f"pub {new} : goal.{new}\n{new} c{more} ={fielded(new, body, labels)}"
            continue
        answers[new] = f"pub {new} : goal.{new}\n{new} c = {inner} c" if re.match(r"^[\w'-]+$", inner) else f"pub {new} : goal.{new}\n{new} = {inner}"
    # an answer that another one cites by its old name
    swap = {o: n for o, n in renamed.items() if o != n}
    for new, text in list(answers.items()):
        first, rest = text.split(" =", 1)
        rest = re.sub(r"(?<![\w.'-])([A-Za-z][\w'-]*)(?= c\b)", lambda m: swap.get(m.group(1), m.group(1)), rest)
        answers[new] = first + " =" + rest
    keep = [u for u in uses if not re.search(r"\.(Statement|Tie)(\.| as |$)", u)]
    used = "\n".join(helpers + list(answers.values()))
    if "rules" not in re.findall(r"[\w'-]+", used):
        keep = [re.sub(r"(?<=[{ ])rules(, |(?=\}))", "", u).replace(", }", "}") for u in keep]
        keep = [u for u in keep if not u.endswith(".{}")]
    out = {}
    about = "\n".join(head)
    if invariants:
        given = [u for u in keep]
        out["Invariants.antt"] = about + "\n" + "\n".join(given) + f"\nuse {module}.Given as goal\n\n" + "\n\n".join(invariants) + "\n"
    if answers:
        out["Answers.antt"] = about + "\n" + "\n".join(keep) + f"\nuse {module}.Goals as goal\n\n" + "\n\n".join(helpers + list(answers.values())) + "\n"
    return out


def main(names, crate, only):
    read_labels()
    with open(f"{names}/{crate}/names.json", encoding="utf-8") as f:
        every = json.load(f)
    turned = left = gone = 0
    for key, of in every.items():
        if ".Lts" not in key or not key.startswith(f"Rattle-{crate}-proofs."):
            continue
        path = key.split(".", 1)[1].rsplit(".Lts", 1)[0]
        if only and path not in only:
            continue
        folder = f"crates/{crate}/proofs/" + path.replace(".", "/")
        file = f"{folder}/Proof.antt"
        if not os.path.exists(file):
            continue
        with open(file, encoding="utf-8") as f:
            text = f.read()
        try:
            out = turn(crate, path, of, text, lambda w, p=path: print(f"look: {crate} {p}: {w}"))
        except Refused as e:
            print(f"left: {crate} {path}: {e}")
            left += 1
            continue
        for name, body in out.items():
            with open(f"{folder}/{name}", "w", encoding="utf-8") as f:
                f.write(body)
        os.remove(file)
        if not out:
            gone += 1
            try:
                os.removedirs(folder)
            except OSError:
                pass
        turned += 1
    print(f"{crate}: turned {turned} ({gone} with nothing left to say), left {left}")


main(sys.argv[1], sys.argv[2], sys.argv[3:])
