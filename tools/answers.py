#!/usr/bin/env python3
"""Turns proofs that walk the code into answers: proofs/F/Proof.antt into Answers.antt and Invariants.antt.

usage: answers.py NAMES CRATE..   at the top of the repository
       NAMES is a folder with CRATE/names.json for each crate, as `rt check --generated NAMES/CRATE --old-names` writes it.

Each answer keeps its term; what it cites by the way that the walk went is cited by the step's name. An answer that was only
a search is left out, since the check searches by itself."""

import json
import os
import re
import sys

IDENT = r"[^\s(){}\[\];,.«»\"`]+"


def norm(name):
    return re.sub("-lem$", "", name.replace("_", "-").lower())


def read(path):
    with open(path, encoding="utf-8") as f:
        return f.read()


def split_top(text):
    """Splits at white space outside of brackets."""
    out, depth, cur = [], 0, ""
    for ch in text:
        if ch in "([{":
            depth += 1
        if ch in ")]}":
            depth -= 1
        if ch.isspace() and depth == 0:
            if cur:
                out.append(cur)
            cur = ""
        else:
            cur += ch
    if cur:
        out.append(cur)
    return out


def tuple_parts(text):
    """The parts of a tuple that is the whole text, or None."""
    text = text.strip()
    if not (text.startswith("(") and text.endswith(")")):
        return None
    depth, parts, cur = 0, [], ""
    for k, ch in enumerate(text):
        if ch in "([{":
            depth += 1
            if depth == 1:
                continue
        if ch in ")]}":
            depth -= 1
            if depth == 0:
                if k != len(text) - 1:
                    return None
                break
        if ch == "," and depth == 1:
            parts.append(cur)
            cur = ""
        else:
            cur += ch
    parts.append(cur)
    # a comma may stand after the last
    parts = [p.strip() for p in parts if p.strip()]
    return parts if len(parts) > 1 else None


def flatten(text, n):
    """n parts of nested pairs."""
    parts = tuple_parts(text)
    if parts is None:
        return None
    while len(parts) < n:
        last = tuple_parts(parts[-1])
        if last is None:
            return None
        parts = parts[:-1] + last
    return parts if len(parts) == n else None


def pick(index, n):
    """Which of n clauses joined one inside the other an index path as ['1', '0'] names, and how many parts of it that takes."""
    for take in range(1, len(index) + 1):
        path = index[:take]
        if n == 1:
            return None
        # nested to the right
        if all(p == "1" for p in path[:-1]) and path[-1] in "01":
            depth = len(path) - 1
            if path[-1] == "0" and depth < n - 1:
                return depth, take
            if path[-1] == "1" and depth == n - 2:
                return n - 1, take
            if path[-1] == "1":
                continue
        if take == 1 and path[0].isdigit() and int(path[0]) < n:
            return int(path[0]), 1
    return None


class Function:
    def __init__(self, key, data):
        self.data = data
        self.places = {p[0]: k for k, p in enumerate(data["places"])}
        self.failed = []

    def need(self, *names):
        table = {norm(old): k for k, (old, new) in enumerate(self.data["needs"])}
        for name in names:
            for it in (name, re.sub(r"^(overflow|bounds|nonzero)[-_]", "", name)):
                if norm(it) in table:
                    return table[norm(it)]
        return None

    def chain(self, place):
        while place is not None:
            k = self.places[place]
            yield k, self.data["places"][k]
            place = self.data["places"][k][1]

    def path(self, place, text):
        """A path as c.before.if1.true at a place, by names."""
        parts, asked = text.split(".")[1:], place
        while parts and parts[0] == "before":
            parts = parts[1:]
            place = self.data["places"][self.places[place]][1] or place
        if not parts:
            return "c"
        field, rest = parts[0], parts[1:]
        if field in ("args", "requires", "ranges"):
            return ".".join(["c", field, *rest])
        if field in ("well_formed", "well-formed", "good"):
            return ".".join(["c", "well_formed", *rest])
        # a step that stands elsewhere now, where the walk has fewer places
        for k, p in [*self.chain(place), *self.chain(asked), *enumerate(self.data["places"])]:
            old, new = p[2]
            if norm(old) != norm(field):
                continue
            for arm in [a for a in self.data["arms"] if a]:
                for now, step, way in arm[2]:
                    if norm(step) == norm(field) and way and rest[: len(way)] == way:
                        return ".".join(["c", arm[0], now, *rest[len(way) :]])
            clause = self.data["clauses"][k]
            if rest[:1] == ["ensures"] and clause and clause.get("fields"):
                got = pick(rest[1:], len(clause["fields"])) if rest[1:] else None
                if got:
                    rest = ["ensures", clause["fields"][got[0]], *rest[1 + got[1] :]]
            return ".".join(["c", new, *rest])
        self.failed.append(text)
        return text

    def clause_of(self, path):
        """The names of the clauses of the call whose whole promise a path names."""
        parts = path.split(".")
        if len(parts) == 3 and parts[2] == "ensures":
            for k, p in enumerate(self.data["places"]):
                clause = self.data["clauses"][k]
                if p[2][1] == parts[1] and clause and clause.get("fields") and len(clause["fields"]) > 1:
                    return clause["fields"]
        return None

    def body(self, place, text):
        text = re.sub(r"(?<![\w'.-])c(?:\.(?:" + IDENT[:-1] + r"+))+", lambda m: self.path(place, m.group(0)), text)
        # the test of an `if !x` says x's value itself
        text = re.sub(r"\((?:not-true|not-false) \S+ (c\.[^\s()]+)\)", r"\1", text)
        text = re.sub(r"(?<![\w'-])(?:not-true|not-false) \S+ (c\.[^\s()]+)", r"\1", text)
        # a promise of several clauses that a `let` names
        for m in list(re.finditer(r"let ([a-z]\w*) = (c\.[^\s();,]+\.ensures) in", text)):
            fields = self.clause_of(m.group(2))
            if fields:
                def by_name(mm):
                    got = pick(mm.group(2).strip(".").split("."), len(fields))
                    if not got:
                        return mm.group(0)
                    rest = mm.group(2).strip(".").split(".")[got[1] :]
                    return ".".join([mm.group(1), fields[got[0]], *rest])
                text = re.sub(r"(?<![\w.])(" + m.group(1) + r")((?:\.\d)+)", by_name, text)
        return text


def declarations(text):
    """The head, and the declarations, each as its name, its type, its `unfolding` and its clauses."""
    head, found, cur, above = [], [], None, []
    for line in text.split("\n"):
        if found and line.startswith("--"):
            above.append(line)
            continue
        if cur is None and line.startswith("--") and any(l.startswith("use ") for l in head):
            above.append(line)
            continue
        if cur is None and (line.startswith(("--", "use ")) or not line.strip()) and not found:
            head.append(line)
            continue
        m = re.match(r"(?:pub |abbrev |unfoldable )*(" + IDENT + r") :(?=\s|$)", line)
        if m and not line.startswith(" "):
            cur, above = {"name": m.group(1), "lines": [line], "above": above}, []
            found.append(cur)
        elif re.match(r"(pub )?(module|record|data|mutual|ruleset)\b", line):
            cur, above = {"name": "", "lines": [line], "above": above}, []
            found.append(cur)
        elif cur is None:
            head.append(line)
        else:
            cur["lines"].append(line)
    return head, found


def fields_body(name, body, fields, unfold):
    """A body that is a pair of several facts, as a record of them by name."""
    lets, rest = "", body.strip()
    while True:
        m = re.match(r"let\s", rest)
        if not m:
            break
        depth, k, level = 0, 0, 0
        # finds the ` in ` that ends this let
        tokens = list(re.finditer(r"\blet\b|\bin\b|[\(\[\{]|[\)\]\}]", rest))
        end = None
        for t in tokens:
            w = t.group(0)
            if w in "([{":
                depth += 1
            elif w in ")]}":
                depth -= 1
            elif depth == 0 and w == "let":
                level += 1
            elif depth == 0 and w == "in":
                level -= 1
                if level == 0:
                    end = t.end()
                    break
        if end is None:
            break
        lets += rest[:end] + " "
        rest = rest[end:].strip()
    parts = flatten(rest, len(fields))
    if parts:
        return lets + "record { " + "; ".join(f"{f} = {p}" for f, p in zip(fields, parts)) + " }"
    if re.match(r"(search|omega|grind|rw|simp|cc|absurd)\b", rest):
        # what is left after the rewriting, as a pair
        args = split_top(rest)
        parts = flatten(args[-1], len(fields)) if len(args) > 2 else None
        if parts:
            at = rest.rindex(args[-1]) if args[-1] in rest else None
            if at is not None:
                return lets + rest[:at] + "record { " + "; ".join(f"{f} = {p}" for f, p in zip(fields, parts)) + " }"
        return lets + rest
    ways, way = [], "it"
    for k in range(len(fields)):
        if k == len(fields) - 1:
            ways.append(way)
        else:
            ways.append(way + ".0")
            way += ".1"
    return lets + f"let it = {rest} in record {{ " + "; ".join(f"{f} = {w}" for f, w in zip(fields, ways)) + " }"


def turn(crate, folder, key, data, where):
    text = read(os.path.join(folder, "Proof.antt"))
    fn = Function(key, data)
    head, decls = declarations(text)
    own = "Rattle." + crate + ".proofs." + where
    drop = re.compile(r"^use Rattle\..*\.(Statement\.\{statement\}|Tie as .*|Reads as .*|Lts as .*|Kinds as .*)$")
    uses = [l for l in head if l.startswith("use ") and not drop.match(l)]
    comments = [l for l in head if l.startswith("--")]
    answers, invariants, locals_ = [], [], []
    spec = None
    loops = data["loops"]
    changed = data["changed"]
    by_goal = {}
    for d in decls:
        src = "\n".join(d["lines"])
        if re.search(r"statement M\b", src) or re.search(r": \{M : Type 1\}", src):
            spec = src
            continue
        m = re.match(r"(?:pub )?(" + IDENT + r") :\s+tie\.(?:Need-)([^\s(]+)", src)
        inv = re.match(r"abbrev (?:pub )?(invariant|decreases)-(" + IDENT + r") :\s+tie\.", src)
        if inv:
            invariants.append((inv.group(1), inv.group(2), src, d["above"]))
        elif m:
            k = fn.need(m.group(2), m.group(1))
            if k is None:
                fn.failed.append("need " + m.group(1) + " " + m.group(2))
                continue
            by_goal[k] = (d["name"], src, d["above"])
        else:
            locals_.append("\n".join([*d["above"], src.rstrip()]))
    out = []
    said = set()
    # what the walk's last line answers in place, with what it unfolds there
    opened = []
    if spec:
        opened = [l for l in spec.split("\n") if l.strip().startswith("unfolding ")]
        m = re.search(r"tie\.spec\s*(.*)\)\s*$", spec.strip(), re.S)
        if m:
            args = split_top(m.group(1))
            args = [a for a in args if not re.match(r"(invariant|decreases)-", a)]
            needs = data["needs"]
            if len(args) == len(needs):
                for k, a in enumerate(args):
                    if a.startswith("(λ") and k not in by_goal:
                        mm = re.match(r"\(λ c(?: κs)?\.\s*(.*)\)$", a, re.S)
                        searched = mm and mm.group(1).strip() == "search rules"
                        if mm and not (searched and (not opened or "requires" in needs[k][1])):
                            by_goal[k] = ("_", "x : y\n" + "".join(o + "\n" for o in opened) + "x c = " + mm.group(1), [])
            elif any(a.startswith("(λ") and not re.match(r"\(λ c(?: κs)?\.\s*search rules\)", a) for a in args):
                fn.failed.append(f"{len(args)} answers in place, {len(needs)} goals")
    for k in sorted(by_goal):
        name, src, above = by_goal[k]
        old, new = data["needs"][k]
        place = data["asked_at"][k][0]
        lines = src.split("\n")
        unfold = [l for l in lines if l.strip().startswith("unfolding ")]
        rest = "\n".join(l for l in lines if not l.strip().startswith("unfolding "))
        m = re.search(r"\n" + re.escape(name if name != "_" else "x") + r" (c|_)(?: κs| _)?\s*=(.*)", rest, re.S)
        if not m:
            fn.failed.append("clause of " + name)
            continue
        body, tail = m.group(2), ""
        w = re.search(r"\n(?:  where|    where|  where$)", body)
        if re.search(r"\n\s*where\s*\n", body):
            at = re.search(r"\n\s*where\s*\n", body).start()
            body, tail = body[:at], body[at:]
        body = fn.body(place, body).strip()
        tail = fn.body(place, tail).rstrip()
        if body == "search rules" and not unfold and not tail:
            continue
        fields = data["asked"].get(old) or data["asked"].get(new)
        if fields and len(fields) > 1:
            body = fields_body(new, body, fields, unfold)
        out.append("".join(a + "\n" for a in above) + f"pub {new} : goal.{new}\n" + "".join(u + "\n" for u in unfold) + f"{new} c = {body}{tail}\n")
    made = []
    if out:
        text = "\n".join([*comments, *uses, f"use {own}.Goals as goal", ""]) + "\n"
        if locals_:
            text += "\n\n".join(locals_) + "\n\n"
        made.append(("Answers.antt", text + "\n".join(out)))
    elif locals_:
        fn.failed.append("lemmas that no answer cites")
    if invariants:
        lines = []
        for kind, loop, src, above in invariants:
            which = [k for k, (names, vars_) in enumerate(loops) if norm(names[0]) == norm(loop)]
            if not which:
                fn.failed.append("loop " + loop)
                continue
            names, vars_ = loops[which[0]]
            new = f"{kind}-{names[1]}"
            m = re.search(r"\n((?:abbrev )?" + re.escape(f"{kind}-{loop}") + r")([^=]*)=(.*)", src, re.S)
            unfold = [l for l in src.split("\n") if l.strip().startswith("unfolding ")]
            params = m.group(2).split()
            body = m.group(3).strip()
            pairs = list(zip(vars_, changed[which[0]]))
            slots = [f"l.initial.{v}" if c else f"l.{v}" for v, c in pairs] + [f"l.{v}" for v, c in pairs if c]
            if len(slots) != len(params):
                fn.failed.append(f"{new}: {params} for {slots}")
            for p, s in zip(params, slots):
                if p == "_":
                    continue
                body = re.sub(r"(?<![\w'.₀-])" + re.escape(p) + r"(?![\w'₀-])", s.replace("\\", "\\\\"), body)
            lines.append("".join(a + "\n" for a in above) + f"abbrev pub {new} : goal.{new}\n" + "".join(u + "\n" for u in unfold) + f"{new} l = {body}\n")
        made.append(("Invariants.antt", "\n".join([*comments[:1], *uses, f"use {own}.Given as goal", ""]) + "\n" + "\n".join(lines)))
    for name, text in made:
        with open(os.path.join(folder, name), "w", encoding="utf-8") as f:
            f.write(text)
    os.remove(os.path.join(folder, "Proof.antt"))
    if not made:
        os.removedirs(folder)
    for what in fn.failed:
        print(f"left: {folder}: {what}")


def main(names, crates):
    for crate in crates:
        with open(os.path.join(names, crate, "names.json"), encoding="utf-8") as f:
            data = json.load(f)
        table = {re.sub(r"\.Lts$", "", k.split("-proofs.", 1)[1]): v for k, v in data.items() if k.startswith("Rattle")}
        for folder, dirs, files in os.walk(f"crates/{crate}/proofs"):
            if "Proof.antt" not in files:
                continue
            where = os.path.relpath(folder, f"crates/{crate}/proofs").replace("/", ".")
            if where not in table:
                print(f"left: {folder}: no names")
                continue
            turn(crate, folder, where, table[where], where)


if __name__ == "__main__":
    if len(sys.argv) < 3:
        sys.exit(__doc__)
    main(sys.argv[1], sys.argv[2:])
