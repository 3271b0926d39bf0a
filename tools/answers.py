#!/usr/bin/env python3
"""Turns each Proof.antt that ties a walk's needs together into Invariants.antt and Answers.antt.

usage: answers.py NAMES CRATE..      NAMES: a folder that `rt names NAMES` wrote; CRATE: a crate's name

An answer that only calls the search or the arithmetic goes: the check tries these itself. What is not turned is named on a line 'left:'.
"""
import glob
import json
import os
import re
import sys

W = r"[^\s(){}.;,@\"«»\[\]\\:=]+"
B = r"(?<![^\s(){};,\[\]\\])"  # a name begins here, behind no dot
E = r"(?![^\s(){}.;,\[\]])"
alike = lambda it: re.sub("[-_]", "", it)


def read(path):
    with open(path, encoding="utf-8") as f:
        return f.read()


# ---- the functions of src/: their parameters and the names of their clauses

def signatures():
    out = {}
    for path in sorted(glob.glob("crates/*/src/**/*.rt", recursive=True)):
        parts = path.split("/")
        crate = parts[1]
        module = [p for p in parts[3:-1]] + ([parts[-1][:-3]] if parts[-1] not in ("lib.rt", "main.rt") else [])
        text = re.sub(r"//[^\n]*", "", read(path))
        owner = None
        for m in re.finditer(r"^impl (\w+)|^}|^ *(?:pub(?:\(crate\))? )?(?:const )?(?:unsafe )?(?:extern \"C\" )?fn (\w+)\s*(?:<[^>]*>)?\(", text, re.M):
            if m[1]:
                owner = m[1]
                continue
            if m[0] == "}":
                owner = None
                continue
            at, depth = m.end(), 1
            while depth:
                depth += {"(": 1, ")": -1}.get(text[at], 0)
                at += 1
            inside = text[m.end() : at - 1]
            params = []
            for p in re.split(r",(?![^\[<]*[\]>])", inside):
                p = p.strip()
                if not p:
                    continue
                if ":" in p:
                    name, ty = p.split(":", 1)
                    params.append((name.replace("mut ", "").strip(), ty.strip()))
                else:
                    params.append(("self", "&mut" if "&mut" in p else "&" if "&" in p else "self"))
            # the clauses, up to the body
            rest = text[at:]
            kinds = {"requires": [], "ensures": []}
            i = 0
            while i < len(rest):
                k = re.compile(r"\s*(?:->\s*[^{]*?(?=\brequires|\bensures|\{|\bghost))?").match(rest, i)
                i = k.end()
                c = re.compile(r"(requires|ensures)(\*?)\s*(\w*)\s*\{").match(rest, i)
                if not c:
                    break
                kinds[c[1]].append(c[3])
                j, d = c.end(), 1
                while d:
                    d += {"{": 1, "}": -1}.get(rest[j], 0)
                    j += 1
                i = j
            key = "::".join([crate, *module, *([owner] if owner and m[0].startswith(" ") else []), m[2]])
            out[key] = (params, kinds["requires"], kinds["ensures"])
            if owner and m[0].startswith(" "):
                out["::".join([crate, owner, m[2]])] = out[key]
    return out


# ---- texts

def tuple_parts(text):
    """The parts of '(a, b)' where the text is one tuple, or None."""
    text = text.strip()
    if not (text.startswith("(") and text.endswith(")")):
        return None
    depth, parts, last = 0, [], 1
    for i, ch in enumerate(text):
        if ch in "([{":
            depth += 1
        elif ch in ")]}":
            depth -= 1
            if depth == 0 and i != len(text) - 1:
                return None
        elif ch == "," and depth == 1:
            parts.append(text[last:i])
            last = i + 1
    parts.append(text[last:-1])
    return [p.strip() for p in parts] if len(parts) > 1 else None


def nested(text, n):
    """The n parts of a pair nested to the right."""
    if n == 1:
        return [text]
    parts = tuple_parts(text)
    if not parts:
        return None
    if len(parts) == n:
        return parts
    if len(parts) == 2:
        more = nested(parts[1], n - 1)
        return more and [parts[0], *more]
    return None


def let_split(text):
    """The lets in front of a term, and the term."""
    text = text.strip()
    lets = []
    while text.startswith("let "):
        depth, i = 0, 4
        while i < len(text):
            if text[i] in "([{":
                depth += 1
            elif text[i] in ")]}":
                depth -= 1
            elif depth == 0 and re.match(r"\slet\s", text[i : i + 5]):
                depth += 100
            elif re.match(r"\sin(\s|$)", text[i : i + 4]):
                if depth >= 100:
                    depth -= 100
                elif depth == 0:
                    break
            i += 1
        lets.append(text[4:i].strip())
        text = text[i + 3 :].strip()
    return lets, text


def items_of(text):
    """The items of a proof file: (kind, name, type, unfolding, [(args, body)], text)."""
    blocks, now = [], []
    for line in text.split("\n"):
        if line and not line[0].isspace():
            starts = line
            if now and (blank or line.startswith(("use ", "pub use ", "--"))) and not all(l.startswith("--") for l in now if l):
                blocks.append(now)
                now = []
        blank = not line.strip()
        now.append(line)
    blocks.append(now)
    out = []
    for b in blocks:
        t = "\n".join(b).strip("\n")
        if t.strip():
            out.append(t)
    return out


HEAD = re.compile(r"^((?:--[^\n]*\n)*)((?:abbrev |pub |unfoldable )*)(" + W + r") :\s")


def parse(item):
    m = HEAD.match(item)
    if not m:
        return None
    name = m[3]
    rest = item[m.end() :]
    lines = rest.split("\n")
    ty, i = [lines[0]], 1
    while i < len(lines) and lines[i][:1].isspace():
        ty.append(lines[i].strip())
        i += 1
    unfolding = []
    while i < len(lines) and lines[i].startswith("unfolding"):
        unfolding += lines[i].split()[1:]
        i += 1
        while i < len(lines) and lines[i][:1].isspace():
            unfolding += lines[i].split()
            i += 1
    clauses = []
    while i < len(lines):
        line = lines[i]
        if line.startswith(name + " "):
            clauses.append([line])
        elif clauses:
            clauses[-1].append(line)
        elif line.strip():
            return None
        i += 1
    cl = []
    for c in clauses:
        t = "\n".join(c)
        k = re.match(re.escape(name) + r"((?:\s+" + W + r")*)\s*=\s", t + " ")
        if not k:
            return None
        cl.append((k[1].split(), t[k.end() :].strip()))
    return dict(comment=m[1], mods=m[2], name=name, type=" ".join(ty).strip(), unfolding=unfolding, clauses=cl)


class Turn:
    def __init__(self, crate, names, sigs):
        self.crate, self.names, self.sigs = crate, names, sigs

    def function(self, path, key, of):
        self.left = []
        self.of = of
        fn = key.replace(".", "::")
        self.me = self.sigs.get(f"{self.crate}::{fn}")
        text = read(path)
        items = items_of(text)
        uses = [it for it in items if re.match(r"(?:--[^\n]*\n)*use ", it)]
        head = ""
        m = re.match(r"((?:--[^\n]*\n)+)", text)
        if m:
            head = m[1]
        use_lines = [l for l in text.split("\n") if l.startswith("use ") and not re.search(r"\.(Statement\.\{statement\}|Tie as tie)$", l)]
        body_items = []
        for it in items:
            it = "\n".join(l for l in it.split("\n") if not l.startswith("use "))
            if it.strip() and not all(l.startswith("--") for l in it.strip().split("\n")):
                if it.startswith(head):
                    it = it[len(head) :]
                body_items.append(it.strip("\n"))
        self.steps = {}
        for place, parent, (old, new), callee, _ in of["places"]:
            self.steps.setdefault(alike(old), (new, callee))
        self.arms = {}
        for arm in of["arms"]:
            if arm:
                for field, old, at in arm[2]:
                    self.arms.setdefault(alike(old), {})[tuple(at)] = f"{arm[0]}.{field}"
        answers, helpers, paths, plain, spec = [], {}, set(), [], None
        invariants = []
        for it in body_items:
            p = parse(it)
            if p is None:
                if "tie." in it:
                    self.left.append("an item that is not read: " + it[:80].replace("\n", " "))
                plain.append(it)
                continue
            ty = p["type"]
            if re.match(r"tie\.Need-", ty):
                answers.append(p)
            elif re.match(r"tie\.(invariant|decreases)-", ty):
                invariants.append(p)
            elif ty.startswith("{M : Type 1}"):
                spec = it
            elif "tie." in ty:
                flat = re.sub(r"\s+", " ", ty)
                m = re.match(r"^(?:\(\S+ : (tie\.[^)]*?)\)|(tie\.\S+(?: invariant-\S+| decreases-\S+)*)) (→ )?(.*)$", flat)
                if not m or len(p["clauses"]) != 1:
                    self.left.append("a helper that is not read: " + p["name"])
                    continue
                result = m[4]
                if re.match(r"tie\.\S+( invariant-\S+| decreases-\S+)*$", result):
                    paths.add(p["name"])
                else:
                    helpers[p["name"]] = (p, result)
            else:
                plain.append(it)
        self.paths, self.helpers = paths, helpers
        # which need each answer is for
        order = self.spec_order(spec) if spec else []
        needs = of["needs"]
        by_name = {p["name"]: p for p in answers}
        matched = []
        order = [o for o in order if not any(o == q["name"] for q in invariants)]
        if order and len(order) == len(needs):
            for o, (old, new) in zip(order, needs):
                matched.append((o, old, new))
        else:
            used = set()
            table = {}
            for old, new in needs:
                table.setdefault(alike(old), (old, new))
            for o in order:
                p = by_name.get(o)
                if p:
                    need = re.match(r"tie\.Need-(\S+)", p["type"])[1]
                    word = alike(re.sub(r"^overflow-", "", need))
                    hit = table.get(word) or table.get(alike(need))
                    if hit:
                        matched.append((o, *hit))
                    else:
                        self.left.append(f"no goal for {o} : {need}")
            if order:
                self.left.append(f"counts differ: {len(order)} answers, {len(needs)} goals")
        out = []
        for o, old, new in matched:
            if o in by_name:
                p = by_name[o]
                args, body = p["clauses"][0] if p["clauses"] else ([], "?")
                if len(p["clauses"]) != 1:
                    self.left.append("several clauses: " + o)
                    continue
                out.append(self.answer(p, args, body, old, new, p["comment"]))
            else:
                m = re.match(r"^\(?λ ([^.]*)\. (.*?)\)?$", o, re.S)
                if m:
                    body = o.strip()
                    if body.startswith("("):
                        body = body[1:-1]
                    m = re.match(r"λ ([^.]*)\.\s*(.*)$", body, re.S)
                    out.append(self.answer(None, m[1].split(), m[2], old, new, ""))
                else:
                    self.left.append("an answer that is not read: " + o[:60])
        out = [o for o in out if o]
        self.write(path, key, head, use_lines, plain, invariants, out)
        return self.left

    def spec_order(self, spec):
        m = re.search(r"tie\.spec\s+(.*)\)\s*$", spec, re.S)
        if not m:
            self.left.append("tie.spec is not read")
            return []
        t = m[1]
        parts, depth, now = [], 0, ""
        for ch in t:
            if ch in "([{":
                depth += 1
            if ch in ")]}":
                depth -= 1
            if depth == 0 and ch.isspace():
                if now:
                    parts.append(now)
                now = ""
            else:
                now += ch
        if now:
            parts.append(now)
        return parts

    # ---- terms

    def reduce(self, text, bases):
        """Paths to earlier places collapse: a later record has their fields."""
        names = "|".join(map(re.escape, sorted(bases, key=len, reverse=True)))
        ps = "|".join(map(re.escape, sorted(self.paths, key=len, reverse=True)))
        while True:
            old = text
            text = re.sub(rf"{B}({names})\.before{E}", r"\1", text)
            text = re.sub(rf"\(({names})\)", r"\1", text)
            if ps:
                text = re.sub(rf"{B}(?:{ps})\s+({names}){E}(?!\.)", r"\1", text)
            if text == old:
                return text

    def term(self, text, bases):
        bases = set(bases)
        while True:
            text = self.reduce(text, bases)
            # a let that names a path
            names = "|".join(map(re.escape, sorted(bases, key=len, reverse=True)))
            m = re.search(rf"{B}let\s+({W})(?:\s+:\s+tie\.[^=]*?)?\s+=\s+((?:{names})(?:\.[^\s(){{}};,]+)*)\s+in{E}\s*", text)
            if not m:
                break
            name, chain = m[1], m[2]
            rest = text[m.end() :]
            if chain in bases:
                bases.add(name)
                text = text[: m.start()] + re.sub(rf"{B}{re.escape(name)}{E}", chain, rest)
                continue
            segs = chain.split(".")[1:]
            while segs and segs[0] == "before":
                segs.pop(0)
            if segs == ["args"]:
                # kept, under a mark that this loop does not find again
                text = text[: m.start()] + f"let {name} = \x00.args in\n    " + rest
                continue
            text = text[: m.start()] + re.sub(rf"{B}{re.escape(name)}{E}", chain, rest)
        text = text.replace("\x00", sorted(bases, key=lambda b: b != "c")[0])
        for b in bases:
            text = re.sub(rf"{B}{re.escape(b)}((?:\.[^\s(){{}};,\[\]]+)+)", lambda m: "c" + self.chain(m[1]), text)
            if b != "c":
                text = re.sub(rf"{B}{re.escape(b)}{E}", "c", text)
        return text

    def chain(self, tail):
        segs = tail[1:].split(".")
        while segs and segs[0] == "before":
            segs.pop(0)
        if not segs:
            return ""
        step, rest = segs[0], segs[1:]
        step = {"pre": "requires", "Group-of": "group_of", "is_IsWord": "is_word"}.get(step, step)
        step = step[:-4] if step.endswith("_lem") else step
        under = lambda xs: [x.replace("-", "_") if not x.isdigit() else x for x in xs]
        if step == "args":
            return "." + ".".join(["args", *under(rest)])
        if step == "requires":
            fields = (self.of["pre"] or {}).get("fields") or []
            return "." + ".".join(["requires", *self.pick(fields, rest)])
        if step in ("ranges", "type-inv", "type_inv", "well-formed", "well_formed"):
            return "." + ".".join([step.replace("-", "_"), *under(rest)])
        key = alike(step)
        arms = self.arms.get(key)
        if arms:
            for n in range(len(rest), 0, -1):
                if tuple(rest[:n]) in arms:
                    return "." + ".".join([arms[tuple(rest[:n])], *rest[n:]])
        if key not in self.steps:
            self.left.append(f"no step {step} in c{tail}")
            return tail
        new, callee = self.steps[key]
        if step.startswith("if") and rest:
            rest = [{"taken": "true", "left": "false"}.get(rest[0], rest[0]), *rest[1:]]
        sig = self.sigs.get(callee) if callee else None
        if rest and sig:
            params, _, ensures = sig
            if rest[0] == "ensures" and len(ensures) > 1:
                rest = ["ensures", *self.pick(ensures, rest[1:])]
            elif rest[0] in ("new", "last"):
                at, k = rest[1:], 0
                while at and at[0] == "1":
                    at, k = at[1:], k + 1
                if at and at[0] == "0" and k < len(params):
                    rest = ["new", params[k][0], *at[1:]]
                else:
                    self.left.append(f"new values of {step}: c{tail}")
            elif rest[0] == "auto" and len(rest) > 1:
                slices = [p for p, t in params if t.startswith("&mut [")]
                at, k = rest[1:], 0
                while at and at[0] == "1":
                    at, k = at[1:], k + 1
                if at and at[0] == "0" and k < len(slices):
                    rest = ["auto", slices[k], *at[1:]]
            elif rest[0] == "result":
                rest = under(rest)
        elif rest and step.startswith("loop"):
            rest = [rest[0].replace("-", "_"), *rest[1:]]
        return "." + ".".join([new, *rest])

    def pick(self, fields, rest):
        n, i = len(fields), 0
        if n < 2:
            return rest
        while rest and i < n - 1:
            if rest[0] == "0":
                return [fields[i], *rest[1:]]
            if rest[0] != "1":
                break
            i, rest = i + 1, rest[1:]
        if i == n - 1:
            return [fields[i], *rest]
        self.left.append(f"a clause by position: {fields} {rest}")
        return rest

    def helper_lets(self, text):
        """The helpers that a term uses, as lets in front of it."""
        lets, unfolding = [], []
        wanted, todo = set(), [text]
        bodies = {}
        while todo:
            t = todo.pop()
            for name in self.helpers:
                if name not in wanted and re.search(rf"{B}{re.escape(name)}{E}", t):
                    wanted.add(name)
                    p, result = self.helpers[name]
                    args, body = p["clauses"][0]
                    bodies[name] = (args, body, result)
                    todo += [body, result]
        for name in self.helpers:
            if name not in wanted:
                continue
            args, body, result = bodies[name]
            var = args[0] if args else "c"
            p = self.helpers[name][0]
            flat = re.sub(r"\s+", " ", p["type"])
            b = re.match(r"^\((\S+) :", flat)
            tyvar = b[1] if b else var
            ty = self.term(result, {tyvar})
            bt = self.term(body, {var})
            if args[1:]:
                bt = "λ " + " ".join(args[1:]) + ". " + bt
            unfolding += p["unfolding"]
            lets.append((name, ty, bt))
        return lets, unfolding

    def unapply(self, text):
        for name in self.helpers:
            text = re.sub(rf"{B}{re.escape(name)}\s+c{E}(?!\.)", name, text)
            text = re.sub(rf"\({re.escape(name)}\)", name, text)
        return text

    def answer(self, p, args, body, old, new, comment):
        var = args[0] if args else "c"
        t = self.term(body, {var})
        lets, unfolding = self.helper_lets(body)
        t = self.unapply(t)
        flat = re.sub(r"\s+", " ", t)
        trivial = r"(search rules|omega arith|refl|tt)"
        own_unfolding = p["unfolding"] if p else []
        fields = self.of["asked"].get(old) or self.of["asked"].get(new)
        names = fields
        if not names and new.startswith("returns") and self.me and len(self.me[2]) > 1:
            names = self.me[2]
        if re.fullmatch(trivial, flat) and not own_unfolding and flat not in ("refl",):
            return None
        if re.fullmatch(r"[(),\s]*(?:(?:search rules|omega arith|tt)[(),\s]*)+", flat) and not own_unfolding:
            return None
        front, last = let_split(t)
        if names and len(names) > 1:
            parts = nested(last, len(names))
            if not parts and re.match(r"omega\b", last):
                parts = [last] * len(names)
            if parts:
                last = "record { " + "; ".join(f"{n} = {q}" for n, q in zip(names, parts)) + " }"
            else:
                self.left.append(f"a tuple of {len(names)} for {new}")
        text = []
        for name, ty, bt in lets:
            text.append(f"let {name} : {self.unapply(ty)} = {self.unapply(bt)} in")
        for l in front:
            text.append(f"let {l} in")
        text.append(last)
        un = sorted({*own_unfolding, *unfolding}, key=[*own_unfolding, *unfolding].index)
        return f"{comment}pub {new} : goal.{new}\n" + (f"unfolding {' '.join(un)}\n" if un else "") + f"{new} c =\n    " + "\n    ".join(text)

    # ---- files

    def invariant(self, p):
        name = p["name"]
        need = re.match(r"tie\.(invariant|decreases)-(\S+)", p["type"])
        args, body = p["clauses"][0]
        hits = [(i, l) for i, l in enumerate(self.of["loops"]) if alike(l[0][0]) == alike(need[2])]
        if not hits:
            self.left.append("no loop " + name)
            return ""
        at, ((_, new), params) = hits[0]
        changed = self.of["changed"][at]
        subst = {}
        n = len(params)
        later = [q for q, ch in zip(params, changed) if ch]
        if len(args) != n + len(later):
            self.left.append(f"the variables of {name}: {args} for {params} {changed}")
        for a, q, ch in zip(args, params, changed):
            subst[a] = f"l.initial.{q}" if ch else f"l.{q}"
        for a, q in zip(args[n:], later):
            subst[a] = f"l.{q}"
        def one(m):
            return subst.get(m[1], m[1])
        body = re.sub(rf"{B}({W})(?=[\s(){{}}.;,\[\]]|$)", one, body)
        it = f"{need[1]}-{new}"
        un = f"unfolding {' '.join(p['unfolding'])}\n" if p["unfolding"] else ""
        return f"{p['comment']}abbrev pub {it} : goal.{it}\n{un}{it} l = {body}"

    def write(self, path, key, head, use_lines, plain, invariants, answers):
        folder = os.path.dirname(path)
        mod = f"Rattle.{self.crate}.proofs.{key}"
        inv = [self.invariant(p) for p in invariants]
        inv = [i for i in inv if i]
        shared = []
        if inv:
            own = {}
            for it in plain:
                for m in re.finditer(r"^\s*(?:abbrev |pub |unfoldable |record )*(" + W + r")(?: \(.*)? :\s", it, re.M):
                    own.setdefault(m[1], it)
            text = "\n".join(inv)
            if any(re.search(rf"{B}{re.escape(n)}{E}", text) for n in own):
                shared = plain
        os.remove(path)
        files = []
        if inv:
            body = ["\n".join([*use_lines, f"use {mod}.Given as goal"])]
            body += [self.public(it) for it in shared]
            body += inv
            with open(f"{folder}/Invariants.antt", "w") as f:
                f.write(head + "\n\n".join(body) + "\n")
        mine = [] if shared else plain
        if answers:
            lines = [*use_lines, f"use {mod}.Goals as goal"]
            if shared:
                names = []
                for it in shared:
                    names += re.findall(r"^(?:abbrev |pub |unfoldable |record )*(" + W + r")(?: \(.*)? :\s", it, re.M)
                    names += re.findall(r"^  (" + W + r") :\s", it, re.M) if it.startswith("module") or "\nmodule" in it else []
                if names:
                    lines.append(f"use {mod}.Invariants.{{{', '.join(dict.fromkeys(names))}}}")
            with open(f"{folder}/Answers.antt", "w") as f:
                f.write(head + "\n\n".join(["\n".join(lines), *mine, *answers]) + "\n")

    def public(self, it):
        out = []
        kind = None
        for line in it.split("\n"):
            if line.startswith("record "):
                line, kind = "pub " + line, "record"
            elif re.match(r"^" + W + r" :", line):
                line, kind = "pub " + line, None
            elif line.startswith("abbrev ") and not line.startswith("abbrev pub"):
                line, kind = "abbrev pub " + line[7:], None
            elif line.startswith("module "):
                kind = "module"
            elif kind == "record" and re.match(r"^  " + W + r" :", line):
                line = "  pub " + line[2:]
            elif kind == "module" and re.match(r"^  " + W + r" :", line):
                line = "  pub " + line[2:]
            elif line and not line[0].isspace():
                kind = None if kind != "module" else kind
            out.append(line)
        return "\n".join(out)


def main(folder, crates):
    sigs = signatures()
    for crate in crates:
        listed = json.loads(read(f"{folder}/crates/{crate}/names.json"))
        turn = Turn(crate, listed, sigs)
        for module, of in listed.items():
            m = re.match(r"Rattle-\w+-proofs\.(.*)\.Lts$", module)
            if not m:
                if ".Lts-" in module:
                    print(f"left: {crate} {module}: a cycle")
                continue
            path = f"crates/{crate}/proofs/{m[1].replace('.', '/')}/Proof.antt"
            if not os.path.exists(path):
                continue
            if "Tie as tie" not in read(path):
                print(f"left: {path}: by hand")
                continue
            for l in turn.function(path, m[1], of):
                print(f"left: {path}: {l}")


main(sys.argv[1], sys.argv[2:])
