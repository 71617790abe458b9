#!/usr/bin/env python3
"""Turns the proofs of a crate that walk the code by place (Proof.antt with tie.spec) into Invariants.antt and Answers.antt.

usage: python3 tools/turn_proofs.py CRATE_FOLDER NAMES.json [FUNCTION ..]

NAMES.json is what `rt check --generated FOLDER --old-names`, or `rt names FOLDER`, writes of the crate: the old and the new name of each goal, place
and step. An answer that only says `search rules` or `omega arith` is left out, since the check tries these itself.
What could not be turned is printed, a line each.
"""
import json
import os
import re
import sys

CHAIN = re.compile(r"(?<![\w'.⟨-])([A-Za-z_][\w'₀-]*)((?:\.[\w'₀-]+)+)")
IDENT = r"[A-Za-z_][\w'₀-]*"
TRIVIAL = re.compile(r"^(search rules|omega arith)$")


def norm(s):
    return s.replace("-", "_")


class Names:
    def __init__(self, v):
        self.v = v
        self.places = {}
        self.new_place = {}
        self.callees = {}
        self.typed = {norm(p[0]): bool(t) for p, t in zip(v["places"], v["typed"])}
        self.bits = {a for p in v["places"] for a, b in p[4] if b.endswith("-bits")}
        for p, n, a in zip(v["places"], v["places_by_name"], v["arms"]):
            self.callees[norm(p[0])] = p[3]
            self.places[norm(p[0])] = {"parent": norm(p[1]) if p[1] else None, "old": norm(p[2][0]), "new": p[2][1], "renames": p[4], "arm": a}
            self.new_place[norm(p[0])] = n
        # A lemma over one arm of a match is stated where the whole arm is known.
        for q in reversed(list(self.places)):
            it = self.places[q]
            up = self.places.get(it["parent"])
            if it["arm"] and up and up["arm"] and up["arm"][0] == it["arm"][0] and up["arm"][1] + 1 == it["arm"][1]:
                self.new_place[it["parent"]] = self.new_place[q]
        self.needs = {}
        for n, a in zip(v["needs"], v["asked_at"]):
            self.needs[norm(n[0])] = (n[1], norm(a[0]))
        self.loops = {}
        for l, ch in zip(v["loops"], v["changed"]):
            self.loops[norm(l[0][0])] = (l[0][1], l[1], ch)
        self.args = {}
        for a, b in v["args"]:
            a, b = a.strip("."), b.strip(".")
            if a.startswith("args ."):
                self.args[a.split(".")[-1]] = b.split(".")[-1]
        self.pre = v.get("pre")
        self.asked = v.get("asked") or {}

    def need(self, text):
        for t in (text, re.sub(r"^(overflow|nonzero|in_bounds)[-_]", "", text)):
            if norm(t) in self.needs:
                return self.needs[norm(t)]
        return None

    def place(self, text):
        return norm(text) if norm(text) in self.places else None

    def is_view(self, place):
        """Whether what an answer is given at a place is seen through other names than the place's own."""
        it = self.places[place]
        if self.typed[place] or it["arm"]:
            return True
        while place:
            if self.places[place]["renames"]:
                return True
            place = self.places[place]["parent"]
        return False

    def up(self, place, to):
        """How many places to lies above place, or None."""
        n = 0
        while place and place != to:
            # The places of one arm of a match are one to an answer.
            arm = self.places[place]["arm"]
            for _ in range(arm[1] if arm else 1):
                place = self.places[place]["parent"] if place and place != to else place
            n += 1
        return n if place else None

    def step(self, place, field):
        """The nearest place at or above place whose step is field."""
        field = field.strip("«»")
        for word in (field, re.sub(r"_lem$", "", field), field[:1].lower() + field[1:]):
            p, it = self.step_named(place, word)
            if p:
                return p, it
        return None, None

    def step_named(self, place, field):
        p = place
        while p:
            it = self.places[p]
            if it["old"] == norm(field):
                return p, it
            arm = it["arm"]
            if arm:
                for new, old, path in arm[2]:
                    if norm(old) == norm(field):
                        return p, it
            p = it["parent"]
        return None, None


class Turner:
    def __init__(self, names, said):
        self.n = names
        self.said = said
        self.used = set()
        self.lemmas = {}
        self.projections = {}
        self.result = None
        self.folder = ""

    def lent(self, callee):
        """The parameters of a function that are slices or arrays lent to be written."""
        crate, _, name = callee.partition("::")
        name = name.split("::")[-1]
        src = os.path.join(os.path.dirname(self.folder), crate, "src")
        for folder, _, files in os.walk(src):
            for f in files:
                if f.endswith(".rt"):
                    with open(os.path.join(folder, f), encoding="utf-8") as it:
                        m = re.search(r"\bfn " + name + r"(?:<[^>]*>)?\(([^)]*)\)", it.read())
                    if m:
                        return [q.split(":")[0].strip() for q in m.group(1).split(",") if re.search(r":\s*&mut \[", q)]
        return []

    def chain(self, var, fields, place):
        """The chain var.fields, var being at place. Gives its new text and its place, if it is one."""
        befores = 0
        while befores < len(fields) and fields[befores] == "before":
            befores += 1
        if befores == len(fields):
            cur = place
            for _ in range(befores):
                up = self.n.places[cur]["parent"] if cur else None
                if not up:
                    self.said.append(f"above the start: {var}.{'.'.join(fields)}")
                    break
                cur = up
            return var + ".before" * befores, cur
        # A step's name stands once in a function, and is seen from each place below it.
        i, cur = befores, place
        f = fields[i]
        rest = fields[i + 1:]
        if not cur:
            return var + "." + ".".join(fields), None
        if f in ("args", "ranges"):
            if rest:
                rest[0] = self.n.args.get(rest[0], rest[0].replace("-", "_"))
            return ".".join([var, f] + rest), None
        if f == "requires" and self.n.pre and rest and rest[0].isdigit():
            names = self.n.pre["fields"]
            if int(rest[0]) < len(names):
                rest[0] = names[int(rest[0])]
            return ".".join([var, f] + rest), None
        if re.match(r"^(told|fits)-", f):
            head, _, tail = f.partition("-")
            return ".".join([var, head + "-" + self.n.args.get(tail, tail)] + rest), None
        p, it = self.n.step(cur, f)
        if not it:
            if f not in ("requires", "well_formed", "lifetimes", "pre"):
                self.said.append(f"no step {f} from {cur}: {var}.{'.'.join(fields)}")
            if f == "pre":
                f = "requires"
            return ".".join([var, f] + rest), None
        # the arm of a match nearest to here that has the step
        q = cur
        while q:
            arm = self.n.places[q]["arm"]
            if arm:
                best = None
                for new, old, path in arm[2]:
                    if norm(old) == norm(f) and rest[:len(path)] == path and (best is None or len(path) > len(best[1])):
                        best = (new, path)
                if best:
                    tail = rest[len(best[1]):]
                    return ".".join([var, arm[0], best[0]] + tail), None
            if q == p:
                break
            q = self.n.places[q]["parent"]
        if rest[:1] in (["auto"], ["new"]) and len(rest) > 1 and rest[1].isdigit() and self.n.callees[p]:
            lent = self.lent(self.n.callees[p])
            k = 1
            while k < len(rest) and rest[k] == "1":
                k += 1
            if k < len(rest) and rest[k] == "0" and k - 1 < len(lent):
                rest[1 : k + 1] = [lent[k - 1]]
        if rest[:1] == ["taken"] and it["new"].startswith(("if-", "loop-")):
            rest[0] = "true"
        if rest[:1] == ["left"] and it["new"].startswith(("if-", "loop-")):
            rest[0] = "false"
        for a, b in it["renames"]:
            if rest and rest[0] == a:
                rest[0] = b
                break
        return ".".join([var, it["new"]] + rest), None

    def wanted(self, before):
        """The place that a lemma of the file wants of the argument that follows the text before."""
        depth, at = 0, len(before)
        while at > 0:
            ch = before[at - 1]
            if ch in ")]}":
                depth += 1
            elif ch in "([{":
                if depth == 0:
                    break
                depth -= 1
            elif depth == 0 and (ch in ",;=→∙↦⊎×≡|" or before[at : at + 1].isspace() and before[:at].endswith((" in", "\nin", ")in", ".")) or before[:at].endswith("λ")):
                break
            at -= 1
        atoms, cur, depth = [], "", 0
        for ch in before[at:]:
            if ch in "([{":
                depth += 1
            if ch in ")]}":
                depth -= 1
            if ch.isspace() and depth == 0:
                if cur:
                    atoms.append(cur)
                cur = ""
            else:
                cur += ch
        if cur:
            return None
        for i in range(len(atoms) - 1, -1, -1):
            if atoms[i] in self.lemmas:
                self.head = atoms[i]
                want = self.lemmas[atoms[i]]
                k = len([x for x in atoms[i + 1:] if not x.startswith("{")])
                return want[k] if k < len(want) else None
        return None

    def earlier(self, root, place, origin, want):
        """What stands for an earlier place in an answer or a lemma that is given root at place."""
        if place == want:
            return root
        if self.n.up(place, want) is None:
            self.said.append(f"{want} is not above {place}")
        return f"(goal.at.{origin} {root}).{self.n.new_place[want]}"

    def body(self, text, env, origin=None):
        """A term, with env: the place of each variable that is one. origin: the goal that is answered, where it is not a lemma."""
        env = {v: (v, p, origin or self.n.new_place[p]) for v, p in env.items()}
        bound = {}
        out, at = [], 0
        word = re.compile(r"(?<![\w'.⟨₀-])([A-Za-z_][\w'₀-]*)((?:\.[\w'₀«»-]+)*)")
        for m in word.finditer(text):
            var, tail = m.group(1), m.group(2)
            before, after = text[:m.start()], text[m.end():]
            if var in self.projections and not tail:
                b = re.search(r"\blet (" + IDENT + r") = $", before)
                if b and re.match(r" (?:" + IDENT + r"(?:\.before)*|\((?:[^()]|\([^()]*\))*\))\s+in\b", after):
                    q = self.projections[var]
                    env[b.group(1)] = (b.group(1), q, self.n.new_place[q])
                continue
            if var == "tie" or var not in env:
                continue
            fields = tail[1:].split(".") if tail else []
            root, place, of = env[var]
            b = re.search(r"\blet (" + IDENT + r") = $", before)
            bare = all(f == "before" for f in fields)
            if bare and fields and b and re.match(r"\s+in\b", after):
                env[b.group(1)] = (root, place, of)
                bound[b.group(1)] = var + tail
                continue
            if not fields and re.match(r"(?:pub )?(?:" + IDENT + r" )+$", before.split("\n")[-1].lstrip() or "x") and re.match(r"(?: [^=\n]*)? =(\s|$)", after):
                continue
            if bare:
                if not fields and (re.search(r"(\(|λ |\(λ |let )$", before) or re.match(r" :|\. ", after)):
                    continue
                want = self.wanted(before)
                if want:
                    new = self.earlier(root, place, of, want)
                elif fields and self.result and before.rstrip().endswith("="):
                    new = self.earlier(root, place, of, self.result)
                elif fields or var != root:
                    self.said.append(f"a place that no lemma asks for: {m.group(0)}")
                    continue
                else:
                    new = root
            else:
                new, _ = self.chain(root, fields, place)
            out.append(text[at:m.start()])
            out.append(new)
            at = m.end()
        out.append(text[at:])
        text = "".join(out).replace(".type-inv", ".type_inv")

        def projected(m):
            q = self.projections[m.group(1)]
            if set(m.group(3)[1:].split(".")) == {"before"}:
                want = self.wanted(m.string[: m.start()]) or self.result
                if not want:
                    self.said.append(f"a place that no lemma asks for: {m.group(0)}")
                    return m.group(0)
                return f"(goal.at.{self.n.new_place[q]} ({m.group(1)} {m.group(2)})).{self.n.new_place[want]}"
            new, _ = self.chain("x", m.group(3)[1:].split("."), q)
            return f"({m.group(1)} {m.group(2)})" + new[1:]

        if self.projections:
            text = re.sub(r"\((" + "|".join(map(re.escape, self.projections)) + r") ((?:[^()]|\([^()]*\))+)\)((?:\.[\w'-]+)+)", projected, text)
        for a, b in self.n.args.items():
            text = re.sub(r"(?<=[\w'])\." + re.escape(a) + r"(?![\w'-])", "." + b, text)
        steps = {it["new"]: self.n.callees[q] for q, it in self.n.places.items() if self.n.callees[q]}
        for m in re.finditer(r"\blet (" + IDENT + r") = " + IDENT + r"\.([\w'-]+)\s+in\b", text):
            if m.group(2) in steps:
                for i, name in enumerate(self.lent(steps[m.group(2)])):
                    text = re.sub(r"(?<![\w'.-])" + re.escape(m.group(1)) + r"\.(auto|new)" + r"\.1" * i + r"\.0\b", rf"{m.group(1)}.\1.{name}", text)
        text = re.sub(r"to_z w64 ([\w'.-]+)-bits(?![\w'-])", r"\1", text)
        for x in self.n.bits:
            text = re.sub(r"to_z w64 ((?:[\w'-]+\.)+" + x + r")(?![\w'.-])", r"\1", text)
        for v, chain in reversed(list(bound.items())):
            rest = re.sub(r"\blet " + re.escape(v) + r" = [\w.'-]+\s+in\b", "", text)
            if not re.search(r"(?<![\w'.-])" + re.escape(v) + r"(?![\w'-])", rest):
                text = re.sub(r"\blet " + re.escape(v) + r" = [\w.'-]+\s+in\s*", "", text)
        return text

    def module(self, d, names):
        """A module of the file: each of its items by itself, which names the others without the module's arguments."""
        lines = d["lines"]
        head = next(i for i, l in enumerate(lines) if l.rstrip().endswith("where")) + 1
        groups, name = [], None
        for l in lines[head:]:
            m = re.match(r"  (?:abbrev |unfoldable |pub )*(" + IDENT + ")", l)
            note = l.startswith("  --")
            if m and not note and not l.startswith("  unfolding") and m.group(1) != name:
                name = m.group(1)
                groups.append([name, [] if not (groups and groups[-1][0] is None) else groups.pop()[1]])
            elif note and (not groups or groups[-1][0] is not None):
                groups.append([None, []])
                name = None
            if not groups:
                groups.append([None, []])
            groups[-1][1].append(l[2:])
        kept = dict(self.lemmas)
        outer = {}
        for m in re.finditer(r"\(([^():{}]+) : tie\.([A-Z][\w'-]*)", " ".join(lines[:head])):
            for v in m.group(1).split():
                outer[v] = names.place(m.group(2))
        for name, text in groups:
            if name:
                own = places_in(signature("\n".join(text), name), names)
                self.lemmas.pop(name, None)
                if any(own):
                    self.lemmas[name] = own
        out = lines[:head]
        for name, text in groups:
            joined = "\n".join(text)
            if name:
                c = re.search(r"(?m)^" + re.escape(name) + r"((?: [\w'₀{}= ]+?)*) =(?=\s)", joined)
                sig = signature(joined, name)
                env = outer | env_of(sig, [a for a in (c.group(1).split() if c else []) if not a.startswith("{")], names)
                self.result = result_of(sig, names)
                joined = self.body(joined, env)
                self.result = None
            out += ["  " + l for l in joined.split("\n")] + [""]
        self.lemmas = kept
        return "\n".join(out).rstrip()

    def types(self, text):
        def one(m):
            p = self.n.place(m.group(1))
            if not p:
                self.said.append("no place " + m.group(0))
                return m.group(0)
            name = self.n.new_place[p]
            self.used.add(name)
            return name

        text = re.sub(r"tie\.((?!Need-)[A-Z][\w'-]*)(?: invariant-loop[\w-]* decreases-loop[\w-]*)*", one, text)
        text = re.sub(r"tie\.Need-([\w'-]+)(?: invariant-loop[\w-]* decreases-loop[\w-]*)*", lambda m: "goal." + (self.n.need(m.group(1)) or ("?" + m.group(1),))[0], text)
        return text


def blocks(text):
    """The file's head (comments and imports) and its declarations, each with the comment above it."""
    lines = text.split("\n")
    head, decls, cur, note = [], [], None, []
    for l in lines:
        if l.startswith("use "):
            if note:
                head += note
                note = []
            head.append(l)
            cur = None
            continue
        if l.startswith("--") or not l.strip():
            if cur is not None and l.strip() == "":
                cur = None
                continue
            if not l.strip():
                continue
            note.append(l)
            cur = None
            continue
        if l[0] not in " \t":
            m = re.match(r"(?:abbrev |unfoldable |pub |unfolding )*(" + IDENT + ")", l)
            name = m.group(1) if m else l
            if l.startswith("unfolding") and decls:
                decls[-1]["lines"].append(l)
                cur = decls[-1]
                continue
            if decls and decls[-1]["name"] == name and name != "module":
                decls[-1]["lines"] += note + [l]
                note = []
                cur = decls[-1]
                continue
            cur = {"name": name, "lines": [l], "note": note}
            note = []
            decls.append(cur)
        else:
            (cur or decls[-1])["lines"].append(l)
    return head, decls


def signature(text, name):
    second = re.search(r"(?m)^" + re.escape(name) + r"(?! *:)", text[1:])
    return text[: second.start() + 1] if second else text


def places_in(sig, names):
    """The places of a lemma's explicit arguments, by position; None for an argument that is none."""
    pos = []
    for m in re.finditer(r"\(([^():{}]+) : tie\.([A-Z][\w'-]*)|\(([^():{}]+) :|(?:→|:) tie\.([A-Z][\w'-]*)", sig):
        if m.group(1):
            pos += [names.place(m.group(2))] * len(m.group(1).split())
        elif m.group(3):
            pos += [None] * len(m.group(3).split())
        else:
            pos.append(names.place(m.group(4)))
    return pos


def d_text(d):
    return "\n".join(d["lines"])


def result_of(sig, names):
    """The place that a lemma answers, where it answers one."""
    m = re.search(r"→ tie\.([A-Z][\w'-]*)(?: invariant-loop[\w-]* decreases-loop[\w-]*)*\s*$", sig.strip())
    return names.place(m.group(1)) if m and not m.group(1).startswith("Need-") else None


def env_of(sig, clause_args, names):
    """The places of a lemma's arguments, by name in its type and by position in its clause."""
    env = {}
    for m in re.finditer(r"\(([^():{}]+) : tie\.([A-Z][\w'-]*)", sig):
        for v in m.group(1).split():
            env[v] = names.place(m.group(2))
    for v, p in zip(clause_args, places_in(sig, names)):
        if p:
            env[v] = p
    return {v: p for v, p in env.items() if p}


def turn(folder, crate, path, names, said):
    proof = os.path.join(folder, "Proof.antt")
    with open(proof, encoding="utf-8") as f:
        text = f.read()
    if "tie.spec" not in text:
        said.append("by hand: no tie.spec")
        return False
    head, decls = blocks(text)
    t = Turner(names, said)
    t.folder = os.path.join(CRATES, crate)
    comments = [l for l in head if l.startswith("--")]
    uses = [l for l in head if l.startswith("use ") and not re.search(r"\.(Statement|Tie)\b", l)]
    answers, invariants, dropped = [], [], []
    loop_helpers = set()
    # what an invariant or a measure names goes with it
    raw = {d["name"]: "\n".join(d["lines"]) for d in decls}
    loopers = [d["name"] for d in decls if re.search(r":\s*tie\.(invariant|decreases)-loop", raw[d["name"]])]
    todo = list(loopers)
    while todo:
        x = todo.pop()
        c = re.search(r"(?m)^" + re.escape(x) + r"((?: [\w'₀-]+)*) =", raw[x])
        bound = set(c.group(1).split()) if c else set()
        for d in decls:
            if d["name"] != x and d["name"] not in bound and d["name"] not in loop_helpers and d["name"] not in loopers and re.search(r"(?<![\w'.-])" + re.escape(d["name"]) + r"(?![\w'-])", raw[x]):
                loop_helpers.add(d["name"])
                todo.append(d["name"])
    for d in decls:
        if "tie.Need" not in raw[d["name"]].split("\n")[0]:
            pos = places_in(signature(raw[d["name"]], d["name"]), names)
            if any(pos):
                t.lemmas[d["name"]] = pos
                to = result_of(signature(raw[d["name"]], d["name"]), names)
                if to:
                    t.projections[d["name"]] = to
        if d["name"] == "module":
            first = d_text(d).split(" where")[0]
            pos = places_in(first, names)
            for item in re.findall(r"(?m)^  (?:abbrev |pub )*(" + IDENT + r")(?: : )", d_text(d)):
                sig = re.search(r"(?ms)^  (?:abbrev |pub )*" + re.escape(item) + r" : .*?(?=^  (?:abbrev |pub )*" + re.escape(item) + r"\b(?! :)|\Z)", d_text(d))
                t.lemmas[item] = pos + places_in(sig.group(0), names)
                d.setdefault("items", []).append(item)
    for d in decls:
        lines = d["lines"]
        joined = "\n".join(lines)
        m = re.match(r"(?:abbrev |pub )*(" + IDENT + r")\s*:\s*tie\.(invariant|decreases)-(loop[\w-]*)", joined)
        if m:
            kind, loop = m.group(2), norm(m.group(3))
            if loop not in names.loops:
                said.append(f"no loop {m.group(3)}")
                continue
            new, vars_, changed = names.loops[loop]
            c = re.search(r"(?m)^" + re.escape(m.group(1)) + r"((?: [\w'₀-]+)*) =", joined)
            params = c.group(1).split()
            rest = joined[c.end():]
            want = list(zip(vars_, changed))
            full = [("l.initial." if ch else "l.") + v for v, ch in want] + ["l." + v for v, ch in want if ch]
            if len(params) != len(full):
                said.append(f"{m.group(1)}: {len(params)} parameters and {len(full)} variables: {params} {vars_} {changed}")
            table = dict(zip(params, full))
            def sub(mm):
                w = mm.group(0)
                return table.get(w, w)

            rest = re.sub(r"(?<![\w'₀.-])" + IDENT, sub, rest)
            # A signed variable is a number there, and not its bits.
            rest = re.sub(r"to_z w64 (l\.[\w.]+)", r"\1", rest)
            middle = joined[:c.start()]
            unf = re.findall(r"(?m)^unfolding .*$", middle)
            new_name = f"{kind}-{new}"
            out = [*d["note"], f"abbrev pub {new_name} : goal.{new_name}", *unf, f"{new_name} l ={rest}"]
            invariants.append("\n".join(out))
            continue
        if re.match(r"pub " + IDENT + r"\s*:\s*\{M : Type 1\}", joined):
            continue
        m = re.match(r"(" + IDENT + r")\s*:\s*tie\.Need-([\w'-]+)", joined)
        if m:
            need = names.need(m.group(2))
            if not need:
                # A goal that is no longer asked: the bounds of a whole slice are known by themselves.
                if not m.group(2).startswith("slice-bounds"):
                    said.append(f"no goal {m.group(2)}")
                continue
            new, place = need
            c = re.search(r"(?m)^" + re.escape(m.group(1)) + r"((?: [\w'₀]+)*) =", joined)
            if not c:
                said.append(f"clauses of {m.group(1)}")
                answers.append("\n".join(d["note"] + ["-- " + l for l in lines]))
                continue
            params = c.group(1).split()
            body = joined[c.end():]
            if TRIVIAL.match(" ".join(body.split())):
                dropped.append(new)
                continue
            unf = re.findall(r"(?m)^unfolding .*$", joined[:c.start()])
            if any(re.search(r"(?<![\w'])" + re.escape(q) + r"(?![\w'])", body) for q in params[1:]):
                params[0] = " ".join(params)
            body = t.types(t.body(body, {params[0].split()[0]: place} if params else {}, new))
            answers.append("\n".join([*d["note"], f"pub {new} : goal.{new}", *unf, f"{new} {params[0]} ={body}" if params else f"{new} ={body}"]))
            continue
        # a lemma or a word of the file's own
        c = re.search(r"(?m)^" + re.escape(d["name"]) + r"((?: [\w'₀{}= ]+?)*) =(?=\s)", joined)
        sig = signature(joined, d["name"])
        args = [a for a in (c.group(1).split() if c else []) if not a.startswith("{")]
        env = env_of(sig, args, names)
        if d["name"] == "module":
            body = t.types(t.module(d, names))
        else:
            t.result = t.projections.get(d["name"])
            body = t.types(t.body(joined, env))
            t.result = None
        (invariants if d["name"] in loop_helpers else answers).append("\n".join([*d["note"], re.sub(r"^abbrev (?!pub)", "abbrev pub ", body) if d["name"] in loop_helpers else body]))
    module = f"Rattle.{crate}.proofs.{path}"
    left = "\n".join(answers)
    t.used = {u for u in t.used if re.search(r"(?<![\w'.-])" + re.escape(u) + r"(?![\w'-])", left)}
    wrote = []
    if invariants:
        names_in = "\n".join(invariants)
        text = "\n".join(comments[:0] + uses + [f"use {module}.Given as goal", ""]) + "\n" + "\n\n".join(invariants) + "\n"
        with open(os.path.join(folder, "Invariants.antt"), "w", encoding="utf-8") as f:
            f.write(text)
        wrote.append("Invariants.antt")
    if answers:
        more = [f"use {module}.Goals as goal"]
        if t.used:
            more.append(f"use {module}.Goals." + "{" + ", ".join(sorted(t.used)) + "}")
        extra = [f"use {module}.Invariants." + "{" + ", ".join(sorted(loop_helpers)) + "}"] if loop_helpers else []
        text = "\n".join(comments + uses + more + extra + [""]) + "\n" + "\n\n".join(answers) + "\n"
        with open(os.path.join(folder, "Answers.antt"), "w", encoding="utf-8") as f:
            f.write(text)
        wrote.append("Answers.antt")
    os.remove(proof)
    return True


CRATES = "crates"


def main():
    global CRATES
    folder, table = sys.argv[1].rstrip("/"), sys.argv[2]
    only = set(sys.argv[3:])
    crate = os.path.basename(folder)
    CRATES = os.path.dirname(folder)
    with open(table) as f:
        data = json.load(f)
    for k, v in sorted(data.items()):
        m = re.match(r"Rattle-" + crate + r"-proofs\.(.+)\.Lts$", k)
        if not m or only and m.group(1) not in only and m.group(1).split(".")[-1] not in only:
            continue
        path = m.group(1)
        at = os.path.join(folder, "proofs", *path.split("."))
        if not os.path.isfile(os.path.join(at, "Proof.antt")):
            continue
        said = []
        turn(at, crate, path, Names(v), said)
        for s in said:
            print(f"{crate} {path}: {s}")


main()
