#!/usr/bin/env python3
"""Turns the walked proofs of a crate (proofs/F/Proof.antt) into Invariants.antt and Answers.antt.

usage: answers.py CRATE_FOLDER NAMES_JSON [FUNCTION ..]

NAMES_JSON is what `rt check --generated DIR --old-names` writes for the crate: each goal's and each step's old and new name. An answer that is
only a search goes, since the check tries that itself. What has no new name is printed, to be done by hand.
"""
import json
import os
import re
import sys

NAME = r"[^\s(){}.;,@\"\[\]\\]+"


def norm(name):
    name = re.sub(r"_lem$", "", name)
    name = name.replace("_", "-").lower()
    for p in ("part-", "overflow-", "nonzero-", "offset-bounds-", "slice-bounds-"):
        if name.startswith(p):
            name = name[len(p):]
    name = name.replace("loop-holds", "loop-init").replace("loop-less", "loop-smaller").replace("loop-again", "loop-preserved")
    return re.sub("-+", "-", name)


def clauses(root):
    """By function path: the names of its requires and of its ensures, where a kind has several."""
    table = {}
    for crate in sorted(os.listdir(os.path.join(root, "crates"))):
        src = os.path.join(root, "crates", crate, "src")
        for at, _, files in os.walk(src):
            for fn in files:
                if not fn.endswith(".rt"):
                    continue
                mod = os.path.relpath(os.path.join(at, fn), src)[:-3].replace("/", "::")
                mod = "" if mod in ("lib", "main") else "::" + mod.removesuffix("::mod")
                with open(os.path.join(at, fn), encoding="utf-8") as it:
                    lines = it.read().split("\n")
                cur = None
                for line in lines:
                    m = re.match(r"\s*(?:pub )?(?:unsafe )?(?:extern \"C\" )?fn (\w+)", line)
                    if m:
                        cur = table.setdefault(crate + mod + "::" + m.group(1), {"requires": [], "ensures": []})
                    m = re.match(r"\s+(requires|ensures)\s+(\w+)\s*\{", line)
                    if m and cur is not None:
                        cur[m.group(1)].append(m.group(2))
                    if re.match(r"\{|\s*\{$", line):
                        cur = None
    return table


CLAUSES = {}
SOURCES = [""]


class Function:
    def __init__(self, entry):
        self.needs = entry["needs"]
        self.at = entry["asked_at"]
        self.loops = entry["loops"]
        self.changed = entry["changed"]
        self.places = {p[0]: p for p in entry["places"]}
        self.index = {p[0]: k for k, p in enumerate(entry["places"])}
        self.typed = entry.get("typed") or []
        self.args = entry.get("args") or []
        self.stem = entry.get("stem") or ""
        self.params = entry.get("params") or {}

    def need(self, name):
        """The index of the goal of this old name."""
        plain = [norm(a) for a, _ in self.needs]
        n = norm(name)
        if n in plain:
            return plain.index(n)
        return None

    def step(self, place, word):
        """The new name of the step `word` at `place` or above it; and the place."""
        p = place
        while p is not None:
            it = self.places.get(p)
            if it is None:
                return None, None
            old, new = it[2]
            if norm(old) == norm(word) and old:
                return new, p
            p = it[1]
        return None, None

    def up(self, place):
        it = self.places.get(place)
        return it[1] if it else None


def by_name(words, named):
    """Several clauses were pairs nested to the right; now each has a name."""
    n = len(named)
    if n < 2:
        return words
    k, rest = 0, words[1:]
    while rest and rest[0] == "1" and k < n - 1:
        k, rest = k + 1, rest[1:]
    if k < n - 1:
        if not rest:
            return [words[0]]  # several of them: the whole record, which a tactic enters
        if rest[0] != "0":
            return words
        rest = rest[1:]
    return [words[0], named[k]] + rest


def nested(text, n):
    """The n parts of pairs nested to the right, or None."""
    out = []
    while n > 1:
        two = parts_of(text)
        if two is None:
            if re.match(r"\s*(omega|search|grind)\b", text):
                return out + [text.strip()] * n
            return None
        if len(two) == n:
            return out + two
        if len(two) != 2:
            return None
        out.append(two[0])
        text, n = two[1], n - 1
    return out + [text.strip()]


def helper_of(para):
    """A helper about a place of the walk: its name, the place, its body; or None."""
    text = "\n".join(l for l in para if not l.startswith("--"))
    m = re.match(r"(" + NAME + r")\s*:\s*(?:\(t : ℕ\)\s*)?\(c : ([\w-]*?)(?:tie|-lts)\.(" + NAME + r")", text)
    if not m:
        return None
    b = re.search(r"^" + re.escape(m.group(1)) + r"(?: t)? c =\s*", text, re.M)
    return m.group(1), m.group(3), text[b.end():].strip(), m.group(2)


class Turner:
    helpers = {}

    def inline(self, t):
        """Puts each helper's body in the place of its call `h c.before..`."""
        names = "|".join(re.escape(x) for x in self.helpers)
        if not names:
            return t
        at = "|".join(re.escape(x) for x in self.env)
        rx = re.compile(r"(?<![\w'.-])(" + names + r")(?: t)? (" + at + r")((?:\.before)*)(?![\w'.-])")
        while True:
            m = rx.search(t)
            if not m:
                return t
            p = self.env[m.group(2)]
            for _ in range(m.group(3).count(".before")):
                p = self.f.up(p) if p else None
            place, body = self.helpers[m.group(1)]
            inner = Turner(self.f, p or place, self.own)
            inner.helpers = self.helpers
            body = inner.text(body)
            self.left += inner.left
            body = re.sub(r"\s*\n\s*", " ", body)
            if not (t[: m.start()].endswith("(") and t[m.end():].startswith(")")) and " " in body:
                body = "(" + body + ")"
            t = t[: m.start()] + body.replace("c.", "\u0001.") + t[m.end():]

    def __init__(self, f, place, own):
        self.f = f
        self.place = place
        self.own = own
        self.left = []
        self.env = {"c": place}

    def lets(self, t):
        """Drops each `let x = c.before.. in` whose value is a record of steps, and remembers the place."""
        while True:
            for m in re.finditer(r"let ([\w'-]+) = (" + NAME + r")((?:\.before)+) in\s*", t):
                if m.group(2) in self.env:
                    p = self.env[m.group(2)]
                    for _ in range(m.group(3).count(".before")):
                        p = self.f.up(p) if p else None
                    self.env[m.group(1)] = p
                    t = t[: m.start()] + t[m.end() :]
                    break
            else:
                break
        while True:
            names = "|".join(re.escape(x) for x in self.env)
            m = re.search(r"let ([\w'-]+) = ((?:" + names + r")(?:\.[\w'-]+)*\.(?:requires|ensures)) in\s*", t)
            if not m:
                return t
            rest = re.sub(r"(?<![\w'.-])" + re.escape(m.group(1)) + r"(?![\w'-])", m.group(2), t[m.end():])
            t = t[: m.start()] + rest

    def clause(self, new, at, words):
        """`ensures.1.0` by the name of the clause."""
        callee = self.f.places[at][3]
        if len(words) > 1 and words[0] == "ensures":
            return by_name(words, CLAUSES.get(callee or "", {}).get("ensures", []))
        if len(words) > 1 and words[0] in ("new", "auto") and words[1].isdigit():
            of = self.f.params.get(callee or "", [])
            if len(of) == 1 and words[1] == "0":
                return [words[0], of[0]] + words[2:]
            out = by_name(words, of)
            # These pairs end with a unit, so that the last is one step further in.
            return out[:2] + out[3:] if out[1] == of[-1] and out[2:3] == ["0"] else out
        return words

    def path(self, m):
        words = m.group(0).split(".")
        p = self.env[words[0]]
        start = p
        words = words[1:]
        while words and words[0] == "before":
            p = self.f.up(p) if p else None
            words = words[1:]
        if not words:
            self.left.append(m.group(0))
            return m.group(0)
        w = words[0]
        if w == "requires":
            words = by_name(words, CLAUSES.get(self.own, {}).get("requires", []))
        if w in ("args", "ranges", "requires", "lifetimes", "well_formed", "type_inv"):
            return ".".join(["c"] + words)
        if w == "fits2" and not any(norm(q[2][0]) == "fits2" for q in self.f.places.values()):
            w = "fits"
        new, at = self.f.step(p or start, w)
        if new is None:
            new, at = self.f.step(start, w)
        if new is None:
            new, at = self.f.step(self.place, w)
        if new is None:
            self.left.append(m.group(0))
            return ".".join(["c"] + words)
        if words[1:2] == ["given"] and w.startswith("shared"):
            k = self.f.index.get(self.place)
            if k is not None and k < len(self.f.typed):
                for var, known in self.f.typed[k]:
                    if norm(known) == norm(w):
                        return ".".join(["c", "type_inv", var] + words[2:])
            # any place that tells it
            for row in self.f.typed:
                for var, known in row:
                    if norm(known) == norm(w):
                        return ".".join(["c", "type_inv", var] + words[2:])
        return ".".join(["c", new] + self.clause(new, at, words[1:]))

    def text(self, t):
        t = self.inline(self.lets(t))
        names = "|".join(re.escape(x) for x in sorted(self.env, key=len, reverse=True))
        t = re.sub(r"(?<![\w'.-])(?:" + names + r")(?:\.(?:" + NAME + r"))+", self.path, t)
        t = re.sub(r"(c\.wrapping_[\w-]+\.ensures)(?![\w.])", r"\1.value", t)
        t = t.replace("\u0001", "c").replace(".type-inv", ".type_inv").replace(".well-formed", ".well_formed")
        for a, b in self.f.args:
            ma, mb = re.match(r"\.args \.(t\d+)$", a), re.match(r"\.args \.(\w+)$", b)
            if ma and mb:
                t = re.sub(r"(?<=\.)" + ma.group(1) + r"(?![\w'-])", mb.group(1), t)
        def plain(m):
            x = re.match(r"c\.if-not-([\w-]+?)(?:-in-[\w-]+)?(?:-\d+)?\.", m.group(1)).group(1)
            # A field's negation is kept as it is written.
            return m.group(0) if re.search(r"!" + re.escape(x) + r"\.\w+\b(?!\()", SOURCES[0]) else m.group(1)
        t = re.sub(r"\(not-(?:true|false) _ (c\.if-not-[\w-]+\.(?:true|false))\)", plain, t)
        t = re.sub(r"not-(?:true|false) _ (c\.if-not-[\w-]+\.(?:true|false))", plain, t)
        return t


def parts_of(text):
    """The parts of a tuple, or None."""
    text = text.strip()
    if not (text.startswith("(") and text.endswith(")")):
        return None
    depth, out, cur = 0, [], ""
    for k, ch in enumerate(text):
        if ch in "([{":
            depth += 1
            if depth == 1:
                continue
        if ch in ")]}":
            depth -= 1
            if depth == 0:
                if k != len(text) - 1:
                    return None
                break
        if ch == "," and depth == 1:
            out.append(cur.strip())
            cur = ""
        else:
            cur += ch
    if cur.strip():
        out.append(cur.strip())
    return out


TRIVIAL = re.compile(r"^[\s(),]*(?:search rules(?:[\s(),]|search rules)*)$")


def paragraphs(text):
    """The definitions of a file: lists of lines, with their comments."""
    out, cur = [], []
    for line in text.split("\n"):
        if line.strip() == "":
            if cur:
                out.append(cur)
            cur = []
        elif line and not line[0].isspace() and re.match(r"(?:(?:abbrev|unfoldable)\s+)?(?:pub\s+)?(" + NAME + r")\s*:", line) and cur and not all(l.startswith("--") for l in cur):
            out.append(cur)
            cur = [line]
        else:
            cur.append(line)
    if cur:
        out.append(cur)
    return out


def subst(body, pairs):
    table = {old: new for old, new in pairs if old != "_"}
    if not table:
        return body
    names = "|".join(re.escape(x) for x in sorted(table, key=len, reverse=True))
    return re.sub(r"(?<![\w'.\-₀-₉′])(" + names + r")(?![\w'\-₀-₉′])", lambda m: table[m.group(1)], body)


def convert(folder, crate, path, f, say):
    proof = os.path.join(folder, "proofs", path, "Proof.antt")
    with open(proof, encoding="utf-8") as it:
        text = it.read()
    paras = paragraphs(text)
    head, uses, inv, ans, helpers, left = [], [], [], [], [], []
    module = path.replace("/", ".")
    tied = {}
    for para in paras:
        h = helper_of(para)
        if h:
            place = next((p for p in f.places if norm(p) == norm(h[1])), None)
            tied[h[0]] = (place, h[2])
    for para in paras:
        body = "\n".join(l for l in para if not l.startswith("--"))
        m = re.match(r"(" + NAME + r")\s*:\s*tie\.Need-(\S+)", body)
        b = re.search(r"^" + re.escape(m.group(1)) + r" c(?: \S+)? =\s*", body, re.M) if m else None
        n = f.need(m.group(2)) if m else None
        if b and n is not None and not TRIVIAL.match(body[b.end():].replace("\n", " ")):
            tied[m.group(1)] = (f.at[n][0], body[b.end():].strip())
    Turner.helpers = tied
    for para in paras:
        if helper_of(para):
            continue
        comments = [l for l in para if l.startswith("--")]
        lines = [l for l in para if not l.startswith("--")]
        use = [l for l in lines if l.startswith("use ")]
        lines = [l for l in lines if not l.startswith("use ")]
        if use:
            uses += [u for u in use if not re.search(r"\.(Statement|Tie|Lts\S*|Kinds|Reads)(\.| as |$)", u) and "borrow.Fn" not in u]
        if not lines:
            head += comments
            continue
        sig = lines[0]
        m = re.match(r"(?:(?:abbrev|unfoldable)\s+)?(?:pub\s+)?(" + NAME + r")\s*:\s*(.*)$", sig)
        if not m:
            left.append(para)
            continue
        name, typ = m.group(1), m.group(2)
        # a signature may go on over lines
        k = 1
        while k < len(lines) and lines[k][0].isspace():
            typ += " " + lines[k].strip()
            k += 1
        rest = lines[k:]
        unfolding = []
        while rest and rest[0].startswith("unfolding "):
            unfolding.append(rest[0])
            rest = rest[1:]
        body = "\n".join(rest)
        if re.search(r"[_-]spec$", name):
            continue
        mi = re.match(r"tie\.(invariant|decreases)-(\S+)$", typ)
        if mi:
            kind, loop = mi.group(1), mi.group(2)
            hit = [k for k, (pair, _) in enumerate(f.loops) if norm(pair[0]) == norm(loop)]
            if not hit:
                left.append(para)
                continue
            k = hit[0]
            (old, new), vs = f.loops[k]
            changed = f.changed[k]
            params = [(v, ch) for v, ch in zip(vs, changed)]
            mb = re.match(re.escape(name) + r"((?:\s+\S+)*?)\s+=\s*", body)
            if not mb:
                left.append(para)
                continue
            given = mb.group(1).split()
            want = [("l.initial." + v) if ch else ("l." + v) for v, ch in params] + ["l." + v for v, ch in params if ch]
            if len(given) != len(want):
                say(f"{path}: {name}: {len(given)} parameters, {len(want)} wanted: {given} / {want}")
                left.append(para)
                continue
            value = subst(body[mb.end():], list(zip(given, want)))
            inv.append(comments + [f"abbrev pub {kind}-{new} : goal.{kind}-{new}"] + unfolding + [f"{kind}-{new} l = {value}"])
            continue
        mn = re.match(r"tie\.Need-(\S+)(.*)$", typ)
        if mn:
            n = f.need(mn.group(1))
            mb = re.match(re.escape(name) + r"((?:\s+\S+)*?)\s+=\s*", body)
            if n is None or not mb:
                value = body[mb.end():] if mb else body
                if not TRIVIAL.match(value):
                    left.append(para)
                    say(f"{path}: no goal for {mn.group(1)}")
                continue
            value = body[mb.end():]
            if TRIVIAL.match(value.replace("\n", " ")) and not unfolding:
                continue
            old, new = f.needs[n]
            own = crate + "::" + path.replace("/", "::")
            t = Turner(f, f.at[n][0], own)
            t.helpers = {k: v for k, v in tied.items() if k != name}
            given = mb.group(1).split()
            if given[:1] != ["c"]:
                say(f"{path}: {name}: first argument is {given}")
            value = t.text(value)
            value = re.sub(r"^\s*\n", "\n", value)
            arm = re.search(r"(?:^|-)in-([A-Z]\w*)", new)
            if arm:
                value = re.sub(r"c\.[\w-]+\.given\.1(?!\w)", f"c.in-{arm.group(1)}.is", value)
            for x in t.left:
                say(f"{path}: {new}: no step for {x}")
            if "\n" in value and not value.startswith("\n"):
                value = "\n    " + value
            sep = "" if value.startswith("\n") else " "
            named = []
            if norm(old).startswith("returns"):
                named = CLAUSES.get(own, {}).get("ensures", [])
            mr = re.match(r"(.*)-requires(-\d+)?$", norm(old))
            if mr:
                callee = [x for x in f.params if norm(x.split("::")[-1]) == mr.group(1)]
                named = CLAUSES.get(callee[0], {}).get("requires", []) if callee else []
            if len(named) > 1:
                ml = re.match(r"\s*((?:let [\w'-]+ (?::[^=]*)?= [^\n]*? in\s+)*)(\(.*\))\s*$", value, re.S)
                parts = nested(ml.group(2), len(named)) if ml else None
                if parts and len(parts) == len(named):
                    for nm, part in zip(named, parts):
                        if TRIVIAL.match(part.replace("\n", " ")) and not unfolding:
                            continue
                        lets = ml.group(1)
                        for one in re.findall(r"let ([\w'-]+) (?::[^=]*)?= [^\n]*? in\s+", lets):
                            if not re.search(r"(?<![\w'.-])" + re.escape(one) + r"(?![\w'-])", part + lets.split("let " + one + " ", 1)[1].split("=", 1)[1]):
                                lets = re.sub(r"let " + re.escape(one) + r" (?::[^=]*)?= [^\n]*? in\s+", "", lets)
                        if "\n" in lets + part:
                            lets = "\n    " + lets
                        ans.append(comments + [f"pub {new}-clause-{nm} : goal.{new}-clause-{nm}"] + unfolding + [f"{new}-clause-{nm} c ={'' if lets.startswith(chr(10)) else ' '}{lets}{part}"])
                    continue
                say(f"{path}: {new}: clauses {named} to be parted by hand")
            ans.append(comments + [f"pub {new} : goal.{new}"] + unfolding + [f"{new} c ={sep}{value}"])
            continue
        if "tie." in "\n".join(para) or re.search(r"\bc\.before", "\n".join(para)):
            say(f"{path}: helper {name} speaks of the tie")
        helpers.append(para)
    base = os.path.join(folder, "proofs", path)
    mod = f"Rattle.{crate}.proofs.{module}"
    body_of = lambda ps: "\n\n".join("\n".join(p) for p in ps)
    names_of = lambda ps: set(re.findall(NAME, body_of(ps)))
    for fname, parts, given in (("Invariants.antt", inv, "Given"), ("Answers.antt", helpers + ans, "Goals")):
        if not parts or (fname == "Answers.antt" and not ans and not (helpers and not inv)):
            continue
        words = names_of(parts)
        keep = []
        for u in uses:
            mu = re.match(r"use (\S+)\.\{(.*)\}$", u)
            if mu:
                each = [x.strip() for x in mu.group(2).split(",")]
                def used(x):
                    x = x.split(" as ")[-1].strip()
                    if "◌" in x:
                        bits = [b for b in x.split("◌") if b]
                        return all(b in body_of(parts) for b in bits)
                    return x in words or x in body_of(parts)
                each = [x for x in each if used(x)]
                if each:
                    keep.append(f"use {mu.group(1)}.{{{', '.join(each)}}}")
            else:
                keep.append(u)
        out = (head if fname == "Invariants.antt" or not inv else []) + keep + [f"use {mod}.{given} as goal"]
        out = "\n".join(out) + "\n\n" + body_of(parts) + "\n"
        with open(os.path.join(base, fname), "w", encoding="utf-8") as it:
            it.write(out)
    if inv and helpers and not ans:
        say(f"{path}: helpers without answers")
    if left:
        say(f"{path}: left to be done by hand:\n" + body_of(left))
    os.remove(proof)


def cycle(folder, crate, path, fs, say):
    """A cycle: the answers of its functions, each with the measure's value first."""
    base = os.path.join(folder, "proofs", path)
    with open(os.path.join(base, "Proof.antt"), encoding="utf-8") as it:
        text = it.read()
    several = len(fs) > 1
    uses, ans, inv, head = [], [], [], []
    module = path.replace("/", ".")
    parent = crate + "::" + "::".join(p for p in path.split("/")[:-1])
    Turner.helpers = {}
    for para in paragraphs(text):
        h = helper_of(para)
        if h:
            f = fs[norm(h[3].rstrip("-"))]
            Turner.helpers[h[0]] = (next((p for p in f.places if norm(p) == norm(h[1])), None), h[2])
    for para in paragraphs(text):
        if helper_of(para):
            continue
        comments = [l for l in para if l.startswith("--")]
        lines = [l for l in para if not l.startswith("--")]
        use = [l for l in lines if l.startswith("use ")]
        lines = [l for l in lines if not l.startswith("use ")]
        uses += [u for u in use if not re.search(r"\.(Statement|Tie|Lts\S*|Kinds|Reads)(\.| as |$)", u) and "borrow.Fn" not in u and ".{statement}" not in u]
        if not lines:
            head += comments
            continue
        m = re.match(r"(?:(?:abbrev|unfoldable)\s+)?(?:pub\s+)?(" + NAME + r")\s*:\s*(.*)$", lines[0])
        name, typ = m.group(1), m.group(2)
        rest = lines[1:]
        unfolding = []
        while rest and rest[0].startswith("unfolding "):
            unfolding.append(rest[0])
            rest = rest[1:]
        body = "\n".join(rest)
        if name.endswith("spec"):
            continue
        mi = re.match(r"(\S+?)-lts\.(invariant|decreases)-(\S+)$", typ)
        if mi:
            f = fs[norm(mi.group(1))]
            kind, loop = mi.group(2), mi.group(3)
            hit = [k for k, (pair, _) in enumerate(f.loops) if norm(pair[0]) == norm(loop)]
            (old, new), vs = f.loops[hit[0]]
            params = list(zip(vs, f.changed[hit[0]]))
            mb = re.match(re.escape(name) + r"((?:\s+\S+)*?)\s+=\s*", body)
            want = [("l.initial." + v) if ch else ("l." + v) for v, ch in params] + ["l." + v for v, ch in params if ch]
            given = mb.group(1).split()
            if len(given) != len(want):
                say(f"{path}: {name}: {len(given)} parameters, {len(want)} wanted: {given} / {want}")
                continue
            inv.append(comments + [f"abbrev pub {kind}-{new} : goal.{kind}-{new}", f"{kind}-{new} l = " + subst(body[mb.end():], list(zip(given, want)))])
            continue
        mn = re.match(r"\(t : ℕ\) → (\S+?)-lts\.Need-(\S+)", typ)
        if mn:
            f = fs[norm(mn.group(1))]
            n = f.need(mn.group(2))
            mb = re.match(re.escape(name) + r"((?:\s+\S+)*?)\s+=\s*", body)
            value = body[mb.end():]
            if TRIVIAL.match(value.replace("\n", " ")) and not unfolding:
                continue
            if n is None:
                say(f"{path}: no goal for {mn.group(2)}")
                continue
            new = f.needs[n][1]
            t = Turner(f, f.at[n][0], parent + "::" + mn.group(1))
            value = re.sub(r"^\s*\n", "\n", t.text(value))
            value = re.sub(r"c\.requires\.1(?!\d)", "c.requires", value.replace("arith, c.requires.0, ", "arith, "))
            for x in t.left:
                say(f"{path}: {new}: no step for {x}")
            if several and not new.startswith(f.stem or "\0"):
                new = f"{f.label}-{new}"
            if "\n" in value and not value.startswith("\n"):
                value = "\n    " + value
            ans.append(comments + [f"pub {new} : goal.{new}"] + unfolding + [f"{new} t c ={'' if value.startswith(chr(10)) else ' '}{value}"])
            continue
        say(f"{path}: left: {name} : {typ[:80]}")
    body_of = lambda ps: "\n\n".join("\n".join(p) for p in ps)
    mod = f"Rattle.{crate}.proofs.{module}"
    for fname, parts, given in (("Invariants.antt", inv, "Given"), ("Answers.antt", ans, "Goals")):
        if parts:
            with open(os.path.join(base, fname), "w", encoding="utf-8") as it:
                it.write("\n".join((head if given == "Given" else []) + uses + [f"use {mod}.{given} as goal"]) + "\n\n" + body_of(parts) + "\n")
    os.remove(os.path.join(base, "Proof.antt"))


def main():
    folder, names = sys.argv[1], sys.argv[2]
    only = sys.argv[3:]
    crate = os.path.basename(os.path.abspath(folder))
    with open(names, encoding="utf-8") as it:
        table = json.load(it)
    src = os.path.join(folder, "src")
    SOURCES[0] = "\n".join(open(os.path.join(a, x), encoding="utf-8").read() for a, _, fs in os.walk(src) for x in fs)
    CLAUSES.update(clauses(os.path.join(folder, "..", "..")))
    fs = {}
    for key, entry in table.items():
        m = re.match(r"Rattle-" + crate + r"-proofs\.(.*)\.Lts(-\S+)?$", key)
        if m and isinstance(entry, dict) and "needs" in entry:
            fs.setdefault(m.group(1).replace(".", "/"), Function(entry))
    say = print
    for dirpath, dirs, files in sorted(os.walk(os.path.join(folder, "proofs"))):
        if "Proof.antt" not in files:
            continue
        path = os.path.relpath(dirpath, os.path.join(folder, "proofs"))
        if only and path not in only:
            continue
        if "+" in path:
            def labelled(k, e):
                it = Function(e)
                it.label = k.rsplit("Lts-", 1)[1]
                return it
            of = {norm(k.rsplit("Lts-", 1)[1]): labelled(k, e) for k, e in table.items() if isinstance(e, dict) and ".Lts-" in k and k.split(".Lts-")[0].endswith("." + path.replace("/", ".")) and "needs" in e}
            cycle(folder, crate, path, of, say)
            continue
        f = fs.get(path)
        if f is None:
            say(f"{path}: not in the names")
            continue
        convert(folder, crate, path, f, say)


main()
