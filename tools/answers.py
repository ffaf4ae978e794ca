#!/usr/bin/env python3
"""Turns a function's older Proof.antt into Invariants.antt and Answers.antt, by the names that a check gives.

usage: tools/answers.py CRATE..     at the top of the repository; runs `rt check --generated FOLDER --old-names` in each crate

An answer that only says `search rules` goes. What stays keeps its words, with each place of the walk under today's name. A file that has no plain
walk, or whose goals can't be told, stays as it is, and is printed.
"""
import json
import os
import re
import subprocess
import sys
import tempfile

TOKEN = r"[^\s(){}.;,@\"«»:\[\]|]+"


def norm(name):
    name = name.replace("-", "_")
    return (name[:-4] if name.endswith("_lem") else name).lower()


def blocks(text):
    """The declarations of a file: (name, type, unfolding lines, clauses), and what stands before them."""
    lines = text.split("\n")
    head, out, i = [], [], 0
    while i < len(lines) and (lines[i].startswith(("--", "use ", "    ", "}")) or not lines[i].strip()):
        if lines[i].strip() or not head:
            head.append(lines[i])
        i += 1
        if re.match(r"^(?:(?:pub|abbrev|unfoldable) )*(%s) : " % TOKEN, lines[i] if i < len(lines) else ""):
            break
    rest = "\n".join(lines[i:])
    for b in re.split(r"\n\s*\n", rest):
        b = b.strip("\n")
        if b:
            out.append(b)
    return [h for h in head if h.strip()], out


def contracts():
    """The names of the clauses of each function, where it has more than one of a kind: {path: (requires, ensures)}."""
    out = {}
    for crate in os.listdir("crates"):
        for folder, _, files in os.walk(os.path.join("crates", crate, "src")):
            for f in files:
                if not f.endswith(".rt"):
                    continue
                module = [] if f in ("lib.rt", "main.rt") else [f[:-3]]
                text = open(os.path.join(folder, f), encoding="utf-8").read()
                for m in re.finditer(r"(?ms)^\s*(?:pub )?fn (\w+).*?^\s*\{$", text):
                    kinds = [re.findall(r"(?m)^\s+%s(?: (\w+))? \{" % k, m.group(0)) for k in ("requires", "ensures")]
                    out["::".join([crate] + module + [m.group(1)])] = kinds
    return out


CLAUSES = contracts() if __name__ == "__main__" else {}


def clause(names, fields):
    """Where the fields of the older pair of clauses lead: the clause's name and the fields left, or None inside the pairs."""
    i = 0
    while i < len(names):
        last = i == len(names) - 1
        if last:
            return [names[i]] + fields
        if not fields:
            return None
        if fields[0] == "0":
            return [names[i]] + fields[1:]
        if fields[0] != "1":
            return None
        i, fields = i + 1, fields[1:]
    return None


class Walk:
    own = ""

    def __init__(self, names, told, cycle=False):
        self.told = told
        self.cycle = cycle
        self.stem = names["stem"]
        self.places = {p[0]: p for p in names["places"]}
        self.needs = names["needs"]
        self.asked_at = names["asked_at"]
        self.loops = names["loops"]
        self.changed = names["changed"]
        self.arms = dict(zip((p[0] for p in names["places"]), names["arms"]))

    def need(self, old, index):
        """The number of the goal that an older name has."""
        want = norm(old)
        for cut in (want, re.sub(r"^overflow_", "", want)):
            for i, (a, b) in enumerate(self.needs):
                if norm(a) == cut:
                    return i
        if index < len(self.needs):
            a = norm(self.needs[index][0])
            if a.split("_")[-1] == want.split("_")[-1]:
                return index
        return None

    def named(self, words):
        """The path with its clauses' names; the second answer is whether it ends between the clauses."""
        if words is None:
            return words, False
        if len(words) == 2:
            who = next((p[3] for p in self.places.values() if p[2][1] == words[1]), None)
            if len(CLAUSES.get(who or "", [[], []])[1]) > 1:
                return words, True
        for i, kind in ((1, 0), (2, 1)):
            if len(words) > i and words[i] == ("requires", "ensures")[kind]:
                who = self.own
                if kind == 1:
                    who = next((p[3] for p in self.places.values() if p[2][1] == words[1]), None)
                names = CLAUSES.get(who or "", [[], []])[kind]
                if len(names) > 1:
                    rest = clause(names, words[i + 1 :])
                    if rest is None:
                        return words, True
                    return words[: i + 1] + rest, False
        return words, False

    def path(self, place, fields):
        """What a place's record and these fields are called from c today; the place itself where no field is left."""
        fields = list(fields)
        named = fields
        while fields and fields[0] == "before":
            parent = self.places[place][1]
            if parent is None:
                fields = [x for x in fields if x != "before"]
                break
            place = parent
            fields.pop(0)
        if not fields:
            return place, None
        f = fields.pop(0)
        old, new = self.places[place][2]
        if norm(f) in ("args", "requires", "ranges", "well_formed", "lifetimes"):
            if self.cycle and f == "requires" and fields:
                return place, ["c", "requires" if fields[0] == "1" else "decreases"] + fields[1:]
            return place, ["c", norm(f)] + fields
        fields = ["branch-raw" if x == "branch" and place.startswith("Joined") else x for x in fields]
        if old and norm(f) == norm(old):
            arm = self.arm(place, old, fields)
            return place, arm or ["c", new] + fields
        if old and norm(f) in (norm(old).split("_")[-1], norm(re.sub(r"^(enum_)?known_?", "", norm(old)))):
            return place, ["c", new] + fields
        # the older walk had a place more or less: the nearest step of that name
        chain, p = [], self.asked
        while p is not None:
            chain.append(p)
            p = self.places[p][1]
        at = chain.index(place) if place in chain else 0
        near = [(abs(i - at), i) for i, p in enumerate(chain) if self.places[p][2][0] and norm(self.places[p][2][0]) == norm(f)]
        if near:
            p = chain[min(near)[1]]
            old, new = self.places[p][2]
            return place, self.arm(p, old, fields) or ["c", new] + fields
        self.told(f"no step {f} at {place} ({self.places[place][2]})")
        return place, ["c", f] + fields

    def arm(self, place, old, fields):
        """A step that today stands in the record of a match's arm."""
        at = self.asked
        while at is not None:
            arm = self.arms.get(at)
            if arm:
                p = at
                for _ in range(arm[1]):
                    if p == place:
                        fit = [(len(more), own) for own, step, more in arm[2] if step == old and fields[: len(more)] == more]
                        if fit:
                            n, own = max(fit)
                            return ["c", arm[0], own] + fields[n:]
                    p = self.places[p][1] if p else None
            if at == place:
                return None
            at = self.places[at][1]
        return None

    def in_arm(self, new):
        """Is this a step that stands only in the record of a match's arm today?"""
        old = [p[2][0] for p in self.places.values() if p[2][1] == new]
        return any(step in old for arm in self.arms.values() if arm for _, step, more in arm[2] if more)

    def turn(self, body, var, place):
        env = {var: place}
        self.asked = place
        out, i = [], 0
        binding = re.compile(r"let (%s) = (%s(?:\.%s)*) in\s*" % (TOKEN, TOKEN, TOKEN))
        while i < len(body):
            m = binding.match(body, i)
            if m and (i == 0 or not re.match(r"[\w'-]", body[i - 1])):
                parts = m.group(2).split(".")
                if parts[0] in env:
                    base, prefix = env[parts[0]] if isinstance(env[parts[0]], tuple) else (env[parts[0]], [])
                    where, words = self.path(base, prefix + parts[1:])
                    if words is None and where:
                        env[m.group(1)] = where
                        i = m.end()
                        continue
                    words, between = self.named(words)
                    if between or len(words) == 2 and self.in_arm(words[1]):
                        env[m.group(1)] = (where, [x for x in prefix + parts[1:] if x != "before"])
                        i = m.end()
                        continue
            m = re.compile(r"%s(?:\.%s)*" % (TOKEN, TOKEN)).match(body, i)
            if m and (i == 0 or re.match(r"[\s(){};,\[\]|]", body[i - 1])):
                parts = m.group(0).split(".")
                tail = ""
                if parts[0] in env:
                    base, prefix = env[parts[0]] if isinstance(env[parts[0]], tuple) else (env[parts[0]], [])
                    where, words = self.path(base, prefix + parts[1:])
                    words, between = self.named(words)
                    if between and len(words) > (3 if words[2:3] == ["ensures"] else 2):
                        self.told("between clauses: " + ".".join(words))
                    if words is None:
                        if len(parts) == 1 and parts[0] == var:
                            out.append("c")
                        else:
                            self.told(f"a whole record: {m.group(0)} at {where}")
                            out.append(m.group(0))
                    else:
                        out.append(".".join(words))
                else:
                    out.append(m.group(0))
                i = m.end()
                continue
            out.append(body[i])
            i += 1
        return "".join(out)


def measures(decl, params, told):
    """A cycle's measure over its arguments' names."""
    m = re.match(r"abbrev μ-(%s) :[^\n]*\nμ-\S+ κs a =(.*)$" % TOKEN, decl, re.S)
    fn, body = norm(m.group(1)), m.group(2)
    own = next((v for k, v in params.items() if k.split("::")[-1] == fn), None)
    if own is None:
        told(f"no parameters of {fn}")
        return ""

    def arg(a):
        return "l." + own[a.group(1).count("1")]

    body = re.sub(r"(?<![\w.])a((?:\.1)*)\.0(?![\w'])", arg, body)
    return f"abbrev pub decreases-{fn} : goal.decreases-{fn}\ndecreases-{fn} l ={body}"


def convert(path, names, crate, fn, told):
    text = open(path, encoding="utf-8").read()
    cycle = fn[-1].startswith("+")
    if "tie.close" not in text and not cycle:
        told("no plain walk")
        return False
    if cycle:
        top, _, inner = text.partition("module _ (t : ℕ) where\n")
        inner, _, last = inner.partition("\npub +")
        text = top + "\n".join(l[2:] if l.startswith("  ") else l for l in inner.split("\n"))
    head, decls = blocks(text)
    walks = {norm(k): Walk(n, told, cycle) for k, n in names.items()}
    walk = walks.get("")
    comment = [h for h in head if h.startswith("--")]
    uses = []
    for h in head:
        if h.startswith("use ") and not re.search(r"\.(Statement\.\{statement\}|Tie as tie)|\{statement\}|Tie\.\{close\}|\.Reads as |\.Kinds as |\.Lts-\S+ as |use borrow\.Fn\.", h):
            uses.append(h)
        elif not h.startswith(("use ", "--")):
            uses[-1] += "\n" + h
    answers, invariants, helpers = [], [], []
    index = 0
    for b in decls:
        m = re.match(r"^((?:--[^\n]*\n)*)((?:(?:pub|abbrev|unfoldable) )*)(%s) : (.*)$" % TOKEN, b, re.S)
        if not m:
            told("not understood: " + b[:60])
            helpers.append(b)
            continue
        note, marks, name, rest = m.groups()
        sig, _, body = rest.partition("\n")
        if "statement" in sig and (name.endswith("spec")):
            continue
        if cycle and name.startswith("μ-"):
            params = {}
            for n in names.values():
                params.update(n["params"])
            invariants.append(measures(b, params, told))
            continue
        if cycle and re.match(r"In \d+ |\S+-lts\.Claims", sig):
            continue
        need = re.match(r"(?:tie|(\S+)-lts)\.Need-(%s)" % TOKEN, sig)
        if need:
            old = need.group(2)
            if cycle:
                if walk is not walks[norm(need.group(1))]:
                    walk, index = walks[norm(need.group(1))], 0
            i = walk.need(old, index)
            index += 1
            if i is None:
                told(f"no goal for {old}")
                continue
            new = walk.stem + walk.needs[i][1]
            place = walk.asked_at[i][0]
            unfold = re.match(r"((?:unfolding [^\n]*\n)*)", body).group(1)
            clauses = body[len(unfold) :]
            n = re.match(r"(%s)((?: %s)*?) =(?=\s)" % (TOKEN, TOKEN), clauses)
            if not n:
                told("clauses not understood: " + clauses[:60])
                continue
            args = n.group(2).split()
            rhs = clauses[n.end() :]
            if rhs.strip() == "search rules" and not unfold:
                continue
            if args[0] == "_":
                args[0] = "c"
            for more in args[1:]:
                if re.search(r"(?<![\w'-])%s(?![\w'-])" % re.escape(more), rhs):
                    told(f"{name} uses {more}")
            walk.own = "::".join([crate] + ([*fn[:-1], norm(need.group(1))] if cycle else fn))
            rhs = walk.turn(rhs, args[0], place)
            rhs = re.sub(r"not-(?:true|false) (?:%s) (c\.if-not[\w'.-]*\.(?:true|false))" % r"(?:[^\s(),]+|\([^()]*\))", r"\1", rhs)
            answers.append((i, f"{note}pub {new} : goal.{new}\n{unfold}{new} {'t ' if cycle else ''}c ={rhs}"))
        elif re.match(r"(?:tie|\S+-lts)\.(invariant|decreases)-", sig):
            of, old = re.match(r"(?:tie|(\S+)-lts)\.((?:invariant|decreases)-%s)" % TOKEN, sig).groups()
            if of:
                walk, index = walks[norm(of)], 0
            kind, which = old.split("-", 1)
            i = next((k for k, (pair, _) in enumerate(walk.loops) if norm(pair[0]) == norm(which) or norm(pair[0]) == norm(which).replace("_", "")), None)
            if i is None:
                told(f"no loop {which}: {[p for p, _ in walk.loops]}")
                continue
            pair, variables = walk.loops[i]
            new = f"{kind}-{walk.stem}{pair[1]}"
            unfold = re.match(r"((?:unfolding [^\n]*\n)*)", body).group(1)
            clauses = body[len(unfold) :]
            n = re.match(r"(%s)((?: (?:%s|\([^)]*\)))*?) =(?=\s)" % (TOKEN, TOKEN), clauses)
            args = n.group(2).split()
            fields = [f"l.initial.{v}" if ch else f"l.{v}" for v, ch in zip(variables, walk.changed[i])] + [f"l.{v}" for v, ch in zip(variables, walk.changed[i]) if ch]
            rhs = clauses[n.end() :]
            if len(args) > len(fields):  # a temporary is no variable of the loop today
                args = [a for a in args if not re.match(r"t\d+₀?$", a)]
            if len(fields) != len(args):
                told(f"{old}: {len(args)} arguments for {variables} {walk.changed[i]}")
                continue
            table = {a: f for a, f in zip(args, fields) if a != "_"}
            bound = set(re.findall(r"λ ((?:%s )+)\." % TOKEN, rhs)) | set(re.findall(r"\(((?:%s )+): " % TOKEN, rhs)) | {x + " " for x in re.findall(r"λ (%s)\." % TOKEN, rhs)}
            for names_ in bound:
                for x in names_.split():
                    if x in table:
                        told(f"{old}: {x} is bound again")
            rhs = re.sub(r"(?<![^\s(){};,\[\]|])(%s)" % TOKEN, lambda m_: table.get(m_.group(1), m_.group(1)), rhs)
            invariants.append(f"{note}abbrev pub {new} : goal.{new}\n{unfold}{new} l ={rhs}")
        else:
            helpers.append(b)
    folder = os.path.dirname(path)
    module = ".".join(["Rattle", crate, "proofs"] + fn)
    both = "\n".join(helpers)

    def write(file, kind, decls):
        if not decls:
            return
        body = "\n\n".join(decls)
        kept = []
        for u in uses:
            m = re.match(r"use (\S+?)\.\{(.*)\}$", u, re.S)
            if m:
                items = [x.strip() for x in m.group(2).replace("\n", " ").split(",") if x.strip()]
                keep = [x for x in items if uses_item(x.split(" as ")[-1], body)]
                if keep:
                    kept.append(f"use {m.group(1)}.{{{', '.join(keep)}}}")
            else:
                kept.append(u)
        kept.append(f"use {module}.{kind} as goal")
        open(os.path.join(folder, file), "w", encoding="utf-8").write("\n".join(comment + kept) + "\n\n" + body + "\n")

    write("Invariants.antt", "Given", [h for h in helpers if uses_item(re.match(r"(?:--[^\n]*\n)*(?:(?:pub|abbrev|unfoldable) )*(%s)" % TOKEN, h).group(1), "\n".join(invariants))] + invariants if invariants else [])
    write("Answers.antt", "Goals", helpers + [a for _, a in answers] if answers else [])
    os.remove(path)
    return True


def uses_item(item, body):
    if "◌" in item:
        return all(p in body for p in item.split("◌") if p)
    return re.search(r"(?<![^\s(){}.;,@\[\]|])%s(?![^\s(){}.;,@\[\]|])" % re.escape(item), body) is not None


def main():
    for crate in sys.argv[1:]:
        where = os.path.join("crates", crate)
        given = tempfile.mkdtemp()
        subprocess.run(["rt", "check", "--generated", given, "--old-names"], cwd=where, stdout=subprocess.DEVNULL, stderr=subprocess.DEVNULL)
        try:
            names = json.load(open(os.path.join(given, "names.json")))
        except OSError:
            print(f"{crate}: no names: rt check --generated says why")
            continue
        for folder, _, files in os.walk(os.path.join(where, "proofs")):
            if "Proof.antt" not in files:
                continue
            fn = os.path.relpath(folder, os.path.join(where, "proofs")).split(os.sep)
            key = f"Rattle-{crate}-proofs." + ".".join(fn) + ".Lts"
            says = []
            own = {k[len(key) :].lstrip("-"): v for k, v in names.items() if k == key or (fn[-1].startswith("+") and k.startswith(key + "-"))}
            if not own:
                print(f"{crate}: {'.'.join(fn)}: no names")
                continue
            try:
                convert(os.path.join(folder, "Proof.antt"), own, crate, fn, says.append)
            except Exception as e:
                says.append("failed: " + repr(e))
            for s in says:
                print(f"{crate}: {'.'.join(fn)}: {s}")


main()
