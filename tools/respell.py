#!/usr/bin/env python3
"""Brings the repository's own definitions and lemmas to today's spelling, once, after port.py.

usage: python3 tools/respell.py [--list]     at the top of the repository; --list prints the names and writes nothing

Functions, lemmas, fields and constructors of specs/ and proofs/ become snake case, facts and types upper camel case.
Rust's own names, strings and what a check generates keep theirs.
A name that would fall together with another gets _lem, and is printed.
"""
import collections
import glob
import re
import sys

TOKEN = r"[^\s(){}.;,@\"«»:\[\]|]+"
SIGNATURE = re.compile(r"^\s*(?:(?:pub|unfoldable|abbrev)\s+)*(%s(?: %s)*) : " % (TOKEN, TOKEN))
TYPE = re.compile(r"^\s*(?:(?:pub|abbrev)\s+)*(?:data|record|ruleset)\s+(%s)" % TOKEN)
QUIET = re.compile(r'"(?:[^"\\\n]|\\.)*"|(?<![^\s(){}.;,@"«»])(?:--|//)[^\n]*')
WORD = re.compile(TOKEN)


def snake(name):
    return re.sub(r"(?<=[a-z0-9])([A-Z])", lambda m: "_" + m.group(1).lower(), name)


def camel(name):
    return "".join(p[:1].upper() + p[1:] for p in name.split("-"))


def declared(files):
    names = collections.defaultdict(set)
    for f in files:
        for line in open(f, encoding="utf-8"):
            m = SIGNATURE.match(line)
            for n in m.group(1).split() if m else []:
                names[n].add(f)
            m = TYPE.match(line)
            if m:
                names[m.group(1)].add(f)
    return names


def whole(name):
    """The name in snake case; a fact's or a type's name in it keeps its capital."""
    return "_".join(p if p[:1].isupper() else snake(p) for p in name.split("-"))


def plan(antt, proofs, rt):
    names = declared(f for f in antt if f not in proofs)
    used = set()
    for f in set(antt) - proofs:
        used.update(re.findall(r"(?<!\.)" + TOKEN, QUIET.sub(" ", open(f, encoding="utf-8").read())))
    for f in rt:
        text = QUIET.sub(" ", open(f, encoding="utf-8").read())
        used.update(re.findall(r"(?:let (?:mut )?|const |static |type |for )(\w+)", text))
        used.update(re.findall(r"[(,\n] *(?:pub |mut )?(\w+): ", text))
    crates = set(glob.glob("crates/*"))
    for f in antt + rt:
        for m in re.finditer(r"(?m)^\s*(?:pub )?(?:ghost )?use (\S+?)\.\{([^}]*)\}", open(f, encoding="utf-8").read()):
            path = m.group(1).split(".")
            if path[0] != "Rattle" or "crates/" + path[1] not in crates:
                for item in m.group(2).split(","):
                    names.pop(item.split(" as ")[0].strip(), None)
    table, back = {}, {}
    for old in sorted(names, key=lambda n: ("-" in n, n)):
        if not re.match(r"^[A-Za-z][\w'-]*$", old) or old.isupper():
            continue
        if old[:1].isupper() and not ("-" in old and not re.search(r"-[A-Z*]", old)):
            continue
        new = camel(old) if old[:1].isupper() else whole(old)
        if new == old:
            continue
        while new in used or new in back:
            print("falls together:", old, new, back.get(new, ""))
            new += "_lem"
        table[old], back[new] = new, old
    return table


def spans(text, turn):
    return re.sub(r"(`+)([^`\n]+)\1", lambda m: m.group(1) + WORD.sub(turn, m.group(2)) + m.group(1), text)


def rewrite(path, table, fields):
    text = open(path, encoding="utf-8").read()
    hand = path.endswith("/Proof.antt")
    own = set(re.findall(r"(?m)^(%s) : tie\." % TOKEN, text)) if hand else set()
    out, at = [], 0

    def code(part, offset):
        def turn(m):
            old = m.group(0)
            before = text[offset + m.start() - 1] if offset + m.start() else " "
            if old not in table or old in own:
                return old
            if hand and before == "." and (old not in fields):
                return old
            return table[old]

        return WORD.sub(turn, part)

    for q in QUIET.finditer(text):
        out.append(code(text[at : q.start()], at))
        quiet = q.group(0)
        out.append(quiet if quiet.startswith('"') else spans(quiet, lambda m: table.get(m.group(0), m.group(0))))
        at = q.end()
    out.append(code(text[at:], at))
    done = "".join(out)
    if done != text:
        open(path, "w", encoding="utf-8").write(done)
    return done != text


def main():
    antt = [f for f in sorted(glob.glob("crates/**/*.antt", recursive=True)) if "/out/" not in f]
    rt = [f for f in sorted(glob.glob("crates/**/*.rt", recursive=True)) if "/out/" not in f]
    proofs = [f for f in antt if f.endswith("/Proof.antt")]
    table = plan(antt, set(proofs), rt)
    if "--list" in sys.argv:
        print("\n".join(a + "\t" + b for a, b in table.items()))
        return
    fields = set()
    for f in antt:
        for m in re.finditer(r"(?m)^\s+pub (%s) : " % TOKEN, open(f, encoding="utf-8").read()):
            fields.add(m.group(1))
    changed = sum(rewrite(f, table, fields) for f in antt + rt)
    edits = glob.glob("crates/*/must-fail/*.edit")
    docs = glob.glob("README.md") + glob.glob("docs/**/*.md", recursive=True)
    for f in docs:
        text = open(f, encoding="utf-8").read()
        done = spans(text, lambda m: table.get(m.group(0), m.group(0)))
        if done != text:
            open(f, "w", encoding="utf-8").write(done)
    for f in edits:
        text = open(f, encoding="utf-8").read()
        done = "\n".join(l if l.startswith("file:") else WORD.sub(lambda m: table.get(m.group(0), m.group(0)), l) for l in text.split("\n"))
        if done != text:
            open(f, "w", encoding="utf-8").write(done)
    print(f"{len(table)} names, {changed} files")


main()
