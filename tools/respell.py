#!/usr/bin/env python3
"""Spells the repository's own definitions and lemmas in snake case.

usage: respell.py [--check]      at the top of the repository

port.py turns names of the library, and few of the repository's own. This turns the rest: every name that a file of specs/ or
proofs/ declares, and every field of a record there, from `writtenOf` or `wrote-then` to `written_of`, `wrote_then`. Types and
modules, which begin with a capital, keep their names, and so do functions of src/ and whatever the library is the only one to
declare. A name turns in a file that declares it or imports it from one of this repository's crates; a field also where it
follows a dot or stands in a record. In .rt files only clauses and `ghost use` lines can hold such names. In README.md and docs/
they turn in code spans. It prints what would fall together, and then writes nothing.
"""

import collections
import os
import re
import sys

CRATES = sorted(c for c in os.listdir("crates") if os.path.isdir(os.path.join("crates", c)))
WORD = r'[^\s(){}.;,@"«»`\[\]]+'
TOKEN = re.compile(rf'"(?:[^"\\\n]|\\.)*"|--[^\n]*|\{{-.*?-\}}|«[^»]*»|{WORD}', re.S)
HEAD = re.compile(rf"^(?:(?:abbrev|unfoldable|pub|private|instance)\s+)*({WORD})(?:[^\n:]*?)\s:\s", re.M)
KINDS = tuple(it + " " for it in ("use", "pub use", "record", "data", "mod", "pub mod", "module", "ruleset", "unfolding", "open"))
RECORD = re.compile(r"^(?:(?:abbrev|unfoldable|pub)\s+)*(?:record|data)\b[^\n]*\n((?:[ \t]+[^\n]*\n|\n)*)", re.M)
FIELD = re.compile(rf"^\s+(?:pub\s+)?({WORD})\s+:\s", re.M)
USE = re.compile(rf"\buse\s+([^\s;{{]+?)\.?(?:\{{([^}}]*)\}})?(?=[;\s])")
QUOTED = re.compile(r"(`+)(?!`)(.+?)\1", re.S)


def texts(ending):
    for top in CRATES:
        for folder, dirs, files in os.walk(os.path.join("crates", top)):
            dirs[:] = sorted(d for d in dirs if d != "out")
            for f in sorted(files):
                if f.endswith(ending):
                    yield os.path.join(folder, f)


def read(path):
    with open(path, encoding="utf-8") as f:
        return f.read()


# The new names of definitions, and of every lemma that would have one of them: it gets `_lem` behind it.
TAKEN = set()
# Definitions that have a name in snake case already.
KEPT = set()


def plain(name):
    """barSOf -> bar_s_of, wrote-then -> wrote_then."""
    name = re.sub(r"(?<=[a-z0-9])(?=[A-Z])|(?<=[A-Z])(?=[A-Z][a-z])", "_", name)
    return re.sub(r"[A-Z]", lambda m: m[0].lower(), name).replace("-", "_")


def snake(name):
    to = plain(name)
    return to + "_lem" if to in TAKEN and name not in KEPT and not re.search(r"[A-Z]", name) else to


def turns(name):
    return bool(re.match(r"[a-z]", name)) and (plain(name) != name or name in TAKEN and name not in KEPT)


def bare(text):
    return re.sub(r'--[^\n]*|\{-.*?-\}', "", text, flags=re.S)


def declared(text):
    found = set()
    for line in bare(text).split("\n"):
        if line and not line[0].isspace() and not line.startswith(KINDS):
            m = HEAD.match(line + " ")
            if m:
                found.add(m[1])
    # the lemmas of a `mutual` block or an anonymous module stand indented, each above its own equations
    for m in re.finditer(rf"^([ \t]+)(?:(?:abbrev|unfoldable|pub)\s+)*({WORD})(?: [^\n:]*?)?\s:\s", bare(text), re.M):
        if re.search(rf"^{m[1]}{re.escape(m[2])}(?: [^\n]*)?=", bare(text), re.M) and m[2] != "let":
            found.add(m[2])
    return {it for it in found if turns(it)}


def fields(text):
    found = set()
    for block in RECORD.findall(bare(text)):
        found.update(it for it in FIELD.findall(block) if turns(it))
    return found


def imports(text):
    """The names that a file brings in: from this repository, and from elsewhere."""
    ours, theirs = set(), set()
    for path, items in USE.findall(bare(text)):
        steps = path.strip(".").split(".")
        own = len(steps) > 1 and steps[0] == "Rattle" and steps[1] in CRATES or steps[0] == "package"
        for item in (items or steps[-1]).split(","):
            names = item.split()
            if names:
                (ours if own else theirs).add(names[0])
    return ours, theirs


def main():
    antt = {p: read(p) for p in texts(".antt")}
    rt = {p: read(p) for p in texts(".rt")}
    is_proof = lambda p: p.endswith("/Proof.antt")
    for t in antt.values():
        TAKEN.update(plain(it) for it in declared(t) if re.search(r"[A-Z]", it))
    here = set()
    for p, t in antt.items():
        if "/specs/" in p:
            here |= {it for it in declared_all(t) if re.fullmatch(r"[a-z0-9_]+", it)}
    dashed = {plain(it) for t in antt.values() for it in declared(t) if "-" in it}
    TAKEN.update(here & dashed)
    KEPT.update(here)
    shared, of_records = set(), set()
    for p, t in antt.items():
        of_records |= fields(t)
        if not is_proof(p):
            shared |= declared(t)
    new, clashes = {}, []
    for p, t in {**antt, **rt}.items():
        ours, theirs = imports(t)
        here = declared(t) if p.endswith(".antt") else set()
        own = (here | ((shared | of_records) & ours)) - (theirs - here)
        inner = of_records - theirs
        words = set(re.findall(WORD, bare(t)))
        meet = collections.defaultdict(set)
        for it in own:
            meet[snake(it)].add(it)
        for to, olds in meet.items():
            if len(olds) > 1 or to in (words & (ours | theirs | (declared_all(t) if p.endswith(".antt") else set()))) - own:
                clashes.append(f"{p}: {', '.join(sorted(olds))} -> {to}")

        def turn(m):
            it = m[0]
            if it[0] in '"«' or it.startswith("{-"):
                return it
            if it.startswith("--"):
                return QUOTED.sub(lambda q: q[1] + re.sub(WORD, comment, q[2]) + q[1], it)
            if it in own:
                after_dot = t[m.start() - 1 : m.start()] == "."
                if not after_dot or it in inner or module_before(t, m.start()):
                    return snake(it)
            if it in inner and (t[m.start() - 1 : m.start()] == "." or re.match(r"\s*[=:]\s", t[m.end() :])):
                if not re.search(r"\b(tie|goal)\.$", t[: m.start()]):
                    return snake(it)
            return it

        def comment(m):
            return snake(m[0]) if m[0] in own or m[0] in shared and m[0] not in theirs else m[0]

        if p.endswith(".rt"):
            lines = re.split(r"(//[^\n]*)", t)
            out = []
            at = 0
            for part in lines:
                if part.startswith("//"):
                    out.append(QUOTED.sub(lambda q: q[1] + re.sub(WORD, comment, q[2]) + q[1], part))
                else:
                    out.append(re.sub(rf'"(?:[^"\\\n]|\\.)*"|{WORD}', lambda m: snake(m[0]) if m[0] in own else m[0], part))
                at += len(part)
            new[p] = "".join(out)
        else:
            new[p] = TOKEN.sub(turn, t)
    pages = ["README.md"] + [os.path.join("docs", f) for f in sorted(os.listdir("docs")) if f.endswith(".md")]
    for p in pages:
        t = read(p)
        new[p] = QUOTED.sub(lambda q: q[1] + re.sub(WORD, lambda m: snake(m[0]) if m[0] in shared | of_records else m[0], q[2]) + q[1], t)
    for it in clashes:
        print("falls together:", it)
    if clashes or "--check" in sys.argv:
        return 1 if clashes else 0
    n = 0
    for p, t in new.items():
        if t != read(p):
            n += 1
            with open(p, "w", encoding="utf-8") as f:
                f.write(t)
    print(f"{len(shared | of_records)} names, {n} files")
    return 0


def declared_all(text):
    found = set()
    for line in bare(text).split("\n"):
        if line and not line[0].isspace() and not line.startswith(KINDS):
            m = HEAD.match(line + " ")
            if m:
                found.add(m[1])
    return found


def module_before(text, at):
    """Is what stands before the dot a module's path, as in `Laws.name`?"""
    m = re.search(rf"([A-Z][\w.]*)\.$", text[:at])
    return bool(m)


if __name__ == "__main__":
    raise SystemExit(main())
