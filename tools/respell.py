#!/usr/bin/env python3
"""Brings the repository's own definitions and lemmas to the spelling of today's Rattle: words in snake case, types in camel case.

usage: respell.py [--check] [--map FILE] ROOT [PAGE..]

It runs after port.py, over ROOT/crates and over the pages that are named, and rewrites files in place.
1. A name that begins small and has a capital inside, as handlerFor, becomes handler_for, in specs/, proofs/, clauses and edits. Names that std or
   the prover makes (uint_Makes) and one-letter endings of local variables (plP) stay.
2. A name with dashes that a file of specs/ or proofs/ declares, as none-fits, becomes none_fits where that file or one that imports it from a crate
   of the repository names it. Dashes stay where each part is a function of std's lists (length-take), where a name begins with a type
   (IsPrefix-mem). Where the new name is taken, by a definition or in a file that has the old one, it gets _lem. Names of goals and steps stay.
3. A field of a record with dashes gets underscores, wherever it is given or projected.
Strings keep their text. --check changes nothing; --map FILE writes what was renamed.
"""

import collections
import glob
import os
import re
import sys

WORD = re.compile(r"[A-Za-z0-9_◌◦'′″+*∸∷≡≤<≢→↔∙ℕ-]+")
PIECE = re.compile(r"(?<![A-Za-z0-9_])[a-z][a-z0-9]*[A-Z][A-Za-z0-9]*(?![A-Za-z0-9_])")
STRING = re.compile(r'"(?:[^"\\]|\\.)*"')
FIXED = set("length take drop append set get_or map replicate add sub mul div mod pow sum reverse concat suc zero one".split())
GENERATED = re.compile(
    r"^(returns|overflow|nonzero|bounds|slice_bounds|offset_bounds|prove|loop|in|then|else|if|invariant|decreases|at|after|invariant_of|the)([-_].*)?$"
)


def snake(n):
    return re.sub(r"(?<=[a-z0-9])([A-Z]+)(?=[A-Z][a-z]|[a-z0-9]|$)", lambda m: "_" + m.group(1).lower(), n)


def small_camel(m):
    n = m.group(0)
    if re.fullmatch(r"[a-z]+[A-Z]", n) or re.fullmatch(r"n0[0-9]*G", n):
        return n
    s = re.sub(r"([A-Z])", lambda k: "_" + k.group(1).lower(), n)
    return s


def outside_strings(text, turn):
    out, at = [], 0
    for m in STRING.finditer(text):
        out += [turn(text[at : m.start()]), m.group(0)]
        at = m.end()
    return "".join(out + [turn(text[at:])])


def read(p):
    with open(p, encoding="utf-8") as f:
        return f.read()


DECLARED = re.compile(
    r"^(?P<indent> *)(?:(?:abbrev|unfoldable|opaque|pub|instance)\s+)*(?P<record>(?:record|data)\s+)?(?P<name>[^\s(){}.,;:\"]+)(?=\s*:\s|\s*(?:[({][^\n]*)?:\s)",
)


def declared(text):
    """The names with a dash that a file declares, at any depth, but for answers to goals."""
    names = set()
    for line in text.split("\n"):
        m = re.match(r"^ *(?:(?:abbrev|unfoldable|opaque|pub|instance) +)*([^\s(){}.,;:\"]+) +: +(.*)$", line)
        if not m:
            m2 = re.match(r"^ *(?:(?:abbrev|unfoldable|opaque|pub|instance) +)*([^\s(){}.,;:\"]+) :$", line)
            if m2:
                names.add(m2.group(1))
            continue
        if re.match(r"(tie|goal)\.", m.group(2)) or "Need-" in m.group(2):
            continue
        names.add(m.group(1))
    return {n for n in names if "-" in n and n not in ("--", "-") and not n.startswith("-")}


def imports(text, crates):
    """The names that a file imports from a crate of the repository, and its other imports."""
    ours, others = set(), set()
    for m in re.finditer(r"use\s+([^\s;{]+?)(?:\.\{([^}]*)\}|\s+as\s+(\S+))?\s*;?$", text, re.M):
        path = m.group(1)
        parts = path.split(".")
        own = parts[0] == "Rattle" and len(parts) > 1 and parts[1] in crates
        generated = own and re.search(r"\.(Tie|Statement|Goals|Given|Lts|Reads|Code|Met|Kinds)$", path)
        for it in (m.group(2) or "").split(","):
            it = it.strip()
            if not it:
                continue
            for n in re.split(r"\s+as\s+", it):
                (ours if own and not generated else others).add(n.strip())
    return ours, others


def main(argv):
    check = "--check" in argv
    argv = [a for a in argv if a != "--check"]
    out = None
    if "--map" in argv:
        i = argv.index("--map")
        out = argv[i + 1]
        del argv[i : i + 2]
    root, pages = argv[0], argv[1:]
    crates = set(os.listdir(os.path.join(root, "crates")))
    files = sorted(
        glob.glob(root + "/crates/*/specs/**/*.antt", recursive=True)
        + glob.glob(root + "/crates/*/proofs/**/*.antt", recursive=True)
        + glob.glob(root + "/crates/*/src/**/*.rt", recursive=True)
        + glob.glob(root + "/crates/*/must-fail/*.edit")
    )
    text = {}
    camel = {}
    for p in files:
        t = read(p)

        def turn(m):
            n = small_camel(m)
            if n != m.group(0):
                camel[m.group(0)] = n
            return n

        text[p] = (outside_strings if p.endswith(".rt") else lambda s, f: f(s))(t, lambda s: PIECE.sub(turn, s))
    old = {p: read(p) for p in files}
    antt = [p for p in files if p.endswith(".antt")]
    mine, tokens = {}, {}
    everywhere = set()
    for p in antt:
        d = declared(text[p])
        ours, others = imports(text[p], crates)
        mine[p] = (d | {n for n in ours if "-" in n}) - {n for n in others if n not in d}
        tokens[p] = set(WORD.findall(text[p]))
        everywhere |= d
    # A field of a record goes wherever it is projected or given.
    fields = {}
    for p in antt:
        within = False
        for line in text[p].split("\n"):
            if re.match(r"^ *(?:pub )?record ", line):
                within = True
            elif not line.strip():
                within = False
            elif within:
                m = re.match(r"^ +(?:pub )?([^\s:(){}]+) : ", line)
                if m and "-" in m.group(1) and not line.strip().startswith("--"):
                    fields[m.group(1)] = m.group(1).replace("-", "_")
    if fields:
        each = "|".join(sorted(map(re.escape, fields), key=len, reverse=True))
        end = r"(?![A-Za-z0-9_'-])"
        given = re.compile(rf"(?:(?<=\.)|(?<=\{{ )|(?<=; ))({each}){end}|^( *(?:pub )?)({each})(?= *[:=] *)", re.M)
        for p in files:
            text[p] = given.sub(lambda m: fields[m.group(1)] if m.group(1) else m.group(2) + fields[m.group(3)], text[p])
    # A lemma has no name of a definition: it gets _lem.
    taken = set(camel.values())
    for p in antt:
        if "/specs/" in p:
            taken |= {m.group(1) for m in re.finditer(r"^(?:(?:abbrev|unfoldable|pub|record|data) +)*([a-z][A-Za-z0-9_']*) ", text[p], re.M)}
    lems = collections.defaultdict(set)
    for p in antt:
        if "/proofs/" in p:
            # an earlier step may have written a lemma as the definition is written now
            for m in re.finditer(r"^ *(?:pub +)?([a-z][a-z0-9_]*) : (?!tie\.|goal\.)", old[p], re.M):
                if m.group(1) in camel.values():
                    base = re.search(r"crates/([^/]+)/proofs/(.*)\.antt", p)
                    path = "Rattle." + base.group(1) + ".proofs." + base.group(2).replace("/", ".")
                    name = r"(?<![A-Za-z0-9_'.-])" + m.group(1) + r"(?![A-Za-z0-9_'-])"
                    for q in antt:
                        if q == p or re.search(r"use " + re.escape(path) + r"\.\{[^}]*" + name, old[q]):
                            lems[q].add(m.group(1))
    for q, names in sorted(lems.items()):
        # the old text tells lemma and definition apart
        t = re.sub(r"(?<![A-Za-z0-9_'.-])(" + "|".join(sorted(names)) + r")(?![A-Za-z0-9_'-])", r"\1_lem", old[q])
        t = PIECE.sub(lambda m: camel.get(m.group(0), m.group(0)), t)
        if fields:
            t = given.sub(lambda m: fields[m.group(1)] if m.group(1) else m.group(2) + fields[m.group(3)], t)
        text[q] = t
        for n in sorted(names):
            print("lemma:", n, "is", n + "_lem", "in", q)
    for p in antt:
        tokens[p] = set(WORD.findall(text[p]))
    # A name is renamed alike everywhere; where the new name is taken in one file it gets _lem.
    new = {}
    for n in sorted(everywhere):
        parts = n.split("-")
        if n[:1].isupper() or n[:1] in "◌+" or any(not re.fullmatch(r"[A-Za-z0-9_']+", it) for it in parts):
            continue
        if all(it in FIXED for it in parts):
            continue
        if re.search(r"(?:^|-)[A-Z]", n):
            continue
        new[n] = "_".join(parts)
    kept = {n for n in new if new[n] in taken}
    for p in antt:
        kept |= {n for n in mine[p] if n in new and new[n] in tokens[p]}
    for n in kept:
        new[n] += "_lem"
    twice = set()
    clash = collections.Counter(new.values())
    for p in antt:
        twice |= {n for n in mine[p] if n in new and new[n] in tokens[p]}
    twice |= {n for n in new if clash[new[n]] > 1}
    for n in twice:
        new.pop(n, None)
    used = {}
    for p in antt:
        here = {n: new[n] for n in mine[p] if n in new}
        if not here:
            continue

        def turn(m, t=text[p], here=here):
            n = m.group(0)
            before = t[max(0, m.start() - 5) : m.start()]
            if n in here and not re.search(r"(?:\btie\.|\bgoal\.|\bc\.|[a-z_0-9)\]]\.)$", before):
                used[n] = here[n]
                return here[n]
            return n

        text[p] = WORD.sub(turn, text[p])
    for p in files:
        if p.endswith(".edit"):
            text[p] = WORD.sub(lambda m: new.get(m.group(0), m.group(0)) if m.group(0) in used else m.group(0), text[p])
    for p in pages:
        t = old[p] = read(p)

        def code(m):
            s = PIECE.sub(lambda k: camel.get(k.group(0), k.group(0)), m.group(0))
            return WORD.sub(lambda k: used.get(k.group(0), k.group(0)), s)

        text[p] = re.sub(r"`[^`\n]+`", code, t)
    changed = [p for p in text if text[p] != old[p]]
    if not check:
        for p in changed:
            with open(p, "w", encoding="utf-8") as f:
                f.write(text[p])
    if out:
        with open(out, "w", encoding="utf-8") as f:
            for a, b in sorted(camel.items()) + sorted(used.items()):
                f.write(f"{a}\t{b}\n")
    print(f"{len(changed)} files, {len(camel)} names in camel case, {len(used)} names with dashes; with _lem: {len(kept)}; left: {len(twice)}")
    for n in sorted(kept):
        print("lemma:", n, new.get(n))
    for n in sorted(twice):
        print("left:", n)
    return 0


raise SystemExit(main(sys.argv[1:]))
