#!/usr/bin/env python3
"""Counts, in crates/*/src, the places that docs/DESIGN-PASS.md speaks of, a section for each point; with -l it lists them.

usage: tools/places.py [-l] [POINT..]      at the top of a checkout
A place is what a pattern finds: the page says which of them are old forms and which stay.
"""
import collections
import glob
import re
import sys

KEYWORDS = set("if else match while for loop in let mut return true false as fn pub use mod struct enum impl self Self ref".split())


def sources():
    for path in sorted(glob.glob("crates/*/src/**/*.rt", recursive=True)):
        yield path, open(path, encoding="utf8").read()


def code(text):
    """A text without its comments."""
    return re.sub(r"//[^\n]*", "", text)


def close(text, at, left="{", right="}"):
    """The place after the bracket that closes the one at a place."""
    depth = 0
    while at < len(text):
        if text[at] == left:
            depth += 1
        elif text[at] == right:
            depth -= 1
            if depth == 0:
                return at + 1
        at += 1
    return at


def functions():
    """Each function: file, name, parameters, result, clauses, body."""
    for path, text in sources():
        text = code(text)
        for found in re.finditer(r"\bfn (\w+)(<[^(]*>)?\(", text):
            at = found.end() - 1
            end = close(text, at, "(", ")")
            parameters = text[at + 1:end - 1]
            rest = end
            clauses = []
            while True:
                gap = re.compile(r"[^{;]*").match(text, rest)
                if gap.end() >= len(text) or text[gap.end()] == ";":
                    body = ""
                    break
                head = gap.group().strip()
                stop = close(text, gap.end())
                inner = text[gap.end() + 1:stop - 1]
                word = re.search(r"\b(requires|ensures)\*?( \w+)?$", head)
                if word:
                    clauses.append((word.group(1), inner))
                    rest = stop
                    continue
                body = inner
                break
            yield path, found.group(1), parameters, text[end:rest][:60], clauses, body


def tokens(body):
    return re.findall(r"\w+|[^\s\w]", body)


def shape(body):
    """A body with every name that is no keyword, and every number, made alike."""
    out = []
    for t in tokens(body):
        if re.match(r"^\d", t):
            out.append("0")
        elif re.match(r"^\w", t) and t not in KEYWORDS:
            out.append("n")
        else:
            out.append(t)
    return " ".join(out)


def pairs(parameters):
    one = re.sub(r"\s+", " ", parameters).strip().rstrip(",")
    return [p.strip() for p in re.split(r",(?![^\[<(]*[\])>])", one) if ":" in p]


def point1():
    for path, text in sources():
        text = code(text)
        for e in re.finditer(r"\benum (\w+)[^{]*\{", text):
            inner = text[e.end():close(text, e.end() - 1) - 1]
            flat = re.sub(r"\([^)]*\)|\{[^}]*\}", "+", inner)
            variants = [v.strip() for v in flat.split(",") if v.strip()]
            full = [v for v in variants if v.endswith("+")]
            if full and len(full) < len(variants):
                yield "1a an enum with variants that hold a value and some that hold none", f"{path} {e.group(1)}"
        for s in re.finditer(r"\bstruct (\w+)[^{;]*\{([^}]*)\}", text):
            if re.search(r"\bnumber:", s.group(2)):
                yield "1b a struct with the number of a refusal, or 0, beside values", f"{path} {s.group(1)}"
        for n, line in enumerate(text.split("\n"), 1):
            if re.search(r"\b(number|found|mark|more|rule)\b(\(\w*\))? (==|!=) (0\b|NO_RULE|rules::NO_RULE|23\b)", line):
                yield "1c a test whether a number says that there is something", f"{path}:{n} {line.strip()}"
            elif "18446744073709551615" in line:
                yield "1d the last number of a word for a place that is nowhere", f"{path}:{n} {line.strip()}"


def point2():
    groups = collections.defaultdict(list)
    for path, name, parameters, _, _, body in functions():
        if len(tokens(body)) >= 15:
            groups[shape(body)].append(f"{path} {name}")
    for k, group in enumerate(sorted(groups.values())):
        if len(group) > 1:
            yield "2 functions whose bodies differ in names and numbers alone", " = ".join(group)


def point3():
    for path, text in sources():
        for n, line in enumerate(text.split("\n"), 1):
            if re.match(r"\s*(while|loop)\b", line):
                yield "3 a while or a loop", f"{path}:{n} {line.strip()}"


def point4():
    for path, name, parameters, result, clauses, body in functions():
        if re.search(r"^(equal|same|both|implies|at_most|one_less|before|preceding|up)$", name):
            yield "4a equality, order, and, or, less by hand", f"{path} {name}"
        arms = re.findall(r"=> ([^,{]*),?\n", body + "\n")
        if re.match(r"\s*match \w+ \{", body) and len(arms) == body.count("=>") and all(re.match(r"^(\d+|\w+::\w+|true|false)$", a.strip()) for a in arms):
            yield "4b a conversion by hand: a match of which every arm is a constant", f"{path} {name}"
        if any("Put out." in inner or "Put line." in inner for _, inner in clauses):
            yield "4c printing by hand: a function that puts bytes", f"{path} {name}"


def point5():
    facts = collections.defaultdict(list)
    runs = collections.defaultdict(list)
    for path, name, parameters, _, clauses, _ in functions():
        for head, inner in clauses:
            flat = re.sub(r"\s+", " ", inner)
            premises = re.split(r" × ", flat) if head == "requires" else re.split(r" → ", flat)[:-1]
            for part in premises:
                part = part.split(" in (")[-1].strip()
                while part.startswith("(") and close(part, 0, "(", ")") == len(part):
                    part = part[1:-1].strip()
                part = part.lstrip("(").strip()
                if not re.match(r"[\w ]+ : ", part):
                    facts[part].append(f"{path} {name}")
        for a, b in zip(pairs(parameters), pairs(parameters)[1:]):
            runs[a + ", " + b].append(f"{path} {name}")
    for fact, where in sorted(facts.items(), key=lambda x: -len(x[1])):
        if len(where) >= 3:
            yield "5a a premise, of a requires or of an ensures, in three functions or more", f"{len(where)} times: {fact}"
    for run, where in sorted(runs.items(), key=lambda x: -len(x[1])):
        if len(where) >= 8:
            yield "5b two parameters that stand together in eight functions or more", f"{len(where)} times: {run}"


def point6():
    for path, name, parameters, _, _, _ in functions():
        names = pairs(parameters)
        slices = [p for p in names if re.search(r": &(mut )?\[\w+\]$", p)]
        places = [p for p in names if re.match(r"(at|from|count|n|end|digits|heads|cells|place)\b.*: u(size|32|16)$", p)]
        if slices and places:
            yield "6 a function of a slice and a place or a length in it", f"{path} {name}: {slices[0]}, {places[0]}"


def point7():
    call = r"n(?: : : n)* \( [n, ]*\)"
    for path, name, _, _, _, body in functions():
        if re.fullmatch(rf"if {call} \{{ {call} \}} else \{{ {call} \}}", shape(body)):
            yield "7 a function that asks for one kind and leaves the rest to the next", f"{path} {name}"


def point8():
    for path in sorted(glob.glob("crates/*/proofs/**/*.antt", recursive=True)):
        text = open(path, encoding="utf8").read()
        if path.endswith("/Answers.antt"):
            yield "8a files of answers", path
            for goal in re.findall(r"^(?:pub |abbrev pub )?(\S+) : goal\.", text, re.M):
                yield "8b answers", f"{path} {goal}"


def main():
    words = [w for w in sys.argv[1:] if w != "-l"]
    for k, point in enumerate((point1, point2, point3, point4, point5, point6, point7, point8), 1):
        if words and str(k) not in words:
            continue
        found = collections.OrderedDict()
        for kind, place in point():
            found.setdefault(kind, []).append(place)
        for kind, places in found.items():
            print(f"{len(places):5}  {kind}")
            if "-l" in sys.argv[1:]:
                for place in places:
                    print(f"         {place}")


if __name__ == "__main__":
    main()
