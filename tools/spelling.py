#!/usr/bin/env python3
"""Spells this repository's own definitions, lemmas and their variables as today's Rattle does: words in snake case, facts and types in
upper camel case. Names of the kit's libraries, names that Rattle makes from the code and names of src/ stay.

usage: python3 tools/spelling.py [--check]    at the top of a checkout; it prints the names that fall together in a file

It was run once, behind the kit's own script and before any edit by hand, and is kept for the record: on a later tree it would turn names that
are right. So it writes nothing where docs/PORT.md stands, as under --check.
"""

import collections
import os
import re
import sys

TOKEN = re.compile(r"[^\s(){}\[\].;,@\"«»:|]+")
COMMENT = re.compile(r"(?<![^\s(){}\[\].;,])--[^\n]*")
RUST_QUIET = re.compile(r"//[^\n]*|b?\"(?:\\.|[^\"\\])*\"|b?'(?:\\.|[^'\\\n])'")
HEAD = re.compile(r"^(?P<indent>[ \t]*)(?:\| )?(?P<kind>abbrev |record |data |opaque )?(?:pub )?(?P<kind2>abbrev |record |data |opaque )?(?P<name>[^\s(){}\[\].;,@\"«»:|]+)(?= *(?::|\(|\{|$))", re.M)
BINDER = re.compile(r"[({]((?:[^\s(){}\[\].;,@\"«»:|]+\s+)+):")
LET = re.compile(r"\b(?:let|in)\s+([^\s(){}\[\].;,@\"«»:|]+)")
LAMBDA = re.compile(r"λ\s+((?:[^\s(){}\[\].;,@\"«»:|]+\s*)+)\.")
ARM = re.compile(r"(?:\[|\|)\s*((?:[^\s(){}\[\].;,@\"«»:|]+\s+)+)↦")
EQUATION = re.compile(r"^[ \t]*(?:pub )?((?:[^\s;,@\"«»:|]+ +)+)=(?= |$)", re.M)
USE = re.compile(r"use\s+(Rattle\.(\w+)[^\s{;]*?)\.\{([^}]*)\}")
# names that would fall together in a file
BY_HAND = {
    "Lines-name": "LinesNameTheListed",
    "first-class": "class_of_first",
    "tail-class": "class_of_tail",
    "nameOf": "name_from",
    "held-code": "code_held",
    "braceWord": "brace_word_of",
    "actionWord": "action_word_of",
    "variableWord": "variable_word_of",
    "reservedHead": "reserved_head_of",
    "propertyHead": "property_head_of",
    "alphaWord": "alpha_word_of",
    "seed-row": "row_of_seed",
    "set-of": "state_set",
    "table-of": "bench_table",
    "actionNames": "given_action_names",
    "propertyNames": "given_property_names",
    "variableNames": "given_variable_names",
    "alpha-back": "alpha_round_trip",
    "one-back": "one_round_trip",
    "two_back": "two_round_trip",
    "bit-or": "bit_of_or",
    "action-count": "counts_actions",
    "property-count": "counts_properties",
    "arc-count": "counts_arcs",
    "state-count": "counts_states",
}


def odd(word):
    return bool(re.search(r"[\w']-[\w]", word)) or bool(re.fullmatch(r"[a-z][a-z0-9_]*[A-Z]\w*'*", word))


def snake(word):
    parts = []
    for p in word.split("-"):
        parts.append(re.sub(r"(?<=[a-z0-9])([A-Z])", lambda m: "_" + m[1].lower(), p) if p[:1].islower() else p)
    return "_".join(parts)


def camel(word):
    return "".join(p[:1].upper() + p[1:] for p in re.split(r"[-_]", word))


def texts():
    for folder, dirs, files in os.walk("crates"):
        dirs[:] = sorted(d for d in dirs if d not in ("out", ".git"))
        for f in sorted(files):
            if f.endswith((".rt", ".antt")):
                yield os.path.join(folder, f)


def of_function(path):
    """Whether the file answers the goals of one function, where Rattle makes names."""
    return re.search(r"/proofs/.+/[^/]+$", path) is not None


def main(check):
    own = {re.split(r"[\s:]", l)[0] for l in open("crates.txt", encoding="utf-8") if l.strip() and not l.startswith("#")}
    code, library, made = {}, set(), collections.defaultdict(set)
    for p in texts():
        t = open(p, encoding="utf-8").read()
        code[p] = t
        for m in USE.finditer(t):
            if m[2] not in own:
                library |= {n.strip().split(" as ")[0].strip() for n in m[3].split(",")}
        if of_function(p):
            made[p] |= set(re.findall(r"\b(?:goal|given)\.([^\s(){}\[\].;,@\"«»:|]+)", t))
            made[p] |= set(re.findall(r"(?<![\w.'-])[cgl]\.([^\s(){}\[\].;,@\"«»:|]+)", t))
    names = {}
    local = collections.defaultdict(dict)
    for p, t in code.items():
        if p.endswith(".rt"):
            continue
        t = COMMENT.sub("", t)
        words = set()
        for m in HEAD.finditer(t):
            kind = (m["kind"] or m["kind2"] or "").strip()
            words.add((m["name"], bool(kind) or "/specs/" in p))
        for m in BINDER.finditer(t):
            words |= {(w, False) for w in m[1].split()}
        for r in (LET,):
            words |= {(m[1], False) for m in r.finditer(t)}
        for r in (LAMBDA, ARM):
            for m in r.finditer(t):
                words |= {(w, False) for w in m[1].split()}
        for m in EQUATION.finditer(t):
            words |= {(w.strip("(){}[]."), False) for w in m[1].split()}
        for w, definition in words:
            if not odd(w) or w in library or not re.match(r"[\w']", w):
                continue
            if w[0].isupper():
                if definition:
                    names[w] = camel(w)
                continue
            if of_function(p):
                if w not in made[p]:
                    local[p][w] = snake(w)
            else:
                names[w] = snake(w)
    names = {a: b for a, b in names.items() if a != b}
    there = {w for t in code.values() for w in TOKEN.findall(t)}
    names |= {a: b for a, b in BY_HAND.items() if a in there}
    bad = 0
    for p, t in code.items():
        mine = dict(names) | {a: b for a, b in local[p].items() if a not in names}
        pattern = COMMENT if p.endswith(".antt") else RUST_QUIET
        has = {c for w in TOKEN.findall(pattern.sub("", t)) for c in w.split(".")}
        behind = collections.defaultdict(set)
        for w in has:
            behind[mine.get(w, w)].add(w)
        for b, a in sorted(behind.items()):
            if len(a) > 1:
                bad += 1
                print(f"fall together in {p}: {' '.join(sorted(a))}, as {b}")
    for p, t in code.items():
        mine = dict(names) | {a: b for a, b in local[p].items() if a not in names}
        stays = made[p]
        fn = of_function(p)

        def word(m):
            w = m[0]
            if w not in mine:
                return w
            before = m.string[: m.start()]
            if fn and (re.search(r"(?:\b(?:goal|given)|(?<![\w.'-])[cgl])\.$", before) or (w in stays and (before.endswith("\n") or before.endswith("pub ")))):
                return w
            return mine[w]

        def quiet(m):
            # a comment has a name where the file's code has it
            return TOKEN.sub(lambda k: mine[k[0]] if k[0] in mine and k[0] in has else k[0], m[0]) if not m[0].startswith(("b", '"', "'")) else m[0]

        pattern = COMMENT if p.endswith(".antt") else RUST_QUIET
        has = set(TOKEN.findall(pattern.sub("", t)))
        out, at = [], 0
        for m in pattern.finditer(t):
            out += [TOKEN.sub(word, t[at : m.start()]), quiet(m)]
            at = m.end()
        out.append(TOKEN.sub(word, t[at:]))
        new = "".join(out)
        if new != t and not check:
            with open(p, "w", encoding="utf-8") as f:
                f.write(new)
    print(f"{len(names)} names, {sum(len(x) for x in local.values())} of one file alone; {bad} fall together")
    return 0


if __name__ == "__main__":
    raise SystemExit(main("--check" in sys.argv or os.path.exists("docs/PORT.md")))
