#!/usr/bin/env python3
"""Spells the repository's own definitions and lemmas as the library does: words in snake case, types in camel case.

usage: python3 tools/respell.py        at the top of the repository, once, after the kit's port.py
       python3 tools/respell.py --list prints each old and new name and changes nothing

A name is this repository's own if a file below specs/ declares it, or a lemma file or an answer file below
proofs/. Names that the check makes (goals, labels) and names of a library are left alone.
"""
import glob
import re
import sys

WORD = r"[^\s(){}\[\],;:.`\"]+"
HEAD = re.compile(rf"^\s*(?P<kinds>(?:(?:pub|abbrev|record|data|ruleset|opaque|syntax) )*)(?P<name>{WORD})(?=\s)(?P<rest>.*)$")
# names that would fall together with a function's beside them, or say an older word of the library
SPECIAL = {
    "getD-same": "get_or_same",
    "bad-time": "time_is_bad",
    "bad-length": "length_is_bad",
    "pace-of": "card_pace",
    "burst-of": "card_burst",
}
# an alias that the new name makes needless
PLAIN = [(" as length-is-bad", ""), ("length-is-bad", "length_is_bad"), ("A-reading", "AReading"), ("A-telegram", "ATelegram"), ("layer-of", "layer_of"), ("is-closed", "is_closed")]


def files(*kinds):
    return [f for k in kinds for f in sorted(glob.glob(k, recursive=True))]


def answer(path):
    return re.search(r"/(Answers|Invariants|Proof|Derivation)\.antt$", path) is not None


def declared(path):
    """Each name that the file declares, with whether it is a type."""
    text = open(path, encoding="utf-8").read()
    for line in text.split("\n"):
        if line.strip().startswith(("--", "use ", "pub use ", "let ", "module ")):
            continue
        m = HEAD.match(line)
        if not m:
            continue
        name, kinds, rest = m["name"], m["kinds"], m["rest"]
        signed = re.match(r"\s*(?:\{[^:]*\}|\([^:]*\))*\s*:(?!=)", rest) or re.match(r"\s*:(?!=)", rest)
        if "record" in kinds or "data" in kinds:
            yield name, True
        elif "abbrev" in kinds or "ruleset" in kinds or signed:
            if answer(path) and re.search(r"\bgoal\.", rest):
                continue
            yield name, bool(re.search(r"Type \d+\s*$", rest))


def turn(name, is_type):
    if name in SPECIAL:
        return SPECIAL[name]
    parts = name.split("-")
    if is_type and name[0].isupper():
        return "".join(p[0].upper() + p[1:] for p in parts)
    if name[0].isupper() and len(parts[0]) > 1:
        return "".join(p[0].upper() + p[1:] for p in parts)
    out = []
    for p in parts:
        p = re.sub(r"(?<=[a-z0-9])([A-Z])", lambda m: "_" + m[1].lower(), p)
        out.append(p.lower() if re.fullmatch(r"[A-Z]", p) else p)
    return "_".join(out)


def names():
    types, owners = {}, {}
    for f in files("crates/*/specs/**/*.antt", "crates/*/proofs/**/*.antt"):
        for name, is_type in declared(f):
            if name.startswith("-") or not re.match(r"[A-Za-z]", name):
                continue
            if "-" not in name and not (re.match(r"[a-z]", name) and re.search(r"[A-Z]", name)):
                continue
            types[name] = types.get(name, False) or is_type
            owners.setdefault(name, set()).add(f)
    return {n: turn(n, t) for n, t in types.items()}, owners


OWN = None


def foreign(text):
    """The names that a file imports from a library."""
    global OWN
    if OWN is None:
        OWN = {f.split("/")[1] for f in glob.glob("crates/*/src")}
    out = set()
    for m in re.finditer(r"use\s+([\w·.'+-]+)\.\{([^}]*)\}", text):
        path = m[1].split(".")
        if path[0] == "Rattle" and len(path) > 1 and path[1] in OWN:
            continue
        out |= {w.strip().split(" as ")[-1].strip() for w in m[2].split(",")}
    return out


def main():
    table, owners = names()
    if "--list" in sys.argv:
        for n in sorted(table):
            print(n, table[n], len(owners[n]))
        back = {}
        for n, t in table.items():
            back.setdefault(t, []).append(n)
        for t, ns in back.items():
            if len(ns) > 1:
                print("FALL TOGETHER", t, ns)
    token = re.compile(r"(?<![\w'·-])[A-Za-z][\w'·→-]*(?<!-)")
    for f in files("crates/*/specs/**/*.antt", "crates/*/proofs/**/*.antt", "crates/*/src/**/*.rt"):
        text = open(f, encoding="utf-8").read()
        alien = foreign(text)
        here = {n: t for n, t in table.items() if n not in alien}
        present = set(token.findall(text))
        for n in sorted(present & set(here)):
            if here[n] in present and here[n] != n and "--list" in sys.argv:
                print("CLASH in", f, n, here[n])

        def put(m):
            return here.get(m[0], m[0])

        def line(l):
            code = l
            if f.endswith(".rt"):
                at = l.find("//")
                note = "" if at < 0 else l[at:]
                code = l if at < 0 else l[:at]
                if '"' in code or "'" in code and "b'" in code:
                    parts = re.split(r'("(?:[^"\\]|\\.)*")', code)
                    code = "".join(p if k % 2 else token.sub(put, p) for k, p in enumerate(parts))
                else:
                    code = token.sub(put, code)
                return code + re.sub(r"`[^`]*`", lambda m: token.sub(put, m[0]), note)
            if l.lstrip().startswith("--"):
                return re.sub(r"`[^`]*`", lambda m: token.sub(put, m[0]), l)
            return labels(l, put)

        def labels(l, put):
            # a chain c.LABEL.. or goal.LABEL names what the check makes
            parts = re.split(r"((?<![\w'.])(?:c|w|goal|l|h)\.[\w'.·+-]+)", l)
            if not answer(f):
                return token.sub(put, l)
            out = []
            for k, p in enumerate(parts):
                if k % 2:
                    if "--list" in sys.argv and any(s in here for s in p.split(".")[1:]):
                        print("LABEL", f, p)
                    out.append(p)
                else:
                    out.append(token.sub(put, p))
            return "".join(out)

        new = "\n".join(line(l) for l in text.split("\n"))
        for old, plain in PLAIN:
            new = new.replace(old, plain)
        if new != text and "--list" not in sys.argv:
            open(f, "w", encoding="utf-8").write(new)


main()
