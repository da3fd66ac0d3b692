#!/usr/bin/env python3
"""Lists the places in crates/*/src where a form of the older language may stand, a subject at a time.

    python3 tools/places.py            the counts
    python3 tools/places.py WORD       the places of one subject (choices, twins, loops, texts, facts, lengths, steps, answers)

What each subject is, and which of the places are what they look like: docs/DESIGN-PASS.md.
"""
import collections
import glob
import itertools
import re
import sys

SOURCES = sorted(glob.glob("crates/*/src/**/*.rt", recursive=True))


def lines():
    """Each line of code with its file and number; comments and ghost imports are no code."""
    for file in SOURCES:
        for number, line in enumerate(open(file), 1):
            text = line.strip()
            if text and not text.startswith("//") and not text.startswith("ghost use"):
                yield file, number, text


def hits(pattern):
    found = re.compile(pattern)
    return [f"{file}:{number}: {text}" for file, number, text in lines() if found.search(text)]


def choices():
    """Enums, letters and numbers for kinds, and Option or Result taken apart by hand."""
    yield "enums", hits(r"\benum [A-Z]")
    yield "letters for kinds", hits(r"\bchar\b")
    yield "numbers for refusals", hits(r"fn number\b")
    arms = re.compile(r"^(Ok|Err|Some|None)(\(.*\))? =>")
    taken = []
    for file in SOURCES:
        open_match = []
        for number, line in enumerate(open(file), 1):
            text = line.strip()
            if re.search(r"\bmatch\b.*\{$", text):
                open_match.append((number, text, []))
            if open_match and arms.match(text):
                open_match[-1][2].append(number)
            indent = len(line) - len(line.lstrip())
            if open_match and text.startswith("}") and indent <= start_indent(file, open_match[-1][0]):
                begun, said, found = open_match.pop()
                if found:
                    taken.append(f"{file}:{begun}: {said}")
    yield "matches on Option or Result", taken
    yield "refusals made again by hand", hits(r"let Ok\(.*else|if let Ok")
    yield "a blank that stands for none", hits(r"cell: (R|Option<R>),")


def start_indent(file, number):
    line = open(file).read().split("\n")[number - 1]
    return len(line) - len(line.lstrip())


def functions():
    """Each function: its file, name, parameters and body."""
    for file in SOURCES:
        text = open(file).read()
        for found in re.finditer(r"\bfn (\w+)(?:<[^{(]*>)?\(([^)]*)\)", text):
            names = [p.split(":")[0].replace("mut ", "").strip() for p in found.group(2).split(",") if ":" in p]
            yield file, found.group(1), names, body_after(text, found.end())


def body_after(text, start):
    """The text of the body: from the first brace that stands at the end of a line of its own, or ends a signature."""
    found = re.compile(r"\{\n").search(text, start)
    if not found:
        return ""
    depth, at = 1, found.end()
    while depth and at < len(text):
        depth += {"{": 1, "}": -1}.get(text[at], 0)
        at += 1
    return text[found.end():at - 1]


def twins():
    """Functions whose bodies are one text but for names, types and numbers."""
    kept = "let mut if else match return for in while loop break as Ok Err Some None self true false".split()
    shapes = collections.defaultdict(list)
    for file, name, _, body in functions():
        code = " ".join(l.strip() for l in body.split("\n") if not l.strip().startswith("//"))
        if len(code) > 25:
            shape = re.sub(r"\b[A-Za-z_]\w*\b", lambda w: w.group() if w.group() in kept else "n", code)
            shapes[re.sub(r"\b(0x)?[0-9_]+\b", "0", shape)].append(f"{file}: {name}")
    yield "sets of functions with bodies of one shape", [", ".join(v) for v in shapes.values() if len(v) > 1]
    named = collections.defaultdict(list)
    for file in sorted(glob.glob("crates/*/src/lib.rt")):
        code = "".join(open(f).read() for f in sorted(glob.glob(file[:-6] + "/**/*.rt", recursive=True)))
        code = re.sub(r"\b\w*(telegram|reading)s?\w*\b", "kind", code, flags=re.I)
        named[code].append(file.split("/")[1])
    yield "sets of crates that differ in a kind's name alone", [", ".join(v) for v in named.values() if len(v) > 1]


def loops():
    """Loops, and among them those that count."""
    yield "while and loop", hits(r"\b(while|loop)\b")
    yield "for over numbers", hits(r"\bfor \w+ in \d+\.\.")
    yield "numbered items", hits(r"\.enumerate\(\)")


def texts():
    """Order, conversion and printing by hand."""
    yield "orders", hits(r"fn (no_later|eq|cmp|partial_cmp)\b")
    yield "conversions", hits(r"fn (from|letter|layer|displaced_by|displaced)\b")
    yield "casts", hits(r"\bas (u8|u16|u32|u64|usize|i32)\b")
    yield "printing", hits(r"fn (put_\w+|digits_of|\w+_said|picture)\b")


def facts():
    """Clauses that stand in three or more functions, and parameters that stand together in as many."""
    for kind in ("requires", "ensures"):
        count = collections.Counter(text for _, _, text in lines() if text.startswith(kind))
        yield f"{kind} in three or more", [f"{n} × {text}" for text, n in count.most_common() if n > 2]
    sets = collections.defaultdict(set)
    for file, name, names, _ in functions():
        for size in (3, 4):
            for some in itertools.combinations(sorted(names), size):
                sets[some].add(file.split("/")[1] + "." + name)
    shared = {s: f for s, f in sets.items() if len(f) > 2}
    widest = [s for s in shared if not any(set(s) < set(t) and shared[s] == shared[t] for t in shared)]
    yield "parameters together in three or more", [", ".join(s) + ": " + " ".join(sorted(shared[s])) for s in sorted(widest)]


def lengths():
    """Buffers with a place or a count beside them, and arrays in fields."""
    yield "a slice with a place or a count beside it", hits(r"(\[\w+\]|Vec<\w+>).*\b(at|held|groups|size|start|place): usize")
    yield "a field that counts", hits(r"^(pub )?(held|groups|size|at|place): usize,")
    yield "arrays in fields and locals", hits(r"\[\w+; \w+\](?!.*->)")


def steps():
    """Switches on which step to run, and functions as values."""
    yield "matches on a command or a call", hits(r"match (\*?command|call)\b")
    yield "functions as values", hits(r"\bdyn\b|\bimpl Fn|: Fn|\bfn\(")


def answers():
    """Answers to goals, and the text of proofs."""
    files = [f for f in glob.glob("crates/*/proofs/**/*.antt", recursive=True)]
    given = [f"{f}: {l.strip()}" for f in files for l in open(f) if re.match(r"(abbrev )?pub \S+ : goal\.", l)]
    yield "answers and invariants", given
    yield "files of answers", [f for f in files if f.endswith(("Answers.antt", "Invariants.antt", "Proof.antt"))]
    yield "files of lemmas", [f for f in files if not f.endswith(("Answers.antt", "Invariants.antt", "Proof.antt", "Lib.antt"))]
    yield "lines of proofs", [l for f in files for l in open(f)]


SUBJECTS = [choices, twins, loops, texts, facts, lengths, steps, answers]


def main():
    wanted = sys.argv[1:]
    for subject in SUBJECTS:
        if wanted and subject.__name__ not in wanted:
            continue
        print(f"{subject.__name__}: {subject.__doc__.split('.')[0]}")
        for title, places in subject():
            print(f"  {len(places):5} {title}")
            if wanted:
                for place in places:
                    print(f"        {place}")


main()
