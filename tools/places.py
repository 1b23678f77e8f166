#!/usr/bin/env python3
"""Counts, in crates/*/src, the places that a plainer form may replace, by kind of place.

    python3 tools/places.py [--list]

Each kind is a pattern over lines or functions; what it finds is looked at by eye, since not every place it finds has a plainer form.
"""
import glob
import itertools
import re
import sys

FN = re.compile(r"^\s*(?:pub(?:\([a-z]+\))? )?(?:final )?(?:extern \"C\" )?fn (\w+)", re.M)


def sources():
    for path in sorted(glob.glob("crates/*/src/**/*.rt", recursive=True)):
        yield path, open(path, encoding="utf-8").read()


def functions(text):
    """Name, first line, parameters, clauses and body of each function of a file."""
    for m in FN.finditer(text):
        start = m.start()
        end = text.find("\n", start)
        depth, i, seen = 0, m.end(), False
        clause, body_at = None, None
        # A clause stands in braces behind `requires` or `ensures`; the body is the first brace that follows no such word.
        while i < len(text):
            c = text[i]
            if c == "{":
                line = text[text.rfind("\n", 0, i) + 1 : i]
                if depth == 0 and not re.search(r"\b(requires|ensures)\b", line):
                    body_at = i
                    break
                depth += 1
            elif c == "}":
                depth -= 1
            elif c == ";" and depth == 0:
                break
            i += 1
        if body_at is None:
            continue
        depth, j = 0, body_at
        while j < len(text):
            depth += (text[j] == "{") - (text[j] == "}")
            if depth == 0:
                break
            j += 1
        head, body = text[start:body_at], text[body_at : j + 1]
        yield m.group(1), text.count("\n", 0, start) + 1, head, body


def lines(pattern):
    rx = re.compile(pattern)
    for path, text in sources():
        for n, line in enumerate(text.split("\n"), 1):
            code = line.split("//")[0]
            if rx.search(code):
                yield f"{path}:{n}: {line.strip()}"


def twins(least=0.8):
    """Pairs of functions of one crate whose bodies are the same but for a few words."""
    import difflib

    found = []
    by_crate = {}
    for path, text in sources():
        if "/corners/" in path:
            continue
        for name, line, head, body in functions(text):
            words = re.findall(r"\w+|[^\w\s]", body)
            if len(words) >= 14:
                by_crate.setdefault(path.split("/")[1], []).append((path, name, line, words))
    for fns in by_crate.values():
        for a, b in itertools.combinations(fns, 2):
            if min(len(a[3]), len(b[3])) / max(len(a[3]), len(b[3])) < least:
                continue
            if difflib.SequenceMatcher(None, a[3], b[3], autojunk=False).ratio() >= least:
                found.append(f"{a[0]}:{a[2]}: {a[1]} and {b[0]}:{b[2]}: {b[1]}")
    return found


def repeated_facts(least=3):
    """Facts of clauses, with the names of a call's values left out, that stand in three or more functions of a crate."""
    seen = {}
    for path, text in sources():
        crate = path.split("/")[1]
        for name, line, head, body in functions(text):
            for clause in re.findall(r"(?:requires|ensures)(?: \w+)? \{(.*?)\}\n", head + "\n", re.S):
                for part in re.split(r" × ", clause):
                    part = part.strip().strip("()")
                    if re.search(r"[<≤≡]", part) and "result" not in part and ".new" not in part and len(part) < 90:
                        seen.setdefault((crate, part), set()).add(f"{path}:{name}")
    return [f"{c}: {p}: {len(f)} functions" for (c, p), f in sorted(seen.items()) if len(f) >= least]


def travellers(least=4):
    """Pairs of parameters with the same names and types in four or more functions of a crate."""
    seen = {}
    for path, text in sources():
        crate = path.split("/")[1]
        for name, line, head, body in functions(text):
            params = re.findall(r"(\w+): (&?(?:mut )?[\w<>\[\]' ;]+)", head[head.find("(") : head.find("->") if "->" in head else None])
            for a, b in itertools.combinations(sorted(set(params)), 2):
                seen.setdefault((crate, a, b), set()).add(name)
    return [
        f"{c}: {a[0]}: {a[1]}, {b[0]}: {b[1]}: {len(f)} functions"
        for (c, a, b), f in sorted(seen.items())
        if len(f) >= least
    ]


KINDS = [
    ("1a own enums", lambda: lines(r"^\s*(pub(\(crate\))? )?enum \w")),
    ("1b numbers that stand for kinds or refusals", lambda: lines(r"^\s*(\w+::\w+(\(_\))? => \d+,|\(?\d+( \| \d+)*(, \w+)?\)? (if .*)?=> )|^\s*kind: \d|^const [A-Z]+: u64 = \d;")),
    ("1c flags beside a value", lambda: lines(r"let mut \w+ = (true|false);")),
    ("2  twins: pairs of like functions", twins),
    ("3  loops over an index or by hand", lambda: lines(r"for \w+ in \d+\.\.|\bwhile \w+ [<>]|\bloop \{|for \(\w+, \w+\) in .*enumerate|\[\w+ as usize\]\s*=|\w+\[t\]")),
    ("3b loops that look for one thing", lambda: lines(r"^\s+return (true|false|None|i|Some\(.*\));$")),
    ("4a conversions and printing by hand", lambda: lines(r"fn (of|read|bytes|number|numbers|line|words|mode_of|source_of|fields_of|record_of|mode_number|initial|from_\w+|to_\w+)\(")),
    ("4b equality by hand", lambda: lines(r"\.number\(\) ==|_number.* == ")),
    ("5a facts in three or more contracts", repeated_facts),
    ("5b parameters that travel together", travellers),
    ("6  arrays and cursors with a length or place beside them", lambda: lines(r"^\s*(pub(\(crate\))? )?(len|count|written|notified|at|left|taken): (u8|u16|usize),")),
    ("7  switches and tables of functions", lambda: lines(r"all &= |match call \{|&dyn|impl Fn|: fn\(")),
]


def main():
    for title, find in KINDS:
        places = list(find())
        print(f"{title}: {len(places)}")
        if "--list" in sys.argv[1:]:
            for place in places:
                print(f"    {place}")


main()
