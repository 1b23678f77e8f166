#!/usr/bin/env python3
"""Brings the names of the repository's own definitions and lemmas to today's spelling; run once, at the top, after the toolchain's own script.

A word that begins small and has a hump becomes snake case, part by part between dashes, as upTo-less becomes up_to-less.
A type with dashes loses them, as Merge-rule becomes MergeRule. A field of a record loses its dashes for underscores, as of-thread becomes of_thread.
Names that the prover makes of a variant, as in-NoRoom, stay. So do functions of src/, strings and comments that are prose.
With --list it prints the renamings and names that fall together, and changes nothing.
"""

import os
import re
import sys

WORD = re.compile(r"[A-Za-z_◌][\w'◌-]*")
MADE = re.compile(r"^(in|then|else)-[A-Z]")
FIELD = re.compile(r"^  (?:pub )?([a-z][\w'-]*) : ")
KEPT = {"Feed-dict", "Decides-eqb"}
# fields of one record that would fall together with the functions they speak of
OTHERWISE = {"address-known": "address_is_known", "unused-zero": "unused_is_zero", "source_known": "source_is_known"}


def files():
    for folder, dirs, names in os.walk("crates"):
        dirs[:] = sorted(d for d in dirs if d not in ("out", "target"))
        for n in sorted(names):
            if n.endswith((".rt", ".antt")):
                yield os.path.join(folder, n)


def snake(part):
    if part[:1].isupper():
        return part
    return re.sub(r"(?<=[a-z0-9'])([A-Z])", lambda m: "_" + m.group(1).lower(), part)


def fields():
    found = set()
    for p in files():
        if p.endswith(".antt"):
            inside = False
            for line in open(p, encoding="utf-8"):
                if re.match(r"(pub )?record ", line):
                    inside = True
                elif inside and line.strip() and not line.startswith("  "):
                    inside = False
                m = FIELD.match(line)
                if inside and m and "-" in m.group(1):
                    found.add(m.group(1))
    return found


def turned(word, own):
    if word in OTHERWISE:
        return OTHERWISE[word]
    if word in KEPT or MADE.match(word):
        return word
    if word[0].isupper():
        return "".join(p[:1].upper() + p[1:] for p in word.split("-")) if "-" in word else word
    if word in own:
        return snake(word).replace("-", "_")
    return "-".join(snake(p) for p in word.split("-"))


def code_lines(path, text):
    """Each line with whether it holds names: in a .rt file the ghost lines and the clauses do, to their closing braces."""
    depth = 0
    for line in text.splitlines(keepends=True):
        names = path.endswith(".antt") or depth > 0 or bool(re.match(r"\s*(ghost |ensures|requires)", line))
        if names and path.endswith(".rt"):
            depth = max(0, depth + line.count("{") - line.count("}"))
        yield line, names


def respelled(path, text, own, seen):
    out = []
    for line, names in code_lines(path, text):
        if names:
            body, dash, comment = line.partition("--") if path.endswith(".antt") else (line, "", "")
            def put(m):
                new = turned(m.group(0), own)
                if new != m.group(0):
                    seen[m.group(0)] = new
                return new
            pieces = re.split(r'("[^"]*")', body)
            body = "".join(q if q.startswith('"') else WORD.sub(put, q) for q in pieces)
            # in a comment only words with a hump are names
            comment = re.sub(r"\b[a-z]+[A-Z]\w*", lambda m: turned(m.group(0), own), comment)
            line = body + dash + comment
        out.append(line)
    return "".join(out)


def main():
    own = fields()
    seen, words, texts = {}, set(), {}
    for p in files():
        t = open(p, encoding="utf-8").read()
        words |= set(WORD.findall(t))
        texts[p] = (t, respelled(p, t, own, seen))
    if "--list" in sys.argv:
        back = {}
        for a, b in sorted(seen.items()):
            print(a, "->", b)
            back.setdefault(b, []).append(a)
        for b, al in sorted(back.items()):
            if len(al) > 1 or b in words:
                print("FALLS TOGETHER:", b, "of", al, "and a word that stands" if b in words else "")
        return
    for p, (old, new) in texts.items():
        if new != old:
            with open(p, "w", encoding="utf-8") as f:
                f.write(new)


main()
