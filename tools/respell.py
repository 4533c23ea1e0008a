#!/usr/bin/env python3
"""Brings the repository's own antt names to snake case: definitions, lemmas, fields and variables; types and modules stay as they are.

usage: tools/respell.py [FOLDER]     rewrites the .antt and .rt files and the documents of FOLDER (here: this folder) in place, and says which names fell together
A name with a hump (firstPart) becomes first_part wherever it stands. A name with a dash between plain words (cut-is) becomes cut_is where this repository
declares it; a dash behind or before a type's name stays, and so do the names of goals, which Rattle makes.
"""
import glob
import os
import re
import subprocess
import sys

NAME = r"[A-Za-z_\u0370-\u03ff\u2080-\u2089ℕℤ][A-Za-z0-9_'\-\u0370-\u03ff\u2080-\u2089ℕℤ*+≤≡<≢∷]*"
TOKEN = re.compile(r"(?<![A-Za-z0-9_'\-\u0370-\u03ff\u2080-\u2089ℕℤ·])" + NAME)
SIGNED = re.compile(r"^[ \t]*(?:(?:abbrev|unfoldable|pub|data|record) )*(" + NAME + r"(?: " + NAME + r")*) :", re.M)


def read(path):
    with open(path, encoding="utf-8") as f:
        return f.read()


def snake(word):
    """A name in snake case; a part behind a dash that begins as a type does stays."""
    def part(p):
        if not p[:1].islower():
            return p
        return re.sub(r"(?<=[a-z0-9'])([A-Z])", lambda m: "_" + m.group(1).lower(), p)
    return "-".join(part(p) for p in word.split("-"))


def has_hump(word):
    return not re.fullmatch(r"b'.'", word) and word[:1].islower() and any(p[:1].islower() and re.search(r"[a-z0-9'][A-Z]", p) for p in word.split("-"))


def plain_dash(word):
    parts = word.split("-")
    return len(parts) > 1 and all(re.fullmatch(r"[a-z][A-Za-z0-9_']*", p) for p in parts)


def sources(top):
    antt = sorted(glob.glob(top + "/crates/*/specs/*.antt") + glob.glob(top + "/crates/*/proofs/**/*.antt", recursive=True))
    return antt, sorted(glob.glob(top + "/crates/*/src/**/*.rt", recursive=True))


def kit_names():
    """The names that the toolchain's own library has: `rt doc` says where it stands."""
    page = subprocess.run(["rt", "doc"], stdin=subprocess.DEVNULL, capture_output=True, text=True, check=True).stdout.strip()
    found = set()
    for folder, _, files in os.walk(os.path.join(os.path.dirname(page), "rattle")):
        for f in files:
            if f.endswith(".antt"):
                found.update(TOKEN.findall(read(os.path.join(folder, f))))
    return found


def main(top):
    antt, rt = sources(top)
    texts = {p: read(p) for p in antt + rt}
    kit = kit_names()
    used = set()
    for t in texts.values():
        used.update(TOKEN.findall(t))
    humps = {w: snake(w) for w in used if has_hump(w) and w not in kit}
    declared, local = set(), {}
    for p in antt:
        walk = re.search(r"/proofs/.*/(Proof|Answers|Invariants)\.antt$", p)
        for m in SIGNED.finditer(texts[p]):
            rest = texts[p][m.end():texts[p].find("\n", m.end())]
            for w in m.group(1).split(" "):
                if not plain_dash(w) or w in kit:
                    continue
                if not walk:
                    declared.add(w)
                elif not re.search(r"\btie\.(Need|invariant|decreases)|statement M|\bgoal\.", rest):
                    local.setdefault(p, set()).add(w)
    signed = set()
    for p in antt:
        for m in SIGNED.finditer(texts[p]):
            signed.update(m.group(1).split(" "))
    # A lemma whose name falls on another's, or on a function's, ends in _lem; so does one that had a hump's new name already.
    dashes = {}
    for w in sorted(declared):
        new = snake(w).replace("-", "_")
        dashes[w] = new + "_lem" if new in used or new in humps.values() else new
    lemmas = {new: new + "_lem" for new in humps.values() if new in signed}
    made = {}
    for old, new in {**humps, **dashes, **lemmas}.items():
        made.setdefault(new, []).append(old)
        if new in used and new not in lemmas:
            print(f"falls on a name in use: {old} -> {new}")
    for new, olds in made.items():
        if len(olds) > 1:
            print(f"fall together: {' '.join(sorted(olds))} -> {new}")
    print("ends in _lem now: " + " ".join(sorted(v for v in {**dashes, **lemmas}.values() if v.endswith("_lem"))))

    def turn(word, own):
        if word in dashes:
            return dashes[word]
        if word in own:
            return snake(word).replace("-", "_")
        return humps.get(word, word)

    for p, t in texts.items():
        own = local.get(p, ())
        new = t
        if lemmas and p.endswith(".antt"):
            new = TOKEN.sub(lambda m: m.group(0) if t[m.start() - 1:m.start()] == "." else lemmas.get(m.group(0), m.group(0)), t)
        new = TOKEN.sub(lambda m: turn(m.group(0), own), new)
        if new != t:
            with open(p, "w", encoding="utf-8") as f:
                f.write(new)
    pages = [top + "/README.md"] + glob.glob(top + "/docs/*.md") + glob.glob(top + "/docs/changes/*.md")
    for p in pages:
        t = read(p)
        new = re.sub(r"```.*?```|`[^`\n]+`", lambda m: TOKEN.sub(lambda n: turn(n.group(0), ()), m.group(0)), t, flags=re.S)
        if new != t:
            with open(p, "w", encoding="utf-8") as f:
                f.write(new)
    print(f"{len(humps)} names with a hump, {len(dashes)} with a dash")


main(sys.argv[1] if len(sys.argv) > 1 else ".")
