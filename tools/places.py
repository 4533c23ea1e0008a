#!/usr/bin/env python3
"""Lists the places of src/ that docs/DESIGN-PASS.md counts, a line each: `tools/places.py POINT` (1 to 7), or all points' numbers with none.

A place of point 1 is an own type of the shape of Option or Result, a flag or a number code beside values, a function that answers
by a number code, or a value that stands for "none". Of 2, functions that are equal but for types, sizes, constants and names of theirs.
Of 3, a loop by `while` or `loop`. Of 4, a function that only casts, compares or turns a flag into a number, or one that prints.
Of 5, parameters that travel together through three functions or more, and facts asked by three functions or more.
Of 6, a table or buffer with its length or its place beside it. Of 7, a match on a number that stands for a name or a step.
"""
import collections
import pathlib
import re
import sys

ROOT = pathlib.Path(__file__).resolve().parent.parent
SOURCES = sorted(ROOT.glob("crates/*/src/**/*.rt"))


def functions():
    """(file, line, name, head, body) of every function."""
    for path in SOURCES:
        text = path.read_text()
        for found in re.finditer(r"^( *)(?:pub(?:\(crate\))? )?(?:extern \"C\" )?fn (\w+)", text, re.M):
            indent = found[1]
            end = re.search(rf"^{indent}\}}$", text[found.start():], re.M)
            whole = text[found.start():found.start() + end.end()] if end else text[found.start():]
            cut = re.search(rf"^{indent}\{{$|\) .*\{{$|\)\s*(?:->[^{{\n]*)?\{{$", whole, re.M)
            at = cut.end() if cut else len(whole)
            yield path, text[:found.start()].count("\n") + 1, found[2], whole[:at], whole[at:]


def types():
    for path in SOURCES:
        text = path.read_text()
        for found in re.finditer(r"^(?:pub(?:\(crate\))? )?(struct|enum) (\w+)[^{;\n]*\{\n(.*?)^\}", text, re.M | re.S):
            yield path, text[:found.start()].count("\n") + 1, found[1], found[2], found[3]


def say(path, line, what):
    return f"{path.relative_to(ROOT)}:{line}: {what}"


def point_1():
    for path, line, kind, name, body in types():
        if kind == "enum" and re.search(r"^\s+(Bad|Refused\(u8\)|Failed|Passed),$", body, re.M):
            yield say(path, line, f"enum {name}, of the shape of Option or Result")
        if kind == "struct" and re.search(r"^\s+(pub )?(number: u8|good: bool|found: bool|known: bool|met: bool|failed: bool),$", body, re.M):
            yield say(path, line, f"struct {name}, a flag or a number code beside values")
    for path, line, name, head, body in functions():
        if re.search(r"-> u8\b", head) and re.search(r"_refusal|limits::[A-Z_]+|refus", head + body) and not re.search(r"NO_ROW|number\(self\)|one_if", head + body):
            yield say(path, line, f"fn {name} answers by a number code")
        elif re.search(r"-> u8\b", head) and re.search(r"slot|round|choose", name):
            yield say(path, line, f"fn {name} answers by a number code")
        if re.search(r"return (NONE|BASE|n|bound|text\.len\(\));|room\.len\(\) \+ 1|out\.len\(\) \+ 1", body) and re.search(r"magnitude|worth|index_of|below|name_of|number_to|write_out|read_once", name):
            yield say(path, line, f"fn {name} has a value that stands for none")
        if name == "name_of" and "Option" not in head:
            yield say(path, line, f"fn {name} has a number that stands for none")


def shape_of(body):
    body = re.sub(r"//.*", "", body)
    body = re.sub(r"\b(u8|u16|u32|u64|i8|i16|i32|i64|usize|f32)\b", "T", body)
    body = re.sub(r"b?'[^']*'|b?\"[^\"]*\"|\b\d[\d_]*\b|\b[A-Z][A-Z_0-9]+\b", "N", body)
    body = re.sub(r"\w+::", "", body)
    names = {}
    keep = {"if", "else", "return", "let", "mut", "while", "for", "in", "match", "as", "true", "false", "len", "loop", "Some", "None", "Ok", "Err", "T", "N"}
    body = re.sub(r"\b[A-Za-z_]\w*\b", lambda m: m[0] if m[0] in keep else names.setdefault(m[0], f"v{len(names)}"), body)
    return re.sub(r"\s+", " ", body)


def point_2():
    groups = collections.defaultdict(list)
    for path, line, name, head, body in functions():
        if body.count("\n") >= 2 and "extern" not in head:
            groups[shape_of(body)].append(say(path, line, f"fn {name}"))
    for group in groups.values():
        if len(group) > 1:
            yield f"{len(group)} alike: " + "; ".join(group)


def point_3():
    for path in SOURCES:
        for line, text in enumerate(path.read_text().split("\n"), 1):
            if re.match(r"\s*(while\b|loop \{)", text):
                yield say(path, line, text.strip())


def point_4():
    for path, line, name, head, body in functions():
        inner = re.sub(r"\s+", " ", body).strip()
        if re.fullmatch(r"\w+ as \w+ \}", inner):
            yield say(path, line, f"fn {name} only casts")
        elif re.fullmatch(r"if [^{]+ \{ [01] \} else \{ [01] \} \}", inner):
            yield say(path, line, f"fn {name} turns a flag into a number")
        elif re.fullmatch(r"if \w+ < \w+ \{ return \w+; \} \w+ \}", inner):
            yield say(path, line, f"fn {name} is a least or a greatest")
        elif re.fullmatch(r"\w+ == \w+ \}", inner):
            yield say(path, line, f"fn {name} only compares")
        elif re.search(r"\bout: &mut \[u8\]", head) and re.search(r"out::|text_put|fn (word|number|count|hex)", head + body):
            yield say(path, line, f"fn {name} prints by hand")


PACKS = {
    "the five arrays of a desk": ["shapes", "places", "rows", "book", "marks"],
    "shapes and places": ["shapes", "places"],
    "the keys of three axes": ["x", "y", "z"],
    "rows and book": ["rows", "book"],
    "the answers and the next place": ["out", "at"],
}


def parameters(head):
    inner = head[head.find("("):]
    return re.findall(r"[(,]\s*(?:mut )?(\w+): ", inner)


def point_5():
    for path, line, name, head, body in functions():
        said = parameters(head)
        for what, pack in PACKS.items():
            if what == "the keys of three axes" and head.count("AXIS_MARKS") < 3:
                continue
            if what in ("shapes and places", "rows and book") and "marks" in said:
                continue
            if all(p in said for p in pack):
                yield say(path, line, f"fn {name}: {what}")
    facts = collections.defaultdict(list)
    for path, line, name, head, body in functions():
        for clause in re.findall(r"requires(?: \w+)? \{(.*?)\}\n", head, re.S):
            for fact in set(re.sub(r"[()]", "", f).strip() for f in re.split(r" × ", clause)):
                facts[fact].append(say(path, line, name))
    for fact, users in sorted(facts.items()):
        if len(users) >= 3:
            yield f"asked by {len(users)}: {fact}"


def point_6():
    for path, line, kind, name, body in types():
        if kind == "struct" and re.search(r": \[", body) and re.search(r"\b(count|len|at): usize", body):
            yield say(path, line, f"struct {name}: an array with its length beside it")
    for path, line, name, head, body in functions():
        said = parameters(head)
        for buffer, length in (("kept", "count"), ("held", "kept"), ("lent", "")):
            if buffer in said and (not length or length in said):
                yield say(path, line, f"fn {name}: {buffer}{' and ' + length if length else ', an array of numbers by index'}")
        if re.search(r"boxes: &(mut )?\[i32; BOXES\]", head):
            yield say(path, line, f"fn {name}: boxes, six numbers a shape")
        if re.search(r"while .*\{", body) and name in ("find", "is_kept", "is_at", "name_of", "copy", "copy_numbers", "fill_up", "same_book", "put"):
            yield say(path, line, f"fn {name}: a search, a copy or a comparison by hand")


def point_7():
    for path, line, name, head, body in functions():
        if re.search(r"match (name_of|kind\b)", body):
            yield say(path, line, f"fn {name}: a match on a number that stands for a name")
        if re.search(r"\b(in_words|trial): bool", head):
            yield say(path, line, f"fn {name}: a flag that says which step to run")


def main():
    points = {n: globals()[f"point_{n}"] for n in range(1, 8)}
    if len(sys.argv) > 1:
        print(*points[int(sys.argv[1])](), sep="\n")
        return
    for n, places in points.items():
        print(f"point {n}: {len(list(places()))}")


main()
