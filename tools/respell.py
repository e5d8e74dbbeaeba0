#!/usr/bin/env python3
"""Brings the names of definitions and lemmas to one spelling: words in snake case, types and modules in camel case.

    python3 tools/respell.py          the whole repository, once

A name of specs/ or proofs/ in camel case whose first letter is small, as edgeSum, becomes edge_sum. A dash joins two
names of definitions, as in path-sum; any other dash becomes an underscore, as in known_near. Names of types, of code
and of the library stay. Clauses, `ghost use` lines, must-fail edits and the names in comments' code spans follow.
It prints what it renamed, and stops before it writes anything where two names would fall together.
"""
import glob
import os
import re
import sys

TOKEN = re.compile(r"[^\s(){}.;,@\"«»\[\]\\`]+")
HEAD = re.compile(r"^\s*(?:(?:pub|abbrev|unfoldable|opaque|syntax|where)\s+)*(?:(record|data|ruleset)\s+)?"
                  r"([^\s(){}.;,@\"«»\[\]\\:=]+)\s*(?=[:({])", re.M)
# the library's words that own lemmas speak of, as it spells them
LIBRARY = {"natAbs": "nat_abs", "getD": "get_or", "leZ": "le_z", "ltZ": "lt_z", "mapD": "map"}
WORDS = set("sum length take drop get_or set append map reverse suc pos pred le lt add mul div mod ap rw fold filter".split())


def read(path):
    with open(path, encoding="utf-8", newline="") as file:
        return file.read()


def write(path, text):
    with open(path, "w", encoding="utf-8", newline="") as file:
        file.write(text)


def snake(word):
    for old, new in LIBRARY.items():
        if word == old:
            return new
    word = re.sub(r"([a-z0-9])([A-Z])(?=[a-z])", lambda m: m[1] + "_" + m[2].lower(), word)
    word = re.sub(r"([a-z0-9])([A-Z])(?![a-z])", lambda m: m[1] + "_" + m[2].lower(), word)
    return word


def bare(text):
    """The text with comments and strings blanked."""
    text = re.sub(r"(?m)(^|(?<=[\s(){}.;,]))--[^\n]*", lambda m: " " * len(m[0]), text)
    return re.sub(r'"(?:[^"\\\n]|\\.)*"', lambda m: " " * len(m[0]), text)


def own_names(paths):
    """What specs/ and the files of laws in proofs/ define, and the lemmas in front of a function's proof."""
    defined, lemmas, imported, generated = set(), set(), set(), set()
    for path in paths:
        text = bare(read(path))
        for use in re.finditer(r"^\s*use ([^\s{]+?)\.?(?:\{([^}]*)\})?(?: as \S+)?$", text, re.M):
            if not re.match(r"Rattle\.(?!std\b|core\b)", use[1]):
                imported.update(re.split(r"[\s,]+", use[2] or ""))
        inner = re.search(r"/proofs/.+/", path)
        for head in HEAD.finditer(text):
            name = head[2]
            line = text[head.start(2):text.find("\n", head.start(2))]
            if re.search(r":\s*tie\.", line) or inner and re.search(r"-spec$|_spec$", name):
                generated.add(name)
            elif inner:
                lemmas.add(name)
            else:
                defined.add(name)
    return defined, lemmas, imported, generated


def new_name(name, words):
    operator = re.fullmatch(r"◌(\w+)◌", name)
    if operator:
        return "◌" + snake(operator[1]) + "◌"
    parts = name.split("-")
    if not all(re.fullmatch(r"[→←]?[\w'₀-₉ᶻ≤<∙+*·→←↔]+", part) for part in parts):
        return name
    turned = [snake(part) if re.match(r"[→←]?[a-z]", part) else part for part in parts]
    out = turned[0]
    for at in range(1, len(parts)):
        both = parts[at - 1] in words and parts[at] in words
        plain = all(re.match(r"[→←]?[A-Za-z]", part) for part in parts[at - 1:at + 1])
        out += ("-" if both or not plain else "_") + turned[at]
    return out


def table():
    paths = sorted(glob.glob("crates/*/specs/**/*.antt", recursive=True) + glob.glob("crates/*/proofs/**/*.antt", recursive=True))
    defined, lemmas, imported, generated = own_names(paths)
    words = WORDS | {name for name in defined if re.fullmatch(r"\w+", name)}
    rows = {}
    for name in sorted(defined | lemmas):
        if name in imported or not re.search(r"[a-z][A-Z]|-", name) or name[0].isupper():
            continue
        if name not in defined and name in generated:
            continue
        new = new_name(name, words)
        if new != name:
            rows[name] = new
    # a lemma that would have its function's name is told from it
    functions = {new for name, new in rows.items() if "-" not in name} | {"same_list"}
    for name, new in rows.items():
        if "-" in name and new in functions:
            rows[name] = new + "_lem"
    for name in functions & (defined | lemmas) - {"same_list"}:
        rows[name] = name + "_lem"
    return rows, paths, (defined | lemmas | imported) - set(rows)


def replaced(text, rows):
    """What stands right behind `proofs.` or `specs.` is a module."""
    return TOKEN.sub(lambda m: m[0] if text[:m.start()].endswith(("proofs.", "specs.")) else rows.get(m[0], m[0]), text)


def in_antt(text, rows):
    out, at = [], 0
    for quiet in re.finditer(r"(?m)(?:^|(?<=[\s(){};,]))--[^\n]*|\"(?:[^\"\\\n]|\\.)*\"", text):
        out.append(replaced(text[at:quiet.start()], rows))
        piece = quiet[0]
        if piece.startswith("--"):
            piece = spans(piece, rows)
        out.append(piece)
        at = quiet.end()
    out.append(replaced(text[at:], rows))
    return "".join(out)


def spans(text, rows):
    """A comment or a page: names in code spans turn, and bare words in camel case, which are no English."""
    text = re.sub(r"`[^`\n]+`", lambda m: replaced(m[0], rows), text)
    camel = {old: new for old, new in rows.items() if re.fullmatch(r"\w*[a-z][A-Z]\w*", old)}
    return replaced(text, camel)


def in_rt(text, rows):
    """Clauses and ghost items turn; in comments, spans."""
    out, at = [], 0
    for item in re.finditer(r"//[^\n]*|\"(?:[^\"\\\n]|\\.)*\"|\bghost use\b[^;]*;|\b(?:requires|ensures)\b[ *]*\w*\s*\{|\bghost\b[^{;]*\{", text):
        if item.start() < at:
            continue
        out.append(text[at:item.start()])
        piece, end = item[0], item.end()
        if piece.startswith("//"):
            piece = spans(piece, rows)
        elif piece.startswith("ghost use"):
            piece = replaced(piece, rows)
        elif piece.endswith("{"):
            depth = 1
            while depth:
                depth += {"{": 1, "}": -1}.get(text[end], 0)
                end += 1
            piece = piece + replaced(text[item.end():end], rows)
        out.append(piece)
        at = end
    out.append(text[at:])
    return "".join(out)


def in_edit(text, rows):
    lines, kind = [], ""
    for line in text.split("\n"):
        if line.startswith("file:"):
            kind = line.rsplit(".", 1)[-1].strip()
        elif kind == "antt":
            line = in_antt(line, rows)
        elif re.search(r"requires|ensures|ghost", line):
            line = replaced(line, rows)
        lines.append(line)
    return "\n".join(lines)


def main():
    rows, paths, taken = table()
    clash = sorted((old, new) for old, new in rows.items() if new in taken)
    twice = {}
    for old, new in rows.items():
        twice.setdefault(new, []).append(old)
    clash += sorted((" ".join(olds), new) for new, olds in twice.items() if len(olds) > 1)
    for old, new in rows.items():
        print(old, new)
    for old, new in clash:
        print(f"respell: {old} would be {new}, which is there already", file=sys.stderr)
    if clash and "--anyway" not in sys.argv:
        sys.exit(2)
    if "--check" in sys.argv:
        return
    for path in paths:
        text = read(path)
        turned = in_antt(text, rows)
        if turned != text:
            write(path, turned)
    for path in sorted(glob.glob("crates/*/src/**/*.rt", recursive=True)):
        text = read(path)
        turned = in_rt(text, rows)
        if turned != text:
            write(path, turned)
    for path in sorted(glob.glob("crates/*/must-fail/*.edit")):
        text = read(path)
        turned = in_edit(text, rows)
        if turned != text:
            write(path, turned)


if __name__ == "__main__":
    main()
