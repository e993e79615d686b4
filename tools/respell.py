#!/usr/bin/env python3
"""Brings the repository's own words to today's spelling: functions, lemmas, fields and variables in snake case, facts in upper camel case.

usage: python3 tools/respell.py [--list]      at the top of a checkout that the kit's port.py has turned

A word is the repository's own where an .antt file of crates/ declares or binds it. Names that the prover makes (the goals that Answers and
Invariants answer), names that come from std, and every name of the Rust code itself stay as they are. Comments and texts in quotes stay too.
--list prints the renamings and changes nothing."""
import pathlib
import re
import sys

NAME = r"[A-Za-z_][A-Za-z0-9_'\-]*"
TOKEN = re.compile(r"(?<![A-Za-z0-9_'\-])" + NAME)
# where the rule of thumb gives a name that is taken, or no good one
CHOSEN = {
    "atEdge": "at_edge",
    "faceChild": "face_child",
    "lineModel": "line_meaning",
    "squareModel": "square_meaning",
    "triangleModel": "triangle_meaning",
    "productModel": "product_meaning",
}


def respelled(name):
    if name in CHOSEN:
        return CHOSEN[name]
    head = name.lstrip("_")
    if head[:1].isupper():
        return "".join(p[:1].upper() + p[1:] for p in name.split("-"))
    if "-" in name:
        return name.replace("-", "_")
    return re.sub(r"(?<=[a-z0-9])([A-Z])", lambda m: "_" + m[1].lower(), name)


def parts(text, comment, quotes=True):
    """The text as pieces (is it code, piece): comments and quoted texts are no code."""
    pattern = comment + r"[^\n]*" + (r'|"(?:\\.|[^"\\])*"' if quotes else "")
    at = 0
    for m in re.finditer(pattern, text):
        yield True, text[at : m.start()]
        yield False, m[0]
        at = m.end()
    yield True, text[at:]


def words():
    declared, foreign, made = set(), set(), set()
    for p in sorted(pathlib.Path("crates").glob("*/**/*.antt")):
        if "out" in p.parts:
            continue
        text = "".join(piece for code, piece in parts(p.read_text(), "--") if code)
        for m in re.finditer(r"use Rattle\.(\w+)[\w.\-«»+]*\.\{([^}]*)\}", text):
            names = [n.strip().split(" as ") for n in m[2].split(",")]
            if m[1] in ("std", "core"):
                foreign |= {n[0].strip() for n in names}
            declared |= {n[1].strip() for n in names if len(n) > 1}
        made |= set(re.findall(r"(?:goal|need|rules|given|tie)\.(" + NAME + ")", text))
        declared |= set(re.findall(r"(?m)^\s*(?:(?:pub|abbrev|unfoldable|data|record|private) )*(" + NAME + r") (?:\([^\n]*)?:", text))
        declared |= set(re.findall(r"(?m)^\s*(?:(?:pub|abbrev|unfoldable) )*(?:data|record) (" + NAME + ")", text))
        for group in re.findall(r"[({]((?:" + NAME + r" )+):", text):
            declared |= set(group.split())
        for group in re.findall(r"λ ((?:" + NAME + r" ?)+)\.", text):
            declared |= set(group.split())
        declared |= set(re.findall(r"\blet (" + NAME + ")", text))
        # the variables of a clause: what stands between its name and its equals sign
        for line in re.findall(r"(?m)^\s*" + NAME + r" ([^=:\n]*) = ", text):
            declared |= set(re.findall(NAME, line))
    for p in sorted(pathlib.Path("crates").glob("*/src/**/*.rt")):
        for m in re.finditer(r"ghost use Rattle\.\w+[\w.\-]*\.\{([^}]*)\}", p.read_text()):
            declared |= {n.split(" as ")[1].strip() for n in m[1].split(",") if " as " in n}
    own = declared - foreign - made
    return {n: respelled(n) for n in sorted(own) if respelled(n) != n and ("-" in n or n in CHOSEN or n[0].islower())}


def turned(text, renamed, comment, quotes=True):
    return "".join(TOKEN.sub(lambda m: renamed.get(m[0], m[0]), piece) if code else piece for code, piece in parts(text, comment, quotes))


def main():
    renamed = words()
    if "--list" in sys.argv:
        print("\n".join(f"{old} -> {new}" for old, new in renamed.items()))
        return
    for p in sorted(pathlib.Path("crates").glob("*/**/*")):
        if "out" in p.parts or p.suffix not in (".rt", ".antt", ".edit"):
            continue
        text = p.read_text()
        new = turned(text, renamed, "--" if p.suffix == ".antt" else "//")
        if new != text:
            p.write_text(new)
    pages = [pathlib.Path("README.md"), *sorted(pathlib.Path("docs").glob("*.md"))]
    for p in pages:
        if p.exists() and p.name != "PORT.md":
            text = p.read_text()
            new = re.sub(r"`[^`\n]+`", lambda m: TOKEN.sub(lambda w: renamed.get(w[0], w[0]), m[0]), text)
            if new != text:
                p.write_text(new)


main()
