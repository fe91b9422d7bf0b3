#!/usr/bin/env python3
"""Respells the definitions and lemmas of crates/*/specs and crates/*/proofs: a dash between words becomes an underscore.

usage: respell.py [--check]     (at the top of the repository)

A name is turned wherever it stands as a whole word: in .antt files, in the clauses and `ghost use` items of .rt files, in the code spans of .md files.
What stays: text in quotes; names of Rust functions, fields and constants; and the labels that Rattle makes, which stand behind
`goal.`, or as the first name behind `c.`, `w.`, `l.` or `g.`.
Where the new spelling is already an identifier of a .rt file that cites the name, or a word of an .antt file that does, the name gets the ending `_lem`.
--check writes nothing. A second run changes nothing.
"""
import collections
import glob
import os
import re
import sys

NAME = r'[^\s(){}.;,@"«»`⟦⟧]+'
WORD = re.compile(NAME)
DECLARED = re.compile(
    r"(?m)^ *(?:(?:pub|abbrev|unfoldable|record|data|let) +)*(%s)(?: \{[^{}\n]*\}| \([^()\n]*\))* :(?= |$)(.*)" % NAME
)
ALIAS = re.compile(r" as «?(%s)»?" % NAME)
QUIET = re.compile(r'"(?:[^"\\\n]|\\.)*"|--[^\n]*')
RUST_QUIET = re.compile(r'//[^\n]*|b?"(?:[^"\\]|\\.)*"')
SPAN = re.compile(r"`[^`\n]*`")
# A label that Rattle makes, behind the record of what is known at a goal.
MADE = re.compile(
    r'(?<![^\s(){};,@"«»])(?:c|w|l|g|goal)[0-9₀-₉\']*\.(?:(?:args|initial|fn|new|auto|ranges)\.)?' + NAME
)
# The path of a `use` line, and the name of a module: no term reads them.
MODULE = re.compile(r"\buse [^\s;{]*\.(?=\{)|\buse [^\s;{]* as\b|\bmod \w+;")
# The library's names that two lemmas were named for are spelled anew there.
WORDS = {"getD": "get_or", "putMid": "put_mid", "A": "a", "B": "b", "C": "c", "D": "d", "Numbered": "numbered"}


def is_dashed(name):
    return re.fullmatch(r"[\w'₀-₉]+(-[\w'₀-₉]+)+", name) is not None


def turned(name):
    return "_".join(WORDS.get(part, part) for part in name.split("-"))


def read(path):
    with open(path, encoding="utf-8") as file:
        return file.read()


def between(pattern, text, inside, outside):
    out, at = [], 0
    for m in pattern.finditer(text):
        out += [outside(text[at : m.start()]), inside(m[0])]
        at = m.end()
    return "".join(out + [outside(text[at:])])


def spans(text, turn):
    return SPAN.sub(lambda m: turn(m[0]), text)


def respell(text, kind, turn):
    if kind == ".antt":
        code = lambda t: between(MADE, t, str, turn)
        return between(QUIET, text, lambda q: q if q[0] == '"' else spans(q, turn), code)
    if kind == ".rt":
        return between(RUST_QUIET, text, lambda q: spans(q, turn) if q[0] == "/" else q, turn)
    return spans(text, turn)


def main():
    antt = sorted(glob.glob("crates/*/specs/**/*.antt", recursive=True) + glob.glob("crates/*/proofs/**/*.antt", recursive=True))
    rust = sorted(glob.glob("crates/*/src/**/*.rt", recursive=True))
    docs = sorted(glob.glob("docs/*.md")) + ["README.md"]
    texts = {path: read(path) for path in antt + rust + docs}
    names, goals = set(), set()
    for path in antt + rust:
        code = (QUIET if path in antt else RUST_QUIET).sub(" ", texts[path])
        if path in antt:
            for m in DECLARED.finditer(code):
                (goals if m[2].strip().startswith("goal.") else names).add(m[1])
            names.update(re.findall(r"(?m)^ *ruleset (?:pub )?(%s)" % NAME, code))
        names.update(ALIAS.findall(code))
    names = {name for name in names if is_dashed(name)} - goals
    table = {name: turned(name) for name in names}

    # Where the new spelling meets another word.
    clashes = collections.defaultdict(set)
    for path in antt + rust:
        code = (QUIET if path in antt else RUST_QUIET).sub(" ", texts[path])
        if path in antt:
            code = MADE.sub(" ", code)
        code = MODULE.sub(" ", code)
        words = set(WORD.findall(code))
        plain = set(WORD.findall(re.sub(r"\w+\s*(?=\()|(?<=[.:])\w+", " ", code))) if path in rust else words
        for name in words & names:
            if table[name] in plain:
                clashes[name].add(path)
    for name in sorted(clashes):
        print(f"clash: {name} in {', '.join(sorted(clashes[name]))}")
        table[name] += "_lem"
    back = collections.defaultdict(list)
    for old, new in table.items():
        back[new].append(old)
    for new, olds in sorted(back.items()):
        if len(olds) > 1:
            sys.exit(f"{' and '.join(sorted(olds))} fall together as {new}")

    turn = lambda t: WORD.sub(lambda m: table.get(m[0], m[0]), t)
    changed = 0
    for path, old in texts.items():
        new = respell(old, os.path.splitext(path)[1], turn)
        if path in antt or path in rust:
            new = re.sub(r" as «(\w+)»", r" as \1", new) if "«" in new else new
            new = re.sub(r"«([\w']+)»", lambda m: m[1] if m[1] in table.values() else m[0], new)
        if new != old:
            changed += 1
            if "--check" not in sys.argv:
                with open(path, "w", encoding="utf-8") as file:
                    file.write(new)
    print(f"{len(table)} names, {changed} files")


if __name__ == "__main__":
    main()
