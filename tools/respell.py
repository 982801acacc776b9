#!/usr/bin/env python3
"""Spells the repository's own definitions and lemmas as today's library spells its own: words in snake case, a dash between two names.

usage: tools/respell.py [--table]     at the top of a repository that port.py of the kit has turned; --table prints the names and writes nothing

Turned are the names that files of specs/ and the lemma files of proofs/ declare, wherever they stand in crates/ (in edits too), README.md and docs/.
`bitCount` becomes `bit_count`; a dash stays where a name of the library or of a definition stands on both sides of it, as in `bit-and`, and becomes
`_` elsewhere. Functions, fields and constants of src/ keep their names. A name that would fall together with another keeps its own, but where a
definition and a lemma would: then the lemma ends in `_lem`.
"""

import pathlib
import re
import sys

ROOT = pathlib.Path(".")
TOKEN = re.compile(r"[^\s(){}\[\].;,:@\"«»`|&$#=/<>!+*%^~]+(?:[^\s(){}\[\].;,:@\"«»`])*")
DECLARED = re.compile(r"(?m)^ *((?:pub |unfoldable |abbrev |record |data |ruleset )*)([^\s(){}.;,@\"«»:]+)(?: \{[^{}\n]*\})* :(?: |$)")
WORKING = re.compile(r"/proofs/(?:.*/)?(?:Proof|Answers|Invariants)\.antt$")
# A field that Rattle makes of a variable is so called.
MADE = re.compile(r"-(?:is|fits|bits|end)$")
OPERATORS = set("and or not add mul sub div mod pow le lt eq suc zero one".split())
# Words that are taken today: a tactic's.
TAKEN = {"ground": "grounded"}
DOCS = re.compile(r"`[^`\n]+`")
# A word of Rust that a clause may name: what has it keeps it.
RUST = re.compile(r"\b(\w+): |\b(?:const|static) (\w+)")


def texts(*kinds):
    for path in sorted(ROOT.glob("crates/**/*")):
        if path.suffix in kinds and "out" not in path.parts and path.is_file():
            yield path, path.read_text()


def in_snake_case(name):
    return re.sub(r"(?<=[a-z0-9])[A-Z](?=[a-z]|$|-)", lambda found: "_" + found[0].lower(), name)


def with_dashes(name, heads):
    """The name with a dash only between two names."""
    parts = name.split("-")
    spelled = parts[0]
    for before, part in zip(parts, parts[1:]):
        left = spelled.rpartition("-")[2]
        spelled += ("-" if left in heads and part in heads else "_") + part
    return spelled


def table():
    """Each name that changes, with its new spelling."""
    declared, definitions, tokens, rust, library = {}, set(), set(), set(), set()
    for path, text in texts(".antt", ".rt"):
        tokens.update(re.findall(r"[^\s(){}.;,@\"«»]+", text))
        for items in re.findall(r"use Rattle\.std\.[^{;\n]*\{([^}]*)\}", text):
            library.update(re.split(r"[,\s]+", items))
        if path.suffix == ".rt":
            code = re.sub(r"//[^\n]*|ghost use[^;]*;", "", text)
            rust.update(name for found in RUST.findall(code) for name in found if name)
        elif not WORKING.search(str(path)):
            for marks, name in DECLARED.findall(text):
                declared.setdefault(name, set()).add(str(path))
                if re.search(r"unfoldable|abbrev|record|data", marks) or not marks and "-" not in name:
                    definitions.add(in_snake_case(name))
    heads = {name for name in definitions | library if "-" not in name} | OPERATORS
    turned, fallen = {}, {}
    # definitions before lemmas
    for name in sorted(declared, key=lambda name: ("-" in name, name)):
        if not name[:1].islower() or MADE.search(name):
            continue
        new = with_dashes(in_snake_case(name), heads)
        if new == name:
            continue
        if new in rust or new in library or new in turned.values():
            continue
        if new in declared:
            if "-" in name:
                continue
            fallen[new] = new + "_lem"
        turned[name] = new
    return turned, {old: new for old, new in fallen.items() if new not in tokens}, declared


def main():
    turned, fallen, declared = table()
    if "--table" in sys.argv[1:]:
        for old, new in sorted({**turned, **fallen}.items()):
            print(old, new)
        return
    whole = re.compile(r"(?<![^\s(){}.;,@\"«»`])(" + "|".join(sorted(map(re.escape, turned), key=len, reverse=True)) + r")(?![^\s(){}.;,@\"«»`])")
    for path, text in texts(".antt", ".rt", ".edit"):
        new = text
        # the lemmas that make room, in the files that declare or import them
        for old, other in fallen.items():
            if path.suffix == ".antt" and (str(path) in declared[old] or re.search(rf"use [^\n]*\b{old}\b", text)) and not WORKING.search(str(path)):
                new = re.sub(rf"(?<![^\s(){{}}.;,@\"«»`]){old}(?![^\s(){{}}.;,@\"«»`])", other, new)
        new = whole.sub(lambda found: turned[found[1]], new)
        for old, other in TAKEN.items():
            new = re.sub(rf"(?m)^(?!\s*--)(.*)$", lambda line: re.sub(rf"(?<![\w-]){old}(?![\w-])", other, line[1]), new)
        if new != text:
            path.write_text(new)
    # pages also name what port.py has turned already
    known = {*declared, *turned.values(), *fallen.values()}

    def in_page(found):
        new = turned.get(found[0]) or with_dashes(in_snake_case(found[0]), set())
        other = in_snake_case(found[0])
        return next((name for name in (new, other) if found[0] not in {*declared} - {*turned} and name in known), found[0])

    for path in [ROOT / "README.md", *sorted(ROOT.glob("docs/*.md"))]:
        text = path.read_text()
        new = DOCS.sub(lambda code: re.sub(r"[a-z][\w']*(?:-[\w']+)*", in_page, code[0]), text)
        if new != text:
            path.write_text(new)


main()
