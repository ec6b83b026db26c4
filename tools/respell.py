#!/usr/bin/env python3
"""Brings the repository's own definitions and lemmas to the kit's spelling, once, after the kit's port.py.

usage: respell.py [--show]     at the top of the repository

What specs/ and proofs/ declare (definitions, lemmas, record fields, constructors) is spelled in snake case: `rangesOf`
becomes `ranges_of`, `asked-yes` becomes `asked_yes`. A dash stays where it joins two names of definitions, as in
`length-insert_by_frame`. A lemma that would meet a definition or another lemma gets `_lem`. Types, facts and modules
keep their capitals. Answers of a function's proof, in proofs/MODULE/FUNCTION/, are no names of the repository: there
only what is brought in from elsewhere is respelled.
"""

import collections
import glob
import re
import sys

NAME = r"[^\s(){}.;,@\"«»`:]+"
DECL = re.compile(
    r"(?m)^( *)((?:abbrev |unfoldable |pub |ruleset )*)(" + NAME + r")((?: [({][^(){}\n]*[)}])*) :(?= )"
)
# Several names of one type, as constructors and fields may stand.
SEVERAL = re.compile(r"(?m)^ +(?:pub )?((?:" + NAME + r" )+" + NAME + r") :(?= )")
OPERATOR = re.compile(r"◌|^[^\w]")
# Names of the library that a dash may join, beside the repository's own definitions.
LIBRARY = set("length map take drop get_or set reverse replicate append sum cond All".split())


def snake(name):
    if name[0].isupper():
        return re.sub(r"-([a-z])", lambda m: m[1].upper(), name)
    name = re.sub(r"(?<=[a-z0-9])([A-Z])(?=[a-z0-9]|$|-|_)", lambda m: "_" + m[1].lower(), name)
    return name


def files(*patterns):
    return sorted({f for p in patterns for f in glob.glob(p, recursive=True)})


SPECS = files("crates/*/specs/*.antt")
LAWS = files("crates/*/proofs/*.antt")
ANSWERS = [f for f in files("crates/*/proofs/**/*.antt") if f not in LAWS]
SOURCES = files("crates/*/src/**/*.rt")
EDITS = files("crates/*/must-fail/*.edit")
PAGES = files("README.md", "docs/*.md")


def read(f):
    with open(f, encoding="utf-8") as it:
        return it.read()


def code_of(text):
    return re.sub(r"(?m)--.*$", "", text)


def declared(fs):
    found = collections.defaultdict(set)
    for f in fs:
        for m in DECL.finditer(code_of(read(f))):
            name = m[3]
            if not OPERATOR.search(name) and name not in ("go", "where"):
                found[name].add(f)
        for m in SEVERAL.finditer(code_of(read(f))):
            for name in m[1].split():
                if not OPERATOR.search(name) and re.search(r"[a-z][A-Z]|-", name) and "let" not in m[1].split():
                    found[name].add(f)
    return found


in_specs, in_laws = declared(SPECS), declared(LAWS)
# What is defined, in laws too, and not proved.
DEFINED = re.compile(r"(?m)^ *(?:pub )?(?:abbrev|unfoldable) (?:pub )?(" + NAME + r")")
defined = {n for f in SPECS + LAWS for n in DEFINED.findall(code_of(read(f)))} | {n for n in in_specs if "-" not in n}
TOP = re.compile(r"(?m)^(?:pub )?(?:abbrev|unfoldable) (?:pub )?(" + NAME + r")")
definitions = {snake(n) for f in SPECS + LAWS for n in TOP.findall(code_of(read(f))) if "-" not in n} | LIBRARY


def respelled(name):
    name = snake(name)
    if "-" not in name:
        return name
    parts = name.split("-")
    # A dash joins two names where the longest stretches on both sides are definitions.
    out = parts[0]
    left = parts[0]
    for i, part in enumerate(parts[1:], 1):
        right = "_".join(parts[i:])
        joins = left in definitions and (right in definitions or part in definitions)
        out += ("-" if joins else "_") + part
        left = part if joins else left + "_" + part
    return out


def words_of(f, known={}):
    if f not in known:
        known[f] = set(re.findall(NAME, code_of(read(f))))
    return known[f]


# Does one file speak of more than one of these names?
def meets(names, f):
    return len(names & words_of(f)) > 1


def whole_map():
    table = {}
    everything = set(in_specs) | set(in_laws)
    for name in everything:
        new = respelled(name)
        if new != name:
            table[name] = new
    # Names that fall together: a lemma gives way to what has the name already, or to a definition.
    by_new = collections.defaultdict(set)
    for name in everything:
        by_new[table.get(name, name)].add(name)
    fn = {m for f in SOURCES for m in re.findall(r"\bfn (\w+)", read(f))}
    said = []
    for new, olds in sorted(by_new.items()):
        if len(olds) > 1:
            stays = [n for n in olds if n in defined] or [n for n in olds if "-" not in n] or [min(olds)]
            where = [in_specs[n] | in_laws[n] for n in olds]
            if not set.intersection(*where) and not any(meets(olds, f) for f in SPECS + LAWS + ANSWERS):
                continue
            for n in sorted(olds):
                if n != stays[0]:
                    if len(stays) > 1 and n in stays:
                        said.append(f"two definitions: {sorted(olds)} -> {new}")
                    table[n] = new + "_lem"
            said.append(f"together: {sorted(olds)} -> {new}: stays {stays[0]}")
        if new in fn and any(n in table for n in olds):
            said.append(f"also a function of src/: {new} ({sorted(olds)})")
    return table, said


if __name__ == "__main__":
    table, said = whole_map()
    if "--show" in sys.argv:
        for line in said:
            print(line)
        for old, new in sorted(table.items()):
            print(f"{old}\t{new}")
        sys.exit()

    own = {c.split("/")[1] for c in files("crates/*/src")}
    calls = {m.replace("_", "-") for f in SOURCES for m in re.findall(r"\bfn (\w+)", read(f))}
    camel = {n for n in table if re.search(r"[a-z0-9][A-Z]", n)}
    USE = re.compile(r"(?m)^ *(?:ghost )?use Rattle\.(\w+)\.([^{;\n]*)\{([^}]*)\}")

    OTHER = re.compile(r"(?m)^ *use (?:Rattle\.)?(\w+)\.[^{;\n]*\{([^}]*)\}")

    def turned(text, names, spell=lambda n: table[n]):
        return re.sub(NAME, lambda m: spell(m[0]) if m[0] in names else m[0], text)

    def from_others(text):
        return {n for m in OTHER.findall(text) if m[0] not in own for n in re.findall(NAME, m[1])}

    def laws(text):
        return turned(text, set(table) - from_others(text))

    # port.py turns no edit: there a projection is written tight, and the library's names are today's, here.
    def edit(text):
        text = re.sub(r"(?<=[\w')]) \.(?=[a-z])", ".", text).replace("getD", "get_or").replace("\u2032", "'")
        return turned(text, set(table))

    def answers(text):
        brought = {n for m in USE.findall(text) if m[0] in own for n in re.findall(NAME, m[2])} | camel
        brought = (brought & set(table)) - from_others(text)
        text = turned(text, brought)
        fields = set(table) - calls
        return re.sub(r"(?<=\.)" + NAME, lambda m: table[m[0]] if m[0] in fields else m[0], text)

    def source(text):
        return re.sub(r"(?<![\w\"'-])\w+(?![\w(-])|(?<=[ (])\w+(?=[ )])", lambda m: table[m[0]] if m[0] in camel else m[0], text)

    def page(text):
        return re.sub(r"`[^`\n]+`", lambda m: turned(m[0], set(table)), text)

    hows = [(SPECS + LAWS, laws), (EDITS, edit), (ANSWERS, answers), (SOURCES, source), (PAGES, page)]
    for fs, how in hows:
        for f in fs:
            text = read(f)
            new = how(text)
            if new != text:
                with open(f, "w", encoding="utf-8") as it:
                    it.write(new)
    for line in said:
        print(line)
