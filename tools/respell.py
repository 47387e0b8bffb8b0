#!/usr/bin/env python3
"""Brings the repository's own definitions, lemmas, fields and constructors to today's spelling.

usage: python3 tools/respell.py [--list] [FOLDER]

Run once, at the top of the repository (or of FOLDER), right behind the kit's port.py. A name that
was written with dashes becomes snake case, and a type or a fact upper camel case: `flat-arena` is
`flat_arena`, `Lawful-arena` is `LawfulArena`. Names that the toolchain makes (goals, generated
fields), functions of src/, strings and files of input and output keep theirs. --list writes the
names, old and new, and changes nothing. A name whose new spelling a file has already is told in a
line 'taken:' and turned all the same: here each such pair is a function and the definition that it
answers, or a field and the definition of its value. Look at them before you go on.
"""
import glob
import os
import re
import sys

RESERVED = set("data record deriving module where use mod pub package open as unfoldable abbrev axiom unfold unfolding ruleset mutual infix infixl infixr elim let in do Type coe fcoe tcoe hcom com".split())

WORD = re.compile(r"[^\s(){}\[\].,;:«»∣|λ`\"'@]+'*")
HEAD = re.compile(r"^(?:(?:abbrev|unfoldable|pub|mutual|data|record|ruleset) )*([^\s:(){},;.«»]+)\s*(?:[({].*)?:(?!=)")
INNER = re.compile(r"^\s+(?:(?:abbrev|unfoldable|pub|data|record) )*([^\s:(){}.=]+) : ")
KEYS = ("use ", "--", "pub mod", "mod ", "pub use", "where", "infix", "module", "unfolding")


def read(path):
    with open(path, encoding="utf-8") as f:
        return f.read()


def antt(root, crate):
    for kind in ("specs", "proofs"):
        yield from sorted(glob.glob(f"{root}/crates/{crate}/{kind}/**/*.antt", recursive=True))


def declared(text, is_goal_file):
    """The names that a file declares, each with whether it is a type: definitions, fields and constructors."""
    names = {}
    block = None
    for line in text.split("\n"):
        body = line.strip()
        if not body or body.startswith(KEYS):
            continue
        if not line.startswith(" "):
            m = HEAD.match(line)
            block = None
            if m:
                plain = re.sub(r"^(?:abbrev |unfoldable |pub |mutual )*", "", line)
                kind = plain.split(" ")[0]
                if is_goal_file and "goal." in line:
                    continue
                is_type = kind in ("data", "record") or re.search(r"(?:→|:)\s*Type 0\b[^→]*$", line) is not None
                names[m[1]] = is_type
                block = kind if kind in ("data", "record") else None
        elif block and re.match(r"^  (?:pub )?[^\s:(){}]+ :", line):
            m = re.match(r"^  (?:pub )?([^\s:(){}]+) :", line)
            names.setdefault(m[1], False)
        elif (m := INNER.match(line)) and not body.startswith(("let ", "λ")):
            # a lemma of a section, or beside another, below `where`
            names.setdefault(m[1], m[1][0].isupper() and "Type 0" in line)
    return names


def respelled(name, is_type):
    parts = [p for p in name.split("-") if p]
    if len(parts) < 2:
        return name
    if is_type and name[0].isupper():
        return "".join(p[0].upper() + p[1:] for p in parts)
    if name[0].isupper():
        # a lemma named after a fact keeps the dash behind the fact's name
        return parts[0] + "-" + "_".join(parts[1:])
    return "_".join(parts)


def main():
    arguments = [a for a in sys.argv[1:] if a != "--list"]
    root = arguments[0] if arguments else "."
    crates = sorted(c for c in os.listdir(f"{root}/crates") if os.path.isdir(f"{root}/crates/{c}/src"))
    names = {}
    for crate in crates:
        for path in antt(root, crate):
            goal_file = os.path.basename(path) in ("Answers.antt", "Invariants.antt", "Choices.antt", "Proof.antt")
            for name, is_type in declared(read(path), goal_file).items():
                new = respelled(name, is_type)
                if new != name:
                    names[name] = new
    files = [p for c in crates for p in antt(root, c)]
    files += sorted(glob.glob(f"{root}/crates/*/src/**/*.rt", recursive=True))
    for path in files:
        # what an import is called here
        for name in re.findall(r" as ([A-Za-z]+(?:-[A-Za-z]+)+)[,}]", read(path)):
            names.setdefault(name, respelled(name, True))
    taken = {}
    for path in files:
        words = set(WORD.findall(read(path)))
        for name in words & names.keys():
            if names[name] in words:
                taken.setdefault((name, names[name]), []).append(path)
    for (name, new), where in sorted(taken.items()):
        print(f"taken: {name} -> {new} in {' '.join(where)}")
    if "--list" in sys.argv:
        for name in sorted(names):
            print(name, names[name])
        return
    changed = 0
    for path in files:
        text = read(path)
        # a name in guillemets that needs none any more loses them
        new = re.sub(r"«([^»]*)»", lambda m: names.get(m[1], m[1] if re.fullmatch(r"\w+", m[1]) and m[1] not in RESERVED else m[0]), text)
        # a name the toolchain made, as behind `goal.`, is left
        new = re.sub(r"(?<!goal\.)(?<!\bc\.)(?<!\bw\.)" + WORD.pattern, lambda m: names.get(m[0], m[0]), new)
        if new != text:
            changed += 1
            with open(path, "w", encoding="utf-8") as f:
                f.write(new)
    print(f"respell: {len(names)} names, {changed} files")


if __name__ == "__main__":
    main()
