#!/usr/bin/env python3
"""Brings the repository's own definitions and lemmas to today's spelling: words in snake case, types in camel case.

    python3 tools/respell.py [--list]      at the top of a checkout, once, after the kit's own script

A name is the repository's own where a file of specs/ or proofs/ gives it a type, binds it or imports it `as` that. In
such a name a dash between two words becomes an underscore, or goes and the next letter is large where the name is a
type's. A dash before or after a sign stays (`rows-++`). What Rattle makes (the goals of a proof) and the strings of src/ keep their text; in the
comments of src/ and in pages names are turned between backticks. --list prints the names and changes nothing.
"""
import os
import re
import sys

HERE = os.getcwd()
SIGNATURE = re.compile(
    r"^\s*(?:(?:abbrev|unfoldable|pub|axiom|private)\s+)*((?:data|record)\s+)?(?:pub\s+)?([^\s:(){}λ.,]+)((?:\s+[^:=]*)?)\s+:\s(.*)$"
)
# several names before one type, names after `as`, and the names that a signature binds
SEVERAL = re.compile(r"^\s+((?:[\w'-]+\s+)+[\w'-]+)\s+:\s")
ALIAS = re.compile(r"\bas ([\w'-]+)")
BOUND = re.compile(r"[({]((?:[\w'-]+\s+)*[\w'-]+)\s+:\s")
TOKEN = re.compile(r"[^\s(){}\[\].,;:\"`⌜⌝λ→×]+")
# bound by the left side of an equation alone
EXTRA = {"text-length"}
MADE = ("Answers.antt", "Invariants.antt", "Choices.antt", "Proof.antt")


def files(ending):
    for top in ("crates", "docs", "tools"):
        for folder, dirs, names in os.walk(os.path.join(HERE, top)):
            dirs[:] = sorted(d for d in dirs if d != "out")
            for name in sorted(names):
                if name.endswith(ending):
                    yield os.path.join(folder, name)


def read(path):
    with open(path, encoding="utf-8") as f:
        return f.read()


def own():
    """The repository's own names, those of types apart, and the names that Rattle makes."""
    words, types, made = set(EXTRA), set(), set()
    for path in files(".antt"):
        of_function = os.path.basename(path) in MADE
        for line in read(path).splitlines():
            if line.lstrip().startswith("--"):
                continue
            if line.lstrip().startswith(("use ", "pub use ")):
                words.update(ALIAS.findall(line))
                continue
            for several in SEVERAL.findall(line) + BOUND.findall(line):
                words.update(several.split())
            m = SIGNATURE.match(line)
            if not m:
                continue
            kind, name, _, kept = m.groups()
            if of_function and re.match(r"(goal|need|rules)\.", kept.strip()):
                made.add(name)
            elif kind or name[0].isupper():
                types.add(name)
            else:
                words.add(name)
    for path in files(".rt"):
        for line in read(path).splitlines():
            if line.startswith("ghost use "):
                words.update(ALIAS.findall(line))
    return words, types, made


def respelled(name):
    # a dash between two words; one beside a sign joins a name to an operator and stays
    between = re.compile(r"(?<=[\w'])-(?=\w)")
    if name[0].isupper():
        return re.sub(r"(?<=[\w'])-(\w)", lambda m: m.group(1).upper(), name)
    return between.sub("_", name)


def table():
    words, types, made = own()
    turned = {}
    for name in sorted(words | types):
        if name in made:
            continue
        new = respelled(name)
        if new != name:
            turned[name] = new
    return turned, words | types


def in_text(text, turned):
    return TOKEN.sub(lambda m: turned.get(m.group(0), m.group(0)), text)


def in_ticks(text, turned):
    return re.sub(r"`[^`\n]*`", lambda m: in_text(m.group(0), turned), text)


def turn_antt(text, turned):
    return in_text(text, turned)


RUST = re.compile(r'b?"(?:[^"\\]|\\.)*"|b?\'(?:[^\'\\]|\\.)\'|//[^\n]*', re.S)


def turn_rt(text, turned):
    out, at = [], 0
    for m in RUST.finditer(text):
        out.append(in_text(text[at : m.start()], turned))
        kept = m.group(0)
        out.append(in_ticks(kept, turned) if kept.startswith("//") else kept)
        at = m.end()
    out.append(in_text(text[at:], turned))
    return "".join(out)


def main():
    turned, names = table()
    clash = {}
    for old, new in turned.items():
        clash.setdefault(new, set()).add(old)
    for new, olds in sorted(clash.items()):
        if len(olds) > 1 or new in names:
            print(f"falls together: {', '.join(sorted(olds))} -> {new}" + (" (is there already)" if new in names else ""))
    if "--list" in sys.argv[1:]:
        for old, new in sorted(turned.items()):
            print(f"{old} -> {new}")
        return
    for ending, turn in ((".antt", turn_antt), (".rt", turn_rt), (".edit", turn_rt), (".md", in_ticks)):
        for path in files(ending):
            text = read(path)
            new = turn(text, turned)
            if new != text:
                with open(path, "w", encoding="utf-8") as f:
                    f.write(new)


main()
