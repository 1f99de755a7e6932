#!/usr/bin/env python3
"""Brings the repository's own ghost names to today's spelling: words in snake case.

usage: tools/respell.py [--check]     at the top of a repository that port.py of the toolchain (in its folder port/) has just turned

It turns whole words, in .antt files, in the clauses and 'ghost use' items of .rt files, in must-fail edits, in the controls of .ci and in the code spans of
pages. Types, modules, Rust names, strings, inputs and outputs stay. A lemma whose new name is a definition's gets '_lem' behind it. --check writes nothing,
and says what it would do and which new names meet a word that a file has already. A second run changes nothing.
"""
import collections
import os
import re
import sys

WORD = re.compile(r'[^\s(){}.;,@"«»]+')
DEFINED = re.compile(r"(?m)^ *(?:(?:abbrev|unfoldable|opaque|instance) )?(?:pub )?([^\s(){}.;,@\"«»:]+) +(?:[^\n:=]*? )?:(?!\S)")
NEED = re.compile(r"(?m)^(\S+) : tie\.")
COMMENT = re.compile(r"(?<!\S)--[^\n]*|\{-.*?-\}", re.S)
# Where the names stand, and in which files.
ENDINGS = {"crates": (".antt", ".rt", ".edit"), ".ci": (".control",), "docs": (".md",), ".": ("README.md",)}


def texts(root, ending):
    for folder, dirs, files in os.walk(root):
        dirs[:] = [] if root == "." else sorted(d for d in dirs if d not in ("out", "unfinished"))
        for name in sorted(files):
            if name.endswith(ending):
                yield os.path.join(folder, name)


def read(path):
    with open(path, encoding="utf-8") as f:
        return f.read()


def snake(word):
    return re.sub(r"(?<=[a-z0-9])[A-Z]", lambda m: "_" + m[0].lower(), word)


def definitions():
    """Each own name with the files that define it; a Proof.antt answers goals by names that Rattle makes, and is left out."""
    found = collections.defaultdict(set)
    for path in texts("crates", ".antt"):
        if not path.endswith("/Proof.antt"):
            for name in DEFINED.findall(COMMENT.sub("", read(path))):
                found[name].add(path)
    return found


def table(found):
    """The new spelling of each name that gets one."""
    of_specs = {n for n, ps in found.items() if any("/specs/" in p for p in ps)}
    turned = {}
    for name in found:
        if name[0].isupper() or not re.search(r"[a-z0-9][A-Z]|\w-\w", name):
            continue
        turned[name] = "_".join(snake(p) for p in name.split("-"))
    taken = collections.defaultdict(list)
    for name in found:
        taken[turned.get(name, name)].append(name)
    for new, olds in taken.items():
        if len(olds) > 1:
            # A definition of specs/ keeps the name, then a definition beside the proofs (in camel case); a lemma gets the ending that std gives one.
            keep = max(olds, key=lambda n: (n in of_specs, "-" not in n and n != new, n == new))
            for name in olds:
                if name != keep:
                    turned[name] = new + "_lem"
    return turned


def turn_words(text, turned):
    return WORD.sub(lambda m: turned.get(m[0], m[0]), text)


CLAUSE = re.compile(r"(?:requires|ensures)\s*\*?\s*(?:\w+\s*)?\{|ghost\s*(?:\w+\s*(?::\s*(?:(?:owns|lends)\s*)?|=\s*))?\{|ghost\s+(?:\w+\s*:\s*)\{")


def turn_source(text, turned):
    """The ghost use items and the clauses of a .rt file."""
    text = re.sub(r"ghost\s+use\b[^;]*;", lambda m: turn_words(m[0], turned), text)
    out, at = [], 0
    for m in CLAUSE.finditer(text):
        if m.start() < at:
            continue
        depth, end = 1, m.end()
        while depth:
            depth += {"{": 1, "}": -1}.get(text[end], 0)
            end += 1
        out += [text[at : m.end()], turn_words(text[m.end() : end], turned)]
        at = end
    return "".join(out) + text[at:]


def turn_page(text, turned):
    """The code spans of a page."""
    return re.sub(r"`[^`\n]+`", lambda m: "`" + turn_words(m[0][1:-1], turned) + "`", text)


TURNS = {".rt": turn_source, ".md": turn_page}


def main():
    check = "--check" in sys.argv
    found = definitions()
    turned = table(found)
    count = 0
    paths = [p for top in ("crates", ".ci", "docs", ".") for p in texts(top, ENDINGS[top])]
    for path in paths:
        text = read(path)
        kept = set(NEED.findall(text)) if path.endswith("/Proof.antt") else set()
        here = {k: v for k, v in turned.items() if k not in kept}
        new = TURNS.get(os.path.splitext(path)[1], turn_words)(text, here)
        if check:
            words = set(re.split(r'[^\w\'′-]+', COMMENT.sub("", text)))
            for old in set(WORD.findall(COMMENT.sub("", text))) & set(here):
                if here[old] in words and (not path.endswith(".rt") or new != text):
                    print(f"meets: {path}: {old} -> {here[old]}")
        if new != text:
            count += 1
            if not check:
                with open(path, "w", encoding="utf-8") as f:
                    f.write(new)
    if check:
        for old, new in sorted(turned.items()):
            print(f"name: {old} -> {new}")
    print(f"respell: {len(turned)} names, {count} files")


if __name__ == "__main__":
    main()
