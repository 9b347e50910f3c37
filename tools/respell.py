#!/usr/bin/env python3
"""Brings the repository's own names in definitions, lemmas, fields and constructors to snake case.

usage: python3 tools/respell.py [--check] [FOLDER]

It turns names such as evalAtom and evalAtom-renamed into eval_atom and eval_atom-renamed, in every .antt file, in the `ghost use`
lines, clauses and comments of every .rt file, and in every must-fail edit. Strings stay as they are, and so do names of src/, which
have no such spelling. It names the pairs that would fall together, and the files that have both. With --check it writes nothing.
Run it once, on the tree that port.py made; run again it finds nothing to do.
"""
import os
import re
import sys

NAME = re.compile(r"(?<![A-Za-z0-9_'\"])([a-z][a-z0-9]*(?:[A-Z][a-z0-9]*)+)(?![A-Za-z0-9_])")
STRING = re.compile(r'b?"(?:[^"\\\n]|\\.)*"')
WORD = re.compile(r"[A-Za-z_][A-Za-z0-9_']*")

# Lemmas of a file that would have the name of the definition that they are about: these get `_lem`.
LEMMAS = {
    "crates/beats/proofs/Running.antt": ["more_by"],
    "crates/flow/proofs/Standing.antt": ["closed_at"],
    "crates/host/proofs/Beats.antt": ["as_step"],
    "crates/host/proofs/First.antt": ["to_step"],
    "crates/model/proofs/Few.antt": ["block_in"],
    "crates/model/proofs/Kept.antt": ["block_in"],
    "crates/schedule/proofs/Going.antt": ["more_by"],
    "crates/steps/proofs/Applying.antt": ["at_head"],
    "crates/steps/proofs/Deciding.antt": ["act_by"],
}

# A module of specs/ whose name Rattle takes for its own: the folder of the file, its name, and the new one.
MODULES = [("crates/host/specs", "Contracts", "CallContracts")]

# What a name ends in that stands for a word of the library with another spelling now.
WORDS = {"getD": "get_or"}


def snake(name):
    if name in WORDS:
        return WORDS[name]
    return re.sub(r"[A-Z]", lambda m: "_" + m.group(0).lower(), name)


def respelled(text, seen):
    def one(m):
        seen.setdefault(m.group(1), snake(m.group(1)))
        return snake(m.group(1))

    out, at = [], 0
    for s in STRING.finditer(text):
        out += [NAME.sub(one, text[at : s.start()]), s.group(0)]
        at = s.end()
    out.append(NAME.sub(one, text[at:]))
    return "".join(out)


def files(root):
    for folder, dirs, names in os.walk(os.path.join(root, "crates")):
        dirs[:] = sorted(d for d in dirs if d != "out")
        for n in sorted(names):
            if n.endswith((".antt", ".rt", ".edit")):
                yield os.path.join(folder, n)


def main(argv):
    check = "--check" in argv
    root = ([a for a in argv if not a.startswith("--")] or ["."])[0]
    seen, new, words, where = {}, {}, set(), {}
    for path in files(root):
        with open(path, encoding="utf-8") as f:
            text = f.read()
        words |= set(WORD.findall(text))
        for w in set(WORD.findall(text)):
            where.setdefault(w, set()).add(os.path.relpath(path, root))
        lemmas = LEMMAS.get(os.path.relpath(path, root), []) if NAME.search(text) else []
        renamed = text
        for lemma in lemmas:
            renamed = re.sub(rf"(?<![\w'-]){lemma}(?![\w'-])", lemma + "_lem", renamed)
        turned = respelled(renamed, seen)
        if turned != text:
            new[path] = turned
    made = {}
    clash = []
    for old, to in sorted(seen.items()):
        if to in words:
            clash.append((old, to))
        if to in made:
            clash.append((old, made[to]))
        made[to] = old
    for old, to in clash:
        both = where.get(old, set()) & where.get(to, set())
        print(f"respell: {old} and {to}: both in {len(both)} files: {' '.join(sorted(both)[:6])}; {to} in {' '.join(sorted(where.get(to, set()))[:4])}")
    print(f"respell: {len(seen)} names in {len(new)} files")
    for folder, old, to in MODULES:
        crate = folder.split("/")[1]
        source = os.path.join(root, folder, old + ".antt")
        if check or not os.path.exists(source):
            continue
        os.rename(source, os.path.join(root, folder, to + ".antt"))
        for path in files(root):
            with open(path, encoding="utf-8") as f:
                text = f.read()
            turned = new.pop(path, text)
            turned = re.sub(rf"(Rattle\.{crate}\.specs\.){old}(?![\w'-])", rf"\g<1>{to}", turned)
            if path == os.path.join(root, folder, "Lib.antt"):
                turned = re.sub(rf"(?m)^(pub )?mod {old}$", rf"\g<1>mod {to}", turned)
            if turned != text:
                with open(path, "w", encoding="utf-8") as f:
                    f.write(turned)
        renamed = new.pop(source, None)
        if renamed is not None:
            with open(os.path.join(root, folder, to + ".antt"), "w", encoding="utf-8") as f:
                f.write(renamed)
    if not check:
        for path, text in new.items():
            with open(path, "w", encoding="utf-8") as f:
                f.write(text)
    return 0


if __name__ == "__main__":
    raise SystemExit(main(sys.argv[1:]))
