#!/usr/bin/env python3
"""Spells this repository's own definitions and lemmas as today's Rattle does: words in snake case, types in camel case.

usage: tools/respell.py [FOLDER]      the repository's top; the files are rewritten in place; a second run changes nothing

Run once, right after the kit's port.py. A name is renamed where crates/ declares it in specs/ or in a file of lemmas:
  sessId, runLen    sess_id, run_len     a definition, a field or a constructor
  token-next        token_next           a lemma or a field. A dash stays between two names that are definitions themselves
Where a definition and a lemma would get one name, the lemma gets _lem ('falls together'). A file that had the new name as another word is printed too ('look').
"""

import glob
import os
import re
import sys

WORD = r"[^\s(){}.;,@\"«»\[\]\\:`◌]+"
DECLARED = re.compile(rf"(?m)^ *(?:abbrev |unfoldable )?(?:pub )?(record |data )?({WORD})((?: [^:\n]*)?) : ([^\n]*)$")
# std's words and the logic's that lemmas here are named after
OF_STD = set("length take drop set get_or append map reverse add sub mul and or not cond".split())
# in a proof of a function: what stands behind one of these is a name that Rattle makes
HEADS = {"tie", "goal"}


def read(path):
    with open(path, encoding="utf-8", newline="") as it:
        return it.read()


def below(top, *parts):
    return sorted(it for part in parts for it in glob.glob(f"{top}/{part}", recursive=True) if os.path.isfile(it) and "/out/" not in it)


def is_proof(path):
    return path.endswith("/Proof.antt")


def snake(name):
    return re.sub(r"(?<=[a-z0-9])[A-Z](?=[a-z0-9]|$)", lambda m: "_" + m[0].lower(), name)


def record_fields(text):
    for m in re.finditer(rf"(?ms)^( *)(?:pub )?(?:record|data) {WORD}.*?where\n(.*?)(?=\n\1\S|\n\n|\Z)", text):
        for it in re.finditer(rf"(?m)^ +(?:pub )?({WORD}) :", m[2]):
            yield it[1]


def table(top):
    """Returns the new names by the old: of fields and constructors, and of all else."""
    fields, lemmas, functions = set(), set(), set(OF_STD)
    for path in below(top, "crates/*/specs/**/*.antt", "crates/*/proofs/**/*.antt"):
        text = re.sub(r"--[^\n]*", "", read(path))
        own = set(record_fields(text))
        fields |= own
        for m in DECLARED.finditer(text):
            name, kind = m[2], m[4]
            if re.match(r"(tie|goal)\.", kind) or "statement" in kind and is_proof(path) or name in own or re.match(r"(returns|invariant|decreases)\b", name):
                continue
            lemmas.add(name)
            if "/specs/" in path and "-" not in name:
                functions.add(snake(name))
    names = fields | lemmas
    new = {}
    for name in sorted(names):
        to = snake(name) if name[0].islower() else name
        if "-" in to:
            if name in fields:
                to = to.replace("-", "_")
            else:
                parts = to.split("-")
                is_joint = len(parts) == 2 and parts[0] in functions and parts[1] in functions
                to = ("-" if is_joint else "_").join(parts)
        if to != name:
            new[name] = to
    # what a definition would be called is its name, and the lemma beside it gets _lem
    taken = {}
    for name in names:
        taken.setdefault(new.get(name, name), []).append(name)
    for to, olds in sorted(taken.items()):
        if len(olds) > 1:
            first = sorted(olds, key=lambda it: (not re.search("[a-z][A-Z]", it), "-" in it, it))[0]
            for it in olds:
                if it != first:
                    if f"{to}_lem" in names or f"{to}_lem" in new.values():
                        raise SystemExit(f"three fall together: {olds}")
                    print(f"falls together: {it} is {to}_lem, since {first} is {to}")
                    new[it] = f"{to}_lem"
    return {k: v for k, v in new.items()}, fields


def respelt(text, path, new, fields):
    skip = set()
    if is_proof(path):
        skip = set(re.findall(rf"(?m)^(?:pub )?(?:abbrev )?({WORD}) : (?:tie\.|\{{M)", text))
        skip |= set(re.findall(rf"(?m)^abbrev ({WORD}) : tie\.", text))
    # what a file brings in from a library has the library's spelling
    for m in re.finditer(r"(?m)^ *(?:pub |ghost )?use (?!Rattle\.(?:sdp|canon|vectors))\S+\.\{([^}]*)\}", text):
        skip |= set(re.split(r"[,\s]+", m[1]))
    aliases = set(re.findall(rf"(?m)^ *(?:pub )?use \S+ as ({WORD})", text)) - HEADS
    is_antt = path.endswith(".antt")
    out, at = [], 0
    had = set(re.findall(WORD, text))
    changed = {}
    for m in re.finditer(rf"\"(?:[^\"\\\n]|\\.)*\"|{WORD}", text):
        word = m[0]
        if word not in new or word in skip:
            continue
        if not is_antt and re.fullmatch("[a-z0-9_]+", word):
            # in sources, edits and pages this is a function of the source, and no lemma
            continue
        before = text[max(0, m.start() - 80) : m.start()]
        if before.endswith("."):
            head = re.search(r"([^\s(){};,@\"«»\[\]\\:◌]*)\.$", before)
            first = (head[1] if head else "").split(".")
            is_path = first[-1][:1].isupper() or first[-1] in aliases
            if not is_path and not (word in fields or re.search("[a-z][A-Z]", word)):
                continue
            if first[0] in HEADS:
                continue
        if not is_antt and "-" in word and not before.endswith("`"):
            # in sources and pages a name with a dash is a plain word, unless it is quoted
            if not path.endswith((".edit",)):
                continue
        out.append(text[at : m.start()])
        out.append(new[word])
        changed[word] = new[word]
        at = m.end()
    out.append(text[at:])
    for old, to in sorted(changed.items()):
        if to in had:
            print(f"look: {path}: {old} is now {to}, and the file had {to} already")
    return "".join(out)


def main(argv):
    top = os.path.realpath(argv[0] if argv else ".")
    new, fields = table(top)
    pages = ("README.md", "docs/*.md", "gate/faults/*", "gate/README.md")
    for path in below(top, "crates/*/src/**/*.rt", "crates/*/specs/**/*.antt", "crates/*/proofs/**/*.antt", "crates/*/must-fail/*.edit", *pages):
        text = read(path)
        to = respelt(text, path, new, fields)
        if to != text:
            with open(path, "w", encoding="utf-8", newline="") as it:
                it.write(to)
    print(f"{len(new)} names")


if __name__ == "__main__":
    main(sys.argv[1:])
