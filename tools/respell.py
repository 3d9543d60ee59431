#!/usr/bin/env python3
"""Brings this repository's own names in clauses, specs/ and proofs/ to the spelling of today's Rattle.

usage: python3 tools/respell.py        at the top of the repository, once, right after the kit's port.py

A name that a file of specs/ or proofs/ defines and that has a dash loses it: a name with a capital in front becomes
upper camel case (`Replay-agrees`: `ReplayAgrees`), any other snake case (`entry-at`: `entry_at`), and a name in lower
camel case becomes snake case. Names that the library or Rattle itself makes (goals, invariants, fields of a goal) stay,
and so do functions of src/, strings, inputs and outputs. In comments and documents only code spans turn.
It stops, and writes nothing, where two names would fall together.
"""

import collections
import os
import re
import sys

WORD = re.compile(r'[^\s(){}.;,@"«»]+')
DEFINES = re.compile(
    r"(?m)(?:^|(?<=let )|(?<=in )|(?<=where )|(?<=module _ \())[ \t]*(?:pub |abbrev |unfoldable |data |record |module )*"
    r'([^\s(){}.;,@"«»:=]+)[ \t]*(?:\([^\n]*\)|\{[^\n]*\})*[ \t]*:(?=\s)'
)
MADE = re.compile(r"(?m)^(?:pub |abbrev )*(\S+) : goal\.\S+")
USE = re.compile(r"(?:ghost )?use ([^\s;{]+?)\.?\{([^}]*)\}")
ALIAS = re.compile(r'(?<=[^\s{,] as )([^\s(){}.;,@"«»]*-[^\s(){}.;,@"«»]*)(?=[,}])')
MODULE_ALIAS = re.compile(r"(?m)^use \S+ as (\S+-\S+)$")
BINDERS = re.compile(r'[({]((?:[^\s(){}.;,@"«»:=]+ )+)(?=: )')
GHOST_USE = re.compile(r"ghost use [^;]*;")
SPAN = re.compile(r"`[^`\n]+`")
COMMENT = re.compile(r"(?:(?<=\s)|^)--[^\n]*", re.M)
STARTS = re.compile(r"//[^\n]*|\"(?:\\.|[^\"\\])*\"|ghost use [^;]*;|\b(?:requires|ensures)\b[^{\n]*\{|\bghost\b[^{;\n]*\{")


def files(top, ends):
    for folder, dirs, names in os.walk(top):
        dirs[:] = sorted(d for d in dirs if d not in ("out", ".git", "target"))
        for name in sorted(names):
            if name.endswith(ends):
                yield os.path.join(folder, name)


def read(path):
    with open(path, encoding="utf-8") as f:
        return f.read()


def respelled(name):
    parts = name.split("-")
    if not all(parts):
        return name
    if re.match("[A-Z]", name):
        return "".join(p[:1].upper() + p[1:] for p in parts) if len(parts) > 1 else name
    whole = "_".join(parts)
    if re.match(r"[a-z][a-z0-9]*[A-Z]", name):
        whole = re.sub(r"(?<=[a-z0-9])([A-Z])(?=[a-z_]|$)", lambda m: "_" + m[1].lower(), whole)
    return whole


def of_the_library(text):
    """What a file brings in from the library: these names stay in it."""
    own = tuple(f"Rattle.{c}." for c in sorted(os.listdir("crates")))
    found = set()
    for path, items in USE.findall(text):
        if not path.startswith(own):
            found |= {w.strip() for w in items.split(",") if " as " not in w}
    return found


class Respeller:
    def __init__(self):
        self.table, self.all_defined = {}, set()
        for path in files("crates", (".antt", ".rt")):
            if path.endswith(".rt"):
                for use in GHOST_USE.findall(read(path)):
                    self.table |= {w: respelled(w) for w in ALIAS.findall(use) if respelled(w) != w}
                continue
            text = COMMENT.sub("", read(path))
            made = set(MADE.findall(text))
            for name in self.defined(text):
                self.all_defined.add(name)
                if name not in made and respelled(name) != name:
                    self.table[name] = respelled(name)
        fallen = collections.defaultdict(set)
        for old, new in self.table.items():
            fallen[new].add(old)
        bad = {n: o for n, o in fallen.items() if len(o) > 1 or n in self.all_defined}
        if bad:
            sys.exit(f"respell: these would fall together: {bad}")

    @staticmethod
    def defined(text):
        bound = [w for names in BINDERS.findall(text) for w in names.split() if "-" in w]
        return DEFINES.findall(text) + ALIAS.findall(text) + MODULE_ALIAS.findall(text) + bound

    def code(self, text, stays, in_a_proof):
        def one(m):
            word, before = m[0], text[max(0, m.start() - 5) : m.start()]
            if word in stays or word not in self.table:
                return word
            if in_a_proof and before.endswith(("goal.", "Given.", "Goals.")):
                return word
            return self.table[word]

        return WORD.sub(one, text)

    def spans(self, text):
        return SPAN.sub(lambda m: self.code(m[0].replace("`", " ` "), set(), False).replace(" ` ", "`"), text)

    def antt(self, path, text):
        in_a_proof = "/proofs/" in path and os.path.basename(os.path.dirname(path)) != "proofs"
        stays = of_the_library(text) | (set(MADE.findall(text)) if in_a_proof else set())
        out, at = [], 0
        for m in COMMENT.finditer(text):
            out += [self.code(text[at : m.start()], stays, in_a_proof), self.spans(m[0])]
            at = m.end()
        return "".join(out) + self.code(text[at:], stays, in_a_proof)

    def rt(self, text):
        """Only clauses, ghost items and code spans of comments."""
        stays = of_the_library(text)
        out, at = [], 0
        while m := STARTS.search(text, at):
            out.append(text[at : m.start()])
            at = m.end()
            if m[0].startswith("//"):
                out.append(self.spans(m[0]))
            elif m[0].startswith('"'):
                out.append(m[0])
            elif m[0].startswith("ghost use"):
                out.append(self.code(m[0], stays, False))
            else:
                depth = 1
                while depth:
                    depth += {"{": 1, "}": -1}.get(text[at], 0)
                    at += 1
                out.append(self.code(text[m.start() : at], stays, False))
        return "".join(out) + text[at:]


def main():
    if not os.path.isdir("crates"):
        sys.exit("respell: run it at the top of the repository")
    it, count = Respeller(), 0
    todo = [(p, read(p)) for p in files("crates", (".antt", ".rt"))]
    todo += [(p, read(p)) for p in ["README.md", *files("docs", ".md")] if os.path.basename(p) not in ("PORT.md", "PORT-OTHER.md")]
    for path, text in todo:
        new = it.antt(path, text) if path.endswith(".antt") else it.rt(text) if path.endswith(".rt") else it.spans(text)
        if new != text:
            count += 1
            with open(path, "w", encoding="utf-8") as f:
                f.write(new)
    print(f"respell: {len(it.table)} names, {count} files")


if __name__ == "__main__":
    main()
