#!/usr/bin/env python3
"""Turns the repository's own names that are joined by dashes to snake case.

usage: python3 tools/respell.py     at the top, once, after the toolchain's own script

Turned are definitions and lemmas of specs/ and proofs/, and names that a definition or a lemma binds: in .antt files, in the
clauses and ghost imports of .rt files, and between backquotes in README.md and docs/. Kept are names of Rattle source, of the
library, and of goals and steps, which Rattle makes. The crate bytes gets another name, since the toolchain has a library of
that name. Names that fall together are printed, and nothing is then written.
"""

import os
import re
import subprocess
import sys

TOKEN = re.compile(r"(?<![\w'.·≡≢≤<-])[A-Za-z_][\w']*(?:-[\w']+)+(?![\w'-])")
FIELD = re.compile(r"\.([A-Za-z_][\w']*(?:-[\w']+)+)(?![\w'-])")
DEFINED = re.compile(r"^\s*(?:pub |abbrev |unfoldable )*([A-Za-z_][\w']*(?:-[\w']+)+) :(?! (?:goal|given|need)\.)", re.M)
USE = re.compile(r"^[ \t]*(?:pub )?(?:ghost )?use ([\w.]+)\.\{([^}]*)\}", re.M)
# Made by Rattle: the branches of the code.
MADE = re.compile(r"^(then|else|in|fn)-|^(loop|returns)-|-requires|^(bounds|overflow|slice|invariant|decreases)-")
# Words of the language of comments.
WORDS = {"three-way", "yes-no", "finite-trace"}
RENAMED = {"bytes": "big_endian"}
# A lemma that would have its function's name.
OTHERWISE = {"bit-xor": "bit_xor_lem"}


def respelled(name):
    return OTHERWISE.get(name, name.replace("-", "_"))


def files():
    for folder, dirs, names in os.walk("crates"):
        dirs[:] = sorted(d for d in dirs if d != "out")
        for name in sorted(names):
            if name.endswith((".rt", ".antt")):
                yield os.path.join(folder, name)


def imports(text):
    for module, names in USE.findall(text):
        for name in names.split(","):
            yield module, name.strip().split(" as ")[0]


def own_fields(texts):
    """Fields of the repository's own records, which are named after a dot."""
    found = set()
    for path, text in texts.items():
        depth = None
        for line in text.splitlines() if path.endswith(".antt") else ():
            indent = len(line) - len(line.lstrip())
            if re.match(r"\s*(?:pub |abbrev |unfoldable )*record \w", line):
                depth = indent
            elif line.strip() and not line.strip().startswith("--") and depth is not None:
                if indent <= depth:
                    depth = None
                elif DEFINED.match(line):
                    found.add(DEFINED.match(line)[1])
    return found


def own_names(texts):
    own, foreign, goals = set(), set(), set()
    for text in texts.values():
        for module, name in imports(text):
            if module.startswith("Rattle.std.") or not module.startswith("Rattle.") or module.endswith((".Goals", ".Given", ".Needs")):
                foreign.add(name)
        goals.update(re.findall(r"^(?:pub |abbrev |unfoldable )*([\w'-]+) : (?:goal|given|need)\.", text, re.M))
    for path, text in texts.items():
        if path.endswith(".antt"):
            own.update(DEFINED.findall(text))
    defined = own - goals - foreign
    bound = set()
    for path, text in texts.items():
        if path.endswith(".antt"):
            body = re.sub(r"--.*$", "", USE.sub("", text), flags=re.M)
            bound.update(t for t in TOKEN.findall(body) if not MADE.search(t))
        for name in re.findall(r" as ([a-z]+(?:-[a-z]+)+)", text):
            bound.add(name)
    return defined | (bound - goals - foreign)


def turned(text, names, fields, path):
    def one(match):
        name = match[0]
        return respelled(name) if name in names else name

    def code_turned(code):
        code = FIELD.sub(lambda m: "." + (respelled(m[1]) if m[1] in fields else m[1]), code)
        return TOKEN.sub(one, code)

    out = []
    for line in text.splitlines(keepends=True):
        mark = "--" if path.endswith(".antt") else "//"
        code, sep, comment = line.partition(mark)
        if '"' in code and path.endswith(".rt"):
            parts = code.split('"')
            code = '"'.join(p if i % 2 else code_turned(p) for i, p in enumerate(parts))
        else:
            code = code_turned(code)
        comment = TOKEN.sub(lambda m: m[0] if m[0] in WORDS else one(m), comment)
        out.append(code + sep + comment)
    return "".join(out)


def fallen_together(texts, names):
    for path, text in texts.items():
        here = {n for n in TOKEN.findall(text) if n in names}
        for name in sorted(here):
            other = respelled(name)
            if re.search(rf"(?<![\w'.-]){re.escape(other)}(?![\w'-])", re.sub(r"(--|//).*$", "", text, flags=re.M)):
                yield path, name, other


def rename_crates():
    for old, new in RENAMED.items():
        if not os.path.isdir(f"crates/{old}"):
            continue
        subprocess.run(["git", "mv", f"crates/{old}", f"crates/{new}"], check=True)
        for path in files():
            text = open(path, encoding="utf-8").read()
            text = re.sub(rf"\bRattle\.{old}\b", f"Rattle.{new}", text)
            text = re.sub(rf"\buse {old}::", f"use {new}::", text)
            open(path, "w", encoding="utf-8").write(text)
        lines = open("crates.txt", encoding="utf-8").read().splitlines()
        lines = [line if line.startswith("#") else re.sub(rf"(?<!\w){old}(?!\w)", new, line) for line in lines]
        open("crates.txt", "w", encoding="utf-8").write("\n".join(lines) + "\n")


def main():
    texts = {path: open(path, encoding="utf-8").read() for path in files()}
    names, fields = own_names(texts), own_fields(texts)
    clashes = [c for c in fallen_together(texts, names) if not c[0].endswith(".rt")]
    for path, name, other in fallen_together(texts, names):
        print(f"{path}: {name} falls together with {other}")
    if clashes and "--anyway" not in sys.argv:
        return 1
    for path, text in texts.items():
        new = turned(text, names, fields, path)
        if new != text:
            open(path, "w", encoding="utf-8").write(new)
    pages = ["README.md"] + [os.path.join("docs", n) for n in sorted(os.listdir("docs")) if n.endswith(".md")]
    for path in pages:
        text = open(path, encoding="utf-8").read()
        parts = text.split("`")
        new = "`".join(TOKEN.sub(lambda m: respelled(m[0]) if m[0] in names else m[0], p) if i % 2 else p for i, p in enumerate(parts))
        if new != text:
            open(path, "w", encoding="utf-8").write(new)
    rename_crates()
    print(f"{len(names)} names turned")
    return 0


sys.exit(main())
