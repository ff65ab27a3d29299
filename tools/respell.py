#!/usr/bin/env python3
"""Respells the definitions and lemmas that this repository declares as today's Rattle spells names.

usage: python3 tools/respell.py [--check]     at the top of the repository, once, after the kit's own script

Definitions, fields, constructors and aliases become snake case. A lemma keeps a dash where it joins two names that are
themselves declared or imported (`length-append`), and behind a type's name (`Heads-run`); its other dashes become `_`.
Names that come from a library, names that Rattle makes (goals and steps in Answers and Invariants), functions, strings
and prose stay. It stops where two names would fall together in one file.
"""

import collections
import glob
import re
import sys

WORD = r"[^\s(){}.;,@\"«»]+"
TOKEN = re.compile(WORD)
DECLARED = re.compile(r"^\s*(?:(?:abbrev|unfoldable|data|record|ruleset) )*(?:pub )?(?:(?:data|record) )?([^\s({]+)(?: \{[^}]*\})* : (.*)$")
MADE = re.compile(r"^(in[-_]|if-|loop|returns|else-|then-|overflow|bounds|slice_bounds|nonzero|invariant|decreases|prove)")


def own_crates():
    with open("crates.txt") as f:
        return {line.split(":")[0].split()[0] for line in f if line.strip() and not line.startswith("#")}


def sources(pattern):
    return sorted(p for p in glob.glob(pattern, recursive=True) if "/out/" not in p)


def snake(name):
    words = re.sub(r"(?<=[a-z0-9])[A-Z]", lambda m: "_" + m[0].lower(), name)
    return words.replace("-", "_")


def lemma(name, known):
    """The lemma's name: parts joined by a dash only where all of them are names."""
    name = re.sub(r"(?<=[a-z0-9])[A-Z](?=[a-z])", lambda m: "_" + m[0].lower(), name) if name[:1].islower() else name
    parts = name.split("-")
    if name[:1].isupper():
        return parts[0] + "-" + "_".join(parts[1:]) if len(parts) > 1 else name
    if all(p in known for p in parts):
        return name
    return name.replace("-", "_")


def read(path):
    with open(path, encoding="utf-8") as f:
        return f.read()


def table():
    own = own_crates()
    specs, proofs, library, aliases = set(), set(), set(), set()
    for p in sources("crates/*/specs/**/*.antt") + sources("crates/*/proofs/**/*.antt") + sources("crates/*/src/*.rt"):
        text = read(p)
        for m in re.finditer(r"\buse ([^\s;{]+?)\.?\{([^}]*)\}", text):
            crate = m[1].split(".")[1] if m[1].startswith("Rattle.") else ""
            if crate not in own:
                for item in m[2].split(","):
                    library.add(item.strip().split(" as ")[0])
        for m in re.finditer(r"\bas (" + WORD + ")", "\n".join(l for l in text.split("\n") if re.match(r"\s*(ghost |pub )?use ", l))):
            aliases.add(m[1])
        if not p.endswith(".antt"):
            continue
        goals = p.endswith(("/Answers.antt", "/Invariants.antt"))
        for line in text.split("\n"):
            m = DECLARED.match(line)
            if not m or line.lstrip().startswith("--") or (goals and m[2].startswith("goal.")):
                continue
            (specs if "/specs/" in p else proofs).add(m[1])
    known = specs | library
    rows = {}
    for name in sorted(specs | aliases | proofs):
        if name in library or not re.match(r"[A-Za-z]", name):
            continue
        plain = name in specs or name in aliases
        new = (name if name[:1].isupper() and "-" not in name else (lemma(name, known) if name[:1].isupper() else snake(name))) if plain else lemma(name, known)
        if new != name:
            rows[name] = new
    return rows


def turned(text, rows, made):
    """The text of one file, respelled outside strings and prose. In an answer, a name that Rattle made stays behind a dot."""
    out = []
    for line in text.split("\n"):
        code, prose = line, ""
        for sign in ("--", "//"):
            at = re.search(r"(?:^|\s)" + sign, line)
            if at and line[: at.start()].count('"') % 2 == 0:
                code, prose = line[: at.start()], line[at.start() :]
                break
        pieces = re.split(r'("(?:[^"\\]|\\.)*")', code)
        done = []
        for k, piece in enumerate(pieces):
            if k % 2:
                done.append(piece)
                continue
            done.append(TOKEN.sub(lambda m: rows.get(m[0], m[0]) if not (made and MADE.match(m[0]) and m.start() and piece[m.start() - 1] == ".") else m[0], piece))
        prose = re.sub(r"`([^`]*)`", lambda m: "`" + TOKEN.sub(lambda w: rows.get(w[0], w[0]), m[1]) + "`", prose)
        out.append("".join(done) + prose)
    return "\n".join(out)


def main():
    check = "--check" in sys.argv
    rows = table()
    clash = []
    paths = sources("crates/*/specs/**/*.antt") + sources("crates/*/proofs/**/*.antt") + sources("crates/*/src/*.rt")
    texts = {p: read(p) for p in paths}
    by = collections.defaultdict(set)
    for old, new in rows.items():
        by[new].add(old)
    clash += [f"{' and '.join(sorted(v))} would both be {k}" for k, v in by.items() if len(v) > 1]
    for p, text in texts.items():
        if not p.endswith(".antt"):
            continue
        code = "\n".join(re.sub(r"(?:^|\s)--.*", "", line) for line in text.split("\n"))
        words = {m[0] for m in TOKEN.finditer(code) if code[m.start() - 1 : m.start()] != "."}
        for w in words:
            if w in rows and rows[w] in words:
                clash.append(f"{p}: {w} would meet {rows[w]}")
    if clash:
        print("\n".join(clash))
        if not check:
            raise SystemExit(1)
    if check:
        for old, new in sorted(rows.items()):
            print(old, "->", new)
        return
    for p, text in texts.items():
        new = turned(text, rows, p.endswith(("/Answers.antt", "/Invariants.antt")))
        if new != text:
            with open(p, "w", encoding="utf-8") as f:
                f.write(new)
    print(f"respell: {len(rows)} names")


main()
