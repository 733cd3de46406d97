#!/usr/bin/env python3
"""Spells this repository's own definitions and lemmas as today's Rattle spells names: words in snake case, so that `busWord` becomes `bus_word`
and `framed-accepted` becomes `framed_accepted`. It was run once, at the top of the repository, right after the kit's port.py (docs/PORT.md).

usage: tools/respell.py [--table]      --table only prints the table, old and new

It collects what specs/ and the lemma files of proofs/ declare, and lets the kit's snake.py turn those words in crates/ and in the pages.
Functions of src/ keep their names. A lemma that would then have a definition's name gets `_lem`.
"""

import collections
import glob
import os
import re
import subprocess
import sys
import tempfile

SNAKE = "/opt/rattle/port/notes/2026-11-18-names-are-in-snake-case/snake.py"
MARKS = r"(?:(?:abbrev|pub|unfoldable|pattern|mutual|where|record|data)\s+)*"
DECLARED = re.compile(rf"^\s*{MARKS}([^\s(){{}}.;,@\"«»:=]+)(?:\s+\{{[^{{}}\n]*\}})*(?:\s+[({{][^\n]*?)?\s*:\s")


def declared():
    names = collections.defaultdict(set)
    for path in sorted(glob.glob("crates/*/specs/*.antt") + glob.glob("crates/*/proofs/*.antt")):
        with open(path, encoding="utf-8") as f:
            for line in f:
                found = None if line.lstrip().startswith("--") else DECLARED.match(line)
                if found:
                    names[found[1]].add(path)
    return names


def snake(name):
    lower = lambda part: re.sub(r"(?<=[a-z0-9])([A-Z]+)", lambda m: "_" + m[1].lower(), part) if part[0].islower() else part
    return "_".join(lower(part) for part in name.split("-"))


def table():
    names = declared()
    alike = collections.defaultdict(list)
    for name in names:
        alike[snake(name)].append(name)
    rows = {}
    for new, olds in alike.items():
        # Of two that fall together the definition, which stands in specs/, has the plain name.
        olds.sort(key=lambda name: (not any("/specs/" in path for path in names[name]), name))
        for at, old in enumerate(olds):
            now = new if at == 0 else new + "_lem"
            if now != old:
                rows[old] = now
    return rows


def main():
    rows = table()
    lines = "".join(f"{old}\t{new}\n" for old, new in sorted(rows.items()))
    if "--table" in sys.argv:
        sys.stdout.write(lines)
        return
    with tempfile.NamedTemporaryFile("w", suffix=".tsv", encoding="utf-8") as f:
        f.write(lines)
        f.flush()
        where = ["crates", "docs", "README.md", "CONTRIBUTING.md"]
        subprocess.run([sys.executable, SNAKE, "--table", f.name, "--only", "antt,rt,md", "--skip-behind", "c,tie", *where], check=True)
    # What a step of a proof holds is named after the source, so it has no `_lem`.
    lemmas = "|".join(sorted(re.escape(new[:-4]) for new in rows.values() if new.endswith("_lem")))
    for path in glob.glob("crates/*/proofs/**/Proof.antt", recursive=True):
        with open(path, encoding="utf-8") as f:
            old = f.read()
        new = re.sub(rf"(?<=[\w₀-₉])\.({lemmas})_lem(?![\w'-])", r".\1", old)
        if new != old:
            with open(path, "w", encoding="utf-8") as f:
                f.write(new)
    for crate in sorted(glob.glob("crates/*/")):
        subprocess.run(["rt", "fmt"], cwd=crate, stdout=subprocess.DEVNULL, check=False)


if __name__ == "__main__":
    os.chdir(os.path.join(os.path.dirname(os.path.abspath(__file__)), ".."))
    main()
