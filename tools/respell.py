#!/usr/bin/env python3
"""Respells the repository's own names as today's Rattle spells them: `fileRow` becomes `file_row`, `getD-all` becomes `get_or-all`.

usage: tools/respell.py            rewrites .antt, .rt and .edit files below crates/, and the pages in docs/
       tools/respell.py --list     prints OLD NEW, a line for each name, and the names that fall together

Run once, right after the kit's port.py, which respells only names that its own library shares. A word of definitions and lemmas in camel case
becomes snake case; types and modules keep their capitals, and functions of src/, strings, inputs and outputs keep their names.
"""
import glob
import re
import subprocess
import sys

WORD = re.compile(r"(?<![\w'’\-·.])([a-z][\w'\-]*[A-Z][\w'\-]*)|(?<=\.)([a-z][\w'\-]*[A-Z][\w'\-]*)")
CAMEL = re.compile(r"^[a-z][a-z0-9]*(?:[A-Z][a-z0-9]*)+'*$")
# lemmas that would fall together with the definition that they are of: "a lemma that would have its function's name gets `_lem`"
LEMMAS = {
    "crates/decision/": ["place_ok", "read_done", "write_done", "size_in", "req_at"],
    "crates/laws/": ["of_reader", "told_of"],
}


def snake(part):
    if part == "getD":
        return "get_or"
    if not CAMEL.match(part):
        return part
    return re.sub(r"([A-Z])", lambda m: "_" + m.group(1).lower(), part)


def respelled(name):
    return "-".join(snake(p) for p in name.split("-"))


def files():
    return [f for f in subprocess.run(["git", "ls-files", "-co", "--exclude-standard"], capture_output=True, text=True, check=True).stdout.split("\n") if f]


def proofs():
    return [f for f in files() if f.startswith("crates/") and f.endswith(".antt")]


def own():
    """The names in camel case that definitions and lemmas of the repository use, each with its new spelling."""
    names = {}
    for f in proofs():
        with open(f, encoding="utf-8") as t:
            text = re.sub(r"--.*", "", t.read())
        for m in WORD.finditer(text):
            name = m.group(1) or m.group(2)
            new = respelled(name)
            if new != name:
                names[name] = new
    return names


def turn(text, names):
    def one(m):
        return names.get(m.group(0), m.group(0))

    return re.sub(r"(?<![\w'’·])(?<!-)[a-z][\w'\-]*[A-Z][\w'\-]*", one, text)


def lemmas(f, text):
    """The text with `_lem` after the names of LEMMAS, where they stand bare and not in a path or after a dot."""
    for folder, words in LEMMAS.items():
        if f.startswith(folder) and f.endswith(".antt"):
            for w in words:
                text = re.sub(r"(?<![\w'\-.])" + w + r"(?![\w'\-])", w + "_lem", text)
    return text


def main(argv):
    names = own()
    if argv == ["--list"]:
        known = set()
        for f in proofs():
            with open(f, encoding="utf-8") as t:
                known |= set(re.findall(r"(?<![\w'\-])[a-z][\w'\-]*", re.sub(r"--.*", "", t.read())))
        for old, new in sorted(names.items()):
            print(old, new, "  STANDS ALREADY" if new in known else "")
        return 0
    if argv:
        print(__doc__)
        return 2
    for f in files():
        if not (f.startswith("crates/") and f.endswith((".antt", ".rt", ".edit")) or f.startswith("docs/") and f.endswith(".md") and f != "docs/PORT.md"):
            continue
        with open(f, encoding="utf-8") as t:
            text = t.read()
        new = turn(lemmas(f, text), names)
        if new != text:
            with open(f, "w", encoding="utf-8") as t:
                t.write(new)
    return 0


if __name__ == "__main__":
    raise SystemExit(main(sys.argv[1:]))
