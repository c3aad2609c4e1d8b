#!/usr/bin/env python3
"""Respells the repository's own definitions and lemmas, once, after the kit's port.py has turned the rest: usage: tools/respell.py [ROOT]

Words become snake case ('planOf' is 'plan_of'); types and modules keep their capitals. In a lemma's name a dash stays where it joins two names
('filter-length'), and a plain word is added with an underscore ('all_weaken'). A name that the library has too keeps its spelling, and so does
one that would fall together with another; where a law has the name that a definition gets, the law gets the ending '_lem'. It goes over the
.antt, .rt and .edit files below crates/ and the code in README.md and docs/.
Names of Rattle source (functions, fields, modules), strings and exported names are not touched: they have no capitals inside and no dashes.
"""

import collections
import os
import re
import subprocess
import sys

# the kit's library: the folder beside the page that `rt doc` names
LIBRARY = os.path.join(os.path.dirname(subprocess.run(["rt", "doc"], capture_output=True, text=True, check=True).stdout.strip()), "rattle")
DEFINED = re.compile(r"^\s*(?:abbrev |unfoldable )?(?:pub )?([^\s(){}.;,@\"«»:]+)\s*(?:\{[^}]*\}\s*)*:(?:\s|$)")
CAMEL = re.compile(r"^[a-z][a-z0-9']*(?:[A-Z][A-Za-z0-9']*)+(?:-.*)?$")
IMPORT = re.compile(r"\buse\s+([A-Za-z_.+0-9◌◦'-]+)\.\{([^}]*)\}")


def files(root, endings):
    for folder, dirs, names in os.walk(os.path.join(root, "crates")):
        dirs[:] = sorted(d for d in dirs if d != "out")
        for name in sorted(names):
            if name.endswith(endings):
                yield os.path.join(folder, name)


def read(path):
    with open(path, encoding="utf-8") as f:
        return f.read()


def defined_in(text):
    return [m[1] for m in map(DEFINED.match, text.split("\n")) if m]


def snake(part):
    return re.sub(r"(?<=[a-z0-9'])([A-Z])", lambda m: "_" + m[1].lower(), part)


def is_lemma_file(root, path):
    parts = os.path.relpath(path, os.path.join(root, "crates")).split(os.sep)
    return len(parts) == 3 and parts[1] in ("specs", "proofs")


def table(root):
    """The rows of old and new spellings; and the names of laws that a definition takes, so that they get the ending '_lem'."""
    laws = set()
    own, words, imported = collections.Counter(), set(), set()
    for path in files(root, (".antt", ".rt")):
        text = read(path)
        code = re.sub(r"(--|//)[^\n]*", "", text)
        tokens = set(re.findall(r"[^\s(){}.;,@\"«»]+", code))
        if path.endswith(".antt"):
            words |= {t for t in tokens if CAMEL.match(t)}
        for m in IMPORT.finditer(code):
            if "Rattle.std" in m[1] or not m[1].startswith("Rattle."):
                imported |= set(re.split(r"[\s,]+", m[2]))
        if path.endswith(".antt") and is_lemma_file(root, path):
            own.update(defined_in(code))
    library = set()
    for folder, _, names in os.walk(LIBRARY):
        for name in names:
            if name.endswith(".antt"):
                with open(os.path.join(folder, name), encoding="utf-8", errors="replace") as f:
                    library |= set(defined_in(f.read()))
    rows = {w: snake(w) for w in words}
    single = {snake(n) for n in own if "-" not in n} | {w for w in imported if "-" not in w}
    for name in own:
        if "-" in name and not re.search(r"-[A-Z]|^[A-Z]", name) and name not in library and name not in imported:
            rows[name] = joined([snake(p) for p in name.split("-")], single)
    taken = {n for n in rows if "-" not in n and rows[n] == n}
    for old, new in sorted(rows.items(), key=lambda row: ("-" in row[0], row[0])):
        if new != old and (new in taken or new in own or new in imported or new in library and "-" in old):
            rows[old] = snake(old)
            if "-" not in old:
                laws.add(new)
        taken.add(rows[old])
    return {old: new for old, new in rows.items() if old != new}, laws, set(own) | set(rows.values())


def joined(parts, single):
    """The parts of a lemma's name: a dash between two names, an underscore before or after a plain word."""
    text = parts[0]
    for left, right in zip(parts, parts[1:]):
        text += ("-" if left in single and right in single else "_") + right
    return text


def step_aside(text, laws):
    """The laws of those names, which stand in proof files alone and behind no dot."""
    return re.sub(r"(?<![^\s(){};,])[a-z][a-z0-9_]*(?![^\s(){};,])", lambda m: m[0] + "_lem" if m[0] in laws else m[0], text)


def turned(text, rows):
    return re.sub(r"[^\s(){}.;,@\"«»`\[\]]+", lambda m: rows.get(m[0], m[0]), text)


def later(word, names):
    """A word of a page or an edit, which port.py did not turn: the spelling that a definition has now."""
    if CAMEL.match(word) and snake(word) in names:
        return snake(word)
    if "-" in word and word not in names and word.replace("-", "_") in names:
        return word.replace("-", "_")
    return word


def turn_page(text, rows, names):
    """A page: names in code spans alone."""
    return re.sub(r"(`+)([^`\n]+)\1", lambda m: m[1] + turn_edit(m[2], rows, names) + m[1], text)


def turn_edit(text, rows, names):
    return re.sub(r"[^\s(){}.;,:@\"«»`\[\]]+", lambda m: rows.get(m[0]) or later(m[0], names), text)


def main(argv):
    root = argv[0] if argv else "."
    rows, laws, names = table(root)
    changed = 0
    pages = [os.path.join(root, "README.md")] + [os.path.join(d, f) for d, _, fs in os.walk(os.path.join(root, "docs")) for f in fs if f.endswith(".md")]
    for path in list(files(root, (".antt", ".rt", ".edit"))) + pages:
        old = read(path)
        if path.endswith(".md"):
            new = turn_page(old, rows, names)
        elif path.endswith(".edit"):
            new = turn_edit(old, rows, names)
        else:
            new = turned(step_aside(old, laws) if path.endswith(".antt") else old, rows)
        if new != old:
            changed += 1
            with open(path, "w", encoding="utf-8") as f:
                f.write(new)
    print(f"respell: {len(rows)} names, {changed} files")
    return 0


if __name__ == "__main__":
    raise SystemExit(main(sys.argv[1:]))
