#!/usr/bin/env python3
"""Brings the names that this repository's own definitions, lemmas, fields and constructors have to snake case, once, after port.py.

usage: tools/port_names.py [--list]      at the top of the repository

A name is turned if it begins with a small letter and has a dash, a capital letter or a prime that is no apostrophe, and some .antt file below
crates/ declares it: 'bigEndian' becomes 'big_endian', 'three-split' 'three_split'. Types, modules and what Rattle makes for a function
(goals, steps, invariants) stay. It rewrites .antt and .rt files, must-fail edits, and code spans of README.md, CONTRIBUTING.md and docs/.
Where two names would fall together, a definition has the plain name and the other '_lem' behind it.
--list writes nothing and prints each old name with its new one.
"""

import os
import re
import sys

WORD = re.compile(r"[^\s(){}.;,@\"«»\[\]`:&|=!<>]+")
DECLARED = re.compile(r"^ *(?:(?:abbrev|unfoldable|pub|tail|ruleset) +)*(?P<name>[^\s(){}.;,@\"«»:=λ]+)(?: \{[^{}\n]*\})* :(?= |$)")
MADE = re.compile(r": (?:\{[^}]*\} → )?(?:\([^)]*\) → )*(?:tie|goal)\.|: tie\.|: goal\.|: \{M : Type 1\} → statement")
SPECIAL = {"getD": "get_or", "get_d": "get_or", "natAbs": "nat_abs", "toZ": "to_z", "ofZ": "of_z", "leZ": "le_z", "ltZ": "lt_z", "subℕ": "sub_ℕ", "negℤ": "neg_ℤ", "nonNeg": "non_neg"}


def files(top, endings):
    for folder, folders, names in os.walk(top):
        folders[:] = sorted(it for it in folders if it not in ("out", ".git", "target"))
        for it in sorted(names):
            if it.endswith(endings):
                yield os.path.join(folder, it)


def read(path):
    with open(path, encoding="utf-8", newline="") as f:
        return f.read()


def snake(name):
    parts = []
    for part in name.split("-"):
        part = SPECIAL.get(part, part)
        part = re.sub(r"(?<=[a-z0-9])([A-Z])", lambda m: "_" + m[1].lower(), part)
        part = re.sub(r"(?<=[a-z0-9])(?=[ℕℤ])", "_", part)
        parts.append(part)
    # getD- was turned to get_d by port.py
    new = re.sub(r"^get_d(?=_|$)", "get_or", "_".join(it for it in parts if it))
    return new.replace("′", "'").replace("·", "_")


def is_code(word):
    return word[:1].islower() and snake(word) != word


def declared():
    """Each name that is declared, with the files that declare it. In the proof of a function what answers a goal keeps its name."""
    found = {}
    for path in files("crates", ".antt"):
        of_function = "/" in path.partition("/proofs/")[2]
        text = read(path)
        for line in text.split("\n"):
            m = DECLARED.match(line)
            if not m or line.lstrip().startswith("--"):
                continue
            name = m["name"]
            if of_function and (MADE.search(line) or name.startswith(("invariant-", "decreases-", "measure-"))):
                continue
            found.setdefault(name, set()).add(path)
        # the constructors of a type, several in a line
        for m in re.finditer(r"(?m)^ +((?:[a-z]\w* ){2,}[a-z]\w*) : [A-Z]\w*$", text):
            CONSTRUCTORS.update(it for it in m[1].split() if is_code(it))
    return found


def turned(text, table, prose):
    """The text with its words turned; in a comment a word with a dash only where it stands in a code span."""

    def one(m):
        word = m[0]
        return table.get(word, word)

    out = []
    for line in text.split("\n"):
        cut = len(line)
        for mark in ("-- ", "// "):
            at = line.find(mark)
            if at >= 0 and (at == 0 or line[at - 1] == " "):
                cut = min(cut, at)
        code, comment = line[:cut], line[cut:]
        if prose:
            code, comment = "", line
        code = WORD.sub(one, code)
        spans = comment.split("`")
        for i, it in enumerate(spans):
            if i % 2:
                spans[i] = WORD.sub(one, it)
            elif not prose:
                spans[i] = WORD.sub(lambda m: one(m) if "-" not in m[0] else m[0], it)
        out.append(code + "`".join(spans))
    return "\n".join(out)


def choice(new, olds, names):
    """Of names that would fall together, the one that gets the plain name: a definition before a lemma."""

    def rank(old):
        in_specs = any("/specs/" in it for it in names[old])
        return (not in_specs, "-" in old, old == new)

    return min(sorted(olds), key=rank)


# The constructors that are turned; they fall together with nothing, since a field's name stands behind a dot.
CONSTRUCTORS = set()


def plan(names):
    """The table of old and new names, and the lemmas in snake case already that get another in a file that has the definition too."""
    by_new = {}
    for old in names:
        if is_code(old):
            by_new.setdefault(snake(old), set()).add(old)
    for new in by_new:
        if new in names:
            by_new[new].add(new)
    table, moved = {it: snake(it) for it in CONSTRUCTORS}, {}
    for new, olds in by_new.items():
        keeper = choice(new, olds, names)
        for old in olds:
            to = new if old == keeper else new + "_lem"
            if old == to:
                continue
            if is_code(old):
                table[old] = to
            else:
                moved[old] = (to, names[old], keeper)
    return table, moved


BARE = r"(?<![^\s(){};,@\"«»\[\]`])%s(?![^\s(){};,@\"«»\[\]`.])"


def imports(text, path, name, homes):
    """Whether the file declares the name or brings it in from a module that declares it."""
    if path in homes:
        return True
    for home in homes:
        crate, place = home.split("/")[1], home.split("/")[2:]
        module = "Rattle." + crate + "." + ".".join(place)[: -len(".antt")]
        for m in re.finditer(r"(?m)^ *(?:ghost |pub )*use " + re.escape(module) + r"\.\{([^}]*)\}", text):
            if re.search(r"(?<![\w'-])" + re.escape(name) + r"(?![\w'-])", m[1]):
                return True
    return False


def main():
    names = declared()
    table, moved = plan(names)
    if "--list" in sys.argv:
        for old, new in sorted(table.items()):
            print(old, new)
        for old, (new, homes, keeper) in sorted(moved.items()):
            print(old, new, "beside", keeper, *sorted(homes))
        return 0
    texts = {path: read(path) for path in files("crates", (".antt", ".rt", ".edit"))}
    for path, text in texts.items():
        new = text
        for old, (to, homes, keeper) in moved.items():
            both = any(re.search(BARE % re.escape(keeper), texts[it]) for it in (path, *homes) if it in texts)
            if path.endswith(".antt") and "/specs/" not in path and both and imports(text, path, old, homes):
                new = re.sub(BARE % re.escape(old), to, new)
        new = turned(new, table, False)
        if new != text:
            with open(path, "w", encoding="utf-8", newline="") as f:
                f.write(new)
    for path in ["README.md", "CONTRIBUTING.md", *files("docs", ".md")]:
        text = read(path)
        new = turned(text, table, True)
        if new != text:
            with open(path, "w", encoding="utf-8", newline="") as f:
                f.write(new)
    return 0


if __name__ == "__main__":
    raise SystemExit(main())
