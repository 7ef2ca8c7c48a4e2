#!/usr/bin/env python3
"""Brings the repository's own definitions and lemmas to the library's spelling: words in snake case, facts and types in camel case.

usage: tools/respell.py        at the top of the repository, once

It reads every .antt file for names that are defined there, turns them in .antt files, in clauses, comments and `ghost use` lines of
.rt files, and in the names that README.md and docs/ give in backticks. Functions of src/ and text in strings stay. Names that the
check makes for goals and steps (`returns-..`, `loop-..`) are not turned. If two names would fall together, it says which, and writes
nothing.
"""

import os
import re

# A name in a proof, a clause or a comment.
WORD = re.compile(r"[^\s(){}\[\];,.:|⌜⌝\"'`@#\\/=+*<>≡]+'*")
# The head of a line that defines a name.
DEFINED = re.compile(
    r"^\s*(?:abbrev |unfoldable )?(?:pub )?(?:abbrev |unfoldable )?(?:(?:record|data) )?(?:\| )?([^\s(){}\[\];,.:|]+)(?= (?:\(|\{|:))"
)
IMPORT = re.compile(r"(?:ghost )?use ([^\s{;]+?)\.\{([^}]*)\}")
STRING = re.compile(r'("(?:[^"\\\n]|\\.)*")')
# A name that would fall together with one of the library's in the same file.
OTHERS = {"bit-xor": "bit_of_xor"}


def read(path):
    with open(path, encoding="utf-8") as f:
        return f.read()


def sources():
    """The files below crates/ that hold names, by path."""
    found = {}
    for folder, dirs, names in os.walk("crates"):
        dirs[:] = sorted(d for d in dirs if d != "out")
        for name in sorted(names):
            if name.endswith((".rt", ".antt", ".edit")):
                path = os.path.join(folder, name)
                found[path] = read(path)
    return found


def defined(text):
    """The names that the text of a proof or a specification defines."""
    for line in text.split("\n"):
        if line.lstrip().startswith("--") or " : goal." in line:
            continue
        m = DEFINED.match(line)
        if m and (" : " in line or re.search(r"\b(record|data)\b", line)):
            yield m.group(1)


def turned(name):
    """The name in the library's spelling."""
    if name in OTHERS:
        return OTHERS[name]
    name = name.replace("′", "'")
    if re.match(r"[A-Z][a-z]", name):
        return "".join(p[:1].upper() + p[1:] for p in name.split("-"))
    name = name.replace("-", "_")
    if not re.match(r"[a-z]{2}", name):
        return name
    return re.sub(r"(?<=[a-z])([A-Z])(?=[a-z_]|$)", lambda m: "_" + m.group(1).lower(), name)


def is_own(path):
    """Whether a `use` names a module of this repository, or a data type in one."""
    parts = path.split(".")
    if parts[0] != "Rattle":
        return False
    return any(os.path.isfile("/".join(["crates"] + p) + ".antt") for p in (parts[1:], parts[1:-1]))


def imported(text):
    """Names that a file takes from elsewhere, by the name that they have there."""
    for path, names in IMPORT.findall(text):
        if not is_own(path):
            for name in names.split(","):
                yield name.strip().split(" as ")[-1]


def together(names):
    """The new names that more than one old name would get."""
    olds = {}
    for old, new in names.items():
        olds.setdefault(new, set()).add(old)
    return {new: sorted(of) for new, of in olds.items() if len(of) > 1}


def turn(path, text, names):
    """The text of a source file with the names turned; what it imports from elsewhere and what stands in a string stays."""
    elsewhere = set(imported(text))

    def word(m):
        w = m.group(0)
        return w if w in elsewhere else names.get(w, w)

    if path.endswith(".antt"):
        return WORD.sub(word, text)
    return "".join(p if i % 2 else WORD.sub(word, p) for i, p in enumerate(STRING.split(text)))


def turn_page(text, names):
    """The text of a page with the names in backticks turned."""
    one = lambda m: names.get(m.group(0), m.group(0))
    return re.sub(r"`([^`\n]+)`", lambda m: "`" + WORD.sub(one, m.group(1)) + "`", text)


def main():
    texts = sources()
    olds = {n for path, text in texts.items() if path.endswith(".antt") for n in defined(text) if re.search(r"\w", n) and n != "ℕ"}
    names = {n: turned(n) for n in olds if turned(n) != n}
    clash = together(names)
    if clash:
        raise SystemExit("\n".join(f"fall together: {new} {of}" for new, of in sorted(clash.items())))
    after = {path: turn(path, text, names) for path, text in texts.items()}
    for path in ["README.md"] + sorted(os.path.join("docs", f) for f in os.listdir("docs") if f.endswith(".md")):
        texts[path] = read(path)
        after[path] = turn_page(texts[path], names)
    changed = [path for path in after if after[path] != texts[path]]
    for path in changed:
        with open(path, "w", encoding="utf-8") as f:
            f.write(after[path])
    print(len(names), "names,", len(changed), "files")


if __name__ == "__main__":
    main()
