#!/usr/bin/env python3
"""Brings this repository's own names in specs/ to today's spelling: definitions, lemmas, fields and constructors in snake case.

usage: python3 tools/respell.py [FOLDER]     once, after /opt/rattle/port/port.py, at the top of the repository

A name is turned by its spelling alone (levelAt, walk-pass -> level_at, walk_pass), in every .antt and .rt file and in the lines of
must-fail edits that are code. Names of src/ have that spelling already. A lemma that would get the name of a definition gets `_lem`
after it. In comments only names with a capital inside are turned, since words of English have dashes too.
"""
import collections
import os
import re
import sys

WORD = r"[^\s(){}.;,@\"«»\[\]\\:]+"
DEFINED = re.compile(r"(?m)^[ ]*(?:abbrev |unfoldable )*(?:pub )?(" + WORD + r") :(?= |\n)")
CAMEL = re.compile(r"^[a-z]\w*[A-Z]")
# Lemmas whose snake case is also a definition's; port.py had turned the last four already.
LEMMAS = {it: it.replace("-", "_") + "_lem" for it in ("spare-of", "in-tree")}
LEMMAS.update((it, it + "_lem") for it in ("mark_set", "is_live", "cleared_at", "look_bytes"))


def snake(name):
    return re.sub(r"([a-z0-9'])([A-Z])", lambda m: m[1] + "_" + m[2].lower(), name).replace("-", "_")


def files(root, *ends):
    for folder, below, names in os.walk(os.path.join(root, "crates")):
        below[:] = sorted(it for it in below if it != "out")
        for it in sorted(names):
            if it.endswith(ends):
                yield os.path.join(folder, it)


def read(path):
    with open(path, encoding="utf-8", newline="") as it:
        return it.read()


def without_comments(path, text):
    return re.sub(r"(?:--|//)[^\n]*", "", text)


def the_names(root):
    """Each name that is turned, with its new spelling."""
    defined = set()
    for path in files(root, ".antt"):
        if "/specs/" in path:
            defined.update(DEFINED.findall(without_comments(path, read(path))))
    turned = {it: snake(it) for it in sorted(defined) if (it[0].islower()) and snake(it) != it}
    by_new = collections.defaultdict(list)
    for old, new in turned.items():
        by_new[new].append(old)
    for new, olds in by_new.items():
        if len(olds) > 1:
            for old in olds:
                if "-" in old:
                    turned[old] = new + "_lem"
    turned.update(LEMMAS)
    return turned


def of_others(text, crates):
    """The names that a file has from a library that is not this repository's: they stay."""
    out = set()
    for path, brought in re.findall(r"(?m)^(?:pub )?(?:ghost )?use ([\w.+'-]+)\.\{([^}]*)\}", text):
        own = re.match(r"Rattle\.(\w+)\.", path)
        if not (own and own[1] in crates):
            out.update(re.findall(WORD, brought))
    return out


def turn(text, names, line_comment, after=""):
    """Turns the words of the code, and in comments the names with a capital inside."""
    def word(m):
        # A step of a function's proof (c.before.link-of) is named after the source.
        if after and re.search(after, m.string[: m.start()]):
            return m[0]
        return names.get(m[0], m[0])

    def line(it):
        at = it.find(line_comment)
        code, said = (it, "") if at < 0 else (it[:at], it[at:])
        said = re.sub(r"[A-Za-z]\w*", lambda m: names[m[0]] if m[0] in names and CAMEL.match(m[0]) else m[0], said)
        return re.sub(WORD, word, code) + said

    return "".join(map(line, text.splitlines(keepends=True)))


def main(root):
    names = the_names(root)
    in_code = {old: new for old, new in names.items() if not re.fullmatch(r"[a-z0-9_']+", old)}
    crates = set(os.listdir(os.path.join(root, "crates")))
    for path in files(root, ".antt", ".rt", ".edit"):
        old = read(path)
        if path.endswith(".antt"):
            others = of_others(old, crates)
            own = {it: new for it, new in names.items() if it not in others}
            new = turn(old, own, "--", r"(?:\bbefore|\bc)\.\Z" if path.endswith("/Proof.antt") else "")
        elif path.endswith(".rt"):
            new = turn(old, in_code, "//")
        else:
            new = "".join(turn(it, in_code, "\n") if it.startswith(("old:", "new:")) else it for it in old.splitlines(keepends=True))
        if new != old:
            with open(path, "w", encoding="utf-8", newline="") as it:
                it.write(new)
    print(f"{len(names)} names turned")
    for old, new in sorted(names.items()):
        if new.endswith("_lem"):
            print(f"  {old} -> {new}")


if __name__ == "__main__":
    main(sys.argv[1] if len(sys.argv) > 1 else ".")
