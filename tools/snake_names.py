#!/usr/bin/env python3
"""Brings the repository's own definitions and lemmas to snake case: `withEntry` and `as-tabled` become `with_entry` and `as_tabled`.

usage: python3 tools/snake_names.py            at the top of a checkout, right after the kit's port.py; a second run changes nothing

Functions of src/, exported C names, types, modules, strings, inputs and outputs keep their names, and so do the constructors ADMIT ..
NOBODY, which are written as the specification writes the steps (in snake case `admit` would fall together with what the step does).
Where two names fall together, the definition (of specs/, or the one in camel case) takes the plain name, and the lemma gets `_lem` behind it;
two names of specs/ that no file has both are both plain.
It prints how many names and files it changed, and each pair that fell together.
"""

import collections
import os
import re

NAME = re.compile(r"[A-Za-z0-9_'\u2080-\u2089-]+")
DEFINES = re.compile(r"^(\s*)((?:(?:pub|abbrev|unfoldable)\s+)*)([^\s:(){}\[\],;.]+(?:\s+[^\s:(){}\[\],;.]+)*)\s*:(?!\S)")
OK = {"HoldOK", "ReadyOK", "WaitingOK", "PhaseOK", "RowOK", "EntryOK", "SidesOK"}


def files(ends):
    for folder, dirs, names in os.walk("crates"):
        dirs[:] = sorted(d for d in dirs if d != "out")
        for n in sorted(names):
            if n.endswith(ends):
                yield os.path.join(folder, n)


def text_of(path):
    with open(path, encoding="utf-8") as f:
        return f.read()


def snake(name):
    if name in OK:
        return name[:-1] + "k"
    if name[0].isupper():
        return name
    parts = re.sub(r"([a-z0-9])([A-Z])", r"\1_\2", name).split("_")
    return "_".join(p if p in ("ℕ",) else p.lower() for p in parts).replace("-", "_")


def defined():
    """Each name that a file of specs/ or proofs/ declares, with the files; a walk's own names (Proof.antt) are the check's."""
    found = collections.defaultdict(set)
    for path in files(".antt"):
        if "/specs/" not in path and os.path.basename(path) in ("Proof.antt", "Answers.antt", "Invariants.antt"):
            continue
        for line in text_of(path).split("\n"):
            if line.startswith("--"):
                continue
            kind = re.match(r"(?:pub )?(?:record|data) (\S+)", line)
            if kind:
                found[kind[1]].add(path)
                continue
            m = DEFINES.match(line)
            if not m:
                continue
            for name in m[3].split():
                inner = len(m[1]) > 2
                if inner and not re.search(r"[a-z]-|[a-z][A-Z]", name):
                    continue
                if NAME.fullmatch(name) and name not in ("--", "record", "data", "pub"):
                    found[name].add(("" if inner else "/top/") + path)
    return found


def renamed(found):
    """Old name to new: a definition keeps the plain name, a lemma that falls together with it gets `_lem`."""
    together = collections.defaultdict(set)
    for name in found:
        together[snake(name)].add(name)
    new, written = {}, [set(NAME.findall(text_of(p))) for p in files((".antt", ".rt"))]
    for plain, names in sorted(together.items()):
        def rank(n):
            at = " ".join(found[n])
            return ("/specs/" not in at, "/top/" not in at, n != plain, "-" in n, n)
        first, *rest = sorted(names, key=rank)
        new[first] = plain
        for n in rest:
            apart = "/specs/" in " ".join(found[n]) and not any({first, n} <= names for names in written)
            new[n] = plain if apart else plain + "_lem"
            print(f"fell together: {first} is {plain}, {n} is {new[n]}")
    new = {a: b for a, b in new.items() if a != b}
    for path in files((".antt", ".rt")):
        text = text_of(path)
        taken = foreign(text)
        for name in set(NAME.findall(text)) & set(new):
            if new[name] in taken:
                print(f"fell together with an import: {name} is {new[name]}_lem")
                new[name] += "_lem"
    return new


def foreign(text):
    """Names that a file takes from a module that is not ours: they stay."""
    names = set()
    for m in re.finditer(r"^\s*(?:pub |ghost )?use ([\w.']+)\.\{([^}]*)\}", text, re.M):
        if not re.match(r"Rattle\.(?!std\b)", m[1]):
            for item in m[2].split(","):
                names.add(item.split(" as ")[-1].strip())
    return names


def turned(text, new, keeps, kebab=True):
    def one(m):
        name = m[0]
        if name in keeps or name not in new or (not kebab and "-" in name):
            return name
        return new[name]
    return NAME.sub(one, text)


def quoted(text, new, keeps):
    """In a comment a name with a dash is ours only between backquotes."""
    parts = text.split("`")
    return "`".join(turned(p, new, keeps, kebab=i % 2 == 1) for i, p in enumerate(parts))


def antt(text, new):
    keeps, lines = foreign(text), []
    for line in text.split("\n"):
        use = re.match(r"\s*(?:pub )?use ([\w.']+)", line)
        if use and not re.match(r"Rattle\.(?!std\b)", use[1]):
            lines.append(line)
            continue
        code, dashes, comment = line.partition("-- ") if not line.startswith("--") else ("", "--", line[2:])
        lines.append(turned(code, new, keeps) + dashes + quoted(comment, new, keeps))
    return "\n".join(lines)


def rt(text, new):
    new, lines = {a: b for a, b in new.items() if snake(a) != a}, []
    for line in text.split("\n"):
        use = re.match(r"\s*ghost use ([\w.']+)", line)
        if use:
            lines.append(turned(line, new, set()) if re.match(r"Rattle\.(?!std\b)", use[1]) else line)
            continue
        code, slashes, comment = line.partition("//")
        pieces = re.split(r'("(?:[^"\\]|\\.)*")', code)
        code = "".join(p if i % 2 else turned(p, new, set(), kebab=False) for i, p in enumerate(pieces))
        lines.append(code + slashes + quoted(comment, new, set()))
    return "\n".join(lines)


def main():
    new = renamed(defined())
    changed = 0
    for path in files((".antt", ".rt")):
        old = text_of(path)
        text = antt(old, new) if path.endswith(".antt") else rt(old, new)
        if text != old:
            changed += 1
            with open(path, "w", encoding="utf-8") as f:
                f.write(text)
    print(f"{len(new)} names, {changed} files")


if __name__ == "__main__":
    main()
