#!/usr/bin/env python3
"""Brings the repository's own definitions and lemmas to snake case, once, after port.py: run it at the top.

Types and modules keep their camel case, functions of src/, exported C names and strings keep their names, and so does what a file
imports from the libraries of the toolchain. `--check` writes nothing and lists names that would fall together.
"""

import os
import re
import sys

WORD = r"[^\s(){}\[\],;.\"`]+"
OWN = {line.split(":")[0].split()[0] for line in open("crates.txt") if line.strip() and not line.startswith("#")}

# Lemmas that have the name of the function that they speak of, and a function that has the name of a tactic.
APART = {"same_key": "same_key_lem", "of_two": "of_two_lem", "of_three": "of_three_lem", "all_in": "all_in_lem", "default_row": "default_row_lem", "by_default": "by_default_lem", "no_room": "no_room_lem", "two_fields": "two_fields_lem", "value_in": "value_in_lem", "first_of": "first_passing"}

# Files in which that name is another's, a lemma's.
LEMMAS = {"first_of": ("reading/proofs/EnteredPlaces", "names/proofs/Tokens", "names/proofs/FieldBytes", "names/proofs/MediaTypes", "markup/proofs/PlacedEntries")}

# The snake case of functions, which a lemma does not take.
TAKEN = set()


def spelled(name):
    name = name.replace("getD", "get_or").replace("-", "_")
    return re.sub(r"(?<=[a-z0-9])([A-Z])", lambda m: "_" + m.group(1).lower(), name)


def snake(name, file=""):
    if name in LEMMAS and any(it in file for it in LEMMAS[name]):
        return name + "_lem"
    if name in APART:
        return APART[name]
    return spelled(name) + ("_lem" if "-" in name and spelled(name) in TAKEN else "")


def turns(name):
    """Whether a name of the repository's own changes its spelling: words with a dash, or words of small letters with a capital inside."""
    if not re.fullmatch(r"[\w'′-]+", name) or name[0] in "-'":
        return False
    return name in APART or "-" in name or bool(re.match(r"[a-z]\w*[A-Z]", name))


def files(ends):
    for folder, dirs, names in os.walk("crates"):
        dirs[:] = sorted(d for d in dirs if d != "out")
        for name in sorted(names):
            if name.endswith(ends):
                yield os.path.join(folder, name)


def pages():
    """README and the pages of docs/, notes of what was apart."""
    yield "README.md"
    for name in sorted(os.listdir("docs")):
        if name.endswith(".md"):
            yield os.path.join("docs", name)


def is_own(path):
    parts = path.split(".")
    return parts[0] == "Rattle" and len(parts) > 1 and parts[1] in OWN


def imports(text):
    """What a file takes from modules that are not the repository's own."""
    got = set()
    for m in re.finditer(r"\buse ([\w·.+-]+)\.\{([^}]*)\}", text):
        if not is_own(m.group(1)):
            for part in m.group(2).split(","):
                got |= set(part.split(" as ")[0].split())
    return got


def declared(text):
    """The names that a file declares: definitions, fields, constructors, and what `let`, `λ` and patterns bind."""
    got = set()
    for line in text.split("\n"):
        code = line.split("--")[0] if line.lstrip().startswith("--") else line
        m = re.match(r"\s*(?:(?:abbrev|unfoldable|pub|data|record) )*((?:" + WORD + r" )+)(?:[({].*[)}] )?: ", code)
        if m:
            got |= set(m.group(1).split())
        got |= set(re.findall(r"\blet (" + WORD + r")", code))
        for m in re.finditer(r"[({]((?:" + WORD + r" )+): ", code):
            got |= set(m.group(1).split())
        for m in re.finditer(r"λ ((?:" + WORD + r" ?)+)\.", code):
            got |= set(m.group(1).split())
    return {n for n in got if turns(n)}


def lines_of(text):
    """Each line with whether it is a comment."""
    for line in text.split("\n"):
        yield line, line.lstrip().startswith(("--", "//"))


def turn_code(line, names, foreign, file):
    """A line of antt, or of Rattle, with each own name respelled. Text in double quotes stays."""
    def turned(m):
        word = m.group(0)
        tail = ""
        while word and word[-1] in ":,":
            word, tail = word[:-1], word[-1] + tail
        return (snake(word, file) if word in names and word not in foreign else word) + tail

    def path(m):
        if not is_own(m.group(1)):
            return m.group(0)
        return "use " + m.group(1) + ".{" + re.sub(WORD, turned, m.group(2)) + "}"

    parts = re.split(r'("(?:[^"\\]|\\.)*")', line)
    for i in range(0, len(parts), 2):
        if re.search(r"\buse ([\w·.+-]+)\.\{([^}]*)\}", parts[i]):
            parts[i] = re.sub(r"\buse ([\w·.+-]+)\.\{([^}]*)\}", path, parts[i])
        elif not re.match(r"\s*(?:pub )?use ", parts[i]):
            parts[i] = re.sub(WORD, turned, parts[i])
    return "".join(parts)


def turn_comment(line, names, foreign, file):
    def ticked(m):
        return "`" + re.sub(WORD, lambda w: snake(w.group(0), file) if w.group(0) in names and w.group(0) not in foreign else w.group(0), m.group(1)) + "`"

    return re.sub(r"`([^`]*)`", ticked, line)


def main():
    check = "--check" in sys.argv
    antt = {p: open(p, encoding="utf-8").read() for p in files(".antt")}
    foreign = {p: imports(t) for p, t in antt.items()}
    names = set()
    for p, t in antt.items():
        names |= declared(t)
    # Every function's name is camel case, or snake case already; a dash is a lemma's.
    TAKEN.update(spelled(n) for n in names if "-" not in n)
    TAKEN.update(n for n in ("tag_at", "name_at", "piece_at", "piece_size", "row_at"))
    if check:
        for p, t in antt.items():
            words = set()
            for line, comment in lines_of(t):
                if not comment:
                    words |= set(re.findall(WORD, line))
            made = {}
            for w in words:
                to = snake(w, p) if w in names and w not in foreign[p] else w
                made.setdefault(to, set()).add(w)
            for to, froms in sorted(made.items()):
                if len(froms) > 1:
                    print(f"{p}: {' and '.join(sorted(froms))} fall together as {to}")
        return 0
    for p, t in antt.items():
        new = "\n".join(turn_comment(l, names, foreign[p], p) if c else turn_code(l, names, foreign[p], p) for l, c in lines_of(t))
        if new != t:
            open(p, "w", encoding="utf-8").write(new)
    for p in [*files((".rt", ".edit")), *pages()]:
        t = open(p, encoding="utf-8").read()
        away = imports(t.replace("ghost use", "use"))
        new = "\n".join(turn_comment(l, names, away, p) if c else turn_code(l, names, away, p) for l, c in lines_of(t))
        if new != t:
            open(p, "w", encoding="utf-8").write(new)
    return 0


if __name__ == "__main__":
    raise SystemExit(main())
