#!/usr/bin/env python3
"""Counts, in src/ of every crate, the places that docs/DESIGN-PASS.md speaks of: run it at the top, or on another checkout as `tools/places.py FOLDER`.

A number alone names the point whose places are listed, as `tools/places.py . 3`; without one, each point's count is printed. Tests apart, nothing is read but src/*.rt
and, for point 8, proofs/. What it finds are candidates: the page says of each group what became of it.
"""
import collections
import pathlib
import re
import sys

ROOT = pathlib.Path(sys.argv[1] if len(sys.argv) > 1 else ".")
ASKED = sys.argv[2] if len(sys.argv) > 2 else ""

# a function: its place, name, parameters, result, clauses, body
Function = collections.namedtuple("Function", "place name parameters result clauses body")
NONE_WORDS = "Missing|Nothing|NoEntry|NoRoot|Unopened|Repeated|Twice|Unreadable|NotTyped|NotRelated|Refused|Off|Bad|Fail|Short"


def functions(path):
    text = re.sub(r"//[^\n]*", "", path.read_text())
    for m in re.finditer(r"^( *)(?:pub(?:\(crate\))? )?(?:const )?(?:extern \"C\" )?fn (\w+)(?:<[^>{]*>)?\(", text, re.M):
        i, depth = m.end(), 1
        while depth:
            depth += {"(": 1, ")": -1}.get(text[i], 0)
            i += 1
        line = text.find("\n", i)
        start = line if text[i:line].endswith(" {") else text.find(f"\n{m.group(1)}{{\n", i - 1)
        head = text[i:start]
        end = text.find(f"\n{m.group(1)}}}\n", start)
        result = re.match(r"\s*->\s*([^\n{]+)", head)
        place = f"{path.relative_to(ROOT)}:{text.count(chr(10), 0, m.start()) + 1}"
        yield Function(place, m.group(2), text[m.end():i - 1], result.group(1).strip() if result else "", head, text[start:end])


def sources():
    return sorted(p for p in ROOT.glob("crates/*/src/**/*.rt"))


ALL = [f for p in sources() for f in functions(p)]


def point_1():
    """Enums with a case for none or for a refusal; a flag beside a value; functions that answer a refusal's or a kind's number."""
    for p in sources():
        text = p.read_text()
        for m in re.finditer(r"enum (\w+)(?:<[^>]*>)? \{(.*?)\n\}", text, re.S):
            if re.search(rf"^    (?:{NONE_WORDS})\b", m.group(2), re.M) and m.group(1) not in ("Unwritten", "Refusal"):
                yield p.relative_to(ROOT), f"enum {m.group(1)}"
        for m in re.finditer(r"struct (\w+)(?:<[^>]*>)? \{(.*?)\n\}", text, re.S):
            if re.search(r": bool,", m.group(2)):
                yield p.relative_to(ROOT), f"struct {m.group(1)} with a flag"
    for f in ALL:
        if f.result == "u8" and re.search(r"refusal|opened|misfit|judge|number_of|run_|mode_of|byte_order", f.name):
            yield f.place, f"fn {f.name} -> u8"


def shape(body):
    """The body with its names and literals numbered by their first place: what twins have in common."""
    seen = {}
    words = re.findall(r"[A-Za-z_]\w*|b?'(?:\\.|[^'])'|b?\"(?:\\.|[^\"])*\"|\d\w*|\S", body)
    keep = {"let", "mut", "if", "else", "while", "loop", "for", "in", "match", "return", "true", "false", "as", "fn", "self", "len"}
    return tuple(w if w in keep or not re.match(r"[\w'\"]", w) else seen.setdefault(w, len(seen)) for w in words), len(words)


def point_2():
    """Functions of one crate whose bodies differ only in names and literals, of 24 words or more."""
    groups = collections.defaultdict(list)
    for f in ALL:
        s, n = shape(f.body)
        if n >= 24:
            groups[(f.place.split("/")[1], s)].append(f)
    for g in groups.values():
        if len(g) > 1:
            for f in g:
                yield f.place, f"fn {f.name}, {len(g)} alike"


def loops():
    for f in ALL:
        for m in re.finditer(r"\n\s*(while|loop)\b([^\n{]*)\{", f.body):
            yield f, m


def counts_by_one(f, m):
    cond = m.group(2)
    names = re.findall(r"\b([a-z]\w*)\b", cond)
    return any(re.search(rf"\b{n} [+-]= 1;", f.body) for n in names)


def point_3():
    """Loops that count an index by one."""
    for f, m in loops():
        if counts_by_one(f, m):
            yield f.place, f"fn {f.name}:{m.group(1)}{m.group(2).rstrip()}"


def point_4():
    """Equality, order, copying, conversion and printing by hand."""
    for f in ALL:
        if re.search(r"^(is_same\w*|compare\w*|byte_order|to_\w+|wide|widened|smaller|number_of|bit|flag|one_if|cell|digit|get\d|put\d|copy_\w+|move_\w+|shift|turn\w*|put_number|print_number|order_bytes|order_number|hex_value)$", f.name):
            yield f.place, f"fn {f.name}"


def point_5():
    """Clauses that stand in three functions or more; three or more parameters that go together in three functions or more."""
    clauses = collections.defaultdict(list)
    for f in ALL:
        for c in re.findall(r"requires (?:\w+ )?\{ (.*?) \}\n", f.clauses + "\n"):
            for fact in re.split(r" × ", c.strip()):
                clauses[fact.strip("() ")].append(f)
    for fact, fs in sorted(clauses.items(), key=lambda x: -len(x[1])):
        if len(fs) >= 3:
            yield f"{len(fs)} functions", f"requires {fact}"
    runs = collections.defaultdict(set)
    for f in ALL:
        names = [re.sub(r"\s+", " ", p.strip()) for p in re.split(r",(?![^\[(]*[\])])", f.parameters) if p.strip()]
        for n in range(3, len(names) + 1):
            for i in range(len(names) - n + 1):
                runs[tuple(names[i:i + n])].add(f.place + " " + f.name)
    longest = [r for r in runs if len(runs[r]) >= 3 and not any(len(s) > len(r) and set(r) <= set(s) and runs[s] >= runs[r] for s in runs)]
    for r in longest:
        yield f"{len(runs[r])} functions", ", ".join(r)


def point_6():
    """An array or a slice with its length or a count beside it, among parameters and fields."""
    for f in ALL:
        if re.search(r"\w+: &(?:mut )?\[[^\]]+\],\s*(?:n|count|length|size): (?:&mut )?usize", f.parameters):
            yield f.place, f"fn {f.name}"
    for f in ALL:
        if re.search(r"let mut (\w+) = \[0(?:u\d+)?; \w+\];\s*(?:let \w+ = \w+\([^)]*&mut \1|\w+\(&mut \1)", f.body):
            yield f.place, f"fn {f.name}: an array that is filled, by a length"


def point_7():
    """Chains of tests of one value with constants: three or more."""
    for f in ALL:
        tests = collections.Counter(re.findall(r"if \(?(\w+) == ", f.body))
        for name, n in tests.items():
            if n >= 3:
                yield f.place, f"fn {f.name}: {n} tests of {name}"


def point_8():
    """Files of answers."""
    for p in sorted(ROOT.glob("crates/*/proofs/**/Answers.antt")):
        yield p.relative_to(ROOT), f"{sum(1 for _ in p.open())} lines"


POINTS = [point_1, point_2, point_3, point_4, point_5, point_6, point_7, point_8]
for number, point in enumerate(POINTS, 1):
    if ASKED in ("", str(number)):
        found = list(point())
        if ASKED:
            for place, what in found:
                print(f"{place}: {what}")
        print(f"point {number}: {len(found)}. {point.__doc__}")
        if number == 3:
            print(f"         of {sum(1 for _ in loops())} loops by `while` and `loop`, beside {sum(len(re.findall(r'^ *for ', f.body, re.M)) for f in ALL)} by `for`")
