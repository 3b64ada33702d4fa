#!/usr/bin/env python3
"""Places of docs/DESIGN-PASS.md in the sources: `tools/places.py POINT [FOLDER]` lists those of a point, one a line; without a point, how many of each."""
import difflib
import os
import re
import sys

HERE = os.path.dirname(os.path.dirname(os.path.abspath(__file__)))


def sources(folder):
    for top, _, names in sorted(os.walk(os.path.join(folder, "crates"))):
        if re.fullmatch(r"crates/\w+/src", os.path.relpath(top, folder)):
            for name in sorted(names):
                if name.endswith(".rt"):
                    path = os.path.join(top, name)
                    yield os.path.relpath(path, folder), open(path).read()


def items(text):
    """Each function: its line, its name, its parameters, its clauses, its body."""
    for m in re.finditer(r"^( *)((?:pub(?:\(crate\))? )?(?:extern \"C\" )?fn (\w+))", text, re.M):
        depth, at = 0, text.index("(", m.end(3))
        first = at
        while True:
            depth += {"(": 1, ")": -1}.get(text[at], 0)
            at += 1
            if depth == 0:
                break
        closed = re.compile(r"^%s\}" % m.group(1), re.M).search(text, at)
        if closed is None:
            continue
        opened = re.compile(r"^%s\{$|[^\n]\{$" % m.group(1), re.M).search(text, at, closed.start())
        end = opened.end() - 1 if opened else closed.start()
        yield text.count("\n", 0, m.start(2)) + 1, m.group(3), text[first + 1:at - 1], text[at:end], text[end:closed.end()]


def flags(path, text):
    """1. A flag or a number of a refusal beside a value: a struct with such a field."""
    for m in re.finditer(r"^(?:pub )?struct (\w+)[^{;]*\{\n(.*?)^\}", text, re.M | re.S):
        for f in re.finditer(r"^ +(?:pub )?(good|sound|known|failed|more|fault|code|alarm|stage|phase): (bool|u8)", m.group(2), re.M):
            yield path, text.count("\n", 0, m.start(2) + f.start()) + 2, f"{m.group(1)}.{f.group(1)}: {f.group(2)}"


def own_enums(path, text):
    """1. An enum of the shape of Option or Result: a case with a value and one that says there is none, or an alarm."""
    for m in re.finditer(r"^(?:pub )?enum (\w+)[^{;]*\{\n(.*?)^\}", text, re.M | re.S):
        cases = re.findall(r"^ +(\w+)(\([^)]*\))?,", m.group(2), re.M)
        if 2 <= len(cases) <= 3 and any(v for _, v in cases) and any(n in ("Alarm", "Unfit", "Fault", "Nothing", "None") for n, _ in cases):
            yield path, text.count("\n", 0, m.start()) + 1, "enum " + m.group(1)


def numbers(path, text):
    """1. Numbers for kinds: a run of constants 0, 1, 2, .. of one type."""
    run = []
    for m in list(re.finditer(r"^(?:pub(?:\(crate\))? )?const (\w+): (u8|u32) = (\d+);", text, re.M)) + [None]:
        if m and run and int(m.group(3)) == int(run[-1].group(3)) + 1 and m.group(2) == run[-1].group(2):
            run.append(m)
            continue
        if len(run) >= 3 and int(run[0].group(3)) < 40:
            yield path, text.count("\n", 0, run[0].start()) + 1, f"{run[0].group(1)} .. {run[-1].group(1)}"
        run = [m]


def operations(path, text):
    """1. A parameter that is a number and says what to do: compared with 0, 1, .. in the body."""
    for line, name, parameters, _, body in items(text):
        for p in re.findall(r"\b(op|mode|kind|what|which): u8", parameters):
            yield path, line, f"{name}: {p}"


def loops(path, text):
    """3. A loop that counts an index by hand."""
    for line, name, _, _, body in items(text):
        for m in re.finditer(r"^( +)while ([^{]*)\{\n(.*?)^\1\}", body, re.M | re.S):
            counted = [v for v in re.findall(r"(\w+) [-+]= 1;", m.group(3)) if re.search(r"\b%s\b" % v, m.group(2))]
            counted += [v for v in re.findall(r"\b(\w+)(?:\.len\(\))? ?<", m.group(2)) if re.search(r"\b%s = " % v, m.group(3))]
            if counted:
                yield path, line, f"{name}: while {m.group(2).strip()}"


def byhand(path, text):
    """4. Equality, order, conversion, printing or default values by hand."""
    names = r"same_bytes|is_same|kind_number|twos_complement|number_of|no_line|no_status|no_lines|no_draft|four_at|store|again|standing_of|digit_count|bit|marks|negated|signed_value|digit_of|lower_of|deeper_of|min_of|within|grown_of"
    for line, name, _, _, _ in items(text):
        if re.fullmatch(names, name):
            yield path, line, name


def together(path, text):
    """5. Seven parameters or more."""
    for line, name, parameters, _, _ in items(text):
        n = len([p for p in re.split(r",\s*(?![^<\[(]*[>\])])", parameters.strip()) if p.strip()])
        if n >= 7:
            yield path, line, f"{name}: {n} parameters"


def arrays(path, text):
    """6. A buffer with its length beside it, and arrays side by side: a struct with two arrays of one length or more, or an array and a count."""
    for m in re.finditer(r"^(?:pub )?struct (\w+)[^{;]*\{\n(.*?)^\}", text, re.M | re.S):
        lengths = re.findall(r": \[[^;\]]*; (\w+)\]", m.group(2))
        twice = [n for n in set(lengths) if lengths.count(n) > 1]
        count = re.search(r"\b(count|size): (?:usize|u8|u32)", m.group(2))
        if twice or (lengths and count):
            yield path, text.count("\n", 0, m.start()) + 1, f"{m.group(1)}: {', '.join(sorted(twice)) or lengths[0]}"


def bare(name, parameters, body):
    t = re.sub(r"//[^\n]*", "", body)
    t = re.sub(r"\b(i8|i16|i32|i64|u8|u16|u32|u64|usize)\b", "T", t)
    t = re.sub(r"\b\d+(?:T)?\b", "N", t)
    t = re.sub(r"\b[A-Z][A-Z0-9_]*\b|\btrue\b|\bfalse\b|\b[A-Z]\w*::[A-Z]\w*|b'.'|b\"[^\"]*\"", "K", t)
    return re.sub(r"\s+", " ", t.replace(name, "self"))


def twins(folder):
    """2. Functions whose bodies differ only in a type, a size or a constant."""
    every = [(path, line, name, bare(name, p, body)) for path, text in sources(folder) for line, name, p, _, body in items(text)]
    groups = {}
    for path, line, name, t in every:
        if len(t) > 40:
            groups.setdefault(t, []).append((path, line, name))
    for g in groups.values():
        if len(g) > 1:
            yield g[0][0], g[0][1], " = ".join(f"{n} ({p.split('/')[1]})" for p, _, n in g)


def near(folder):
    """2 in another way: structs with the same fields but one, and bodies that are nine tenths the same."""
    every = [(path, line, name, bare(name, p, body)) for path, text in sources(folder) for line, name, p, _, body in items(text)]
    every = [e for e in every if len(e[3]) > 120]
    for i, a in enumerate(every):
        for b in every[i + 1:]:
            if abs(len(a[3]) - len(b[3])) < 60:
                s = difflib.SequenceMatcher(None, a[3], b[3], autojunk=False)
                if s.real_quick_ratio() > 0.93 and s.quick_ratio() > 0.93 and s.ratio() > 0.93:
                    yield a[0], a[1], f"{a[2]} ~ {b[2]} ({b[0]}:{b[1]})"


def facts(folder):
    """5. A fact of a clause that stands in three functions or more."""
    where = {}
    for path, text in sources(folder):
        for line, name, _, clauses, _ in items(text):
            for c in re.findall(r"requires(?: \w+)? \{ (.*) \}$", clauses, re.M):
                for fact in re.split(r" × ", c):
                    fact = re.sub(r"^\(+|\)+$", "", fact).strip()
                    where.setdefault(fact, set()).add((path, line, name))
    for fact, places in sorted(where.items()):
        if len(places) >= 3:
            yield min(places)[0], min(places)[1], f"{len(places)} functions: {fact}"


def each(f):
    return lambda folder: (x for path, text in sources(folder) for x in f(path, text))


POINTS = {
    "1-flags": each(flags), "1-enums": each(own_enums), "1-numbers": each(numbers), "1-operations": each(operations),
    "2-twins": twins, "2-near": near, "3-loops": each(loops), "4-byhand": each(byhand),
    "5-together": each(together), "5-facts": facts, "6-arrays": each(arrays),
}

if __name__ == "__main__":
    point = sys.argv[1] if len(sys.argv) > 1 else ""
    folder = sys.argv[2] if len(sys.argv) > 2 else HERE
    for name, f in POINTS.items():
        if point and not name.startswith(point):
            continue
        found = list(f(folder))
        if point:
            for path, line, what in found:
                print(f"{path}:{line}: {what}")
        print(f"{name}: {len(found)}")
