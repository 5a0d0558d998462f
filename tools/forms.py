#!/usr/bin/env python3
"""Counts, in the crates' src/, the places that today's Rattle says otherwise. Without an argument it counts all points; with the number of a
point it also lists the places. What a count takes for a place is a rule over the text: docs/DESIGN-PASS.md says what each place is."""
import glob, os, re, sys, collections

os.chdir(os.path.join(os.path.dirname(os.path.abspath(__file__)), ".."))
FILES = {p: open(p, encoding="utf-8").read() for p in sorted(glob.glob("crates/*/src/**/*.rt", recursive=True))}


def bare(text):
    return re.sub(r"//[^\n]*", "", text)


def functions(text):
    """The name, the head and the body of each function."""
    for m in re.finditer(r"(?m)^( *)(?:pub )?(?:extern \"C\" )?fn (\w+)", text):
        end = re.compile(r"(?m)^" + m.group(1) + r"\}").search(text, m.end())
        if not end:
            continue
        whole = text[m.start():end.end()]
        cut = re.search(r"(?m)^" + m.group(1) + r"\{", whole)
        yield (m.group(2), whole[:cut.start()], whole[cut.start():]) if cut else (m.group(2), whole, "")


def point1():
    """Own enums of two variants of which one holds nothing or a refusal, or of three with both; constants that number kinds."""
    for path, text in FILES.items():
        for m in re.finditer(r"(?ms)^(?:pub )?enum (\w+) \{(.*?)^\}", bare(text)):
            parts = re.findall(r"(?m)^    (\w+)(.*?)(?=,\n|\Z)", m.group(2))
            empty = [n for n, p in parts if not p.strip()]
            why = [n for n, p in parts if re.search(r"\((Refusal|Fault)\)", p)]
            if len(parts) == 2 and (len(why) == 1 or len(empty) == 1) or len(parts) == 3 and empty and why and len(parts) - len(empty) - len(why) == 1:
                yield path, m.group(1)
        kinds = re.findall(r"(?m)^pub const ([A-Z_]+): u16 = \d+;", text)
        if kinds:
            yield path, "constants " + ", ".join(kinds)


def shape(body):
    names = {}
    out = []
    for t in re.findall(r"0x[0-9A-Fa-f_]+|\d[\d_]*|\w+|[^\s\w]", bare(body)):
        if re.fullmatch(r"0x[0-9A-Fa-f_]+|\d[\d_]*", t):
            out.append("N")
        elif re.fullmatch(r"\w+", t) and t not in ("if", "else", "match", "return", "let", "mut", "while", "for", "in", "as", "loop", "break"):
            out.append(names.setdefault(t, f"v{len(names)}"))
        else:
            out.append(t)
    return " ".join(out), len(out)


def point2():
    """Functions whose bodies are the same but for names and numbers, of thirty tokens and more."""
    same = collections.defaultdict(list)
    for path, text in FILES.items():
        if path.split("/")[1].endswith("_c"):
            continue
        for name, _, body in functions(text):
            s, n = shape(body)
            if n >= 30:
                same[s].append((path, name))
    for group in same.values():
        for path, name in group if len(group) > 1 else []:
            yield path, name


def point3():
    """Loops that are no `for`."""
    for path, text in FILES.items():
        for name, _, body in functions(text):
            for m in re.finditer(r"(?m)^ *(while\b[^\n]*|loop \{)", bare(body)):
                yield path, f"{name}: {m.group(1)}"


def point4():
    """Functions that only cast, number an answer or take the smaller of two."""
    for path, text in FILES.items():
        for name, head, body in functions(text):
            b = " ".join(bare(body).split())
            if re.fullmatch(r"\{ \(?\w+(?: %% \d+\)?)? as \w+ \}".replace("%%", "%"), b) or re.match(r"number(_|$)", name) and "u8" in head.split("ensures")[0] \
                    or re.fullmatch(r"\{ if (\w+) < (\w+) \{ return (\1|\2); \} (\1|\2) \}", b):
                yield path, name


def point5():
    """Facts that stand in the contracts of three functions or more of a file."""
    for path, text in FILES.items():
        seen = collections.defaultdict(set)
        for name, head, _ in functions(text):
            for clause in re.findall(r"requires(?: \w+)? \{(.*)\}", head):
                for part in re.split(r"\) × \(|× ", clause):
                    fact = " ".join(re.sub(r"\.(old|now|new)\b", "", part.strip(" ()")).split())
                    if fact:
                        seen[fact].add(name)
        for fact, names in seen.items():
            if len(names) >= 3:
                yield path, f"{fact}: {', '.join(sorted(names))}"


def point6():
    """An array with a count beside it, and a count handed along with the bytes that it counts."""
    for path, text in FILES.items():
        for m in re.finditer(r"(?ms)^(?:pub )?struct (\w+) \{(.*?)^\}", bare(text)):
            if re.search(r": \[", m.group(2)) and re.search(r"\b(count|held|len)\w*:", m.group(2)):
                yield path, m.group(1)
        for name, head, _ in functions(text):
            if re.search(r"bytes: &(mut )?\[u8\],\s*(count|held|n): usize", head):
                yield path, name


def point7():
    """A step chosen by a number: chains of three tests and more of one variable against numbers or constants."""
    for path, text in FILES.items():
        for name, _, body in functions(text):
            tests = collections.Counter(re.findall(r"(?m)^ *(?:\} else )?if ([\w.]+) == (?:\d+|[A-Z_:\w]*[A-Z_]{3,}) \{", bare(body)))
            for v, n in tests.items():
                if n >= 3:
                    yield path, f"{name}: {v}"


def main():
    points = [point1, point2, point3, point4, point5, point6, point7]
    for number, point in enumerate(points, 1):
        found = list(point())
        if sys.argv[1:] in ([], [str(number)]):
            print(f"{number}: {len(found)}  {point.__doc__}")
        if sys.argv[1:] == [str(number)]:
            for path, what in found:
                print(f"  {path}: {what}")


main()
