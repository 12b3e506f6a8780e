#!/usr/bin/env python3
"""Counts the places in crates/*/src that today's forms of Rattle could replace, point by point.

    python3 tools/places.py            counts
    python3 tools/places.py -v         and each place
    python3 tools/places.py -v twins   one point alone

It goes by text: a hit is a place to look at, and not yet a fault.
"""
import difflib
import glob
import os
import re
import sys

ROOT = os.path.join(os.path.dirname(os.path.abspath(__file__)), "..")
POINTS = ["shapes", "flags", "codes", "twins", "loops", "by-hand", "facts", "together", "lengths", "switches", "proofs"]


def sources():
    for path in sorted(glob.glob(os.path.join(ROOT, "crates/*/src/**/*.rt"), recursive=True)):
        lines = [re.sub(r"//.*", "", line.rstrip("\n")) for line in open(path)]
        yield os.path.relpath(path, ROOT), lines


def functions():
    """Each function that has a body: file, line, name, signature with clauses, body."""
    for path, lines in sources():
        i = 0
        while i < len(lines):
            found = re.match(r"\s*(pub(\([a-z]+\))? )?(const )?fn (\w+)", lines[i])
            if not found:
                i += 1
                continue
            indent = re.match(r"\s*", lines[i]).group()
            j, whole = i, []
            while j < len(lines):
                whole.append(lines[j])
                if lines[j].rstrip() == indent + "}" or lines[j].rstrip().endswith(";") and "{" not in lines[j]:
                    break
                if lines[j].strip() == "{}" or lines[j].rstrip().endswith("{}"):
                    break
                j += 1
            text = "\n".join(whole)
            cut = re.search(r"\n" + indent + r"\{|\{\n|\) (-> .*)?\{", text)
            head, body = (text[: cut.start()], text[cut.start():]) if cut else (text, "")
            if body:
                yield path, i + 1, found.group(4), head, body
            i += 1


def shapes():
    """Enums with a case that has fields beside one that has none, and enums of two cases with a field each."""
    for path, lines in sources():
        text = "\n".join(lines)
        for found in re.finditer(r"enum (\w+)[^{]*\{(.*?)\n\}", text, re.S):
            body = re.sub(r"\{[^{}]*\}", "{}", found.group(2))
            cases = [c.strip() for c in re.split(r",\s*\n", body) if c.strip()]
            bare = [c for c in cases if re.fullmatch(r"\w+( = \d+)?", c.strip(","))]
            if (bare and len(bare) < len(cases)) or (len(cases) == 2 and not bare):
                yield f"{path}:{text[:found.start()].count(chr(10)) + 1}: {found.group(1)}"


def flags():
    for path, lines in sources():
        for n, line in enumerate(lines, 1):
            if re.match(r"\s+(pub )?\w+: bool,$", line):
                yield f"{path}:{n}: {line.strip()}"


def codes():
    """Numbers for kinds or refusals: fields, parameters and results of such a name, and cases matched to or from literal numbers."""
    for path, lines in sources():
        for n, line in enumerate(lines, 1):
            if re.search(r"\b(\w*code|kind|rule|number): u8\b", line) or re.search(r"fn (number|code)\b.*-> u8", line):
                yield f"{path}:{n}: {line.strip()}"
            elif re.match(r"\s+(\w+::\w+(\(_\))?|\d+|\(\d+, \d+\)) => (\d+|\w+(::<\w+>)?\(.*|\w+::\w+.*),?$", line) and re.search(r"\d", line):
                yield f"{path}:{n}: {line.strip()}"


def tokens(text):
    out = []
    for t in re.findall(r"[A-Za-z_]\w*|\d[\d_]*|\"[^\"]*\"|b'.'|[^\s\w]", text):
        if re.match(r"[A-Za-z_]", t):
            out.append(t if t in KEEP else "i")
        elif re.match(r"[\d\"b]", t):
            out.append("n")
        else:
            out.append(t)
    return out


KEEP = {"fn", "if", "else", "match", "for", "in", "while", "let", "mut", "return", "Some", "None", "Ok", "Err", "self", "as", "u8", "u32", "u64", "usize", "i32", "bool"}


def twins():
    """Pairs of functions of the same shape, but for names, types and constants, in crates that are no tests."""
    all_of = [(p, n, f, tokens(b)) for p, n, f, h, b in functions() if "_tests/" not in p]
    all_of = [x for x in all_of if len(x[3]) >= 14]
    for i, a in enumerate(all_of):
        for b in all_of[i + 1:]:
            if abs(len(a[3]) - len(b[3])) > 0.2 * len(a[3]):
                continue
            m = difflib.SequenceMatcher(None, a[3], b[3], autojunk=False)
            if m.quick_ratio() >= 0.9 and m.ratio() >= 0.9:
                yield f"{a[0]}:{a[1]}: {a[2]} ~ {b[0]}:{b[1]}: {b[2]}"


def loops():
    """Loops over a range of indices, with a counter by hand, and `while` loops."""
    for path, lines in sources():
        for n, line in enumerate(lines, 1):
            if re.search(r"\bfor \w+ in \(?[\w.() ]*\.\.", line) or re.match(r"\s*while ", line):
                yield f"{path}:{n}: {line.strip()}"


def by_hand():
    """Functions whose whole body is a match that turns one value into another, or a comparison of two."""
    for path, n, name, head, body in functions():
        inner = body.strip().strip("{}").strip()
        if re.fullmatch(r"match [*\w.]+ \{.*\}", inner, re.S) or re.fullmatch(r"\w+ == \w+", inner):
            yield f"{path}:{n}: {name}"


def facts():
    """Clauses that stand, but for names, in three functions or more."""
    seen = {}
    for path, lines in sources():
        for n, line in enumerate(lines, 1):
            found = re.match(r"\s*(requires|ensures) (\w+ )?\{ (.*) \}$", line)
            if found:
                text = re.sub(r"\b(self|book|demands|shares|lots|firsts|rows|items|space)\b", "x", found.group(3))
                if not text.startswith("result"):
                    seen.setdefault((found.group(1), text), []).append(f"{path}:{n}")
    for (kind, text), where in sorted(seen.items()):
        if len(where) >= 3:
            for w in where:
                yield f"{w}: {kind} {text[:100]}"


def together():
    """Functions that take a pair of parameters, next to one another, which five functions or more take."""
    seen = {}
    for path, n, name, head, body in functions():
        if "_tests/" in path:
            continue
        args = re.search(r"\((.*?)\)\s*(->|$|\n\s*(requires|ensures)|\{)", head, re.S)
        params = [p.strip() for p in re.split(r",(?![^<\[(]*[>\])])", args.group(1))] if args else []
        params = [re.sub(r"^mut ", "", p) for p in params if ":" in p]
        for a, b in zip(params, params[1:]):
            seen.setdefault((a, b), []).append(f"{path}:{n}: {name}")
    for (a, b), where in sorted(seen.items()):
        if len(where) >= 5:
            for w in where:
                yield f"{w}: {a}, {b}"


def lengths():
    """Functions that take a slice and a place or a count in it, and structs that hold both."""
    for path, n, name, head, body in functions():
        if "_tests/" not in path and re.search(r"&(mut )?\[", head) and re.search(r"\b(at|used|start|place|count): usize", head):
            yield f"{path}:{n}: {name}"
    for path, lines in sources():
        text = "\n".join(lines)
        for found in re.finditer(r"struct (\w+)[^{;]*\{(.*?)\n\}", text, re.S):
            if re.search(r": (&('\w+ )?(mut )?)?\[", found.group(2)) and re.search(r"\b(at|used|place|len|count): u", found.group(2)):
                yield f"{path}:{text[:found.start()].count(chr(10)) + 1}: struct {found.group(1)}"


def switches():
    """Matches in which each arm calls a function with the same arguments, and pointers or tables of functions."""
    for path, n, name, head, body in functions():
        arms = re.findall(r"=> (?:return )?(\w+)(?:::<[\w, ]+>)?\(([^()]*)\),?$", body, re.M)
        if len(arms) >= 3 and len({a for _, a in arms}) == 1 and len({f for f, _ in arms}) > 1:
            yield f"{path}:{n}: {name}"
        if re.search(r"\bdyn |: fn\(", head):
            yield f"{path}:{n}: {name}"


def proofs():
    """Lines of proofs: answers and invariants, and lemmas."""
    for path in sorted(glob.glob(os.path.join(ROOT, "crates/*/proofs/**/*.antt"), recursive=True)):
        for n, line in enumerate(open(path), 1):
            if line.strip():
                yield f"{os.path.relpath(path, ROOT)}:{n}"


def main():
    words = [w for w in sys.argv[1:] if w != "-v"]
    for point in words or POINTS:
        places = list(globals()[point.replace("-", "_")]())
        print(f"{point:10}{len(places):6}")
        if "-v" in sys.argv and (words or point != "proofs"):
            for place in places:
                print("   ", place)


main()
