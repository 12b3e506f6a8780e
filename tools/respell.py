#!/usr/bin/env python3
"""Respells the repository's own definitions and lemmas: words joined by '_' instead of '-', types and modules in camel case.

Run at the top of the repository. Names of the toolchain (goals, fields that it makes, its library), functions of src/ and strings keep theirs.
A name that may fall together with another one of its file is printed, to be looked at; with --look nothing is written.
"""
import glob
import os
import re
import subprocess
import sys

WORD = r"[^\s(){}\[\].,;:·«»@\"`]+"
TOKEN = re.compile(r"(?<![\w-])([A-Za-z][\w']*(?:-[\w']+)+)(?![\w-])")


def respelled(name):
    if name[0].isupper():
        return "".join(part[:1].upper() + part[1:] for part in name.split("-"))
    return name.replace("-", "_")


def antt_files(pattern):
    return sorted(p for p in glob.glob(pattern, recursive=True) if "/out/" not in p)


specs = antt_files("crates/*/specs/**/*.antt")
lemmas = antt_files("crates/*/proofs/*.antt")
answers = [p for p in antt_files("crates/*/proofs/**/*.antt") if p not in lemmas]
sources = sorted(p for p in glob.glob("crates/*/src/**/*.rt", recursive=True))
edits = sorted(glob.glob("crates/*/must-fail/*.edit"))
text = {p: open(p).read() for p in specs + lemmas + answers + sources + edits}

# what is declared here: definitions, lemmas, records and their fields, ghost members, and modules
declared = set()
for p in specs + lemmas:
    for line in text[p].split("\n"):
        found = re.match(r"^\s*(?:(?:abbrev|unfoldable|inline|private|pub|record|data) )*(%s)\s*(.*)$" % WORD, line)
        if not found or line.lstrip().startswith(("--", "use ")):
            continue
        name, rest = found.groups()
        is_record = re.match(r"^\s*(pub )?(record|data) ", line)
        if is_record or rest.startswith(":"):
            declared.add(name)
    stem = os.path.basename(p)[: -len(".antt")]
    declared.add(stem)
for p in sources:
    declared.update(re.findall(r"\bghost ([\w'-]+)[:\s]", text[p]))
declared = {n for n in declared if "-" in n}

# what the library's modules lend to a file
LENT = re.compile(r"use (?!Rattle\.(?:%s)\.)[^\s{]+\{([^}]*)\}" % "|".join(sorted(os.listdir("crates"))))


def lent_to(body):
    names = set()
    for group in LENT.findall(body):
        for item in group.split(","):
            names.update(re.split(r"\s+as\s+", item.strip()))
    return names


def mapped(p):
    body = text[p]
    lent = lent_to(body)
    whole = p in specs or p in lemmas
    here = {}

    def one(found):
        name = found.group(1)
        before = body[: found.start()]
        after_dot = before.endswith(".")
        if name in lent and not after_dot:
            return name
        line = body[body.rfind("\n", 0, found.start()) + 1 : found.start()]
        comment = "--" if p.endswith(".antt") else "//"
        if line.count('"') % 2 == 1 or (comment in line and not before.endswith("`")):
            return name
        in_library = re.search(r"(?:Rattle\.std|borrow|denote|logic|mathlib)\.[\w.]*$", line) is not None
        if in_library:
            return name
        if name in declared or (whole and not after_dot):
            here[name] = respelled(name)
            return here[name]
        return name

    new = TOKEN.sub(one, body)
    present = set(re.findall(r"[A-Za-z][\w']*", body))
    for old, name in here.items():
        if name in present and p.endswith(".antt"):
            print(f"{p}: {old} falls together with {name}")
    return new


renamed = {p: mapped(p) for p in text}
if "--look" in sys.argv:
    print(len(declared), "names")
    sys.exit(0)
for p, body in renamed.items():
    if body != text[p]:
        open(p, "w").write(body)
for p in specs + lemmas:
    folder, base = os.path.split(p)
    stem = base[: -len(".antt")]
    if "-" in stem:
        subprocess.run(["git", "mv", p, os.path.join(folder, respelled(stem) + ".antt")], check=True)
