#!/usr/bin/env python3
"""Prints pairs of functions in crates/*/src whose code is nearly the same: candidates for one generic function.

    twins.py [COMMIT]      the files of that commit; without one, those in the folder

Names and numbers are left out of the comparison, so that two functions that differ in a type, a size or a constant are found. The gate does
not run it.
"""
import difflib
import glob
import re
import subprocess
import sys


def files(commit):
    if commit is None:
        for path in sorted(glob.glob("crates/*/src/**/*.rt", recursive=True)):
            with open(path) as file:
                yield path, file.read()
    else:
        listed = subprocess.run(["git", "ls-tree", "-r", "--name-only", commit, "crates"], capture_output=True, text=True, check=True)
        for path in listed.stdout.split():
            if "/src/" in path and path.endswith(".rt"):
                yield path, subprocess.run(["git", "show", f"{commit}:{path}"], capture_output=True, text=True, check=True).stdout


def functions(path, text):
    lines = [line for line in text.split("\n") if not line.strip().startswith("//")]
    for start, line in enumerate(lines):
        found = re.match(r"(\s*)(?:pub(?:\(crate\))? )?(?:const )?fn (\w+)", line)
        if not found:
            continue
        indent = found.group(1)
        end = start
        while end < len(lines) and lines[end] != indent + "}" and not (end == start and lines[end].endswith("{}")):
            end += 1
        code = [text for text in lines[start:end] if not re.match(r"\s*(requires|ensures)", text)]
        yield f"{path}:{found.group(2)}", shape("\n".join(code))


def shape(code):
    words = re.findall(r"\w+|[^\s\w]", code)
    kept = {"fn", "match", "for", "in", "if", "let", "return", "Ok", "Err", "Some", "None", "self", "mut", "else", "while"}
    return [word if word in kept or not re.match(r"\w", word) else "x" for word in words]


def main():
    found = [f for path, text in files(sys.argv[1] if len(sys.argv) > 1 else None) for f in functions(path, text)]
    found = [(name, code) for name, code in found if len(code) >= 40]
    for at, (name, code) in enumerate(found):
        for other, others in found[at + 1 :]:
            if min(len(code), len(others)) * 4 < max(len(code), len(others)) * 3:
                continue
            alike = difflib.SequenceMatcher(None, code, others, autojunk=False).ratio()
            if alike >= 0.85:
                print(f"{alike:.2f} {name} ~ {other}")


main()
