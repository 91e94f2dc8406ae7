#!/usr/bin/env python3
"""Spells this repository's own definitions and lemmas as the library does.

usage: python3 tools/respell.py [--list]      at the top of the repository, after the toolchain's port.py

Types (what ends in `Type 0`, records, data) are in upper camel case, all else in snake case. What the library or the toolchain
names, functions of src/, comments, strings, inputs and outputs stay. `--list` prints the table and changes nothing.
"""

import glob
import re
import sys

WORD = re.compile(r"[^\s(){}\[\],;.\"@∥|]+")
HEAD = re.compile(r"^(\s*)((?:(?:abbrev|unfoldable|pub|data|record|private|opaque|infix\w* \d+)\s+)*)([^\s(){}\[\],;.\"@:=|]+)(.*)$")
OWN = sorted(p.split("/")[1] for p in glob.glob("crates/*/"))
KEYWORDS = {"use", "mod", "module", "where", "let", "in", "elim", "abbrev", "pub", "data", "record", "ghost", "unfolding", "ruleset", "λ"}
# where the plain turning would meet a name that is there already, or read badly
SPECIAL = {
    "calls-in": "calls_in_lem",
    "goal-place": "place_of_goal",
    "fault-of": "fault_of_lem",
    "from-goal": "from_goal_lem",
    "from-kinds": "from_kinds_lem",
    "from-rules": "from_rules_lem",
    "kind-by": "kind_by_lem",
    "kind-of": "kind_of_lem",
    "list-made": "list_made_lem",
    "standing-of": "standing_of_lem",
    "rises-at": "rises_at_lem",
    "call-shows": "call_shows_lem",
    "sets-sound": "sets_sound_lem",
    "standing-loads": "standing_loads_lem",
    "strike-tells": "strike_tells_lem",
    "ruleOut": "rule_out_field",
    "planFault": "fault_in_plan",
    "fieldFault": "fault_in_field",
}
# lemmas that port.py spelled already, and whose definition gets that name: they are renamed in proofs/ and specs/ alone
LEMMAS = {"answer_at": "answer_at_lem", "rows_back": "rows_back_lem", "too_long": "too_long_lem", "ends_low": "ends_low_lem"}
# a lemma that shares its name with a field elsewhere
LOCAL = {"crates/reader/proofs/Numbers.antt": {"at-most": "at_most_lem"}}


def antt_files():
    return sorted(glob.glob("crates/*/specs/**/*.antt", recursive=True) + glob.glob("crates/*/proofs/**/*.antt", recursive=True))


def code_of(line, mark):
    """The line up to its comment, and the comment. A mark within a string is no comment."""
    i, quoted = 0, False
    while i < len(line):
        if line[i] == '"':
            quoted = not quoted
        elif not quoted and line.startswith(mark, i) and (mark != "--" or ((i == 0 or line[i - 1].isspace()) and line[i + 2 : i + 3] in ("", " ", "\n"))):
            return line[:i], line[i:]
        i += 1
    return line, ""


def declared(path):
    """(name, is a type, is a field) of each name that the file declares."""
    lines = [code_of(l.rstrip("\n"), "--")[0].rstrip() for l in open(path, encoding="utf-8")]
    found, inside = [], None
    for n, line in enumerate(lines):
        m = HEAD.match(line)
        if not m:
            continue
        indent, kind, name, rest = len(m.group(1)), m.group(2).split(), m.group(3), m.group(4)
        if inside is not None and line.strip() and indent <= inside:
            inside = None
        if name in KEYWORDS or name == "goal" or name.startswith("goal."):
            continue
        text = rest
        k = n + 1
        while k < len(lines) and lines[k].strip() and len(lines[k]) - len(lines[k].lstrip()) > indent and not re.search(r"\bwhere$", text):
            text += " " + lines[k].strip()
            k += 1
        bare, depth = "", 0
        for ch in text:
            depth += ch in "({["
            if depth == 0:
                bare += ch
            depth -= ch in ")}]"
        if not re.match(r"^\s*:(\s|$)", bare):
            continue
        if re.match(r"^\s*:\s*goal\.", text):
            continue
        is_type = "data" in kind or "record" in kind or re.search(r"\bType 0(\s+where)?\s*$", bare) is not None
        found.append((name, is_type, inside is not None))
        if "record" in kind or "data" in kind:
            inside = indent
    return found


def camel(name):
    return "".join(p[:1].upper() + p[1:] for p in re.split(r"[-_]", name))


def snake(name):
    parts = []
    for p in name.split("-"):
        if p[:1].isupper() or not re.search(r"[a-z]", p):
            parts.append(p)
        else:
            parts.append(re.sub(r"(?<=[a-z0-9])([A-Z])", lambda m: "_" + m.group(1).lower(), p))
    return "_".join(parts)


def table():
    names, fields = {}, set()
    for path in antt_files():
        for name, is_type, is_field in declared(path):
            names[name] = names.get(name, False) or (is_type and not is_field)
            if is_field:
                fields.add(name)
    turned = {}
    for name, is_type in sorted(names.items()):
        new = SPECIAL.get(name) or LEMMAS.get(name) or (camel(name) if is_type else snake(name))
        if new != name and re.match(r"^[\w'’-]+$", name):
            turned[name] = new
    return turned, fields


def library_names(text):
    """The names that a file imports from elsewhere than the repository's own crates."""
    found = set()
    for m in re.finditer(r"(?:^|\n)\s*(?:ghost |pub )*use\s+([^{;\n]*?)\.?\{([^}]*)\}", text):
        path = m.group(1).strip()
        parts = path.split(".")
        own = parts[0] in ("crate", "super") or (parts[0] == "Rattle" and len(parts) > 1 and parts[1] in OWN)
        if not own:
            for item in m.group(2).split(","):
                item = item.strip()
                found.add(item.split(" as ")[0].strip() if " as " in item else item)
    return found


def own_aliases(text):
    """The short names that a file gives to modules of the repository's own."""
    found = set()
    for m in re.finditer(r"(?:^|\n)\s*(?:pub )*use\s+(Rattle\.([a-z_0-9]+)\.[\w.]+?)(?:\s+as\s+([\w']+))?\s*(?=\n|$)", text):
        last = m.group(1).split(".")[-1]
        if m.group(2) in OWN and last not in ("Goals", "Given"):
            found.add(m.group(3) or last)
    return found


def respell_code(code, turned, fields, keep, aliases):
    out, at = [], 0
    for m in WORD.finditer(code):
        w = m.group(0)
        if w not in turned or w in keep:
            continue
        before = code[: m.start()]
        if before.count('"') % 2:
            continue
        if before.endswith("."):
            head = re.search(r"([\w.'∥-]+)\.$", before)
            path = head.group(1) if head else ""
            own = path in aliases or (path.startswith("Rattle.") and path.split(".")[1] in OWN)
            if not own and w not in fields:
                continue
        out.append(code[at : m.start()] + turned[w])
        at = m.end()
    return "".join(out) + code[at:]


def respell(path, turned, fields, mark):
    text = open(path, encoding="utf-8").read()
    keep = library_names(text)
    if mark == "//":
        keep |= set(LEMMAS)
    turned = {**turned, **LOCAL.get(path, {})}
    aliases = own_aliases(text)
    lines = []
    for line in text.split("\n"):
        code, comment = code_of(line, mark)
        lines.append(respell_code(code, turned, fields, keep, aliases) + comment)
    new = "\n".join(lines)
    if new != text:
        open(path, "w", encoding="utf-8").write(new)
        return 1
    return 0


def main():
    turned, fields = table()
    met = {}
    for a, b in turned.items():
        if b in met or b in turned and turned[b] == b:
            print("two names fall together: %s, %s -> %s" % (met.get(b, b), a, b))
        met[b] = a
    if "--list" in sys.argv:
        for a, b in turned.items():
            print(a, b, "field" if a in fields else "")
        return
    done = 0
    for path in antt_files():
        done += respell(path, turned, fields, "--")
    for path in sorted(glob.glob("crates/*/src/**/*.rt", recursive=True)):
        done += respell(path, turned, fields, "//")
    for path in sorted(glob.glob("crates/*/must-fail/*.edit")):
        done += respell(path, turned, fields, "//")
    print("respelled %d files, %d names" % (done, len(turned)))


main()
