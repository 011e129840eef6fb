#!/usr/bin/env python3
"""Brings the names of this repository's own definitions and lemmas to one spelling: words in snake case, facts (types)
and modules in upper camel case. It reads crates/*/specs and crates/*/proofs for what is defined there, and then turns
each of these names wherever it is cited, in .antt files and in the clauses of .rt files. Strings, and the comments of
.rt files, stay as they are. Run it once, at the top of the repository; a second run changes nothing."""
import collections
import os
import re
import subprocess
import sys

# What would fall together with a field of the code, or reads better under another name.
CHOSEN = {
    "last-tick": "last_tick_at",
    "getD-falling": "get_or_falling",
    "getD-rising": "get_or_rising",
    "getD-padded": "get_or_padded",
    "getD-zeros": "get_or_zeros",
}
# Words of English that stand in comments with their hyphen.
PROSE = {"fan-out", "well-shaped", "in-range", "not-before"}
STRING = re.compile(r'("(?:[^"\\]|\\.)*")')
TOKEN = re.compile(r"[A-Za-z0-9_'ℕ\-]+")
DEFINED = re.compile(r"(?m)^(\s*)((?:(?:abbrev|unfoldable|pub|data|record) )*)([A-Za-z][\w'\-]*)((?:\s*(?:\([^()]*\)|\{[^{}]*\}))*)\s*:\s*(.*)$")


def files(root):
    for crate in sorted(os.listdir(os.path.join(root, "crates"))):
        for folder, dirs, names in os.walk(os.path.join(root, "crates", crate)):
            dirs[:] = sorted(d for d in dirs if d != "out")
            for name in sorted(names):
                if name.endswith((".antt", ".rt")):
                    yield crate, os.path.join(folder, name)


def turned(name):
    if name in CHOSEN:
        return CHOSEN[name]
    if name[0].isupper():
        return "".join(part[:1].upper() + part[1:] for part in name.split("-"))
    return name.replace("-", "_")


def own_names(texts):
    names = collections.defaultdict(set)
    for (crate, path), text in texts.items():
        if not path.endswith(".antt"):
            continue
        for m in DEFINED.finditer(text):
            if "-" in m[3] and not m[5].startswith("goal."):
                names[m[3]].add(crate)
    return names


def foreign(text):
    """The names that a file imports from elsewhere than this repository."""
    out = set()
    for m in re.finditer(r"\buse (Rattle\.(?:std|logic|core)\b[^{;\n]*|Prim[^{;\n]*|denote[^{;\n]*)\.\{([^}]*)\}", text):
        out |= {n.strip() for n in m[2].split(",")}
    return out


def turn(text, names, skip, comments):
    """Every token of `names` in its new spelling; comments keep the words of PROSE."""
    lines = []
    for line in text.split("\n"):
        at = line.find("--")
        body, note = (line, "") if at < 0 or line[at - 1 : at] not in ("", " ") else (line[:at], line[at:])
        body = "".join(p if p[:1] == '"' else TOKEN.sub(lambda m: turned(m[0]) if m[0] in names and m[0] not in skip else m[0], p) for p in STRING.split(body))
        if comments:
            note = TOKEN.sub(lambda m: turned(m[0]) if m[0] in names and m[0] not in skip | PROSE else m[0], note)
        lines.append(body + note)
    return "\n".join(lines)


def turn_code(text, names, skip):
    """A .rt file: neither its strings nor its comments are turned."""
    parts = re.split(r'(//[^\n]*|"(?:[^"\\]|\\.)*")', text)
    return "".join(p if p[:2] == "//" or p[:1] == '"' else TOKEN.sub(lambda m: turned(m[0]) if m[0] in names and m[0] not in skip else m[0], p) for p in parts)


def main():
    root = "."
    for crate in ("register", "rewriting"):
        old, new = f"crates/{crate}/specs/laws", f"crates/{crate}/specs/Laws"
        for end in (".antt", ""):
            if os.path.exists(old + end):
                subprocess.run(["git", "mv", old + end, new + end], check=True)
    texts = {(c, p): open(p, encoding="utf-8").read() for c, p in files(root)}
    names = own_names(texts)
    tokens = collections.defaultdict(set)
    for (crate, path), text in texts.items():
        tokens[crate] |= set(TOKEN.findall(re.sub(r'//[^\n]*|--[^\n]*|"(?:[^"\\]|\\.)*"', "", text)))
    for name, crates in sorted(names.items()):
        for crate in crates:
            if turned(name) in tokens[crate] - {name}:
                print(f"look: {crate}: {name} and {turned(name)}")
    for (crate, path), text in texts.items():
        skip = foreign(text)
        if path.endswith(".antt"):
            new = turn(text, names, skip, True)
        else:
            new = turn_code(text, names, skip)
        new = re.sub(r"\bspecs\.laws\b", "specs.Laws", new)
        new = re.sub(r"(?m)^(pub mod|mod) laws$", r"\1 Laws", new)
        if new != text:
            with open(path, "w", encoding="utf-8") as f:
                f.write(new)
    print(f"{len(names)} names turned")


if __name__ == "__main__":
    sys.exit(main())
