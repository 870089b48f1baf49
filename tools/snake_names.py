#!/usr/bin/env python3
"""Respells the repository's own names in specs/ and proofs/: snake case for definitions, lemmas, fields and constructors, camel case for facts and types.

usage: python3 tools/snake_names.py          rewrites crates/*/{src,specs,proofs}, docs/ and README.md in place
       python3 tools/snake_names.py --list   prints the names only

It was run once, after the kit's own script. Goals that the checker names, names of the library and names of Rust items stay as they are.
"""
import os
import re
import sys

TOKEN = r"[^\s(){}\[\];:,.\"`λ]+"
DECLARED = re.compile(r"^\s*(?:(?:pub|abbrev|unfoldable|data|record)\s+)*(" + TOKEN + r"(?:\s+" + TOKEN + r")*)\s*(?:\([^)]*\)\s*|\{[^}]*\}\s*)*:(?=\s)")
LOCAL = re.compile(r"\blet (" + TOKEN + r")(?= [:=])")
KEYWORDS = {"pub", "abbrev", "unfoldable", "data", "record", "module", "where", "use", "let", "in", "mod", "unfolding", "open"}


def files(top, ends):
    for folder, dirs, names in os.walk(top):
        dirs[:] = sorted(d for d in dirs if d not in ("out", ".git"))
        for n in sorted(names):
            if n.endswith(ends):
                yield os.path.join(folder, n)


def read(p):
    with open(p, encoding="utf-8") as f:
        return f.read()


def code(line):
    return line.split("--")[0] if line.lstrip().startswith("--") else re.sub(r"\s--\s.*$", "", line)


def declared(text, answers):
    """The names that a file declares, without those of goals."""
    found, fields = set(), set()
    for line in text.splitlines():
        line = code(line)
        m = DECLARED.match(line)
        if m and not re.search(r":\s*goal\.", line):
            names = [n for n in m.group(1).split() if n not in KEYWORDS]
            found.update(names)
            if line.startswith(" ") or "record" in line:
                fields.update(names)
        found.update(LOCAL.findall(line))
        if re.match(r"\s*(?:pub |ghost )*use ", line):
            found.update(re.findall(r"\bas ([A-Za-z][\w'-]*)", line))
    return {n for n in found if odd(n)}, {n for n in fields if odd(n)}


def odd(name):
    plain = re.fullmatch(r"[A-Za-z][\w'-]*", name)
    return bool(plain) and ("-" in name or (name[0].isupper() and "_" in name))


def respelled(name):
    if re.match(r"[A-Z]-", name):
        name = name[0].lower() + name[1:]
    if name[0].isupper():
        return "".join(p[:1].upper() + p[1:] for p in re.split(r"[-_]", name))
    return name.replace("-", "_")


def main(argv):
    top = os.path.dirname(os.path.dirname(os.path.abspath(__file__)))
    crates = os.path.join(top, "crates")
    names, fields, all_tokens = set(), set(), set()
    for p in files(crates, (".antt",)):
        t = read(p)
        found, fs = declared(t, "/proofs/" in p)
        names |= found
        fields |= fs
    tokens = re.compile(r"[A-Za-z][\w'-]*")
    for p in files(crates, (".antt", ".rt")):
        all_tokens |= set(tokens.findall(read(p)))
    turned = {n: respelled(n) for n in names}
    together = {}
    for n, to in sorted(turned.items()):
        together.setdefault(to, []).append(n)
    for to, ns in sorted(together.items()):
        if len(ns) > 1 or to in all_tokens:
            print("together:", ", ".join(ns), "and", to, "(there already)" if to in all_tokens else "")
    if "--list" in argv:
        for n, to in sorted(turned.items()):
            print(n, to)
        return 0
    if not turned:
        print("nothing to respell")
        return 0
    word = re.compile(r"(?<![\w'-])(" + "|".join(sorted(map(re.escape, turned), key=len, reverse=True)) + r")(?![\w'-])")

    def turn(m):
        before = m.string[: m.start()]
        name = m.group(1)
        if before.endswith("."):
            # a step of a goal, as c.in-Some, keeps its name; so does what stands behind goal. or a step that is no field of ours
            if re.search(r"(?<![\w'-])(?:c|l|w|goal)\.$", before) or name not in fields and not re.search(r"(?:Rattle|specs|proofs|[A-Z]\w*|(?<![\w'-])[a-z]\w*)\.$", before):
                return name
        return turned[name]

    changed = 0
    for p in list(files(crates, (".antt", ".rt"))) + list(files(os.path.join(top, "docs"), (".md",))) + [os.path.join(top, "README.md")]:
        t = read(p)
        if p.endswith(".md"):
            new = re.sub(r"`[^`\n]*`", lambda m: word.sub(turn, m.group(0)), t)
        else:
            new = word.sub(turn, t)
        if new != t:
            changed += 1
            with open(p, "w", encoding="utf-8") as f:
                f.write(new)
    print(f"{len(turned)} names, {changed} files")
    return 0


if __name__ == "__main__":
    raise SystemExit(main(sys.argv[1:]))
