#!/usr/bin/env python3
"""Finds places of old forms in crates/*/src, for docs/DESIGN-PASS.md.

    python3 tools/design_places.py [POINT] [--root FOLDER]

Prints each place of a point (1 to 8; without one, of all), and how many there are.
Points 1, 3, 4, 6 and 7 are lines that a pattern finds; 2 and 5 compare the functions
of all crates with one another; 8 counts answers and lemmas.
"""
import argparse
import glob
import itertools
import os
import re

# pattern, what it finds
LINES = {
    1: [
        (r"^\s+(pub(\(crate\))? )?[a-z_]+: bool,", "a flag with values beside it, or in place of a kind"),
        (r"^\s+(Unknown|Unreadable|Pass|NoClaim),", "a variant in place of None or Err"),
        (r"Ok\((\(\)|_)\) => 0,|agree\((told == owed|number == )|Result<u8, |-> \(u8, |held_is_a_map\(\) -> u8|fn refusal\(.*-> u8", "a number in place of a refusal or of nothing"),
        (r"return Ok\((2|11|13)\)|^\s+Ok\(0\)$|^\s+(2|11|13) => course", "a refusal's number in place of the refusal"),
        (r"^\s+let (full|late) = random|\((2|1) \| 2|5 \| 6\)|WHOLE_REFRESH|ONE_PACKET: u8", "a number or a flag in place of a kind"),
        (r"(books|levels|depth|rows): 0,|^\s+(at|after|last|cost) (==|!=) 0|if (at|after|last|cost) == 0|while at != 0", "0 in place of None"),
    ],
    3: [
        (r"for \w+ in .*step_by|for \w+ in 0\.\.|for \w+ in 1\.\.|for [a-z]+ in [a-z]+\.\.=?[a-z]|for \(i, \w+\) in .*enumerate", "a loop that counts"),
        (r"^\s*while (?!let)|wrapping_(sub|add)\(1\)", "a while, or a place counted by hand"),
        (r"^\s*while let", "a while let"),
        (r"for (byte|held|packet|slot|point|sides|book) in", "a loop that searches, counts, or adds up"),
    ],
    4: [
        (r"fn (letter|read_side|read_reason|is_side|is_reason|kind_of|read_verb|read_digit|hex_digit|named|check|into_bytes|into_region|level_point|numerator)\b", "a conversion by hand"),
        (r"fn (is_word|same|same_levels|same_truth|same_side|copied)\b", "an equality or a copy by hand"),
        (r"fn ([a-z_]+_text|hex_text|shown|maybe_level|side_levels|digit_at)\b", "printing by hand"),
        (r"Err\((f|fault|_)\) => (return )?(Err\(OfferFault|None)|Ok\(\(\)\) => Ok\(\(\)\)|Err\(OfferFault::Channel\(", "a conversion of a fault by hand"),
        (r"Some\((\w+)\) => Some\(|^\s+None => None,", "a map of an Option by hand"),
        (r"channel: claim\.channel\(\)", "a struct out of another's fields"),
    ],
    6: [
        (r"^\s+(pub(\(crate\))? )?(len|used): usize,", "a length beside its buffer"),
        (r"used: usize|used: u16", "a count beside its rows"),
        (r"while low < high", "a search by halves by hand"),
        (r"^\s+(pub(\(crate\))? )?(buys|sells): &'?[a-z]? ?mut \[Level\]", "parallel tables"),
        (r"const POWERS|const PLACES", "a table of numbers that the library computes"),
        (r"fn (seek|walk_to|end_of|fill|copy)\(bytes", "chains of record numbers"),
    ],
    7: [
        (r"match (read_verb\(|self\.prices|kind \{|start \{|random\.below)", "a switch on which step to run"),
        (r"Points::(Full|Delta) \{ scale", "a switch on the kind of point"),
    ],
}


def sources(root):
    for path in sorted(glob.glob(os.path.join(root, "crates/*/src/*.rt"))):
        with open(path, encoding="utf8") as file:
            yield os.path.relpath(path, os.path.join(root, "crates")).replace("/src/", "/"), file.read()


def by_line(root, point):
    for name, text in sources(root):
        for number, line in enumerate(text.split("\n"), 1):
            code = line.split("//")[0]
            for pattern, what in LINES[point]:
                if re.search(pattern, code):
                    yield f"{name}:{number}", what, line.strip()
                    break


def functions(root):
    """Each function: where, its name, its parameters, its clauses, its text."""
    head = re.compile(r"^( *)(pub(\(crate\))? )?fn (\w+)", re.M)
    for name, text in sources(root):
        for match in head.finditer(text):
            indent = match.group(1)
            rest = text[match.start():]
            body = re.search(r"\{\n|\{\}\n|;\n", rest)
            has_body = body and body.group() != ";\n"
            end = re.search(rf"^{indent}\}}" if has_body and body.group() == "{\n" else r";\n|\{\}\n", rest, re.M)
            whole = rest[: end.end()] if end else rest
            where = f"{name}:{text.count(chr(10), 0, match.start()) + 1}"
            yield where, match.group(4), whole


TOKEN = re.compile(r"[A-Za-z_]\w*|\d[\w.]*|b?'(?:\\.|[^'])'|b?\"(?:\\.|[^\"])*\"|[^\s\w]")
KEPT = set("fn pub let mut match if else for while in return Some None Ok Err self Self impl as ref true false".split())


def shape(whole):
    """The code of a function with its names and numbers made alike, and without clauses and comments."""
    lines = [line for line in whole.split("\n") if not re.match(r"\s*(//|requires|ensures|\(λ)", line)]
    seen = {}
    out = []
    for token in TOKEN.findall("\n".join(lines)):
        if re.match(r"[A-Za-z_]", token) and token not in KEPT:
            token = seen.setdefault(token, f"n{len(seen)}")
        elif re.match(r"\d", token) or token[0] in "b'\"" and len(token) > 1 and token[-1] in "'\"":
            token = "0"
        out.append(token)
    return " ".join(out), len(out)


def twins(root):
    groups = {}
    for where, name, whole in functions(root):
        if "{}" in whole.replace(" ", "") and whole.count("\n") < 4:
            continue
        text, size = shape(whole)
        if size >= 24:
            groups.setdefault(text, []).append(f"{where} {name}")
    for members in groups.values():
        if len(members) > 1:
            yield members[0], f"{len(members)} of one shape", ", ".join(members)


def together(root):
    """Parameters that travel together, and facts that are required again and again, in one crate."""
    sets, facts = {}, {}
    for where, name, whole in functions(root):
        crate = where.split("/")[0]
        start = whole.index("(")
        depth, at = 0, start
        while True:
            depth += {"(": 1, ")": -1}.get(whole[at], 0)
            at += 1
            if depth == 0:
                break
        params = re.findall(r"(\w+): ([^,()]+(?:\([^)]*\))?[^,()]*)", whole[start + 1:at - 1])
        params = sorted({p for p, _ in params} - {"self"})
        for pair in itertools.combinations(params, 2):
            sets.setdefault((crate, pair), []).append(name)
        for clause in re.findall(r"requires[^{]*\{ (.*) \}", whole):
            for fact in re.split(r" × ", clause):
                fact = re.sub(r"\.(old|now|new|entry)\b", "", fact.strip("() "))
                facts.setdefault((crate, fact), []).append(name)
    grown = {}
    for (crate, pair), names in sets.items():
        if len(names) >= 3:
            grown.setdefault((crate, tuple(names)), set()).update(pair)
    for (crate, names), params in sorted(grown.items()):
        yield crate, "parameters together", f"({', '.join(sorted(params))}) in {', '.join(names)}"
    for (crate, fact), names in sorted(facts.items()):
        if len(names) >= 3:
            yield crate, "a fact required", f"{fact} in {', '.join(names)}"


def proofs(root):
    for folder in sorted(glob.glob(os.path.join(root, "crates/*"))):
        answers = lemmas = lines = 0
        for path in glob.glob(os.path.join(folder, "proofs/**/*.antt"), recursive=True):
            with open(path, encoding="utf8") as file:
                text = file.read()
            heads = len(re.findall(r"^(?:abbrev )?(?:pub )?[\w′'-]+ :", text, re.M))
            lines += text.count("\n")
            if path.endswith("Answers.antt"):
                answers += heads
            elif not path.endswith("Lib.antt") and not path.endswith("Invariants.antt"):
                lemmas += heads
        if lines:
            yield os.path.basename(folder), "proofs", f"{answers} answers, {lemmas} lemmas, {lines} lines"


def main():
    parser = argparse.ArgumentParser(description=__doc__, formatter_class=argparse.RawDescriptionHelpFormatter)
    parser.add_argument("point", nargs="?", type=int)
    parser.add_argument("--root", default=".")
    args = parser.parse_args()
    for point in [args.point] if args.point else range(1, 9):
        if point in LINES:
            found = list(by_line(args.root, point))
        else:
            found = list({2: twins, 5: together, 8: proofs}[point](args.root))
        print(f"point {point}: {len(found)}")
        for where, what, line in found:
            print(f"  {where}: {what}: {line}")


main()
