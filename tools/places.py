#!/usr/bin/env python3
"""Lists the places in src/ that an older design leaves, by the points of docs/DESIGN-PASS.md.

usage: python3 tools/places.py [FOLDER] [POINT]

FOLDER is the top of a checkout (here without one). With a POINT (1 to 8) each place is printed, and
without one how many there are of each kind. It goes by text: what it finds is a place to judge, and
the page says of each what became of it.
"""

import glob
import os
import re
import sys
from collections import defaultdict

KEYWORDS = set("""as break const continue crate else enum extern false fn for if impl in let loop match mod
move mut pub ref return self Self struct super trait true type use where while dyn""".split())


def sources(top):
    for path in sorted(glob.glob(os.path.join(top, "crates/*/src/**/*.rt"), recursive=True)):
        with open(path, encoding="utf-8") as f:
            text = f.read()
        # comments go, the lines stay
        yield os.path.relpath(path, top), re.sub(r"//[^\n]*", "", text)


def line_of(text, place):
    return text.count("\n", 0, place) + 1


def found(top, pattern):
    for path, text in sources(top):
        for m in re.finditer(pattern, text, re.M):
            yield f"{path}:{line_of(text, m.start())}", " ".join(m.group(0).split())


def block(text, at):
    """The text from the brace at `at` to the one that closes it."""
    depth = 0
    for i in range(at, len(text)):
        depth += {"{": 1, "}": -1}.get(text[i], 0)
        if depth == 0:
            return text[at : i + 1]
    return text[at:]


HEAD = re.compile(r"^[ \t]*(?:pub(?:\(crate\))? )?(?:extern \"C\" )?fn (\w+)", re.M)


def functions(top):
    """Each function: where it is, its name, its head with the clauses, and its body."""
    for path, text in sources(top):
        heads = list(HEAD.finditer(text))
        for m, after in zip(heads, heads[1:] + [None]):
            part = text[m.start() : after.start() if after else len(text)]
            # clauses have braces of their own; the body is the first block at the start of a line or
            # after the result's type
            body = re.search(r"^[ \t]*\{[ \t]*$", part, re.M) or re.search(r"\{[ \t]*$", part, re.M)
            semicolon = part.find(";")
            if not body or (0 <= semicolon < body.start() and "ensures" not in part[:semicolon] and "[" not in part[:semicolon]):
                continue
            start = part.index("{", body.start())
            yield f"{path}:{line_of(text, m.start())}", m.group(1), part[:start], block(part, start)


def shape(code):
    """The code with names, numbers and types taken out of it."""
    tokens = re.findall(r"[A-Za-z_]\w*!?|\d\w*|'[^']*'|\"[^\"]*\"|\S", code)
    return " ".join(t if t in KEYWORDS or not re.match(r"[\w'\"]", t) else "x" for t in tokens)


def twins(top):
    shapes = defaultdict(list)
    for where, name, head, body in functions(top):
        if "#[test]" in head or len(shape(body).split()) < 6:
            continue
        params = re.search(r"\(.*?\)(?: -> [^{\n]*)?", head, re.S)
        shapes[shape(body)].append((where, name, shape(params.group(0)) if params else ""))
    for group in shapes.values():
        if len(group) > 1:
            for where, name, _ in group:
                yield where, f"fn {name}: like " + ", ".join(n for w, n, _ in group if w != where)


def unit_structs(top):
    yield from found(top, r"^[ \t]*(?:pub(?:\(crate\))? )?struct \w+;")


def repeated_facts(top):
    """A conjunct of a `requires` that stands in the contracts of three functions of a crate."""
    seen = defaultdict(set)
    for where, name, head, body in functions(top):
        for clause in re.findall(r"requires (?:\w+ )?\{(.*)\}[ \t]*$", head, re.M):
            for fact in clause.split("×"):
                seen[(where.split("/")[1], fact.strip(" ()"))].add(f"{where} {name}")
    for (crate, fact), places in sorted(seen.items()):
        if len(places) >= 3:
            for place in sorted(places):
                yield place, f"requires {fact}"


def travelling(top):
    """Two parameters or more, with names and types, that stand together in three functions of a crate."""
    groups = defaultdict(set)
    for where, name, head, body in functions(top):
        if "#[test]" in head or "rt: HostRuntime" in head:
            continue
        params = re.search(r"\((.*?)\)\s*(?:->|where|requires|ensures|\{|$)", head, re.S)
        if not params:
            continue
        pairs = [p.strip() for p in re.split(r",(?![^<(\[]*[>)\]])", params.group(1)) if ":" in p]
        pairs = [" ".join(p.split()) for p in pairs]
        for i in range(len(pairs)):
            for j in range(i + 1, len(pairs)):
                groups[(where.split("/")[1], pairs[i], pairs[j])].add(f"{where} {name}")
    for (crate, a, b), places in sorted(groups.items()):
        if len(places) >= 3:
            yield f"crates/{crate}/src", f"({a}, {b}) in {len(places)} functions"


def dispatches(top):
    """A `match` of which three arms or more call a function of the same shape."""
    for path, text in sources(top):
        for m in re.finditer(r"\bmatch [^\n{]*\{", text):
            arms = re.findall(r"=>\s*([\w:.]+)(?:::<[^(]*>)?\(", block(text, m.end() - 1))
            arms = [a for a in arms if not re.match(r"(Some|Ok|Err)$", a) and "write" not in a]
            if len(arms) >= 3:
                yield f"{path}:{line_of(text, m.start())}", m.group(0) + f" {len(arms)} arms call a function"


POINTS = {
    1: [
        ("enums of our own", lambda top: found(top, r"^[ \t]*(?:pub(?:\(crate\))? )?enum \w+")),
        ("flags in a struct", lambda top: found(top, r"^[ \t]*(?:pub(?:\(crate\))? )?\w+: bool,$")),
        ("numbers for kinds", lambda top: found(top, r"fn (?:from_)?number\b[^\n]*|kind: u8|Result<[^>\n]*, u\d+>")),
        ("a value that stands for none", lambda top: found(top, r"(?:is_err\(\)|is_none\(\)) \{\s*return (?:first|0|\w+);|=> 0,|return i;")),
    ],
    2: [
        ("functions of one shape", twins),
        ("types that are only a name", unit_structs),
    ],
    3: [
        ("while and loop", lambda top: found(top, r"^[ \t]*(?:while|loop)\b[^\n]*")),
        ("for over a range of numbers", lambda top: found(top, r"^[ \t]*for \w+ in [^\n]*\.\.[^\n]*")),
        ("for with a count beside", lambda top: found(top, r"^[ \t]*for \([^\n]*enumerate[^\n]*")),
        ("an index or address counted on", lambda top: found(top, r"^[ \t]*\w+ (?:\+= |= \w+\.(?:saturating|wrapping)_add)[^\n]*")),
    ],
    4: [
        ("conversions by a function", lambda top: found(top, r"fn (?:number|from_number|from_\w+|to_\w+|of|locate|truth|char_\w+)\b[^\n]*")),
        ("names and texts by a function", lambda top: found(top, r"fn \w+_(?:name|text)\b[^\n]*|fn show\b[^\n]*|fn hex\w*\b[^\n]*")),
        ("comparisons by a function", lambda top: found(top, r"fn (?:same_\w+|has_line|is_blank|eq|cmp)\b[^\n]*")),
        ("types without a derived equality", lambda top: (
            (where, what) for where, what in found(top, r"(?:#\[derive\([^\]]*\)\]\s*)?(?:pub(?:\(crate\))? )?(?:struct|enum) \w+")
            if "PartialEq" not in what and "tests/" not in where)),
    ],
    5: [
        ("a fact in three contracts", repeated_facts),
        ("parameters that travel together", travelling),
    ],
    6: [
        ("a buffer made full of zeros", lambda top: found(top, r"(?:vec!\[[^\]]*; [^\]]*\]|= \[0u?8?; 128\];)")),
        ("a length or place kept beside", lambda top: found(top, r"^[ \t]*(?:pub(?:\(crate\))? )?(?:used|len|count|at|lines): \w+,|let mut count = 0;")),
        ("parts cut by hand", lambda top: found(top, r"fn (?:front|there|put)\b[^\n]*")),
    ],
    7: [
        ("a match that picks a function", dispatches),
        ("function pointers and tables", lambda top: found(top, r"(?<!\")\bfn\(|&dyn |Box<dyn ")),
    ],
}


def proofs(top):
    for crate in sorted(os.listdir(os.path.join(top, "crates"))):
        paths = glob.glob(os.path.join(top, "crates", crate, "proofs/**/*.antt"), recursive=True)
        if paths:
            lines = sum(sum(1 for _ in open(p, encoding="utf-8")) for p in paths)
            answers = sum(p.endswith(("Answers.antt", "Invariants.antt")) for p in paths)
            yield f"crates/{crate}/proofs", f"{answers} files of answers and invariants, {lines} lines in all"


def main():
    args = sys.argv[1:]
    point = int(args.pop()) if args and args[-1].isdigit() else None
    top = args[0] if args else "."
    for number, kinds in POINTS.items():
        if point not in (None, number):
            continue
        for kind, places in kinds:
            places = list(places(top))
            print(f"{number}  {kind}: {len(places)}")
            if point:
                for where, what in places:
                    print(f"     {where}  {what}")
    if point in (None, 8):
        print("8  proofs")
        for where, what in proofs(top):
            print(f"     {where}: {what}")


if __name__ == "__main__":
    main()
