#!/usr/bin/env python3
"""Counts, in the sources below ROOT/crates/*/src, the places that docs/DESIGN-PASS.md tells of.

usage: python3 tools/places.py [ROOT] [POINT..]

Each point is counted by a rule on the text of functions, types and clauses, and each place is printed with its file and
line. Tests are left out. The rules find candidates: the page says of each what became of it.
"""
import collections
import pathlib
import re
import sys

FN = re.compile(r"^(\s*)(?:pub(?:\(crate\))? )?(?:extern \"C\" )?fn (\w+)")
TYPE = re.compile(r"^(?:pub )?(struct|enum) (\w+)")


def sources(root):
    for path in sorted(pathlib.Path(root).glob("crates/*/src/*.rt")):
        if path.name == "tests.rt" or path.parts[-3] == "acceptance":
            continue
        yield path, path.read_text().split("\n")


def items(lines, pattern):
    """Each item that begins with the pattern: its match, first line and lines up to the closing brace at its depth."""
    for i, line in enumerate(lines):
        found = pattern.match(line)
        if not found or line.rstrip().endswith(";"):
            continue
        indent = len(line) - len(line.lstrip())
        j = i
        while j < len(lines) and lines[j].rstrip() not in (" " * indent + "}", " " * indent + "{}"):
            if "{" in lines[j] and lines[j].rstrip().endswith("}") and TYPE.match(line):
                break
            j += 1
        yield found, i + 1, lines[i : j + 1]


def body_of(lines):
    """The code of a function, without its clauses: from the line that is a brace alone, or that ends in one."""
    for k, line in enumerate(lines):
        text = line.strip()
        if text == "{" or text == "{}":
            return lines[k:]
        if text.endswith("{") and not text.startswith(("requires", "ensures")):
            return lines[k:]
    return lines


def sentinels(root):
    """1. A function whose result 0 or (0, 0) means that there is none."""
    mark = re.compile(r"^\s*(\(0, 0\)|0)$|return (0|\(0, 0\));|=> 0,|\{ 0 \}")
    for path, lines in sources(root):
        for found, at, text in items(lines, FN):
            if any(mark.search(line) for line in body_of(text)):
                yield path, at, "fn " + found[2]


def shaped(root):
    """1. An own enum with two variants of which one or both hold a value; a struct with a number for a kind; a switch on such a number."""
    for path, lines in sources(root):
        for found, at, text in items(lines, TYPE):
            inner = [line.strip() for line in text[1:-1] if line.strip() and not line.strip().startswith(("//", "#"))]
            if found[1] == "enum" and len(inner) == 2 and any("(" in line for line in inner):
                yield path, at, "enum " + found[2]
            if found[1] == "struct" and any(re.search(r"\bnumber: u", line) for line in inner):
                yield path, at, "struct " + found[2]
            if found[1] == "struct" and any("bool" in line for line in inner) and any("Vec<" in line for line in inner):
                yield path, at, "struct " + found[2] + " (a value and its flag)"
        for found, at, text in items(lines, FN):
            if re.search(r"\((number|code|kind): u(8|32|size)\b", " ".join(text[:3])):
                yield path, at, "fn " + found[2]


def shape(text):
    """The code with its names, numbers and layout left out."""
    code = " ".join(line.split("//")[0] for line in text)
    code = re.sub(r'b?"[^"]*"|b?\'[^\']*\'', "S", code)
    code = re.sub(r"\b\d\w*\b", "N", code)
    code = re.sub(r"\b(?!fn|match|if|else|return|for|in|while|let|mut|self|Ok|Err|Some|None)\w+\b", "x", code)
    return re.sub(r"\s+|,(?=\s*[)}\]])", "", code)


def twins(root):
    """2. Functions with bodies of one shape, of at least 24 signs, and functions of one name; types with fields of one shape."""
    bodies, names, fields = (collections.defaultdict(list) for _ in range(3))
    for path, lines in sources(root):
        trait_impl = False
        for found, at, text in items(lines, FN):
            body = body_of(text)
            if len(shape(body)) >= 24:
                bodies[shape(body)].append((path, at, found[2]))
            head = next((l for l in reversed(lines[: at - 1]) if l.startswith(("impl", "trait", "pub trait"))), "")
            inside_trait = found[1] and (" for " in head or "trait" in head)
            if not inside_trait and found[2] not in ("new", "main"):
                names[found[2]].append((path, at, found[2]))
        for found, at, text in items(lines, TYPE):
            fields[(found[1], shape([re.sub(r"///.*|//.*|ghost.*", "", l) for l in text[1:]]))].append((path, at, found[2]))
    for table, kind in ((bodies, "one shape"), (names, "one name"), (fields, "one type")):
        for group in table.values():
            if len(group) > 1:
                yield group[0][0], group[0][1], f"{kind}: " + ", ".join(f"{p.parts[-3]}::{p.stem}::{n}" for p, _, n in group)


def loops(root):
    """3. Loops that are told by hand: while, loop, and for over a range."""
    for path, lines in sources(root):
        for at, line in enumerate(lines, 1):
            if re.match(r"^\s*(while|loop)\b", line) or re.match(r"^\s*for .* in .*\.\.", line):
                yield path, at, line.strip()


def by_hand(root):
    """4. Functions that turn a value into another name of it, or compare, by a match or a chain of ifs alone."""
    turn = re.compile(r"_(byte|name|word|value)\b|^(keyword|words|refusal|is_text|same_\w+|is_ascii\w*|\w+_of|hex_\w+|is_\w+)$")
    for path, lines in sources(root):
        for found, at, text in items(lines, FN):
            body = [line.strip() for line in body_of(text)]
            if turn.search(found[2]) and any(line.startswith(("match ", "if ")) for line in body[:3]):
                yield path, at, "fn " + found[2]


def repeated(root):
    """5. A requires that stands in three contracts or more."""
    seen = collections.defaultdict(list)
    for path, lines in sources(root):
        for at, line in enumerate(lines, 1):
            found = re.match(r"requires (?:\w+ )?(\{.*)", line.strip())
            if found:
                seen[found[1]].append((path, at))
    for clause, places in seen.items():
        if len(places) >= 3:
            yield places[0][0], places[0][1], f"{len(places)} times: requires {clause}"


def beside(root):
    """6. Structs with an array or a lent buffer and a count beside it; results that are such a pair."""
    for path, lines in sources(root):
        for found, at, text in items(lines, TYPE):
            inner = " ".join(text[1:])
            if re.search(r"\[u8(; \w+)?\]", inner) and re.search(r": usize", inner):
                yield path, at, "struct " + found[2]
        for found, at, text in items(lines, FN):
            if re.search(r"-> \(\[", " ".join(text[:8])):
                yield path, at, "fn " + found[2]


def switches(root):
    """7. A parameter of an own enum that a function only switches on to run one step or another."""
    kinds = r"\b\w+: (Stop|RawKind|CallKind|NonAsciiEscape|RawStyle|Encoding|Form|Choice)\b"
    for path, lines in sources(root):
        for found, at, text in items(lines, FN):
            head = " ".join(text[: len(text) - len(body_of(text)) + 1])
            body = " ".join(body_of(text))
            named = re.search(kinds, head)
            if named and re.search(r"\bmatch (self|stop|kind|mode|encoding|form|choice)\b|style\.\w+", body):
                yield path, at, f"fn {found[2]} ({named[1]})"


POINTS = {"1": (sentinels, shaped), "2": (twins,), "3": (loops,), "4": (by_hand,), "5": (repeated,), "6": (beside,), "7": (switches,)}


def main():
    arguments = sys.argv[1:]
    root = arguments.pop(0) if arguments and not arguments[0].isdigit() else "."
    for point in arguments or POINTS:
        found = [place for rule in POINTS[point] for place in rule(root)]
        print(f"point {point}: {len(found)} places")
        for path, at, what in found:
            print(f"  {path.relative_to(root)}:{at}: {what}")


main()
