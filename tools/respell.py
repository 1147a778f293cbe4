#!/usr/bin/env python3
"""Respells this repository's own definitions, lemmas, fields, constructors and aliases: words in snake case.

Run once, at the top, after the toolchain's own script for older repositories. In a lemma's name a dash stays where it joins the
names of two definitions, as in `length-append`; elsewhere it becomes an underscore. Types and facts keep their capitals. Functions
of src/, exported C names, strings and inputs are not touched: in src/ only ghost lines and clauses are read.

    tools/respell.py            respells
    tools/respell.py --list     prints the names, old and new, and writes nothing
    tools/respell.py --clashes  prints where a new name already stands in a file, or where two names of a file fall together
"""
import glob
import os
import re
import sys

TOKEN = re.compile(r"[^\s(){}\[\],.;«»\"`]+")
SIGNATURE = re.compile(r"^\s*(?:(?:abbrev|unfoldable|pub)\s+)*([^\s(){}\[\],.;«»:=|-][^\s(){}\[\],.;«»:=|]*)\s+:\s")
ALIAS = re.compile(r" as ([a-z][\w-]*)")

# Where two names would fall together.
RENAMED_BY_HAND = {
    "sameFlag": "is_same_flag",
    "codePoint": "read_code_point",
    "is-single": "is_single_lem",
    "or-double": "or_double_lem",
    "lead-byte": "lead_byte_lem",
    "literal-size": "literal_size_lem",
}

# Words of the library that definitions are named after.
STD_WORDS = set(
    "length append drop take map reverse filter sum encode encodes get_or set slice_index slice_set all any min max".split()
)


def antt_files():
    return [f for f in glob.glob("crates/*/*/**/*.antt", recursive=True) if "/out/" not in f]


def is_spec(path):
    return "/specs/" in path


def is_goal(line):
    return re.search(r":\s+goal\.", line) is not None


def is_use(line):
    return re.match(r"\s*(ghost )?use ", line) is not None


def definitions(paths):
    names = set()
    for path in paths:
        for line in open(path):
            m = SIGNATURE.match(line)
            if m and not is_goal(line) and not line.lstrip().startswith("--"):
                names.add(m.group(1))
            if is_use(line):
                names.update(a for a in ALIAS.findall(line) if a != "goal")
    return names


def snake(part):
    if part[:1].isupper():
        return part
    part = re.sub(r"([a-z0-9])([A-Z])", r"\1_\2", part)
    part = re.sub(r"([A-Z]+)([A-Z][a-z])", r"\1_\2", part)
    return part.lower()


def respelled(name, words, is_lemma):
    parts = [snake(p) for p in name.replace("′", "'").split("-")]
    joins = is_lemma and len(parts) == 2 and all(p in words or p[:1].isupper() for p in parts)
    return ("-" if joins else "_").join(parts)


def renames():
    of_specs = definitions(filter(is_spec, antt_files()))
    words = {snake(n) for n in of_specs if "-" not in n} | STD_WORDS
    found = {}
    for name in sorted(definitions(antt_files())):
        new = RENAMED_BY_HAND.get(name, respelled(name, words, name not in of_specs))
        if new != name:
            found[name] = new
    return found


def respell_text(text, found):
    return TOKEN.sub(lambda m: found.get(m.group(0), m.group(0)), text)


def respell_antt(line, found):
    code, dashes, comment = line.partition("--")
    plain = {k: v for k, v in found.items() if "-" not in k}
    return respell_text(code, found) + dashes + respell_text(comment, plain)


def each_once(line):
    """A use line that names nothing twice."""
    return re.sub(r"\{([^{}]*)\}", lambda m: "{" + ", ".join(dict.fromkeys(m.group(1).split(", "))) + "}", line)


def respell_library(text, path):
    """What a file names of the library: All is the library's own word, and `leb` is `nat_le` in definitions."""
    words = {}
    if "AllByRecursion as All" in text:
        text = text.replace("AllByRecursion as All", "AllByRecursion")
        words["All"] = "AllByRecursion"
    if is_spec(path):
        words["leb"] = "nat_le"
    lines = [respell_antt(line, words) for line in text.splitlines(keepends=True)]
    return "".join(each_once(line) if is_use(line) else line for line in lines)


def is_ghost(line):
    return re.match(r"\s*(ghost|requires|ensures)\b", line) is not None


def respell_clause(line, found):
    line = respell_text(line, found)
    return each_once(line) if is_use(line) else line


def respell_page(line, found):
    return re.sub(r"`[^`]*`", lambda m: respell_text(m.group(0), found), line)


def clashes(found):
    for path in antt_files() + glob.glob("crates/*/src/**/*.rt", recursive=True):
        ghost = [line for line in open(path) if path.endswith(".antt") or is_ghost(line)]
        tokens = {t for line in ghost for t in TOKEN.findall(line.partition("--")[0])}
        came = {}
        for token in sorted(tokens):
            came.setdefault(found.get(token, token), []).append(token)
        for new, olds in came.items():
            if len(olds) > 1:
                print(path, new, olds)


def rewrite(path, turn):
    old = open(path).read()
    new = turn(old)
    if new != old:
        open(path, "w").write(new)
        print(os.path.relpath(path))


def by_lines(turn):
    return lambda text: "".join(turn(line) for line in text.splitlines(keepends=True))


def main():
    found = renames()
    if "--clashes" in sys.argv:
        return clashes(found)
    if "--list" in sys.argv:
        return print("\n".join(f"{old} {new}" for old, new in found.items()))
    for path in antt_files():
        rewrite(path, by_lines(lambda line: respell_antt(line, found)))
        rewrite(path, lambda text: respell_library(text, path))
    in_clauses = found | {"leb": "nat_le"}
    for path in glob.glob("crates/*/src/**/*.rt", recursive=True):
        rewrite(path, by_lines(lambda line: respell_clause(line, in_clauses) if is_ghost(line) else line))
    for path in ["README.md"] + glob.glob("docs/*.md"):
        rewrite(path, by_lines(lambda line: respell_page(line, found)))


main()
