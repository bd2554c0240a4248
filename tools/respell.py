#!/usr/bin/env python3
"""Brings the names that this repository declares in specs/ and proofs/ to today's spelling, once, after the kit's port.py.

    python3 tools/respell.py        at the top of the repository

Functions, laws, fields and constructors are written in snake case; types and modules stay in camel case. A dash stays only where it joins two
names, as in `sets-append`. Functions of src/, exported names, strings and the words of comments stay; a name between backticks in a comment
or a page follows its definition. It stops before it writes anything where two names would fall together.
"""
import glob
import re
import sys

DECLARED = re.compile(r"^(\s*)((?:abbrev |unfoldable |pub |opaque )*)((?:[^\s:(){}=|]+ )*[^\s:(){}=|]+) :(?:\s|$)")
TOKEN = re.compile(r"(?<![\w'\-·◌])[A-Za-z_][\w'\-·]*")
# names that a dash may join, besides those of specs/
JOINED = {"length", "take", "drop", "set", "sets", "replicate", "get_or", "append", "nil", "cons", "T"}

# words of the kit's library that laws here would fall together with
LIBRARY = {"bit_and", "bit_or"}


def snake(name):
    return re.sub(r"(?<=[a-z0-9])[A-Z]|(?<=[A-Z])[A-Z](?=[a-z])", lambda m: "_" + m[0].lower(), name)


def antt_files():
    return sorted(glob.glob("crates/*/specs/**/*.antt", recursive=True) + glob.glob("crates/*/proofs/**/*.antt", recursive=True))


def is_law_file(path):
    # proofs/NAME.antt; a file of a function's own proof lies deeper
    return "/specs/" in path or path.count("/") == 3


def declared():
    names, in_specs = set(), set()
    for path in antt_files():
        if not is_law_file(path):
            continue
        for line in open(path, encoding="utf-8"):
            found = DECLARED.match(line)
            if found:
                for name in found[3].split():
                    if re.fullmatch(r"[a-z][\w'\-]*", name):
                        names.add(name)
                        if "/specs/" in path:
                            in_specs.add(name)
    return names, in_specs


def respelled(name, parts):
    name = snake(name)
    if "-" not in name:
        return name
    words = name.split("-")
    for cut in range(1, len(words)):
        left, right = "_".join(words[:cut]), "_".join(words[cut:])
        if left in parts and right in parts:
            return left + "-" + right
    return "_".join(words)


def turn_code(text, table, dotted):
    def put(found):
        name = found[0]
        if name not in table:
            return name
        # a field that Rattle names after the source is none of ours
        if not dotted and "-" in name and found.start() and text[found.start() - 1] == ".":
            return name
        return table[name]

    return TOKEN.sub(put, text)


def turn_ticks(text, table):
    return re.sub(r"`[^`\n]*`", lambda m: TOKEN.sub(lambda t: table.get(t[0], t[0]), m[0]), text)


def turn_line(line, mark, table, dotted):
    at = line.find(mark)
    if at < 0:
        return turn_code(line, table, dotted)
    return turn_code(line[:at], table, dotted) + turn_ticks(line[at:], table)


def main():
    names, in_specs = declared()
    parts = {snake(n) for n in in_specs} | JOINED
    table = {n: respelled(n, parts) for n in names}
    # a law that would have its function's name
    functions = {table[n] for n in names if n in in_specs or snake(n) != n}
    for name in names - in_specs:
        if snake(name) == name and table[name] in functions | LIBRARY:
            table[name] += "_lem"
    table = {old: new for old, new in table.items() if old != new}

    functions = set()
    for path in glob.glob("crates/*/src/**/*.rt", recursive=True):
        functions |= set(re.findall(r"\bfn (\w+)", open(path, encoding="utf-8").read()))
    fallen = {}
    for path in antt_files():
        seen = {}
        for line in open(path, encoding="utf-8"):
            for token in TOKEN.findall(line.split("--")[0]):
                seen.setdefault(table.get(token, token), set()).add(token)
        for new, olds in seen.items():
            # a function of src/ stands in a proof's paths and steps only
            if len({o for o in olds if o in names or o not in functions}) > 1:
                fallen.setdefault(new, set()).update(olds | {path})
    declared_new = {}
    for name in names:
        declared_new.setdefault(table.get(name, name), set()).add(name)
    for new, olds in declared_new.items():
        if len(olds) > 1:
            fallen.setdefault(new, set()).update(olds)
    if fallen:
        for new, olds in sorted(fallen.items()):
            print(f"{new}: {' '.join(sorted(olds))}", file=sys.stderr)
        sys.exit("respell: the names above would fall together")

    camel = {old: new for old, new in table.items() if "-" not in old}
    for path in antt_files():
        text = open(path, encoding="utf-8").read()
        new = "".join(turn_line(line, "--", table, is_law_file(path)) for line in text.splitlines(keepends=True))
        if new != text:
            open(path, "w", encoding="utf-8").write(new)
    for path in sorted(glob.glob("crates/*/src/**/*.rt", recursive=True)):
        text = open(path, encoding="utf-8").read()
        new = "".join(turn_line(line, "//", camel, True) for line in text.splitlines(keepends=True))
        if new != text:
            open(path, "w", encoding="utf-8").write(new)
    # port.py turned no edit and no page: the names that it respelled follow here
    def follow(token):
        return table.get(token, snake(token) if token not in names and snake(token) in names else token)

    for path in sorted(glob.glob("crates/*/must-fail/*.edit")):
        text = open(path, encoding="utf-8").read()
        new = TOKEN.sub(lambda t: follow(t[0]), text)
        # a projection is written tight
        new = re.sub(r"(?<=[\w)]) \.(?=[a-z])", ".", new)
        if new != text:
            open(path, "w", encoding="utf-8").write(new)
    for path in sorted(glob.glob("docs/**/*.md", recursive=True)) + ["README.md"]:
        text = open(path, encoding="utf-8").read()
        new = re.sub(r"`[^`\n]*`", lambda m: TOKEN.sub(lambda t: follow(t[0]), m[0]), text)
        if new != text:
            open(path, "w", encoding="utf-8").write(new)
    print(f"respell: {len(table)} names")


main()
