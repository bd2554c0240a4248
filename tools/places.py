#!/usr/bin/env python3
"""Counts the places in src/ that an older language left: `tools/places.py [TOP]` prints each with its file, and a line of counts for each point.

The points are those of docs/DESIGN-PASS.md. It reads text, so it finds candidates: the page says of each that still stands why it stands.
"""
import difflib
import itertools
import re
import sys
from pathlib import Path

WORD = re.compile(r"[A-Za-z_][A-Za-z_0-9]*|\d\w*|\S")
KEYWORDS = set("let mut while if else return match loop for in fn pub const struct enum impl as break true false use mod".split())
SLICE = re.compile(r"^&(?:'\w+ )?(?:mut )?\[")


def clean(text):
    """Without comments, brackets in literals and ghost lines."""
    lines = [re.sub(r"//.*", "", re.sub(r"b'[][(){}]'", "b'x'", line)) for line in text.split("\n")]
    return "\n".join(line for line in lines if not line.lstrip().startswith("ghost use"))


def block(text, start):
    """The end of the block that opens at or after `start`."""
    depth, i = 0, text.index("{", start)
    while True:
        depth += {"{": 1, "}": -1}.get(text[i], 0)
        i += 1
        if depth == 0:
            return i


def functions(text):
    """Name, parameters, clauses and body of each function."""
    for m in re.finditer(r"\bfn (\w+)", text):
        i = text.index("(", m.end())
        depth, j = 0, i
        while True:
            depth += {"(": 1, ")": -1}.get(text[j], 0)
            j += 1
            if depth == 0:
                break
        params = [p.strip() for p in re.split(r",(?![^<(\[]*[>)\]])", text[i + 1:j - 1]) if p.strip()]
        clauses, at = [], j
        while c := re.match(r"[^{;]*?\b(requires|ensures)\b[^{]*", text[at:]):
            end = block(text, at + c.end() - 1)
            clauses.append((c[1], text[at + c.end() + 1:end - 1].strip()))
            at = end
        if text.find("{", at) < 0 or ";" in text[at:text.find("{", at)]:
            continue
        yield m[1], params, clauses, text[text.index("{", at):block(text, at)]


def shape(body):
    """The words of a body, with every name of its own made one."""
    return [w if w in KEYWORDS or not w[0].isalnum() else "x" for w in WORD.findall(body)]


def parts(clause):
    """The facts that a clause joins."""
    facts, depth, last = [], 0, 0
    for i, c in enumerate(clause + "×"):
        depth += {"(": 1, ")": -1}.get(c, 0)
        if c == "×" and depth == 0:
            facts.append(re.sub(r"\s+", " ", clause[last:i].strip().removeprefix("(").removesuffix(")")))
            last = i + 1
    return facts


def own_enums(where, text):
    for m in re.finditer(r"((?:#\[[^\n]*\]\n)*)(?:pub )?enum (\w+)", text):
        variants = text[text.index("{", m.end()):block(text, m.end())]
        if "(" in variants:
            yield 1, f"{where}: enum {m[2]} holds values"
        if "PartialEq" not in m[1]:
            yield 1, f"{where}: enum {m[2]} derives no equality"


def numbers(where, text):
    for m in re.finditer(r"^(?:pub )?const (\w+): (u8|u64|usize) = [\w:]+;", text, re.M):
        if re.match(r"(TEXT_(LONG|BYTE)|OPERAND_|CLOSE_UN|OPEN_(UN|DEEP)|\w+_MANY|SHEET_|REPEAT_|WAITING_(FEW|END)|LEAVES_|NAME_LONG|MAPPING_SH|WORK_SH|NO_R|DONE|NO$|\w+_NODE|OVER|LOST)", m[1]):
            yield 1, f"{where}: {m[1]} is a number for a kind"
    for m in re.finditer(r"\b(?:number\(answer\)|r|checked|kind) (?:==|!=|<) (?:\d|b')", text):
        yield 1, f"{where}: compares the number of a kind: {m[0]}"
    for m in re.finditer(r"\.0 == 0\b", text):
        yield 1, f"{where}: 0 may stand for none: {m[0]}"


def loops(where, name, body):
    for m in re.finditer(r"\bwhile ([^{]*)\{", body):
        inside = body[m.end():block(body, m.end() - 1)]
        for step in re.finditer(r"\b(\w+) (?:\+|-)= \w+;|\b(\w+) = (?:\w+|\2 [+-] 1);", inside):
            counter = step[1] or step[2]
            if re.search(rf"\b{counter}\b", m[1]):
                yield 3, f"{where}: {name} counts {counter} by hand"
                break


def by_hand(where, name, params, body):
    if re.fullmatch(r"\{\s*(?:\w+|\(\w+ [%&] \w+\)|u64::\w+\(\w+\)) as \w+\s*\}", body):
        yield 4, f"{where}: {name} converts by hand"
    if re.search(r"=> rules::[A-Z_]+,", body):
        yield 4, f"{where}: {name} gives numbers by hand"
    if re.search(r"b'0' <=|< b'0'|- b'0'", body):
        yield 4, f"{where}: {name} reads a digit by hand"


def beside(where, name, params, body):
    types = [(p.split(":")[0], p.split(":", 1)[1].strip()) for p in params if ":" in p]
    for (a, s), (b, t) in itertools.pairwise(types):
        if SLICE.match(s) and t == "usize" and b in ("n", "l", "m", "size", "k", "j", "at", "i", "count"):
            yield 6, f"{where}: {name} takes {b} beside {a}"
    slices = [a for a, s in types if re.match(r"&(?:mut )?\[u64\]", s)]
    if len(slices) > 1:
        yield 6, f"{where}: {name} takes parallel arrays {', '.join(slices)}"


def twins(all_functions):
    """Groups of functions whose bodies differ in names, numbers and little else."""
    groups = []
    for (w, a, x), (v, b, y) in itertools.combinations(all_functions, 2):
        if min(len(x), len(y)) > 22 and difflib.SequenceMatcher(None, x, y, False).ratio() > 0.87:
            both = {f"{w} {a}", f"{v} {b}"}
            joined = [g for g in groups if g & both]
            groups = [g for g in groups if not g & both] + [both.union(*joined)]
    return [sorted(g) for g in groups]


def main(top):
    found, all_functions, facts, groups = [], [], {}, {}
    for path in sorted(Path(top).glob("crates/*/src/*.rt")):
        text = clean(path.read_text())
        where = str(path.relative_to(Path(top) / "crates")).replace("/src/", "/")
        crate = where.split("/")[0]
        found += [*own_enums(where, text), *numbers(where, text)]
        for name, params, clauses, body in functions(text):
            all_functions.append((where, name, shape(body)))
            found += [*loops(where, name, body), *by_hand(where, name, params, body), *beside(where, name, params, body)]
            for fact in {f for kind, c in clauses if kind == "requires" for f in parts(c)}:
                facts.setdefault((crate, fact), []).append(name)
            for group in itertools.combinations([p for p in params if ":" in p], 3):
                groups.setdefault((crate, group), []).append(name)
            if re.search(r"\bkind ==", body):
                found.append((7, f"{where}: {name} switches on which step"))
    found += [(2, "alike: " + ", ".join(group)) for group in twins(all_functions)]
    found += [(5, f"{crate}: {len(names)} functions require {fact}") for (crate, fact), names in facts.items() if len(names) > 2]
    together = {}
    for (crate, group), names in groups.items():
        if len(names) > 2:
            together.setdefault((crate, tuple(names)), set()).update(group)
    found += [(5, f"{crate}: {', '.join(names)} take {'; '.join(sorted(g))}") for (crate, names), g in together.items()]
    for point, line in sorted(set(found)):
        print(f"{point}  {line}")
    print("\n".join(f"point {p}: {sum(1 for q, _ in set(found) if q == p)}" for p in (1, 2, 3, 4, 5, 6, 7)))


main(sys.argv[1] if len(sys.argv) > 1 else Path(__file__).resolve().parent.parent)
