#!/usr/bin/env python3
"""Lists places in crates/*/src that newer forms of the language may replace, a point for each form.

usage: tools/places.py [POINT..]     all points where none is named, run at the top of the repository

Points:
  1  enums of two cases of which one holds a value, functions that change something and answer a bool, numbers for kinds
     and refusals
  2  functions whose bodies are the same but for names and literals (shape of at least 12 tokens)
  3  loops over a range from 0, while loops, loop, and counters raised by one in a function with a loop
  4  functions that compare, name, read a name or number a value by hand
  5  clauses that stand in three or more functions, and three or more parameters that three or more functions share
  6  structs with an array or a Vec beside a length, a count or a place in it
  7  dyn, function pointers, and matches on a phase or a kind of log that pick what runs
  8  declarations and lines in proofs, for each crate

It finds candidates; which of them are places, docs/DESIGN-PASS.md says.
"""
import glob
import os
import re
import sys
from collections import defaultdict

TOKEN = re.compile(r"'[a-z_]\w*|[A-Za-z_]\w*|\d[\w.]*|\"(?:[^\"\\]|\\.)*\"|b?'(?:[^'\\]|\\.)'|::|->|=>|==|!=|<=|>=|&&|\|\||\.\.=?|\+=|-=|[^\s]")
KEYWORDS = {
    "let", "mut", "for", "in", "if", "else", "match", "return", "loop", "while", "break", "continue", "fn", "self", "Self",
    "Some", "None", "Ok", "Err", "true", "false", "as", "ref", "move", "pub", "crate", "where",
}


def stripped(text):
    text = re.sub(r"^\s*//.*$", "", text, flags=re.M)
    return re.sub(r"(?<!:)//[^\n\"]*$", "", text, flags=re.M)


def close_of(text, at):
    """The place after the brace that closes the one at `at`."""
    depth = 0
    while at < len(text):
        if text[at] == '"':
            at = re.compile(r'"(?:[^"\\]|\\.)*"').match(text, at).end()
            continue
        if text[at] == "{":
            depth += 1
        elif text[at] == "}":
            depth -= 1
            if depth == 0:
                return at + 1
        at += 1
    return at


class Function:
    def __init__(self, path, line, name, head, clauses, body):
        self.path, self.line, self.name = path, line, name
        self.head, self.clauses, self.body = head, clauses, body

    def where(self):
        return f"{self.path}:{self.line} {self.name}"


def functions(path, text):
    for found in re.finditer(r"\bfn (\w+)", text):
        if re.search(r"ghost [^\n]*$", text[: found.start()].split("\n")[-1]):
            continue
        at, depth, clauses = found.end(), 0, []
        head_end = None
        while at < len(text):
            c = text[at]
            if c in "([":
                depth += 1
            elif c in ")]":
                depth -= 1
            elif depth == 0 and c == ";":
                head_end = head_end or at
                yield Function(path, line_of(text, found), found[1], text[found.start():head_end], clauses, "")
                break
            elif depth == 0 and c == "{":
                clause = re.search(r"\b(requires|ensures)\s*(\w*)\s*$", text[:at])
                end = close_of(text, at)
                if clause and clause.start() > found.end():
                    head_end = head_end or clause.start()
                    clauses.append((clause[1], clause[2], " ".join(text[at + 1:end - 1].split())))
                    at = end
                    continue
                head_end = head_end or at
                yield Function(path, line_of(text, found), found[1], text[found.start():head_end], clauses, text[at + 1:end - 1])
                break
            at += 1


def line_of(text, found):
    return text.count("\n", 0, found.start()) + 1


def sources():
    for path in sorted(glob.glob("crates/*/src/**/*.rt", recursive=True)):
        yield path, stripped(open(path, encoding="utf-8").read())


def all_functions():
    return [f for path, text in sources() for f in functions(path, text)]


def without_body(f):
    return " ".join(f.head.split())


def point_1():
    for path, text in sources():
        for found in re.finditer(r"\benum (\w+)[^{;]*\{", text):
            inner = text[found.end():close_of(text, found.end() - 1) - 1]
            cases = re.findall(r"^\s*(\w+)\s*(\([^)]*\)|\{[^}]*\})?,", inner, flags=re.M)
            if len(cases) == 2 and any(held for _, held in cases):
                yield f"{path}:{line_of(text, found)} enum {found[1]}"
    for f in all_functions():
        head = without_body(f)
        if "&mut" in head and head.rstrip().endswith("-> bool"):
            yield f"{f.where()}: changes and answers a bool"
        if f.name in ("number", "from_number") or re.search(r"\b(kind|number): u8\b", head):
            yield f"{f.where()}: a number for a kind or a refusal"


def shape(body):
    out = []
    for token in TOKEN.findall(body):
        if token in KEYWORDS:
            out.append(token)
        elif re.match(r"\d|\"|b?'.'", token):
            out.append("0")
        elif re.match(r"[A-Za-z_]", token):
            out.append("x")
        else:
            out.append(token)
    return tuple(out)


def point_2():
    groups = defaultdict(list)
    for f in all_functions():
        tokens = shape(f.body)
        if len(tokens) >= 12:
            groups[tokens].append(f)
    for tokens, group in sorted(groups.items(), key=lambda pair: -len(pair[0])):
        if len(group) > 1:
            yield f"{len(tokens)} tokens: " + "; ".join(f.where() for f in group)


def point_3():
    for f in all_functions():
        for found in re.finditer(r"for \w+ in 0\.\.[^{]*|\bwhile\b[^{]*|\bloop\b\s*", f.body):
            yield f"{f.where()}: {' '.join(found[0].split())}"
        if re.search(r"\b(for|while|loop)\b", f.body):
            counters = re.findall(r"\b([\w.]+) (?:\+= 1;|= \1\.saturating_add\(1\);)", f.body)
            for counter in counters:
                yield f"{f.where()}: counts {counter}"


def point_4():
    for f in all_functions():
        head = without_body(f)
        if f.name == "fmt":
            continue
        if re.match(r"(same_|compare_labels|compare$|rank|number$|from_number|number8|number32|signed32)", f.name):
            yield f.where()
        elif re.search(r"-> &'static str$", head) or re.search(r"\(\w+: &str\) -> Option<", head):
            yield f.where()


def point_5():
    clauses = defaultdict(set)
    for f in all_functions():
        for kind, _, text in f.clauses:
            if len(text) >= 24:
                clauses[kind + " " + text].add(f.where())
    for text, places in sorted(clauses.items(), key=lambda pair: -len(pair[1])):
        if len(places) >= 3:
            yield f"{len(places)} functions: {text}"
    groups = defaultdict(set)
    parsed = []
    for f in all_functions():
        inside = re.search(r"\((.*)\)", without_body(f))
        names = frozenset(re.findall(r"\b(\w+): ", inside[1])) if inside else frozenset()
        parsed.append((f, names))
    for f, names in parsed:
        for g, others in parsed:
            shared = names & others
            if f is not g and len(shared) >= 3:
                groups[shared].add(f.where())
                groups[shared].add(g.where())
    shown = set()
    for shared, places in sorted(groups.items(), key=lambda pair: (-len(pair[0]), -len(pair[1]))):
        if len(places) >= 3 and not any(shared < other for other in shown):
            shown.add(shared)
            yield f"{len(places)} functions share {', '.join(sorted(shared))}"


def point_6():
    for path, text in sources():
        for found in re.finditer(r"\bstruct (\w+)[^{;(]*\{", text):
            inner = text[found.end():close_of(text, found.end() - 1) - 1]
            fields = re.findall(r"^\s*(?:pub(?:\(crate\))? )?(\w+): ([^\n]*),$", inner, flags=re.M)
            holds = any(re.match(r"\[.*; .*\]|Vec<", kind) for _, kind in fields)
            counted = [name for name, kind in fields if kind in ("usize", "u32") and name not in ("moment",)]
            if holds and counted:
                yield f"{path}:{line_of(text, found)} struct {found[1]} beside {', '.join(counted)}"
            if {"first", "second"} <= {name for name, _ in fields}:
                if any(kind == "usize" for _, kind in fields):
                    yield f"{path}:{line_of(text, found)} struct {found[1]}: a place for each, and a count"


def point_7():
    for path, text in sources():
        for found in re.finditer(r"\bdyn \w+|\bfn\(|match [^\n{]*(told_kind|phase\b)[^\n{]*", text):
            yield f"{path}:{line_of(text, found)} {' '.join(found[0].split())}"
        for found in re.finditer(r"impl (?:\w+::)*Filter for Wanted", text):
            yield f"{path}:{line_of(text, found)} an enum of filters, each asked by its case"


def point_8():
    for crate in sorted(os.listdir("crates")):
        declared = lines = 0
        for path in glob.glob(f"crates/{crate}/proofs/**/*.antt", recursive=True):
            text = open(path, encoding="utf-8").read()
            lines += text.count("\n")
            declared += len(re.findall(r"^(?:abbrev )?(?:pub )?[^\s:=]+ : ", text, flags=re.M))
        yield f"{crate}: {declared} declarations, {lines} lines"


POINTS = {"1": point_1, "2": point_2, "3": point_3, "4": point_4, "5": point_5, "6": point_6, "7": point_7, "8": point_8}


def main():
    for point in sys.argv[1:] or POINTS:
        found = list(POINTS[point]())
        print(f"point {point}: {len(found)}")
        for place in found:
            print(f"  {place}")


if __name__ == "__main__":
    main()
