#!/usr/bin/env python3
"""Brings the repository's own definitions, lemmas and local names to today's spelling, once, after port.py:
words in snake case (`last-of-row` is `last_of_row`), types in camel case (`Law-of-runs` is `LawOfRuns`).

It goes by tokens. Names that the checker makes (answers to goals) and names that a file brings in from a library keep their
spelling. In .rt files it turns clauses, ghost items and backquoted words of comments, and no code and no string.
Prints each new name that a file had already."""
import os
import re
import sys

TOKEN = re.compile(r"[A-Za-z_][A-Za-z0-9_'₀-₉]*(?:-[A-Za-z0-9_'₀-₉]+)+")
DECLARED = re.compile(r"^\s*(?:(?:abbrev|unfoldable|pub|data|record|mutual)\s+)*([^\s:(){}⌜⌝;,λ→]+)\s+(.*)$")
LIBRARIES = re.compile(r"^(?:pub )?(?:ghost )?use (?:Rattle\.std|borrow|native|lib|mathlib|Prim|denote|Rattle\.\w+\.proofs\..*\.(?:Goals|Given|Tie))\b")


def antt_files(root):
    for folder, _, names in os.walk(os.path.join(root, "crates")):
        if os.sep + "out" in folder[len(root):]:
            continue
        for name in sorted(names):
            if name.endswith((".antt", ".rt")):
                yield os.path.join(folder, name)


def is_type(lines, i, rest, head):
    if re.search(r"\b(data|record)\s", head):
        return True
    indent = len(lines[i]) - len(lines[i].lstrip())
    signature = rest
    for line in lines[i + 1:]:
        if not line.strip() or len(line) - len(line.lstrip()) <= indent:
            break
        signature += " " + line.strip()
    return re.search(r"Type 0\s*(where)?$", re.sub(r"--.*", "", signature).strip()) is not None


def collect(path, types, values):
    lines = open(path, encoding="utf-8").read().split("\n")
    for i, line in enumerate(lines):
        if line.lstrip().startswith("--"):
            continue
        declared = DECLARED.match(line)
        if declared:
            name, rest = declared.groups()
            head = line[:declared.start(1)]
            kind = re.search(r"\b(data|record)\s", head)
            answers = ("goal." + name) in rest
            if (rest.startswith(":") or kind) and not answers and TOKEN.fullmatch(name):
                (types if is_type(lines, i, rest, head) else values).add(name)
        several = re.match(r"^\s+((?:[\w'-]+ )+): ", line)
        equation = re.match(r"^\s*([^=:→]+) =(?: |$)", line)
        for group in [g.group(1) for g in (several, equation) if g]:
            values.update(n for n in re.split(r"[\s(){},]+", group) if TOKEN.fullmatch(n) and not kept_in(line))
        for name in re.findall(r"\blet (" + TOKEN.pattern + r")", line):
            values.add(name)
        for group in re.findall(r"[({]([^(){}:]+) :", line):
            for name in group.split():
                if TOKEN.fullmatch(name):
                    values.add(name)
        for group in re.findall(r"λ ([^.()]+)\.", line):
            for name in group.split():
                if TOKEN.fullmatch(name):
                    values.add(name)
        for name in re.findall(r"\bas (" + TOKEN.pattern + r")", line):
            values.add(name)


def spelling(name, types):
    if name in types:
        return "".join(part[:1].upper() + part[1:] for part in name.split("-"))
    return name.replace("-", "_").lower()


def kept_in(text):
    kept = set()
    for line in text.split("\n"):
        if LIBRARIES.match(line):
            kept.update(TOKEN.findall(line))
            # a name brought in under another one is the file's own
            kept.difference_update(re.findall(r"\bas (" + TOKEN.pattern + r")", line))
        answer = re.match(r"^(?:abbrev )?(?:pub )?(\S+) : goal\.(\S+)", line)
        if answer and answer.group(1) == answer.group(2):
            kept.add(answer.group(1))
    return kept


def turn(text, table, kept, is_rust):
    def one(m):
        name = m.group(0)
        return table.get(name, name) if name not in kept else name

    if not is_rust:
        return TOKEN.sub(one, text)
    out = []
    for line in text.split("\n"):
        code, mark, comment = line.partition("//")
        pieces = re.split(r'("(?:[^"\\]|\\.)*")', code)
        code = "".join(p if p.startswith('"') else TOKEN.sub(one, p) for p in pieces)
        comment = re.sub(r"`[^`]*`", lambda m: TOKEN.sub(one, m.group(0)), comment)
        out.append(code + mark + comment)
    return "\n".join(out)


def main():
    root = os.path.abspath(sys.argv[1] if len(sys.argv) > 1 else ".")
    types, values = set(), set()
    files = list(antt_files(root))
    for path in files:
        if path.endswith(".antt"):
            collect(path, types, values)
    table = {name: spelling(name, types) for name in types | values}
    back = {}
    for old, new in table.items():
        back.setdefault(new, []).append(old)
    for new, olds in sorted(back.items()):
        if len(olds) > 1:
            print("falls together:", new, olds)
    for path in files:
        text = open(path, encoding="utf-8").read()
        kept = kept_in(text)
        words = set(re.findall(r"[A-Za-z_][A-Za-z0-9_']*(?:-[A-Za-z0-9_']+)*", text))
        for name in words & set(table):
            if name not in kept and table[name] in words:
                print("had already:", os.path.relpath(path, root), name, "->", table[name])
        new = turn(text, table, kept, path.endswith(".rt"))
        if new != text:
            open(path, "w", encoding="utf-8").write(new)
    pages = [os.path.join(root, "README.md")] + [os.path.join(root, "docs", n) for n in sorted(os.listdir(os.path.join(root, "docs"))) if n.endswith(".md")]
    for path in pages:
        if not os.path.exists(path):
            continue
        text = open(path, encoding="utf-8").read()
        new = re.sub(r"`[^`\n]*`", lambda m: TOKEN.sub(lambda k: table.get(k.group(0), k.group(0)), m.group(0)), text)
        if new != text:
            open(path, "w", encoding="utf-8").write(new)
    print(len(types), "types,", len(values), "words")


if __name__ == "__main__":
    main()
