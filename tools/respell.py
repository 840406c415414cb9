#!/usr/bin/env python3
"""Spells this repository's own definitions and lemmas as today's Rattle does: words in snake case, facts and records in camel case.

usage, at the top of the repository, once, after /opt/rattle/port/port.py: python3 tools/respell.py

A name that specs/ or proofs/ declare and that has a dash turns: `first-no` to `first_no`, `Add-done` to `AddDone`. Ghost fields in
camel case turn to snake case. Names of functions of src/, strings, inputs and outputs stay. In proofs of functions the names that the
checker makes stay: those behind `goal.`, those declared at a type `goal.X`, and the first name behind `c.`, `w.`, `l.` or `g.`.
It says which names fall together, and then writes nothing.
"""

import glob
import re
import sys

WORD = r"[^\s(){}.;,@\"«»]+"
DECLARATION = re.compile(rf"^\s*(?:(?:abbrev|unfoldable|pub|record|data)\s+)*({WORD})(?: [({{][^()]*[)}}])* *:(?: |$)")
MADE = re.compile(rf":\s*goal\.({WORD})")
FIELD = re.compile(r"\bghost ([a-z]+(?:[A-Z][a-z]+)+):")
# facts that are spelt as words, in the one file that has them
FACTS = {"crates/model/proofs/Courses.antt": {"rises": "Rises"}}
# names of several words in comments that are plain English there
ENGLISH = {"all-to-all", "first-place"}
HEADS = {"goal", "c", "w", "l", "g"}


def respelt(name):
    if name[0].isupper():
        return "".join(part[:1].upper() + part[1:] for part in name.split("-"))
    return name.replace("-", "_")


def declared(texts):
    table, made = {}, set()
    for path, text in texts.items():
        if not path.endswith(".antt"):
            continue
        for line in text.split("\n"):
            found = DECLARATION.match(line)
            if not found:
                continue
            if MADE.search(line):
                made.add(found[1])
            elif "-" in found[1].strip("-"):
                table[found[1]] = respelt(found[1])
    return {old: new for old, new in table.items() if old not in made}, made


def split_comment(line):
    if line.lstrip().startswith("--"):
        return "", line
    at = line.find(" -- ")
    return (line, "") if at < 0 else (line[:at], line[at:])


def turn_antt(text, table, facts, made_here, of_function):
    lines = []
    for line in text.split("\n"):
        code, comment = split_comment(line)

        def turn(found):
            name = found[0]
            if name not in table and name not in facts:
                return name
            before = code[: found.start()]
            head = re.search(rf"({WORD})\.$", before)
            if of_function and head and head[1] in HEADS:
                return name
            if name in made_here and MADE.search(code):
                return name
            return facts.get(name) or table[name]

        code = re.sub(WORD, turn, code)
        comment = re.sub(r"[A-Za-z][\w'-]*", lambda f: f[0] if f[0].lower() in ENGLISH else table.get(f[0], f[0]), comment)
        lines.append(code + comment)
    return "\n".join(lines)


def turn_rust(text, table, fields):
    turned = []
    for line in text.split("\n"):
        code, slashes, comment = line.partition("//")
        code = re.sub(r"[A-Za-z][\w'-]*", lambda f: table.get(f[0], f[0]), code)
        code = re.sub(r"\b\w+\b", lambda f: fields.get(f[0], f[0]), code)
        turned.append(code + slashes + comment)
    return "\n".join(turned)


def falls_together(texts, table):
    news = {}
    for old, new in table.items():
        news.setdefault(new, []).append(old)
    for new, olds in news.items():
        if len(olds) > 1:
            yield f"{' and '.join(olds)} would both be {new}"
    for path, text in texts.items():
        if not path.endswith(".antt"):
            continue
        code = "\n".join(split_comment(line)[0] for line in text.split("\n"))
        words = set(re.findall(WORD, re.sub(r"\bRattle(\.[^\s.{}()]+)+", "", code)))
        for old, new in table.items():
            if old in words and new in words:
                yield f"{path}: {old} meets {new}"


def main():
    paths = sorted(
        glob.glob("crates/*/specs/**/*.antt", recursive=True)
        + glob.glob("crates/*/proofs/**/*.antt", recursive=True)
        + glob.glob("crates/*/src/**/*.rt", recursive=True)
    )
    texts = {path: open(path, encoding="utf-8").read() for path in paths}
    table, _ = declared(texts)
    fields = {}
    for path, text in texts.items():
        if path.endswith(".rt"):
            for name in FIELD.findall(text):
                fields[name] = re.sub(r"[A-Z]", lambda f: "_" + f[0].lower(), name)
    met = sorted(set(falls_together(texts, table)))
    if met and "--anyway" not in sys.argv:
        print("\n".join(met))
        sys.exit(1)
    for path, text in texts.items():
        if path.endswith(".antt"):
            made = set(MADE.findall(text))
            of_function = bool(re.search(r"/(Answers|Invariants|Proof)\.antt$", path))
            new = turn_antt(text, {**table, **fields}, FACTS.get(path, {}), made, of_function)
        else:
            new = turn_rust(text, table, fields)
        if new != text:
            open(path, "w", encoding="utf-8").write(new)
    print(f"respell: {len(table)} names and {len(fields)} ghost fields")


main()
