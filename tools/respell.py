#!/usr/bin/env python3
"""Spells this repository's own definitions and lemmas as the library does: words in snake case, types in camel case.

usage: python3 tools/respell.py [FOLDER]     FOLDER: a checkout (default: this one); files are rewritten in place

A name is own if an .antt file of crates/ declares it, or binds it in a lemma. Names that the check makes (goals,
branches, steps) and names of the library keep their spelling, and so do Rust's functions, strings and comments of .rt files.
"""
import os
import re
import sys

ROOT = sys.argv[1] if len(sys.argv) > 1 else os.path.join(os.path.dirname(os.path.abspath(__file__)), "..")
PART = r"[A-Za-z0-9_'Α-ωℕ]+"
HYPHENATED = re.compile(r"(?<![\w'◌·-])(%s(?:-%s)+)(?![\w'◌-])" % (PART, PART))
MODIFIERS = r"(?:(?:pub|abbrev|record|data|unfoldable|irreducible|mod|syntax|ruleset)\s+)*"
DECLARED = re.compile(r"^(\s*)(?:\|\s*)?" + MODIFIERS + r"(%s(?:-%s)+)\b[^=↦]*?:(?!=)" % (PART, PART))
ANSWER = re.compile(r"^\s*" + MODIFIERS + r"(\S+) : goal\.(\S+)\s*$")


def sources(root, endings):
    for folder, dirs, files in os.walk(os.path.join(root, "crates")):
        dirs[:] = sorted(d for d in dirs if d != "out")
        for f in sorted(files):
            if f.endswith(endings):
                yield os.path.join(folder, f)


def read(path):
    with open(path, encoding="utf-8") as f:
        return f.read()


def spelled(name):
    parts = name.split("-")
    if name[0].isupper():
        return "".join(p[:1].upper() + p[1:] for p in parts)
    return "_".join(parts)


def declared(root):
    """Own names, and those of them that are fields of records."""
    own, fields = set(), set()
    for path in sources(root, (".antt",)):
        answers = set()
        for line in read(path).split("\n"):
            m = ANSWER.match(line)
            if m:
                answers.add(m.group(1))
                continue
            if line.lstrip().startswith(("--", "use ", "let ", "λ", "(")):
                continue
            m = DECLARED.match(line)
            if m and m.group(2) not in answers:
                own.add(m.group(2))
                if m.group(1):
                    fields.add(m.group(2))
    return own, fields


def of_library(root):
    """Names that are imported from the library, by file."""
    taken = {}
    for path in sources(root, (".antt", ".rt")):
        for line in read(path).split("\n"):
            m = re.match(r"\s*(?:ghost )?(?:pub )?use Rattle\.(std|core)\.[^{]*\{(.*)\}", line)
            if m:
                taken.setdefault(path, set()).update(w.strip() for w in m.group(2).split(","))
    return taken


def bound(path, text, kept):
    """Names that a lemma or an answer binds: in a file of lemmas all that are left, in one of answers those after `let`."""
    if not path.endswith(".antt") or os.sep + "proofs" + os.sep not in path:
        return set()
    body = "\n".join(l for l in text.split("\n") if not l.startswith("use "))
    if os.path.basename(os.path.dirname(path)) == "proofs":
        names = {m.group(1) for m in HYPHENATED.finditer(body) if body[max(0, m.start() - 1)] != "."}
    else:
        names = set(re.findall(r"\blet (%s(?:-%s)+)(?![\w'-])" % (PART, PART), body))
    imported = set(re.findall(r"[^\s{},]+", "\n".join(l for l in text.split("\n") if l.startswith("use "))))
    return names - kept - imported


def main():
    own, fields = declared(ROOT)
    taken = of_library(ROOT)
    everywhere = set().union(*taken.values()) if taken else set()
    there = set()
    for path in sources(ROOT, (".antt",)):
        there |= set(re.findall(r"(?<![\w'.-])[A-Za-z][\w']*(?![\w'-])", read(path)))
    for n in sorted(own):
        if spelled(n) in there:
            print("falls together: %s, %s" % (n, spelled(n)))
        if n in everywhere:
            print("of the library too: %s" % n)
    clashes = {}
    for n in own:
        clashes.setdefault(spelled(n), []).append(n)
    for new, olds in clashes.items():
        if len(olds) > 1:
            print("fall together: %s" % ", ".join(olds))

    count = 0

    def turn(text, kept, aliases, local=frozenset()):
        nonlocal count

        def one(m):
            nonlocal count
            n = m.group(1)
            before = text[m.start() - 1] if m.start() else " "
            if n in local and before != ".":
                count += 1
                return spelled(n)
            if n not in own or n in kept:
                return n
            if before == "." and n not in fields and re.search(r"(?:^|[^\w'-])(?:[a-z][\w'-]*\.)+$", text[max(0, m.start() - 80):m.start()]):
                head = re.search(r"([\w'-]+)\.$", text[:m.start()])
                if head and head.group(1) in aliases:
                    count += 1
                    return spelled(n)
                return n  # a step that the check made
            count += 1
            return spelled(n)
        return HYPHENATED.sub(one, text)

    for path in sources(ROOT, (".antt", ".rt", ".edit")):
        old = read(path)
        kept = taken.get(path, set())
        aliases = set(re.findall(r"^(?:ghost )?use \S+ as (\w+);?$", old, re.M))
        if path.endswith(".rt"):
            # comments and strings stay
            new = "\n".join(
                l if l.lstrip().startswith("//") else "".join(p if i % 2 else turn(p, kept, aliases) for i, p in enumerate(re.split(r'("(?:[^"\\]|\\.)*")', l)))
                for l in old.split("\n"))
        else:
            new = turn(old, kept, aliases, bound(path, old, kept))
        if new != old:
            with open(path, "w", encoding="utf-8") as f:
                f.write(new)
    docs = os.path.join(ROOT, "docs")
    pages = [os.path.join(docs, f) for f in sorted(os.listdir(docs))] if os.path.isdir(docs) else []
    for path in [os.path.join(ROOT, "README.md")] + pages:
        if not path.endswith(".md") or path.endswith("PORT.md") or not os.path.exists(path):
            continue
        old = read(path)
        new = re.sub(r"`[^`\n]*`", lambda m: turn(m.group(0), set(), set()), old)
        if new != old:
            with open(path, "w", encoding="utf-8") as f:
                f.write(new)
    print("%d names declared, %d places" % (len(own), count))


main()
