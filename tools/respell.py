#!/usr/bin/env python3
"""Respells this repository's own names as today's Rattle spells names: words in snake case, a prime as an apostrophe.

usage: tools/respell.py [--check]    at the top of the repository, once, after port.py

A word with a hump (`afterBytes`) becomes `after_bytes`, also as a part of a name that dashes join. A name of specs/ that dashes join
becomes one word with underscores, where no other name is spelled so. Types, modules, constants in capitals, strings and what libraries
name stay. It writes the sources, the proof files and the must-fail edits, and prints the names that would fall together.
"""

import collections
import os
import re
import sys

WORD = re.compile(r"(?<![0-9A-Za-z_'])[A-Za-z_][A-Za-z0-9_'′ℤℕ₀-₉-]*")
# Lemmas and cases that would take the name of a definition, and the module of each: they end in _lem.
LEMMAS = {
    "no_target": "card_file/proofs/judging/Parts lines/proofs/Long listing_reply/proofs/Replies profile_text/specs/Shown read_reply/proofs/Replies",
    "open_after": "grammar/proofs/Nesting",
    "run_len": "tokens/proofs/numerals/Runs",
    "is_digit": "lines/proofs/Decimals",
    "after_store": "operations/proofs/Cells profile_laws/proofs/Integers",
    "all_digits": "token_table/proofs/numerals/Forms",
    "has_part": "token_table/proofs/numerals/Forms tokens/proofs/numerals/Mantissas",
    "of_length": "tokens/proofs/identifiers/Names",
    "digits_of": "tokens/proofs/numerals/Mantissas",
    "has_room": "verifier/proofs/Moves",
    "is_leaf": "compiler/proofs/reader/Looking",
}
DEFINED = re.compile(r"\s*(?:(?:pub|abbrev|unfoldable)\s+)*([^\s(){}:;,.]+)\s*:(?!=)")
STRING = re.compile(r"\"(?:[^\"\\]|\\.)*\"|b'(?:\\.|[^'\\])'")


def texts(kinds):
    for folder, dirs, files in os.walk("crates"):
        dirs[:] = sorted(d for d in dirs if d != "out")
        for f in sorted(files):
            if f.endswith(kinds):
                yield os.path.join(folder, f)


def read(p):
    with open(p, encoding="utf-8") as f:
        return f.read()


def snake(name):
    """The name with each part that begins in lower case in snake case, and primes as apostrophes."""
    parts = []
    for p in name.replace("′", "'").split("-"):
        if re.match(r"[a-z_]", p) and re.search(r"[A-Z]", p):
            p = re.sub(r"([a-z0-9])([A-Z])", r"\1_\2", p)
            p = re.sub(r"([A-Z])([A-Z][a-z])", r"\1_\2", p).lower()
        parts.append(p)
    return "-".join(parts)


def words(text):
    """The names of a text, outside strings."""
    return WORD.findall(STRING.sub('""', text))


def foreign():
    """Names that files import from libraries: they stay."""
    own = set(os.listdir("crates"))
    found = set()
    for p in texts((".antt", ".rt")):
        for path, names in re.findall(r"(?m)^\s*(?:pub )?(?:ghost )?use ([\w.·ℕℤ'+-]+)\.\{([^}]*)\}", read(p)):
            head = path.split(".")
            if not (head[0] == "Rattle" and len(head) > 1 and head[1] in own):
                for n in names.split(","):
                    found.update(n.split(" as ")[:1][0].split())
    return found


def turned(text, table):
    out, at = [], 0
    for m in STRING.finditer(text):
        out.append(WORD.sub(lambda w: table.get(w.group(), w.group()), text[at : m.start()]))
        out.append(m.group())
        at = m.end()
    out.append(WORD.sub(lambda w: table.get(w.group(), w.group()), text[at:]))
    return "".join(out)


def lemmas(path, text):
    """The text with the names of LEMMAS turned, where it has them or imports them."""
    table = {}
    for name, modules in LEMMAS.items():
        for m in modules.split():
            module = "Rattle." + m.replace("/", ".")
            if path == f"crates/{m}.antt" or re.search(re.escape(module) + r"\.\{[^}]*(?<![\w-])" + name + r"(?![\w'-])", text):
                table[name] = name + "_lem"
    return re.sub(r"(?<![\w.'-])[a-z_]+(?![\w'-])", lambda w: table.get(w.group(), w.group()), text) if table else text


def main(argv):
    if "--check" not in argv:
        for p in texts((".antt",)):
            text = read(p)
            new = lemmas(p, text)
            if new != text:
                with open(p, "w", encoding="utf-8") as f:
                    f.write(new)
    seen = collections.Counter()
    for p in texts((".antt", ".rt")):
        seen.update(words(read(p)))
    kept = foreign()
    table = {n: snake(n) for n in seen if snake(n) != n and n not in kept and not re.search("^[A-Z]|_[A-Z]", n)}
    by = collections.defaultdict(set)
    for n, s in table.items():
        by[s].add(n)
    for s, ns in sorted(by.items()):
        if len(ns) > 1:
            print("fall together:", s, sorted(ns))
    after = set(table.values()) | set(seen)
    for p in texts((".antt",)):
        if "/specs/" in p:
            for line in read(p).splitlines():
                m = DEFINED.match(line)
                if m and "-" in m.group(1) and m.group(1) not in kept:
                    n = m.group(1)
                    s = table.get(n, n).replace("-", "_")
                    if s not in after:
                        table[n] = s
                    elif table.get(n) != s:
                        print("stays, as its spelling is taken:", n)
    for n, s in sorted(table.items()):
        if s in seen:
            print("is there already:", n, s)
    print(len(table), "names")
    if "--check" in argv:
        return 0
    for p in texts((".antt", ".rt", ".edit")):
        text = read(p)
        new = turned(text, table)
        if new != text:
            with open(p, "w", encoding="utf-8") as f:
                f.write(new)
    return 0


if __name__ == "__main__":
    raise SystemExit(main(sys.argv[1:]))
