#!/usr/bin/env python3
"""Counts, in crates/*/src, the places that an older Rattle had to write in a longer form.

usage: tools/places.py [POINT]    at the top of the repository; POINT from 1 to 8 also prints the places

It goes by text, so it finds candidates; docs/DESIGN-PASS.md says of each what it became or why it stays.
"""

import collections
import glob
import re
import sys


def sources():
    for path in sorted(glob.glob("crates/*/src/**/*.rt", recursive=True)):
        with open(path) as f:
            yield path.replace("crates/", "").replace("src/", ""), f.read()


def functions(text):
    """Name, head and body of each function."""
    for m in re.finditer(r"^( *)(?:pub )?fn (\w+)", text, re.M):
        end = text.find("\n" + m.group(1) + "}", m.start())
        whole = text[m.start() : end]
        brace = re.search(r"(?:^|[^{\n] )\{$", whole, re.M) or re.search(r"\{$", whole, re.M)
        cut = brace.end() if brace else len(whole)
        yield m.group(2), whole[:cut], re.sub(r"//[^\n]*", "", whole[cut:])


def enums(text):
    for m in re.finditer(r"^(?:pub )?enum (\w+)[^{]*\{\n(.*?)^\}", text, re.M | re.S):
        yield m.group(1), re.findall(r"^    (\w+)(\([^)]*\))?,", m.group(2), re.M)


def structs(text):
    for m in re.finditer(r"^(?:pub )?struct (\w+)[^{;]*\{\n(.*?)^\}", text, re.M | re.S):
        yield m.group(1), re.findall(r"^    (?:pub )?(\w+): ([^\n]+),", m.group(2), re.M)


def point1():
    for path, text in sources():
        for name, variants in enums(text):
            data = sum(1 for _, d in variants if d)
            if len(variants) == 2 and data:
                yield "two variants", f"{path} enum {name}"
            elif len(variants) == 3 and data and {"Done", "Stopped", "Wrong", "Failed", "Bad", "Refused"} & {v for v, _ in variants}:
                yield "three variants, one a failure", f"{path} enum {name}"
        for name, fields in structs(text):
            if re.search(r"Line$|Layout", name):
                continue
            flags = [f for f, t in fields if t == "bool" or f in ("answer", "how", "reach", "done")]
            if flags and len(fields) > 1:
                yield "a flag or a number beside values", f"{path} struct {name}: {', '.join(flags)}"
        names = re.findall(r"^(?:pub )?const \w+: u(?:8|32|64) = (?:\d+|[\w:]+ \+ \d+);", text, re.M)
        kinds = [n for n in names if re.search(r"= \d{1,3};", n)]
        if len(kinds) >= 3:
            yield "numbers for kinds", f"{path}: {len(kinds)} constants"
        for m in re.finditer(r"\b(?:Refused|Refusal|refused)\((\d+)", text):
            yield "a refusal by a bare number", f"{path}: {m.group(0)}"
        for m in re.finditer(r"\banswer: (?:[1-9]\d*),", text):
            yield "a refusal by a bare number", f"{path}: {m.group(0)}"


def point2():
    seen = collections.defaultdict(list)
    for path, text in sources():
        for name, _, body in functions(text):
            flat = re.sub(r"\s+", " ", body)
            if flat.count(";") + flat.count("=>") < 2:
                continue
            flat = re.sub(r"\b\d[\w.]*\b", "N", flat)
            flat = re.sub(r"\b[iuf](8|16|32|64|size)\b", "T", flat)
            flat = re.sub(r"b?\"[^\"]*\"|b?'[^']*'", "S", flat)
            flat = re.sub(r"\b[a-z_]+::(?=\w)", "", flat)
            flat = re.sub(r"\b\w+::\w+", "V", flat)
            flat = re.sub(r"\b[a-z_]\w*(?=\()", "f", flat)
            seen[flat].append(f"{path} fn {name}")
    for places in seen.values():
        if len(places) > 1:
            for p in places:
                yield "bodies equal but for types, numbers and names called", p + f"  (of {len(places)})"


def point3():
    for path, text in sources():
        for name, _, body in functions(text):
            for m in re.finditer(r"^ *(while|loop)\b([^{\n]*)\{", body, re.M):
                rest = body[m.end() :]
                cond = re.findall(r"[a-z_][\w.]*", m.group(2))
                steps = [v for v in cond if re.search(r"\b" + re.escape(v) + r" [+-]= \d+;", rest)]
                kind = "a loop that counts by a constant" if steps else "another while or loop"
                yield kind, f"{path} fn {name}: {m.group(1)}{m.group(2)}"


def point4():
    for path, text in sources():
        for name, head, body in functions(text):
            flat = re.sub(r"\s+", " ", body).strip()
            if re.fullmatch(r"\(?[\w.% ]+\)? as \w+", flat):
                yield "a function that only casts", f"{path} fn {name}"
            if re.fullmatch(r"if (\w+) < (\w+) \{ \w+ \} else \{ \w+ \}", flat):
                yield "min or max", f"{path} fn {name}"
            if re.search(r"-> bool", head) and re.fullmatch(r"match [^{]*\{(?: [\w:()_ ,|]+ => (?:true|false),)+ \}", flat):
                yield "a match that says true or false", f"{path} fn {name}"
            if re.search(r"-> u\d+", head) and re.fullmatch(r"match [^{]*\{(?: [\w:]+ => \d+,)+ \}", flat):
                yield "an enum's number by a match", f"{path} fn {name}"
            if re.search(r"-> (?:Option<|\w*Of\b)", head) and re.fullmatch(r"match [^{]*\{(?: [\w':]+ => [\w:()]+,)+ _ => [\w:]+, \}", flat):
                yield "an enum from its number by a match", f"{path} fn {name}"
            if re.search(r"-> bool", head) and flat.count("!=") >= 2 and "return false" in flat:
                yield "equality part by part", f"{path} fn {name}"
        for m in re.finditer(r"\b(\w+) (?:==|!=) \1\b(?!['\"])", text):
            yield "a number that differs from itself", f"{path}: {m.group(0)}"


def point5():
    facts = collections.defaultdict(list)
    groups = collections.defaultdict(list)
    for path, text in sources():
        crate = path.split("/")[0]
        for name, head, _ in functions(text):
            for m in re.finditer(r"requires (?:\w+ )?\{(.*?)\}\s*$", head, re.M):
                for part in m.group(1).split(" × "):
                    part = re.sub(r"\.(old|now|entry)\b", "", part.strip().strip("()"))
                    facts[crate, part].append(f"{path} fn {name}")
            params = re.findall(r"(\w+): (?:&mut |&)?[\w\[\]; :<>]+?(?=[,)])", head.split("->")[0])
            for i in range(len(params) - 2):
                groups[crate, tuple(params[i : i + 3])].append(f"{path} fn {name}")
    for (crate, part), places in sorted(facts.items()):
        if len(set(places)) >= 3:
            yield "a fact in three contracts or more", f"{crate}: {part}  ({len(set(places))})"
    for (crate, group), places in sorted(groups.items()):
        if len(set(places)) >= 4:
            yield "three parameters in a row in four functions or more", f"{crate}: {', '.join(group)}  ({len(set(places))})"


def point6():
    for path, text in sources():
        for name, head, _ in functions(text):
            flat = re.sub(r"\s+", " ", head.split("->")[0])
            if re.search(r"\w+: &mut \[u8(?:; \w+)?\], (?:at|n|end|from): usize", flat):
                yield "a buffer with a place or a length beside", f"{path} fn {name}"
            if re.search(r"\w+: &\[u8(?:; \w+)?\], \w: usize\b", flat) and "at: usize" not in flat:
                yield "code with its count beside", f"{path} fn {name}"
            if len(re.findall(r": &mut \[", flat)) >= 3:
                yield "three lent arrays or more", f"{path} fn {name}"
        for m in re.finditer(r"^(?:pub )?const (\w+): \[[^;]+; (\d+)\]", text, re.M):
            yield "a constant table", f"{path}: {m.group(1)}[{m.group(2)}]"


def point7():
    for path, text in sources():
        for name, _, body in functions(text):
            for m in re.finditer(r"match [^{\n]*\{\n((?:(?!^ {4}\}).*\n)+)", body, re.M):
                arms = re.findall(r"^ {8}(\S[^=\n]*) => ([a-z_:]+)\(", m.group(1), re.M)
                if len(arms) >= 4 and len({a for _, a in arms}) >= 3:
                    yield "a match whose arms are calls", f"{path} fn {name}: {len(arms)} arms"


def point8():
    for path in sorted(glob.glob("crates/*/proofs/**/Answers.antt", recursive=True)):
        with open(path) as f:
            text = f.read()
        for m in re.finditer(r"^(\S+)(?: \w+)* =\s+(search rules|refl)$", text, re.M):
            yield "an answer that is the search's own", f"{path[7:]}: {m.group(1)}"


def main():
    wanted = int(sys.argv[1]) if len(sys.argv) > 1 else 0
    for n, point in enumerate((point1, point2, point3, point4, point5, point6, point7, point8), 1):
        if wanted not in (0, n):
            continue
        found = collections.defaultdict(list)
        for kind, place in point():
            found[kind].append(place)
        for kind, places in found.items():
            print(f"{n}. {kind}: {len(places)}")
            if wanted:
                print("".join(f"     {p}\n" for p in places), end="")


main()
