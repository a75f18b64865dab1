#!/usr/bin/env python3
"""Lists and counts the places that docs/DESIGN-PASS.md speaks of, point by point, in a tree of crates.

usage: tools/places.py [FOLDER] [POINT]      (FOLDER: the repository's top, by default here; POINT: 1 to 8)

It goes by the text of crates/*/src alone (point 8: proofs/). A place that is named is one to look at, not a fault."""
import collections
import glob
import os
import re
import sys


def sources(top):
    for path in sorted(glob.glob(os.path.join(top, "crates/*/src/*.rt"))):
        with open(path, encoding="utf-8") as file:
            yield os.path.relpath(path, os.path.join(top, "crates")), file.read()


def code_of(text):
    """The text without comments and clauses' imports."""
    lines = [re.sub(r"//.*", "", line) for line in text.split("\n")]
    return "\n".join("" if line.startswith("ghost use") else line for line in lines)


FN = re.compile(r"\bfn (\w+)(?:<[^>(]*>)?\(([^)]*)\)([^{]*)", re.S)


def functions(text):
    """Name, parameters, head up to the body, and body of each function."""
    text = code_of(text)
    for match in re.finditer(r"^( *)(?:pub(?:\([^)]*\))? )?(?:extern \"C\" )?fn (\w+)", text, re.M):
        indent, name = match.group(1), match.group(2)
        end = re.search(r"^" + indent + r"\}", text[match.end():], re.M)
        whole = text[match.start(): match.end() + (end.end() if end else 0)]
        head, _, body = whole.partition("\n" + indent + "{\n")
        if not body:
            head, _, body = whole.partition("{\n")
        params = re.search(r"\((.*?)\)(?: ->|\s|$)", head, re.S)
        yield name, params.group(1) if params else "", head, body


SHAPED = r"\b(None|Some|Ok|Err|Unknown|Known|Malformed|NotOne|NotDigits|Not|Nothing|Stops|Refused|Unreadable|TooLong|Seen|GlyphNotFound)\b"


def point1(top):
    for path, text in sources(top):
        text = code_of(text)
        for match in re.finditer(r"^(?:pub )?enum (\w+)[^{]*\{(.*?)^\}", text, re.M | re.S):
            if match.group(1) != "Error" and re.search(SHAPED, match.group(2)):
                yield path, "enum " + match.group(1)
        for match in re.finditer(r"^(?:pub )?struct (\w+)[^{]*\{(.*?)^\}", text, re.M | re.S):
            for flag in re.findall(r"(\w+): bool", match.group(2)):
                yield path, f"flag {match.group(1)}.{flag}"
        for name, params, head, body in functions(text):
            codes = re.findall(r"\b(\w*(?:code|kind|char_width|anchor|align|skip|background)): (?:u32|usize)\b", params)
            if codes and name != "code_point":
                yield path, f"codes of {name}: " + ", ".join(codes)
            if re.search(r"(?:error_number\(\w+\)|\bnumber) == ", body):
                yield path, f"the number of a refusal in {name}"


def shape(body):
    words = re.findall(r"[A-Za-z_]\w*|\d[\w.]*|b?\"[^\"]*\"|b?'[^']*'|\S", body)
    keep = {"if", "else", "while", "loop", "for", "in", "match", "let", "mut", "return", "as"}
    return tuple(w if w in keep or not re.match(r"[\w\"']", w) else "x" for w in words)


def point2(top):
    groups = collections.defaultdict(list)
    for path, text in sources(top):
        for name, params, head, body in functions(text):
            s = shape(params) + ("|",) + shape(body)
            if len(s) >= 14:
                groups[s].append(f"{path} {name}")
    for s, names in groups.items():
        if len(names) > 1:
            yield names[0].split()[0], " = ".join(names)


def point3(top):
    for path, text in sources(top):
        for name, params, head, body in functions(text):
            for loop in re.finditer(r"^( *)(?:'\w+: )?(while [^\n]*|loop) \{\n(.*?)^\1\}", body, re.M | re.S):
                if re.search(r"\b(\w+) [+-]= ", loop.group(3)):
                    yield path, f"{name}: {loop.group(2)}"


def point4(top):
    for path, text in sources(top):
        for name, params, head, body in functions(text):
            body = body.rsplit("}", 1)[0].strip()
            if re.fullmatch(r"\(?\w+ as \w+\)?", body):
                yield path, f"{name}: a cast"
            elif re.fullmatch(r"if \w+ < \w+ \{\s*(?:return )?\w+;?\s*\}(?: else \{)?\s*\w+\s*\}?", body):
                yield path, f"{name}: the lesser or the greater"
            elif re.search(r": Print\b", head) and re.search(r"printing::|text\(rt|rt\.print\(", body):
                yield path, f"{name}: prints"
            elif name in ("is_same", "magnitude", "clamp", "u16_at", "word_at", "error_number", "error_code_point", "signed", "number", "signed_number", "fill", "append", "less"):
                yield path, f"{name}: a method of std's"


def conjuncts(clause):
    """The facts of a clause, without the brackets around each."""
    for fact in re.split(r"\s×\s", " ".join(clause.split())):
        fact = fact.strip()
        while fact.startswith("(") and fact.endswith(")"):
            fact = fact[1:-1].strip()
        yield re.sub(r"\.(now|old)\b", "", fact)


def point5(top):
    facts = collections.defaultdict(set)
    pairs = collections.defaultdict(set)
    where = collections.defaultdict(set)
    for path, text in sources(top):
        for name, params, head, body in functions(text):
            for clause in re.findall(r"requires(?: \w+)? \{(.*?)\}\s*(?:ensures|requires|$)", head, re.S):
                for fact in conjuncts(clause):
                    word = re.match(r"[A-Z]\w+", fact)
                    facts[word.group(0) if word else fact].add(f"{path} {name}")
            names = [p.strip().replace("mut ", "") for p in re.split(r",\s*", params) if ":" in p]
            for i, one in enumerate(names):
                where[one].add(f"{path} {name}")
                for other in names[i + 1:]:
                    pairs[(one, other)].add(f"{path} {name}")
    for fact, functions_of in sorted(facts.items()):
        if len(functions_of) >= 3:
            yield "", f"the fact {fact} in {len(functions_of)} functions"
    # parameters that stand in the same functions, three or more, and in no others
    groups = collections.defaultdict(list)
    for param, functions_of in where.items():
        if len(functions_of) >= 3:
            groups[frozenset(functions_of)].append(param)
    for functions_of, params in groups.items():
        if len(params) > 1:
            yield "", f"the group {', '.join(params)} in {len(functions_of)} functions"
    for (one, other), functions_of in sorted(pairs.items()):
        if len(functions_of) >= 3:
            yield "", f"({one}, {other}) in {len(functions_of)} functions"


def point6(top):
    for path, text in sources(top):
        for name, params, head, body in functions(text):
            if re.search(r"&(?:mut )?\[u8(?:; \w+)?\]", params) and re.search(r"\b(?:at|start|n|k|len|from|end|old_len): usize", params):
                yield path, f"{name}: bytes and a place or a length"
            elif re.search(r"&mut \[u8", params) and re.search(r"-> usize", head):
                yield path, f"{name}: answers a length or a place of the bytes that it wrote"


def point7(top):
    for path, text in sources(top):
        for name, params, head, body in functions(text):
            if re.search(r"match kind|if \w*\.?narrow\b|if char_width ==", body):
                yield path, f"{name}: which step to run"


def point8(top):
    for path in sorted(glob.glob(os.path.join(top, "crates/*/proofs/**/*.antt"), recursive=True)):
        with open(path, encoding="utf-8") as file:
            text = file.read()
        for answer in re.findall(r"^pub ([\w-]+) : goal\.", text, re.M):
            yield os.path.relpath(path, os.path.join(top, "crates")), answer


def main():
    args = sys.argv[1:]
    top = args.pop(0) if args and not args[0].isdigit() else "."
    points = [int(a) for a in args] or range(1, 9)
    for point in points:
        found = list(globals()[f"point{point}"](top))
        print(f"point {point}: {len(found)}")
        if args:
            for path, what in found:
                print("  ", path, what)


if __name__ == "__main__":
    main()
