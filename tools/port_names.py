#!/usr/bin/env python3
"""Brings the repository's own definitions and lemmas to snake case, once, on what port.py left (docs/PORT.md).

    python3 tools/port_names.py          at the top of the repository

Renamed is what specs/ and proofs/*.antt declare with a dash or in camel case: definitions, lemmas, record fields,
constructors and local names, wherever they are cited: specs/, proofs/, the clauses of src/, must-fail edits, and
names between backticks in comments and documents. Types keep their capitals. Functions of src/, strings, names that the
library or the compiler makes, and prose keep their spelling.
"""
import collections
import glob
import re

# An identifier of antt: dashes, primes and some signs belong to it.
WORD = re.compile(r"[^\W\d][\w'·→′*₀-₉-]*")
DECLARED = re.compile(r"([^\W\d][\w'·→*-]*)(?=(?:\s+[^\W\d][\w'·→-]*)*\s*:\s)")
HEAD = re.compile(r"\s*(?:pub |unfoldable |abbrev |data |record |constructor )*([^\W\d][\w'·→*-]*)\s*(?::|$)")
BOUND = re.compile(r"λ ((?:[^\W\d][\w'·→-]*\s*)+)\.")

# A lemma and the function that it speaks of came to one name: the lemma is `.._lem`, as the library has it.
LEMMAS = """with-runs measured-at-zero drawn-whole from-search measured-text to-first code-first search-table code-points
    from-table line-count measure-from draw-from measure-lines box-of-layout not-utf8 signed-byte with-line next-line
    rubbish-at""".split()
# The same, where port.py had already taken the lemma's dash.
LEMMAS_OF_A_FILE = {
    "crates/corner/proofs/WholeLaws.antt": "at_zero",
    "crates/definitions/proofs/FirstRuleLaws.antt": "one_less",
    "crates/draw_options/proofs/read/Proof.antt": "no_words",
}
OTHERS = {"List·getD-append": "list_get_or_append", "List·getD-eq-default": "list_get_or_eq_default"}


def antt():
    return sorted(glob.glob("crates/*/specs/**/*.antt", recursive=True) + glob.glob("crates/*/proofs/**/*.antt", recursive=True))


def lines(path):
    with open(path, encoding="utf-8") as f:
        return f.read().split("\n")


def parted(line):
    """The line's code and its comment."""
    at = re.search(r"(?:^|\s)--(?:\s|$)", line)
    return (line[: at.start()], line[at.start():]) if at else (line, "")


def snake(word):
    word = re.sub(r"(?<=[a-z0-9])[A-Z](?=[a-z0-9]|$)", lambda m: "_" + m.group().lower(), word)
    return word.replace("-", "_").lower()


def declared():
    found = set()
    for path in antt():
        if path.endswith("/Proof.antt"):
            continue
        for line in lines(path):
            code = parted(line)[0]
            if re.match(r"\s*(pub )?use ", code):
                continue
            found |= set(DECLARED.findall(code))
            head = HEAD.match(code)
            if head:
                found.add(head.group(1))
            for names in BOUND.findall(code):
                found |= set(names.split())
    return {w for w in found if w[0].islower() and ("-" in w or re.search(r"[A-Z]", w))}


def of_the_library():
    """What the repository imports from elsewhere."""
    own = {p.split("/")[1] for p in glob.glob("crates/*/src")}
    found = set()
    for path in antt() + glob.glob("crates/*/src/**/*.rt", recursive=True):
        for where, names in re.findall(r"use ([\w.·]+)\.\{([^}]*)\}", "\n".join(lines(path))):
            part = where.split(".")
            if not (part[0] == "Rattle" and part[1] in own):
                found |= {w.split(" as ")[0].strip() for w in names.split(",")}
    return found


def table():
    names = {w: snake(w) for w in declared() - of_the_library()}
    for w in LEMMAS:
        names[w] = snake(w) + "_lem"
    names.update(OTHERS)
    made = {}
    for path in glob.glob("crates/*/src/**/*.rt", recursive=True):
        for name in re.findall(r"\bfn (\w+)", "\n".join(lines(path))):
            made[name.replace("_", "-") + "-spec"] = name + "_spec"
    names.update({a: b for a, b in made.items() if a != b})
    return names


def turn(text, names):
    return WORD.sub(lambda m: names.get(m.group(), m.group()), text)


def quoted(text, names):
    """The names between backticks."""
    return re.sub(r"`[^`\n]*`", lambda m: turn(m.group(), names), text)


def turn_antt(path, names):
    return [turn(code, names) + quoted(comment, names) for code, comment in map(parted, lines(path))]


def turn_rt(path, names):
    def line(text):
        out = []
        for piece in re.split(r'("(?:[^"\\]|\\.)*"|//.*$)', text):
            out.append(piece if piece.startswith('"') else quoted(piece, names) if piece.startswith("//") else turn(piece, names))
        return "".join(out)

    return [line(text) for text in lines(path)]


def main():
    names = table()
    met = collections.defaultdict(list)
    for a, b in names.items():
        met[b].append(a)
    for b, a in sorted(met.items()):
        if len(a) > 1:
            print("fall together:", b, a)
    turned = [(p, turn_antt(p, names)) for p in antt()]
    turned += [(p, turn_rt(p, names)) for p in sorted(glob.glob("crates/*/src/**/*.rt", recursive=True))]
    for p in ["README.md"] + sorted(glob.glob("docs/**/*.md", recursive=True)) + ["bindings/README.md", "oracle/README.md"]:
        turned.append((p, [quoted(l, names) for l in lines(p)]))
    for path, text in turned:
        if path in LEMMAS_OF_A_FILE:
            name = LEMMAS_OF_A_FILE[path]
            before = {w for l in lines(path) for w in WORD.findall(l)}
            if name in before:
                # the lemma as port.py left it, before the function took its name
                text = turn_antt(path, {**names, name: name + "_lem"})
        with open(path, "w", encoding="utf-8") as f:
            f.write("\n".join(text))
    print(len(names), "names")


if __name__ == "__main__":
    main()
