#!/usr/bin/env python3
"""Brings the repository's own definitions, fields, constructors and lemmas to the library's spelling, once, after port.py.

usage: tools/respell.py [--list]        at the top of the repository; --list prints the table and changes nothing

- A word in camel case becomes snake case: mostCells, most_cells. Types, modules and the papers' own names in capitals (ADD, SR) stay.
- A dash joins two names: it stays between two names that are declared, as in length-take, and is an underscore elsewhere:
  passes-exactly, passes_exactly.
- A lemma whose new spelling is a name already keeps its dash. A lemma that is spelled as a word of the logic now is gets the ending _lem
  (LEMMAS below); where the two are never named in one file, both keep the name (APART).

It goes by whole words: through the code of .antt files and the clauses and imports of .rt files (Rust's own names have neither form).
A word in a comment turns where the file's code has it. What the proof files of functions cite of generated names
(c.same-length.given) stays: there a dashed name turns behind a dot only if the dot stands behind a module or it is a field of a record.
"""
import collections
import os
import re
import sys

WORD = re.compile(r"[^\s(){}.;,@\"«»\[\]]+")
CAMEL = re.compile(r"(?<![A-Za-z0-9_'])([a-z][a-z0-9]*(?:_[a-z0-9]+)*)([A-Z][A-Za-z0-9]*)(?=[-_'◌]|$)")
DECLARED = re.compile(r"^\s*(?:(?:abbrev|unfoldable|pub|infix[lr]?|data|record) )*((?:\{?[^\s(){}.;,@\"«»:]+\}? )+)(?:[({].*[)}] )?: ")
BRACKETED = re.compile(r"[({]((?:[^\s(){}.;,@\"«»:]+ )+): ")
BOUND = re.compile(r"(?:λ|let) ((?:[^\s(){}.;,@\"«»:=]+ ?)+)(?=[.=:])")
# Not words of the logic: a label in an example's text.
NOT_WORDS = {"eNd"}
# Lemmas, fields and variables that would have the name of a word in the same file.
LEMMAS = {"bound_all", "bound_by", "code_lines", "code_read", "of_number", "too_far", "goes_on", "is_digit", "is_word"}
# Words that are spelled as a lemma of another module is.
APART = {"givenBy", "lastLine", "lineRead", "noMode", "noRegister", "onLine", "oneMore", "pastEnd", "rowFrom"}


def files(ends):
    for folder, dirs, names in os.walk("crates"):
        dirs[:] = sorted(d for d in dirs if d != "out")
        for name in sorted(names):
            if name.endswith(ends):
                yield os.path.join(folder, name)


def read(path):
    with open(path, encoding="utf-8") as f:
        return f.read()


def code_of(text):
    return re.sub(r"(?m)(?:(?<=\s)|^)--.*$", "", text)


def snake(word):
    def turn(m):
        return m.group(1) + re.sub(r"([A-Z]+(?![a-z])|[A-Z])", r"_\1", m.group(2)).lower()

    return CAMEL.sub(turn, word)


def declared():
    """Every name with the kinds of places that declare it, and the fields of records."""
    names, known, fields, tops = set(), set(), set(), set()
    for path in files((".antt",)):
        of_function = path.endswith("Proof.antt")
        record = None
        for line in code_of(read(path)).split("\n"):
            for inside in re.findall(r"\buse [^{]*\{([^}]*)\}", line):
                known.update(it.strip().split(" as ")[-1] for it in inside.split(","))
            m = re.match(r"(\s*)(?:abbrev )?(?:pub )?record ", line)
            if m:
                record = len(m.group(1))
            elif line.strip() and record is not None and len(line) - len(line.lstrip()) <= record:
                record = None
            if of_function:
                continue
            for m in [DECLARED.match(line)] + list(BRACKETED.finditer(line)) + list(BOUND.finditer(line)):
                if m:
                    here = [w.strip("{}") for w in m.group(1).split()]
                    names.update(here)
                    if m.re is DECLARED:
                        tops.update(here)
                    if record is not None and m.re is DECLARED:
                        fields.update(here)
    return names, known, fields, tops


def table():
    names, known, fields, tops = declared()
    words = {n for n in tops | known if "-" not in n and len(n) > 2 and n[0].isalpha()}
    words |= {snake(n) for n in words}
    new, clash = {}, []
    stands = {n for n in names | known if snake(n) == n and "-" not in n}
    # The words of the logic first: a lemma whose new name is one of theirs keeps its dash.
    for n in sorted(names, key=lambda n: ("-" in n, n)):
        if n in NOT_WORDS or not re.search(r"[A-Za-z]", n) or (snake(n) == n and "-" not in n):
            continue
        parts = snake(n).split("-")
        joins = len(parts) == 2 and all(part in words for part in parts)
        text = ("-" if joins else "_").join(parts)
        if text in stands:
            text = snake(n)
            if text in stands and text not in LEMMAS and n not in APART:
                clash.append(f"no spelling of its own: {n}")
        stands.add(text)
        if text != n:
            new[n] = text
    for line in clash:
        print(line)
    for n, to in list(new.items()):
        if n.startswith("◌") and n.endswith("◌"):
            new[n.strip("◌")] = to.strip("◌")
    new.update((n, n + "_lem") for n in LEMMAS)
    return new, fields


def turned(path, text, new, fields):
    of_function = "/proofs/" in path and path.endswith("Proof.antt")
    has = set(WORD.findall(code_of(text))) if path.endswith(".antt") else None
    out = []
    for line in text.split("\n"):
        m = re.search(r"(?:(?<=\s)|^)--", line) if path.endswith(".antt") else re.search(r"//", line) if path.endswith(".rt") else None
        at = m.start() if m else len(line)
        lemmas = path.endswith(".antt") and "/proofs/" in path
        out.append(put(line[:at], new, fields, of_function, None, lemmas) + put(line[at:], new, fields, of_function, has, lemmas))
    return "\n".join(out)


def put(text, new, fields, of_function, has, lemmas):
    def turn(m):
        word = m.group(0)
        to = new.get(word)
        if to is None or (has is not None and word not in has) or (word in LEMMAS and not lemmas):
            return word
        if ("-" in word or word in LEMMAS) and text[: m.start()].endswith("."):
            before = re.search(r"([^\s(){}.;,]+)\.$", text[: m.start()])
            made = of_function and word not in fields or word in LEMMAS and "_" in word
            if made and not (before and before.group(1)[0].isupper()):
                return word
        return to

    return WORD.sub(turn, text)


def main():
    new, fields = table()
    if "--list" in sys.argv[1:]:
        for n, to in sorted(new.items()):
            print(f"{n}\t{to}")
        return
    changed = 0
    for path in files((".antt", ".rt")):
        text = read(path)
        to = turned(path, text, new, fields)
        if to != text:
            with open(path, "w", encoding="utf-8") as f:
                f.write(to)
            changed += 1
    print(f"{len(new)} names, {changed} files")


if __name__ == "__main__":
    main()
