#!/usr/bin/env python3
"""Brings the repository's own definitions, lemmas and variables to the spelling of Rattle's library.

usage: tools/respell.py [--list]        at the top of the repository, once, behind port.py

Words are in snake case: `isLeap` becomes `is_leap`, and `day-told` becomes `day_told`. A dash is kept where it joins the names of two definitions, as in `alike-length`, and
beside a type, as in `Acted-as`. Types and modules keep their capitals. Only names that a file of specs/ or proofs/ declares are turned, and variables in camel case. Strings,
functions of src/ and exported names stay. --list writes nothing and prints each row, old and new.
"""

import os
import re
import sys

TOKEN = re.compile(r"[^\s(){}.;,:@\"«»`]+")
DECLARED = re.compile(r"^(\s*)(?:abbrev |unfoldable |ruleset )?(?:pub )?((?:[^\s(){}:;,.@\"«»=]+ )+):(?= |$)", re.M)
FIELD = re.compile(r"^\s*(?:abbrev |unfoldable )?pub (?:record|data) (\S+)", re.M)
CAMEL = re.compile(r"[a-z][a-z0-9]*(?:[A-Z][A-Za-z0-9]*)+'*")
QUIET = re.compile(r'"(?:\\.|[^"\\\n])*"')
# Where a lemma would fall together with a definition, the lemma gets this behind it.
BEHIND = "_lem"
# Other names that would fall together with another one, and what they are called.
APART = {}
# Words that are a definition's already, and fields.
KEPT = {"file_type", "in_turn", "up_to", "value_of", "word_in", "words_in"}


def snake(word):
    word = re.sub(r"([a-z0-9])([A-Z])", r"\1_\2", word)
    return re.sub(r"([A-Z])([A-Z][a-z])", r"\1_\2", word).lower()


def files(kind):
    for folder, dirs, names in os.walk("crates"):
        dirs[:] = sorted(d for d in dirs if d not in ("out", "data"))
        for n in sorted(names):
            if n.endswith(kind):
                yield os.path.join(folder, n)


def read(path):
    with open(path, encoding="utf-8") as f:
        return f.read()


def declared(text):
    for m in DECLARED.finditer(text):
        for word in m.group(2).split():
            if word not in ("pub", "abbrev", "unfoldable", "where", "record", "data", "module", "_", "let"):
                yield word


def segment(word):
    return snake(word) if CAMEL.fullmatch(word) else word


def respelled(name, definitions):
    parts = [segment(p) for p in name.split("-")]
    out = parts[0]
    for before, part in zip(parts, parts[1:]):
        joins = (before in definitions and part in definitions) or before[:1].isupper() or part[:1].isupper()
        out += ("-" if joins else "_") + part
    return out


def rows():
    own, definitions = set(), set("length take drop append replicate set eqb leb ltb get_or reverse map filter".split())
    for path in files(".antt"):
        text = read(path)
        names = set(declared(text))
        if not path.endswith("Proof.antt"):
            own |= names
        if "/specs/" in path:
            definitions |= {segment(n) for n in names if "-" not in n}
    for path in list(files(".antt")) + list(files(".rt")):
        own |= {t for t in words(read(path), "--" if path.endswith(".antt") else "//") if any(map(CAMEL.fullmatch, t.split("-")))}
    table = {}
    for name in sorted(own):
        if not re.fullmatch(r"[\w'₀-₉-]+", name) or name.startswith("-") or name.endswith("-"):
            continue
        new = APART.get(name) or respelled(name, definitions)
        if new != name:
            table[name] = new
    return apart(table, own), own


def apart(table, own):
    """The table, with a row more or another one for each lemma that a definition in camel case falls together with."""
    camel = {new for old, new in table.items() if CAMEL.fullmatch(old)}
    for old in sorted(own):
        new = table.get(old, old)
        if not CAMEL.fullmatch(old) and old not in KEPT and (new in camel or new in KEPT):
            table[old] = table.get(old, old) + BEHIND
    return table


def words(text, mark):
    """The tokens of a text, without comments and strings."""
    for line in QUIET.sub("", text).split("\n"):
        yield from TOKEN.findall(re.split(r"(?:^|\s)" + mark, line)[0])


def one(m, table):
    """The new word for a token; a word of Rust's, behind a dot, is part of a path."""
    old = m.group(0)
    new = table.get(old, old)
    return old if new.endswith(BEHIND) and "-" not in old and m.string[: m.start()].endswith(".") else new


def foreign(text):
    """The names that a file has from other libraries."""
    names = set()
    for path, group in re.findall(r"^use (\S+)\.\{([^}]*)\}", text, re.M):
        if not re.match(r"Rattle\.(%s)\." % "|".join(os.listdir("crates")), path):
            names |= set(re.split(r",\s*|\s+as\s+", group))
    return names


def turned(text, table, comment):
    out = []
    for line in text.split("\n"):
        at, done = 0, ""
        for quiet in list(QUIET.finditer(line)) + [None]:
            end = quiet.start() if quiet else len(line)
            done += TOKEN.sub(lambda m: one(m, table), line[at:end])
            if quiet:
                done += quiet.group(0)
                at = quiet.end()
        out.append(done)
    return "\n".join(out)


def main():
    if not any(True for _ in files("Proof.antt")):
        sys.exit("there is no proof in the older form: the names were turned already")
    table, own = rows()
    news = {}
    for old, new in table.items():
        news.setdefault(new, []).append(old)
    for new, olds in news.items():
        if len(olds) > 1 or new in own:
            print(f"together: {new}: {' '.join(olds)}{' and itself' if new in own else ''}", file=sys.stderr)
    if "--list" in sys.argv:
        for old, new in table.items():
            print(old, new)
        return
    code = {o: n for o, n in table.items() if CAMEL.fullmatch(o)}
    for kind, names in ((".antt", table), (".rt", code), (".edit", code)):
        for path in files(kind):
            text = read(path)
            there = foreign(text)
            new = turned(text, {o: n for o, n in names.items() if o not in there}, "--" if kind == ".antt" else "//")
            if new != text:
                with open(path, "w", encoding="utf-8") as f:
                    f.write(new)


main()
