#!/usr/bin/env python3
"""Lists the places of the points of docs/DESIGN-PASS.md: places.py [-v] [FOLDER], at the top of the checkout. -v prints each place."""
import collections
import glob
import re
import sys

VERBOSE = "-v" in sys.argv
FOLDER = [a for a in sys.argv[1:] if a != "-v"] or ["."]
FILES = sorted(glob.glob(FOLDER[0] + "/crates/*/src/*.rt"))
NUMBERED = r"\b(?:refusal|kind|fault|formed|stops|ends|live|twice|unknown|told|near|form): (?:u8|u32|bool)\b"
NONE_BY_NUMBER = r"\b0, if (?:it|the|none)|\(0: none\)|; 0: |; else 0|, or 0|0 says that|; or at\b|, or at\.|; else at\.|8: it is not|answers? 0"
STRIPPED = r"(?ms)^(?:pub(?:\(crate\))? )?(?:unsafe )?fn (\w+)(.*?)\n\}\n"


def body_of(text):
    """A function's code: from the line `{` or the one that ends in ` {` on, without clauses."""
    at = text.find("\n{\n")
    return text[at + 3:] if at >= 0 else text.partition(" {\n")[2]


def shape_of(body):
    """The code with its names, literals and types taken away, by the order in which they first come."""
    known = {}
    words = re.findall(r"b?'(?:\\.|[^'])'|b?\"(?:\\.|[^\"])*\"|\w+|[^\w\s]", re.sub(r"//.*", "", body))
    keep = {"if", "else", "while", "loop", "for", "in", "match", "return", "let", "mut", "as", "len", "true", "false"}
    return tuple(w if w in keep or not re.match(r"[\w'\"]", w) else known.setdefault(w, "x%d" % len(known)) for w in words)


def lines_with(pattern):
    for name in FILES:
        for n, line in enumerate(open(name), 1):
            if re.search(pattern, line) and "ghost use" not in line and "ensures {" not in line and "requires" not in line:
                yield "%s:%d: %s" % (name, n, line.strip()[:110])


def functions():
    for name in FILES:
        text = re.sub(r"(?ms)^impl.*?^\}\n", lambda m: re.sub(r"(?m)^    ", "", m.group())[:-2], open(name).read())
        for m in re.finditer(STRIPPED, text):
            yield name, m.group(1), m.group(2)


def returned_numbers():
    """`return 0;` and the like, but for functions whose numbers count or measure something."""
    for name, fn, text in functions():
        if fn not in {"days_in", "names_used", "digit", "sign_end", "body_start", "named_level"}:
            for number in re.findall(r"(?m)^\s*return (\d+);", text):
                yield "%s %s: %s" % (name, fn, number)


def twins():
    groups = collections.defaultdict(list)
    for name, fn, text in functions():
        body = body_of(text)
        if len(body.split("\n")) >= 3:
            groups[shape_of(body)].append("%s %s" % (name, fn))
    return [", ".join(g) for g in groups.values() if len(g) > 1]


def parameters():
    groups = collections.Counter()
    for _, _, text in functions():
        head = text.partition(")")[0]
        names = sorted(re.findall(r"(\w+): (?:&|usize|Pending|u8|bool)", head))
        for i, a in enumerate(names):
            for b in names[i + 1:]:
                groups[a, b] += 1
    return ["%s, %s: %d" % (a, b, n) for (a, b), n in groups.most_common() if n >= 20]


def facts():
    count = collections.Counter()
    for name in FILES:
        for clause in re.findall(r"(?m)^\s+requires(?: \w+)? \{ (.*) \}$", open(name).read()):
            for fact in clause.split(" × "):
                count[fact.strip("() ")] += 1
    return ["%s: %d" % f for f in count.most_common() if f[1] >= 3]


def show(title, places):
    places = list(places)
    print("%-66s %4d" % (title, len(places)))
    if VERBOSE:
        for p in places:
            print("    " + p)


show("1 enums of its own", lines_with(r"^(?:pub )?enum "))
show("1 fields and parameters that are a flag or a number of a kind", lines_with(NUMBERED))
show("1 refusals by a literal number", lines_with(r"refusal: [1-9]|Refuse\(\d+\)|\b(?:stop|refused_header|unplanned)\(\d+[,)]|no_content\(\w+, [1-9]"))
show("1 numbers answered on the way (none, a kind, an order, a refusal)", returned_numbers())
show("1 answers in which a number says that there is none", lines_with(NONE_BY_NUMBER))
show("2 groups of functions that differ in names, types and constants", twins())
show("3 loops by `while` and `loop`", lines_with(r"^\s*(?:'\w+: )?(?:while|loop)\b"))
show("4 equality, order, copying, clearing written by hand", lines_with(r"^\s*(?:pub )?fn (?:same_\w+|\w+_order|count_told|put_bytes|put3|clear\w*|fill_\w+|move_\w+|copy_\w+|digit|zero_\w+|all_plain|with_byte)\b"))
show("5 pairs of parameters that twenty or more functions take", parameters())
show("5 facts that three or more contracts require", facts())
show("6 arrays with a length beside them", lines_with(r"^\s*let mut \w+ = \[|\b(?:lens|lengths|starts|ends): \["))
show("7 steps chosen by a flag or a number", lines_with(r"\bif (?:command|wanted|told\.kind|t\.kind|kind|form|word|element|t\.element|depth|level|near) (?:==|!=|<|<=) |^\s*if wanted"))
