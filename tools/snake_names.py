#!/usr/bin/env python3
"""Brings the names of specs/ and proofs/ to Rattle's spelling: words in snake case, a dash only between the names of two functions.

usage: tools/snake_names.py [--list]     at the top of the repository, right after the toolchain's port.py; --list prints the renamings alone

Types, facts and modules keep their upper camel case, and so do constructors that have the name of an enum's variant. A fact in lower camel
case becomes upper camel case. What a proof of a function calls its goals is left alone. In comments only names in backquotes are turned.
"""

import collections
import os
import re
import sys

# words of the library that names of lemmas are made of: a dash stays between two of these, or one and a function of the repository in camel case
STD_WORDS = set("length take drop append map set get_or sum min max to_bits reverse replicate concat foldr fits".split())
# names that would fall together with another one, and facts in lower camel case
BY_HAND = {
    "attributeKind": "attribute_kind_at",
    "attributeLength": "attribute_length_at",
    "attributeZero": "attribute_zero_at",
    "kindNumbers": "numbers_of_kind",
    "nodeTag": "node_tag_at",
    "nodeZero": "node_zero_at",
    "pairLength": "pair_length_at",
    "tokenWithin": "TokenWithin",
    "wordWithin": "WordWithin",
    "textStepWithin": "TextStepWithin",
    "noneOf": "NoneOf",
    "numbers-in": "numbers_in_lem",
    "plain-length": "plain_length_value",
    "at-end": "at_the_end",
}
# names of arguments in definitions
ARGUMENTS = ["objectUnits", "boxSide", "boxCorner", "refBytes", "filterRegion", "zeroByte", "filterRect"]
HEAD = re.compile(r"^(\s*)((?:(?:pub|abbrev|unfoldable) )*)(data |record )?([^\s(){}:,;=]+(?: [^\s(){}:,;=]+)*?)((?: ?\([^=]*\)| ?\{[^=]*\})*) ?:(?: |$)(.*)$")
TOKEN = re.compile(r"[^\s(){}\[\];,.=:\"λ→`|@«»]+")
CAMEL = re.compile(r"(?<=[a-z0-9])(?=[A-Z])|(?<=[A-Z])(?=[A-Z][a-z])")
IDS = {"AId": "aid", "EId": "eid"}


def files(root, ends):
    for folder, dirs, names in os.walk(os.path.join(root, "crates")):
        dirs[:] = sorted(d for d in dirs if d != "out")
        for n in sorted(names):
            if n.endswith(ends):
                yield os.path.join(folder, n)


def snake(word):
    return CAMEL.sub("_", word).lower()


def code(text, rt):
    """The spans of a text that are code, and those in backquotes in its comments."""
    comment, string = ("//", r'b?"(?:\\.|[^"\\])*"') if rt else ("--", r'"(?:\\.|[^"\\])*"')
    at = 0
    spans = []
    for m in re.finditer(r"(?m)(%s(?:[ \n].*|$))|(%s)" % (comment, string), text):
        spans.append((at, m.start()))
        if m.group(1):
            spans += [(m.start() + q.start() + 1, m.start() + q.end() - 1) for q in re.finditer(r"`[^`\n]+`", m.group())]
        at = m.end()
    spans.append((at, len(text)))
    return spans


def defined(root):
    """Each name that a file of specs/ or proofs/ gives, with whether it is a function or a type (not a lemma), and the goals of each proof."""
    plain, lemmas, goals = set(), set(), {}
    for p in files(root, ".antt"):
        own = goals.setdefault(p, set())
        with open(p, encoding="utf-8") as f:
            lines = f.read().split("\n")
        inside = None
        for l in lines:
            m = HEAD.match(l)
            if not m or l.lstrip().startswith(("--", "let ", "use ", "module ", "λ")):
                continue
            if re.match(r"(tie|goal|Tie)\.|.*statement M$", m[6]) or re.match(r"(tie|goal)\.", m[6]):
                own.update(m[4].split(" "))
                continue
            if m[3]:
                inside = len(m[1])
            elif inside is not None and len(m[1]) <= inside:
                inside = None
            function = inside is not None or "abbrev" in m[2] or "unfoldable" in m[2]
            function = function or ("-" not in m[4] and "≡" not in m[6] and re.search(r"(Type 0|ℕ|Bool|List .*|Option .*)$", m[6]))
            (plain if function else lemmas).update(m[4].split(" "))
    return plain, lemmas, goals


def new_name(name, plain):
    if name in BY_HAND:
        return BY_HAND[name]
    if "·" in name:
        return "_".join(IDS.get(p, snake(p)) for p in name.split("·"))
    if name[0].isupper() and "-" not in name:
        return name
    parts = name.split("-") if not name.startswith("-") else [name]
    out = ""
    for i, p in enumerate(parts):
        turned = p if p[:1].isupper() and parts[0] != "w" or not re.match(r"^◌?[A-Za-z_]", p) else snake(p)
        if i:
            both = all(q in STD_WORDS or (q in plain and CAMEL.search(q)) for q in (parts[i - 1], p))
            out += "-" if both else "_"
        out += turned
    return out


def renamings(plain, lemmas, words):
    """Each name that changes, with its new one. A lemma that would have its function's name, or another word of the tree, ends in `_lem`."""
    into = collections.defaultdict(list)
    for n in sorted(plain | lemmas | words):
        into[new_name(n, plain) if n in plain or n in lemmas else n].append(n)
    turned = {}
    for new, old in into.items():
        functions = [n for n in old if n in plain]
        for n in old:
            alone = len(old) == 1 or n in functions or (not functions and n != new and new not in words)
            if n in lemmas and n not in plain and not alone:
                turned[n] = new + "_lem"
            elif n != new:
                turned[n] = new
    return turned


def names_brought_in(root):
    """Names that files take from the library."""
    words = set()
    for p in files(root, ".antt"):
        with open(p, encoding="utf-8") as f:
            for m in re.finditer(r"(?m)^use (?!Rattle\.(?!std))[^{\n]*\{([^}]*)\}", f.read()):
                words.update(w.strip() for w in m[1].split(","))
    return words


def main(argv):
    root = os.getcwd()
    plain, lemmas, goals = defined(root)
    every_goal = set().union(*goals.values())
    turned = renamings(plain, lemmas, names_brought_in(root)) | {a: snake(a) for a in ARGUMENTS}
    if "--list" in argv:
        into = collections.Counter(turned.values())
        words = set()
        for p in files(root, (".antt", ".rt")):
            with open(p, encoding="utf-8") as f:
                t = f.read()
            for a, b in code(t, p.endswith(".rt")):
                words.update(TOKEN.findall(t[a:b]))
        for a, b in turned.items():
            print(a, b, "TWICE" if into[b] > 1 else "", "CLASH" if b in words else "", "GOAL" if a in every_goal else "")
        return
    for p in files(root, (".antt", ".rt", ".edit")):
        with open(p, encoding="utf-8") as f:
            t = f.read()
        kept = goals.get(p, set())
        rt = p.endswith(".rt")

        def one(m):
            w = m.group()
            return w if w in kept else turned.get(w, w)

        out, at = "", 0
        for a, b in code(t, rt):
            out += t[at:a] + TOKEN.sub(one, t[a:b])
            at = b
        out += t[at:]
        if out != t:
            with open(p, "w", encoding="utf-8") as f:
                f.write(out)


if __name__ == "__main__":
    main(sys.argv[1:])
