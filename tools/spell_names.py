#!/usr/bin/env python3
"""Spells the names that this repository's specs/ and proofs/ declare in snake case, everywhere they stand.

usage: python3 tools/spell_names.py            at the top of the repository, once

A name is respelled where it begins with a small letter and has a hyphen between its words or a capital among them: `first-in` and `firstIn` are `first_in`, and
`getD`, which the library calls `get_or`, is `get_or` in names too. What a file imports from elsewhere, the answers to goals in `proofs/F/` (whose names the check
makes) and the functions of `src/` keep their names. Names that would fall together with another are listed in TAKEN and get the spelling that stands there.
"""

import os
import re
import sys

TOP = os.getcwd()
CRATES = os.path.join(TOP, "crates")
WORD = r"[^\s(){}\[\].;,@\"«»:`]+"
TOKEN = re.compile(WORD)
ANSWER_FILES = ("Proof.antt", "Answers.antt", "Invariants.antt")
# A law that would have its definition's name.
LAWS = """
admit-line base-under cells-after child-sends count-part counts-line digit-is flow-added flow-at flow-bytes
flow-line flow-part flow-typed flow-within flows-below former-form index-from line-shown link-line node-bytes
node-typed node-within number-after number-from read-plan schedule-read schedule-shown schedule-size slot-line slot-ruling
slots-line start-from typed-line slots-of
""".split()
TAKEN = {w: w.replace("-", "_") + "_lem" for w in LAWS} | {"in_order": "in_order_lem", "of_length": "of_length_lem"}


def sources(ending):
    for folder, folders, files in os.walk(CRATES):
        folders[:] = sorted(f for f in folders if f != "out")
        for name in sorted(files):
            if name.endswith(ending):
                yield os.path.join(folder, name)


def read(path):
    with open(path, encoding="utf-8") as f:
        return f.read()


def is_odd(word):
    if not re.match(r"[a-z]", word):
        return False
    return bool(re.search(r"[A-Za-z0-9']-[A-Za-z0-9]", word) or re.search(r"[A-Z]", word))


def spelled(word):
    if word in TAKEN:
        return TAKEN[word]
    word = word.replace("getD", "get_or").replace("get_d_", "get_or_").replace("-", "_")
    return re.sub(r"_?([A-Z])", lambda m: "_" + m[1].lower(), word)


def is_own_module(path, crates):
    parts = path.split(".")
    return len(parts) > 1 and parts[0] == "Rattle" and parts[1] in crates


def imported(text, crates):
    """The names that a file has from elsewhere."""
    found = set()
    for m in re.finditer(r"\buse\s+([^\s{;]+?)\.?\{([^}]*)\}", text):
        if not is_own_module(m[1], crates):
            found |= {w.split(" as ")[-1].strip() for w in m[2].split(",")}
    return found


def bare(text):
    return re.sub(r"--[^\n]*", "", text)


def declared(path, text):
    """The names that a file of antt declares, and those of them that are fields."""
    names, fields = set(), set()
    answers = os.path.basename(path) in ANSWER_FILES
    text = bare(text)
    for m in re.finditer(rf"^( *)(?:\| *)?((?:abbrev|unfoldable|pub|axiom) +)*({WORD}(?: {WORD})*) *:(?=\s+(\S+))", text, re.M):
        if answers and re.match(r"(?:tie|goal)\.|statement$", m[4]):
            continue
        names |= set(m[3].split())
    for m in re.finditer(r"^( *)(?:pub )?record [^\n]*?where *$\n((?:\1 +[^\n]*\n| *\n)*)", text + "\n", re.M):
        for f in re.finditer(rf"^ *(?:pub )?({WORD}(?: {WORD})*) *:(?=\s)", m[2], re.M):
            fields |= set(f[1].split())
    for m in re.finditer(rf"[({{]({WORD}(?: {WORD})*) *: ", text):
        names |= set(m[1].split())
    for m in re.finditer(rf"\blet ({WORD}) *[=:]", text):
        names.add(m[1])
    return names | fields, fields


def table():
    crates = {f for f in os.listdir(CRATES)}
    names, fields, elsewhere = set(), set(), set()
    for path in sources(".antt"):
        text = read(path)
        elsewhere |= imported(text, crates)
        n, f = declared(path, text)
        names |= n
        fields |= f
    rows = {w: spelled(w) for w in sorted(names) if is_odd(w) or w in TAKEN or "get_d_" in w}
    return rows, {w for w in fields if w in rows}, crates, elsewhere


def turned(text, rows, fields, kept, answers):
    def one(m):
        word = m[0]
        primes = re.search(r"'*$", word)[0]
        stem = word[: len(word) - len(primes)]
        key = word if word in rows else stem
        if key not in rows or key in kept:
            return word
        if answers and text[m.start() - 1 : m.start()] == "." and key not in fields:
            before = re.search(r"[^\s(){}\[\],;]*$", text[: m.start()])[0]
            if not before.startswith("Rattle."):
                return word
        return rows[key] + (primes if key == stem and key != word else "")

    return TOKEN.sub(one, text)


def turned_spans(text, rows):
    """A page or a comment: only what stands between back quotes."""
    return re.sub(r"`[^`\n]+`", lambda m: turned(m[0], rows, set(), set(), False), text)


def main():
    rows, fields, crates, elsewhere = table()
    by_new = {}
    for old, new in rows.items():
        by_new.setdefault(new, []).append(old)
    if "--show" in sys.argv:
        for new, olds in sorted(by_new.items()):
            if len(olds) > 1:
                print("together:", new, olds)
        words = set()
        for path in sources((".antt", ".rt")):
            words |= set(TOKEN.findall(bare(read(path))))
        for old, new in sorted(rows.items()):
            if new in words:
                print("stands already:", old, "->", new)
        for w in sorted(set(rows) & elsewhere):
            print("elsewhere too:", w)
        print(len(rows), "names")
        return
    for path in sources(".antt"):
        text = read(path)
        kept = imported(text, crates)
        answers = os.path.basename(path) in ANSWER_FILES
        if answers:
            kept |= {m[1] for m in re.finditer(rf"^({WORD}) *: *(?:(?:tie|goal)\.|statement)", text, re.M)}
        out = []
        for line in text.split("\n"):
            at = re.search(r"(?:^|(?<=\s))--", line)
            code, comment = (line[: at.start()], line[at.start() :]) if at else (line, "")
            out.append(turned(code, rows, fields, kept, answers) + turned_spans(comment, rows))
        write(path, text, "\n".join(out))
    for path in sources(".rt"):
        text = read(path)
        kept = imported(text, crates)
        out = []
        for line in text.split("\n"):
            at = re.search(r"//", line) if '"' not in line else None
            code, comment = (line[: at.start()], line[at.start() :]) if at else (line, "")
            out.append((code if '"' in code else turned(code, rows, fields, kept, False)) + turned_spans(comment, rows))
        write(path, text, "\n".join(out))
    for path in sources(".edit"):
        text = read(path)
        write(path, text, turned(text, rows, fields, elsewhere - {w for w in rows}, False))
    pages = [os.path.join(TOP, "README.md")] + [os.path.join(TOP, "docs", p) for p in sorted(os.listdir(os.path.join(TOP, "docs"))) if p.endswith(".md")]
    for path in pages:
        text = read(path)
        parts = re.split(r"(^```.*?^```$)", text, flags=re.S | re.M)
        parts = [p if p.startswith("```") else turned_spans(p, rows) for p in parts]
        write(path, text, "".join(parts))


def write(path, old, new):
    if new != old:
        with open(path, "w", encoding="utf-8") as f:
            f.write(new)


if __name__ == "__main__":
    # A second run would take a definition for the law that has given way to it.
    if os.path.exists(os.path.join(TOP, "docs", "PORT.md")) and "--show" not in sys.argv:
        sys.exit("tools/spell_names.py: the names were spelled already (docs/PORT.md)")
    main()
