#!/usr/bin/env python3
"""Counts the places of docs/DESIGN-PASS.md in the sources of a commit: `tools/places.py COMMIT [POINT]`; with a point (1 to 7) it lists its places.

A place is a declaration (a type, a function, a loop), not each use of it. The sources are read from git, so that any two commits are counted alike.
"""
import re
import subprocess
import sys
from collections import defaultdict

LISTS = ["links", "parents", "capacities", "gaps", "offsets", "periods", "states", "entries", "rates", "deadlines"]


def git(*words):
    return subprocess.run(["git", *words], capture_output=True, text=True, check=True).stdout


def sources(commit):
    for path in git("ls-tree", "-r", "--name-only", commit, "crates").split():
        if re.match(r"crates/[^/]+/src/.*\.rt$", path):
            yield path, git("show", f"{commit}:{path}")


def block(text, start):
    """The text from a `{` at or behind start to the brace that closes it."""
    at = text.index("{", start)
    depth = 0
    for i in range(at, len(text)):
        depth += {"{": 1, "}": -1}.get(text[i], 0)
        if depth == 0:
            return text[at : i + 1]
    return text[at:]


def without_clauses(text):
    """The source without comments, and each `requires` and `ensures` cut out, since their braces are not code."""
    text = re.sub(r"//[^\n]*", "", text)
    while m := re.search(r"\b(requires|ensures)\*?(\s+\w+)?\s*\{", text):
        text = text[: m.start()] + text[m.start() + text[m.start() :].index("{") + len(block(text, m.start())) :]
    return text


def functions(text):
    code = without_clauses(text)
    for m in re.finditer(r"\bfn (\w+)(<[^>(]*>)?\(", code):
        head = code[m.start() : code.index("{", m.end())]
        yield m.group(1), head, block(code, m.end())


def count_points(commit):
    places = defaultdict(list)
    shapes = defaultdict(list)
    for path, text in sources(commit):
        crate = path.split("/")[1]
        code = re.sub(r"//[^\n]*", "", text)
        # 1: own enums with a case for what is refused, wrong or not there beside one that gives something; flags beside a value; codes and numbers for 'none'
        for m in re.finditer(r"enum (\w+)[^{]*\{([^}]*)\}", code):
            if re.search(r"\b(Refused|Bad|BadLine|Nothing|None|Missing)\b", m.group(2)):
                places[1].append(f"{path}: enum {m.group(1)}")
        for m in re.finditer(r"struct (\w+)[^{]*\{([^}]*)\}", code):
            if re.search(r"\b(given|ok|found|is_some): bool", m.group(2)):
                places[1].append(f"{path}: struct {m.group(1)}, a flag beside a value")
        for m in re.finditer(r"((?:^[ \t]*//[^\n]*\n)+)(?:^#\[[^\n]*\n)*^[ \t]*(?:pub(?:\(crate\))? )?fn (\w+)[^{]*?-> (u8|u16|u32|u64|usize)\b", text, re.M):
            if re.search(r"\b(or|of) (0|63|64)\b|0 where|0 of|, or the (number|text|line)|0 for|one above the last", m.group(1)):
                places[1].append(f"{path}: fn {m.group(2)}, a number for none")
        for name, head, body in functions(text):
            if re.search(r"return (Some\()?\d+;", body) and re.search(r"-> u8", head) and re.search(r"fault|limits", name):
                if not any(f"fn {name}," in p and path in p for p in places[1]):
                    places[1].append(f"{path}: fn {name}, a number for a refusal")
            # 2: functions whose bodies are the same but for names and numbers
            shape = re.sub(r"b\"[^\"]*\"|b'[^']*'|\b\d+\b", "#", body)
            shape = re.sub(r"\b[a-z_]\w*\b(?=\()", "f", shape)
            shape = re.sub(r"\b(?!if\b|let\b|mut\b|while\b|for\b|in\b|return\b|match\b|loop\b|else\b|as\b|f\b)[a-z_]\w*\b", "x", shape)
            shape = re.sub(r"\b[A-Z]\w*\b", "T", re.sub(r"\s+", "", shape))
            if len(shape) > 30 and not path.startswith(("crates/test", "crates/slotplan_lib")):
                shapes[shape].append(f"{path}: fn {name}")
            # 3: loops that count an index by hand
            for m in re.finditer(r"\b(while ([^{;]*)|loop )\{", body):
                inner = block(body, m.start())
                counted = re.findall(r"\b(\w+) [+-]= 1;", inner)
                condition = m.group(2) or inner
                if any(re.search(rf"\b{v}\b", condition) for v in counted):
                    places[3].append(f"{path}: fn {name}, {m.group(0).strip(' {')}")
            # 4: comparison, order and conversion by hand
            if re.fullmatch(r"(same|lists_agree|smaller|nearer|low|high|word|wide|glyph)", name):
                places[4].append(f"{path}: fn {name}")
            # 4 and 6: text put by hand into a borrowed space with the number of taken bytes beside it
            if re.search(r"out: &mut \[u8\],\s*at: usize", head):
                places[6].append(f"{path}: fn {name}, a space and how much of it is taken")
            # 5: three or more of a site's lists passed one by one
            given = [w for w in LISTS if re.search(rf"\b{w}: (&|u8)", head)]
            if len(given) >= 3:
                places[5].append(f"{path}: fn {name}({', '.join(given)})")
            # 6: parallel arrays in locals
            arrays = re.findall(r"let mut (\w+) = \[", body)
            if len(arrays) >= 2 and len(set(re.findall(r"let mut \w+ = \[[^;\]]*; (\w+)\]", body))) == 1:
                places[6].append(f"{path}: fn {name}, arrays side by side: {', '.join(arrays)}")
            # 7: a number that says which step to run
            if re.search(r"match (place|command|number|step) \{\s*\d+ =>", body):
                places[7].append(f"{path}: fn {name}")
    for group in shapes.values():
        if len(group) > 1:
            places[2].append(" = ".join(group))
    return places


def main():
    commit = sys.argv[1] if len(sys.argv) > 1 else "HEAD"
    places = count_points(commit)
    wanted = sys.argv[2:]
    for point in range(1, 8):
        print(f"{point}: {len(places[point])}")
        if str(point) in wanted:
            for place in places[point]:
                print(f"    {place}")


if __name__ == "__main__":
    main()
