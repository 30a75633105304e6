#!/usr/bin/env python3
"""Brings the repository's own definitions, lemmas and fields to the spelling of today's Rattle.

usage: tools/respell.py [--names]      at the top of the repository, once, right after port.py

Words are in snake case: `floorDiv` is `floor_div`, a field `keys-are` is `keys_are`. A dash stays only
between two names, as in `length-tab`. Types and modules, functions of src/, exported names, strings,
inputs and outputs keep their names. It rewrites files below crates/: specs/, proofs/, the clauses of
src/, and the texts of must-fail/. With --names it only prints what it would rename, a line each.
It stops where two names would fall together.
"""

import collections
import glob
import re
import sys

TOKEN = re.compile(r"[^\s(){}\[\];,.\"«»\\⟦⟧`:]+|:=?")
# a declaration: words, names, maybe parameters, a colon
DECLARES = re.compile(
    r"^(\s*)((?:(?:unfoldable|abbrev|pub|opaque)\s+)*)([^\s(){}\[\]:;,.]+(?: [^\s(){}\[\]:;,.]+)*)((?:\s*[({][^(){}]*[)}])*)\s*:\s"
)
WORDS = set("let in where use module record data elim do as if".split())
# names of the libraries that lemmas are named after
LIBRARY = set(
    "length take drop get_or append map set sets replicate reverse sum max min mod div add mul sub suc zero nat_abs pos "
    "negsuc flat_map concat head tail fold mem filter nil cons all any eqb leb ltb dots".split()
)


def texts():
    for kind in ("specs", "proofs"):
        yield from sorted(glob.glob(f"crates/*/{kind}/**/*.antt", recursive=True))


def snake(word):
    """Lower camel case to snake case; a word that begins with a capital is a type's, and stays."""
    if not word[:1].islower():
        return word
    return re.sub(r"(?<=[a-z0-9'₀-₉])([A-Zℕℤ𝔹])", lambda m: "_" + m.group(1).lower().replace("ℕ", "ℕ"), word)


def part(word):
    arrow = word.split("→")
    return "→".join({"getD": "get_or"}.get(w, snake(w)) for w in arrow)


def declared():
    """Every name that the files declare: name -> kinds, of 'def', 'lemma', 'field', 'answer'."""
    kinds = collections.defaultdict(set)
    for path in texts():
        inside, indent = None, 0
        for line in open(path, encoding="utf-8"):
            if re.match(r"\s*(--|use )", line):
                continue
            here = re.match(r"(\s*)(?:pub )?(?:record|data) ", line)
            if here:
                inside, indent = "field", len(here.group(1))
            elif line.strip() and inside and len(line) - len(line.lstrip()) <= indent:
                inside = None
            m = DECLARES.match(line)
            if not m or here:
                continue
            for name in m.group(3).split(" "):
                if name in WORDS or name == "_":
                    break
                if re.search(r"tie\.\S*Need-|tie\.\S*(invariant|decreases)", line) or name.endswith("-spec") or "/+" in path:
                    kinds[name].add("answer")
                elif inside:
                    kinds[name].add("field")
                elif re.search(r"unfoldable|abbrev", m.group(2)):
                    kinds[name].add("def")
                else:
                    kinds[name].add("lemma")
    return kinds


def functions():
    """The names of the functions of src/, which keep their spelling."""
    found = set()
    for path in glob.glob("crates/*/src/*.rt"):
        found |= set(re.findall(r"\bfn (\w+)", open(path, encoding="utf-8").read()))
    return found


def renaming(kinds):
    plain = {n for n in kinds if kinds[n] & {"def", "field"} and "-" not in n}
    names = {part(n) for n in plain} | functions() | LIBRARY
    new = {}
    for name in kinds:
        if kinds[name] == {"answer"} or re.search(r"[◌_]$|^[◌]", name):
            continue
        parts = [part(w) for w in name.split("-")]
        if not all(parts):
            continue
        out = parts[0]
        known = parts[0] in names or parts[0][:1].isupper()
        for w in parts[1:]:
            joined = known and (w in names or w[:1].isupper())
            if not re.match(r"\w", w) or not re.match(r".*\w$", out):
                joined = True
            if kinds[name] & {"field", "def"}:
                joined = False
            out += ("-" if joined else "_") + w
            known = w in names or w[:1].isupper()
        if out != name:
            new[name] = out
    return new


def apart(new):
    """The places where, in one file, two names would become one: new name -> the old ones and the file."""
    clash = {}
    for path in [*texts(), *sorted(glob.glob("crates/*/src/*.rt"))]:
        seen = collections.defaultdict(set)
        for line in open(path, encoding="utf-8"):
            if path.endswith(".rt") and not re.match(r"\s*(ghost|requires|ensures)\b", line):
                continue
            if re.match(r"\s*(--|//)", line):
                continue
            for m in TOKEN.finditer(line):
                if "." not in line[m.start() - 1 : m.start()] + line[m.end() : m.end() + 1]:
                    seen[new.get(m.group(0), m.group(0))].add(m.group(0))
        for name, old in seen.items():
            if len(old) > 1:
                clash.setdefault(name, (sorted(old), path))
    return clash


def rewritten(line, new, fields, prose):
    def turn(m):
        word = m.group(0)
        if word not in new:
            return word
        before = line[: m.start()]
        if before.endswith(".") and word not in fields and not re.search(r"\b[A-Z]\w*\.$", before):
            return word
        if prose and "-" in word and not before.endswith("`"):
            return word
        return new[word]

    return TOKEN.sub(turn, line)


def turn(path, new, fields):
    with open(path, encoding="utf-8") as f:
        lines = f.read().split("\n")
    out = []
    for line in lines:
        mark = re.search(r"(?:^|\s)(--|//|#(?!\[|!))", line)
        code, note = (line[: mark.start()], line[mark.start() :]) if mark else (line, "")
        out.append(rewritten(code, new, fields, False) + rewritten(note, new, fields, True))
    text = "\n".join(out)
    if text != "\n".join(lines):
        with open(path, "w", encoding="utf-8") as f:
            f.write(text)


def main(argv):
    kinds = declared()
    new = renaming(kinds)
    for old, name in PICKED.items():
        new[old] = name
    together = apart(new)
    if argv == ["--names"]:
        for old in sorted(new):
            print(old, new[old], ",".join(sorted(kinds[old])), "TOGETHER" if new[old] in together else "")
        return 0
    if together:
        for name, (old, path) in sorted(together.items()):
            print(f"fall together: {name}: {', '.join(old)} in {path}")
        return 1
    fields = {n for n in new if "field" in kinds[n]}
    for path in [*texts(), *sorted(glob.glob("crates/*/src/*.rt")), *sorted(glob.glob("crates/*/must-fail/*.edit"))]:
        turn(path, new, fields)
    print(f"{len(new)} names respelled")
    return 0


# Names that would fall together otherwise, with the names that they get.
PICKED = {
    "block-at": "block_at_lem",
    "block-count": "block_count_lem",
    "example-answers": "example_answers_lem",
    "few-lines": "few_lines_is",
    "group_at": "group_at_lem",
    "grouping-vector": "grouping_vector_lem",
    "header_of": "header_of_lem",
    "header_read": "header_read_lem",
    "message-count": "message_count_is",
    "no-leading-zero": "no_leading_zero_is",
    "one_bit": "one_bit_lem",
    "points-by": "points_by_lem",
    "processor-count": "processor_count_is",
    "put-row": "put_row_lem",
    "short-last": "short_last_lem",
    "step_count": "step_count_is",
    "text-with": "text_with_lem",
}

if __name__ == "__main__":
    raise SystemExit(main(sys.argv[1:]))
