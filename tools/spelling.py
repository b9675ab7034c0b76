#!/usr/bin/env python3
"""Brings the repository's own definitions and lemmas to snake case, as `zeroTensor` to `zero_tensor` and `span-fits` to `span_fits`.

usage: python3 tools/spelling.py [--look]     at the top of the repository; --look only says what would change

It renames what crates/*/specs and the lemma files of crates/*/proofs declare: definitions, lemmas, constructors and record fields whose
names begin with a small letter. Types, functions of src/, fields of structs, and names that the checker makes (of goals, in a function's
own folder) keep theirs. It goes by whole words: in .antt files everywhere but in quoted text; in .rt files in clauses and `ghost use`
lines, and in comments; in must-fail edits everywhere; in pages between backticks. A name that a file imports from a library stays there.
Run it once.
"""

import os
import re
import sys

WORD = re.compile(r"[^\s(){}\[\].;,@\"«»:`|]+")
DECL = re.compile(r"^\s*(?:\| )?((?:pub |abbrev |unfoldable |let )*)((?:[^\s(){}.;,@\"«»:]+ )+)(?:\{[^{}]*\} )*: ")
USE = re.compile(r"^\s*(?:ghost |pub )*use ([^\s;{]+?)(?:\.?\{([^}]*)\})?(?: as ([^\s;]+))?;?\s*$")

# Lemmas that the rule would give the name of a definition, or of a field: they get `_lem`, as in the library.
LEMMAS = (
    "after_first",
    "dst-offset",
    "from_first",
    "head_bytes",
    "low_up",
    "next_row",
    "part_by",
    "place_end",
    "rows_in",
    "run_moved",
    "whole-at",
)


def files(*ends):
    for root, dirs, names in os.walk("."):
        dirs[:] = sorted(d for d in dirs if d not in ("out", "target", ".git", "tools"))
        for n in sorted(names):
            if n.endswith(ends):
                yield os.path.join(root, n)[2:]


def own():
    return sorted(d for d in os.listdir("crates") if os.path.isdir(os.path.join("crates", d)))


def is_function_file(path):
    return os.path.basename(path) in ("Proof.antt", "Answers.antt", "Invariants.antt")


def snake(name):
    if name in LEMMAS:
        return name.replace("-", "_") + "_lem"
    name = re.sub(r"(?<=[a-z0-9])([A-Z])", lambda m: "_" + m[1].lower(), name)
    if re.search(r"-[A-Z]", name):  # a type in a lemma's name keeps its capital
        name = re.sub(r"-(?=[A-Z])", "_", name)
    return name.replace("-", "_")


def declared():
    found = {}
    for path in files(".antt"):
        if not path.startswith("crates/"):
            continue
        if is_function_file(path):
            continue
        with open(path, encoding="utf-8") as f:
            for line in f:
                if line.lstrip().startswith("--"):
                    continue
                m = DECL.match(line)
                if m:
                    for n in m[2].split():
                        if re.match(r"[a-z◌μ]", n):
                            found.setdefault(n, set()).add(path)
    return found


def imports(text):
    """The names that a file takes from a library: these stay in it."""
    ours = tuple("Rattle." + c + "." for c in own())
    taken = set()
    for line in text.splitlines():
        m = USE.match(line)
        if m and not m[1].startswith(ours):
            for item in (m[2] or "").split(","):
                item = item.strip().split(" as ")[-1]
                if item:
                    taken.add(item)
            if m[3]:
                taken.add(m[3])
    return taken


def turn(text, table, stay, after_dot):
    def one(m):
        w = m[0]
        before = text[max(0, m.start() - 24) : m.start()]
        if w in stay or w not in table:
            # names joined by a slash or in brackets of another kind are not cut by WORD
            return w
        if before.endswith("."):
            head = re.search(r"([^\s(){}\[\].;,]+)\.$", before)
            if w not in after_dot or (head and re.search(r"^(tie|goal|goals|made)$|lts$|Lts", head[1])):
                return w
        return table[w]

    return WORD.sub(one, text)


CLAUSE = re.compile(r"(?:requires|ensures)\*?\s*(?:\w+\s*)?\{|ghost\s*(?:\w+\s*:?\s*)?=?\s*\{|ghost use ")


def turn_rt(text, table, stay, after_dot):
    out, at = [], 0
    pattern = re.compile(r"//[^\n]*|" + CLAUSE.pattern)
    while True:
        m = pattern.search(text, at)
        if not m:
            out.append(text[at:])
            return "".join(out)
        out.append(text[at : m.start()])
        if m[0].startswith("//"):
            end = m.end()
        elif m[0] == "ghost use ":
            end = text.index(";", m.end()) + 1
        else:
            depth, end = 1, m.end()
            while depth:
                depth += {"{": 1, "}": -1}.get(text[end], 0)
                end += 1
        names = table if not m[0].startswith("//") else {n: new for n, new in table.items() if n not in LEMMAS}
        out.append(turn(text[m.start() : end], names, stay, after_dot))
        at = end


def turn_page(text, table, after_dot):
    table = {n: new for n, new in table.items() if n not in LEMMAS}
    return re.sub(r"`[^`\n]*`", lambda m: turn(m[0], table, set(), after_dot), text)


def main():
    look = "--look" in sys.argv
    found = declared()
    table = {n: snake(n) for n in found if snake(n) != n}
    # a lemma that would have its definition's name
    definitions = {snake(n) for n in table if "-" not in n}
    table = {n: new + "_lem" if "-" in n and new in definitions else new for n, new in table.items()}
    # ◌orElse◌ is written `orElse` between its arguments
    for n in [n for n in table if n.startswith("◌")]:
        table[n.strip("◌")] = table[n].strip("◌")
    fields = set()
    for path in files(".antt"):
        if path.startswith("crates/") and not is_function_file(path):
            with open(path, encoding="utf-8") as f:
                inside = False
                for line in f:
                    if re.match(r"\s*(pub )?record ", line):
                        inside = True
                    elif line.strip() and not line.startswith(" "):
                        inside = False
                    elif inside:
                        m = DECL.match(line)
                        if m:
                            fields.update(m[2].split())
    # names that fall together
    meets = {}
    for old, new in table.items():
        meets.setdefault(new, []).append(old)
    for new, olds in sorted(meets.items()):
        if len(olds) > 1:
            print("together:", new, "<-", olds)
        if new in found:
            print("meets a name:", olds, "->", new, sorted(found[new])[:2], [sorted(found[o])[:2] for o in olds if o in found])
    if look:
        words = {}
        for path in files(".rt"):
            with open(path, encoding="utf-8") as f:
                t = f.read()
            for m in re.finditer(r"\b([a-z]\w*)\s*:(?!:)", re.sub(r"//[^\n]*", "", t)):
                words.setdefault(m[1], set()).add(path)
        for old, new in sorted(table.items()):
            if new in words:
                print("a parameter or field is called so:", old, "->", new, sorted(words[new])[:3])
        print(len(table), "names")
        return
    for path in files(".antt"):
        if path.startswith("crates/"):
            write(path, lambda t: turn(t, table, imports(t), fields))
    for path in files(".rt"):
        write(path, lambda t: turn_rt(t, table, imports_rt(t), fields))
    for path in files(".edit", ".wrong", ".twin"):
        if "/must-fail/" in path:
            write(path, lambda t: turn(t, table, set(), fields))
    for path in files(".md"):
        write(path, lambda t: turn_page(t, table, fields))


def imports_rt(text):
    return imports("\n".join(l for l in text.splitlines() if l.startswith("ghost use")))


def write(path, change):
    with open(path, encoding="utf-8") as f:
        old = f.read()
    new = change(old)
    if new != old:
        with open(path, "w", encoding="utf-8") as f:
            f.write(new)


main()
