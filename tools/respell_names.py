#!/usr/bin/env python3
"""Respells the names of this repository's definitions and lemmas, once, after the port's own scripts.

usage: python3 tools/respell_names.py [--list]      at the top of the repository

Types, facts and modules are in upper camel case; definitions, lemmas, fields of records and local names of proofs are in
snake case. A dash stays where it joins the names of two definitions, as in length-octets. What the check makes (names of goals, and what an
answer cites of them), what the library names, functions of src/, strings, inputs and outputs keep their spelling. Must-fail edits are
respelled where they change the text of specs/, of proofs/ or of a clause.
"""
import os
import re
import sys

ROOT = os.getcwd()
WORD = re.compile(r"[A-Za-z_][\w']*(?:-[\w'*+≤≡ℕ]+)*")
LIBRARY = re.compile(r"^(?:ghost )?use ((?:Rattle\.std|borrow|native|mathlib|Prim|lib)\b[\w.'+-]*)\.\{([^}]*)\}", re.M)
MADE = re.compile(r"^(?:ghost )?use Rattle\.[\w.+'-]*\.(?:Goals|Given)\.\{([^}]*)\}", re.M)
GOAL = re.compile(r"^(?:abbrev )?(?:pub )?([\w'-]+) : goal\.", re.M)
HEAD = re.compile(r"^(?:abbrev |unfoldable )?(?:pub )?(record |data )?([A-Za-z_][\w'-]*)(?=[ :])(?! =)[^=\n]*:", re.M)
FIELD = re.compile(r"^  (?:pub )?([A-Za-z_][\w'-]*)(?:, [\w', -]+)? :", re.M)
OLD_WORDS = {"getD": "get_or", "andThen": "and_then"}
# Where a lemma or a local name would fall together with a definition, the definition has the name.
APART = {
    "ends-at": "ends_at_lem",
    "put_view": "put_view_lem",
    "same_key": "same_key_lem",
    "no_keys": "no_keys_lem",
    "with_keys": "with_keys_lem",
    "same_id": "same_id_lem",
    "id-octets": "id_octets_lem",
    "with-counters": "with_counters_lem",
    "clear-rest": "rest_cleared",
    "octets-read": "name_read",
}
# Ghost members of traits.
MEMBERS = {"tagOf": "tag_of"}


def files(*kinds):
    for folder, dirs, names in os.walk(os.path.join(ROOT, "crates")):
        dirs[:] = sorted(d for d in dirs if d != "out")
        for n in sorted(names):
            if n.endswith(kinds):
                yield os.path.join(folder, n)


def read(path):
    with open(path, encoding="utf-8") as f:
        return f.read()


def without_comments(text):
    return re.sub(r"--(?: .*)?$", "", text, flags=re.M)


def imported(pattern, group, text):
    return {n.strip().split(" as ")[0] for m in pattern.finditer(text) for n in m[group].split(",")}


def is_odd(word):
    return "-" in word or re.match(r"[a-z][a-z0-9_]*[A-Z]", word) is not None


def snake(part):
    if part in OLD_WORDS:
        return OLD_WORDS[part]
    return re.sub(r"(?<=[a-z0-9])([A-Z])", lambda m: "_" + m[1].lower(), part)


def collect():
    types, definitions, fields, words, library, made = set(), set(), set(), set(), set(), set()
    for path in files(".antt"):
        text = read(path)
        library |= imported(LIBRARY, 2, text)
        made |= imported(MADE, 1, text) | {m[1] for m in GOAL.finditer(text)}
        bare = without_comments(re.sub(r"^(?:pub )?use .*$", "", text, flags=re.M))
        for m in HEAD.finditer(bare):
            if m[1] or m[2][0].isupper():
                types.add(m[2])
            elif "/specs/" in path:
                definitions.add(m[2])
        inside = False
        for line in bare.split("\n"):
            if line and not line.startswith(" "):
                inside = bool(re.match(r"(pub )?(record|data) ", line))
            elif inside and (m := FIELD.match(line)):
                fields.add(m[1])
        for m in WORD.finditer(bare):
            if is_odd(m[0]) and (not m.start() or bare[m.start() - 1] != "."):
                words.add(m[0])
    return types, definitions, fields, words, library, made


def names():
    types, definitions, fields, words, library, made = collect()
    known = {snake(d) for d in definitions} | {snake(n) for n in library if "-" not in n and not n[:1].isupper()}
    table = dict(APART)
    for w in sorted(words | {f for f in fields if is_odd(f)}):
        if w in library or w in made or w in table:
            continue
        facts = types | library
        parts = [p if p in facts else snake(p[:1].lower() + p[1:]) for p in w.split("-")]
        if w in types:
            new = "".join(p[:1].upper() + p[1:] for p in parts)
        else:
            new = parts[0]
            for a, b in zip(parts, parts[1:]):
                joins = (a in known or a[:1].isupper()) and b in known
                new += ("-" if joins else "_") + b
        if new != w:
            table[w] = new
    table.update(MEMBERS)
    return table, fields | MEMBERS.keys(), made


def respell(text, table, fields, spans):
    """Respells the words of these spans; behind a dot only fields."""
    out, at = [], 0
    for a, b in spans:
        for m in WORD.finditer(text, a, b):
            w, dotted = m[0], m.start() > 0 and text[m.start() - 1] == "."
            if w in table and (not dotted or w in fields):
                out += [text[at:m.start()], table[w]]
                at = m.end()
    return "".join(out) + text[at:]


def antt_spans(text):
    """All but comments, and of imports what stands in the braces of this repository's own modules."""
    at = 0
    for line in text.splitlines(keepends=True):
        m = re.match(r"(?:pub )?use (Rattle\.(\w+)[\w.+'-]*)\.\{", line)
        if m:
            if m[2] != "std" and not m[1].endswith((".Goals", ".Given")):
                yield at + m.end(), at + len(line)
        elif not re.match(r"(?:pub )?use ", line):
            c = re.search(r"--(?: |$)", line)
            yield at, at + (c.start() if c else len(line))
        at += len(line)


def rt_spans(text):
    """Imports of ghost words, and the braces of clauses and of ghost members."""
    for m in re.finditer(r"^\s*ghost use Rattle\.(\w+)[\w.+'-]*\.\{[^}]*\}", text, re.M):
        if m[1] != "std":
            yield m.start(), m.end()
    for m in re.finditer(r"\b(?:requires|ensures|ghost)\b[^{};\n]*\{", text):
        depth, i = 1, m.end()
        while depth and i < len(text):
            depth += {"{": 1, "}": -1}.get(text[i], 0)
            i += 1
        yield m.start(), i


def ordered(spans):
    at = 0
    for a, b in sorted(spans):
        if b > at:
            yield max(a, at), b
            at = b


def turned(path, text, table, fields):
    if path.endswith(".antt"):
        return respell(text, table, fields, antt_spans(text))
    if path.endswith(".rt"):
        return respell(text, table, fields, ordered(rt_spans(text)))
    name = re.search(r"^file: (\S+)", text, re.M)
    lines = []
    for line in text.split("\n"):
        m = re.match(r"(old|new): ", line)
        if m and name and (name[1].endswith(".antt") or re.search(r"\b(requires|ensures|ghost)\b", line)):
            line = respell(line, table, fields, [(m.end(), len(line))])
        lines.append(line)
    return "\n".join(lines)


def main():
    table, fields, made = names()
    back = {}
    for old, new in table.items():
        back.setdefault(new, []).append(old)
    for new, olds in sorted(back.items()):
        if len(olds) > 1:
            print(f"together: {olds} -> {new}")
    for path in files(".antt"):
        present = set(WORD.findall(without_comments(read(path))))
        for old in sorted(present & table.keys()):
            if table[old] in present:
                print(f"falls together in {os.path.relpath(path, ROOT)}: {old} -> {table[old]}")
    if "--list" in sys.argv:
        for old, new in sorted(table.items()):
            print(f"{old} -> {new}")
        return
    for path in files(".antt", ".rt", ".edit"):
        text = read(path)
        new = turned(path, text, table, fields)
        if new != text:
            with open(path, "w", encoding="utf-8") as f:
                f.write(new)


if __name__ == "__main__":
    main()
