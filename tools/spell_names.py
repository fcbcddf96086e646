#!/usr/bin/env python3
"""Spells the names of specs/, proofs/ and the clauses in snake case, as Rattle's library does.

usage: spell_names.py            at the top of the repository: rewrites crates/, README.md and docs/ in place
       spell_names.py --look     says what it would do, and writes nothing

A name in lower camel case or with dashes becomes one in snake case: recordAt and record-at become record_at. What the library itself names so stays.
Types and modules keep their camel case, and so does code of src/. TOGETHER has a name of its own for each that would fall together with another.
"""

import collections
import os
import re
import sys

KIT = "/opt/rattle/rattle"

# Characters that no name has.
WORD = re.compile(r"[^\s(){}\[\],;.@\"«»·⌜⌝]+")
TOKEN = re.compile(r"(?m)(?:(?<=\s)|^)--[^\n]*|\"(?:[^\"\\]|\\.)*\"|" + WORD.pattern)
TICKED = re.compile(r"`[^`\n]+`")
CLAUSE = re.compile(r"\s*(ghost\b|(?:requires|ensures)\b|decreases\b)")
LETTERS = "ℕℤ"

# Names that would be spelled as another name of the same scope: what they are called. A lemma about a word of its name ends in `_lem`.
LEMMAS = """
    as-set cell-of collection-kind first-call first-list first-path in-each in-set inner-of
    integer-at is-part known-first longest-line loose-each next-list next-path one-role pair-by-pair
    pattern-at result-after role-at role-by slot-at well-formed wide-each wide-ways as_wanted
    cut_by holds_at is_member is_same one_by_one one_way same_bytes step_call
""".split()
TOGETHER = {
    **{name: name.replace("-", "_") + "_lem" for name in LEMMAS},
    "named-before": "is_named_before",
    "to-left": "dealt_left",
    "to-right": "dealt_right",
    "is-map": "for_map",
    "24-then-none": "24_then_none",
    "Items-of": "ItemsOf",
    "Paired-in": "PairedIn",
    "Refused-so": "RefusedSo",
}


def is_turned(word):
    """Whether a word is in lower camel case or has dashes between its parts."""
    if not re.match(r"[a-zμκ]", word):
        return False
    return bool(re.search(r"[\w'₀-₉ℕℤ]-[\w]", word) or re.match(r"[a-z][a-z0-9_']*[A-Zℕℤ]", word))


def spelled(word):
    """The word in snake case."""
    word = word.replace("-", "_")
    word = re.sub(r"(?<=[a-z0-9'])([A-Z])", lambda m: "_" + m.group(1).lower(), word)
    return re.sub(f"(?<=[a-z0-9'])([{LETTERS}])", r"_\1", word)


def files_of(root, endings, skipped=("out",)):
    for folder, dirs, names in os.walk(root):
        dirs[:] = sorted(d for d in dirs if d not in skipped)
        for name in sorted(names):
            if name.endswith(endings):
                yield os.path.join(folder, name)


def read(path):
    with open(path, encoding="utf-8") as f:
        return f.read()


def words_of(text):
    for m in TOKEN.finditer(text):
        if not m.group(0).startswith(("--", '"')):
            yield m.group(0)


def library():
    """Each word of the kit's libraries."""
    found = set()
    for path in files_of(KIT, (".antt",)):
        found.update(words_of(read(path)))
    return found


def clauses_of(text):
    """The lines of a source's clauses and `ghost use` lines, each with whether it is one."""
    depth = 0
    for line in text.split("\n"):
        inside = bool(depth or CLAUSE.match(line))
        if inside:
            depth += line.count("{") - line.count("}")
        yield line, inside


def names(kept):
    """What each word of this repository's specs/, proofs/ and clauses becomes."""
    found = {}
    for path in files_of("crates", (".antt", ".rt")):
        text = read(path)
        if path.endswith(".rt"):
            text = "\n".join(line for line, inside in clauses_of(text) if inside)
        for word in words_of(text):
            if is_turned(word) and word not in kept:
                found[word] = spelled(word)
    return found


def turn_words(text, table):
    return re.sub(WORD.pattern, lambda m: table.get(m.group(0), m.group(0)), text)


def turn_ticked(text, table):
    return TICKED.sub(lambda m: "`" + turn_words(m.group(0)[1:-1], table) + "`", text)


def turn_antt(text, table, walks=False):
    """Code and what comments quote. In a proof that walks the code, where a step may have the name of a lemma, such a name is the lemma's if it is imported."""
    lemmas = TOGETHER
    if walks:
        imported = set(words_of("\n".join(re.findall(r"(?m)^(?:pub )?use .*", text))))
        lemmas = {old: new for old, new in TOGETHER.items() if old in imported}

    def one(m):
        word = m.group(0)
        if word.startswith("--"):
            return turn_ticked(word, table)
        if word in lemmas and text[m.start() - 1 : m.start()] != ".":
            return lemmas[word]
        return word if word.startswith('"') else table.get(word, word)

    return TOKEN.sub(one, text)


def turn_rt(text, table):
    """Clauses, `ghost use` lines and what comments quote."""
    lines = []
    for line, inside in clauses_of(text):
        if inside:
            lines.append(turn_words(line, table))
        elif "//" in line:
            at = line.index("//")
            lines.append(line[:at] + turn_ticked(line[at:], table))
        else:
            lines.append(line)
    return "\n".join(lines)


def turn_edit(text, table):
    """An edit's first lines quote, and its pairs are text of the file that they name."""
    lines, of_antt = [], False
    for line in text.split("\n"):
        if line.startswith("file:"):
            of_antt = line.rstrip().endswith(".antt")
        elif line.startswith(("old:", "new:")):
            line = line[:4] + (turn_antt if of_antt else turn_edit_rt)(line[4:], table)
        lines.append(line)
    return "\n".join(lines)


def turn_edit_rt(text, table):
    return turn_words(text, table) if CLAUSE.match(text) else text


def turned(path, table):
    text = read(path)
    if "/Proof" in path and path.endswith(".antt"):
        return text, turn_antt(text, table, walks=True)
    turn = {".antt": turn_antt, ".rt": turn_rt, ".edit": turn_edit, ".md": turn_ticked}[os.path.splitext(path)[1]]
    return text, turn(text, table)


def together(table, kept):
    """Each file in which two words become one."""
    for path in files_of("crates", (".antt", ".rt")):
        found = collections.defaultdict(set)
        for word in set(words_of(read(path))):
            found[TOGETHER.get(word, table.get(word, word))].add(word)
        for new, olds in sorted(found.items()):
            if len(olds) > 1:
                yield path, new, sorted(olds)


def main(argv):
    kept = library()
    table = names(kept)
    if argv == ["--look"]:
        for path, new, olds in together(table, kept):
            print(f"together: {path}: {new}: {', '.join(olds)}")
        print(f"{len(table)} names")
        return 0
    count = 0
    for path in [*files_of("crates", (".antt", ".rt", ".edit")), "README.md", *files_of("docs", (".md",))]:
        old, new = turned(path, table)
        if old != new:
            count += 1
            with open(path, "w", encoding="utf-8") as f:
                f.write(new)
    print(f"{len(table)} names, {count} files")
    return 0


if __name__ == "__main__":
    raise SystemExit(main(sys.argv[1:]))
