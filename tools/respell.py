#!/usr/bin/env python3
"""Gives this repository's own definitions and lemmas the spelling of today's Rattle: words in snake case, no capital inside, a dash only
between the names of two functions. It is run once, at the top, right after port.py, on files that nobody has edited since.

usage: python3 tools/respell.py

The names stand in tools/respell.tsv: old, new and, where a row is for some files alone, these files. Where a definition and a law about it
would fall together, the law ends in _lem. What turns:
  .antt   every whole word, in comments too
  .rt     clauses and `ghost use` items; code spans of comments
  .edit   the lines old: and new: of antt files; of .rt files those that are a clause or a `ghost use`
  .md     code spans of README and docs/, but for docs/LANDINGS.md, which tells what was landed in the words of its day
A name of src/ (a function, field, constant or type), an exported name and text in quotes stay.
"""

import glob
import os
import re

HERE = os.path.dirname(os.path.abspath(__file__))
WORD = r"[^\s(){}.;,@\"«»\[\]\\`]+"
ANTT = re.compile(r"\"(?:\\.|[^\"\\])*\"|" + WORD)
SPAN = re.compile(r"`[^`\n]*`")
CLAUSE = re.compile(r"\b(?:requires|ensures)\b\*?(?: \w+)? \{")
# Words of plain English that are also names: they stay in comments.
PROSE = {"well-formed", "read-back", "left-over"}


def table():
    everywhere, somewhere = {}, {}
    with open(os.path.join(HERE, "respell.tsv"), encoding="utf-8") as f:
        for line in f:
            old, new, *files = line.rstrip("\n").split("\t")
            if files:
                for file in files[0].split(" "):
                    somewhere.setdefault(file, {})[old] = new
            else:
                everywhere[old] = new
    return everywhere, somewhere


def names_of_source():
    found = set()
    for file in glob.glob("crates/*/src/*.rt"):
        with open(file, encoding="utf-8") as f:
            found |= set(re.findall(r"[a-z_][a-z0-9_]*", re.sub(r"//[^\n]*", "", f.read())))
    return found


def words(text, names):
    return ANTT.sub(lambda m: names.get(m[0], m[0]), text)


# A proof of a function names steps after the source: behind a dot such a word is Rattle's, not ours.
def words_of_a_proof(text, names, source):
    def one(m):
        behind = text[m.start() - 1 : m.start()] == "."
        plain = m[0].replace("-", "_")
        if behind and plain in source and m[0] in names and "-" in m[0]:
            return plain
        return names.get(m[0], m[0])

    return ANTT.sub(one, text)


def antt(text, names, turn):
    def line(it):
        at = re.search(r"(?<![^\s(){}.;,])--", it)
        code, comment = (it[: at.start()], it[at.start() :]) if at else (it, "")
        said = {k: v for k, v in names.items() if k not in PROSE}
        return turn(code) + words(comment, said)

    return "\n".join(line(it) for it in text.split("\n"))


def spans(text, names):
    return SPAN.sub(lambda m: words(m[0], names), text)


def clause_end(text, at):
    depth = 0
    for i in range(at, len(text)):
        depth += {"{": 1, "}": -1}.get(text[i], 0)
        if depth == 0:
            return i + 1
    return len(text)


def source(text, names):
    out, at = [], 0
    for m in re.finditer(r"//[^\n]*|\bghost use [^;]*;|" + CLAUSE.pattern, text):
        if m.start() < at:
            continue
        out.append(text[at : m.start()])
        if m[0].startswith("//"):
            out.append(spans(m[0], names))
            at = m.end()
        elif m[0].startswith("ghost"):
            out.append(words(m[0], names))
            at = m.end()
        else:
            at = clause_end(text, m.end() - 1)
            out.append(m[0] + words(text[m.end() : at], names))
    return "".join(out) + text[at:]


def edit(text, names):
    out, antt_file = [], False
    for line in text.split("\n"):
        if line.startswith("file:"):
            antt_file = line.endswith(".antt")
        elif line.startswith(("old:", "new:")):
            line = line[:4] + (words(line[4:], names) if antt_file else source(line[4:], names))
        else:
            line = words(line, names)
        out.append(line)
    return "\n".join(out)


def main():
    everywhere, somewhere = table()
    known = names_of_source()
    files = glob.glob("crates/**/*", recursive=True) + ["README.md"] + glob.glob("docs/*.md")
    for file in sorted(f for f in files if os.path.isfile(f) and "/out/" not in f):
        if file in ("docs/LANDINGS.md", "docs/PORT.md"):
            continue
        names = {**everywhere, **somewhere.get(file, {})}
        with open(file, encoding="utf-8") as f:
            text = f.read() if file.endswith((".antt", ".rt", ".edit", ".md")) else ""
        if file.endswith("/Proof.antt"):
            new = antt(text, names, lambda t: words_of_a_proof(t, names, known))
        elif file.endswith(".antt"):
            new = antt(text, names, lambda t: words(t, names))
        elif file.endswith(".rt"):
            new = source(text, names)
        elif file.endswith(".edit"):
            new = edit(text, names)
        elif file.endswith(".md"):
            new = spans(text, names)
        else:
            continue
        if new != text:
            with open(file, "w", encoding="utf-8") as f:
                f.write(new)
            print(file)


if __name__ == "__main__":
    main()
