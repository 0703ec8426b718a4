#!/usr/bin/env python3
"""Respells this repository's own words of specs/ and proofs/, once, after port.py of the newer Rattle's kit.

usage: python3 tools/respell.py      at the top of the repository

tools/respelled.tsv lists each word with its new spelling: words in snake case, facts in upper camel case, a lemma that
would have its definition's name with `_lem`. A third column, where there is one, names the files that it holds for:
those that have this text. Comments are respelled only between backticks, texts in quotes never.
"""
import os
import re

WORD = re.compile(r"[^\s(){}\[\]:;,.λ\"⌜⌝`]+")
HERE = os.path.dirname(os.path.realpath(__file__))


def table():
    everywhere, somewhere = {}, []
    with open(os.path.join(HERE, "respelled.tsv"), encoding="utf-8") as f:
        for line in f:
            parts = line.rstrip("\n").split("\t")
            if len(parts) == 2:
                everywhere[parts[0]] = parts[1]
            elif len(parts) == 3:
                somewhere.append(parts)
                narrow.add(parts[0])
    return everywhere, somewhere


narrow = set()


# Today's library has an operator of this name: ours, which chooses between two computations, gets another.
OPERATOR = ("if◌then◌else◌", "when◌then◌else◌")


def operator(code, path):
    code = code.replace(*OPERATOR)
    followed = "" if "/specs/" in path else r".*\sthen\s"
    return re.sub(r"(?<![^\s(])if(?=\s" + followed + ")", "when", code)


def words(text, names):
    """The text with each word respelled; of the third column's, neither a field nor a path's part."""
    def one(m):
        w = m.group(0)
        if w not in names:
            return w
        new = names[w]
        if w in narrow and (text[m.start() - 1 : m.start()] == "." or text[m.end() : m.end() + 1] == "."):
            return w
        return new
    return WORD.sub(one, text)


def outside_quotes(text, names):
    return "".join(p if i % 2 else words(p, names) for i, p in enumerate(re.split(r'("[^"]*")', text)))


def in_backticks(text, names):
    return re.sub(r"`[^`]*`", lambda m: words(m.group(0), names), text)


def line_of(line, mark, names, path):
    if line.lstrip().startswith(mark):
        return in_backticks(line, names)
    m = re.search(r"(?:^|\s)" + re.escape(mark) + r"\s", line)
    code, comment = (line[: m.start()], line[m.start() :]) if m else (line, "")
    if mark == "--":
        code = operator(code, path)
    return outside_quotes(code, names) + in_backticks(comment, names)


def main():
    everywhere, somewhere = table()
    n = 0
    for folder, dirs, files in os.walk("crates"):
        dirs[:] = sorted(d for d in dirs if d != "out")
        for f in sorted(files):
            mark = {"antt": "--", "rt": "//"}.get(f.rpartition(".")[2])
            if not mark:
                continue
            path = os.path.join(folder, f)
            with open(path, encoding="utf-8") as h:
                text = h.read()
            names = dict(everywhere)
            for old, new, where in somewhere:
                if any(w in text or path.endswith(w) for w in where.split(" | ")):
                    names[old] = new
            out = "".join(line_of(line, mark, names, path) for line in text.splitlines(True))
            if out != text:
                with open(path, "w", encoding="utf-8") as h:
                    h.write(out)
                n += 1
    print(f"{n} files respelled")


if __name__ == "__main__":
    main()
