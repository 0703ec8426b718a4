#!/usr/bin/env python3
"""Compares the message table with the texts in boa_engine's source, row by row.

    tests/messages.py BOA

BOA is the folder that holds boa_engine's src/. Message 1 is try_data's text; 2 to 26 are the TypeError texts of the methods from
proxy_exotic_get_prototype_of to proxy_exotic_own_property_keys, each once, as they come. 27 and 28 are to_property_descriptor's;
where the source at hand lacks that function, they are compared with the texts of docs/REFERENCE.md. (29 to 31 are our own.)
The table is read from the Rattle source, crates/message/src/lib.rt.
"""
import pathlib
import re
import sys

QUOTED = ["Property descriptor getter must be callable", "Property descriptor setter must be callable"]


def table(root):
    source = (root / "crates/message/src/lib.rt").read_text()
    rows = [row.rstrip("\0") for row in (r.replace("\\0", "\0") for r in re.findall(r'\*b"([^"]*)"', source))]
    lengths = [int(n) for n in re.search(r"LENGTHS: \[u8; 32\] = \[([^\]]*)\]", source).group(1).replace(",", " ").split()]
    return rows, lengths


def texts_in(source):
    texts = []
    for text in re.findall(r'with_message\(\s*"([^"]*)"', source):
        if text not in texts:
            texts.append(text)
    return texts


def proxy_texts(path):
    source = (path / "src/builtins/proxy/mod.rs").read_text()
    first = texts_in(source[source.index("fn try_data"):])[:1]
    begin = source.index("fn proxy_exotic_get_prototype_of")
    end = source.index("fn proxy_exotic_call")
    return first + [text for text in texts_in(source[begin:end]) if text not in first]


def descriptor_texts(path):
    for file in sorted((path / "src").rglob("*.rs")):
        source = file.read_text()
        begin = source.find("fn to_property_descriptor")
        if begin >= 0:
            found = [text for text in texts_in(source[begin:]) if text.startswith("Property descriptor")]
            if found:
                return found[:2], "boa's source"
    return QUOTED, "docs/REFERENCE.md"


def main():
    if len(sys.argv) != 2:
        sys.exit(__doc__)
    rows, lengths = table(pathlib.Path(__file__).resolve().parent.parent)
    theirs = proxy_texts(pathlib.Path(sys.argv[1]))
    last, where = descriptor_texts(pathlib.Path(sys.argv[1]))
    bad = 0
    if len(rows) != 32 or len(lengths) != 32 or len(theirs) != 26 or rows[0] != "":
        print(f"{len(rows)} rows, {len(lengths)} lengths, {len(theirs)} texts of boa's: expected 32, 32 and 26")
        bad += 1
    for n, text in enumerate(theirs + last, 1):
        if n >= len(rows) or rows[n] != text:
            print(f"message {n}: the table has {rows[n] if n < len(rows) else None!r}, expected {text!r}")
            bad += 1
    for n, (row, length) in enumerate(zip(rows, lengths)):
        if length != len(row):
            print(f"message {n}: length {length}, text of {len(row)}")
            bad += 1
    print(f"messages: {len(theirs)} texts compared with boa's source, {len(last)} with {where}, {bad} differences")
    sys.exit(1 if bad else 0)


main()
