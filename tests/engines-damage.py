#!/usr/bin/env python3
"""Shows that the comparison of crates/replay can fail: changes one part of one expectation of the fixed list at a time.

    tests/engines-damage.py [REPLAY]

Each change must be counted as one difference, in that line and that part; a line that is broken must be noticed too. Then it changes how the scripts
number and count objects, and runs them on node: some call must differ. It reads crates/replay/stdin and runs target/bin/replay, or REPLAY;
tests/engines/1-records.js has the layout.
"""
import pathlib
import subprocess
import sys

ROOT = pathlib.Path(__file__).resolve().parent.parent
REPLAY = sys.argv[1] if len(sys.argv) > 1 else ROOT / "target/bin/replay"


class Line:
    def __init__(self, text):
        b = bytes.fromhex(text)
        self.kind, self.room = b[0], int.from_bytes(b[1:3], "little")
        record, sheet = (int.from_bytes(b[i:i + 2], "little") for i in (3, 5))
        self.begin = 9 + record + sheet
        self.record, self.sheet = b[9:9 + record], b[9 + record:self.begin]
        self.code = b[9] if self.kind == 1 and record > 0 else 0
        self.bytes = bytearray(b)
        self.before, self.earlier = b"", self
        e = b[self.begin:]
        self.outcome, self.numbers = e[0], int.from_bytes(e[1:5], "little")
        self.completion = self.begin + 8
        self.output = self.completion + int.from_bytes(e[6:8], "little")
        self.store = self.output + self.room
        self.form = b[self.completion] if self.output > self.completion else 0
        self.objects()

    def value(self, at):
        return at + {0: 1, 1: 1, 2: 2, 4: 9}.get(self.bytes[at], 2)

    # Whether the call added a property.
    def changed_size(self):
        return sum(self.sizes.values()) > sum(self.earlier.sizes.values())

    # Whether the call changed objects, and left room for what they were before it.
    def changed(self):
        now = self.bytes[self.store:]
        return now != self.before and len(now) == len(self.before)

    # Where the parts of the ordinary objects and of the functions stand; by number which are live, the marks, the sizes, and what names which object how.
    def objects(self):
        b, at = self.bytes, self.store + 6
        live = int.from_bytes(b[self.store + 2:self.store + 6], "little")
        self.live = [o for o in range(32) if live >> o & 1]
        self.callable, self.extensible, self.prototypes, self.keys, self.proxies = [], [], [], [], []
        self.marks, self.sizes, self.names, self.places = {}, {}, [], {}
        for o in self.live:
            self.places[o] = at
            if b[at] == 2:
                self.proxies.append(at)
                self.marks[o] = self.sizes[o] = 0
                at += 1
                continue
            self.callable.append(at)
            self.marks[o] = b[at]
            self.extensible.append(at + 1)
            self.prototypes.append(at + 2)
            self.name("prototype", o, at + 2)
            at = self.value(at + 2)
            count, at = int.from_bytes(b[at:at + 2], "little"), at + 2
            keys = []
            for _ in range(count):
                end = self.value(at + 3)
                self.name("get" if b[at + 2] & 1 else "value", o, at + 3)
                if b[at + 2] & 1:
                    self.name("set", o, end)
                    end = self.value(end)
                keys.append((at, end))
                at = end
            self.sizes[o] = count
            self.keys.append(keys)
        assert at == len(b)

    def name(self, way, owner, at):
        if self.bytes[at] in (7, 8):
            self.names.append(("own" if owner == self.bytes[at + 1] else way, self.bytes[at + 1]))

    # Another store in the place of what is there, of any length.
    def replace_store(self, store):
        self.bytes[self.store:] = store
        self.bytes[7:9] = (len(self.bytes) - self.begin).to_bytes(2, "little")


def flip(at, mask):
    def change(line):
        where = at(line)
        for i in range(*where.indices(len(line.bytes))) if isinstance(where, slice) else [where]:
            line.bytes[i] ^= mask
    return change


def swap_entries(line):
    (a, m), (_, z) = next(keys for keys in line.keys if len(keys) > 1)[:2]
    line.bytes[a:z] = line.bytes[m:z] + line.bytes[a:m]


def swap_keys(line):
    o = line.output
    line.bytes[o:o + 18] = line.bytes[o + 9:o + 18] + line.bytes[o:o + 9]


def number(line):
    n = line.bytes[line.begin + 1:line.begin + 5]
    line.bytes[line.begin + 1:line.begin + 5] = (2 if n[0] != 2 else 4).to_bytes(4, "little")


def undone(line):
    line.bytes[line.store:] = line.before


# A step of a code that ended so; message 32 has bit 0.
def level(code, outcome, number=None):
    def fits(line):
        return line.code == code and line.outcome == outcome and (number is None or line.numbers == 1 << number % 32)
    return fits


def both(*tests):
    return lambda line: all(test(line) for test in tests)


# A step of a code that ended so, and has a value of a kind at a place of its record: 2 the key, 11 the value, 20 the receiver, 31, 40 and 49 the parts
# of its descriptor.
def given(code, at, kind, outcome, number=None):
    return both(level(code, outcome, number), lambda line: len(line.record) == 58 and line.record[at] == kind)


# A step whose object is a function.
def on_function(code, outcome, number=None):
    return both(level(code, outcome, number), lambda line: len(line.record) == 58 and line.marks.get(line.record[1]) == 1)


# The first answer is of a tag, and has a value of a kind.
def answers(tag, kind, at=1):
    return lambda line: len(line.sheet) > at + 1 and line.sheet[1] == tag and line.sheet[1 + at] == kind


# A result that is a value of a kind; a property's first part is.
def valued(kind):
    return lambda line: line.outcome in (1, 3) and line.form == 1 and line.bytes[line.completion + 1] == kind


def described(kind):
    return lambda line: line.outcome == 1 and line.form == 2 and line.bytes[line.completion + 2] == kind


# Refusal or message n, and no other, in the place of what is there.
def renumbered(n):
    return lambda line: line.bytes.__setitem__(slice(line.begin + 1, line.begin + 5), (1 << n % 32).to_bytes(4, "little"))


def prototype(line, kind):
    return next((p for p in line.prototypes if line.bytes[p] == kind), None)


# Where a mark says so.
def marked(line, mark):
    return next((at for at in line.callable if line.bytes[at] == mark), None)


def entry(line):
    return next(keys for keys in line.keys if keys)[0][0]


def data(line, kind):
    return next((a for keys in line.keys for a, _ in keys if line.bytes[a + 2] & 1 == 0 and line.bytes[a + 3] == kind), None)


def accessor(line):
    return next((a for keys in line.keys for a, _ in keys if line.bytes[a + 2] & 1 and line.bytes[a + 3] == 8), None)


def is_result(form):
    return lambda line: line.kind == 1 and line.outcome == 1 and line.form == form


# All codes of steps.
CODES = [*range(1, 15), 16, 17, 18, 19]

DAMAGES = [
    ("a result told as a throw", "outcome", is_result(1), flip(lambda l: l.begin, 2)),
    ("a refusal told as a TypeError", "outcome", lambda l: l.outcome == 0, flip(lambda l: l.begin, 2)),
    ("a TypeError told as a refusal", "outcome", lambda l: l.outcome == 2, flip(lambda l: l.begin, 2)),
    ("another refusal", "number", lambda l: l.outcome == 0, number),
    ("another message", "number", lambda l: l.outcome == 2, number),
    ("an answer more, of a result", "answers", is_result(1), flip(lambda l: l.begin + 5, 1)),
    ("an answer more, of a TypeError", "answers", lambda l: l.outcome == 2, flip(lambda l: l.begin + 5, 1)),
    ("an answer more, of a refusal", "answers", lambda l: l.outcome == 0, flip(lambda l: l.begin + 5, 1)),
    ("a boolean result", "completion", lambda l: is_result(1)(l) and l.bytes[l.completion + 1] == 2, flip(lambda l: l.completion + 2, 1)),
    ("a number's last bit", "completion", lambda l: is_result(1)(l) and l.bytes[l.completion + 1] == 4, flip(lambda l: l.completion + 2, 1)),
    ("a number's sign", "completion", lambda l: is_result(1)(l) and l.bytes[l.completion + 1] == 4, flip(lambda l: l.completion + 9, 128)),
    ("a thrown value", "completion", lambda l: l.outcome == 3 and l.bytes[l.completion + 1] == 7, flip(lambda l: l.completion + 2, 1)),
    ("a descriptor's writable", "completion", lambda l: is_result(2)(l) and not l.bytes[l.completion + 1] & 1, flip(lambda l: l.completion + 1, 2)),
    ("a descriptor's enumerable", "completion", is_result(2), flip(lambda l: l.completion + 1, 4)),
    ("a descriptor's configurable", "completion", is_result(2), flip(lambda l: l.completion + 1, 8)),
    ("a descriptor's value", "completion", lambda l: is_result(2)(l) and l.bytes[l.completion + 2] == 4, flip(lambda l: l.completion + 9, 1)),
    ("absence told as null", "completion", is_result(3), flip(lambda l: l.completion, 2)),
    ("a key more", "completion", is_result(4), flip(lambda l: l.completion + 1, 1)),
    ("a verdict", "completion", lambda l: l.outcome == 1 and l.form == 5, flip(lambda l: l.completion + 1, 1)),
    ("the property after a verdict", "completion", lambda l: l.outcome == 1 and l.form == 5 and l.bytes[l.completion + 3] == 2, flip(lambda l: l.completion + 4, 4)),
    ("absence after a verdict told as a property", "completion", lambda l: l.outcome == 1 and l.form == 5 and l.bytes[l.completion + 3] == 3, flip(lambda l: l.completion + 3, 1)),
    ("a completed property", "completion", lambda l: l.kind == 3 and l.outcome == 1, flip(lambda l: l.completion + 1, 4)),
    ("a merged property", "completion", lambda l: l.kind == 6 and l.outcome == 1, flip(lambda l: l.completion + 1, 4)),
    ("a string's number", "completion", lambda l: l.kind == 2 and l.outcome == 1, flip(lambda l: l.completion + 2, 1)),
    ("the order of listed keys", "output", lambda l: is_result(4)(l) and l.bytes[l.completion + 1] > 1, swap_keys),
    ("a listed key", "output", lambda l: is_result(4)(l) and l.bytes[l.completion + 1] > 1, flip(lambda l: l.output + 1, 1)),
    ("an output byte after the keys", "output", lambda l: is_result(4)(l) and l.room > 9 * l.bytes[l.completion + 1], flip(lambda l: l.store - 1, 1)),
    ("an output byte of a refusal", "output", lambda l: l.outcome == 0 and l.room > 0, flip(lambda l: l.output, 1)),
    *[(f"step {code}: refusal 13 told as a result", "outcome", level(code, 0, 13), flip(lambda l: l.begin, 1)) for code in CODES],
    *[(f"step {code}: refusal 13 told as {other}", "number", level(code, 0, 13), renumbered(other)) for code in (1, 11, 14) for other in (8, 9, 11, 12)],
    ("refusal 11 told as 13", "number", level(14, 0, 11), renumbered(13)),
    ("refusal 9 told as 13", "number", level(8, 0, 9), renumbered(13)),
    ("refusal 8 told as 13", "number", level(11, 0, 8), renumbered(13)),
    ("refusal 7 told as 13", "number", level(1, 0, 7), renumbered(13)),
    ("answers of refusal 13", "answers", level(11, 0, 13), flip(lambda l: l.begin + 5, 1)),
    ("an output byte of refusal 13", "output", both(level(14, 0, 13), lambda l: l.room > 0), flip(lambda l: l.output, 1)),
    ("an object more after refusal 13", "store", level(1, 0, 13), flip(lambda l: l.store + 2, 1)),
    ("a property changed by refusal 13", "store", both(level(9, 0, 13), lambda l: any(l.keys)), flip(lambda l: entry(l) + 2, 8)),
    ("how many strings there are", "store", lambda l: l.kind == 1, flip(lambda l: l.store, 1)),
    ("a proxy", "store", lambda l: l.kind == 1 and l.proxies, flip(lambda l: l.proxies[0], 1)),
    ("extensible", "store", lambda l: l.extensible, flip(lambda l: l.extensible[0], 1)),
    ("a prototype", "store", lambda l: any(l.bytes[p] == 7 for p in l.prototypes), flip(lambda l: next(p for p in l.prototypes if l.bytes[p] == 7) + 1, 1)),
    ("a key", "store", lambda l: any(l.keys), flip(lambda l: entry(l) + 1, 1)),
    ("a string key told as a symbol", "store", lambda l: any(l.keys), flip(lambda l: entry(l), 3)),
    ("an accessor told as data", "store", accessor, flip(lambda l: accessor(l) + 2, 1)),
    ("writable", "store", lambda l: data(l, 4), flip(lambda l: data(l, 4) + 2, 2)),
    ("enumerable", "store", lambda l: any(l.keys), flip(lambda l: entry(l) + 2, 4)),
    ("configurable", "store", lambda l: any(l.keys), flip(lambda l: entry(l) + 2, 8)),
    ("a stored number", "store", lambda l: data(l, 4), flip(lambda l: data(l, 4) + 11, 1)),
    ("a stored number's sign", "store", lambda l: data(l, 4), flip(lambda l: data(l, 4) + 11, 128)),
    ("a getter", "store", accessor, flip(lambda l: accessor(l) + 4, 1)),
    ("the order of own keys", "store", lambda l: any(len(k) > 1 for k in l.keys), swap_entries),
    ("the store after a refusal", "store", lambda l: l.kind == 1 and l.outcome == 0 and any(l.keys), flip(lambda l: entry(l) + 2, 4)),
    ("the store after a TypeError", "store", lambda l: l.outcome == 2 and any(l.keys), flip(lambda l: entry(l) + 2, 4)),
    ("step 18: true told as false", "completion", lambda l: level(18, 1)(l) and l.bytes[l.completion + 2] == 1, flip(lambda l: l.completion + 2, 1)),
    ("step 18: false told as true", "completion", lambda l: level(18, 1)(l) and l.bytes[l.completion + 2] == 0, flip(lambda l: l.completion + 2, 1)),
    ("step 18: false told as message 32", "outcome", lambda l: level(18, 1)(l) and l.bytes[l.completion + 2] == 0, flip(lambda l: l.begin, 3)),
    ("step 18: message 32 told as a result", "outcome", level(18, 2, 32), flip(lambda l: l.begin, 3)),
    ("step 18: message 32 told as a throw", "outcome", level(18, 2, 32), flip(lambda l: l.begin, 1)),
    ("step 18: message 32 told as another", "number", level(18, 2, 32), number),
    ("step 18: message 32 told as every other", "number", level(18, 2, 32), flip(lambda l: slice(l.begin + 1, l.begin + 5), 255)),
    ("step 18: another message told as 32", "number", lambda l: level(18, 2)(l) and not l.numbers & 1, lambda l: l.bytes.__setitem__(slice(l.begin + 1, l.begin + 5), bytes([1, 0, 0, 0]))),
    ("step 18: refusal 1 told as 32", "number", level(18, 0, 1), lambda l: l.bytes.__setitem__(slice(l.begin + 1, l.begin + 5), bytes([1, 0, 0, 0]))),
    ("step 18: a refusal of the level", "number", level(18, 0, 3), number),
    ("step 18: an answer more, of message 32", "answers", level(18, 2, 32), flip(lambda l: l.begin + 5, 1)),
    ("step 18: an answer more, of a throw", "answers", level(18, 3), flip(lambda l: l.begin + 5, 1)),
    ("step 18: an answer more, of true", "answers", level(18, 1), flip(lambda l: l.begin + 5, 1)),
    ("step 18: what true changed, undone", "store", both(level(18, 1), Line.changed), undone),
    ("step 18: what was changed before message 32, undone", "store", both(level(18, 2, 32), Line.changed), undone),
    ("step 18: what was changed before another TypeError, undone", "store", both(level(18, 2), Line.changed, lambda l: l.numbers != 1), undone),
    ("step 18: what was changed before a throw, undone", "store", both(level(18, 3), Line.changed), undone),
    ("step 18: a property after message 32", "store", both(level(18, 2, 32), lambda l: any(l.keys)), flip(lambda l: entry(l) + 2, 8)),
    ("step 18: closed although the sheet was spent", "store", both(level(18, 0, 8), lambda l: any(l.bytes[x] for x in l.extensible)), flip(lambda l: next(x for x in l.extensible if l.bytes[x]), 1)),
    ("step 18: closed although an answer was not read", "store", both(level(18, 0, 9), lambda l: any(l.bytes[x] for x in l.extensible)), flip(lambda l: next(x for x in l.extensible if l.bytes[x]), 1)),
    ("step 18: closed although an answer was left", "store", both(level(18, 0, 13), lambda l: any(l.bytes[x] for x in l.extensible)), flip(lambda l: next(x for x in l.extensible if l.bytes[x]), 1)),
    ("step 18: an output byte", "output", lambda l: l.code == 18 and l.outcome == 1 and l.room > 0, flip(lambda l: l.output, 1)),
    ("step 19: true told as false", "completion", lambda l: level(19, 1)(l) and l.bytes[l.completion + 2] == 1, flip(lambda l: l.completion + 2, 1)),
    ("step 19: false told as true", "completion", lambda l: level(19, 1)(l) and l.bytes[l.completion + 2] == 0, flip(lambda l: l.completion + 2, 1)),
    ("step 19: another message", "number", level(19, 2), number),
    ("step 19: an answer more", "answers", level(19, 1), flip(lambda l: l.begin + 5, 1)),
    ("step 19: a refusal of the level", "number", level(19, 0, 3), number),
    ("step 19: the store", "store", both(level(19, 1), lambda l: any(l.keys)), flip(lambda l: entry(l) + 2, 8)),
    ("step 16: a function told as an object", "completion", level(16, 1), flip(lambda l: l.completion + 1, 15)),
    ("step 16: another number", "completion", level(16, 1), flip(lambda l: l.completion + 2, 1)),
    ("step 1: an object told as a function", "completion", level(1, 1), flip(lambda l: l.completion + 1, 15)),
    ("step 16: the mark in the store", "store", level(16, 1), flip(lambda l: l.callable[-1], 1)),
    ("step 1: the mark in the store", "store", level(1, 1), flip(lambda l: l.callable[-1], 1)),
    ("step 16: not extensible", "store", level(16, 1), flip(lambda l: l.extensible[-1], 1)),
    ("step 16: another prototype", "store", given(16, 11, 8, 1), flip(lambda l: l.prototypes[-1] + 1, 1)),
    ("step 16: its prototype told as an object", "store", given(16, 11, 8, 1), flip(lambda l: l.prototypes[-1], 15)),
    ("step 16: an answer more", "answers", level(16, 1), flip(lambda l: l.begin + 5, 1)),
    ("step 16: refusal 1 told as 3", "number", level(16, 0, 1), renumbered(3)),
    ("step 16: refusal 2 of a function told as 3", "number", given(16, 11, 8, 0, 2), renumbered(3)),
    ("step 16: refusal 3 of the wrong kind told as 2", "number", given(16, 11, 7, 0, 3), renumbered(2)),
    ("step 16: refusal 3 told as a result", "outcome", level(16, 0, 3), flip(lambda l: l.begin, 1)),
    ("step 16: refusal 7", "number", level(16, 0, 7), renumbered(1)),
    ("a mark of a function in a later store", "store", both(level(12, 1), lambda l: marked(l, 1)), flip(lambda l: marked(l, 1), 1)),
    ("a mark of an object in a later store", "store", both(level(12, 1), lambda l: marked(l, 0)), flip(lambda l: marked(l, 0), 1)),
    ("a function as prototype", "store", lambda l: prototype(l, 8), flip(lambda l: prototype(l, 8) + 1, 1)),
    ("a function as prototype told as an object", "store", lambda l: prototype(l, 8), flip(lambda l: prototype(l, 8), 15)),
    ("step 5: a prototype that is a function, undone", "store", both(given(5, 11, 8, 1), Line.changed), undone),
    ("step 5: refused for a function as prototype", "outcome", given(5, 11, 8, 1), flip(lambda l: l.begin, 1)),
    ("step 5: false for a cycle told as true", "completion", both(given(5, 11, 8, 1), lambda l: l.bytes[l.completion + 2] == 0), flip(lambda l: l.completion + 2, 1)),
    ("step 1: refused for a function as prototype", "outcome", given(1, 11, 8, 1), flip(lambda l: l.begin, 1)),
    ("step 4: a function told as an object", "completion", both(level(4, 1), valued(8)), flip(lambda l: l.completion + 1, 15)),
    ("step 4: an answered function told as refusal 9", "outcome", both(level(4, 1), answers(1, 8)), flip(lambda l: l.begin, 1)),
    ("step 4: an answered function told as another", "completion", both(level(4, 1), answers(1, 8)), flip(lambda l: l.completion + 2, 1)),
    ("step 4: message 3 for an answered function told as 2", "number", both(level(4, 2, 3), answers(1, 8)), renumbered(2)),
    ("step 11: refused for a function as receiver", "outcome", given(11, 20, 8, 1), flip(lambda l: l.begin, 1)),
    ("step 12: refused for a function as receiver", "outcome", given(12, 20, 8, 1), flip(lambda l: l.begin, 1)),
    ("step 12: what was set on a function, undone", "store", both(given(12, 20, 8, 1), Line.changed), undone),
    ("step 12: true of a function as receiver told as false", "completion", both(given(12, 20, 8, 1), lambda l: l.bytes[l.completion + 2] == 1), flip(lambda l: l.completion + 2, 1)),
    ("step 12: false of a function as receiver told as true", "completion", both(given(12, 20, 8, 1), lambda l: l.bytes[l.completion + 2] == 0), flip(lambda l: l.completion + 2, 1)),
    ("step 9: what was defined on a function, undone", "store", both(on_function(9, 1), Line.changed), undone),
    ("step 13: true of a function told as false", "completion", both(on_function(13, 1), lambda l: l.bytes[l.completion + 2] == 1), flip(lambda l: l.completion + 2, 1)),
    ("step 14: the order of a function's keys", "output", both(on_function(14, 1), lambda l: l.bytes[l.completion + 1] > 1), swap_keys),
    ("step 18: a function's level, undone", "store", both(on_function(18, 1), Line.changed), undone),
    ("step 19: a function's level", "completion", on_function(19, 1), flip(lambda l: l.completion + 2, 1)),
    ("step 18: a mark although the sheet was spent", "store", both(level(18, 0, 8), lambda l: marked(l, 1)), flip(lambda l: marked(l, 1), 1)),
    ("step 2: a proxy over a function told as a result", "outcome", on_function(2, 0, 3), flip(lambda l: l.begin, 1)),
    ("step 2: a proxy over a function told as refusal 2", "number", on_function(2, 0, 3), renumbered(2)),
    ("step 3: a function revoked", "outcome", on_function(3, 0, 3), flip(lambda l: l.begin, 1)),
    ("a getter's answer: a function told as an object", "completion", both(level(11, 1), valued(8)), flip(lambda l: l.completion + 1, 15)),
    ("a getter's answer: another function", "completion", both(level(11, 1), valued(8)), flip(lambda l: l.completion + 2, 1)),
    ("a thrown function told as an object", "completion", both(lambda l: l.outcome == 3, valued(8)), flip(lambda l: l.completion + 1, 15)),
    ("a thrown function told as another", "completion", both(lambda l: l.outcome == 3, valued(8)), flip(lambda l: l.completion + 2, 1)),
    ("a descriptor's getter told as another", "completion", described(8), flip(lambda l: l.completion + 3, 1)),
    ("a descriptor's getter told as an object", "completion", described(8), flip(lambda l: l.completion + 2, 15)),
    ("a stored function told as an object", "store", lambda l: data(l, 8), flip(lambda l: data(l, 8) + 3, 15)),
    ("a stored function told as another", "store", lambda l: data(l, 8), flip(lambda l: data(l, 8) + 4, 1)),
    ("a function that was never made, told as refusal 3", "number", given(11, 20, 8, 0, 2), renumbered(3)),
    ("a function under kind 7, told as refusal 2", "number", given(11, 20, 7, 0, 3), renumbered(2)),
    ("an object under kind 8, told as refusal 2", "number", given(11, 20, 8, 0, 3), renumbered(2)),
    ("a getter under kind 7, told as refusal 4", "number", given(9, 40, 7, 0, 3), renumbered(4)),
    ("an object as getter, told as refusal 3", "number", given(9, 40, 7, 0, 4), renumbered(3)),
    ("an answer under the wrong kind, told as refusal 2", "number", both(on_function(6, 0, 3), answers(1, 8)), renumbered(2)),
    ("an answered function that was never made, told as refusal 3", "number", both(on_function(6, 0, 2), answers(1, 8)), renumbered(3)),
    ("a listed key under the wrong kind, told as refusal 2", "number", both(on_function(6, 0, 3), answers(3, 8, 12)), renumbered(2)),
    ("a function in the place of a descriptor, told as message 7", "outcome", both(level(8, 0, 9), answers(1, 8)), flip(lambda l: l.begin, 2)),
    ("a function in the place of a key list, told as message 31", "outcome", both(level(14, 0, 9), answers(1, 8)), flip(lambda l: l.begin, 2)),
    ("a listed function, told as message 31", "number", both(level(14, 2, 30), answers(3, 8, 12)), renumbered(31)),
    ("a function as a boolean answer told as false", "completion", both(level(10, 1), answers(1, 8)), flip(lambda l: l.completion + 2, 1)),
    ("a fixed function and another, told as a result", "outcome", both(level(11, 2, 17), answers(1, 8)), flip(lambda l: l.begin, 3)),
    ("a descriptor by itself: a function under kind 7", "number", lambda l: l.kind == 3 and l.outcome == 0 and l.numbers == 8 and l.record[2] == 7, renumbered(2)),
    ("a descriptor by itself: a function that was never made", "number", lambda l: l.kind == 5 and l.outcome == 0 and l.numbers == 4 and l.record[11] == 8, renumbered(3)),
    ("a current descriptor: an object under kind 8", "number", lambda l: l.kind == 6 and l.outcome == 0 and l.numbers == 8 and len(l.sheet) == 29 and l.sheet[11] == 8, renumbered(2)),
]


# The number of the first test that fails, told as the next one and as none; 0 told as 1.
def ended(n, kind):
    return lambda line: line.kind == kind and line.outcome == 1 and line.form == 5 and line.bytes[line.completion + 2] == n


def retested(n):
    return lambda line: line.bytes.__setitem__(line.completion + 2, n)


DAMAGES += [(f"test {n} of kind {kind} told as {m}", "completion", ended(n, kind), retested(m))
            for n in range(9) for kind in (4, 5) if (n, kind) != (1, 5) for m in sorted({(n + 1) % 9, 0} - {n})]


# Property pages: a line of names and a line for each property, 47 bytes each.
def page(test=lambda line: True):
    return lambda line: line.kind == 7 and line.outcome == 1 and test(line)


def page_size(line):
    return int.from_bytes(line.bytes[line.completion + 1:line.completion + 3], "little")


def page_refused(n, test=lambda line: True):
    return lambda line: line.kind == 7 and line.outcome == 0 and line.numbers == 1 << n and test(line)


# Where the first line of a page stands whose text passes.
def row(test):
    def find(line):
        starts = range(line.output + 47, line.output + page_size(line), 47) if page()(line) else []
        return next((at for at in starts if test(line.bytes[at:at + 47].decode())), None)
    return find


# A text in the place of what stands at a column of the line.
def retold(find, column, text):
    def change(line):
        at = find(line) + column
        line.bytes[at:at + len(text)] = text.encode()
    return change


def retelling(name, test, column, text):
    find = row(lambda cells: test(cells) and cells[column:column + len(text)] != text)
    return f"a page: {name}", "output", find, retold(find, column, text)


def swap_rows(line):
    o = line.output + 47
    line.bytes[o:o + 94] = line.bytes[o + 47:o + 94] + line.bytes[o:o + 47]


def recount(n):
    def change(line):
        line.bytes[line.completion + 1:line.completion + 3] = (page_size(line) + n).to_bytes(2, "little")
    return change


def cut_record(line):
    line.bytes[3] = 7
    del line.bytes[9]


def is_data(cells):
    return cells[7] != "-"


def is_accessor(cells):
    return cells[7] == "-"


def any_row(cells):
    return True


DAMAGES += [
    *[(f"a page: the names, character {i}", "output", page(), flip(lambda l, i=i: l.output + i, 1)) for i in (0, 3, 4, 5, 7, 8, 9, 20, 26, 27, 28, 45, 46)],
    retelling("a string told as a symbol", lambda c: c[0] == "s", 0, "y"), retelling("a symbol told as a string", lambda c: c[0] == "y", 0, "s"),
    *[retelling(f"digit {i} of a key", any_row, i, d) for i in (1, 2, 3) for d in "19"],
    retelling("key 10", lambda c: c[:4] == "s010", 0, "s10 "), retelling("key 255", lambda c: c[:4] == "y255", 0, "y055"),
    *[retelling(f"a space at {i}", any_row, i, "0") for i in (4, 8, 27)],
    retelling("the end of a line", any_row, 46, " "),
    retelling("enumerable", lambda c: c[5] == "e", 5, "."), retelling("not enumerable", lambda c: c[5] == ".", 5, "e"),
    retelling("configurable", lambda c: c[6] == "c", 6, "."), retelling("not configurable", lambda c: c[6] == ".", 6, "c"),
    retelling("writable", lambda c: c[7] == "w", 7, "."), retelling("not writable", lambda c: c[7] == ".", 7, "w"),
    retelling("data told as an accessor", is_data, 7, "-"), retelling("an accessor told as not writable", is_accessor, 7, "."),
    *[retelling(f"a value of kind {kind} told as the next", lambda c, kind=kind: is_data(c) and c[9:11] == f"0{kind}", 10, f"{(kind + 1) % 9}") for kind in range(9)],
    *[retelling(f"digit {i} of a value", is_data, 9 + i, "5") for i in range(18)],
    retelling("Integer32 1 told as Float64", lambda c: c[9:27] == "030100000000000000", 9, "04000000000000f03f"),
    retelling("Float64 1 told as Integer32", lambda c: c[9:27] == "04000000000000f03f", 9, "030100000000000000"),
    retelling("-0 told as 0", lambda c: c[9:27] == "040000000000000080", 9, "040000000000000000"),
    retelling("a NaN told as the one that was handed in", lambda c: c[9:27] == "04000000000000f87f", 9, "04010000000000f0ff"),
    retelling("a digit as a capital", lambda c: is_data(c) and c[26] == "f", 26, "F"),
    *[retelling(f"digit {i} of a getter", is_accessor, 9 + i, "7") for i in (0, 1, 2, 3, 16, 17)],
    *[retelling(f"digit {i} of a setter", is_accessor, 28 + i, "7") for i in (0, 1, 2, 3, 16, 17)],
    retelling("a getter that is absent told as spaces", lambda c: is_accessor(c) and c[9:27] == "0" * 18, 9, " " * 18),
    retelling("a setter that is absent told as spaces", lambda c: is_accessor(c) and c[28:46] == "0" * 18, 28, " " * 18),
    retelling("no setter of a data property told as undefined", is_data, 28, "0" * 18),
    *[retelling(f"space {i} of a data property", is_data, 28 + i, "0") for i in (0, 9, 17)],
    ("a page: the order of lines", "output", page(lambda l: page_size(l) > 94), swap_rows),
    ("a page: its last digit", "output", page(lambda l: page_size(l) == 12079), flip(lambda l: l.output + 12077, 1)),
    ("a page: its last byte", "output", page(lambda l: page_size(l) == 12079), flip(lambda l: l.output + 12078, 1)),
    ("a page: the byte after it", "output", page(lambda l: l.room > page_size(l)), flip(lambda l: l.output + page_size(l), 1)),
    ("a page: the last byte of its output", "output", page(lambda l: l.room > page_size(l) + 1), flip(lambda l: l.store - 1, 1)),
    *[(f"a page: {n:+} bytes", "completion", page(), recount(n)) for n in (1, -1, 47, -47, 256)],
    ("a page: its count told as one of keys", "completion", page(), flip(lambda l: l.completion, 2)),
    ("a page: an answer more", "answers", page(), flip(lambda l: l.begin + 5, 1)),
    ("a page told as refused", "outcome", page(), flip(lambda l: l.begin, 1)),
    ("a page told as a throw", "outcome", page(), flip(lambda l: l.begin, 2)),
    ("a page: a property of the store", "store", page(lambda l: any(l.keys)), flip(lambda l: entry(l) + 2, 8)),
    ("a page: how many strings there are", "store", page(), flip(lambda l: l.store, 1)),
    ("a function's page", "output", page(lambda l: l.marks.get(l.record[0]) == 1 and page_size(l) > 47), flip(lambda l: l.output + 47 + 26, 1)),
    *[(f"a page: refusal {n} told as {m}", "number", page_refused(n), renumbered(m)) for n in (2, 3, 11) for m in (1, 2, 3, 8, 11, 13) if n != m],
    *[(f"a page: refusal {n} told as a result", "outcome", page_refused(n), flip(lambda l: l.begin, 1)) for n in (2, 3, 11)],
    *[(f"a page: refusal {n}, byte {at} of the output", "output", page_refused(n, lambda l: l.room > 0), flip(lambda l, at=at: range(l.output, l.store)[at], 1)) for n in (2, 3, 11) for at in (0, -1)],
    *[(f"a page: refusal {n}, a property of the store", "store", page_refused(n, lambda l: any(l.keys)), flip(lambda l: entry(l) + 2, 8)) for n in (2, 3, 11)],
    ("a page: a huge number told as a proxy's", "number", page_refused(2, lambda l: any(l.record[4:])), renumbered(3)),
    ("a page: a huge number told as a result", "outcome", page_refused(2, lambda l: any(l.record[4:])), flip(lambda l: l.begin, 1)),
    ("a page: a number of seven bytes", "outcome", page(), cut_record),
]


# Releases. What a list of calls has released, from its lines: `queue` the released numbers before a call, `ever` how many objects were made before it,
# `targets` the target of each proxy and whether it is revoked, `was` what a number had before it was released: its mark, extensible, its size.
def track(lines):
    queue, ever, targets, was, left = [], 0, {}, {}, 0
    for line in lines:
        if line.kind == 0:
            queue, ever, targets, was, left = [], 0, {}, {}, 0
        line.queue, line.ever, line.targets, line.was, line.left = list(queue), ever, dict(targets), dict(was), left
        if line.kind != 1 or line.outcome != 1:
            continue
        o = line.record[1]
        if line.code in (1, 2, 16):
            made = line.bytes[line.completion + 2]
            queue, ever = [n for n in queue if n != made], ever + 1
            if line.code == 2:
                targets[made] = (o, False)
        elif line.code == 3:
            targets[o] = (targets[o][0], True)
        elif line.code == 17:
            before = line.earlier
            queue.append(o)
            targets.pop(o, None)
            was[o] = (before.marks[o], before.bytes[before.places[o]] != 2 and before.bytes[before.places[o] + 1], before.sizes[o])
            left += before.sizes[o]


WAYS = ["prototype", "value", "get", "set", "own", "target"]
releases = level(17, 1)


# Refusal 14 where the object is named in one way alone.
def named_by(way):
    def fits(line):
        if not level(17, 0, 14)(line):
            return False
        o = line.record[1]
        ways = {w for w, n in line.names if n == o} | ({"target"} if (o, False) in line.targets.values() else set())
        return ways == {way}
    return fits


# A step that made an object, with such released numbers before it; one that took a released number.
def makes(test):
    return lambda line: line.kind == 1 and line.code in (1, 2, 16) and line.outcome == 1 and test(line)


def takes(test):
    return makes(lambda line: line.queue and test(line, line.bytes[line.completion + 2]))


# Another number is told, or is live.
def told_as(number):
    return lambda line: line.bytes.__setitem__(line.completion + 2, number(line))


def mark(line, o):
    line.bytes[line.store + 2 + o // 8] ^= 1 << o % 8


def moved_to(number):
    def change(line):
        mark(line, line.bytes[line.completion + 2])
        mark(line, number(line))
    return change


ORDERS = [
    ("the one released last", lambda l: l.queue[-1]), ("the lowest", lambda l: min(l.queue)), ("the highest", lambda l: max(l.queue)), ("the second", lambda l: l.queue[1]),
    ("the next unused one", lambda l: next(n for n in range(32) if n not in l.live and n not in l.queue)),
]


def other_number(number):
    return takes(lambda line, made: len(line.queue) > 1 and len(line.live) + len(line.queue) < 33 and number(line) != made)


# Refusal 2 of a released number at a place of the step, of an answer of a tag, of a descriptor by itself.
def is_name(line, at, record=None):
    record = line.record if record is None else record
    return len(record) > at + 1 and record[at] in (7, 8) and record[at + 1] in line.queue and not any(record[at + 2:at + 9])


PLACES = [("the object", lambda l: l.code not in (1, 16) and l.record[1] in l.queue)] + [
    (name, lambda l, at=at: is_name(l, at)) for name, at in (("the key", 2), ("the value", 11), ("the receiver", 20), ("a descriptor's value", 31), ("a descriptor's get", 40), ("a descriptor's set", 49))] + [
    (name, lambda l, tag=tag, at=at: len(l.sheet) > 1 and l.sheet[1] == tag and l.record[1] in l.live and is_name(l, at, l.sheet))
    for name, tag, at in (("an answer", 1, 2), ("a thrown value", 4, 2), ("a listed key", 3, 4), ("an answered value", 2, 4), ("an answered get", 2, 13), ("an answered set", 2, 22))]


def refused_at(test):
    return lambda line: line.kind == 1 and line.outcome == 0 and line.numbers == 4 and len(line.record) == 58 and test(line)


def broken_sheet(n):
    tests = {1: lambda s: len(s) == 0 or s[0] > 64, 2: lambda s: len(s) > 9 and s[1] == 1 and s[2] in (7, 8) and s[3] == 99, 3: lambda s: len(s) > 9 and s[1] == 4 and s[2] == 5, 13: lambda s: len(s) == 11 and s[1:4] == bytes([1, 2, 1])}
    return both(level(17, 0, 14), lambda line: tests[n](line.sheet))


# The object that was made has the properties of the one that had its number: the entries of a line before, under the new object.
def with_old_properties(line):
    o, old = line.bytes[line.completion + 2], line.released_as
    start, size = old
    at = line.value(line.places[o] + 2)
    line.replace_store(line.bytes[line.store:at] + start + line.bytes[at + 2:])
    assert size > 0


# The last entries that a number's object had in its list, with their count.
def old_properties(lines):
    had = {}
    for line in lines:
        if line.kind == 0:
            had = {}
        made = line.bytes[line.completion + 2] if makes(lambda l: True)(line) else None
        line.released_as = had.get(made)
        for o in line.live:
            if line.bytes[line.places[o]] != 2:
                at = line.value(line.places[o] + 2)
                end = min([line.places[n] for n in line.live if n > o], default=len(line.bytes))
                if line.sizes[o] > 0:
                    had[o] = (bytes(line.bytes[at:end]), line.sizes[o])


def store_before(line):
    line.replace_store(line.before)


DAMAGES += [
    *[(f"named by {way}: 14 told as a result", "outcome", named_by(way), flip(lambda l: l.begin, 1)) for way in WAYS],
    *[(f"named by {way}: 14 told as {m}", "number", named_by(way), renumbered(m)) for way in WAYS for m in (2, 3, 4, 13)],
    *[(f"named by {way}: gone all the same", "store", named_by(way), lambda l: mark(l, l.record[1])) for way in WAYS],
    *[(f"14 with a sheet that would be refused as {n}, told as that", "number", broken_sheet(n), renumbered(n)) for n in (1, 2, 3, 13)],
    *[(f"step 17: refusal {n} told as 14", "number", level(17, 0, n), renumbered(14)) for n in (1, 2, 3, 13)],
    *[(f"step 17: refusal {n} told as a result", "outcome", level(17, 0, n), flip(lambda l: l.begin, 1)) for n in (1, 2, 3, 13)],
    ("step 17: answers of refusal 14", "answers", level(17, 0, 14), flip(lambda l: l.begin + 5, 1)),
    ("step 17: an output byte of refusal 14", "output", both(level(17, 0, 14), lambda l: l.room > 0), flip(lambda l: l.output, 1)),
    ("step 17: a property after refusal 14", "store", both(level(17, 0, 14), lambda l: any(l.keys)), flip(lambda l: entry(l) + 2, 8)),
    ("the target of a revoked proxy told as named", "outcome", both(releases, lambda l: (l.record[1], True) in l.targets.values()), flip(lambda l: l.begin, 1)),
    ("a number that a revoked proxy had as target, taken again, told as named", "outcome", both(releases, lambda l: (l.record[1], True) in l.targets.values() and l.record[1] in l.was), flip(lambda l: l.begin, 1)),
    ("a revoked proxy whose target's number is taken again, told as a result", "outcome", lambda l: l.kind == 1 and l.outcome == 2 and l.numbers == 2 and any((l.record[1], t) == (l.record[1], True) and n in l.was and n in l.live for n, t in [l.targets.get(l.record[1], (0, False))]), flip(lambda l: l.begin, 3)),
    ("a release told as refused", "outcome", releases, flip(lambda l: l.begin, 1)),
    ("a release told as false", "completion", releases, flip(lambda l: l.completion + 2, 1)),
    ("a release told as an object", "completion", releases, flip(lambda l: l.completion + 1, 5)),
    ("a release: an answer more", "answers", releases, flip(lambda l: l.begin + 5, 1)),
    ("a release: an output byte", "output", both(releases, lambda l: l.room > 0), flip(lambda l: l.output, 1)),
    ("a release undone", "store", releases, store_before),
    ("a release of a function undone", "store", both(releases, lambda l: l.was is not None and l.earlier.marks[l.record[1]] == 1), store_before),
    ("a release of a proxy undone", "store", both(releases, lambda l: l.record[1] in l.targets), store_before),
    ("a release: the object is live still", "store", releases, lambda l: mark(l, l.record[1])),
    ("a release: another object is gone", "store", both(releases, lambda l: len(l.live) > 0), lambda l: mark(l, l.live[0])),
    ("a release: another object's property", "store", both(releases, lambda l: any(l.keys)), flip(lambda l: entry(l) + 2, 8)),
    ("a release: the order of another object's keys", "store", both(releases, lambda l: l.earlier.sizes[l.record[1]] > 0 and any(len(k) > 1 for k in l.keys)), swap_entries),
    *[(f"taken again: {name}, told", "completion", other_number(number), told_as(number)) for name, number in ORDERS],
    *[(f"taken again: {name}, live", "store", other_number(number), moved_to(number)) for name, number in ORDERS],
    *[(f"step {code}, taken again: another number", "completion", both(level(code, 1), takes(lambda l, made: True)), flip(lambda l: l.completion + 2, 1)) for code in (1, 2, 16)],
    ("with none released: another number than the next unused one", "completion", makes(lambda l: not l.queue and l.ever > len(l.live)), flip(lambda l: l.completion + 2, 1)),
    ("taken again: the old properties left behind", "store", takes(lambda l, made: l.code != 2 and l.was[made][2] > 0 and l.released_as and l.released_as[1] == l.was[made][2]), with_old_properties),
    ("taken again: still closed", "store", takes(lambda l, made: l.code != 2 and l.was[made][1] == 0), flip(lambda l: l.places[l.bytes[l.completion + 2]] + 1, 1)),
    ("taken again: still a function", "store", takes(lambda l, made: l.code == 1 and l.was[made][0] == 1), flip(lambda l: l.places[l.bytes[l.completion + 2]], 1)),
    ("taken again: no function yet", "store", takes(lambda l, made: l.code == 16 and l.was[made][0] == 0), flip(lambda l: l.places[l.bytes[l.completion + 2]], 1)),
    ("taken again: told as a function still", "completion", takes(lambda l, made: l.code != 16 and l.was[made][0] == 1), flip(lambda l: l.completion + 1, 15)),
    ("a property more than 256 with those of released objects, told as 7", "outcome", lambda l: l.code == 9 and l.outcome == 1 and sum(l.sizes.values()) + l.left > 256 and l.changed_size(), flip(lambda l: l.begin, 1)),
    ("a 257th property after a release, told as a result", "outcome", both(level(9, 0, 7), lambda l: l.left > 0), flip(lambda l: l.begin, 1)),
    *[(f"step {code}: 7 for all objects ever made", "outcome", both(level(code, 1), makes(lambda l: l.ever >= 32)), flip(lambda l: l.begin, 1)) for code in (1, 2, 16)],
    *[(f"step {code}: 7 with 32 live objects, told as a result", "outcome", both(level(code, 0, 7), lambda l: l.ever > 32 and len(l.live) == 32), flip(lambda l: l.begin, 1)) for code in (1, 2, 16)],
    *[(f"a released number as {name}, told as {m}", "number", refused_at(test), renumbered(m)) for name, test in PLACES for m in (1, 3)],
    *[(f"a released number as {name}, told as a result", "outcome", refused_at(test), flip(lambda l: l.begin, 1)) for name, test in PLACES],
    *[(f"step {code} on a released number, told as a result", "outcome", both(level(code, 0, 2), lambda l: l.record[1] in l.queue), flip(lambda l: l.begin, 1)) for code in CODES if code not in (1, 16)],
    *[(f"a descriptor by itself, kind {kind}: a released number told as a result", "outcome", lambda l, kind=kind: l.kind == kind and l.outcome == 0 and l.numbers == 4 and any(is_name(l, at) for at in (2, 11, 20)), flip(lambda l: l.begin, 1)) for kind in (3, 4, 5, 6)],
    *[(f"a current descriptor, kind {kind}: a released number told as a result", "outcome", lambda l, kind=kind: l.kind == kind and l.outcome == 0 and l.numbers == 4 and any(is_name(l, at, l.sheet) for at in (2, 11, 20)), flip(lambda l: l.begin, 1)) for kind in (4, 5, 6)],
    ("a page of a released number told as shown", "outcome", page_refused(2, lambda l: l.record[0] in l.queue), flip(lambda l: l.begin, 1)),
    ("a page of a released number told as a proxy's", "number", page_refused(2, lambda l: l.record[0] in l.queue), renumbered(3)),
    ("a page of an object in an old number", "output", page(lambda l: l.record[0] in l.was and page_size(l) > 47), flip(lambda l: l.output + 47 + 26, 1)),
]


# The scripts changed: other numbers taken, other objects counted or named. A list ends where such a script cannot go on.
LAST = "world.released[world.released.length - 1]"
NAMELESS = ("throw new Error('an object without a number')", "return 0")
MODELS = [
    ("the one released last is taken", [("world.released[0]", LAST), ("world.released.shift()", "world.released.pop()")]),
    ("the lowest released number is taken", [("world.released.push(o);", "world.released.push(o); world.released.sort((x, y) => x - y);")]),
    ("the next unused number is taken while there is one", [("(world.released.length > 0 ? world.released[0] : world.objects.length)", "(world.released.length > 0 && world.objects.length === 32 ? world.released[0] : world.objects.length)"), ("if (world.released.length > 0) { world.released.shift()", "if (n < world.objects.length) { world.released.shift()")]),
    ("the target of a revoked proxy is named", [("!at.revoked && at.target === o", "at.target === o")]),
    ("an object's own property does not name it", [("ways.add(n === o ? 'own' : part)", "n === o || ways.add(part)")]),
    *[(f"a {part} does not name an object", [("ways.add(n === o ? 'own' : part)", f"part === '{part}' && n !== o || ways.add(n === o ? 'own' : part)"), NAMELESS]) for part in ("value", "get", "set")],
    *[(f"a {way} does not name an object", [(f"ways.add('{way}')", "ways"), NAMELESS]) for way in ("prototype", "target")],
    ("a released number is accepted", [("objects[o] !== null, isProxy: (o) => objects[o].proxy, isCallable: (o) => objects[o].callable", "true, isProxy: (o) => (objects[o] || {}).proxy === true, isCallable: (o) => (objects[o] || {}).callable === true")]),
    ("7 counts all objects ever made", [("world.live.length === FULL.objects) return", "world.ever >= FULL.objects) return"), ("world.live.push(n);", "world.live.push(n); world.ever = (world.ever || 0) + 1;")]),
    ("7 counts all numbers ever used", [("world.live.length === FULL.objects) return", "world.objects.length === FULL.objects) return")]),
    ("properties of released objects count among the 256", [("(sum, n) => sum + n, 0) > FULL.properties", "(sum, n) => sum + n, world.left || 0) > FULL.properties"), ("  world.objects[o] = null;", "  if (!world.objects[o].proxy) world.left = (world.left || 0) + Reflect.ownKeys(world.objects[o].it).length;\n  world.objects[o] = null;")]),
]


def script_lines(changes):
    text = "".join(path.read_text() for path in sorted((ROOT / "tests/engines").glob("*.js")))
    for old, new in changes:
        assert old in text, old
        text = text.replace(old, new)
    # what must occur is not asked here
    for old, new in [("calls < limit; ) someWorld(limit);", "calls < limit; ) try { someWorld(limit); } catch (e) { sheet = newSheet([], null); }"), ("calls >= 20000", "false")]:
        assert old in text, old
        text = text.replace(old, new)
    return subprocess.run(["node", "-", "1", "100000"], input=text, capture_output=True, text=True, check=False).stdout.split()


def replay(lines):
    text = "".join(line + "\n" for line in lines)
    return subprocess.run([REPLAY], input=text, capture_output=True, text=True, check=True).stdout.splitlines()


def main():
    lines = (ROOT / "crates/replay/stdin").read_text().split()
    calls = replay(lines)[-1].split()[0]
    if replay(lines)[-1] != f"{calls} calls, 0 differences":
        sys.exit("the fixed list differs as it is")
    bad = 0
    parsed = [Line(text) for text in lines]
    for last, line in zip(parsed, parsed[1:]):
        line.before, line.earlier = bytes(last.bytes[last.store:]), last
    track(parsed)
    old_properties(parsed)
    for name, part, fits, change in DAMAGES:
        at = next(i for i, line in enumerate(parsed) if fits(line))
        line = Line(lines[at])
        for kept in ("before", "queue", "released_as"):
            setattr(line, kept, getattr(parsed[at], kept))
        change(line)
        told = replay(lines[:at] + [line.bytes.hex()] + lines[at + 1:])
        ok = told[0].startswith(f"line {at + 1}: the {part} differs") and told[-1] == f"{calls} calls, 1 differences"
        bad += not ok
        print(f"{name}: {'counted in ' + part if ok else 'NOT counted: ' + told[0][:80] + ' / ' + told[-1]}")
    broken = [("a line cut short", lines[:-1] + [lines[-1][:-2]]), ("a line without a digit", lines[:-1] + [lines[-1][:40] + "g" + lines[-1][41:]]),
              ("a store with a byte more", lines[:-1] + [lines[-1][:14] + f"{int(lines[-1][14:16], 16) + 1:02x}" + lines[-1][16:] + "00"])]
    for name, text in broken:
        ok = replay(text)[-1].endswith(" 1 differences")
        bad += not ok
        print(f"{name}: {'counted' if ok else 'NOT counted'}")
    missing = replay(lines[:-1])[-1] != f"{calls} calls, 0 differences"
    bad += not missing
    print(f"a line less: {'the number of calls tells' if missing else 'NOT noticed'}")
    for name, changes in MODELS:
        told = replay(script_lines(changes))
        ok = told[0].startswith("line ")
        bad += not ok
        print(f"{name}: {'counted' if ok else 'NOT counted'}, {told[-1]}")
    print(f"{len(DAMAGES) + len(broken) + 1 + len(MODELS)} changes, {bad} unnoticed")
    sys.exit(1 if bad else 0)


main()
