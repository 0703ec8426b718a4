// Calls of the entries, performed on a JavaScript engine's own objects, for crates/replay to compare with.
//
// The files of this folder, joined in their order, are one plain script for node (V8), gjs (SpiderMonkey) and jsc (JavaScriptCore):
//
//     node SCRIPT SEED CALLS [fixed]     gjs SCRIPT SEED CALLS     jsc SCRIPT -- SEED CALLS
//
// It prints a line for each call, in hexadecimal. Numbers are little-endian; the parts stand without gaps:
//
//     head          kind (1), room (2), record length (2), sheet length (2), expectation length (2)
//     record        kind 1: a step, 2: a string's code units (2 bytes each), 3 to 6: a descriptor, 7: an object's number (8)
//     sheet         kind 1: the answer sheet; 4 to 6: the current descriptor, none for an absent property
//     expectation   outcome (1): 0 refused, 1 result, 2 TypeError, 3 throw
//                   numbers (4): bit n is set where refusal or message n would be right, bit 0 for message 32; the engine's text may
//                   fit several messages
//                   answers used (1)
//                   completion: its length (2), then 1 a value, 2 a property, 3 absence, 4 and how many keys (2), 5 yes or no, the
//                   number of the first test that fails (1, 0 where none does), and the property or absence after it, or 6 and how
//                   many bytes of a page (2)
//                   the output after the call: room bytes, each 0xee before it
//                   the store after the call: how many strings (2), which numbers have a live object (4, a bit for each), then each
//                   live object by its number: 2 for a proxy, or callable (0 or 1), extensible (0 or 1), the prototype, how many own
//                   keys (2), and in their order kind, number and property
//
// Kinds: 0 empties store and strings, 1 a step, 2 the entering of a string, 3 completing, 4 and 5 validating on a target that is
// not and that is extensible, 6 merging, 7 a property page. A value is its kind and nothing (undefined, null), 1 byte (boolean, string, symbol, object,
// function), or 8: a number is always written as kind 4 and the bits of its Float64, a NaN as 0x7ff8000000000000, so that
// equal bytes are SameValue. A property is flags (accessor 1, writable 2, enumerable 4, configurable 8), then value, or get and set.
'use strict';

const HEX = Array.from({ length: 256 }, (_, n) => (n < 16 ? '0' : '') + n.toString(16));
const hexOf = (bytes) => { let text = ''; for (let i = 0; i < bytes.length; i++) text += HEX[bytes[i]]; return text; };
const hex2 = (n) => HEX[n & 255] + HEX[n >> 8];

// Byte records: values, descriptors, steps, sheets ------------------------------------

const ZERO = [0, 0, 0, 0, 0, 0, 0, 0, 0];
const view = new DataView(new ArrayBuffer(8));
const numbered = (kind, n) => [kind, n & 255, n >> 8 & 255, 0, 0, 0, 0, 0, 0];
const UNDEFINED = ZERO, NULL = [1, 0, 0, 0, 0, 0, 0, 0, 0];
const boolean = (b) => [2, b ? 1 : 0, 0, 0, 0, 0, 0, 0, 0];
const string = (n) => numbered(5, n), symbol = (n) => numbered(6, n), object = (n) => numbered(7, n), callable = (n) => numbered(8, n);

function integer(n) {
  view.setInt32(0, n, true);
  return [3, view.getUint8(0), view.getUint8(1), view.getUint8(2), view.getUint8(3), 0, 0, 0, 0];
}

function float(x) {
  view.setFloat64(0, x, true);
  const bytes = [4];
  for (let i = 0; i < 8; i++) bytes.push(view.getUint8(i));
  return bytes;
}

// The number that bytes hold; from 2^53 on it is only near, which is far above every bound that it is compared with.
const numberOf = (bytes, from, to) => { let n = 0; for (let i = to - 1; i >= from; i--) n = n * 256 + bytes[i]; return n; };
const payload = (v) => numberOf(v, 1, 9);

// A descriptor: fields enumerable, configurable, writable (booleans), value, get, set (values), each where present.
const FIELDS = [['enumerable', 1], ['configurable', 2], ['writable', 4], ['value', 8], ['get', 16], ['set', 32]];

function descriptorBytes(d) {
  let mask = 0, flags = 0;
  for (const [name, bit] of FIELDS) if (name in d) { mask |= bit; if (bit < 8 && d[name]) flags |= bit; }
  return [mask, flags].concat(d.value || ZERO, d.get || ZERO, d.set || ZERO);
}

function descriptorOf(bytes) {
  const d = {};
  for (const [name, bit] of FIELDS) {
    if (bytes[0] & bit) d[name] = bit < 8 ? (bytes[1] & bit) !== 0 : bytes.slice(bit === 8 ? 2 : bit === 16 ? 11 : 20, bit === 8 ? 11 : bit === 16 ? 20 : 29);
  }
  return d;
}

const stepBytes = (s) => [s.code, s.object || 0].concat(s.key || ZERO, s.value || ZERO, s.receiver || ZERO, descriptorBytes(s.descriptor || {}));
const stepOf = (b) => ({ code: b[0], object: b[1], key: b.slice(2, 11), value: b.slice(11, 20), receiver: b.slice(20, 29), descriptor: descriptorOf(b.slice(29)) });

// An answer: { tag, value } for 1 and 4, { tag, descriptor } for 2, { tag, list } for 3.
const answered = (value) => ({ tag: 1, value }), described = (descriptor) => ({ tag: 2, descriptor });
const listed = (list) => ({ tag: 3, list }), thrown = (value) => ({ tag: 4, value });

function answerBytes(a) {
  if (a.tag === 2) return [2].concat(descriptorBytes(a.descriptor));
  if (a.tag === 3) return [3, a.list.length & 255, a.list.length >> 8].concat(...a.list);
  return [a.tag].concat(a.value);
}

const sheetBytes = (answers) => [answers.length].concat(...answers.map(answerBytes));

function sheetOf(bytes) {
  const answers = [];
  let at = 1;
  for (let i = 0; i < bytes[0]; i++) {
    const tag = bytes[at];
    if (tag === 2) { answers.push(described(descriptorOf(bytes.slice(at + 1, at + 30)))); at += 30; } else if (tag === 3) {
      const n = bytes[at + 1] + 256 * bytes[at + 2], list = [];
      at += 3;
      for (let k = 0; k < n; k++) { list.push(bytes.slice(at, at + 9)); at += 9; }
      answers.push(listed(list));
    } else { answers.push({ tag, value: bytes.slice(at + 1, at + 10) }); at += 10; }
  }
  return answers;
}

// Refusals 1 to 4 and 14, as docs/REFERENCE.md has them --------------------------------

const isZero = (bytes) => bytes.every((b) => b === 0);

function isValue(v) {
  const used = [0, 0, 1, 4][v[0]];
  if (v[0] > 8 || (v[0] === 2 && v[1] > 1)) return false;
  return used === undefined || isZero(v.slice(1 + used));
}

const partsOf = (d) => [d.slice(2, 11), d.slice(11, 20), d.slice(20, 29)];

function isDescriptor(d) {
  if (d.length !== 29 || d[0] > 63 || (d[1] & ~(d[0] & 7)) !== 0) return false;
  return partsOf(d).every((v, i) => (d[0] & (8 << i) ? isValue(v) : isZero(v)));
}

// Kinds 7 and 8 share the objects' numbers: 7 for one that is not callable, 8 for one that is. A released number is as one that no object ever had.
const isMade = (counts) => (v) => (v[0] !== 7 && v[0] !== 8) || counts.isLive(payload(v));

const isKnown = (counts) => (v) => {
  switch (v[0]) {
    case 5: return payload(v) < counts.strings;
    case 6: return payload(v) < 256;
    case 7: return !counts.isCallable(payload(v));
    case 8: return counts.isCallable(payload(v));
    default: return true;
  }
};

const isUsable = (d) => !((d[0] & 12) !== 0 && (d[0] & 48) !== 0) && partsOf(d).slice(1).every((v) => v[0] === 0 || v[0] === 8);

// counts: how many strings there are, which objects are live, and of these which are proxies, which are callable and which are named by a live one
function stepRefusal(step, counts) {
  if (step.length !== 58) return 1;
  const code = step[0], o = step[1];
  const key = step.slice(2, 11), value = step.slice(11, 20), receiver = step.slice(20, 29), d = step.slice(29);
  const usesKey = code >= 8 && code <= 13, usesReceiver = code === 11 || code === 12, usesLevel = code === 18 || code === 19;
  const makes = code === 1 || code === 16, usesPrototype = makes || code === 5;
  if (code < 1 || (code > 14 && code !== 16 && code !== 17 && !usesLevel) || (makes && o !== 0)) return 1;
  if (usesKey ? !isValue(key) : !isZero(key)) return 1;
  if (usesLevel || usesPrototype || code === 2 || code === 12 ? !isValue(value) : !isZero(value)) return 1;
  if (usesReceiver ? !isValue(receiver) : !isZero(receiver)) return 1;
  if (code === 9 ? !isDescriptor(d) : !isZero(d)) return 1;
  if (code === 2 && value[0] === 3 && payload(value) > 2047) return 1;
  if (usesLevel && value[0] === 3 && payload(value) > 1) return 1;
  const values = [key, value, receiver].concat(partsOf(d));
  if ((!makes && !counts.isLive(o)) || !values.every(isMade(counts))) return 2;
  if (!values.every(isKnown(counts))) return 3;
  if (usesKey && key[0] !== 5 && key[0] !== 6) return 3;
  if (usesPrototype && value[0] !== 1 && value[0] !== 7 && value[0] !== 8) return 3;
  if ((code === 2 || usesLevel) && value[0] !== 3) return 3;
  if (code === 2 && counts.isCallable(o)) return 3;
  if (code === 3 && !counts.isProxy(o)) return 3;
  if (code === 17 && counts.isNamed(o)) return 14;
  return isUsable(d) ? 0 : 4;
}

function sheetRefusal(sheet, counts) {
  if (sheet.length === 0 || sheet[0] > 64) return 1;
  const values = [];
  let at = 1;
  for (let i = 0; i < sheet[0]; i++) {
    const tag = sheet[at++];
    let n = 1;
    if (tag === 2) {
      const d = sheet.slice(at, at + 29);
      if (!isDescriptor(d)) return 1;
      values.push(...partsOf(d));
      at += 29;
      continue;
    } else if (tag === 3) {
      if (at + 2 > sheet.length) return 1;
      n = sheet[at] + 256 * sheet[at + 1];
      at += 2;
      if (n > 256) return 1;
    } else if (tag !== 1 && tag !== 4) return 1;
    for (let k = 0; k < n; k++, at += 9) {
      const v = sheet.slice(at, at + 9);
      if (v.length !== 9 || !isValue(v)) return 1;
      values.push(v);
    }
  }
  if (at !== sheet.length) return 1;
  if (!values.every(isMade(counts))) return 2;
  return values.every(isKnown(counts)) ? 0 : 3;
}

// Refusals 1 to 4 over descriptors handed in by themselves: each number over all of them before the next.
function descriptorRefusal(records, counts) {
  if (!records.every(isDescriptor)) return 1;
  if (!records.every((d) => partsOf(d).every(isMade(counts)))) return 2;
  if (!records.every((d) => partsOf(d).every(isKnown(counts)))) return 3;
  return records.every(isUsable) ? 0 : 4;
}
