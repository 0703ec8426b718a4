// Makes the outside vectors of the leaves: crates/vectors/stdin.
//
//     node tests/vectors.mjs > crates/vectors/stdin
//
// Each record is 192 bytes: an operation, its inputs, and the expected answer. The engine answers SameValue (Object.is), ToBoolean
// (Boolean), array indices (does an Array's length follow the key?), and descriptors completed, validated and merged
// (Reflect.defineProperty on an object made for it, then Object.getOwnPropertyDescriptor). Which test of a validation is the first that
// fails, it answers too: each is tried alone, on another object made so (firstRejected). This script answers what no engine has:
// the tests of steps and sheets, operations 6 and 7, are refusals 1 to 4, written here a second time, and operation 9 is refusal 6, of
// merging. Of operations 6 and 7, byte 1 has a bit for each of the objects 0 to 7 that is live, and byte 181 one for each that is callable.
// Refusal 14 is not among these: it is of what the store holds. The generator is seeded: a second run gives the same bytes.

const size = 192;
const records = [];
let state = 0x9e3779b9;

function random(n) {
  state ^= state << 13;
  state ^= state >>> 17;
  state ^= state << 5;
  return (state >>> 0) % n;
}

const pick = (list) => list[random(list.length)];

// Values: { kind, payload } with a BigInt payload, and the JavaScript value that each stands for.

const strings = ["", "a", "0", "01", "visits", "4294967294", "4294967295"];
const symbols = Array.from({ length: 256 }, (_, n) => Symbol(n));
const objects = Array.from({ length: 8 }, (_, n) => (n % 2 ? () => n : { n }));   // odd ones are functions
const view = new DataView(new ArrayBuffer(8));

function toJs({ kind, payload }) {
  switch (kind) {
    case 0: return undefined;
    case 1: return null;
    case 2: return payload === 1n;
    case 3: return Number(BigInt.asIntN(32, payload));
    case 4: view.setBigUint64(0, payload); return view.getFloat64(0);
    case 5: return strings[Number(payload)];
    case 6: return symbols[Number(payload)];
    default: return objects[Number(payload)];
  }
}

// A value of JavaScript as a record; a Number as Float64.
function fromJs(value) {
  if (value === undefined) return { kind: 0, payload: 0n };
  if (value === null) return { kind: 1, payload: 0n };
  if (typeof value === "boolean") return { kind: 2, payload: value ? 1n : 0n };
  if (typeof value === "number") {
    view.setFloat64(0, value);
    return { kind: 4, payload: Number.isNaN(value) ? 0x7ff8000000000000n : view.getBigUint64(0) };
  }
  if (typeof value === "string") return { kind: 5, payload: BigInt(strings.indexOf(value)) };
  if (typeof value === "symbol") return { kind: 6, payload: BigInt(symbols.indexOf(value)) };
  return { kind: typeof value === "function" ? 8 : 7, payload: BigInt(objects.indexOf(value)) };
}

function bytesOf({ kind, payload }) {
  const bytes = [kind];
  for (let i = 0n; i < 8n; i++) bytes.push(Number((payload >> (8n * i)) & 0xffn));
  return bytes;
}

const float = (payload) => ({ kind: 4, payload });
const integer = (n) => ({ kind: 3, payload: BigInt.asUintN(32, BigInt(n)) });
const edges = [
  { kind: 0, payload: 0n }, { kind: 1, payload: 0n }, { kind: 2, payload: 0n }, { kind: 2, payload: 1n },
  integer(0), integer(1), integer(-1), integer(4464), integer(70000), integer(2147483647), integer(-2147483648),
  float(0n), float(0x8000000000000000n), float(0x3ff0000000000000n), float(0xbff0000000000000n),
  float(0x40f1170000000000n), float(0x40b1700000000000n),            // 70000 and 4464
  float(0x41dfffffffc00000n), float(0xc1e0000000000000n),            // the ends of Integer32
  float(1n), float(0x8000000000000001n), float(0x000fffffffffffffn), // subnormals
  float(0x0010000000000000n), float(0x7fefffffffffffffn), float(0x7ff0000000000000n), float(0xfff0000000000000n),
  float(0x7ff8000000000000n), float(0xfff8000000000000n), float(0x7ff0000000000001n), float(0x7fffffffffffffffn), // NaNs
  { kind: 5, payload: 0n }, { kind: 5, payload: 1n }, { kind: 6, payload: 0n }, { kind: 6, payload: 255n },
  { kind: 7, payload: 0n }, { kind: 7, payload: 2n }, { kind: 8, payload: 1n }, { kind: 8, payload: 3n },
];

function emit(...parts) {
  const bytes = parts.flat();
  if (bytes.length > size) throw new Error("a record is too long");
  records.push(Uint8Array.from([...bytes, ...Array(size - bytes.length).fill(0)]));
}

const at = (bytes, n) => [...bytes, ...Array(n - bytes.length).fill(0)];

// 1: SameValue, every pair of the edges; 2: ToBoolean
for (const a of edges) for (const b of edges) emit(1, bytesOf(a), bytesOf(b), Object.is(toJs(a), toJs(b)) ? 1 : 0);
for (const a of edges) emit(2, bytesOf(a), a.kind === 5 ? strings[Number(a.payload)].length : 0, toJs(a) ? 1 : 0);

// 3: array indices
function isIndex(text) {
  const array = [];
  array[text] = 1;
  return array.length > 0 ? array.length - 1 : -1;
}

const texts = ["", "0", "00", "01", "1", "9", "10", "a", "1a", "a1", " 1", "1 ", "-1", "+1", "1.0", "1e3", "/", ":", "\u0660", "\uff11", "0x1",
  "4294967293", "4294967294", "4294967295", "4294967296", "4294967300", "9999999999", "10000000000", "42949672940", "429496729", "1000000000",
  "2147483647", "2147483648", "99999999999", "00000000001", "12345678901234567890123456789012"];
for (let i = 0; i < 200; i++) texts.push(String(random(2) ? random(4294967296) : random(100000)).split("").map((c) => (random(40) ? c : pick("0a:/ 9"))).join(""));
for (const text of texts) {
  const index = isIndex(text);
  const units = [...Array(text.length).keys()].flatMap((i) => [text.charCodeAt(i) % 256, text.charCodeAt(i) >> 8]);
  emit(at([3, text.length, ...units], 100), index < 0 ? 0 : 1, bytesOf({ kind: 0, payload: BigInt(Math.max(index, 0)) }).slice(1));
}

// Descriptors: { mask, flags, value, get, set }

const none = { kind: 0, payload: 0n };
const callables = [none, { kind: 8, payload: 1n }, { kind: 8, payload: 3n }];

function descriptorBytes(d) {
  return [d.mask, d.flags, ...bytesOf(d.value), ...bytesOf(d.get), ...bytesOf(d.set)];
}

function descriptor(mask) {
  return {
    mask,
    flags: random(8) & mask & 7,
    value: mask & 8 ? pick(edges) : none,
    get: mask & 16 ? pick(callables) : none,
    set: mask & 32 ? pick(callables) : none,
  };
}

function descriptorJs(d) {
  const object = {};
  if (d.mask & 1) object.enumerable = Boolean(d.flags & 1);
  if (d.mask & 2) object.configurable = Boolean(d.flags & 2);
  if (d.mask & 4) object.writable = Boolean(d.flags & 4);
  if (d.mask & 8) object.value = toJs(d.value);
  if (d.mask & 16) object.get = toJs(d.get);
  if (d.mask & 32) object.set = toJs(d.set);
  return object;
}

function propertyBytes(object) {
  const own = Object.getOwnPropertyDescriptor(object, "k");
  if (own === undefined) return [0, ...Array(29).fill(0)];
  const flags = (own.enumerable ? 1 : 0) + (own.configurable ? 2 : 0) + (own.writable ? 4 : 0);
  const accessor = "get" in own;
  const bytes = accessor
    ? [51, flags, ...bytesOf(none), ...bytesOf(fromJs(own.get)), ...bytesOf(fromJs(own.set))]
    : [15, flags, ...bytesOf(fromJs(own.value)), ...bytesOf(none), ...bytesOf(none)];
  return [1, ...bytes];
}

const dataMasks = [0, 1, 2, 3, 4, 5, 6, 7, 8, 9, 10, 11, 12, 13, 14, 15];
const accessorMasks = [16, 17, 18, 19, 32, 33, 34, 35, 48, 49, 50, 51];
const masks = [...dataMasks, ...accessorMasks];

// 4: completing
for (const mask of masks) {
  for (let i = 0; i < 6; i++) {
    const d = descriptor(mask);
    const object = {};
    Reflect.defineProperty(object, "k", descriptorJs(d));
    emit(4, descriptorBytes(d), propertyBytes(object).slice(1));
  }
}

// 5: validating, over an absent or a complete current property

// What each test of ECMA-262 10.1.6.3 looks at, alone, in the order of its steps; undefined where the descriptor has no such field. 1: no field at all is
// rejected where nothing can be added; 4: a field of the kind which every property of that kind accepts.
function aloneOf(d, current) {
  const only = (name) => (name in d ? { [name]: d[name] } : undefined);
  const kind = "value" in d || "writable" in d ? { writable: false } : "get" in d || "set" in d ? { get: current?.get } : undefined;
  return [{}, only("configurable"), only("enumerable"), kind, only("get"), only("set"), only("writable"), only("value")];
}

// The number of the first that the engine rejects, 0 where it accepts all; `make` makes the object anew.
function firstRejected(make, d) {
  const current = Object.getOwnPropertyDescriptor(make(), "k");
  return aloneOf(d, current).findIndex((one) => one !== undefined && !Reflect.defineProperty(make(), "k", one)) + 1;
}

// How often each number was the answer.
const numbers = Array(9).fill(0);

for (let i = 0; i < 1500; i++) {
  const present = random(8) > 0;
  const current = descriptor(random(2) ? 15 : 51);
  // mostly neither configurable nor writable, and of the same kind; each field asks for what is there already, or for anything
  current.flags &= pick([7, 1, 1, 1, 1, 1, 1, 5]);
  const same = masks.filter((mask) => !(mask & ~current.mask));
  const d = descriptor(random(6) ? pick(same) | pick(same) : pick(masks));
  for (const bit of [1, 2, 4]) if (random(3)) d.flags = (d.flags & ~bit) | (current.flags & d.mask & bit);
  for (const [name, bit] of [["value", 8], ["get", 16], ["set", 32]]) if (random(2) && d.mask & current.mask & bit) d[name] = current[name];
  const extensible = random(2);
  const make = () => {
    const object = {};
    if (present) Reflect.defineProperty(object, "k", descriptorJs(current));
    return extensible ? object : Object.preventExtensions(object);
  };
  const object = make();
  const accepted = Reflect.defineProperty(object, "k", descriptorJs(d));
  const number = firstRejected(make, descriptorJs(d));
  if (accepted !== (number === 0)) throw new Error(`number ${number}, but the engine ${accepted ? "accepts" : "rejects"} the whole`);
  numbers[number]++;
  const operands = [...descriptorBytes(d), ...(present ? descriptorBytes(current) : Array(29).fill(0))];
  emit(5, extensible, present ? 1 : 0, operands, accepted ? 1 : 0, propertyBytes(object), number);
}

if (numbers.some((n) => n < 50)) throw new Error(`a test is too seldom the first that fails: ${numbers}`);

// 6: the tests of a step, refusals 1 to 4

function littleEndian(bytes) {
  return bytes.reduceRight((n, b) => n * 256n + BigInt(b), 0n);
}

const wellFormed = (v) => {
  const payload = littleEndian(v.slice(1));
  if (v[0] > 8) return false;
  if (v[0] < 2) return payload === 0n;
  if (v[0] === 2) return payload < 2n;
  if (v[0] === 3) return payload < 0x100000000n;
  return true;
};
const allZero = (bytes) => bytes.every((b) => b === 0);
const parts = (d) => [d.slice(2, 11), d.slice(11, 20), d.slice(20, 29)];

function descriptorFormed(d) {
  if (d[0] > 63 || d[1] & ~(d[0] & 7)) return false;
  return parts(d).every((v, i) => (d[0] & (8 << i) ? wellFormed(v) : allZero(v)));
}

// An object is named by kind 7, and by kind 8 where it is callable: 2 where it is not live, 3 where it has the other kind.
const isLive = (n, counts) => n < 8n && (BigInt(counts.live) >> n) % 2n === 1n;
const isCallable = (n, counts) => n < 8n && (BigInt(counts.callable) >> n) % 2n === 1n;
const made = (v, counts) => (v[0] !== 7 && v[0] !== 8) || isLive(littleEndian(v.slice(1)), counts);
const known = (v, counts) => {
  const n = littleEndian(v.slice(1));
  if (v[0] === 5) return n < BigInt(counts.strings);
  if (v[0] === 7 || v[0] === 8) return isCallable(n, counts) === (v[0] === 8);
  return v[0] !== 6 || n < 256n;
};

function descriptorMixed(d) {
  const callable = (v) => v[0] === 0 || v[0] === 8;
  if (d[0] & 48 && d[0] & 12) return true;
  return !parts(d).slice(1).every(callable);
}

function stepRefusal(step, counts, proxy) {
  if (step.length !== 58) return 1;
  const [code, object] = step;
  const key = step.slice(2, 11), value = step.slice(11, 20), receiver = step.slice(20, 29), d = step.slice(29, 58);
  const keyed = code >= 8 && code <= 13;
  const leveled = code === 18 || code === 19;
  const making = code === 1 || code === 16;
  const valued = leveled || making || [2, 5, 12].includes(code);
  const received = code === 11 || code === 12;
  if (code < 1 || (code > 14 && code !== 17 && !leveled && !making)) return 1;
  if (making && object !== 0) return 1;
  if (!(keyed ? wellFormed(key) : allZero(key))) return 1;
  if (!(valued ? wellFormed(value) : allZero(value))) return 1;
  if (!(received ? wellFormed(receiver) : allZero(receiver))) return 1;
  if (!(code === 9 ? descriptorFormed(d) : allZero(d))) return 1;
  if (code === 2 && value[0] === 3 && littleEndian(value.slice(1)) > 2047n) return 1;
  if (leveled && value[0] === 3 && littleEndian(value.slice(1)) > 1n) return 1;
  const values = [key, value, receiver, ...parts(d)];
  if (!making && !isLive(BigInt(object), counts)) return 2;
  if (!values.every((v) => made(v, counts))) return 2;
  if (!values.every((v) => known(v, counts))) return 3;
  if (keyed && key[0] !== 5 && key[0] !== 6) return 3;
  if ((making || code === 5) && ![1, 7, 8].includes(value[0])) return 3;
  if ((code === 2 || leveled) && value[0] !== 3) return 3;
  if (code === 2 && isCallable(BigInt(object), counts)) return 3;
  if (code === 3 && !proxy) return 3;
  return descriptorMixed(d) ? 4 : 0;
}

// Half of the time the odd objects are callable, as they are among the edges. Mostly some have gone. Marks of what is not live say nothing.
const someLive = () => (random(3) ? 255 & ~(1 << random(8)) & ~(random(2) << random(8)) : 255 >> random(9));
const someCounts = () => ({ live: someLive(), strings: random(9), callable: random(2) ? 0b10101010 : random(256) });
const someObject = () => bytesOf({ kind: 7 + random(2), payload: BigInt(random(12) ? random(9) : pick([9, 255, 256, 65536, 0x100000000])) });
const someValue = () => (random(3) ? bytesOf(random(8) ? pick(edges) : { kind: random(10), payload: BigInt(random(600)) }) : someObject());
const someKey = () => bytesOf({ kind: 5 + random(2), payload: BigInt(random(8)) });

function someStep() {
  const code = pick([1 + random(14), 1 + random(14), 1 + random(14), 1 + random(14), 1 + random(14), 1 + random(14), 1 + random(14), 18 + random(2), 18 + random(2), 9, 16, 17, 15 + random(6)]);
  const keyed = code >= 8 && code <= 13;
  const level = () => (random(4) ? bytesOf(integer(random(2))) : random(2) ? bytesOf(integer(pick([2, 3, 256, 65536, -1, -2147483648]))) : someValue());
  const value = code === 2 ? bytesOf(integer(random(2100))) : code === 12 ? someValue() : [1, 5, 16].includes(code) ? (random(3) ? someObject() : bytesOf({ kind: 1, payload: 0n })) : code > 14 && (code !== 17 || random(8) === 0) ? level() : Array(9).fill(0);
  const receiver = code === 11 || code === 12 ? someValue() : Array(9).fill(0);
  const d = code === 9 ? descriptorBytes(descriptor(random(4) ? pick(masks) : random(64))) : Array(29).fill(0);
  return [code, code === 1 || code === 16 ? 0 : random(9), ...(keyed ? someKey() : Array(9).fill(0)), ...value, ...receiver, ...d];
}

function damaged(bytes) {
  const copy = [...bytes];
  const turns = random(3);
  for (let i = 0; i < turns; i++) {
    const where = random(copy.length || 1);
    switch (random(6)) {
      case 0: copy.splice(where, 1); break;
      case 1: copy.splice(where, 0, random(256)); break;
      case 2: copy[where] = 0; break;
      case 3: copy[where] = random(10); break;
      default: copy[where] = random(256);
    }
  }
  return copy;
}

// How often each refusal was the answer.
const tally = { 6: [0, 0, 0, 0, 0], 7: [0, 0, 0, 0] };

// Steps 18 and 19 with every kind of level, whole; objects in every part, under both kinds; then all steps, damaged. No callable object is a proxy.
function emitStep(counts, proxy, step) {
  const isProxy = proxy && !isCallable(BigInt(step[1] ?? 0), counts) ? 1 : 0, refusal = stepRefusal(step, counts, isProxy);
  tally[6][refusal]++;
  emit(at([...at([6, counts.live, counts.strings, isProxy, step.length, ...step], 80), refusal], 181), counts.callable);
}

const zero = Array(9).fill(0);
const whole = (code, o, { key = zero, value = zero, receiver = zero, d = Array(29).fill(0) }) => [code, o, ...key, ...value, ...receiver, ...d];
const described = (mask, value, get, set) => [mask, 0, ...value, ...get, ...set];
// which are callable, and which are live
const marks = [[0, 0b1111], [0b1010, 0b1111], [0b0101, 0b1111], [255, 0b1111], [0b1010, 0b1101], [0b0101, 0b1010]];
const named = [7, 8].flatMap((kind) => [0, 1, 2, 3, 4, 256, 0x100000000].map((n) => bytesOf({ kind, payload: BigInt(n) })));

for (const [callable, live] of marks) {
  const counts = { live, strings: 1, callable };
  const key = bytesOf({ kind: 5, payload: 0n }), unknown = bytesOf({ kind: 5, payload: 1n });
  for (const value of named) {
    for (const code of [1, 16]) emitStep(counts, 0, whole(code, 0, { value }));
    for (const o of [0, 1, 4]) emitStep(counts, 0, whole(5, o, { value }));
    for (const code of [2, 18, 19]) emitStep(counts, 0, whole(code, 0, { value }));
    for (const code of [8, 10, 13]) emitStep(counts, 0, whole(code, 1, { key: value }));
    emitStep(counts, 0, whole(11, 0, { key, receiver: value }));
    emitStep(counts, 0, whole(11, 0, { key: unknown, receiver: value }));
    emitStep(counts, 0, whole(12, 1, { key, value, receiver: value }));
    emitStep(counts, 0, whole(12, 1, { key, value: bytesOf({ kind: 8, payload: 1n }), receiver: value }));
    for (const d of [described(8, value, zero, zero), described(16, zero, value, zero), described(32, zero, zero, value), described(48, zero, value, value), described(24, value, value, zero), described(40, value, zero, zero)]) {
      for (const o of [0, 1]) emitStep(counts, 0, whole(9, o, { key, d }));
    }
  }
  for (let o = 0; o < 6; o++) {
    for (const proxy of [0, 1]) {
      for (const code of [2, 18, 19]) for (const n of [0, 1, 2047, 2048]) emitStep(counts, proxy, whole(code, o, { value: bytesOf(integer(n)) }));
      for (const code of [1, 16, 5]) emitStep(counts, proxy, whole(code, o, { value: bytesOf({ kind: 1, payload: 0n }) }));
      for (const code of [3, 4, 6, 7, 14, 17]) emitStep(counts, proxy, whole(code, o, {}));
      for (const code of [8, 10, 11, 13]) emitStep(counts, proxy, whole(code, o, { key }));
    }
  }
}

for (const code of [15, 16, 17, 18, 19, 20]) {
  for (const level of [...edges, integer(2), integer(3), integer(255), integer(256), { kind: 3, payload: 0x100000000n }, { kind: 9, payload: 0n }, { kind: 5, payload: 9n }, { kind: 7, payload: 9n }]) {
    for (const o of [0, 5]) emitStep({ live: 0b1111, strings: 4, callable: 0b1010 }, o % 2, [code, o, ...Array(9).fill(0), ...bytesOf(level), ...Array(38).fill(0)]);
  }
}

for (let i = 0; i < 2000; i++) {
  emitStep(someCounts(), random(2), damaged(someStep()).slice(0, 64));
}

// 7: the tests of a sheet, refusals 1 to 3

function sheetRefusal(sheet, counts) {
  if (sheet.length === 0 || sheet[0] > 64) return 1;
  const values = [];
  let here = 1;
  for (let i = 0; i < sheet[0]; i++) {
    const tag = sheet[here];
    const take = (n) => {
      const bytes = sheet.slice(here, here + n);
      here += n;
      return bytes.length === n ? bytes : undefined;
    };
    here += 1;
    if (tag === 1 || tag === 4) {
      const v = take(9);
      if (!v || !wellFormed(v)) return 1;
      values.push(v);
    } else if (tag === 2) {
      const d = take(29);
      if (!d || !descriptorFormed(d)) return 1;
      values.push(...parts(d));
    } else if (tag === 3) {
      const n = take(2);
      if (!n || n[0] + 256 * n[1] > 256) return 1;
      for (let k = 0; k < n[0] + 256 * n[1]; k++) {
        const v = take(9);
        if (!v || !wellFormed(v)) return 1;
        values.push(v);
      }
    } else {
      return 1;
    }
  }
  if (here !== sheet.length) return 1;
  if (!values.every((v) => made(v, counts))) return 2;
  return values.every((v) => known(v, counts)) ? 0 : 3;
}

function someAnswer() {
  switch (random(4)) {
    case 0: return [1, ...someValue()];
    case 1: return [2, ...descriptorBytes(descriptor(random(64)))];
    case 2: { const n = random(4); return [3, n, 0, ...Array.from({ length: n }, random(3) ? someKey : someValue).flat()]; }
    default: return [4, ...someValue()];
  }
}

// Objects in every part of an answer, under both kinds; then all answers, damaged.
function emitSheet(counts, sheet) {
  const refusal = sheetRefusal(sheet, counts);
  tally[7][refusal]++;
  emit(at([7, counts.live, counts.strings, sheet.length, ...sheet], 180), refusal, counts.callable);
}

for (const [callable, live] of marks) {
  for (const v of named) {
    const one = [[1, ...v], [4, ...v], [3, 1, 0, ...v], [3, 2, 0, ...zero, ...v], [2, ...described(8, v, zero, zero)], [2, ...described(16, zero, v, zero)], [2, ...described(32, zero, zero, v)]];
    for (const answer of one) {
      emitSheet({ live, strings: 1, callable }, [1, ...answer]);
      emitSheet({ live, strings: 1, callable }, [2, 1, 8, 1, 0, 0, 0, 0, 0, 0, 0, ...answer]);
    }
  }
}

for (let i = 0; i < 1500; i++) {
  const n = random(5);
  emitSheet(someCounts(), damaged([n, ...Array.from({ length: n }, someAnswer).flat()]).slice(0, 160));
}

if (Object.values(tally).flat().some((n) => n < 100)) throw new Error(`a refusal is too seldom the answer: ${JSON.stringify(tally)}`);

// 8: merging, answered 0 and the property; 9: refused as 6, one data and one accessor (5 is the current one's, in the tests of the entry)
for (let i = 0; i < 300; i++) {
  const accessor = random(2);
  const current = descriptor(accessor ? 51 : 15);
  current.flags |= 2; // configurable, so that the engine makes every change that merging makes
  const d = descriptor(pick(masks));
  const other = accessor ? d.mask & 12 : d.mask & 48;
  const object = {};
  Reflect.defineProperty(object, "k", descriptorJs(current));
  Reflect.defineProperty(object, "k", descriptorJs(d));
  emit(other ? 9 : 8, descriptorBytes(current), descriptorBytes(d), other ? 6 : 0, other ? Array(29).fill(0) : propertyBytes(object).slice(1));
}

process.stdout.write(Buffer.concat(records));
