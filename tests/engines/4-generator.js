// The generator: worlds of calls, from a seed.

let state = 1;

function random(n) {
  state ^= state << 13;
  state ^= state >>> 17;
  state ^= state << 5;
  return (state >>> 0) % n;
}

const chance = (percent) => random(100) < percent;
const pick = (list) => list[random(list.length || 1)];
const shuffled = (list) => { const l = list.slice(); for (let i = l.length - 1; i > 0; i--) { const j = random(i + 1), x = l[i]; l[i] = l[j]; l[j] = x; } return l; };

// By weights: [[weight, what], ..]
function weighed(rows) {
  let n = random(rows.reduce((sum, row) => sum + row[0], 0));
  for (const row of rows) if ((n -= row[0]) < 0) return row[1];
  return rows[0][1];
}

// Strings, keys and values -------------------------------------------------------------

const INDICES = ['0', '1', '7', '9', '10', '01', '00', '99', '4294967293', '4294967294', '4294967295', '4294967296', '2147483647', '2147483648', '-1', '1e3', '+1', '12345678901'];
const NAMES = ['', 'a', 'b', 'c', 'visits', 'name', 'length', 'name', 'length', 'prototype', 'arguments', 'caller', '__proto__', 'constructor', 'toString', 'value', 'get', '\ud800', '\udc00\ud800', 'a\ud83d\ude00',
  '\u0660', 'x'.repeat(32), 'x'.repeat(31) + 'y', '\u00e9', 'e\u0301', ' 1', '1 '];

function someText() {
  return weighed([[40, () => pick(NAMES)], [35, () => pick(INDICES)], [10, () => String(random(2) ? random(300) : random(4294967296))],
    [13, () => { let t = ''; for (let n = 1 + random(4); n > 0; n--) t += String.fromCharCode(random(3) ? 97 + random(3) : random(65536)); return t; }],
    [2, () => 'y'.repeat(33 + random(3))]])();
}

const PRIMITIVES = [UNDEFINED, NULL, boolean(true), boolean(false), integer(0), integer(0), integer(1), integer(-1), integer(70000), integer(4464), integer(2147483647),
  integer(-2147483648), float(0), float(-0), float(-0), float(1), float(-1), float(70000), float(4464), float(0.5), float(2147483648), float(Infinity), float(-Infinity),
  float(5e-324), float(1.7976931348623157e308), [4, 0, 0, 0, 0, 0, 0, 0xf8, 0x7f], [4, 1, 0, 0, 0, 0, 0, 0xf0, 0xff], [4, 255, 255, 255, 255, 255, 255, 255, 127]];

// An object of any sort, by its value; a function, or undefined where there is none.
const someNumber = () => pick(world.live), lastMade = () => world.live[world.live.length - 1];
const someObject = () => (world.live.length > 0 ? named(someNumber()) : NULL);
const numbersOf = (test) => world.live.filter((o) => test(world.objects[o]));
const someFunction = () => { const made = numbersOf((at) => at.callable); return made.length > 0 ? callable(pick(made)) : UNDEFINED; };
const someString = () => (world.strings.length > 0 ? string(random(world.strings.length)) : symbol(0));
const someSymbol = () => symbol(weighed([[8, random(4)], [1, 255], [1, random(256)]]));
const someValue = () => weighed([[12, () => pick(PRIMITIVES)], [3, someString], [2, someSymbol], [3, someObject], [3, someFunction]])();
const somePrimitive = () => weighed([[10, () => pick(PRIMITIVES)], [3, someString], [2, someSymbol]])();

// A value like another: a number written otherwise, or nearly the number; a zero of the other sign; another NaN.
function nearValue(v) {
  if (v[0] !== 3 && v[0] !== 4) return someValue();
  const x = valueOf(v);
  if (x !== x) return pick(PRIMITIVES.slice(-3));
  return weighed([[3, () => (x === 0 ? float(-1 / x === Infinity ? 0 : -0) : float(-x))], [2, () => float(x)], [2, () => (Object.is(x | 0, x) ? integer(x) : float(x))], [1, () => float(x + 1)], [1, someValue]])();
}

const ownKeys = (o) => Reflect.ownKeys(baseOf(o)).map(bytesOf);

function someKey(o, style) {
  const own = chance(style.crowd ? 25 : 70) ? ownKeys(o) : [];
  return own.length > 0 ? pick(own) : chance(80) ? someString() : someSymbol();
}

// Numbers that are read back are Float64; write some as Integer32 again.
function rewritten(v) {
  const x = v[0] === 4 ? valueOf(v) : 0.5;
  return Object.is(x | 0, x) && chance(60) ? integer(x) : v;
}

// Descriptors ---------------------------------------------------------------------------

const flag = () => chance(50);

function someDescriptor() {
  const d = {};
  for (const name of ['enumerable', 'configurable']) if (chance(65)) d[name] = flag();
  const kind = random(10);
  if (kind < 6) {
    if (chance(80)) d.value = someValue();
    if (chance(65)) d.writable = flag();
  } else if (kind < 9) {
    if (chance(75)) d.get = chance(70) ? someFunction() : UNDEFINED;
    if (chance(75)) d.set = chance(70) ? someFunction() : UNDEFINED;
  }
  return d;
}

// The base's own property as a descriptor; null where there is none.
function current(o, key) {
  const p = Reflect.getOwnPropertyDescriptor(baseOf(o), key);
  if (p === undefined) return null;
  const d = { enumerable: p.enumerable, configurable: p.configurable };
  if ('value' in p) { d.value = rewritten(bytesOf(p.value)); d.writable = p.writable; } else { d.get = bytesOf(p.get); d.set = bytesOf(p.set); }
  return d;
}

// A descriptor like another: as it is, or with fields changed or dropped.
function near(d) {
  const e = Object.assign({}, d);
  const change = () => {
    const name = pick(Object.keys(e));
    if (name !== undefined) e[name] = name === 'value' ? nearValue(e.value) : name === 'get' || name === 'set' ? pick([UNDEFINED, someFunction()]) : !e[name];
  };
  const drop = () => { delete e[pick(Object.keys(e))]; };
  weighed([[40, () => {}], [30, change], [8, () => { change(); change(); }], [12, drop], [6, () => { drop(); change(); }], [4, () => { drop(); drop(); drop(); }]])();
  return e;
}

const FIXED = [{ writable: false, configurable: false }, { configurable: false }, { writable: false, configurable: false, enumerable: true }, { configurable: false, writable: true }];

// What a step hands in: near what is there, fixing it, or anything.
function handedDescriptor(o, key) {
  const there = current(o, key);
  if (there !== null && chance(60)) return near(there);
  if (chance(35)) return Object.assign(chance(80) ? { value: someValue() } : {}, pick(FIXED));
  if (chance(15)) return Object.assign({ get: chance(50) ? UNDEFINED : someFunction(), set: chance(50) ? UNDEFINED : someFunction() }, { configurable: flag() });
  return someDescriptor();
}

// What can still be changed.
const openDescriptor = () => Object.assign(chance(75) ? { value: someValue(), writable: chance(85) } : { get: someFunction(), set: UNDEFINED }, { enumerable: flag(), configurable: chance(90) });

// Answers --------------------------------------------------------------------------------

// A value that counts as true, or as false; the empty string is one of the entered ones.
const someTrue = () => weighed([[3, () => pick([boolean(true), integer(1), float(-0.5), float(Infinity)])], [2, someSymbol], [2, someObject], [2, someFunction]])();
const someFalse = () => pick([UNDEFINED, NULL, integer(0), float(0), float(-0), float(NaN), someString()]);
const truth = (b) => answered(chance(90) ? boolean(b) : b ? someTrue() : someFalse());

function keyListAnswer(o) {
  const own = ownKeys(o);
  const list = chance(30) ? shuffled(own) : own;
  const at = random(list.length + 1);
  const without = () => list.filter((_, i) => i !== at);
  const added = (v) => list.slice(0, at).concat([v], list.slice(at));
  const key = chance(60) ? someString() : someSymbol();
  return listed(weighed([[36, () => list], [20, without], [14, () => added(key)], [10, () => (list.length > 0 ? added(pick(list)) : [key, key])],
    [8, () => list.map((v, i) => (i === at ? key : v))], [4, () => added(somePrimitive())], [3, () => added(chance(50) ? someObject() : someFunction())],
    [3, () => []], [5, () => { const l = []; for (let n = random(6); n > 0; n--) l.push(chance(50) ? someString() : someSymbol()); return l; }]])().slice(0, 256));
}

function ownPropertyAnswer(o, key) {
  const there = current(o, key);
  const spoilt = () => Object.assign(someDescriptor(), weighed([[3, { get: somePrimitive() }], [3, { set: somePrimitive() }], [2, { get: someObject() }], [3, { get: someFunction(), value: someValue() }], [2, { set: UNDEFINED, writable: false }]]));
  return weighed([[there ? 55 : 12, () => described(near(there || { value: someValue(), writable: true, enumerable: true, configurable: true }))], [there ? 20 : 55, () => answered(UNDEFINED)],
    [10, () => described(someDescriptor())], [5, () => described(spoilt())], [3, () => answered(somePrimitive())]])();
}

// What is true of the ordinary object at the end, so that a step which asks for much gets far; null for a question of another kind. A trap that says that
// it defined what is not there so is a check's TypeError: false, mostly, and then message 32.
function trueAnswer(asks) {
  const base = asks.target === undefined ? null : baseOf(asks.target);
  switch (asks.trap) {
    case 'isExtensible': return truth(Reflect.isExtensible(base));
    case 'preventExtensions': return truth(!Reflect.isExtensible(base));
    case 'getOwnPropertyDescriptor': { const there = current(asks.target, asks.key); return there === null ? answered(UNDEFINED) : described(there); }
    case 'defineProperty': {
      const p = Reflect.getOwnPropertyDescriptor(base, asks.key);
      return truth(p !== undefined && !p.configurable && !(asks.more.writable === false && p.writable) ? chance(96) : chance(35));
    }
    case 'ownKeys': { const own = ownKeys(asks.target); return listed((chance(20) ? shuffled(own) : own).slice(0, 256)); }
    default: return null;
  }
}

// The next answer, mostly near the truth about the ordinary object at the end.
function someAnswer(asks) {
  if (chance(3)) return thrown(someValue());
  if (chance(1) && chance(60)) return weighed([[1, () => described(someDescriptor())], [1, () => listed([someString()])], [2, () => answered(someObject())], [2, () => answered(someFunction())]])();
  const o = asks.target;
  switch (asks.trap) {
    case 'getPrototypeOf': {
      const p = Reflect.getPrototypeOf(baseOf(o));
      return answered(weighed([[64, () => bytesOf(p)], [8, () => NULL], [12, someObject], [8, someFunction], [8, somePrimitive]])());
    }
    case 'isExtensible': return truth(chance(85) === Reflect.isExtensible(baseOf(o)));
    case 'getOwnPropertyDescriptor': return ownPropertyAnswer(o, asks.key);
    case 'has': return truth(chance(65) === Reflect.ownKeys(baseOf(o)).includes(asks.key));
    case 'get': { const there = current(o, asks.key); return answered(!there || !there.value ? (chance(40) ? UNDEFINED : someValue()) : weighed([[60, () => there.value], [20, () => nearValue(there.value)], [5, () => UNDEFINED], [15, someValue]])()); }
    case 'ownKeys': return chance(96) ? keyListAnswer(o) : answered(somePrimitive());
    case 'function': return answered(someValue());
    default: return truth(chance(70));
  }
}

// Loops and long walks -------------------------------------------------------------------

// Whether [[Get]] of a missing key would come back to where it was: from prototype to prototype, through proxies to their targets.
function isLoop(from) {
  const seen = new Set();
  for (let o = from; o !== undefined; ) {
    if (seen.has(o)) return true;
    seen.add(o);
    const at = world.objects[o];
    o = at.proxy ? at.target : world.numbers.get(Reflect.getPrototypeOf(at.it));
  }
  return false;
}

// [[OwnPropertyKeys]] asks a proxy's target for each key, and so on inward: no more than this many calls, from what an answer may list.
function walk(o) {
  const proxies = proxiesFrom(o), depth = proxies.length, fan = 1 + proxies.filter((at) => at.mask & 16).length;
  return (Reflect.ownKeys(baseOf(o)).length + 8) * depth * depth * fan;
}

// The calls of step 18, or 19, at the most: [[IsExtensible]], [[PreventExtensions]], [[GetOwnProperty]], [[DefineOwnProperty]] and [[OwnPropertyKeys]] of
// each object from the ordinary one outwards. The keys are those of the ordinary object: it is not extensible once they are asked for.
function levelCalls(code, o) {
  const masks = proxiesFrom(o).map((at) => at.mask).reverse();
  const n = Reflect.ownKeys(baseOf(o)).length;
  let e = 1, p = 1, g = 1, d = 3, k = 1;
  for (const mask of masks) {
    [e, p, g, d, k] = [1 + e, 1 + (mask & 8 ? e : p), 1 + g + (mask & 16 ? e : 0), 1 + (mask & 32 ? g + e : d), 1 + k + (mask & 1024 ? e + n * g : 0)];
  }
  return code === 18 ? p + k + n * (g + d) : e + k + n * g;
}

// Steps ----------------------------------------------------------------------------------

const MASKS = [0, 0, 0, 1, 2, 4, 8, 16, 32, 64, 128, 256, 512, 1024, 16 + 1024, 32 + 256, 16 + 32];
const LEVEL_MASKS = [16, 16, 32, 32, 1024, 16 + 32, 16 + 1024, 32 + 1024, 16 + 32 + 1024, 0];      // preventExtensions is forwarded, and later answers may be wrong
const someMask = (style) => integer(style.loops && chance(60) ? 0 : style.levels && chance(65) ? pick(LEVEL_MASKS) : weighed([[45, 2047], [20, pick(MASKS)], [35, random(2048)]]));
const someReceiver = (o) => weighed([[46, () => named(o)], [18, someObject], [10, someFunction], [9, () => UNDEFINED], [17, somePrimitive]])();
const somePrototype = () => weighed([[60, someObject], [20, () => NULL], [20, () => { const f = someFunction(); return f[0] === 8 ? f : NULL; }]])();

// What a world begins with: an object or a function, and mostly one of each and a proxy among the first three.
function beginning(n) {
  if (n === 0) return pick([1, 1, 16]);
  if (n === 1) return isCallable(world.live[0]) ? 1 : pick([2, 2, 16]);
  return someFunction()[0] === 8 ? pick([1, 2, 2, 2, 16]) : pick([16, 16, 2]);
}

// The number of the ordinary object at the end of the targets; the proxy's own where there is none.
function ordinaryBase(o) {
  const n = world.numbers.get(baseOf(o));
  return n === undefined ? o : n;
}

// What is released: mostly an object that nothing names, or one that is named in one way, each way as often; or a number that is released already.
function someReleasable() {
  if (world.released.length > 0 && chance(5)) return pick(world.released);
  const free = [], byWay = new Map();
  for (const o of world.live) {
    const [way, ...ways] = waysNamed(o);
    if (way === undefined) free.push(o);
    else if (ways.length === 0) byWay.set(way, (byWay.get(way) || []).concat([o]));
  }
  if (free.length > 0 && chance(65)) return pick(free);
  return byWay.size > 0 && chance(80) ? pick(byWay.get(pick([...byWay.keys()]))) : someNumber();
}

function someStep(style) {
  const n = world.live.length, code = n < 3 ? beginning(n) : weighed(style.codes);
  if (code === 1 || code === 16) return { code, value: n > 0 && chance(70) ? somePrototype() : NULL };
  const proxies = numbersOf((at) => at.proxy && !at.revoked), targets = numbersOf((at) => !at.callable);
  const any = code !== 2 && proxies.length > 0 && chance(style.proxies) ? pick(proxies) : world.live[chance(style.last) ? n - 1 - random(Math.min(n, 3)) : random(n)];
  const o = code === 2 && isCallable(any) && targets.length > 0 && chance(90) ? pick(targets) : any, key = someKey(o, style);
  if (code === 17) return { code, object: someReleasable() };
  if (code === 7 && chance(50)) return { code, object: ordinaryBase(o) };
  const level = integer(random(2));
  if (code === 18 && chance(style.levels ? 12 : 30)) return { code, object: ordinaryBase(o), value: level };
  if (style.loops && proxies.length > 0 && chance(12)) { const p = pick(proxies); return { code: 5, object: ordinaryBase(p), value: object(p) }; }
  switch (code) {
    case 2: return { code, object: o, value: someMask(style) };
    case 3: return proxies.length > 0 && chance(30) ? { code, object: o === proxies[0] || chance(80) ? pick(proxies) : o } : { code: 6, object: o };
    case 5: return { code, object: o, value: somePrototype() };
    case 9: return { code, object: o, key, descriptor: style.levels && chance(70) ? openDescriptor() : handedDescriptor(o, valueOf(key)) };
    case 11: return { code, object: o, key, receiver: someReceiver(o) };
    case 12: { const there = current(o, valueOf(key)); return { code, object: o, key, value: there && there.value && chance(50) ? (chance(60) ? there.value : nearValue(there.value)) : someValue(), receiver: someReceiver(o) }; }
    case 8: case 10: case 13: return { code, object: o, key };
    case 18: case 19: return { code, object: o, value: level };
    default: return { code, object: o };
  }
}

// A number that no object has, under kind 7 or 8: mostly a released one, where there is one.
function unmade() {
  const kind = pick([object, callable]), n = world.objects.length;
  if (world.released.length > 0 && chance(65)) return kind(pick(world.released));
  return weighed([[3, kind(n)], [2, kind(n + random(300))], [1, [7 + random(2), 0, 0, 0, 0, 1, 0, 0, 0]]]);
}

// Refusals 2 to 4: a part that cannot be used.
function spoilt(s) {
  const t = Object.assign({}, s);
  const d = Object.assign({}, s.descriptor || {});
  const spoil = (name) => { t[name] = pick([unmade(), misnamed(someNumber()), misnamed(someNumber()), string(world.strings.length), symbol(256), someFunction(), [5, 0, 0, 0, 0, 0, 0, 0, 1], someValue()]); };
  weighed([[3, () => { t.object = world.released.length > 0 && chance(65) ? pick(world.released) : world.objects.length + random(3); }], [3, () => spoil('key')], [2, () => spoil('value')], [2, () => spoil('receiver')],
    [2, () => { t.code = 3; delete t.key; delete t.value; delete t.receiver; delete t.descriptor; }],
    [4, () => { t.code = 9; t.key = s.key || someString(); delete t.value; delete t.receiver; Object.assign(d, pick([{ get: someFunction(), value: someValue() }, { set: UNDEFINED, writable: true }, { get: somePrimitive() }, { set: someObject() },
      { get: misnamed(someNumber()) }, { set: misnamed(someNumber()) }, { set: unmade() }, { value: unmade(), get: UNDEFINED }])); t.descriptor = d; }]])();
  return t;
}

// Some bytes changed, dropped or added.
function damaged(bytes) {
  const copy = bytes.slice();
  for (let turns = 1 + random(2); turns > 0; turns--) {
    const at = random(copy.length || 1);
    weighed([[2, () => copy.splice(at, 1)], [2, () => copy.splice(at, 0, random(256))], [3, () => { copy[at] = 0; }], [5, () => { copy[at] = random(12); }], [4, () => { copy[at] = random(256); }], [1, () => { copy.length = at; }]])();
  }
  return copy;
}

// The output of a listing: room for the keys and some more, just enough, or too little.
function someRoom(o) {
  const n = 9 * ownKeys(o).length;
  return weighed([[85, n + 36], [8, n], [4, Math.max(0, n - 1)], [3, random(40)]]);
}

const anyAnswer = () => weighed([[4, () => answered(someValue())], [2, () => described(someDescriptor())], [2, () => listed([someString(), someSymbol()])], [1, () => thrown(someValue())]])();

// Refusals 2 and 3 over the sheet: an object under the wrong kind, or one that was never made, wherever a value stands.
function spoiltAnswer() {
  const v = chance(60) ? misnamed(someNumber()) : unmade();
  return pick([() => answered(v), () => thrown(v), () => listed([someString(), v]), () => described({ value: v }), () => described({ get: v }), () => described({ set: v, get: someFunction() })])();
}

// Whether a prototype would make a loop.
function wouldLoop(o, p) {
  const base = world.numbers.get(baseOf(o)), seen = new Set();
  for (let at = p; at !== undefined && !seen.has(at); ) {
    if (at === base) return true;
    seen.add(at);
    const made = world.objects[at];
    at = made.proxy ? made.target : world.numbers.get(Reflect.getPrototypeOf(made.it));
  }
  return false;
}

const isIndex = (key) => typeof key === 'string' && String(key >>> 0) === key && key >>> 0 !== 4294967295;

// Where JavaScriptCore departs from 10.1.9.2: [[Set]] of an array index that the receiver lacks. A prototype has it as writable data, which decides; but a
// prototype further up that has it read-only or as an accessor, or is a proxy, decides there. docs/DIFFERENCES.md.
function isIntercepted(s) {
  let n = s.object, found = false;
  while (world.objects[n].proxy && !world.objects[n].revoked && !(world.objects[n].mask & 256)) n = world.objects[n].target;
  const key = valueOf(s.key);
  if (world.objects[n].proxy || valueOf(s.receiver) !== world.objects[n].it || !isIndex(key) || Reflect.getOwnPropertyDescriptor(world.objects[n].it, key) !== undefined) return false;
  for (; n !== undefined; n = world.numbers.get(Reflect.getPrototypeOf(world.objects[n].it))) {
    if (world.objects[n].proxy) return found;
    const p = Reflect.getOwnPropertyDescriptor(world.objects[n].it, key);
    if (p !== undefined && !p.writable) return found;
    found = found || p !== undefined;
  }
  return false;
}

// Where JavaScriptCore departs from 10.1.11.1: it lists a function's own length, then its name, before other strings, whenever they were created. A step
// that may add one of the two after such a string. docs/DIFFERENCES.md.
function isReordered(s) {
  const n = s.code === 9 ? s.object : s.code === 12 && s.receiver[0] === 8 ? payload(s.receiver) : undefined, key = valueOf(s.key);
  if (n === undefined || !isCallable(n) || (key !== 'length' && key !== 'name')) return false;
  const own = Reflect.ownKeys(world.objects[n].it);
  return !own.includes(key) && own.some((k) => typeof k === 'string' && !isIndex(k) && !(key === 'name' && k === 'length'));
}

// A step, or another question to the same object where the engine is known to depart.
function asked(record) {
  if (engine !== 'jsc' || (record[0] !== 9 && record[0] !== 12) || stepRefusal(record, counts()) !== 0) return record;
  const s = stepOf(record);
  return isReordered(s) || (s.code === 12 && isIntercepted(s)) ? stepBytes({ code: 6, object: s.object }) : record;
}

// A step as the style has it, or another where it would walk too far or make a loop that is not asked for.
function chosenStep(style) {
  const s = someStep(style);
  if (s.code === 5 && !style.loops && s.value[0] !== 1 && (isLoop(s.object) || wouldLoop(s.object, payload(s.value)))) return { code: 4, object: s.object };
  return world.live.length > 0 && chance(style.releases ? 7 : 4) ? spoilt(s) : s;
}

// At most `left` calls, of which a sheet with unread answers takes two, and a page after the step one. False where the world cannot go on.
function step(style, left) {
  const whole = stepBytes(chosenStep(style)), record = asked(chance(2) ? damaged(whole) : whole), end = calls + left;
  if (!answering(record, left)) return false;
  if (calls < end && [7, 9, 12, 13, 18].includes(record[0]) && chance(style.crowd ? 2 : 8)) pageAfter(record);
  return true;
}

// The step, with answers as it asks for them, or with a sheet made before.
function answering(record, left) {
  const made = isLive(record[1]), lists = record[0] === 14 && made, levels = (record[0] === 18 || record[0] === 19) && made;
  if (lists && walk(record[1]) > 1500) record[0] = 6;
  if (levels && levelCalls(record[0], record[1]) > 2048) { record[0] = 6; record.fill(0, 11, 20); }
  const room = lists ? someRoom(record[1]) : random(4) * random(12);
  if (left > 1 && chance(3)) {
    const bytes = sheetBytes(Array.from({ length: random(4) }, () => (world.live.length > 0 && chance(30) ? spoiltAnswer() : anyAnswer())));
    return doStep(record, chance(60) ? damaged(bytes) : bytes, room);
  }
  const end = chance(8) ? random(4) : FULL.answers;       // where the sheet ends too soon
  let given = 0;
  const extra = left > 1 && end === FULL.answers && chance(15) ? [anyAnswer(), anyAnswer()].slice(random(2)) : [];
  const honest = levels ? pick([75, 90, 98]) : 0;
  return doStep(record, (asks) => (given++ < end ? (chance(honest) && trueAnswer(asks)) || someAnswer(asks) : null), room, extra);
}

// An object with some properties that is not yet closed, a proxy or two over it, and its level set and tested through them: a step 18 that ends midway has
// changed something.
function levelScene() {
  const run = (s, honest, end) => {
    let given = 0;
    return doStep(asked(stepBytes(s)), (asks) => (given++ < end ? (chance(honest) && trueAnswer(asks)) || someAnswer(asks) : null), 0);
  };
  const level = integer(random(3) ? 1 : 0), callable = chance(20);
  run({ code: callable ? 16 : 1, value: chance(70) ? NULL : somePrototype() }, 0, 0);
  const base = lastMade();
  for (let n = 1 + random(5); n > 0; n--) {
    const key = chance(75) ? someString() : someSymbol();
    if (!run({ code: 9, object: base, key, descriptor: chance(85) ? openDescriptor() : someDescriptor() }, 0, 0)) return false;
  }
  for (let n = callable ? 0 : 1 + random(2); n > 0; n--) run({ code: 2, object: lastMade(), value: integer(chance(85) ? pick(LEVEL_MASKS) : random(2048)) }, 0, 0);
  if (chance(20)) run(chance(50) ? { code: 7, object: base } : { code: 18, object: base, value: integer(random(2)) }, 0, 0);
  const end = chance(20) ? random(6) : FULL.answers, honest = pick([70, 88, 96]);
  run({ code: 18, object: lastMade(), value: level }, honest, end);
  if (chance(30)) doPage(objectNumber(base), pageSize(base));
  return run({ code: 19, object: chance(50) ? base : lastMade(), value: level }, honest, FULL.answers);
}

// Pages ----------------------------------------------------------------------------------

// The output of a page: just enough, longer, or too short.
function pageRoom(o) {
  const n = pageSize(o);
  return weighed([[40, n], [35, n + 1 + random(100)], [11, n - 1], [6, 0], [8, random(n)]]);
}

// Of the object that a step was to change, whether or not it did.
function pageAfter(record) {
  const o = record[0] === 12 && record[20] > 6 ? record[21] : record[1];
  const base = isLive(o) ? world.numbers.get(baseOf(o)) : undefined;
  if (base !== undefined) doPage(objectNumber(base), pageRoom(base));
}

// A number that no object has: a released one, or unused, some with the low bytes of one that is made.
function unmadeNumber() {
  const n = world.objects.length, bytes = objectNumber(random(n + 1));
  bytes[1 + random(7)] = 1 + random(255);
  if (world.released.length > 0 && chance(60)) return objectNumber(pick(world.released));
  return pick([objectNumber(n), objectNumber(n + random(300)), bytes, bytes, [255, 255, 255, 255, 255, 255, 255, 255]]);
}

// Mostly of an object that has properties, where there is one.
function somePage() {
  const ordinary = numbersOf((at) => !at.proxy), filled = ordinary.filter((o) => world.sizes[o] > 0), proxies = numbersOf((at) => at.proxy);
  const o = pick(filled.length > 0 && chance(90) ? filled : ordinary), any = pick([0, 46, 47, 94, random(500)]);
  weighed([[ordinary.length > 0 ? 14 : 0, () => doPage(objectNumber(o), pageRoom(o))], [proxies.length > 0 ? 4 : 0, () => doPage(objectNumber(pick(proxies)), any)], [2, () => doPage(unmadeNumber(), any)]])();
}

// A number that is there, handed in again in either representation: defined and set, straight and through a proxy, over what is fixed and what is not. A page
// alone shows which of the two is stored then.
function numberScene() {
  const run = (s) => doStep(asked(stepBytes(s)), someAnswer, 0), isFunction = chance(20);
  run({ code: isFunction ? 16 : 1, value: NULL });
  const base = lastMade();
  if (!isFunction) run({ code: 2, object: base, value: integer(pick([0, 0, 0, 16, 32, 256])) });
  const key = chance(75) ? someString() : someSymbol(), x = pick([0, 1, -1, 70000, 2147483647, -2147483648]), either = () => pick([integer, float])(x);
  if (!run({ code: 9, object: base, key, descriptor: { value: either(), enumerable: flag(), writable: flag(), configurable: flag() } })) return false;
  for (let n = 1 + random(3); n > 0; n--) {
    const o = isFunction || chance(60) ? base : lastMade(), value = chance(85) ? either() : float(-x);
    if (!run(chance(60) ? { code: 9, object: o, key, descriptor: near({ value, enumerable: flag() }) } : { code: 12, object: o, key, value, receiver: named(o) })) return false;
    doPage(objectNumber(base), pageRoom(base));
  }
  return true;
}

// Of each ordinary object and function, within the limit.
function allPages(limit) {
  for (const o of numbersOf((at) => !at.proxy)) if (calls < limit) doPage(objectNumber(o), pageRoom(o));
}

// Releases ---------------------------------------------------------------------------------

const NAMINGS = ['prototype', 'value', 'get', 'set', 'own', 'target'];

// An object that is named in one way, released in vain; no longer named, and released; its number in the places where it may not stand; and taken again.
// Other steps may come in between, so that what names it may be changed and refused as anything else.
function releaseScene(style) {
  const run = (s) => doStep(asked(stepBytes(s)), someAnswer, 0), way = pick(NAMINGS), isFunction = way === 'get' || way === 'set' || (way !== 'target' && chance(40));
  const straight = (n, v) => (v[0] > 6 && isLive(n) && wouldLoop(n, payload(v)) ? NULL : v);
  const others = numbersOf((at) => !at.proxy && Reflect.isExtensible(at.it)), key = chance(75) ? someString() : someSymbol();
  run({ code: isFunction ? 16 : 1, value: chance(50) ? NULL : somePrototype() });
  const o = lastMade(), name = named(o), by = way === 'own' ? o : others.length > 0 ? pick(others) : o;
  const part = way === 'own' ? (isFunction ? pick(['value', 'get', 'set']) : 'value') : way;
  for (let n = random(4); n > 0; n--) if (!run({ code: 9, object: o, key: chance(75) ? someString() : someSymbol(), descriptor: openDescriptor() })) return false;
  if (way === 'target') run({ code: 2, object: o, value: someMask(style) });
  else if (way === 'prototype') run(chance(50) ? { code: pick([1, 16]), value: name } : { code: 5, object: by, value: straight(by, name) });
  else if (!run({ code: 9, object: by, key, descriptor: Object.assign({ configurable: true, enumerable: flag() }, { [part]: name }, part === 'value' ? { writable: true } : {}) })) return false;
  const namer = way === 'target' || (way === 'prototype' && lastMade() !== o) ? lastMade() : by;
  run({ code: 17, object: o });
  if (chance(30) && !step(style, 3)) return false;
  if (way === 'target') run(chance(60) ? { code: 3, object: namer } : { code: 17, object: namer });
  else if (way === 'prototype') run(chance(60) ? { code: 5, object: namer, value: chance(70) ? NULL : straight(namer, somePrototype()) } : { code: 17, object: namer });
  else if (!run(part === 'value' && chance(40) ? { code: 12, object: namer, key, value: somePrimitive(), receiver: isLive(namer) ? named(namer) : NULL } : { code: 13, object: namer, key })) return false;
  run({ code: 17, object: o });
  if (isLive(o)) return true;
  for (let n = random(3); n > 0; n--) run(releasedIn(pick([object, callable])(o)));
  if (chance(35)) doStep(stepBytes({ code: 6, object: someNumber() }), sheetBytes([releasedAnswer(pick([object, callable])(o))]), 0);
  if (chance(20)) doPage(objectNumber(o), random(100));
  if (chance(60)) run({ code: pick([1, 16]), value: chance(50) ? NULL : somePrototype() });
  return true;
}

// A step with a released number in one of its parts.
function releasedIn(v) {
  const o = world.live.length > 0 ? someNumber() : 0, key = someString();
  return pick([{ code: pick([3, 4, 6, 7, 14, 17]), object: payload(v) }, { code: pick([8, 10, 13]), object: o, key: v }, { code: pick([1, 16]), value: v }, { code: 5, object: o, value: v }, { code: 2, object: payload(v), value: integer(0) },
    { code: 11, object: o, key, receiver: v }, { code: 12, object: o, key, value: v, receiver: UNDEFINED }, { code: 12, object: o, key, value: NULL, receiver: v }, { code: 9, object: o, key, descriptor: pick([{ value: v }, { get: v }, { set: v }]) }]);
}

const releasedAnswer = (v) => pick([answered(v), thrown(v), listed([someString(), v]), described({ value: v }), described({ get: v }), described({ set: v })]);

// Some objects that have 256 properties together, or a few less: a release makes room.
function filled(left) {
  for (let n = 4 + random(4); n > 0 && left() > 0; n--) doStep(stepBytes({ code: pick([1, 1, 16]), value: NULL }), [0], 0);
  for (let i = 0, n = FULL.properties - random(5); i < n && left() > 0; i++) {
    const key = i < world.strings.length ? string(i) : symbol(i), descriptor = { value: somePrimitive(), writable: true, enumerable: flag(), configurable: chance(90) };
    doStep(asked(stepBytes({ code: 9, object: someNumber(), key, descriptor })), [0], 0);
  }
}

// Descriptors by themselves --------------------------------------------------------------

// Some fields of a property, and one of its fields changed: mostly that test alone fails.
function unlike(there) {
  const d = {}, names = Object.keys(there), name = pick(names.concat(names.filter((field) => field !== 'enumerable' && field !== 'configurable')));
  for (const field of names) if (chance(55)) d[field] = there[field];
  if (name === 'value') d.value = nearValue(there.value);
  else if (name === 'get' || name === 'set') d[name] = there[name][0] === 8 && chance(50) ? UNDEFINED : someFunction();
  else if (name !== undefined) d[name] = !there[name];
  return d;
}

function stepAlone() {
  const kind = weighed([[2, 3], [4, 4], [4, 5], [2, 6]]);
  const whole = (d) => Object.assign('get' in d || 'set' in d ? { get: UNDEFINED, set: UNDEFINED } : { value: UNDEFINED, writable: false }, { enumerable: false, configurable: false }, d);
  const there = chance(92) ? whole(someDescriptor()) : someDescriptor();
  if (there.configurable && chance(60)) there.configurable = false;
  const mixed = () => Object.assign(someDescriptor(), { get: someFunction(), value: somePrimitive() });
  const d = weighed([[40, () => near(there)], [30, () => unlike(there)], [28, someDescriptor], [2, mixed]])();
  if (chance(4)) d.value = pick([unmade(), misnamed(someNumber()), string(world.strings.length), symbol(300)]);
  if (chance(2)) there.get = pick([unmade(), misnamed(someNumber())]);
  if (world.released.length > 0 && chance(15)) Object.assign(pick([d, there]), pick([{ value: unmade() }, { get: unmade() }, { set: unmade() }]));
  const record = descriptorBytes(d), other = kind === 3 || (kind < 6 && chance(15)) ? [] : descriptorBytes(there);
  doAlone(kind, chance(3) ? damaged(record) : record, chance(3) && kind > 3 ? damaged(other) : other);
}

// Worlds ---------------------------------------------------------------------------------

const EVEN = [[3, 1], [3, 16], [5, 2], [1, 3], [6, 4], [5, 5], [5, 6], [4, 7], [12, 8], [20, 9], [9, 10], [10, 11], [12, 12], [6, 13], [10, 14], [3, 18], [4, 19]];
const STYLES = [
  [70, { calls: 150, strings: 8, last: 30, proxies: 60, codes: EVEN }],
  [10, { calls: 60, strings: 4, last: 60, proxies: 75, codes: [[2, 1], [2, 16], [14, 2], [1, 3], [4, 4], [3, 5], [4, 6], [3, 7], [10, 8], [12, 9], [6, 10], [8, 11], [8, 12], [5, 13], [8, 14], [4, 18], [5, 19]] }],
  [24, { calls: 60, strings: 5, last: 40, proxies: 65, codes: [[1, 1], [2, 16], [4, 2], [3, 4], [3, 5], [3, 6], [9, 7], [16, 8], [22, 9], [9, 10], [12, 11], [9, 12], [6, 13], [16, 14], [5, 18], [6, 19]] }],
  [36, { calls: 60, strings: 5, last: 85, proxies: 35, levels: true, codes: [[6, 1], [3, 16], [12, 2], [1, 3], [1, 6], [1, 7], [5, 8], [44, 9], [2, 12], [2, 13], [4, 14], [14, 18], [14, 19]] }],
  [6, { calls: 50, strings: 4, last: 40, proxies: 40, loops: true, codes: EVEN }],
  [4, { calls: 120, strings: 3, last: 5, proxies: 20, codes: [[20, 1], [20, 16], [30, 2], [2, 3], [5, 9], [5, 11], [5, 12]] }],
  [2, { calls: 700, strings: 4, last: 0, proxies: 10, crowd: true, codes: [[1, 1], [1, 16], [1, 2], [90, 9], [2, 10], [12, 12], [3, 13], [1, 14], [1, 18], [2, 19]] }],
  // with releases: among all else; making and releasing; at 32 live objects; at 256 properties; with chains that lead back
  [19, { calls: 150, strings: 8, last: 30, proxies: 50, releases: 6, codes: EVEN.concat([[10, 1], [8, 16], [8, 2], [8, 3], [24, 17]]) }],
  [14, { calls: 120, strings: 4, last: 50, proxies: 30, releases: 10, codes: [[14, 1], [12, 16], [14, 2], [5, 3], [3, 4], [8, 5], [1, 7], [3, 8], [14, 9], [3, 11], [4, 12], [6, 13], [3, 14], [2, 18], [2, 19], [36, 17]] }],
  [4, { calls: 200, strings: 3, last: 5, proxies: 20, releases: 2, codes: [[20, 1], [20, 16], [25, 2], [4, 3], [5, 9], [4, 11], [4, 12], [3, 13], [22, 17]] }],
  [2, { calls: 900, strings: 4, last: 0, proxies: 10, releases: 1, crowd: true, full: true, codes: [[5, 1], [3, 16], [1, 2], [120, 9], [2, 10], [16, 12], [8, 13], [1, 14], [1, 18], [2, 19], [8, 17]] }],
  [3, { calls: 60, strings: 4, last: 40, proxies: 40, releases: 6, loops: true, codes: EVEN.concat([[6, 1], [4, 16], [6, 2], [6, 3], [14, 17]]) }],
];

// Pages do not count in a list's length, so that other calls see the objects that they would see without them.
function someWorld(limit) {
  const style = weighed(STYLES), others = () => calls - pageCount(), end = others() + style.calls / 2 + random(style.calls), left = () => Math.min(limit - calls, end - others());
  emptied();
  for (let i = random(style.strings); i >= 0 && left() > 0; i--) doEnter(someText());
  if (style.crowd) for (let i = 0, n = pick([40, 120, 250, 270]); i < n && left() > 0; i++) doEnter('k' + i);
  if (style.full) filled(left);
  while (left() > 0) {
    if (chance(3)) doEnter(someText());
    else if (style.levels && chance(25) && left() > 12 && world.live.length + 3 <= FULL.objects) { if (!levelScene()) return; }
    else if (style.releases && chance(style.releases) && left() > 18 && world.live.length > 0 && world.live.length + 3 <= FULL.objects) { if (!releaseScene(style)) return; }
    else if (world.live.length > 0 && chance(5)) stepAlone();
    else if (world.live.length > 0 && chance(3)) somePage();
    else if (!step(style, left())) return;
  }
  if (chance(50) && limit - calls > 12 && world.live.length + 2 <= FULL.objects && !numberScene()) return;
  if (chance(25)) allPages(limit);
}
