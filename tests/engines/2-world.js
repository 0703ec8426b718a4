// The performer: objects, proxies and strings of the engine itself, by number.

const FULL = { objects: 32, properties: 256, strings: 256, units: 32, answers: 64 };
const SYMBOLS = Array.from({ length: 256 }, (_, n) => Symbol(n));
const symbolNumber = new Map(SYMBOLS.map((s, n) => [s, n]));
const refusal8 = { refusal: 8 }, refusal9 = { refusal: 9 };

// The answers of the call that runs. `grow`, where it is there, makes the next answer for whoever asks, after the given ones. `rejected` is the first
// preventExtensions or defineProperty trap that answered false, and how many answers were used then. `asked`: the traps that were asked, and 'function'.
const newSheet = (answers, grow) => ({ answers, used: 0, grow, rejected: null, asked: [] });
let sheet = newSheet([], null);

function next(asks) {
  if (sheet.used === sheet.answers.length) {
    const made = sheet.grow !== null && sheet.answers.length < FULL.answers ? sheet.grow(asks) : null;
    if (made === null) throw refusal8;
    sheet.answers.push(made);
  }
  sheet.asked.push(asks.trap);
  return sheet.answers[sheet.used++];
}

// A function without own properties: as getter or setter it takes the next answer.
function callableObject(prototype) {
  const it = () => valueOf(valueAnswer({ trap: 'function' }));
  for (const key of Reflect.ownKeys(it)) if (!Reflect.deleteProperty(it, key)) throw new Error('a function keeps ' + String(key));
  return Object.setPrototypeOf(it, prototype);
}

const madeObject = (callable, prototype) => (callable ? callableObject(prototype) : Object.create(prototype));

// `objects` has the live object of each number, and null where the number is released; `live` the numbers of the live ones, in the order in which they
// were made; `released` the released numbers, the one released longest ago first. `numbers` has no released object: its number is nobody's until it is
// taken again.
let world;

function newWorld() {
  world = { objects: [], live: [], released: [], numbers: new Map(), strings: [], stringNumber: new Map(), representations: [] };
  keep(dumpStore());
}

const isLive = (o) => o < world.objects.length && world.objects[o] !== null;
const isCallable = (o) => world.objects[o].callable;

// What refusals 2, 3 and 14 ask, of the objects as they are now.
function counts() {
  const objects = world.objects.slice();
  return { strings: world.strings.length, isLive: (o) => o < objects.length && objects[o] !== null, isProxy: (o) => objects[o].proxy, isCallable: (o) => objects[o].callable, isNamed: (o) => waysNamed(o).size > 0 };
}

// The number of an object of the engine's; a released one must not come back.
function objectNumberOf(it) {
  const n = world.numbers.get(it);
  if (n === undefined) throw new Error('an object without a number');
  return n;
}

// The value that names an object: of kind 8 where it is callable. `misnamed` has the wrong kind.
const named = (o) => (isCallable(o) ? callable(o) : object(o));
const misnamed = (o) => (isCallable(o) ? object(o) : callable(o));

// The JavaScript value that 9 bytes stand for.
function valueOf(v) {
  switch (v[0]) {
    case 0: return undefined;
    case 1: return null;
    case 2: return v[1] === 1;
    case 3: for (let i = 0; i < 4; i++) view.setUint8(i, v[1 + i]); return view.getInt32(0, true);
    case 4: for (let i = 0; i < 8; i++) view.setUint8(i, v[1 + i]); return view.getFloat64(0, true);
    case 5: return world.strings[payload(v)];
    case 6: return SYMBOLS[payload(v)];
    default: return world.objects[payload(v)].it;
  }
}

function descriptorObject(d) {
  const it = Object.create(null);
  for (const [name, bit] of FIELDS) if (name in d) it[name] = bit < 8 ? d[name] : valueOf(d[name]);
  return it;
}

// A value of the engine's as 9 bytes; numbers as Float64.
function bytesOf(x) {
  switch (typeof x) {
    case 'undefined': return UNDEFINED;
    case 'boolean': return boolean(x);
    case 'number': return x === x ? float(x) : [4, 0, 0, 0, 0, 0, 0, 0xf8, 0x7f];
    case 'string': return string(world.stringNumber.get(x));
    case 'symbol': return symbol(symbolNumber.get(x));
    case 'function': return callable(objectNumberOf(x));
    default: return x === null ? NULL : object(objectNumberOf(x));
  }
}

// The same as the expectation's text.
const numberText = new Map();

function valueText(x) {
  switch (typeof x) {
    case 'undefined': return '00';
    case 'boolean': return x ? '0201' : '0200';
    case 'number': {
      if (x === 0) return Object.is(x, -0) ? '040000000000000080' : '040000000000000000';
      let text = numberText.get(x);
      if (text === undefined) numberText.set(x, text = hexOf(bytesOf(x)));
      return text;
    }
    case 'string': return '05' + HEX[world.stringNumber.get(x)];
    case 'symbol': return '06' + HEX[symbolNumber.get(x)];
    case 'function': return '08' + HEX[objectNumberOf(x)];
    default: return x === null ? '01' : '07' + HEX[objectNumberOf(x)];
  }
}

function propertyText(p) {
  const flags = (p.enumerable ? 4 : 0) + (p.configurable ? 8 : 0);
  if ('value' in p) return HEX[flags + (p.writable ? 2 : 0)] + valueText(p.value);
  return HEX[flags + 1] + valueText(p.get) + valueText(p.set);
}

// The whole store, and how many properties each object has.
function dumpStore() {
  const marks = world.live.reduce((sum, o) => sum | 1 << o, 0), sizes = [];
  let text = hex2(world.strings.length) + hex2(marks & 0xffff) + hex2(marks >>> 16);
  for (const at of world.objects) {
    if (at === null || at.proxy) {
      sizes.push(0);
      if (at !== null) text += '02';
      continue;
    }
    const { it } = at, keys = Reflect.ownKeys(it);
    sizes.push(keys.length);
    text += (typeof it === 'function' ? '01' : '00') + (Reflect.isExtensible(it) ? '01' : '00') + valueText(Reflect.getPrototypeOf(it)) + hex2(keys.length);
    for (const key of keys) text += valueText(key) + propertyText(Reflect.getOwnPropertyDescriptor(it, key));
  }
  return { text, sizes };
}

// Handlers ----------------------------------------------------------------------------

const TRAPS = ['getPrototypeOf', 'setPrototypeOf', 'isExtensible', 'preventExtensions', 'getOwnPropertyDescriptor', 'defineProperty',
  'has', 'get', 'set', 'deleteProperty', 'ownKeys'];

// The next answer where a value is to stand: its bytes, or a throw.
function valueAnswer(asks) {
  const a = next(asks);
  if (a.tag === 4) throw valueOf(a.value);
  if (a.tag !== 1) throw refusal9;
  return a.value;
}

// The next answer where a descriptor (tag 2) or a key list (tag 3) is to stand: another primitive is left to the engine.
function objectAnswer(asks, tag, made) {
  const a = next(asks);
  if (a.tag === 4) throw valueOf(a.value);
  if (a.tag === tag) return made(a);
  if (a.tag !== 1 || a.value[0] === 7 || a.value[0] === 8) throw refusal9;
  return valueOf(a.value);
}

function handlerOf(target, mask) {
  const handler = Object.create(null);
  const traps = {
    getOwnPropertyDescriptor: (_, key) => objectAnswer({ trap: 'getOwnPropertyDescriptor', target, key }, 2, (a) => descriptorObject(a.descriptor)),
    ownKeys: () => objectAnswer({ trap: 'ownKeys', target }, 3, (a) => a.list.map(valueOf)),
  };
  const rejects = ['preventExtensions', 'defineProperty'];
  const asked = (trap) => (_, key, more) => {
    const x = valueOf(valueAnswer({ trap, target, key, more }));
    if (!x && rejects.includes(trap) && sheet.rejected === null) sheet.rejected = { trap, used: sheet.used };
    return x;
  };
  TRAPS.forEach((trap, i) => {
    if (mask & (1 << i)) handler[trap] = traps[trap] || asked(trap);
  });
  return handler;
}

// Numbers -----------------------------------------------------------------------------

// How often an object was released and a number taken again; of refusal 14 by the way of naming, where it was the only one; and of refusal 2 where a
// released number stood in each place.
const released = { done: 0, reused: 0, prototype: 0, value: 0, get: 0, set: 0, own: 0, target: 0 };
const refusedReleased = { object: 0, key: 0, value: 0, receiver: 0, descriptor: 0, sheet: 0, alone: 0, page: 0 };

// The number that the next object takes: the one released longest ago or, with none released, the next unused one.
const nextNumber = () => (world.released.length > 0 ? world.released[0] : world.objects.length);

function place(n, it, proxy, more) {
  world.numbers.set(it, n);
  world.objects[n] = Object.assign({ it, proxy, callable: typeof it === 'function' }, more);
  return it;
}

function add(it, proxy, more) {
  const n = nextNumber();
  if (world.released.length > 0) { world.released.shift(); released.reused++; }
  world.live.push(n);
  return place(n, it, proxy, more);
}

// The ways in which live objects name one: prototypes and properties as the engine has them; an engine tells no proxy's target, so that and whether it is
// revoked are kept here.
function waysNamed(o) {
  const { it } = world.objects[o], ways = new Set();
  for (const n of world.live) {
    const at = world.objects[n];
    if (at.proxy) {
      if (!at.revoked && at.target === o) ways.add('target');
      continue;
    }
    if (Reflect.getPrototypeOf(at.it) === it) ways.add('prototype');
    for (const key of Reflect.ownKeys(at.it)) {
      const p = Reflect.getOwnPropertyDescriptor(at.it, key);
      for (const part of ['value', 'get', 'set']) if (p[part] === it) ways.add(n === o ? 'own' : part);
    }
  }
  return ways;
}

// The object is gone, and its number free. Only a revoked proxy can have had it as its target, and has none then.
function release(o) {
  world.numbers.delete(world.objects[o].it);
  world.objects[o] = null;
  world.live = world.live.filter((n) => n !== o);
  world.released.push(o);
  delete world.representations[o];
  for (const n of world.live) if (world.objects[n].target === o) world.objects[n].target = undefined;
  released.done++;
}

const isReleased = (v) => (v[0] === 7 || v[0] === 8) && world.released.includes(payload(v));

function answerValues(a) {
  if (a.tag === 2) return ['value', 'get', 'set'].filter((name) => name in a.descriptor).map((name) => a.descriptor[name]);
  return a.tag === 3 ? a.list : [a.value];
}

// Counts why a step was refused as 2 or 14; `given` is its sheet, where that is what was refused.
function countRefused(n, s, given) {
  if (n === 14) { const [way, ...ways] = waysNamed(s.object); if (ways.length === 0) released[way]++; }
  if (n !== 2) return;
  if (given !== null) { if (sheetOf(given).some((a) => answerValues(a).some(isReleased))) refusedReleased.sheet++; return; }
  if (world.released.includes(s.object)) refusedReleased.object++;
  for (const part of ['key', 'value', 'receiver']) if (isReleased(s[part])) refusedReleased[part]++;
  if (answerValues(described(s.descriptor)).some(isReleased)) refusedReleased.descriptor++;
}

// Steps -------------------------------------------------------------------------------

// What each code does on the engine's objects: the completion, as text.
function run(s) {
  const it = s.code === 1 || s.code === 16 ? null : world.objects[s.object].it;
  const key = valueOf(s.key), value = s.code === 2 ? null : valueOf(s.value), receiver = valueOf(s.receiver);
  const told = (x) => '01' + valueText(x);
  switch (s.code) {
    case 1: case 16: return told(add(madeObject(s.code === 16, value), false, {}));
    case 2: {
      const mask = s.value[1] + 256 * s.value[2];
      const made = Proxy.revocable(it, handlerOf(s.object, mask));
      return told(add(made.proxy, true, { target: s.object, mask, revoke: made.revoke }));
    }
    case 3: world.objects[s.object].revoke(); world.objects[s.object].revoked = true; return told(true);
    case 4: return told(Reflect.getPrototypeOf(it));
    case 5: return told(Reflect.setPrototypeOf(it, value));
    case 6: return told(Reflect.isExtensible(it));
    case 7: return told(Reflect.preventExtensions(it));
    case 8: { const p = Reflect.getOwnPropertyDescriptor(it, key); return p === undefined ? '03' : '02' + propertyText(p); }
    case 9: return told(Reflect.defineProperty(it, key, descriptorObject(s.descriptor)));
    case 10: return told(Reflect.has(it, key));
    case 11: return told(Reflect.get(it, key, receiver));
    case 12: return told(Reflect.set(it, key, value, receiver));
    case 13: return told(Reflect.deleteProperty(it, key));
    case 17: release(s.object); return told(true);
    case 18: (value === 1 ? Object.freeze : Object.seal)(it); return told(true);
    case 19: return told((value === 1 ? Object.isFrozen : Object.isSealed)(it));
    default: return Reflect.ownKeys(it);
  }
}

const refused = (n) => ({ outcome: 0, numbers: 1 << n, answers: 0, completion: '' });

// What was thrown while a step ran.
function failed(e) {
  if (e === refusal8 || e === refusal9) return refused(e.refusal);
  const isObject = typeof e === 'object' && e !== null;
  if (!isObject || world.numbers.has(e)) return { outcome: 3, numbers: 0, answers: sheet.used, completion: '01' + valueText(e) };
  if (e instanceof TypeError) return { outcome: 2, numbers: messagesOf(e.message), answers: sheet.used, completion: '' };
  if (isOverflow(e)) return refused(10);
  throw e;
}

// 7.3.15 answers false where Object.freeze and Object.seal throw: where [[PreventExtensions]] is false. A [[DefineOwnProperty]] that is false is message
// 32. A method that a trap made false calls nothing after it, and no method calls [[PreventExtensions]] or [[DefineOwnProperty]] of a target to check an
// answer; without a trap neither is ever false here, since a handler changes no object. So of a TypeError the trap that was asked last tells what it is:
// one of these two that answered false, or else a check of a proxy. What the engine did after a false, and its text, must agree.
function failedLevel(e) {
  const { rejected } = sheet, expected = failed(e);
  const { outcome, numbers } = expected, status = numbers === STATUS, definition = numbers === 1 << 32;
  if (rejected === null) {
    if (outcome === 2 && (status || definition)) throw new Error('a false that no trap answered: ' + e.message);
    return expected;
  }
  const prevented = rejected.trap === 'preventExtensions';
  if (outcome !== 2 || rejected.used !== sheet.used || (numbers !== ANY && !(prevented ? status : definition))) throw new Error('a false of a trap was not the end: ' + String(e));
  if (prevented) return { outcome: 1, numbers: 0, answers: sheet.used, completion: '01' + valueText(false) };
  return { outcome, numbers: 1 << 32, answers: sheet.used, completion: '' };
}

// One step over tested records; `room` is the output's length. The expectation, and what the output then holds.
function perform(s, room) {
  if ((s.code <= 2 || s.code === 16) && world.live.length === FULL.objects) return refused(7);
  try {
    const done = run(s);
    if (s.code === 18 && sheet.rejected !== null) return failedLevel('no error');
    if (s.code !== 14) return { outcome: 1, numbers: 0, answers: sheet.used, completion: done };
    if (9 * done.length > room) return refused(11);
    let output = '';
    for (const key of done) output += hexOf(bytesOf(key));
    return { outcome: 1, numbers: 0, answers: sheet.used, completion: '04' + hex2(done.length), output };
  } catch (e) {
    return s.code === 18 ? failedLevel(e) : failed(e);
  }
}

// Refusal 7: an engine has no limit, so the 257th property is taken back; false where it cannot be.
function takeBack(sizes, key) {
  const grown = world.objects[sizes.findIndex((n, o) => n > world.sizes[o])].it;
  return Reflect.deleteProperty(grown, key) && dumpStore().text === world.dump;
}

// All objects, for restored: step 18 changes them as it goes, and an engine cannot take that back.
function copied() {
  const part = (p, name) => (typeof p[name] === 'boolean' && name !== 'value' ? p[name] : bytesOf(p[name]));
  const entry = (it, key) => {
    const p = Reflect.getOwnPropertyDescriptor(it, key), d = {};
    for (const [name] of FIELDS) if (name in p) d[name] = part(p, name);
    return [key, d];
  };
  const copy = ({ it, proxy, callable, target, mask, revoked }) => (proxy ? { proxy, target, mask, revoked } : {
    proxy, callable, extensible: Reflect.isExtensible(it), prototype: bytesOf(Reflect.getPrototypeOf(it)), entries: Reflect.ownKeys(it).map((key) => entry(it, key)) });
  return world.objects.map((at) => (at === null ? null : copy(at)));
}

// Other objects in the place of all, as they were. A proxy is made after its target, which may have a higher number; a revoked one whose target was
// released is made over nothing that has a number.
function restored(copies) {
  world.objects = copies.map(() => null);
  world.numbers = new Map();
  const made = (n) => {
    const { proxy, callable, target, mask } = copies[n];
    if (world.objects[n] !== null) return world.objects[n].it;
    if (!proxy) return place(n, madeObject(callable, null), false, {});
    const pair = Proxy.revocable(target === undefined ? {} : made(target), handlerOf(target, mask));
    return place(n, pair.proxy, true, { target, mask, revoke: pair.revoke });
  };
  world.live.forEach(made);
  world.live.forEach((n) => {
    const at = world.objects[n], { proxy, revoked, prototype, entries, extensible } = copies[n];
    if (proxy) {
      if (revoked) { at.revoke(); at.revoked = true; }
      return;
    }
    Reflect.setPrototypeOf(at.it, valueOf(prototype));
    for (const [key, d] of entries) Reflect.defineProperty(at.it, key, descriptorObject(d));
    if (!extensible) Reflect.preventExtensions(at.it);
  });
  const dump = dumpStore();
  if (dump.text !== world.dump) throw new Error('the store from before did not come back');
  return dump;
}

// Keeps what the store holds now.
function keep(dump) {
  world.dump = dump.text;
  world.sizes = dump.sizes;
}

// Representations ----------------------------------------------------------------------
//
// A page shows whether a number was stored as Integer32 or as Float64, which an engine does not tell. So beside each object stands, by key, the record of the
// number that was stored last. Lists in which every number has one representation would need none of this; but no page would then tell a definition that
// replaces a number by an equal one of the other representation from one that leaves it.

// The proxies from an object inwards, and the ordinary object or the function at the end of the targets: an empty one, without a number, where a revoked
// proxy's target was released.
const NOTHING = Object.freeze(Object.create(null));

function proxiesFrom(o) {
  const proxies = [];
  for (let at = world.objects[o]; at !== undefined && at.proxy; at = at.target === undefined ? undefined : world.objects[at.target]) proxies.push(at);
  return proxies;
}

function baseOf(o) {
  const proxies = proxiesFrom(o), n = proxies.length > 0 ? proxies[proxies.length - 1].target : o;
  return n === undefined ? NOTHING : world.objects[n].it;
}

// The number that a step hands in for a property, and where it would be stored: in the ordinary object at the end of the targets. Null where there is none,
// and where the property that is there is fixed: a definition that is accepted leaves it as it is.
function givenNumber(s) {
  const value = s.code === 9 ? s.descriptor.value : s.code === 12 && s.receiver[0] > 6 ? s.value : undefined;
  if (value === undefined || (value[0] !== 3 && value[0] !== 4)) return null;
  const it = baseOf(s.code === 9 ? s.object : payload(s.receiver)), key = valueOf(s.key), p = Reflect.getOwnPropertyDescriptor(it, key);
  if (p !== undefined && p.writable === false && !p.configurable) return null;
  return { o: world.numbers.get(it), key, record: value[0] === 3 ? value : bytesOf(valueOf(value)) };
}

// Whether step 9 or 12 ended in a definition that the ordinary object accepted: any other true is the answer of a trap, or a setter's.
const isStored = (expected) => expected.completion === '01' + valueText(true) && !['defineProperty', 'set', 'function'].some((trap) => sheet.asked.includes(trap));

function keepRepresentation({ o, key, record }) {
  const records = world.representations[o] || (world.representations[o] = new Map());
  records.set(key, record);
}

// Lines -------------------------------------------------------------------------------

let calls = 0, latest = null;                             // `latest`: the expectation of the last line

function line(kind, room, record, given, expected) {
  latest = expected;
  const output = expected.output || '';
  const text = HEX[expected.outcome] + hex2(expected.numbers & 0xffff) + hex2(expected.numbers >>> 16) + HEX[expected.answers] +
    hex2(expected.completion.length / 2) + expected.completion + output + 'ee'.repeat(room - output.length / 2) + world.dump;
  emit(HEX[kind] + hex2(room) + hex2(record.length) + hex2(given.length) + hex2(text.length / 2) + hexOf(record) + hexOf(given) + text);
  if (kind !== 0) calls++;
}

const nothing = { outcome: 1, numbers: 0, answers: 0, completion: '' };

function emptied() {
  newWorld();
  line(0, 0, [], [], nothing);
}

// A step. `given` is a sheet's bytes, or a function that makes each answer when it is asked for; `after` adds answers that nothing asks for. An engine knows
// no unread answers, so a sheet that has some is left out: a line says that it is refused as 13, and the next has the same step with the answers that were
// read. A step that is refused for another reason keeps its number, with the answers that nothing asked for too; but 13 comes before 11.
// True where the engine's objects are still those of the store.
function doStep(record, given, room, after) {
  const growing = typeof given === 'function', before = counts();
  let n = stepRefusal(record, before);
  if (n !== 0) countRefused(n, stepOf(record), null);
  else if (!growing) countRefused(n = sheetRefusal(given, before), null, given);
  sheet = newSheet(n === 0 && !growing ? sheetOf(given) : [], growing ? given : null);
  const s = n === 0 ? stepOf(record) : null;
  const copies = n === 0 && s.code === 18 ? copied() : null, number = n === 0 ? givenNumber(s) : null;
  let expected = n === 0 ? perform(s, room) : refused(n), whole = true;
  const isShort = expected.numbers === 1 << 11 && expected.outcome === 0;
  let dump = dumpStore();
  if (copies !== null && expected.outcome === 0 && dump.text !== world.dump) dump = restored(copies);
  const isFull = dump.sizes.reduce((sum, n) => sum + n, 0) > FULL.properties;
  if (growing) {
    for (const a of after || []) if (sheet.answers.length < FULL.answers) sheet.answers.push(a);
    given = sheetBytes(sheet.answers);
    if (sheetRefusal(given, before) !== 0) throw new Error('a sheet that was made is refused');
  }
  if (!isFull && (expected.outcome !== 0 || isShort) && sheet.used < sheet.answers.length) {
    line(1, room, record, given, refused(13));
    given = sheetBytes(sheet.answers.slice(0, sheet.used));
  }
  if (isFull) {
    expected = refused(7);
    whole = takeBack(dump.sizes, valueOf(s.key));
  } else {
    keep(dump);
    if (number !== null && isStored(expected)) keepRepresentation(number);
  }
  line(1, room, record, given, expected);
  return whole;
}

function doEnter(text) {
  const record = [];
  for (let i = 0; i < text.length; i++) record.push(text.charCodeAt(i) & 255, text.charCodeAt(i) >> 8);
  let n = world.stringNumber.get(text), expected;
  if (text.length > FULL.units) expected = refused(3);
  else if (n === undefined && world.strings.length === FULL.strings) expected = refused(7);
  else {
    if (n === undefined) {
      n = world.strings.length;
      world.strings.push(text);
      world.stringNumber.set(text, n);
    }
    expected = { outcome: 1, numbers: 0, answers: 0, completion: '01' + valueText(text) };
    keep(dumpStore());
  }
  line(2, 0, record, [], expected);
}

// Completing, validating and merging by themselves --------------------------------------

// How often each number ended a validation.
const ended = [0, 0, 0, 0, 0, 0, 0, 0, 0];

// The first test of 10.1.6.3 that fails, by its number: what each looks at is defined alone, in the order of its steps, on an object made anew. 1: no field
// at all is rejected where nothing can be added. 4: a field of the kind, such that every property of that kind accepts it.
function firstRejected(made, d) {
  const own = Reflect.getOwnPropertyDescriptor(made(), 'k'), only = (name) => (name in d ? { [name]: d[name] } : null);
  const kind = 'value' in d || 'writable' in d ? { writable: false } : 'get' in d || 'set' in d ? { get: own === undefined ? undefined : own.get } : null;
  const tests = [{}, only('configurable'), only('enumerable'), kind, only('get'), only('set'), only('writable'), only('value')];
  return 1 + tests.findIndex((one) => one !== null && !Reflect.defineProperty(made(), 'k', one));
}

const isComplete = (mask) => (mask & 3) === 3 && ((mask & 12) === 12 || (mask & 48) === 48);

function alone(kind, record, current) {
  const over = kind === 6 || current.length > 0;
  let n = descriptorRefusal(over ? [record, current] : [record], counts());
  if (n === 0 && over && !isComplete(current[0])) n = 5;
  if (n === 0 && kind === 6 && ((current[0] & 12 && record[0] & 48) || (current[0] & 48 && record[0] & 12))) n = 6;
  if (n === 2 && [record, current].some((d) => partsOf(d).some(isReleased))) refusedReleased.alone++;
  if (n !== 0) return refused(n);
  const result = (completion) => ({ outcome: 1, numbers: 0, answers: 0, completion });
  const d = descriptorObject(descriptorOf(record));
  if (kind === 6) {                                       // boa's fill_with: each field that the second has replaces the first's
    const merged = descriptorObject(descriptorOf(current));
    for (const [name] of FIELDS) if (name in d) merged[name] = d[name];
    return result('02' + propertyText(merged));
  }
  const made = () => {
    const it = {};
    if (over) Reflect.defineProperty(it, 'k', descriptorObject(descriptorOf(current)));
    return kind === 4 ? Object.preventExtensions(it) : it;
  };
  const it = made(), accepted = Reflect.defineProperty(it, 'k', d), p = Reflect.getOwnPropertyDescriptor(it, 'k');
  if (kind === 3) return result('02' + propertyText(p));
  const number = firstRejected(made, d);
  if (accepted !== (number === 0)) throw new Error('test ' + number + ' is the first that fails alone, but the whole is ' + (accepted ? 'accepted' : 'rejected'));
  ended[number]++;
  return result('05' + (accepted ? '01' : '00') + HEX[number] + (p === undefined ? '03' : '02' + propertyText(p)));
}

const doAlone = (kind, record, current) => line(kind, 0, record, current, alone(kind, record, current));
