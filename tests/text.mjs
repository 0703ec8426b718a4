// Texts of steps with the rows that they must give. Nothing of the project is used: valid lines are performed by node on its own objects, and the
// other rows follow from the text form.
//
//     node tests/text.mjs lines            the large text
//     node tests/text.mjs rows             its rows
//     node tests/text.mjs check PROGRAM    the program on every text: ends in 'N texts, M rows, 0 differences', or fails
import { spawnSync } from 'node:child_process';

const NAMES = ['step', 'object', 'key', 'value', 'receiver', 'descriptor', 'sheet'];
const BYTES = { step: 1, object: 1, key: 9, value: 9, receiver: 9, descriptor: 29 };
const HEADING = 'line outcome number answers calls value\n';
const LONGEST = 16384;
const zeros = (bytes) => '00'.repeat(bytes);
const byte = (n) => n.toString(16).padStart(2, '0');

// The store on node ----------------------------------------------------------------------
//
// An ordinary object is a proxy of node's over a plain object, with the standard's 10.1 as its handler, so that every call of an internal method is
// seen and counted. A function is the same over an arrow function, which takes an answer where it is called. A proxy of the store is a proxy of node's
// over its target: node itself performs 10.5, and asks the handler for the trap once in each call.

class Refusal { constructor(number) { this.number = number; } }

// `objects` has GONE where a number was released; `released` has these numbers, the one released longest ago first. `live` counts properties.
const GONE = Symbol('released');
let objects, released, plain, strings, live, calls, answers, used, grow, rejected;
const SYMBOLS = Array.from({ length: 256 }, (_, n) => Symbol(n));
const isFunction = (x) => typeof x === 'function', functions = () => objects.filter(isFunction), present = () => objects.filter((it) => it !== GONE);

function empty() {
  objects = []; released = []; plain = new Map(); strings = []; live = 0;
}

function begin() {
  if (calls === 2048) throw new Refusal(10);
  calls++;
}

// The next answer; `grow`, where it is there, makes one for whoever asks.
function next(trap, target, key, more) {
  if (used === answers.length && grow) grow(trap, target, key, more);
  if (used === answers.length) throw new Refusal(8);
  return answers[used++];
}

function taken(trap, target, key, more) {
  const a = next(trap, target, key, more);
  if ('thrown' in a) throw a.thrown;
  if (!('value' in a)) throw new Refusal(9);
  return a.value;
}

// A descriptor or a list; another primitive value is left to node.
function takenAs(form, trap, target, key) {
  const a = next(trap, target, key);
  if ('thrown' in a) throw a.thrown;
  if (form in a) return a[form];
  if (!('value' in a) || isFunction(a.value) || (typeof a.value === 'object' && a.value !== null)) throw new Refusal(9);
  return a.value;
}

const R = Reflect;

// An arrow function without properties.
function bare(prototype) {
  const it = () => taken('function');
  for (const key of R.ownKeys(it)) R.deleteProperty(it, key);
  return Object.setPrototypeOf(it, prototype);
}

function ordinary(prototype, callable = false) {
  const it = callable ? bare(prototype) : Object.create(prototype);
  const self = new Proxy(it, {
    getPrototypeOf() { begin(); return R.getPrototypeOf(it); },
    setPrototypeOf(_, v) {
      begin();
      for (let p = v; plain.has(p) && v !== R.getPrototypeOf(it); p = R.getPrototypeOf(plain.get(p))) if (p === self) return false;
      return R.setPrototypeOf(it, v);
    },
    isExtensible() { begin(); return R.isExtensible(it); },
    preventExtensions() { begin(); return R.preventExtensions(it); },
    getOwnPropertyDescriptor(_, key) { begin(); return R.getOwnPropertyDescriptor(it, key); },
    defineProperty(_, key, d) {
      begin();
      const current = R.getOwnPropertyDescriptor(self, key), extensible = R.isExtensible(self);
      if (current === undefined && extensible) {
        if (live === 256) throw new Refusal(7);
        live++;
      }
      return R.defineProperty(it, key, d);
    },
    has(_, key) {
      begin();
      if (R.getOwnPropertyDescriptor(self, key) !== undefined) return true;
      const parent = R.getPrototypeOf(self);
      return parent !== null && R.has(parent, key);
    },
    get(_, key, receiver) {
      begin();
      const own = R.getOwnPropertyDescriptor(self, key);
      if (own === undefined) {
        const parent = R.getPrototypeOf(self);
        return parent === null ? undefined : R.get(parent, key, receiver);
      }
      return 'value' in own ? own.value : own.get === undefined ? undefined : R.apply(own.get, receiver, []);
    },
    set(_, key, v, receiver) {
      begin();
      let own = R.getOwnPropertyDescriptor(self, key);
      if (own === undefined) {
        const parent = R.getPrototypeOf(self);
        if (parent !== null) return R.set(parent, key, v, receiver);
        own = { value: undefined, writable: true };
      }
      if (!('value' in own)) {
        if (own.set === undefined) return false;
        R.apply(own.set, receiver, [v]);
        return true;
      }
      if (!own.writable || !objects.includes(receiver)) return false;
      const there = R.getOwnPropertyDescriptor(receiver, key);
      if (there === undefined) return R.defineProperty(receiver, key, { value: v, writable: true, enumerable: true, configurable: true });
      return 'value' in there && there.writable && R.defineProperty(receiver, key, { value: v });
    },
    deleteProperty(_, key) {
      begin();
      const own = R.getOwnPropertyDescriptor(self, key), gone = R.deleteProperty(it, key);
      if (own !== undefined && gone) live--;
      return gone;
    },
    ownKeys() { begin(); return R.ownKeys(it); },
  });
  plain.set(self, it);
  return self;
}

const TRAPS = ['getPrototypeOf', 'setPrototypeOf', 'isExtensible', 'preventExtensions', 'getOwnPropertyDescriptor', 'defineProperty', 'has', 'get', 'set',
  'deleteProperty', 'ownKeys'];
const revokers = new Map(), targets = new Map(), masks = new Map(), revoked = new Set();

function proxy(target, mask) {
  const handler = Object.create(null);
  TRAPS.forEach((trap, i) => {
    const form = { getOwnPropertyDescriptor: 'descriptor', ownKeys: 'list' }[trap];
    const asked = (_, key, more) => {
      const x = form ? takenAs(form, trap, target, key) : taken(trap, target, key, more);
      if (!x && (trap === 'preventExtensions' || trap === 'defineProperty')) rejected ??= { trap, used };
      return x;
    };
    Object.defineProperty(handler, trap, { get() { begin(); return mask >> i & 1 ? asked : undefined; } });
  });
  const made = Proxy.revocable(target, handler);
  revokers.set(made.proxy, made.revoke);
  targets.set(made.proxy, target);
  masks.set(made.proxy, mask);
  return made.proxy;
}

// All objects, and others made in their place: a step 18 that is refused midway has changed some, and node cannot take that back.
function copied() {
  const part = (x) => (objects.includes(x) ? { number: objects.indexOf(x) } : { value: x });
  const own = (it, key) => [key, Object.entries(R.getOwnPropertyDescriptor(it, key)).map(([name, x]) => [name, part(x)])];
  return objects.map((o) => {
    const it = plain.get(o);
    if (o === GONE) return GONE;
    if (it === undefined) return { target: objects.indexOf(targets.get(o)), mask: masks.get(o), revoked: revoked.has(o) };
    return { callable: isFunction(o), prototype: part(R.getPrototypeOf(it)), extensible: R.isExtensible(it), own: R.ownKeys(it).map((key) => own(it, key)) };
  });
}

function restored(copies) {
  objects = copies.map(() => GONE); plain = new Map();
  // a proxy after its target, which may have a greater number; that of a revoked one may have been released
  const remade = (n) => {
    const { target, mask, callable } = copies[n];
    if (objects[n] === GONE && copies[n] !== GONE) objects[n] = target === undefined ? ordinary(null, callable) : proxy(target < 0 ? ordinary(null) : remade(target), mask);
    return objects[n];
  };
  copies.forEach((_, n) => remade(n));
  const whole = (part) => ('number' in part ? objects[part.number] : part.value);
  copies.forEach((copy, n) => {
    const it = plain.get(objects[n]);
    if (copy === GONE) return;
    if (it === undefined) { if (copy.revoked) performed(3, objects[n], {}); return; }
    R.setPrototypeOf(it, whole(copy.prototype));
    for (const [key, parts] of copy.own) R.defineProperty(it, key, Object.fromEntries(parts.map(([name, part]) => [name, whole(part)])));
    if (!copy.extensible) R.preventExtensions(it);
  });
}

// The number released longest ago or, with none released, the next unused one.
function made(it) {
  objects[released.length > 0 ? released.shift() : objects.length] = it;
  return it;
}

// Whether a live object names it: by its prototype, by a property, or as a proxy that is not revoked by its target.
function isNamed(it) {
  const names = (o) => {
    const base = plain.get(o);
    if (base === undefined) return !revoked.has(o) && targets.get(o) === it;
    const fields = R.ownKeys(base).flatMap((key) => { const { value, get, set } = R.getOwnPropertyDescriptor(base, key); return [value, get, set]; });
    return R.getPrototypeOf(base) === it || fields.includes(it);
  };
  return present().some(names);
}

function release(it) {
  if (isNamed(it)) throw new Refusal(14);
  const n = objects.indexOf(it), base = plain.get(it);
  if (base !== undefined) live -= R.ownKeys(base).length;
  objects[n] = GONE;
  released.push(n);
  return true;
}

function performed(code, it, { key, value, receiver, descriptor }) {
  if ((code <= 2 || code === 16) && present().length === 32) throw new Refusal(7);
  switch (code) {
    case 1: case 16: return made(ordinary(value, code === 16));
    case 2: return made(proxy(it, value));
    case 3: revokers.get(it)(); revoked.add(it); return true;
    case 4: return R.getPrototypeOf(it);
    case 5: return R.setPrototypeOf(it, value);
    case 6: return R.isExtensible(it);
    case 7: return R.preventExtensions(it);
    case 8: return R.getOwnPropertyDescriptor(it, key);
    case 9: return R.defineProperty(it, key, descriptor);
    case 10: return R.has(it, key);
    case 11: return R.get(it, key, receiver);
    case 12: return R.set(it, key, value, receiver);
    case 13: return R.deleteProperty(it, key);
    case 17: return release(it);
    case 18: (value === 1 ? Object.freeze : Object.seal)(it); return true;
    case 19: return (value === 1 ? Object.isFrozen : Object.isSealed)(it);
    default: return R.ownKeys(it);
  }
}

// Bytes ----------------------------------------------------------------------------------

const little = (n, bytes) => { let text = ''; for (let i = 0; i < bytes; i++) { text += byte(n % 256); n = Math.floor(n / 256); } return text; };
const float = (x) => Buffer.from(new Float64Array([x]).buffer).toString('hex');

// A whole number is written as Integer32 throughout, another as Float64.
function valueHex(x) {
  switch (typeof x) {
    case 'undefined': return zeros(9);
    case 'boolean': return '02' + little(x ? 1 : 0, 8);
    case 'number': return Object.is(x | 0, x) ? '03' + little(x >>> 0, 8) : '04' + float(x);
    case 'string': return '05' + little(strings.indexOf(x), 8);
    case 'symbol': return '06' + little(SYMBOLS.indexOf(x), 8);
    case 'function': return '08' + little(objects.indexOf(x), 8);
    default: return x === null ? '01' + zeros(8) : '07' + little(objects.indexOf(x), 8);
  }
}

function descriptorHex(d) {
  const fields = ['enumerable', 'configurable', 'writable', 'value', 'get', 'set'];
  let mask = 0, booleans = 0;
  fields.forEach((name, i) => { if (name in d) { mask |= 1 << i; if (i < 3 && d[name]) booleans |= 1 << i; } });
  return byte(mask) + byte(booleans) + fields.slice(3).map((name) => (name in d ? valueHex(d[name]) : zeros(9))).join('');
}

function answerHex(a) {
  if ('descriptor' in a) return '02' + descriptorHex(a.descriptor);
  if ('list' in a) return '03' + little(a.list.length, 2) + a.list.map(valueHex).join('');
  return 'thrown' in a ? '04' + valueHex(a.thrown) : '01' + valueHex(a.value);
}

const sheetHex = (list) => byte(list.length) + list.map(answerHex).join('');
const unitsHex = (text) => Array.from({ length: text.length }, (_, i) => text.charCodeAt(i).toString(16).padStart(4, '0')).join('');

// Texts ----------------------------------------------------------------------------------

// A text in an order of the names. Lines are strings of one character a byte, without line feeds.
let order, lines, rows, shortened;

function start(names) {
  empty();
  order = names; lines = []; rows = []; shortened = false;
}

const put = (line, row) => { lines.push(line); rows.push(`${lines.length} ${row}`); };
const cellsLine = (cells) => order.map((name) => cells[name] ?? '-').join(' ');
const text = (input) => ({ input: Buffer.from(input, 'latin1'), output: Buffer.from(HEADING + rows.map((row) => row + '\n').join('')) });
const joined = () => [order.join(' '), ...lines].join('\n');

// A cell of zeros is written as a dash in every other line.
function shorten(cells) {
  shortened = !shortened;
  const short = { ...cells };
  for (const name of Object.keys(BYTES)) if (/^0*$/.test(short[name] ?? zeros(BYTES[name]))) short[name] = shortened ? '-' : zeros(BYTES[name]);
  if (short.sheet === '00' && shortened) short.sheet = '-';
  return short;
}

const broken = (line) => put(line, '0 12 0 0 -');
const refused = (number, cells) => put(cellsLine(cells), `0 ${number} 0 0 -`);

// A step, performed by node. `number` is the message that a TypeError has; false, and no line, where it is a TypeError and no number is given. Step 18: Object.freeze
// and Object.seal throw where it answers false, which is where the last answer was a false of the preventExtensions trap; a false of defineProperty is
// message 32. Node says so too, and asks for nothing after it.
// A sheet with answers that nothing takes is refused as 13; the same step with the others follows.
function step(code, o, parts = {}, sheet = [], number = 0) {
  const it = objects[o], copies = code === 18 ? copied() : null;
  [calls, used, answers, rejected] = [0, 0, sheet, null];
  const cell = (name) => (name in parts ? valueHex(parts[name]) : zeros(9));
  const cells = { step: byte(code), object: byte(o), key: cell('key'), value: cell('value'), receiver: cell('receiver') };
  cells.descriptor = 'descriptor' in parts ? descriptorHex(parts.descriptor) : zeros(29);
  let row;
  try {
    const x = performed(code, it, parts);
    const value = code === 14 ? x.map(valueHex).join('') || '-' : code !== 8 ? valueHex(x) : x === undefined ? '-' : descriptorHex(x);
    row = `1 0 ${used} ${calls} ${value}`;
    if (copies && rejected) throw new Error(`line ${lines.length + 1}: node went on after a false`);
  } catch (e) {
    const isThrown = objects.includes(e) || typeof e !== 'object' || e === null;
    if (isThrown) row = `3 0 ${used} ${calls} ${valueHex(e)}`;
    else if (e instanceof Refusal) row = `0 ${e.number} 0 0 -`;
    else if (e instanceof RangeError && /call stack/.test(e.message)) row = '0 10 0 0 -';
    else if (!(e instanceof TypeError)) throw e;
    else if (copies && rejected) {
      if (rejected.used !== used || !e.message.startsWith(`'${rejected.trap}' on proxy: trap returned falsish`)) throw new Error(`line ${lines.length + 1}: node went on after a false`);
      row = rejected.trap === 'preventExtensions' ? `1 0 ${used} ${calls} ${valueHex(false)}` : `2 32 ${used} ${calls} -`;
    } else if (copies && /^'(preventExtensions|defineProperty)' on proxy: trap returned falsish/.test(e.message)) throw e;
    else if (number === 0) { if (copies) restored(copies); return false; }
    else row = `2 ${number} ${used} ${calls + (/revoked/.test(e.message) ? 1 : 0)} -`;
  }
  if (number !== 0 && !row.startsWith(`2 ${number} `)) throw new Error(`line ${lines.length + 1}: message ${number} was meant, not ${row}`);
  const fits = row[0] === '0' || used === answers.length;
  if (!fits) refused(13, shorten({ ...cells, sheet: sheetHex(answers) }));
  put(cellsLine(shorten({ ...cells, sheet: sheetHex(fits ? answers : answers.slice(0, used)) })), row);
  if (copies && row[0] === '0') restored(copies);
  return true;
}

const must = (...words) => { if (!step(...words)) throw new Error(`line ${lines.length + 1}: a TypeError that was not meant`); };

function enter(string) {
  if (string.length <= 32 && !strings.includes(string) && strings.length < 256) strings.push(string);
  const value = strings.includes(string) ? `1 0 0 0 ${valueHex(string)}` : `0 ${string.length > 32 ? 3 : 7} 0 0 -`;
  put(cellsLine({ ...shorten({ step: '0f' }), sheet: unitsHex(string) || '-' }), value);
}

const value = (v) => ({ value: v }), described = (d) => ({ descriptor: d }), list = (...keys) => ({ list: keys }), thrown = (v) => ({ thrown: v });

// The kinds of broken lines, each made from the cells of a line that is valid --------------

function brokenLines() {
  const whole = { step: '01', object: '00', value: '01' + zeros(8) };                 // makes an object, if it is read
  const entry = { step: '0f', sheet: '00620062' };
  const line = cellsLine(whole);
  const changed = (name, cell, from = whole) => broken(cellsLine({ ...from, [name]: cell }));

  broken('');                                                // an empty line
  broken(' ');                                               // a space alone
  broken('      ');                                          // seven empty cells
  broken('-');                                               // one cell
  broken('- - - - - -');                                     // six cells
  broken(line.split(' ').slice(1).join(' '));                // the first cell is missing
  broken(line.split(' ').slice(0, 6).join(' '));             // the last cell is missing
  broken('- ' + line);                                       // eight cells
  broken(line + ' -');
  broken(' ' + line);                                        // a space before the first cell
  broken(line + ' ');                                        // a space behind the last cell
  broken(line.replace(' ', '  '));                           // two spaces
  broken(line.replace(' ', '\t'));                           // a tab in place of a space
  broken(line + '\t');                                       // a tab at the end
  broken(line + '\r');                                       // a carriage return
  broken(line + '\0');                                       // a zero byte
  broken(line.replace(' ', '\xa0'));                         // a space that is none
  broken(line.replace(' ', '\x0b'));
  broken(line.replace(' ', ','));                            // another separator
  broken('\xef\xbb\xbf' + line);                             // a byte order mark
  broken('# ' + line);                                       // a comment
  broken(order.join(' '));                                   // the names again
  broken(HEADING.trim());
  broken('\xff'.repeat(100));                                // bytes above 127

  // A cell of a wrong length
  for (const name of Object.keys(BYTES)) {
    const good = whole[name] ?? zeros(BYTES[name]);
    changed(name, '');                                       // empty
    changed(name, good.slice(1));                            // a digit less
    changed(name, good + '0');                               // a digit more
    if (good.length > 2) changed(name, good.slice(2));       // a byte less
    changed(name, good + '00');                              // a byte more
    changed(name, '--');                                     // two dashes
    changed(name, '-' + good.slice(1));                      // a dash in place of a digit
    changed(name, good.slice(1) + '-');
    changed(name, good.slice(2) + '- ');                     // a dash, and a space more
  }
  changed('sheet', '');                                      // an empty sheet
  changed('sheet', '0');                                     // half a byte
  changed('sheet', '000');
  changed('sheet', '01' + '01' + '0300000000000000000');     // an answer short of a digit
  changed('sheet', '--');
  changed('sheet', '-00');
  changed('sheet', '00-');

  // What is no lowercase digit, in each cell
  for (const name of NAMES) {
    const good = whole[name] ?? (name === 'sheet' ? '00' : zeros(BYTES[name]));
    for (const wrong of ['A', 'F', 'g', 'G', 'x', '/', ':', '@', '`', '+', '.', '\xe9', '\x80', '\0', '\r', '\t']) {
      changed(name, good.slice(0, -1) + wrong);
      changed(name, wrong + good.slice(1));
    }
    changed(name, '\xe2\x80\x93');                           // an en dash in place of the dash
    changed(name, '\xe2\x88\x92');                           // a minus sign
    changed(name, '0x' + good.slice(2));                     // as some languages write it
  }

  // A string entry: code units that are not whole, and the other cells
  for (const digits of ['0', '00', '006', '00620', '006200', '0062006']) changed('sheet', digits, entry);
  changed('sheet', '', entry);
  changed('sheet', '0062 0062', entry);                      // code units apart
  changed('sheet', '006G', entry);
  changed('sheet', '006A', entry);
  changed('sheet', '0062-', entry);
  changed('sheet', '00'.repeat(65), entry);                  // 32 and a half: before 3
  changed('step', '0F', entry);
  for (const [name, bytes] of Object.entries(BYTES)) if (name !== 'step') changed(name, zeros(bytes) + '00', entry);

  // 12 stands before 1 to 4: what else is wrong with the line does not show
  changed('receiver', '00', { step: '10' });
  changed('receiver', '00', { step: '11' });
  changed('object', '0', { step: '11' });
  changed('sheet', '000', { step: '11', object: 'ff' });
  for (const code of ['12', '13']) {
    for (const cell of ['', '0', '01', '03', level(1).slice(2), level(1) + '00', level(1).slice(1), '1', 'frozen', 'true', '0x' + level(1).slice(2)]) changed('value', cell, { step: code });
    changed('receiver', '00', { step: code, value: level(2) });
    changed('sheet', '000', { step: code, value: level(1) });
  }
  for (const code of ['18', '19']) changed('value', '1', { step: code });                // decimal
  for (const cell of ['012', '1 2', '0012', 'x12', '12 ']) changed('step', cell, { value: level(1) });
  changed('receiver', '00', { step: '04', object: 'ff' });
  changed('receiver', '00', { step: '08', key: '05' + 'ff'.repeat(8) });
  changed('sheet', '000', { step: '3c' });
  changed('sheet', '000', { step: '0f', object: '01' });
  changed('sheet', '00', { step: '0f', object: '01' });
  changed('sheet', '006200', { step: '0f', descriptor: zeros(28) + '01' });
}

// Lines at the greatest length. The sheets are valid: lists and values that nothing takes, so that the step is refused as 13 once the line is read.
function longLines() {
  const lists = (keys) => [0, 1, 2, 3].map((i) => keys + i >> 2).map((n) => '03' + little(n, 2) + zeros(9 * n)).join('');
  const sheet = (keys, values) => byte(4 + values) + lists(keys) + ('01' + zeros(9)).repeat(values);
  const padded = (cells, length) => {
    for (let keys = 880; keys <= 920; keys++) {
      for (let values = 0; values < 40; values++) {
        const line = cellsLine({ ...cells, sheet: sheet(keys, values) });
        if (line.length === length) return line;
      }
    }
    throw new Error(`no line of ${length} characters`);
  };
  const asks = { step: '06', object: '00' };
  const unread = '0 13 0 0 -';
  put(padded(asks, LONGEST - 2), unread);
  put(padded(asks, LONGEST), unread);                                               // the longest line
  broken(padded({ ...asks, key: zeros(9) }, LONGEST + 1));                            // one character more
  broken(padded(asks, LONGEST + 2));
  put(padded({ ...asks, key: zeros(9) }, LONGEST - 1), unread);
  const making = cellsLine({ step: '01', value: '01' + zeros(8) });
  for (const before of [LONGEST - 1, LONGEST, LONGEST + 1, 2 * LONGEST, 5 * LONGEST + 1]) broken('-'.repeat(before) + making);   // a valid line as its rest
  broken(making.padEnd(LONGEST, ' '));
  broken(making + ' '.repeat(LONGEST));
  broken('0'.repeat(LONGEST));
  broken('0'.repeat(LONGEST + 1));
  put(cellsLine({ step: '0f', sheet: '0061'.repeat(4092) }), '0 3 0 0 -');            // a string that is too long in a line that is not
  broken(cellsLine({ step: '0f', sheet: '0061'.repeat(4096) }));
  put(cellsLine({ step: '04', sheet: '00'.repeat(8185) }), '0 1 0 0 -');              // bytes that are no sheet
}

// The level of steps 18 and 19 as bytes.
const level = (n) => '03' + little(n, 4) + zeros(4);

// Refusals that follow from the bytes of a line alone; object 0 is ordinary, object 1 a proxy over it, object 2 a function, and 9 and later were not made.
function refusals() {
  const nil = '01' + zeros(8), visits = '05' + zeros(8), byteOf = (n, v) => v.slice(0, 2 * n) + 'ff' + v.slice(2 * n + 2);
  refused(1, {});                                                                     // dashes: step 0
  refused(1, { step: '00', object: '00', sheet: '00' });
  for (const code of ['14', '3c', '7f', '80', 'f0', 'ff']) refused(1, { step: code });
  for (const code of ['11', '14']) refused(1, { step: code, value: level(0) });
  refused(1, { step: '01', object: '01', value: nil });                               // a part that is not used
  refused(1, { step: '04', key: visits });
  refused(1, { step: '04', value: nil });
  refused(1, { step: '04', receiver: nil });
  refused(1, { step: '04', descriptor: '01' + zeros(28) });
  refused(1, { step: '08', key: '09' + zeros(8) });                                   // a kind
  refused(1, { step: '08', key: '02' + '02' + zeros(7) });                            // a boolean
  refused(1, { step: '01', value: byteOf(8, nil) });                                  // a payload's last byte
  refused(1, { step: '02', value: '03' + '0008' + zeros(6) });                        // a mask of 2048
  refused(1, { step: '09', key: visits, descriptor: '40' + zeros(28) });
  refused(1, { step: '09', key: visits, descriptor: zeros(28) + '01' });
  const noSheets = ['01', '41', '0000', '0105', '0101', '01' + '05' + zeros(9), '01' + '03' + '0101' + zeros(9 * 257), 'ff'.repeat(8)];
  for (const sheet of noSheets) refused(1, { step: '04', sheet });
  // a string entry with another part
  refused(1, { step: '0f', object: '01', sheet: '0061' });
  for (const name of ['key', 'value', 'receiver']) refused(1, { step: '0f', [name]: nil });
  refused(1, { step: '0f', descriptor: zeros(28) + '01' });
  refused(1, { step: '0f', object: '01', sheet: '0061'.repeat(33) });                 // before 3
  refused(3, { step: '0f', sheet: '0061'.repeat(33) });
  refused(3, { step: '0f', key: zeros(9), sheet: 'ffff'.repeat(33) });
  refused(2, { step: '04', object: '09' });
  refused(2, { step: '04', object: 'ff' });
  refused(2, { step: '05', value: '07' + '09' + zeros(7) });
  refused(2, { step: '05', value: '07' + zeros(7) + '01' });
  refused(2, { step: '0b', object: '09', key: '05' + 'ff' + zeros(7) });              // before 3
  refused(2, { step: '04', sheet: '01' + '01' + '07' + '09' + zeros(7) });            // over the sheet
  refused(3, { step: '0a', key: '05' + 'ff' + zeros(7) });
  refused(3, { step: '0a', key: '06' + '0001' + zeros(6) });
  refused(3, { step: '0a', key: nil });
  refused(3, { step: '0a' });
  refused(3, { step: '03' });                                                         // an ordinary object to revoke
  refused(3, { step: '02', value: nil });
  refused(3, { step: '04', sheet: '01' + '04' + '05' + 'ff' + zeros(7) });            // over the sheet
  refused(4, { step: '09', key: visits, descriptor: '18' + '00' + zeros(27) });
  refused(4, { step: '09', key: visits, descriptor: '10' + '00' + zeros(9) + nil + zeros(9) });
  refused(4, { step: '09', key: visits, descriptor: '24' + '04' + zeros(27), sheet: '41' });   // before 1 over the sheet
  // step 16: as step 1
  refused(1, { step: '10', object: '01', value: nil });
  refused(1, { step: '10', object: '09', value: '08' + '09' + zeros(7) });            // before 2
  for (const name of ['key', 'receiver']) refused(1, { step: '10', value: nil, [name]: nil });
  refused(1, { step: '10', value: nil, descriptor: '01' + zeros(28) });
  refused(1, { step: '10', value: '09' + zeros(8) });
  refused(1, { step: '10', value: byteOf(8, nil) });
  refused(1, { step: '10', value: nil, sheet: '41' });
  refused(3, { step: '10' });                                                         // undefined
  for (const v of ['02' + '01' + zeros(7), level(0), '04' + zeros(8), visits, '05' + 'ff' + zeros(7), '06' + zeros(8)]) refused(3, { step: '10', value: v });
  refused(3, { step: '10', value: level(0), sheet: '41' });                           // before 1 over the sheet
  // a function or an object that was never made, and one under the other's kind, wherever a value stands
  const number = (n) => little(n, 8), accessor = (mask, get, set) => mask + '00' + zeros(9) + get + set;
  for (const [refusal, v] of [[3, '08' + number(0)], [3, '08' + number(1)], [3, '07' + number(2)], ...[9, 32, 255, 256, 258, 2 ** 32 + 2].flatMap((n) => [[2, '07' + number(n)], [2, '08' + number(n)]])]) {
    for (const code of ['01', '05', '10']) refused(refusal, { step: code, value: v });
    refused(refusal, { step: '05', object: '02', value: v });
    for (const o of ['00', '01', '02']) {
      refused(refusal, { step: '0b', object: o, key: visits, receiver: v });
      refused(refusal, { step: '0c', object: o, key: visits, value: v, receiver: '08' + number(2) });
      refused(refusal, { step: '0c', object: o, key: visits, value: '08' + number(2), receiver: v });
      refused(refusal, { step: '0a', object: o, key: v });
      refused(refusal, { step: '09', object: o, key: visits, descriptor: '0800' + v + zeros(18) });
      refused(refusal, { step: '09', object: o, key: visits, descriptor: accessor('10', v, zeros(9)) });
      refused(refusal, { step: '09', object: o, key: visits, descriptor: accessor('38', '08' + number(2), v) });      // before 4
    }
    for (const code of ['02', '12', '13']) refused(refusal, { step: code, value: v });
    const given = ['01' + v, '04' + v, '03' + '0200' + visits + v, '02' + '0800' + v + zeros(18), '02' + accessor('10', v, zeros(9)), '02' + accessor('20', zeros(9), v)];
    for (const answer of given) {
      for (const o of ['00', '01', '02']) refused(refusal, { step: '06', object: o, sheet: '01' + answer });
      refused(refusal, { step: '10', value: nil, sheet: '02' + '01' + '08' + number(2) + answer });
    }
    refused(2, { step: '0b', object: '09', key: '05' + 'ff' + zeros(7), receiver: v });
  }
  refused(4, { step: '09', object: '02', key: visits, descriptor: accessor('10', '07' + number(0), zeros(9)) });
  refused(4, { step: '09', object: '02', key: visits, descriptor: accessor('20', zeros(9), '07' + number(1)) });
  refused(4, { step: '09', object: '02', key: visits, descriptor: accessor('18', '08' + number(2), zeros(9)) });
  for (const n of [0, 1, 2047]) refused(3, { step: '02', object: '02', value: level(n) });        // a proxy over a function
  refused(1, { step: '02', object: '02', value: level(2048) });
  refused(3, { step: '03', object: '02' });
  for (const code of ['08', '0e']) for (const n of [0, 1, 2]) refused(9, { step: code, object: '01', key: code === '08' ? visits : '-', sheet: '01' + '01' + (n === 2 ? '08' : '07') + number(n) });
  // steps 18 and 19: the level, and parts that are not used
  for (const code of ['12', '13']) {
    for (const n of [2, 3, 255, 256, 65536, 16777216, 2147483648, 4294967295]) refused(1, { step: code, value: level(n) });
    refused(1, { step: code, value: '03' + '01' + zeros(3) + '01' + zeros(3) });      // a fifth byte
    refused(1, { step: code, value: '02' + '02' + zeros(7) });
    refused(1, { step: code, value: '09' + zeros(8) });
    refused(1, { step: code, value: byteOf(8, nil) });
    for (const name of ['key', 'receiver']) refused(1, { step: code, value: level(1), [name]: nil });
    refused(1, { step: code, value: level(1), descriptor: '02' + zeros(28) });
    refused(1, { step: code, object: '09', value: level(2) });                        // before 2
    refused(1, { step: code, key: visits, value: nil });                              // before 3
    refused(2, { step: code, object: '09', value: level(0) });
    refused(2, { step: code, object: 'ff', value: level(1) });
    refused(2, { step: code, object: '09', value: nil });                             // before 3
    refused(2, { step: code, value: '07' + '09' + zeros(7) });
    refused(3, { step: code });                                                       // undefined
    for (const v of [nil, '02' + '01' + zeros(7), '04' + zeros(8), '04' + float(1), visits, '05' + 'ff' + zeros(7), '06' + zeros(8), '07' + zeros(8), '08' + zeros(8)]) refused(3, { step: code, value: v });
    refused(1, { step: code, value: level(1), sheet: '41' });
    refused(2, { step: code, value: level(0), sheet: '01' + '01' + '07' + '09' + zeros(7) });
    refused(3, { step: code, value: nil, sheet: '41' });                              // before 1 over the sheet
    refused(8, { step: code, object: '01', value: level(0) });
    refused(8, { step: code, object: '01', value: level(1), sheet: '00' });
    refused(9, { step: code, object: '01', value: level(1), sheet: '01' + '03' + '0000' });
    refused(9, { step: code, object: '01', value: level(0), sheet: '01' + '02' + zeros(29) });
  }
  refused(8, { step: '0b', object: '01', key: visits });
  refused(8, { step: '0b', object: '01', key: visits, sheet: '00' });
  // step 17: object 0 is named by 1, and nothing names 1 and 2
  for (const o of ['00', '01', '02', '09']) {
    for (const name of ['key', 'value', 'receiver']) refused(1, { step: '11', object: o, [name]: nil });
    refused(1, { step: '11', object: o, value: '07' + number(9) });
    refused(1, { step: '11', object: o, descriptor: '01' + zeros(28) });
  }
  for (const o of ['09', '1f', '20', 'ff']) for (const sheet of ['00', '41', '01' + '01' + nil]) refused(2, { step: '11', object: o, sheet });
  const unknown = '05' + 'ff' + zeros(7), never = '07' + number(9);
  for (const sheet of ['00', '41', '01', '01' + '01' + nil, '01' + '01' + never, '01' + '04' + unknown]) refused(14, { step: '11', sheet });
  for (const o of ['01', '02']) {
    for (const sheet of ['41', '01', '0000']) refused(1, { step: '11', object: o, sheet });
    refused(2, { step: '11', object: o, sheet: '01' + '01' + never });
    refused(3, { step: '11', object: o, sheet: '01' + '04' + unknown });
    for (const answer of ['01' + nil, '04' + nil, '02' + zeros(29), '03' + '0000']) refused(13, { step: '11', object: o, sheet: '01' + answer });
  }
}

// Generated steps: a random number from a seed, and answers that are mostly true of the ordinary object at the end of the targets.
let seed = 1;
const random = (n) => { seed ^= seed << 13; seed ^= seed >>> 17; seed ^= seed << 5; return (seed >>> 0) % n; };
const pick = (from) => from[random(from.length)];
const someValue = () => pick([undefined, null, true, false, 0, 1, -1, 70000, 4464, -0, 0.5, NaN, Infinity, 2147483648, pick(strings), SYMBOLS[random(256)],
  pick(present()), pick(functions())]);

function someAnswer(trap, target, key, more) {
  if (random(12) === 0) return;                                                       // refusal 8
  let it = target;
  while (targets.has(it)) it = targets.get(it);
  // behind a revoked proxy it may have been released
  if (!objects.includes(it)) { answers.push(value(someValue())); return; }
  // setPrototypeOf has an object in the place of a key
  const base = plain.get(it), own = base === undefined || !['string', 'symbol'].includes(typeof key) ? undefined : R.getOwnPropertyDescriptor(base, key);
  const truth = {
    getPrototypeOf: () => value(R.getPrototypeOf(base)), isExtensible: () => value(R.isExtensible(base)), has: () => value(own !== undefined),
    getOwnPropertyDescriptor: () => (own === undefined ? value(undefined) : described(own)), get: () => value(own?.value),
    ownKeys: () => list(...R.ownKeys(base)),
    ...leveling && {
      preventExtensions: () => value(!R.isExtensible(base)),
      defineProperty: () => value(own !== undefined && !own.configurable && !(more.writable === false && own.writable) && random(20) > 0),
    },
  }[trap];
  answers.push(random(20) === 0 ? thrown(someValue()) : random(30) === 0 ? list() : truth && random(8) > 0 ? truth() : value(someValue()));
}

function someDescriptor() {
  const d = Object.fromEntries(['enumerable', 'configurable'].filter(() => random(2)).map((name) => [name, random(4) > 0]));
  if (random(3)) return { ...d, value: someValue(), writable: random(4) > 0 };
  return { ...d, get: pick([undefined, pick(functions())]), set: pick([undefined, pick(functions())]) };
}

function someStep(prototypes) {
  const code = pick([4, 5, 6, 7, 8, 8, 9, 9, 9, 10, 11, 11, 12, 12, 13, 13, 14, 18, 19]), o = objects.indexOf(pick(present()));
  const parts = code >= 8 && code <= 13 ? { key: random(4) ? pick(strings) : SYMBOLS[random(3)] } : {};
  if (code === 5) parts.value = pick(prototypes);
  if (code === 9) parts.descriptor = someDescriptor();
  if (code === 12) parts.value = someValue();
  if (code === 11 || code === 12) parts.receiver = random(3) ? objects[o] : pick([undefined, pick(present()), pick(functions()), pick(strings)]);
  if (code > 14) parts.value = random(2);
  if ((code === 7 || code === 18) && random(4)) return;
  leveled(code, o, parts);
}

// A step with answers that are made as they are asked for; `leveling` where it is 18 or 19.
let leveling = false;

function leveled(code, o, parts) {
  grow = someAnswer;
  leveling = code > 14;
  const done = step(code, o, parts);
  grow = null;
  return done;
}

// The large text --------------------------------------------------------------------------

function large() {
  seed = 1;
  start(['sheet', 'value', 'descriptor', 'step', 'receiver', 'object', 'key']);
  // Strings: the empty one, indices (which show the order of the bytes in the keys' order), one of 32, any code units
  const first = ['visits', 'name', '7', '10', '', 'visits', '\u3700', '\ud800', '\ud83d\ude00', '\uffff', '\0', 'x'.repeat(32), 'x'.repeat(33), '01', ''];
  for (const string of first) enter(string);
  must(1, 0, { value: null });
  must(2, 0, { value: 2047 });
  must(16, 0, { value: null });
  refusals();
  brokenLines();
  // Nothing of all this was made or entered
  must(14, 0);
  must(1, 0, { value: objects[0] });                                                  // object 3
  must(16, 0, { value: objects[2] });                                                 // 4: a function over a function
  enter('next');
  longLines();

  const [exhibit, all, f, child, g] = objects, sealed = { value: 70000, writable: false, enumerable: true, configurable: false };
  must(9, 0, { key: 'visits', descriptor: sealed });
  must(9, 0, { key: '10', descriptor: { value: 10, configurable: true } });
  must(9, 0, { key: '7', descriptor: { value: -7.5, configurable: true, writable: true } });
  must(9, 0, { key: SYMBOLS[3], descriptor: { get: f, set: undefined, configurable: true } });
  must(9, 0, { key: '\u3700', descriptor: { value: '\ud800', configurable: true } });
  must(14, 0);                                                                        // 7, 10, visits, \u3700, symbol 3
  for (const key of ['visits', '10', '7', SYMBOLS[3], 'name']) must(8, 0, { key });
  must(11, 0, { key: 'visits', receiver: exhibit });
  must(11, 0, { key: 'name', receiver: undefined });
  must(11, 3, { key: 'visits', receiver: 'name' });
  must(11, 0, { key: SYMBOLS[3], receiver: null }, [value(0.5)]);
  must(11, 0, { key: SYMBOLS[3], receiver: null }, [thrown(all)]);
  must(11, 0, { key: SYMBOLS[3], receiver: null });                                   // 8
  must(9, 0, { key: 'visits', descriptor: { value: 4464 } });
  must(9, 0, { key: 'visits', descriptor: { value: 70000 } });
  must(10, 3, { key: 'visits' });
  must(10, 3, { key: 'name' });
  must(12, 3, { key: 'visits', value: 1, receiver: child });
  must(12, 3, { key: 'name', value: 'visits', receiver: child });
  must(12, 0, { key: '7', value: -0, receiver: exhibit });
  must(12, 0, { key: SYMBOLS[3], value: 1, receiver: exhibit });
  must(13, 0, { key: 'visits' });
  must(13, 0, { key: '\u3700' });
  must(5, 0, { value: child });                                                       // false: a cycle
  must(4, 3);
  must(6, 0);
  must(14, 3);

  // The proxy with every trap
  const get = { key: 'visits', receiver: all };
  must(11, 1, get, [value(70000)]);
  must(11, 1, get, [value(4464)], 17);
  must(11, 1, get, [value(4464), thrown(1)], 17);
  must(11, 1, get, [thrown('name')]);
  must(11, 1, get, [list('visits')]);                                                 // 9
  must(8, 1, { key: 'visits' }, [described(sealed)]);
  must(8, 1, { key: 'visits' }, [value(undefined)], 8);
  must(8, 1, { key: 'visits' }, [value(1)], 7);
  must(8, 1, { key: 'name' }, [value(undefined)]);
  must(8, 1, { key: 'name' }, [described({ get: g, configurable: true })]);
  must(8, 1, { key: 'name' }, [described({ get: 1 })], 27);
  must(8, 1, { key: 'name' }, [described({ value: 1, get: undefined })], 29);
  must(8, 1, { key: 'name' }, [value(all)]);                                          // 9
  must(10, 1, { key: 'visits' }, [value(false)], 10);
  must(10, 1, { key: 'name' }, [value('')]);
  must(12, 1, { key: 'visits', value: 1, receiver: all }, [value(true)], 19);
  must(12, 1, { key: 'visits', value: 1, receiver: all }, [value(false)]);
  must(13, 1, { key: 'visits' }, [value(true)], 21);
  must(14, 1, {}, [list('name', 'name')], 22);
  must(14, 1, {}, [list('name')], 24);
  must(14, 1, {}, [list('name', 'visits', SYMBOLS[255])]);
  must(14, 1, {}, [value(1)], 31);
  must(14, 1, {}, [list(1)], 30);
  must(6, 1, {}, [value(false)], 5);
  must(7, 1, {}, [value(true)], 6);
  must(7, 1, {}, [value(null)]);
  must(4, 1, {}, [value(1)], 2);
  must(4, 1, {}, [value(f)]);
  must(4, 1, {}, [value(child)]);
  must(5, 1, { value: null }, [thrown(SYMBOLS[9])]);
  must(9, 1, { key: 'name', descriptor: { value: NaN, configurable: true } }, [value(true)]);

  // Proxies that forward, and one that is revoked
  must(2, 1, { value: 0 });                                                           // 5
  must(2, 5, { value: 128 });                                                         // 6
  must(11, 5, { key: 'visits', receiver: objects[5] }, [value(70000)]);
  must(11, 6, { key: 'visits', receiver: objects[6] }, [value(4464), described(sealed)], 17);
  must(2, 0, { value: 0 });                                                           // 7
  must(12, 7, { key: 'name', value: 3, receiver: objects[7] });
  must(14, 7);
  must(2, 7, { value: 1 });                                                           // 8
  must(3, 8);
  must(3, 8);
  must(4, 8, {}, [], 1);
  must(11, 8, { key: 'visits', receiver: undefined }, [value(1)], 1);
  // A chain of prototypes without an end
  must(1, 0, { value: null });                                                        // 9
  must(2, 9, { value: 0 });                                                           // 10
  must(5, 9, { value: objects[10] });
  must(11, 9, { key: 'name', receiver: exhibit });                                    // 10
  must(10, 10, { key: 'name' });
  must(5, 9, { value: null });

  // Levels: what is sealed, what is frozen, and the two through proxies
  const [SEALED, FROZEN] = [{ value: 0 }, { value: 1 }];
  must(1, 0, { value: null });                                                        // 11
  for (const [i, key] of ['name', '10', SYMBOLS[3]].entries()) must(9, 11, { key, descriptor: i < 2 ? { value: i, writable: true, configurable: true } : { get: f, configurable: true } });
  must(19, 11, SEALED);
  must(18, 11, SEALED);
  must(19, 11, SEALED);
  must(19, 11, FROZEN);
  must(18, 11, FROZEN, [value(1), thrown(2)]);                                        // asks for nothing
  must(19, 11, FROZEN);
  must(18, 8, FROZEN, [], 1);                                                         // revoked
  must(19, 8, SEALED, [], 1);
  must(18, 1, FROZEN, [value(false)]);                                                // false: not prevented
  must(18, 1, FROZEN, [value(true)], 6);
  must(18, 1, SEALED, [thrown('name')]);
  must(19, 1, SEALED, [value(true)]);

  for (let i = 0; i < 600; i++) someStep([null, objects[0], pick(functions())]);

  // Everything full: objects, strings, properties
  while (objects.length < 31) must(1, 0, { value: null });
  const last = objects.length;
  must(1, 0, { value: null });
  must(1, 0, { value: null });
  must(16, 0, { value: objects[2] });
  must(2, 0, { value: 0 });
  for (let i = 0; strings.length < 256; i++) enter(`key ${i}`);
  enter('one more');
  enter('visits');
  enter('x'.repeat(33));
  for (let i = 0; live < 256; i++) must(9, last, { key: strings[255 - i], descriptor: { value: i, configurable: true } });
  must(9, last, { key: SYMBOLS[0], descriptor: { configurable: true } });
  must(12, last, { key: SYMBOLS[0], value: 1, receiver: objects[last] });
  must(14, last);
  must(2, last, { value: 0 });
  must(14, last - 1);
  must(13, last, { key: strings[200] });
  must(9, last, { key: SYMBOLS[0], descriptor: { configurable: true } });
  must(14, last);
  return joined();
}

// Texts of steps 18 and 19 ----------------------------------------------------------------

// An object with keys, a number of proxies without traps over it, and the number of the last.
function stack(keys, depth) {
  must(1, 0, { value: null });
  const base = objects.length - 1;
  for (let i = 0; i < keys; i++) must(9, base, { key: strings[i], descriptor: { value: i, writable: true, enumerable: true, configurable: true } });
  for (let i = 0; i < depth; i++) must(2, objects.length - 1, { value: 0 });
  return [base, objects.length - 1];
}

// 2,048 calls are a result, and more are refused; then nothing has changed.
function callsOfLevels(add) {
  const [SEALED, FROZEN] = [{ value: 0 }, { value: 1 }];
  const begun = (keys, depth) => {
    start(NAMES);
    for (let i = 0; i < 256; i++) enter(`key${i}`);
    return stack(keys, depth);
  };
  let [base, top] = begun(204, 3);
  must(19, top, SEALED);
  must(9, base, { key: strings[204], descriptor: { value: 204, configurable: true } });
  must(18, top, FROZEN);                                                              // 10: 205 keys
  must(6, base);
  for (const key of [strings[0], strings[203], strings[204]]) must(8, base, { key });
  must(13, base, { key: strings[204] });
  must(18, top, FROZEN);                                                              // 2,048 calls
  for (const key of [strings[0], strings[203]]) must(8, base, { key });
  must(18, top, FROZEN);
  must(19, top, FROZEN);
  add('levels: 204 keys under 3 proxies', text(joined()));
  [base, top] = begun(254, 7);
  must(18, top, SEALED);                                                              // 10
  must(6, base);
  must(18, base, SEALED);
  must(19, top, SEALED);                                                              // 2,048 calls
  must(19, top, FROZEN);
  must(18, base, FROZEN);
  must(19, top, FROZEN);
  add('levels: 254 keys under 7 proxies', text(joined()));
  [base, top] = begun(255, 7);
  must(7, base);
  must(19, top, SEALED);                                                              // the first key is configurable
  must(18, base, SEALED);
  must(19, top, SEALED);                                                              // 10
  must(19, top, FROZEN);
  add('levels: 255 keys under 7 proxies', text(joined()));
}

// Objects that are not yet closed under proxies with some traps; what a step 18 that ended midway left is read back.
function scenesOfLevels(turn) {
  seed = 77 * turn;
  start(NAMES);
  for (const string of ['a', 'b', 'c', '7', '10', '']) enter(string);
  must(16, 0, { value: null });
  const several = [16, 32, 1024, 48, 16 + 1024, 32 + 1024, 48 + 1024, 0, 2047];
  while (objects.length < 30) {
    must(1, 0, { value: null });
    const base = objects.length - 1, keys = [...strings.slice(0, 4), SYMBOLS[1]].filter(() => random(3));
    for (const key of keys) must(9, base, { key, descriptor: random(4) ? { value: someValue(), writable: random(3) > 0, enumerable: true, configurable: random(5) > 0 } : { get: objects[0], set: undefined, configurable: random(4) > 0 } });
    const depth = 1 + random(2);
    for (let i = 0; i < depth && objects.length < 32; i++) must(2, objects.length - 1, { value: pick(several) });
    const top = objects.length - 1, read = () => { must(6, base); must(14, base); for (const key of keys) must(8, base, { key }); };
    for (let i = 0; i < 6; i++) {
      const code = random(3) ? 18 : 19, o = random(5) ? top : base;
      if (leveled(code, o, { value: random(2) }) && code === 18) read();
      if (i === 3 && random(2)) { must(7, base); for (const key of keys) if (random(2)) must(9, base, { key, descriptor: { configurable: false } }); }
    }
    if (random(4) === 0) { must(3, top); must(18, top, { value: random(2) }, [value(true)], 1); must(19, top, { value: random(2) }, [], 1); }
  }
  return joined();
}

// Written by hand: false at the second key, a throw at the third answer, a sheet that ends there.
function endingsOfLevels(add) {
  start(NAMES);
  for (const string of ['a', 'b', 'c', '7', '']) enter(string);
  must(16, 0, { value: null });
  const open = (v) => ({ value: v, writable: true, enumerable: true, configurable: true }), fixed = (v) => ({ value: v, writable: false, enumerable: true, configurable: false });
  const filled = (mask) => {
    must(1, 0, { value: null });
    const base = objects.length - 1;
    for (const key of ['b', 'a', '7']) must(9, base, { key, descriptor: open(key) });
    must(9, base, { key: SYMBOLS[3], descriptor: { get: objects[0], set: undefined, configurable: true } });
    must(2, base, { value: mask });
    return [base, base + 1];
  };
  const read = (o) => { must(6, o); for (const key of ['7', 'b', 'a', SYMBOLS[3]]) must(8, o, { key }); must(19, o, { value: 0 }); must(19, o, { value: 1 }); };
  for (const n of [0, 1]) {
    let [base, top] = filled(32);
    must(9, base, { key: '7', descriptor: { writable: false, configurable: false } });
    must(18, top, { value: n }, [value(true), value(''), value(true)], 32);
    read(base);
    [base, top] = filled(32);
    must(18, top, { value: n }, [value(true)], 15);
    read(base);
    must(18, top, { value: n }, [thrown(objects[0])]);
    must(18, top, { value: n }, []);                                                  // 8
    must(18, top, { value: n }, [list()]);                                            // 9
    read(base);
    [base, top] = filled(1024);
    must(18, top, { value: n }, [list('a', 'b')], 25);
    read(base);
    must(18, top, { value: n }, [list('a', 'b', '7', SYMBOLS[3], 'c')], 26);
    must(18, top, { value: n }, [list('a', 'b', '7', SYMBOLS[3])]);
    read(base);
    must(19, top, { value: n }, [list('a', '7', SYMBOLS[3], 'b')]);
    must(19, top, { value: n }, [list('a', '7', SYMBOLS[3])], 24);
  }
  add('levels: endings', text(joined()));
  start(NAMES);
  for (const string of ['a', 'b', 'c', '7']) enter(string);
  must(16, 0, { value: null });
  const two = [described(open('7')), described(open('b'))];
  const ends = [[() => [thrown('c')]], [() => []], [() => [value(undefined)], 9], [() => [list()]], [() => [value(objects[0])]],
    [() => [described({ get: objects[0], configurable: true }), described({ value: 1, configurable: true })]]];
  for (const [last, number] of ends) {
    const [base, top] = filled(16);
    must(18, top, { value: 1 }, [...two, ...last()], number);
    read(base);
    must(18, top, { value: 0 });
    read(base);
  }
  must(18, 1, { value: 1 });
  must(19, 2, { value: 1 }, [described(fixed('7')), described(fixed('b')), described(fixed('a')), described({ get: objects[0], set: undefined })]);
  must(19, 2, { value: 1 }, [described(fixed('7')), described(open('b'))], 10);
  must(19, 2, { value: 0 }, [value(undefined)], 8);
  add('levels: endings at the third answer', text(joined()));
}

// Texts of functions ----------------------------------------------------------------------

// Written by hand: functions as prototypes, receivers, operands, getters, setters and answers, with the calls of each.
function partsOfFunctions(add) {
  start(NAMES);
  for (const string of ['a', 'b', 'length', 'name', '7']) enter(string);
  must(16, 0, { value: null });                                                       // 0
  must(1, 0, { value: objects[0] });                                                  // 1: an object over a function
  must(16, 0, { value: objects[1] });                                                 // 2: a function over that
  must(2, 1, { value: 2047 });                                                        // 3
  must(16, 0, { value: objects[3] }, [value(1)]);                                     // 4: a function over a proxy; the answer is not asked for
  must(2, 1, { value: 0 });                                                           // 5
  const [f, o, g, all, h, through] = objects, open = (v) => ({ value: v, writable: true, enumerable: true, configurable: true });
  for (const n of [0, 1, 2, 5]) for (const code of [4, 6, 14]) must(code, n);
  for (const key of ['a', 'name', 'length']) for (const n of [0, 1, 2, 5]) { must(8, n, { key }); must(10, n, { key }); must(11, n, { key, receiver: objects[n] }); }
  // keys and properties of a function; what it has is inherited
  for (const key of ['name', SYMBOLS[1], '7', 'length', 'a']) must(9, 0, { key, descriptor: open(f) });
  must(14, 0);
  must(13, 0, { key: 'length' });
  must(9, 0, { key: 'length', descriptor: { get: g, set: h, configurable: true } });
  must(14, 0);
  must(9, 0, { key: 'b', descriptor: { value: f } });
  must(9, 0, { key: 'b', descriptor: { value: g } });
  must(9, 0, { key: 'b', descriptor: { value: f } });
  must(13, 0, { key: 'b' });
  for (const n of [0, 1, 2, 5]) {
    for (const key of ['name', 'length', 'b', SYMBOLS[2]]) {
      must(10, n, { key });
      for (const receiver of [f, objects[n], undefined]) must(11, n, { key, receiver }, [value(h)]);
    }
  }
  must(11, 4, { key: 'name', receiver: h }, [value(g)]);                              // by the proxy's get trap
  must(10, 4, { key: 'name' }, [value(f)]);
  // [[Set]] on functions and with functions as receivers
  for (const n of [0, 1, 2, 5]) {
    for (const key of ['name', 'length', 'b', SYMBOLS[2]]) {
      must(12, n, { key, value: g, receiver: g }, [value(null)]);
      must(12, n, { key, value: 1, receiver: g }, [value(null)]);
      must(12, n, { key, value: o, receiver: objects[n] }, [thrown(f)]);
    }
  }
  must(12, 0, { key: 'a', value: 1, receiver: all }, [value(undefined), value(f)]);
  must(12, 0, { key: 'a', value: 1, receiver: all }, [described(open(f)), value(false)]);
  must(12, 3, { key: 'a', value: 1, receiver: f }, [value(g)]);
  must(7, 2);
  must(12, 0, { key: SYMBOLS[3], value: 1, receiver: g });                            // false: not extensible
  must(12, 0, { key: SYMBOLS[3], value: 1, receiver: f });
  must(14, 2);
  // prototypes
  must(5, 0, { value: f });                                                           // false: cycles
  must(5, 0, { value: g });
  must(5, 2, { value: f });                                                           // false: not extensible
  must(5, 2, { value: o });
  must(5, 1, { value: null });
  must(5, 1, { value: h });
  must(5, 5, { value: f });
  must(4, 1);
  must(4, 5);
  // the traps
  must(4, 3, {}, [value(g)]);
  must(4, 3, {}, [value(undefined)], 2);
  must(4, 3, {}, [thrown(g)]);
  must(5, 3, { value: g }, [value(f)]);
  must(6, 3, {}, [value(f)]);
  must(7, 3, {}, [value(f)], 6);
  must(8, 3, { key: 'b' }, [described({ get: f, set: undefined, configurable: true, enumerable: false })]);
  must(8, 3, { key: 'b' }, [described({ get: o, configurable: true })], 27);
  must(8, 3, { key: 'b' }, [described({ set: all, configurable: true })], 28);
  must(8, 3, { key: 'b' }, [described({ get: f, value: f })], 29);
  must(8, 3, { key: 'b' }, [value(f)]);                                               // 9
  must(9, 3, { key: 'b', descriptor: { get: f, configurable: true } }, [value(g)]);
  must(10, 3, { key: 'b' }, [value(f)]);
  must(11, 3, { key: 'b', receiver: f }, [value(f)]);
  must(13, 3, { key: 'b' }, [value(f)]);
  must(14, 3, {}, [list('a', f)], 30);
  must(14, 3, {}, [value(f)]);                                                        // 9
  // fixed: another function is another value
  must(9, 1, { key: 'b', descriptor: { value: f } });
  must(11, 3, { key: 'b', receiver: f }, [value(f)]);
  must(11, 3, { key: 'b', receiver: f }, [value(g)], 17);
  must(11, 3, { key: 'b', receiver: f }, [value(o)], 17);
  must(12, 3, { key: 'b', value: g, receiver: f }, [value(true)], 19);
  must(12, 3, { key: 'b', value: f, receiver: f }, [value(true)]);
  must(7, 1);
  must(4, 3, {}, [value(f)]);                                                         // its prototype
  must(4, 3, {}, [value(g)], 3);
  must(4, 3, {}, [value(null)], 3);
  must(5, 3, { value: g }, [value(true)], 4);
  must(5, 3, { value: f }, [value(true)]);
  // levels
  for (const n of [0, 1]) { must(19, 0, { value: n }); must(18, 0, { value: n }); must(19, 0, { value: 0 }); must(19, 0, { value: 1 }); }
  must(14, 0);
  for (const key of ['name', 'length', SYMBOLS[1]]) must(8, 0, { key });
  add('functions: parts', text(joined()));
  // 32 objects, functions among them; a refusal brings all back
  start(NAMES);
  enter('a');
  must(16, 0, { value: null });
  must(1, 0, { value: objects[0] });
  must(9, 1, { key: 'a', descriptor: open(objects[0]) });
  must(9, 0, { key: 'a', descriptor: { get: objects[0], configurable: true } });
  must(2, 1, { value: 32 });
  must(18, 2, { value: 0 });                                                          // 8
  must(18, 2, { value: 1 }, [list()]);                                                // 9
  for (const n of [0, 1]) { must(4, n); must(6, n); must(8, n, { key: 'a' }); must(14, n); }
  must(11, 0, { key: 'a', receiver: objects[0] }, [value(objects[0])]);
  while (objects.length < 32) must(16, 0, { value: objects.at(-1) });
  must(16, 0, { value: null });                                                       // 7
  must(1, 0, { value: objects[31] });
  must(2, 1, { value: 0 });
  must(11, 31, { key: 'a', receiver: objects[31] }, [thrown(objects[31])]);
  must(4, 31);
  add('functions: 32 objects', text(joined()));
}

// Objects of all three sorts, each over any other, and steps over them.
function scenesOfFunctions(turn) {
  seed = 131 * turn;
  start(NAMES);
  for (const string of ['a', 'length', 'name', '7', 'prototype', '']) enter(string);
  must(16, 0, { value: null });
  for (let i = 0; i < 160; i++) {
    const kind = random(20), any = [null, ...objects, ...functions()], targets = objects.flatMap((it, n) => (isFunction(it) ? [] : [n]));
    if (objects.length === 32 || kind > 2) someStep(any);
    else if (kind === 2 && targets.length > 0) must(2, pick(targets), { value: pick([0, 2047, random(2048)]) });
    else must(kind === 1 ? 1 : 16, 0, { value: pick(any) });
  }
  return joined();
}

// Texts of step 17 ------------------------------------------------------------------------

// A number that was released is refused as 2 wherever it stands: the object of every step, and values. Object 0 is ordinary, 1 a proxy with every trap,
// 2 a function; `n` is the number.
function releasedRefusals(n) {
  const nil = '01' + zeros(8), y = '06' + zeros(8), o = byte(n);
  for (let code = 2; code < 20; code++) {
    if (code === 15 || code === 16) continue;
    const cells = { step: byte(code), object: o };
    if (code >= 8 && code <= 13) cells.key = y;
    if (code === 2 || code > 17) cells.value = level(0);
    if (code === 5) cells.value = nil;
    refused(2, cells);
  }
  for (const v of ['07' + little(n, 8), '08' + little(n, 8)]) {
    for (const code of ['01', '05', '10']) refused(2, { step: code, value: v });
    refused(2, { step: '0b', key: y, receiver: v });
    refused(2, { step: '0c', key: y, value: v, receiver: nil });
    refused(2, { step: '0c', key: y, value: nil, receiver: v });
    refused(2, { step: '0a', key: v });
    refused(2, { step: '09', key: y, descriptor: '0800' + v + zeros(18) });
    refused(2, { step: '09', key: y, descriptor: '1000' + zeros(9) + v + zeros(9) });
    refused(2, { step: '09', key: y, descriptor: '2000' + zeros(18) + v });
    for (const answer of ['01' + v, '04' + v, '03' + '0200' + y + v, '02' + '0800' + v + zeros(18), '02' + '2000' + zeros(18) + v]) {
      for (const part of ['00', '01', '02']) refused(2, { step: '06', object: part, sheet: '01' + answer });
    }
  }
}

// Written by hand: what is named and by whom, each sort of object released, numbers taken again, properties that make room.
function partsOfReleases(add) {
  const open = (v) => ({ value: v, writable: true, enumerable: true, configurable: true });
  start(NAMES);
  for (const string of ['a', 'b', '7']) enter(string);
  must(1, 0, { value: null });                                                        // 0
  must(2, 0, { value: 2047 });                                                        // 1
  must(16, 0, { value: null });                                                       // 2
  must(1, 0, { value: objects[2] });                                                  // 3
  must(17, 0);                                                                        // 14: the target of 1
  must(17, 2);                                                                        // 14: the prototype of 3
  must(17, 3);
  releasedRefusals(3);
  must(17, 2);
  must(16, 0, { value: objects[0] });                                                 // 3: released before 2
  must(16, 0, { value: null });                                                       // 2
  must(9, 0, { key: 'a', descriptor: open(objects[3]) });
  must(17, 3);                                                                        // 14: a value
  must(9, 0, { key: 'a', descriptor: { get: objects[3], set: undefined } });
  must(17, 3);                                                                        // 14: a getter
  must(9, 0, { key: 'a', descriptor: { get: undefined, set: objects[3] } });
  must(17, 3);                                                                        // 14: a setter
  must(9, 0, { key: 'a', descriptor: { set: undefined } });
  must(17, 0);                                                                        // 14
  for (const d of [open(objects[3]), { get: objects[3], set: undefined }, { get: undefined, set: objects[3] }]) {
    must(9, 3, { key: '7', descriptor: d });
    must(17, 3);                                                                      // 14: it names itself
  }
  must(13, 3, { key: '7' });
  must(9, 3, { key: 'b', descriptor: { value: 1 } });
  must(18, 3, { value: 1 });
  must(17, 3, {}, [value(true)]);                                                     // 13, then released with its property
  releasedRefusals(3);
  must(2, 0, { value: 0 });                                                           // 3: a proxy
  must(14, 3);
  must(2, 3, { value: 128 });                                                         // 4
  must(17, 3);                                                                        // 14: the target of 4
  must(3, 4);
  must(17, 3);
  must(2, 4, { value: 0 });                                                           // 3: over 4, which stood before 3
  must(6, 3, {}, [], 1);
  must(6, 4, {}, [], 1);
  must(17, 4);                                                                        // 14
  must(17, 3);
  must(17, 4);
  must(17, 1);
  must(17, 0);
  for (const code of [1, 16, 1, 16, 1]) must(code, 0, { value: null });               // 3, 4, 1, 0, 5
  for (let o = 0; o < 6; o++) { must(4, o); must(6, o); must(14, o); must(8, o, { key: 'b' }); }
  add('releases: parts', text(joined()));
  // 32 live objects, again and again; each number once in another order
  start(NAMES);
  enter('a');
  while (objects.length < 32) must(objects.length % 3 ? 1 : 16, 0, { value: null });
  for (let turn = 0; turn < 4; turn++) {
    must(1, 0, { value: null });                                                      // 7
    must(16, 0, { value: null });
    for (let i = 0; i < 32; i++) must(17, (11 * i + turn) % 32);
    for (let i = 0; i < 32; i++) must(i % (turn + 2) ? 1 : 16, 0, { value: i % 5 ? null : objects.find((it) => it !== GONE) ?? null });
    must(2, objects.findIndex((it) => !isFunction(it)), { value: 0 });                // 7
    for (let i = 0; i < 32; i++) must(4, i);
    for (let o = 0; o < 32; o++) must(5, o, { value: null });
  }
  add('releases: 32 objects', text(joined()));
  // 256 properties of three objects; a release makes room, and a refused step 18 brings back objects whose targets have greater numbers
  start(NAMES);
  for (let i = 0; i < 128; i++) enter(`key${i}`);
  for (let i = 0; i < 3; i++) must(1, 0, { value: null });
  for (let i = 0; i < 256; i++) must(9, [0, 1, 2, 1][i % 4], { key: i % 2 ? strings[i >> 1] : SYMBOLS[i], descriptor: open(i) });
  must(9, 0, { key: SYMBOLS[1], descriptor: open(0) });                               // 7
  must(17, 1);
  for (const o of [0, 2]) { must(14, o); must(8, o, { key: SYMBOLS[4] }); must(8, o, { key: SYMBOLS[6] }); }
  must(16, 0, { value: null });                                                       // 1
  for (let i = 0; i < 128; i++) must(9, 1, { key: strings[127 - i], descriptor: open(i) });
  must(9, 1, { key: SYMBOLS[1], descriptor: open(0) });                               // 7
  must(14, 1);
  must(17, 0);
  must(2, 2, { value: 32 });                                                          // 0: a proxy over 2
  must(2, 0, { value: 0 });                                                           // 3
  must(17, 1);
  must(2, 3, { value: 0 });                                                           // 1: over 3
  must(18, 1, { value: 0 }, [value(false)], 32);
  must(18, 1, { value: 1 }, []);                                                      // 8
  must(6, 2);
  must(3, 1);
  must(18, 3, { value: 0 }, [list()]);                                                // 9
  for (const o of [0, 3]) must(14, o);
  must(8, 2, { key: SYMBOLS[2] });
  must(17, 2);                                                                        // 14
  must(17, 1);
  must(17, 3);
  must(17, 0);
  must(17, 2);
  add('releases: 256 properties', text(joined()));
}

// Objects of all sorts come and go, and the numbers of those that went are named.
function scenesOfReleases(turn) {
  seed = 173 * turn;
  start(NAMES);
  for (const string of ['a', 'length', '7', 'prototype', '']) enter(string);
  must(16, 0, { value: null });
  const crowd = 4 + random(26);
  for (let i = 0; i < 400; i++) {
    const kind = random(14), any = [null, ...present(), ...functions()], standing = present().filter((it) => !isFunction(it));
    const o = () => objects.indexOf(pick(present()));
    if (functions().length === 0) must(16, 0, { value: pick(any) });
    else if (kind < 4 && present().length > crowd && random(4)) {
      const free = present().filter((it) => !isNamed(it) && (functions().length > 1 || !isFunction(it)));
      must(17, free.length > 0 && random(5) ? objects.indexOf(pick(free)) : o(), {}, random(12) ? [] : [value(someValue())]);
    } else if (kind < 3) must(kind === 1 ? 1 : 16, 0, { value: pick(any) });
    else if (kind === 3 && standing.length > 0) must(2, objects.indexOf(pick(standing)), { value: pick([0, 2047, random(2048)]) });
    else if (kind === 4 && released.length > 0) {
      const n = pick(released), v = pick(['07', '08']) + little(n, 8);
      refused(2, pick([{ step: '11', object: byte(n) }, { step: '0e', object: byte(n) }, { step: '01', value: v }, { step: '06', object: byte(o()), sheet: '01' + '01' + v },
        { step: '09', object: byte(o()), key: '06' + zeros(8), descriptor: '0800' + v + zeros(18) }]));
    } else if (kind === 5 && random(3) === 0 && standing.some((it) => targets.has(it))) must(3, objects.indexOf(pick(standing.filter((it) => targets.has(it)))));
    else someStep(any);
  }
  return joined();
}

// All texts -------------------------------------------------------------------------------

function allTexts() {
  const texts = [], add = (name, made) => texts.push({ name, ...made });
  const whole = large();
  add('the large text', text(whole + '\n'));
  add('the large text, its last line feed missing', text(whole));
  broken('');
  add('the large text, an empty line behind it', text(whole + '\n\n'));
  broken('');
  add('the large text, two empty lines behind it', text(whole + '\n\n\n'));

  start(NAMES);
  put('01 00 - 010000000000000000 - - -', '1 0 0 0 070000000000000000');
  add("the form's example", text(joined() + '\n'));
  add("the form's example, its last line feed missing", text(joined()));

  // Every name at every place
  for (let turn = 0; turn < 14; turn++) {
    const turned = NAMES.map((_, i) => NAMES[(i + turn) % 7]);
    start(turn < 7 ? turned : turned.reverse());
    enter('visits');
    must(1, 0, { value: null });
    must(9, 0, { key: 'visits', descriptor: { value: 70000, enumerable: true } });
    must(2, 0, { value: 128 });
    must(11, 1, { key: 'visits', receiver: objects[1] }, [value(4464)], 17);
    must(12, 0, { key: SYMBOLS[1], value: 'visits', receiver: objects[0] });
    must(8, 0, { key: 'visits' });
    broken(cellsLine({ step: '01', value: '01' + zeros(8) }) + ' -');
    add(`the names from ${order[0]} on`, text(joined()));
  }

  callsOfLevels(add);
  endingsOfLevels(add);
  for (let turn = 1; turn <= 12; turn++) add(`levels: scenes ${turn}`, text(scenesOfLevels(turn)));

  partsOfFunctions(add);
  for (let turn = 1; turn <= 20; turn++) add(`functions: scenes ${turn}`, text(scenesOfFunctions(turn)));

  partsOfReleases(add);
  for (let turn = 1; turn <= 20; turn++) add(`releases: scenes ${turn}`, text(scenesOfReleases(turn)));

  start(NAMES);
  add('the names alone', text(NAMES.join(' ')));
  add('the names alone, with a line feed', text(NAMES.join(' ') + '\n'));
  for (let i = 0; i < 100100; i++) broken('');
  add('100,100 empty lines', text(joined() + '\n'));
  start(NAMES);
  broken('0'.repeat(3000000));
  must(1, 0, { value: null });
  add('a line of 3,000,000 characters', text(joined()));
  start(NAMES);
  broken('0'.repeat(LONGEST + 1));
  add('a last line that is too long', text(joined()));

  // First lines that are broken or missing: nothing after them is read
  const names = NAMES.join(' '), after = '\n01 00 - 010000000000000000 - - -\n' + names + '\n01 00 - 010000000000000000 - - -\n';
  const heads = {
    'no input': '', 'a line feed alone': '\n', 'an empty first line': '\n' + names + after, 'a line of cells first': after.slice(1),
    'six names': names.replace(' sheet', '') + after, 'a name twice': names.replace('sheet', 'step') + after, 'eight names': names + ' sheet' + after,
    'a name of its own': names.replace('sheet', 'sheets') + after, 'a shorter name': names.replace('sheet', 'shee') + after,
    'an uppercase letter': names.replace('step', 'Step') + after, 'two spaces': names.replace(' ', '  ') + after, 'a space first': ' ' + names + after,
    'a space last': names + ' ' + after, 'a tab': names.replace(' ', '\t') + after, 'commas': names.replace(/ /g, ',') + after,
    'a carriage return': names + '\r' + after, 'a byte order mark': '\xef\xbb\xbf' + names + after, 'a comment': '# ' + names + after,
    'a zero byte': names + '\0' + after, 'names that are not ended': 'step object key', 'a name after the line feed': names.replace(' sheet', '\nsheet') + after,
    'a first line that is too long': names + ' '.repeat(LONGEST) + after, 'nothing but spaces': ' '.repeat(100), 'the heading of the rows': HEADING + names + after,
    'a first line of 3,000,000 characters': 'step '.repeat(600000) + after, 'bytes above 127': '\xff'.repeat(20000),
  };
  for (const [name, input] of Object.entries(heads)) {
    rows = ['0 0 12 0 0 -'];
    add(`first line: ${name}`, text(input));
  }
  return texts;
}

// The command ------------------------------------------------------------------------------

function check(program) {
  const texts = allTexts();
  let compared = 0, differences = 0;
  for (const { name, input, output } of texts) {
    const { status, signal, stdout, error } = spawnSync(program, [], { input, maxBuffer: 1 << 28 });
    // a program that has read enough may close its input
    if (error && error.code !== 'EPIPE') throw error;
    const [meant, given] = [output, stdout].map((bytes) => bytes.toString('latin1').split('\n'));
    compared += meant.length - 2;
    if (status === 0 && output.equals(stdout)) continue;
    differences++;
    const at = meant.findIndex((row, i) => row !== given[i]);
    const rest = given.length > meant.length ? 'there are more rows' : `ended by ${signal ?? status}`;
    const what = at < 0 ? rest : `'${meant[at].slice(0, 200)}' is meant, not '${given[at]?.slice(0, 200)}'`;
    console.log(`${name}: ${what}`);
  }
  console.log(`${texts.length} texts, ${compared} rows, ${differences} differences`);
  process.exitCode = differences === 0 ? 0 : 1;
}

const [mode, program] = process.argv.slice(2);
if (mode === 'lines') process.stdout.write(Buffer.from(large() + '\n', 'latin1'));
else if (mode === 'rows') { large(); process.stdout.write(text('').output); }
else if (mode === 'check' && program) check(program);
else { console.error('usage: node tests/text.mjs lines | rows | check PROGRAM'); process.exitCode = 2; }
