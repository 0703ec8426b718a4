// Every small pair of a current and a wanted descriptor, for tests/c/validation.c: the first test of ECMA-262 10.1.6.3 that fails, by its number, from
// the standard's text; yes or no, and the property after it, from node's Reflect.defineProperty and Object.getOwnPropertyDescriptor. Of the number node
// is asked too: the fields of that one test alone are rejected, and those of each test before it are accepted. Where these disagree it fails, and names
// the smallest case.
//
//     node tests/validation.mjs > CASES
//
// A line is 92 bytes in hexadecimal: extensible (1), whether there is a current property (1), wanted and current as descriptors (29 each), yes or no (1),
// the number (1), whether there is a property after it (1), and that property as a descriptor (29). Functions are numbers 0 and 1 of a store.
const { defineProperty } = Reflect, ABSENT = Symbol('absent');
const byte = (n) => n.toString(16).padStart(2, '0');

// Values: what each is in JavaScript, and its bytes. A number read back is Float64, a NaN 0x7ff8000000000000.
const value = (it, kind, payload) => ({ it, bytes: byte(kind) + Buffer.from(BigUint64Array.of(payload).buffer).toString('hex') });
const integer = (n) => value(n, 3, BigInt.asUintN(32, BigInt(n)));
const float = (x, bits = new BigUint64Array(Float64Array.of(x).buffer)[0]) => value(x, 4, bits);
const nothing = value(undefined, 0, 0n), f = value(() => 0, 8, 0n), g = value(() => 1, 8, 1n), callables = [nothing, f, g];
const readBack = (it) => callables.find((v) => v.it === it) ?? (Number.isNaN(it) ? float(it, 0x7ff8n << 48n) : float(it));

// Descriptors: the fields that are present, with booleans or values.
const FIELDS = ['enumerable', 'configurable', 'writable', 'value', 'get', 'set'];
const isFlag = (name) => FIELDS.indexOf(name) < 3;
const inNode = (d) => Object.fromEntries(Object.entries(d).map(([name, v]) => [name, isFlag(name) ? v : v.it]));
const fromNode = (own) => own && Object.fromEntries(Object.entries(own).map(([name, v]) => [name, isFlag(name) ? v : readBack(v)]));
const bitsOf = (d, test) => byte(FIELDS.reduce((bits, name, i) => bits + (name in d && test(name) ? 1 << i : 0), 0));
const partsOf = (d) => ['value', 'get', 'set'].map((name) => (d[name] ?? nothing).bytes).join('');
const bytesOf = (d = {}) => bitsOf(d, () => true) + bitsOf(d, (name) => isFlag(name) && d[name]) + partsOf(d);

// Every choice of a value for each field.
function chosen(fields) {
  let made = [{}];
  for (const [name, values] of Object.entries(fields)) made = made.flatMap((d) => values.map((v) => (v === ABSENT ? d : { ...d, [name]: v })));
  return made;
}

const flags = [false, true], optional = (values) => [ABSENT, ...values];

function allCurrent(values) {
  const attributes = { enumerable: flags, configurable: flags };
  return [undefined, ...chosen({ ...attributes, value: values, writable: flags }), ...chosen({ ...attributes, get: callables, set: callables })];
}

function allWanted(values) {
  const attributes = { enumerable: optional(flags), configurable: optional(flags) };
  const data = chosen({ ...attributes, value: optional(values), writable: optional(flags) }).filter(isData);
  const accessors = chosen({ ...attributes, get: optional(callables), set: optional(callables) }).filter(isAccessor);
  return [...chosen(attributes), ...data, ...accessors];
}

// The standard's text ----------------------------------------------------------------------

const isAccessor = (d) => 'get' in d || 'set' in d;
const isData = (d) => 'value' in d || 'writable' in d;
const isGeneric = (d) => !isAccessor(d) && !isData(d);
const isSame = (a, b) => Object.is(a.it, b.it);
const NAMES = ['none', 'extensible', 'configurable', 'enumerable', 'kind', 'get', 'set', 'writable', 'value'];
const [NONE, EXTENSIBLE, CONFIGURABLE, ENUMERABLE, KIND, GET, SET, WRITABLE, VALUE] = NAMES.keys();

// ECMA-262 10.1.6.3: the first test that fails.
function firstTest(extensible, d, current) {
  if (current === undefined && !extensible) return EXTENSIBLE;                                      // 2.a
  if (current === undefined) return NONE;                                                           // 2.e
  if (Object.keys(d).length === 0) return NONE;                                                     // 4
  if (!current.configurable) {                                                                      // 5
    if ('configurable' in d && d.configurable) return CONFIGURABLE;                                 // 5.a
    if ('enumerable' in d && d.enumerable !== current.enumerable) return ENUMERABLE;                // 5.b
    if (!isGeneric(d) && isAccessor(d) !== isAccessor(current)) return KIND;                        // 5.c
    if (isAccessor(current)) {                                                                      // 5.d
      if ('get' in d && !isSame(d.get, current.get)) return GET;                                    // 5.d.i
      if ('set' in d && !isSame(d.set, current.set)) return SET;                                    // 5.d.ii
    } else if (!current.writable) {                                                                 // 5.e
      if ('writable' in d && d.writable) return WRITABLE;                                           // 5.e.i
      if ('value' in d) return isSame(d.value, current.value) ? NONE : VALUE;                       // 5.e.iii
    }
  }
  return NONE;                                                                                      // 7
}

// Node -------------------------------------------------------------------------------------

// An object with the current property alone.
function made(extensible, current) {
  const it = {};
  if (current !== undefined && !defineProperty(it, 'k', inNode(current))) throw new Error('a first definition is rejected');
  return extensible ? it : Object.preventExtensions(it);
}

// The definitions of what each test looks at alone, in the order of the tests. Of the kind it is a field that a property of the same kind accepts.
function alone(d, current) {
  const field = (name) => (name in d ? [{ [name]: d[name] }] : []);
  const kind = isData(d) ? [{ writable: false }] : isAccessor(d) ? [{ get: current?.get ?? nothing }] : [];
  return [[], [{}], field('configurable'), field('enumerable'), kind, field('get'), field('set'), field('writable'), field('value')];
}

// What node has against the number, or undefined.
function objection(number, accepted, extensible, d, current) {
  if (accepted !== (number === NONE)) return accepted ? 'node accepts it' : 'node rejects it';
  const defines = (e) => defineProperty(made(extensible, current), 'k', inNode(e)), tests = alone(d, current);
  if (number !== NONE && (tests[number].length === 0 || tests[number].some(defines))) return 'node does not reject that alone';
  const before = tests.findIndex((definitions, n) => (number === NONE || n < number) && !definitions.every(defines));
  if (before >= 0) return `node rejects ${NAMES[before]} alone`;
  return number === KIND && tests.slice(GET).flat().some(defines) ? 'node accepts a field of that kind' : undefined;
}

// Cases ------------------------------------------------------------------------------------

// Values that are not the same, zeros of both signs, a NaN of other bits, a number written otherwise, and what is no number.
const PAIRS = [[integer(1), integer(2)], [integer(0), float(-0)], [float(NaN), float(NaN, 0xfff0000000000001n)], [integer(7), float(7)], [nothing, g]];
const lines = [], faults = [], counts = NAMES.map(() => 0);

function add(extensible, d, current) {
  const it = made(extensible, current), accepted = defineProperty(it, 'k', inNode(d)), after = fromNode(Object.getOwnPropertyDescriptor(it, 'k'));
  const number = firstTest(extensible, d, current), against = objection(number, accepted, extensible, d, current);
  counts[number]++;
  const [open, there, yes, left] = [extensible, current !== undefined, accepted, after !== undefined].map((b) => byte(Number(b)));
  lines.push(open + there + bytesOf(d) + bytesOf(current) + yes + byte(number) + left + bytesOf(after));
  if (against !== undefined) faults.push({ extensible, d, current, number, against });
}

for (const [pass, values] of PAIRS.entries()) {
  for (const extensible of flags) {
    for (const current of allCurrent(values)) {
      // later pairs: only where a value stands
      for (const d of allWanted(values)) if (pass === 0 || 'value' in d || (current && 'value' in current)) add(extensible, d, current);
    }
  }
}

const field = ([name, v]) => `${name}: ${Object.is(v, -0) ? '-0' : v}`;
const told = (d) => (d === undefined ? 'absent' : `{ ${Object.entries(inNode(d)).map(field).join(', ')} }`);
if (faults.length > 0) {
  const size = ({ d, current }) => Object.keys(d).length + Object.keys(current ?? {}).length;
  const { extensible, d, current, number, against } = faults.reduce((a, b) => (size(b) < size(a) ? b : a));
  const least = `extensible ${extensible}, current ${told(current)}, wanted ${told(d)}: ${number} (${NAMES[number]}), but ${against}`;
  throw new Error(`${faults.length} of ${lines.length} cases; the smallest: ${least}`);
}
if (counts.includes(0)) throw new Error(`a number does not occur: ${counts}`);
process.stdout.write(lines.join('\n') + '\n');
