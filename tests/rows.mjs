// Rows of a text of steps against node: its lines are performed on node's own objects by tests/engines, and outcome, number, answers and value of every
// row are compared. Calls are not: an engine does not show them. It ends in 'N rows, 0 differences', or fails.
//
//     node tests/rows.mjs LINES ROWS
import { readFileSync } from 'node:fs';

// The performer of tests/engines; what it would print for a call is kept instead.
const source = ['1-records.js', '2-world.js', '3-engine.js'].map((file) => readFileSync(new URL(`engines/${file}`, import.meta.url), 'utf8')).join('\n');
const engine = new Function(`${source}
  let told;
  line = (kind, room, record, given, expected) => { told = told ?? expected; };
  newWorld();
  return {
    // a sheet with unread answers is performed without them, and that is taken back
    step(record, given) {
      const copies = copied(), before = world.dump;
      told = undefined;
      if (!doStep(record, given, 9 * 256)) throw new Error('a property cannot be taken back');
      if (told.outcome === 0 && world.dump !== before) { world.dump = before; keep(restored(copies)); }
      return told;
    },
    enter(text) { told = undefined; doEnter(text); return told; },
    refused,
  };`)();

// Lines ----------------------------------------------------------------------------------

const BYTES = { step: 1, object: 1, key: 9, value: 9, receiver: 9, descriptor: 29 };
const NAMES = [...Object.keys(BYTES), 'sheet'];
const bytesOf = (hex) => hex.match(/../g).map((digits) => parseInt(digits, 16));

// The parts of a line by their names, as bytes; undefined where it breaks the form.
function partsOf(line, order) {
  const cells = line.split(' '), parts = {};
  if (line.length > 16384 || cells.length !== 7) return undefined;
  for (const [i, name] of order.entries()) {
    const digits = cells[i] === '-' ? '00'.repeat(BYTES[name] ?? 0) : cells[i];
    if (cells[i] !== '-' && !/^([0-9a-f]{2})+$/.test(digits)) return undefined;
    parts[name] = digits === '' ? [] : bytesOf(digits);
    if (name !== 'sheet' && parts[name].length !== BYTES[name]) return undefined;
  }
  return parts.step[0] === 15 && parts.sheet.length % 2 !== 0 ? undefined : parts;
}

// What node makes of a line.
function performed(parts) {
  if (parts === undefined) return engine.refused(12);
  const record = NAMES.slice(0, 6).flatMap((name) => parts[name]), { sheet } = parts;
  if (record[0] !== 15) return engine.step(record, sheet.length === 0 ? [0] : sheet);
  if (record.slice(1).some((b) => b !== 0)) return engine.refused(1);
  let text = '';
  for (let i = 0; i < sheet.length; i += 2) text += String.fromCharCode(256 * sheet[i] + sheet[i + 1]);
  return engine.enter(text);
}

// Rows -----------------------------------------------------------------------------------

const isZero = (hex) => /^0*$/.test(hex);

// A row's value as tests/engines writes it: a number as Float64, a kind with a number as two bytes; undefined where it is none.
function valueText(hex) {
  const kind = hex.slice(0, 2), rest = hex.slice(2);
  if (kind === '00' || kind === '01') return isZero(rest) ? kind : undefined;
  if (kind === '04') return hex;
  if (kind !== '03') return /^0[25678]$/.test(kind) && isZero(rest.slice(2)) ? hex.slice(0, 4) : undefined;
  const float = Buffer.alloc(8);
  float.writeDoubleLE(Buffer.from(rest, 'hex').readInt32LE());
  return isZero(rest.slice(8)) ? '04' + float.toString('hex') : undefined;
}

function propertyText(hex) {
  const [mask, booleans] = bytesOf(hex), parts = [4, 22, 40].map((at) => hex.slice(at, at + 18));
  const flags = (booleans & 1 ? 4 : 0) + (booleans & 2 ? 8 : 0) + (booleans & 4 ? 2 : 0);
  const text = (flags, values) => (values.includes(undefined) ? undefined : '0' + flags.toString(16) + values.join(''));
  if (mask === 0x0f && booleans < 8 && isZero(hex.slice(22))) return text(flags, [valueText(parts[0])]);
  return mask === 0x33 && booleans < 4 && isZero(parts[0]) ? text(flags + 1, [valueText(parts[1]), valueText(parts[2])]) : undefined;
}

// The completion that a row's value is, of a step that node ended so.
function completionOf(value, expected) {
  const form = expected.completion.slice(0, 2);
  if (form === '01' && value.length === 18) return '01' + valueText(value);
  if (form === '02' && value.length === 58) return '02' + propertyText(value);
  if (form === '04') return value === (expected.output || '-') ? expected.completion : undefined;
  return value !== '-' ? undefined : form === '03' ? '03' : '';
}

// What differs, or undefined.
function difference(number, row, expected) {
  const cells = /^(0|[1-9]\d*) ([0-3]) (0|[1-9]\d*) (0|[1-9]\d*) (0|[1-9]\d*) (-|([0-9a-f]{2})+)$/.exec(row ?? '')?.slice(1, 7);
  if (cells === undefined) return 'form';
  const [line, outcome, message, answers, calls] = cells.map(Number), value = cells[5];
  if (line !== number) return 'line';
  if (outcome !== expected.outcome) return 'outcome';
  if (expected.numbers === 0 ? message !== 0 : message > 32 || (expected.numbers >>> message & 1) === 0) return 'number';
  if (answers !== expected.answers) return 'answers';
  if (outcome === 0 && calls !== 0) return 'calls';
  return completionOf(value, expected) === expected.completion ? undefined : 'value';
}

const linesOf = (file) => { const lines = readFileSync(file, 'latin1').split('\n'); if (lines.at(-1) === '') lines.pop(); return lines; };
const [[names, ...lines], [heading, ...rows]] = process.argv.slice(2, 4).map(linesOf);
const order = (names ?? '').split(' ');
const isNamed = order.length === 7 && NAMES.every((name) => order.includes(name));
const expected = isNamed ? lines.map((line) => performed(partsOf(line, order))) : [engine.refused(12)];
let differences = 0;
const differs = (what) => { differences++; console.log(what); };
if (heading !== 'line outcome number answers calls value') differs('the heading differs');
if (rows.length !== expected.length) differs(`${rows.length} rows for ${expected.length} lines`);
expected.forEach((made, i) => {
  const number = isNamed ? i + 1 : 0, part = difference(number, rows[i], made);
  if (part !== undefined) differs(`line ${number}: the ${part} differs: '${rows[i]?.slice(0, 200)}', node: ${JSON.stringify(made).slice(0, 200)}`);
});
console.log(`${expected.length} rows, ${differences} differences`);
process.exitCode = differences === 0 ? 0 : 1;
