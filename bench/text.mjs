// Lines of steps as a program reads them, and how long node takes to split them and to decode their cells.
//
//     node bench/text.mjs make                     100,000 lines of mixed steps
//     node bench/text.mjs split FILE               node alone, as one writes it: lines at line feeds, cells at spaces, a Buffer for each cell
//     node bench/text.mjs table FILE               node alone, for speed: bytes by a table of digits into one Buffer, no strings
//     node bench/text.mjs compare PROGRAM FILE     the three by turns, the best of five each, in lines a second
import { spawnSync } from 'node:child_process';
import { closeSync, openSync, readFileSync } from 'node:fs';

const LINES = 100000, RUNS = 5;

// Lines ----------------------------------------------------------------------------------
//
// A store that is full of objects (20 ordinary ones, 12 proxies) and holds some 200 properties: most lines name what is there and end in a result.

let state = 1;
const random = (n) => { state ^= state << 13; state ^= state >>> 17; state ^= state << 5; return (state >>> 0) % n; };
const pick = (list) => list[random(list.length)];
const byte = (n) => n.toString(16).padStart(2, '0');
const zeros = (n) => '00'.repeat(n);
const little = (n, bytes) => Array.from({ length: bytes }, (_, i) => byte(Math.floor(n / 256 ** i) % 256)).join('');
const NULL = '01' + zeros(8), boolean = (b) => '02' + little(b ? 1 : 0, 8), integer = (n) => '03' + little(n >>> 0, 8);
const float = (x) => '04' + Buffer.from(new Float64Array([x]).buffer).toString('hex');
const string = (n) => '05' + little(n, 8), symbol = (n) => '06' + little(n, 8), object = (n) => '07' + little(n, 8);
const units = (text) => Array.from(text, (c) => c.charCodeAt(0).toString(16).padStart(4, '0')).join('');

const ORDINARY = 20, PROXIES = 12, STRINGS = 40, WORDS = ['visits', 'name', 'room', 'year', 'figure', 'height', 'width', 'maker', 'loan', 'note'];
const text = (n) => (n % 4 === 3 ? String(n) : WORDS[n % 10] + (n < 10 ? '' : Math.floor(n / 10)));
const line = (code, o, { key = '-', value = '-', receiver = '-', descriptor = '-', sheet = '-' } = {}) =>
  [byte(code), byte(o), key, value, receiver, descriptor, sheet].join(' ');
const answers = (...list) => byte(list.length) + list.join('');
const answer = (v) => '01' + v;
const someValue = () => pick([() => integer(random(100000)), () => integer(random(100)), () => float(random(1000) / 8), () => string(random(STRINGS)),
  () => boolean(random(2)), () => NULL])();
const someKey = (o) => (random(12) ? string((o * 2 + random(8)) % STRINGS) : symbol(random(2)));    // ten keys an object
const data = () => '0f' + byte(2 + random(2) + 4 * random(2)) + someValue() + zeros(18);             // configurable
const ordinary = () => random(ORDINARY), proxy = () => ORDINARY + random(PROXIES);
const targetOf = (p) => (p - ORDINARY) * 3 % ORDINARY;

const KINDS = [
  [22, () => { const o = ordinary(); return line(11, o, { key: someKey(o), receiver: object(o) }); }],
  [14, () => { const o = ordinary(); return line(12, o, { key: someKey(o), value: someValue(), receiver: object(o) }); }],
  [12, () => { const o = ordinary(); return line(9, o, { key: someKey(o), descriptor: data() }); }],
  [7, () => { const o = ordinary(); return line(13, o, { key: someKey(o) }); }],
  [7, () => { const o = ordinary(); return line(10, o, { key: someKey(o) }); }],
  [8, () => { const o = ordinary(); return line(8, o, { key: someKey(o) }); }],
  [3, () => line(14, ordinary())],
  [3, () => line(pick([4, 6]), ordinary())],
  [9, () => { const p = proxy(); return line(11, p, { key: someKey(targetOf(p)), receiver: object(p), sheet: answers(answer(someValue())) }); }],
  [3, () => { const p = proxy(); return line(12, p, { key: someKey(targetOf(p)), value: someValue(), receiver: object(p), sheet: answers(answer(boolean(random(2)))) }); }],
  [2, () => { const p = proxy(); return line(10, p, { key: someKey(targetOf(p)), sheet: answers(answer(boolean(true))) }); }],
  [2, () => { const p = proxy(); return line(8, p, { key: someKey(targetOf(p)), sheet: answers('02' + data()) }); }],
  [2, () => { const p = proxy(); return line(14, p, { sheet: answers('03' + little(6, 2) + [0, 7, 14, 21, 28, 35].map((n) => string((n + random(7)) % STRINGS)).join('')) }); }],
  [1, () => { const p = proxy(); return line(11, p, { key: someKey(targetOf(p)), receiver: object(p), sheet: answers('04' + someValue()) }); }],
  [4, () => line(15, 0, { sheet: units(text(random(STRINGS))) })],
  [1, () => pick([() => line(1, 0, { value: NULL }), () => line(11, 99), () => '', () => line(6, 0) + ' '])()],   // refused: no room, never made, broken
];

function make() {
  const lines = ['step object key value receiver descriptor sheet'];
  for (let n = 0; n < STRINGS; n++) lines.push(line(15, 0, { sheet: units(text(n)) }));
  for (let o = 0; o < ORDINARY; o++) lines.push(line(1, 0, { value: o % 5 === 4 ? object(o - 1) : NULL }));
  for (let p = ORDINARY; p < ORDINARY + PROXIES; p++) lines.push(line(2, targetOf(p), { value: integer(2047) }));
  const all = KINDS.reduce((sum, [weight]) => sum + weight, 0);
  while (lines.length <= LINES) {
    let n = random(all);
    lines.push(KINDS.find(([weight]) => (n -= weight) < 0)[1]());
  }
  process.stdout.write(lines.join('\n') + '\n');
}

// Speed ----------------------------------------------------------------------------------

const seconds = (work) => { const start = process.hrtime.bigint(); work(); return Number(process.hrtime.bigint() - start) / 1e9; };

// Both times start before the file is read and leave out node's own start.
function split(file) {
  let count = 0, bytes = 0;
  const took = seconds(() => {
    const lines = readFileSync(file, 'latin1').split('\n');
    for (const line of lines) {
      for (const cell of line.split(' ')) if (cell !== '-') bytes += Buffer.from(cell, 'hex').length;
    }
    count = lines.length - 2;
  });
  tellRate(count, bytes, took);
}

function table(file) {
  let count = -1, bytes = 0;
  const took = seconds(() => {
    const digits = new Int8Array(256).fill(-1);
    for (let d = 0; d < 16; d++) digits[d.toString(16).charCodeAt(0)] = d;
    const input = readFileSync(file), line = Buffer.alloc(16384);
    for (let at = 0, used = 0; at < input.length; at++) {
      let first = input[at];
      while (digits[first] >= 0) {
        line[used++] = digits[first] << 4 | digits[input[at + 1]];
        at += 2;
        first = input[at];
      }
      if (first === 10) { count++; bytes += used; used = 0; }
    }
  });
  tellRate(count, bytes, took);
}

function tellRate(count, bytes, took) {
  if (count !== LINES || bytes < LINES) throw new Error(`${count} lines, ${bytes} bytes`);
  console.log((count / took).toFixed(0));
}

function run(command, words, file, output) {
  const input = openSync(file, 'r'), to = output ?? openSync('/dev/null', 'w');
  const ended = spawnSync(command, words, { stdio: [input, to, 'inherit'], encoding: 'latin1', maxBuffer: 1 << 28 });
  closeSync(input);
  if (output === undefined) closeSync(to);
  if (ended.status !== 0) throw new Error(`${command} ${words.join(' ')}: ${ended.error ?? ended.signal ?? ended.status}`);
  return ended.stdout;
}

function compare(program, file) {
  const rows = run(program, [], file, 'pipe').trim().split('\n').slice(1), tally = [0, 0, 0, 0];
  for (const row of rows) tally[row.split(' ')[1]]++;
  if (rows.length !== LINES || !rows.at(-1).startsWith(`${LINES} `)) throw new Error(`${rows.length} rows`);
  console.log(`${LINES} lines, ${readFileSync(file).length} bytes: ${tally[1]} results, ${tally[2]} TypeErrors, ${tally[3]} throws, ${tally[0]} refused`);
  const best = {}, keep = (what, rate) => { best[what] = Math.max(best[what] ?? 0, rate); };
  for (let i = 0; i < RUNS; i++) {
    keep('here', LINES / seconds(() => run(program, [], file)));
    for (const way of ['split', 'table']) {
      let told;
      keep(`${way}, all`, LINES / seconds(() => { told = run(process.execPath, [process.argv[1], way, file], file, 'pipe'); }));
      keep(way, Number(told));
    }
  }
  const tell = (what, name) => {
    const beside = what === 'here' ? '' : `, ours ${(best.here / best[what]).toFixed(2)} times that`;
    console.log(`${name.padEnd(52)}${best[what].toFixed(0).padStart(9)} lines a second${beside}`);
  };
  tell('here', 'here: read, perform, write rows; whole process');
  tell('split', "node: split, a Buffer a cell; without node's start");
  tell('split, all', 'node: split, a Buffer a cell; whole process');
  tell('table', "node: a table of digits; without node's start");
  tell('table, all', 'node: a table of digits; whole process');
}

const [mode, ...words] = process.argv.slice(2);
if (mode === 'make') make();
else if (mode === 'split' && words.length === 1) split(words[0]);
else if (mode === 'table' && words.length === 1) table(words[0]);
else if (mode === 'compare' && words.length === 2) compare(...words);
else { console.error('usage: node bench/text.mjs make | split FILE | table FILE | compare PROGRAM FILE'); process.exitCode = 2; }
