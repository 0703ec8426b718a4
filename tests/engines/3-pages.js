// Property pages of the engine's own objects: their keys in the engine's order, and its descriptors.

// The 9 bytes of a stored value. The representation that was kept must be of the number that the engine has.
function storedRecord(o, key, x) {
  if (typeof x !== 'number') return bytesOf(x);
  const record = world.representations[o].get(key);
  if (!Object.is(valueOf(record), x)) throw new Error('the representation that was kept is of ' + valueOf(record) + ', and the property has ' + x);
  return record;
}

const threeDigits = (n) => String(n).padStart(3, '0');
const COLUMNS = [['key', 4], ['ecw', 3], ['value or get', 18], ['set', 18]];
const pageLine = (...cells) => cells.map((cell, i) => cell.padEnd(COLUMNS[i][1])).join(' ') + '\n';

function propertyLine(o, key, p) {
  const number = typeof key === 'string' ? world.stringNumber.get(key) : symbolNumber.get(key), cell = (x) => hexOf(storedRecord(o, key, x));
  const keyCell = (typeof key === 'string' ? 's' : 'y') + threeDigits(number), shared = (p.enumerable ? 'e' : '.') + (p.configurable ? 'c' : '.');
  return 'value' in p ? pageLine(keyCell, shared + (p.writable ? 'w' : '.'), cell(p.value), '') : pageLine(keyCell, shared + '-', cell(p.get), cell(p.set));
}

function pageText(o) {
  const { it } = world.objects[o], own = Reflect.ownKeys(it).map((key) => propertyLine(o, key, Reflect.getOwnPropertyDescriptor(it, key)));
  return pageLine(...COLUMNS.map(([name]) => name)) + own.join('');
}

const pageSize = (o) => 47 + 47 * Reflect.ownKeys(world.objects[o].it).length;

// How often a page was shown, and how often it was refused as 2, 3 and 11.
const paged = { 0: 0, 2: 0, 3: 0, 11: 0 }, pageCount = () => Object.values(paged).reduce((sum, n) => sum + n);

function page(o, room) {
  if (!isLive(o)) return refused(2);
  if (world.objects[o].proxy) return refused(3);
  const text = pageText(o);
  if (text.length > room) return refused(11);
  return { outcome: 1, numbers: 0, answers: 0, completion: '06' + hex2(text.length), output: hexOf(Array.from(text, (c) => c.charCodeAt(0))) };
}

// A page of the object whose number stands in 8 bytes.
function doPage(record, room) {
  const o = numberOf(record, 0, 8), expected = page(o, room);
  if (world.released.includes(o)) refusedReleased.page++;
  paged[expected.outcome === 1 ? 0 : 31 - Math.clz32(expected.numbers)]++;
  line(7, room, record, [], expected);
}

const objectNumber = (n) => [n & 255, n >> 8 & 255, 0, 0, 0, 0, 0, 0];
