// The work of bench/steps.rs on this engine's own objects, in ns for one turn: a name, a tab and a number for each line. For node and for jsc.
const shell = typeof process === 'undefined';
const now = shell ? () => preciseTime() * 1e9 : () => Number(process.hrtime.bigint());
const say = shell ? print : console.log;
const best = (turns, work) => {
  for (let i = 0; i < turns; i++) work();
  let least = Infinity;
  for (let round = 0; round < 40; round++) {
    const start = now();
    for (let i = 0; i < turns; i++) work();
    least = Math.min(least, (now() - start) / turns);
  }
  return least;
};
let kept;
const line = (name, turns, work) => say(`${name}\t${best(turns, () => { kept = work(); }).toFixed(1)}`);

const plain = {};
for (let i = 0; i < 17; i++) plain[`key${i}`] = i;
line('get, own property, the last of 17', 20000, () => Reflect.get(plain, 'key16', plain));

const sealed = Object.defineProperty({}, 'visits', { value: 70000, enumerable: true });
const trapped = new Proxy(sealed, { get: () => 70000 });
line('get, frozen, trap', 20000, () => Reflect.get(trapped, 'visits', trapped));

let chain = trapped;
for (let i = 0; i < 8; i++) chain = new Proxy(chain, {});
line('get, eight forwarding proxies, then the trap', 20000, () => Reflect.get(chain, 'visits', chain));

const described = new Proxy(sealed, { getOwnPropertyDescriptor: () => ({ value: 70000, writable: false, enumerable: true, configurable: false }) });
line('getOwnPropertyDescriptor trap', 20000, () => Reflect.getOwnPropertyDescriptor(described, 'visits'));

const extensible = new Proxy({}, { isExtensible: () => true });
line('isExtensible trap', 20000, () => Reflect.isExtensible(extensible));

const changing = {};
line('define, then delete', 20000, () => {
  Reflect.defineProperty(changing, 'name', { value: 1, writable: true, enumerable: true, configurable: true });
  return Reflect.deleteProperty(changing, 'name');
});

const names = Array.from({ length: 256 }, (_, i) => `key${i}`);
const target = {};
for (let i = 0; i < 144; i++) target[names[i]] = i;
const listing = new Proxy(target, { ownKeys: () => names });
line('ownKeys trap, 256 keys over 144', 300, () => Reflect.ownKeys(listing).length);

// Freezing can be done but once: 50 objects are made anew before each round's clock starts. Node's share a shape where they have 16 properties, before
// and after it; those of 144 are dictionaries.
const numbered = (count) => { const o = {}; for (let i = 0; i < count; i++) o[names[i]] = i; return o; };
const anew = (name, count) => {
  let least = Infinity;
  for (let round = 0; round < 200; round++) {
    const objects = Array.from({ length: 50 }, () => numbered(count));
    const start = now();
    for (let i = 0; i < 50; i++) kept = Object.freeze(objects[i]);
    least = Math.min(least, (now() - start) / 50);
    if (!Object.isFrozen(objects[49])) throw new Error('not frozen');
  }
  say(`${name}\t${least.toFixed(1)}`);
};
anew('freeze, 16 properties', 16);
anew('freeze, 144 properties', 144);
const few = Object.freeze(numbered(16)), many = Object.freeze(numbered(144));
line('isFrozen, 16 properties', 5000, () => Object.isFrozen(few));
line('isFrozen, 144 properties', 300, () => Object.isFrozen(many));
if (kept !== true) throw new Error('nothing was done');
