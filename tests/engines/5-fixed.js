// Calls written by hand: every message and every refusal, whatever the seed.

// A page in an output that it just fills, in one that is a byte too short and in a longer one. What it says must be what is written here.
function shows(o, lines) {
  const text = 'key  ecw value or get       set               \n' + lines.map((line) => line.padEnd(46) + '\n').join('');
  if (pageText(o) !== text) throw new Error('a page is\n' + pageText(o) + 'and not\n' + text);
  for (const room of [text.length, text.length - 1, text.length + 50]) doPage(objectNumber(o), room);
}

function refusesPage(n, record, rooms) {
  for (const room of rooms) {
    const before = paged[n];
    doPage(record, room);
    if (paged[n] !== before + 1) throw new Error('a page was not refused as ' + n);
  }
}

function fixedCalls() {
  const enter = (text) => { doEnter(text); return string(world.stringNumber.get(text)); };
  const run = (code, o, parts, answers, room) => doStep(stepBytes(Object.assign({ code, object: o }, parts)), sheetBytes(answers || []), room === undefined ? 40 : room);
  const make = (prototype) => { run(1, 0, { value: prototype || NULL }); return lastMade(); };
  const makeFunction = (prototype) => { run(16, 0, { value: prototype || NULL }); return lastMade(); };
  const proxy = (o, mask) => { run(2, o, { value: integer(mask === undefined ? 2047 : mask) }); return lastMade(); };
  const define = (o, key, descriptor, answers) => run(9, o, { key, descriptor }, answers);
  const yes = answered(boolean(true)), no = answered(boolean(false)), none = answered(UNDEFINED);

  emptied();
  const a = enter('a'), b = enter('b'), s = symbol(3), f = callable(makeFunction()), g = callable(makeFunction());
  // a base with a sealed count of 70,000, a property that is fixed but writable, and an accessor without functions; all its proxies trap all
  const o = make(), p = proxy(o);
  define(o, a, { value: integer(70000), enumerable: true, writable: false, configurable: false });
  define(o, b, { value: integer(1), writable: true, configurable: false });
  define(o, s, { get: UNDEFINED, set: UNDEFINED, configurable: false });
  const free = make(), q = proxy(free);
  define(free, a, { value: integer(1), writable: true, enumerable: true, configurable: true });
  const closed = make(object(free)), r = proxy(closed);
  define(closed, a, { value: integer(1), writable: true, enumerable: true, configurable: true });
  run(7, closed);
  // messages 1 to 31, in their order; 32 is below
  const gone = proxy(free);
  run(3, gone); run(3, gone);
  for (let code = 4; code <= 14; code++) run(code, gone, { key: code > 7 && code < 14 ? a : ZERO, value: code === 5 ? NULL : ZERO });
  for (const code of [18, 19]) for (const level of [0, 1]) run(code, gone, { value: integer(level) });
  for (const v of [integer(1), UNDEFINED, a, s, boolean(true)]) run(4, p, {}, [answered(v)]);
  run(4, r, {}, [answered(NULL)]); run(4, r, {}, [answered(object(free))]);
  run(5, r, { value: NULL }, [yes]); run(5, r, { value: object(free) }, [yes]); run(5, r, { value: NULL }, [no]);
  run(6, p, {}, [no]); run(6, r, {}, [yes]); run(6, r, {}, [no]);
  run(7, p, {}, [yes]); run(7, p, {}, [no]); run(7, r, {}, [yes]);
  run(8, p, { key: a }, [answered(NULL)]); run(8, p, { key: a }, [answered(a)]);
  run(8, p, { key: a }, [none]);
  run(8, r, { key: a }, [none]);
  run(8, p, { key: a }, [described({ value: integer(4464), enumerable: true })]); run(8, r, { key: b }, [described({ value: integer(1), configurable: true })]);
  run(8, p, { key: b }, [described({ value: integer(1), writable: false })]);
  run(8, q, { key: b }, [described({ value: integer(1) })]); run(8, q, { key: a }, [described({ value: integer(1), writable: true, enumerable: true })]);
  define(r, b, { value: integer(1), configurable: true }, [yes]); define(q, b, { configurable: false }, [yes]);
  define(p, a, { value: integer(4464) }, [yes]);
  define(q, a, { configurable: false }, [yes]);
  define(p, b, { writable: false, configurable: false }, [yes]);
  run(10, p, { key: a }, [no]); run(10, r, { key: a }, [no]);
  run(11, p, { key: a, receiver: object(p) }, [answered(integer(4464))]); run(11, p, { key: a, receiver: object(p) }, [answered(float(70000))]);
  run(11, p, { key: s }, [answered(NULL)]); run(11, p, { key: s }, [none]);
  run(12, p, { key: a, value: integer(4464), receiver: object(p) }, [yes]); run(12, p, { key: a, value: float(70000), receiver: object(p) }, [yes]);
  run(12, p, { key: s, value: NULL, receiver: object(p) }, [yes]);
  run(13, p, { key: a }, [yes]); run(13, r, { key: a }, [yes]); run(13, p, { key: a }, [no]);
  run(14, p, {}, [listed([a, b, a])]); run(14, p, {}, [listed([s, b, s])]);
  run(14, p, {}, [listed([a, s])]);
  run(14, r, {}, [listed([])]);
  run(14, r, {}, [listed([a, b])]); run(14, r, {}, [listed([a])]);
  run(8, p, { key: a }, [described({ get: integer(1) })]); run(8, p, { key: a }, [described({ set: NULL })]);
  run(8, p, { key: a }, [described({ get: f, value: NULL })]); run(8, p, { key: a }, [described({ set: UNDEFINED, writable: false })]);
  for (const v of [integer(1), NULL, object(o), f]) run(14, p, {}, [listed([a, v, a])]);
  for (const v of [integer(1), UNDEFINED, a]) run(14, p, {}, [answered(v)]);
  // SameValue: zeros of both signs, NaNs of different bits, Integer32 beside Float64
  const zero = make(), z = proxy(zero), zeros = [integer(0), float(0), float(-0), integer(1), float(1)], nans = PRIMITIVES.slice(-3);
  [integer(0), float(-0), nans[0], float(1)].forEach((v, i) => define(zero, symbol(i), { value: v, writable: false, configurable: false }));
  for (let i = 0; i < 4; i++) {
    for (const v of i === 2 ? nans : zeros) {
      run(11, z, { key: symbol(i), receiver: NULL }, [answered(v)]);
      run(12, z, { key: symbol(i), value: v, receiver: NULL }, [yes]);
      run(8, z, { key: symbol(i) }, [described({ value: v })]);
      define(z, symbol(i), { value: v }, [yes]);
      define(zero, symbol(i), { value: v });
    }
  }
  // ToBoolean of each kind of value
  const empty = enter('');
  for (const v of PRIMITIVES.concat([empty, a, s, object(o), object(p), f])) run(6, p, {}, [answered(v)]);
  // throws of each kind of value
  for (const v of PRIMITIVES.concat([a, s, object(o), object(p), f])) run(11, p, { key: a, receiver: NULL }, [thrown(v)]);
  // refusals 1 to 4
  for (const bytes of [[], stepBytes({ code: 4 }).slice(1), stepBytes({ code: 0 }), stepBytes({ code: 15 }), stepBytes({ code: 16 }), stepBytes({ code: 17, value: NULL }), stepBytes({ code: 20 }), stepBytes({ code: 4, key: a }), stepBytes({ code: 1, object: 1, value: NULL })]) doStep(bytes, [0], 9);
  run(2, o, { value: integer(2048) }); run(2, o, { value: integer(-1) }); run(2, o, { value: float(1) });
  run(4, 32); run(5, o, { value: object(200) }); run(5, o, { value: [7, 0, 0, 0, 0, 1, 0, 0, 0] });
  run(10, o, { key: string(99) }); run(10, o, { key: symbol(256) }); run(10, o, { key: NULL }); run(5, o, { value: UNDEFINED }); run(3, o); run(11, o, { key: a, receiver: callable(o) });
  enter('x'.repeat(33));
  define(o, a, { value: NULL, get: f }); define(o, a, { writable: true, set: UNDEFINED }); define(o, a, { get: object(o) }); define(o, a, { set: integer(0) });
  for (const bytes of [[], [65], [1], [1, 0], [1, 5].concat(ZERO), [1, 1].concat(ZERO, [0]), [1, 3, 1, 1].concat(ZERO), [1, 2, 64, 0].concat(ZERO, ZERO, ZERO), [1, 1, 2, 2, 0, 0, 0, 0, 0, 0, 0]]) doStep(stepBytes({ code: 4, object: o }), bytes, 0);
  for (const v of [object(77), string(77), symbol(256), callable(256)]) run(1, 0, { value: NULL }, [answered(v)]);
  // 5 and 6: descriptors by themselves
  const whole = { value: integer(1), writable: true, enumerable: true, configurable: false };
  for (const d of [{}, { value: float(-0) }, { get: f }, { set: UNDEFINED, enumerable: true }, whole, { get: f, value: NULL }]) doAlone(3, descriptorBytes(d), []);
  for (const d of [{}, { value: float(1) }, { value: float(-1) }, { get: f }, { configurable: true }, { enumerable: false }, { writable: false }]) {
    for (const now of [whole, { get: f, set: UNDEFINED, enumerable: true, configurable: true }, { value: NULL, writable: false, enumerable: false }, { enumerable: true, configurable: true }, {}]) {
      for (const kind of [4, 5, 6]) doAlone(kind, descriptorBytes(d), descriptorBytes(now));
    }
    doAlone(4, descriptorBytes(d), []); doAlone(5, descriptorBytes(d), []); doAlone(6, descriptorBytes(d), []);
  }
  // 8: a sheet that ends too soon; 9: answers in the wrong place
  run(6, p); run(11, p, { key: a }); run(11, proxy(p, 128), { key: a }, [none]);
  run(8, p, { key: a }, [answered(object(o))]); run(8, p, { key: a }, [answered(f)]); run(8, p, { key: a }, [listed([a])]);
  run(14, p, {}, [answered(object(o))]); run(14, p, {}, [described({})]); run(6, p, {}, [described({})]); run(11, p, { key: a }, [listed([])]);
  // getters and setters take an answer too, and a proxy receiver has its own define trap
  define(free, s, { get: f, set: g, configurable: true });
  run(11, free, { key: s, receiver: UNDEFINED }, [answered(float(0.5))]); run(11, closed, { key: s, receiver: object(closed) }, [thrown(a)]); run(11, free, { key: s }, [described({})]); run(11, free, { key: s });
  run(12, free, { key: s, value: NULL, receiver: UNDEFINED }, [no]); run(12, free, { key: s, value: NULL }, [listed([])]);
  run(12, free, { key: a, value: integer(2), receiver: object(q) }, [described({ value: integer(1), writable: true, enumerable: true, configurable: true }), yes]);
  run(12, free, { key: b, value: integer(2), receiver: object(q) }, [none, no]); run(12, free, { key: a, value: integer(2), receiver: a });
  // 10: a chain of prototypes that leads back to itself
  const ring = make(), back = proxy(ring, 0);
  run(5, ring, { value: object(back) });
  run(10, ring, { key: a }); run(11, back, { key: a, receiver: NULL }); run(12, ring, { key: a, value: NULL, receiver: object(ring) }); run(8, back, { key: a });
  // 11: too short an output, and one that just fits
  run(14, o, {}, [], 26); run(14, o, {}, [], 27); run(14, p, {}, [listed([a, b, s, symbol(4)])], 35); run(14, p, {}, [listed([a, b, s, symbol(4)])], 36); run(14, o, {}, [], 0);
  // indices come first, in their order; deleting and adding again moves a key last
  const keys = ['10', '4294967294', '4294967295', '01', '0', '7', '', '4294967296', '2147483648'].map(enter);
  for (const key of keys) define(free, key, { value: key, configurable: true });
  run(14, free, {}, [], 144); run(13, free, { key: a }); define(free, a, {}); run(14, free, {}, [], 144);
  // 7: the 33rd object, the 257th property, the 257th string
  while (world.live.length < FULL.objects) make();
  make(); run(2, o, { value: integer(0) });
  emptied();
  const crowd = make(), last = make();
  for (let i = 0; i < FULL.strings + 1; i++) doEnter('k' + i);
  doEnter('k255'); doEnter('k256');
  for (let i = 0; i < FULL.properties; i++) define(crowd, string(i), { configurable: true });
  define(last, string(0), { configurable: true }); define(crowd, symbol(0), { configurable: true }); define(crowd, string(0), { value: NULL });
  run(12, last, { key: string(1), value: NULL, receiver: object(last) }); run(14, crowd, {}, [], 9 * FULL.properties);
  run(13, crowd, { key: string(0) }); define(last, string(0), { configurable: true }); define(last, string(1), { configurable: true });
  run(7, last); define(last, string(1), { configurable: true });
  fixedLevels(enter, run, make, makeFunction, proxy, define);
  for (const more of [fixedFunctions, fixedFunctionAnswers, fixedFunctionRefusals, fixedValidation, fixedUnread, fixedPages, fixedNames, fixedReleaseRefusals, fixedReuse]) more(enter, run, make, makeFunction, proxy, define);
}

// Steps 18 and 19.
function fixedLevels(enter, run, make, makeFunction, proxy, define) {
  const yes = answered(boolean(true)), no = answered(boolean(false)), none = answered(UNDEFINED), SEALED = 0, FROZEN = 1;
  const set = (o, level, answers, room) => run(18, o, { value: integer(level) }, answers, room);
  const test = (o, level, answers, room) => run(19, o, { value: integer(level) }, answers, room);
  const tests = (o) => { test(o, SEALED); test(o, FROZEN); };
  const open = (n) => ({ value: integer(n), writable: true, enumerable: true, configurable: true });
  const frozen = (n) => ({ value: integer(n), writable: false, enumerable: true, configurable: false });
  const sealed = (n) => ({ value: integer(n), writable: true, enumerable: true, configurable: false });

  // a world with four strings and two functions
  const begun = () => { emptied(); const entered = ['a', 'b', 'c', '7'].map(enter); makeFunction(); makeFunction(); return entered; };
  const [a, b, c, seven] = begun(), s = symbol(3), f = callable(0), g = callable(1);
  // data and accessors: an index, a string, a symbol; open, half closed and fixed
  const filled = (o = make()) => {
    define(o, a, open(1)); define(o, s, { get: f, set: UNDEFINED, configurable: true }); define(o, seven, open(7));
    return o;
  };
  const first = filled();
  define(first, b, { value: float(-0), writable: false, configurable: true }); define(first, c, { get: UNDEFINED, set: g, configurable: false });
  tests(first); set(first, FROZEN); tests(first); set(first, FROZEN); set(first, SEALED); run(14, first); define(first, a, { value: integer(2) }); run(13, first, { key: a });
  const second = filled();
  set(second, SEALED); tests(second); run(12, second, { key: a, value: integer(2), receiver: object(second) }); run(13, second, { key: a });
  // closed, and then by hand: configurable and writable one by one
  const third = filled();
  run(7, third); tests(third); define(third, a, { configurable: false }); define(third, seven, { configurable: false }); tests(third);
  define(third, s, { configurable: false }); tests(third); define(third, a, { writable: false }); test(third, FROZEN); define(third, seven, { writable: false }); tests(third);
  // without properties
  const bare = make();
  tests(bare); run(7, bare); tests(bare); set(bare, FROZEN); tests(bare);
  const child = make(object(first));
  set(child, FROZEN); tests(child);
  // proxies that forward, over an object and over one another; a proxy with the traps that are not asked
  for (const level of [SEALED, FROZEN]) {
    const o = filled(), p = proxy(proxy(o, 0), 0);
    set(p, level); tests(p); tests(o);
  }
  begun();
  // all traps, the truth about a frozen object; and about one that is sealed
  const over = (level) => { const o = filled(); set(o, level); return proxy(o); };
  const accessor = described({ get: f, set: UNDEFINED, configurable: false }), keys = [seven, a, s];
  const p = over(FROZEN), q = over(SEALED);
  const truth = [described(frozen(7)), described(frozen(1)), accessor], truthOfSealed = [described(sealed(7)), described(sealed(1)), accessor];
  set(p, FROZEN, [yes, listed(keys), truth[0], yes, truth[1], yes, truth[2], yes]);
  set(p, FROZEN, [answered(f), listed([s, a, seven]), truth[2], answered(a), truth[1], answered(integer(1)), truth[0], answered(object(p))]);
  set(p, SEALED, [yes, listed(keys), yes, yes, yes]);
  set(q, SEALED, [yes, listed(keys), yes, yes, yes]);
  set(q, FROZEN, [yes, listed(keys), truthOfSealed[0], yes]);                             // 16: still writable
  test(p, FROZEN, [no, listed(keys)].concat(truth)); test(p, SEALED, [no, listed(keys)].concat(truth));
  test(q, FROZEN, [no, listed(keys)].concat(truthOfSealed)); test(q, SEALED, [no, listed(keys)].concat(truthOfSealed));
  test(q, FROZEN, [no, listed([s, seven, a]), accessor, described(sealed(7))]); test(q, FROZEN, [no, listed(keys), described(frozen(7))]);     // 11
  test(p, FROZEN, [yes]); test(p, FROZEN, [none, answered(a)]);                           // 5; 31
  // [[PreventExtensions]] false is a result; true over an object that is extensible is 6
  const third2 = filled(), r = proxy(third2);
  for (const level of [SEALED, FROZEN]) {
    for (const v of [boolean(false), UNDEFINED, NULL, integer(0), float(-0)]) set(r, level, [answered(v)]);
    set(r, level, [yes]); set(proxy(r, 0), level, [no, yes]); set(r, level, [thrown(a)]); set(r, level, [thrown(object(r))]); set(r, level); set(r, level, [described({})]);
    set(p, level, [no]); test(r, level, [yes]); test(r, level, [no]); test(r, level);
  }
  // each ending at each answer, over an object that is closed and open in its properties: only preventExtensions and ownKeys go through
  run(7, third2);
  for (const level of [SEALED, FROZEN]) {
    const half = [yes, listed(keys)];
    for (const list of [[seven, a], [seven, a, s, b], [seven, a, s, a], [s, a, s], [seven, integer(1), s], []]) set(r, level, [yes, listed(list)]);     // 25, 26, 22, 23, 30, 25
    set(r, level, [yes, answered(NULL)]); set(r, level, [yes, thrown(s)]); set(r, level, [yes]); set(r, level, [yes, answered(object(r))]);
    const told = level === FROZEN ? [described(open(7))] : [];
    set(r, level, half.concat(told, [yes])); set(r, level, half.concat(told, [no])); set(r, level, half.concat(told, [thrown(f)])); set(r, level, half.concat(told));     // 15, 32
    set(r, level, half.concat(told, [listed([])]));
  }
  for (const given of [none, answered(integer(1)), described({ value: integer(7), configurable: false }), described({ get: integer(1) }), described({ get: f, value: NULL }),
    described({ value: integer(8), writable: true, enumerable: false, configurable: true }), thrown(NULL), answered(object(p)), listed([])]) {
    set(r, FROZEN, [yes, listed(keys), given, no]); test(r, FROZEN, [no, listed(keys), given]); test(r, SEALED, [no, listed(keys), given]);
  }
  begun();
  // traps for the definitions alone: what was prevented stays, false at the second key is message 32 and the third key is not tried
  const D = 32, G = 16, K = 1024;
  for (const level of [SEALED, FROZEN]) {
    const o = filled(), t = proxy(o, D);
    define(o, seven, { writable: false, configurable: false });
    set(t, level, [yes, no, yes]); tests(o); run(14, o);
    const o2 = filled(), t2 = proxy(o2, D);
    define(o2, seven, { writable: false, configurable: false });
    set(proxy(t2, 0), level, [yes, answered(float(NaN))]); run(6, o2); run(8, o2, { key: a });
  }
  // a throw at the third answer, a sheet that ends there, an answer that cannot be read: the first two keep what was changed where it is a throw
  const G_ = (o, level, last) => set(proxy(o, G), level, [described(open(7)), described(open(1))].concat(last));
  const at = filled(), spent = filled(), wrong = filled();
  G_(at, FROZEN, [thrown(b)]); run(6, at); for (const key of keys) run(8, at, { key });
  G_(spent, FROZEN, []); run(6, spent); for (const key of keys) run(8, spent, { key });
  G_(wrong, FROZEN, [listed([])]); run(6, wrong); for (const key of keys) run(8, wrong, { key });
  G_(wrong, FROZEN, [none]); run(6, wrong); for (const key of keys) run(8, wrong, { key });       // 9, after two keys were fixed
  // an accessor told as data becomes data; data told as an accessor stay writable
  const lied = filled();
  G_(lied, FROZEN, [described({ value: NULL, writable: true, configurable: true })]); for (const key of keys) run(8, lied, { key });
  const lied2 = filled();
  set(proxy(lied2, G), FROZEN, [described({ get: f, configurable: true, enumerable: true }), described(open(1)), described({ set: f, configurable: true })]); for (const key of keys) run(8, lied2, { key });
  tests(lied2);
  // own keys alone: in another order, a key less, a key more; the object is closed by then
  begun();
  for (const level of [SEALED, FROZEN]) {
    const o = filled(), t = proxy(o, K);
    set(t, level, [listed(keys.concat([b]))]); run(6, o); run(8, o, { key: a });         // 26
    set(t, level, [listed([s, a])]); set(t, level, [listed([s, seven, a])]); tests(o); run(14, o);
    test(t, level, [listed([a, seven, s])]); test(t, level, [listed([a, s])]); test(t, level, [listed([a, s, seven, b])]);
  }
  // absent where the object is closed: nothing to skip, 9 where it is open in its property, 8 where it is fixed
  const e = filled(), t = proxy(e, G);
  set(t, FROZEN, [none]); run(6, e); run(8, e, { key: seven }); define(e, seven, { configurable: false }); set(t, FROZEN, [none]); test(t, FROZEN, [none]); test(t, SEALED, [none]);
  // a proxy whose target is revoked, and one revoked under a proxy that has every trap
  const gone = make(), under = proxy(gone), on = proxy(under), bareOn = proxy(under, 0);
  run(3, under);
  for (const level of [SEALED, FROZEN]) { set(on, level, [yes]); set(on, level, [no]); set(bareOn, level); test(on, level, [no]); test(bareOn, level); }
  // two proxies with every trap over a frozen object of one key
  const inner = make();
  define(inner, a, open(1)); set(inner, FROZEN);
  const one = proxy(inner), two = proxy(one), told = described(frozen(1)), list = listed([a]);
  set(two, FROZEN, [yes, no, list, no, list, told, told, told, no, yes, told, no]); set(two, SEALED, [yes, no, list, no, list, told, yes, told, no]);
  set(two, FROZEN, [yes, no, list, no, list, told, told, told, no, no, told, no]); set(two, FROZEN, [yes, yes]); set(two, FROZEN, [yes, no, list, no, list, told, told, none]);
  test(two, FROZEN, [no, no, list, no, list, told, told, told, no]); test(two, SEALED, [no, no, list, no, list, told, told, told, no]); test(two, FROZEN, [no, yes]);
  // refusals 1 to 3 of the level
  for (const code of [18, 19]) {
    for (const v of [integer(2), integer(-1), integer(256), integer(-2147483648), float(0), float(1), UNDEFINED, NULL, boolean(true), a, s, f, object(inner), object(99), string(99), symbol(256), callable(256)]) run(code, inner, { value: v });
    for (const part of [{ key: a }, { receiver: NULL }, { descriptor: { enumerable: false } }]) run(code, inner, Object.assign({ value: integer(1) }, part));
    run(code, 77, { value: integer(0) }); run(code, 77, { value: integer(2) }); run(code, 77, { value: NULL }); run(code, inner, { value: integer(1), key: NULL });
  }
  for (const code of [15, 16, 17, 20, 255]) { run(code, inner, {}); run(code, inner, { value: integer(0) }); }
  run(18, inner, { value: integer(1) }, [answered(object(77))]); run(19, inner, { value: integer(0) }, [answered(string(77))]);
  doStep(stepBytes({ code: 18, object: inner, value: integer(0) }), [], 0); doStep(stepBytes({ code: 19, object: inner, value: integer(0) }), [65], 0);
  // the output is not used
  set(inner, FROZEN, [], 0); test(inner, SEALED, [], 0); set(inner, SEALED, [], 9);
  // many keys
  emptied();
  makeFunction();
  const crowd = make();
  for (let i = 0; i < FULL.strings; i++) doEnter('k' + i);
  for (let i = 0; i < FULL.properties; i++) define(crowd, string(i), i % 5 === 0 ? { get: f, configurable: true } : open(i));
  test(crowd, SEALED); set(crowd, SEALED); tests(crowd); set(proxy(crowd, 0), FROZEN); tests(crowd); run(14, crowd, {}, [], 9 * FULL.properties);
  // the largest page, 12,079 bytes
  shows(crowd, Array.from({ length: FULL.properties }, (_, i) => 's' + threeDigits(i) + (i % 5 === 0 ? ' ..- 08' + '0'.repeat(16) + ' ' + '0'.repeat(18) : ' e.. 03' + HEX[i] + '0'.repeat(14))));
  refusesPage(11, objectNumber(crowd), [0, 47, 4096, 12078]);
}

// Step 16, and functions as operands, prototypes, receivers, getters and setters.
function fixedFunctions(enter, run, make, makeFunction, proxy, define) {
  const yes = answered(boolean(true)), no = answered(boolean(false)), none = answered(UNDEFINED), s = symbol(3), t = symbol(4);
  const open = (value) => ({ value, writable: true, enumerable: true, configurable: true });
  const fixed = (value) => ({ value, writable: false, enumerable: true, configurable: false });

  // made: over null, a function, an object, a proxy; without properties
  emptied();
  const [a, b, length, name, seven] = ['a', 'b', 'length', 'name', '7'].map(enter);
  const f = makeFunction(), o = make(), p = proxy(o), F = callable(f), O = object(o), P = object(p);
  const g = makeFunction(F), h = makeFunction(O), i = makeFunction(P), G = callable(g), H = callable(h);
  for (const n of [f, g, h]) {
    run(4, n); run(6, n); run(14, n);
    for (const key of [length, name, a]) { run(8, n, { key }); run(10, n, { key }); run(11, n, { key, receiver: named(n) }); }
  }
  run(4, i); run(10, i, { key: a }, [yes]); run(11, i, { key: a, receiver: callable(i) }, [answered(F)]); run(12, i, { key: a, value: F, receiver: callable(i) }, [no]);
  run(16, 0, { value: NULL }, [answered(F), thrown(O)], 9);
  // an operand like an ordinary object: keys in their order, validation, deletion
  define(f, a, open(integer(1))); define(f, s, open(F)); define(f, length, { value: integer(2), configurable: true }); define(f, seven, fixed(integer(7)));
  define(f, name, { get: F, set: G, configurable: true }); define(f, b, {});
  run(14, f, {}, [], 60); run(13, f, { key: length }); define(f, length, open(G)); run(14, f, {}, [], 60);
  for (const key of [a, s, length, seven, name, b, t]) { run(8, f, { key }); run(10, f, { key }); run(11, f, { key, receiver: F }, [answered(H)]); run(13, g, { key }); }
  define(f, seven, { value: integer(8) }); define(f, seven, { value: float(7) }); run(13, f, { key: seven }); run(13, f, { key: b }); define(f, a, { get: G }); define(f, a, open(G)); define(f, a, { enumerable: false });
  run(12, f, { key: a, value: H, receiver: F }); run(12, f, { key: t, value: O, receiver: F }); run(12, f, { key: seven, value: NULL, receiver: F });
  // a prototype: what it has is inherited; a cycle through functions is a false of [[SetPrototypeOf]]
  const child = make(F), grandchild = make(object(child));
  for (const n of [g, child, grandchild]) {
    run(4, n);
    for (const key of [a, s, name, t, symbol(9)]) {
      run(10, n, { key }); run(11, n, { key, receiver: named(n) }, [answered(F)]); run(12, n, { key, value: G, receiver: named(n) }, [none]);
    }
    run(14, n);
  }
  run(5, o, { value: F }); run(4, o); for (const value of [F, object(child), G, O]) run(5, f, { value });
  run(5, g, { value: H }); run(5, o, { value: NULL }); run(5, h, { value: G }); run(5, h, { value: NULL });
  // a receiver, of getters and of what [[Set]] ends on: its own [[GetOwnProperty]] and [[DefineOwnProperty]]
  const r = makeFunction(), R = callable(r), q = proxy(o, 0), shut = makeFunction(), SHUT = callable(shut);
  run(7, shut); run(6, shut); define(r, b, fixed(NULL)); define(r, name, { get: F, configurable: true });
  define(o, b, open(NULL)); define(o, name, open(NULL)); define(o, s, { get: G, set: H, configurable: true });
  for (const n of [o, q, f, g]) {
    for (const key of [a, b, name, s]) {
      run(11, n, { key, receiver: R }, [answered(F)]); run(12, n, { key, value: integer(5), receiver: R }, [none]); run(12, n, { key, value: F, receiver: SHUT }, [yes]); run(13, r, { key: a });
    }
  }
  run(12, f, { key: t, value: integer(1), receiver: O }); run(12, f, { key: t, value: integer(1), receiver: P }, [none, yes]); run(12, f, { key: t, value: F, receiver: P }, [described(open(NULL)), no]);
  run(12, p, { key: t, value: F, receiver: R }, [yes]); run(11, p, { key: t, receiver: R }, [answered(R)]); run(12, f, { key: symbol(8), value: F, receiver: G }); run(8, g, { key: symbol(8) });
  // a getter and a setter: each takes an answer of any kind, or a throw, and changes nothing
  for (const v of [F, G, O, P, integer(1), a, s, UNDEFINED]) {
    run(11, o, { key: s, receiver: F }, [answered(v)]); run(11, o, { key: s, receiver: O }, [thrown(v)]);
    run(12, o, { key: s, value: v, receiver: F }, [answered(v)]); run(12, o, { key: s, value: F, receiver: UNDEFINED }, [thrown(v)]);
  }
  for (const given of [[], [described({})], [listed([F])]]) { run(11, o, { key: s, receiver: F }, given); run(12, o, { key: s, value: F, receiver: F }, given); }
  define(f, symbol(5), { get: F, set: F, configurable: true }); run(11, f, { key: symbol(5), receiver: F }, [answered(F)]); run(12, f, { key: symbol(5), value: F, receiver: F }, [thrown(F)]);
  // levels
  const whole = makeFunction(O), W = callable(whole), levels = (code, n) => { for (const level of [0, 1]) run(code, n, { value: integer(level) }); };
  define(whole, length, open(W)); define(whole, name, { get: W, configurable: true }); define(whole, a, { value: F, configurable: false, writable: true }); define(whole, s, open(O));
  levels(19, whole);
  for (const level of [0, 1]) { run(18, whole, { value: integer(level) }); levels(19, whole); run(14, whole); }
  levels(18, shut); levels(19, shut); run(12, whole, { key: a, value: G, receiver: W }); run(13, whole, { key: s }); run(5, whole, { value: NULL }); run(5, whole, { value: O }); define(whole, t, {});
}

// Functions as answers.
function fixedFunctionAnswers(enter, run, make, makeFunction, proxy, define) {
  const yes = answered(boolean(true)), no = answered(boolean(false)), s = symbol(3);
  const open = (value) => ({ value, writable: true, enumerable: true, configurable: true });
  const fixed = (value) => ({ value, writable: false, enumerable: true, configurable: false });

  emptied();
  const a = enter('a'), b = enter('b'), length = enter('length');
  const f = makeFunction(), g = makeFunction(), F = callable(f), G = callable(g), o = make(F), p = proxy(o), shut = make(F), z = proxy(shut), O = object(o), P = object(p);
  define(o, a, fixed(F)); define(o, b, { value: F, writable: true, configurable: true }); define(o, s, { get: F, set: UNDEFINED, configurable: false });
  define(shut, a, open(F)); run(7, shut);
  for (const n of [p, z]) {
    for (const v of [F, G, O, P, NULL, UNDEFINED, integer(1), boolean(true), a, s]) run(4, n, {}, [answered(v)]);              // 2; 3 over the closed one
    for (const value of [F, G, O, NULL]) { run(5, n, { value }, [answered(F)]); run(5, n, { value }, [no]); }                  // 4
    run(6, n, {}, [answered(F)]); run(7, n, {}, [answered(F)]); run(10, n, { key: a }, [answered(F)]); run(13, n, { key: a }, [answered(F)]); run(13, n, { key: b }, [answered(G)]);
    for (const key of [a, b]) {
      for (const v of [F, G, O, UNDEFINED]) {
        run(11, n, { key, receiver: F }, [answered(v)]); run(12, n, { key, value: v, receiver: F }, [answered(F)]);
        run(8, n, { key }, [described(fixed(v))]); define(n, key, { value: v }, [answered(G)]);
      }
    }
    for (const d of [{ get: F }, { get: G }, { set: F }, { get: F, set: UNDEFINED }]) { run(8, n, { key: s }, [described(d)]); define(n, s, d, [answered(F)]); }
    for (const d of [{ get: O }, { set: P }, { get: F, value: F }, { set: F, writable: true }]) run(8, n, { key: s }, [described(d)]);       // 27, 28, 29, 29
    for (const v of [F, O]) {
      run(8, n, { key: a }, [answered(v)]); run(14, n, {}, [answered(v)]);                                                     // 9
      run(14, n, {}, [listed([a, v, a])]); run(14, n, {}, [listed([v])]);                                                      // 30
    }
    for (let code = 4; code <= 14; code++) {
      run(code, n, { key: code > 7 && code < 14 ? a : ZERO, value: code === 5 || code === 12 ? F : ZERO, receiver: code === 11 || code === 12 ? G : ZERO }, [thrown(code % 2 ? F : G)]);
    }
    for (const code of [18, 19]) for (const v of [F, P]) { run(code, n, { value: integer(1) }, [answered(v)]); run(code, n, { value: integer(0) }, [thrown(v)]); }
  }
  // a step 18 that is refused midway: functions and what they hold come back; then one that ends in a TypeError
  const k = proxy(o, 32 + 1024);
  define(f, a, open(G)); define(f, length, { get: F, configurable: true }); run(7, g);
  run(18, k, { value: integer(1) }, [answered(F)]); run(6, o); run(18, k, { value: integer(0) }, [listed([a, b, s]), yes]); run(6, o); run(18, k, { value: integer(1) }, [listed([a, F])]); run(6, o);
  for (const n of [f, g]) { run(4, n); run(6, n); run(8, n, { key: a }); run(14, n); }
  run(11, f, { key: length, receiver: F }, [answered(G)]);
  // 10: a ring of prototypes through a function
  const ring = makeFunction(), under = make(callable(ring)), back = proxy(under, 0);
  run(5, ring, { value: object(back) }); run(4, ring); run(8, ring, { key: a });
  run(10, ring, { key: a }); run(11, under, { key: a, receiver: callable(ring) }); run(12, back, { key: a, value: F, receiver: callable(ring) });
}

// Refusals of step 16, and of functions in every place.
function fixedFunctionRefusals(enter, run, make, makeFunction, proxy, define) {
  const yes = answered(boolean(true)), s = symbol(3);

  emptied();
  const a = enter('a'), f = makeFunction(), F = callable(f), o = make(), p = proxy(o), O = object(o), P = object(p), far = [8, 0, 0, 0, 0, 1, 0, 0, 0];
  // what is no prototype
  for (const value of [UNDEFINED, boolean(false), integer(0), float(1), a, s, [9, 0, 0, 0, 0, 0, 0, 0, 0], [1, 0, 0, 0, 0, 0, 0, 0, 1], object(f), callable(o), callable(p), object(99), callable(99), callable(256), far]) {
    run(1, 0, { value }); run(16, 0, { value }); run(5, o, { value }); run(5, f, { value });
  }
  run(16, 1, { value: NULL }); run(16, 99, { value: callable(99) }); for (const part of [{ key: a }, { receiver: F }, { descriptor: { get: F } }]) run(16, 0, Object.assign({ value: NULL }, part));
  // each part under the wrong kind, and with a number that was never made; the first refusal counts
  const whole = { value: F, writable: true, enumerable: true, configurable: true };
  for (const v of [object(f), callable(o), callable(p), object(3), callable(3), callable(255), callable(256), far]) {
    run(10, o, { key: v }); run(11, o, { key: a, receiver: v }); run(12, f, { key: a, value: v, receiver: F }); run(12, f, { key: string(99), value: F, receiver: v });
    run(18, f, { value: v }); run(2, o, { value: v });
    for (const d of [{ value: v }, { get: v }, { set: v, get: F }, { value: F, get: v }]) define(f, s, d);
    for (const given of [answered(v), thrown(v), listed([a, v]), described({ value: v }), described({ get: v }), described({ get: O, set: v })]) {
      run(6, f, {}, [given]); run(6, p, {}, [yes, given]); run(16, 0, { value: NULL }, [given]); run(10, o, { key: string(99) }, [given]);
    }
    for (const d of [{ value: v }, { get: v }, { set: v, value: NULL }]) {
      doAlone(3, descriptorBytes(d), []);
      for (const kind of [4, 5, 6]) {
        doAlone(kind, descriptorBytes(d), descriptorBytes(whole)); doAlone(kind, descriptorBytes(whole), descriptorBytes(Object.assign({ enumerable: true, configurable: true }, d)));
      }
    }
  }
  define(f, s, { get: O }); define(f, s, { set: P }); define(f, s, { get: F, value: F });                                      // 4
  // a proxy over a function, and revoking one
  for (const value of [integer(0), integer(2047), integer(2048), NULL]) run(2, f, { value });
  run(2, 99, { value: integer(0) }); run(3, f); run(3, o); run(3, 99);
  // descriptors by themselves
  for (const d of [{ value: F }, { value: O }, { get: F }, { set: F }, {}]) {
    doAlone(3, descriptorBytes(d), []);
    for (const now of [whole, { value: F, writable: false, enumerable: true, configurable: false }, { get: F, set: UNDEFINED, enumerable: false, configurable: false }, { get: UNDEFINED, set: F, enumerable: true, configurable: true }]) {
      for (const kind of [4, 5, 6]) doAlone(kind, descriptorBytes(d), descriptorBytes(now));
    }
  }
  // 7: functions count among the 32
  while (world.live.length < FULL.objects) makeFunction(F);
  for (const value of [NULL, callable(31), callable(32)]) { run(1, 0, { value }); run(16, 0, { value }); }
  run(2, o, { value: integer(0) }); run(2, 31, { value: integer(0) }); run(4, 31);
}

// Validation by itself: each number, alone and with tests after it that fail too, and refusals. The number that the engine tells must be the one here.
function fixedValidation(enter, run, make, makeFunction) {
  emptied();
  const f = callable(makeFunction()), g = callable(makeFunction()), closed = 4, open = 5, bytes = (d) => (d === undefined ? [] : descriptorBytes(d));
  const data = { value: integer(0), writable: false, enumerable: false, configurable: false };
  const accessor = { get: f, set: f, enumerable: true, configurable: false };
  const ends = (number, kind, d, now) => {
    const before = ended[number];
    doAlone(kind, bytes(d), bytes(now));
    if (ended[number] !== before + 1) throw new Error('validation ended otherwise than in ' + number);
  };

  ends(0, open, data); ends(0, open, {}); ends(0, open, {}, data); ends(0, closed, {}, data); ends(0, closed, data, data); ends(0, closed, accessor, accessor);
  ends(0, closed, { value: float(0), writable: false }, data); ends(0, open, { enumerable: false, configurable: false }, data);
  ends(0, closed, { set: f }, accessor);
  ends(1, closed, {}); ends(1, closed, data); ends(1, closed, accessor); ends(1, closed, { configurable: true });
  ends(2, open, { configurable: true }, data); ends(2, closed, { configurable: true, enumerable: true, get: f }, data);
  ends(2, closed, { configurable: true, enumerable: true, writable: true, value: NULL }, data);
  ends(2, open, { configurable: true, enumerable: false, get: g, set: g }, accessor);
  ends(3, open, { enumerable: true }, data); ends(3, open, { enumerable: false }, accessor);
  ends(3, closed, { enumerable: true, configurable: false, set: UNDEFINED }, data); ends(3, open, { enumerable: true, writable: true, value: NULL }, data);
  ends(3, open, { enumerable: false, get: g, set: g }, accessor);
  ends(4, open, { get: UNDEFINED }, data); ends(4, closed, { set: f, enumerable: false }, data); ends(4, open, { writable: false }, accessor);
  ends(4, open, { value: UNDEFINED, configurable: false }, accessor); ends(4, open, { value: f, writable: true }, accessor);
  ends(5, open, { get: g }, accessor); ends(5, open, { get: UNDEFINED, set: f }, accessor);
  ends(5, closed, { get: g, set: g, enumerable: true, configurable: false }, accessor);
  ends(6, open, { set: g }, accessor); ends(6, closed, { get: f, set: UNDEFINED }, accessor); ends(6, open, { get: f, set: g, enumerable: true }, accessor);
  ends(7, open, { writable: true }, data); ends(7, open, { writable: true, value: float(0) }, data);
  ends(7, closed, { writable: true, value: integer(1) }, data);
  ends(8, open, { value: integer(1) }, data); ends(8, open, { value: float(-0) }, data);
  ends(8, closed, { value: f, writable: false, enumerable: false, configurable: false }, data);
  // of a property that is configurable, or writable, no such test is made
  for (const now of [data, accessor].map((d) => Object.assign({}, d, { configurable: true }))) {
    ends(0, closed, { configurable: true }, now); ends(0, closed, { enumerable: true }, now); ends(0, closed, { enumerable: false }, now);
    for (const d of [{ get: g }, { set: g }, { writable: true }, { value: integer(1) }]) ends(0, closed, d, now);
  }
  const writable = Object.assign({}, data, { writable: true });
  for (const d of [{ value: integer(1) }, { writable: true }, { writable: false, value: float(-0) }]) ends(0, closed, d, writable);
  // refused as 1 to 5, each where a test would fail
  const unmade = { get: callable(99), configurable: true }, misnamed = { value: object(0), configurable: true };
  for (const d of [[1], bytes(unmade), bytes(misnamed), bytes({ get: f, value: NULL, configurable: true })]) {
    doAlone(closed, d, []); doAlone(open, d, bytes(data));
  }
  doAlone(open, bytes({ configurable: true }), bytes({ configurable: false }));
}

// Sheets with unread answers: every code and every ending; the refusals that come before 13, and 11, which comes after it.
function fixedUnread(enter, run, make, makeFunction, proxy, define) {
  const yes = answered(boolean(true)), no = answered(boolean(false)), s = symbol(3), all = (n) => Array.from({ length: n }, () => yes);
  const open = (value) => ({ value, writable: true, enumerable: true, configurable: true });

  emptied();
  const a = enter('a'), b = enter('b'), f = makeFunction(), F = callable(f), o = make(), p = proxy(o), bare = proxy(o, 0), gone = proxy(o);
  define(o, a, { value: integer(70000), enumerable: true, writable: false, configurable: false }); define(o, s, { get: F, set: F, configurable: true });
  run(3, gone);
  for (const rest of [[yes], [thrown(a)], [listed([a]), described({ value: a })], [answered(F), thrown(object(p)), no]]) {
    const more = (...answers) => answers.concat(rest);
    // nothing is asked for: what makes, what revokes, and every method over an ordinary object, a function and a proxy without traps
    run(1, 0, { value: NULL }, rest); run(16, 0, { value: F }, rest); run(2, o, { value: integer(2047) }, rest); run(3, proxy(o), {}, rest); run(3, gone, {}, rest);
    for (const n of [o, f, bare]) {
      for (const code of [4, 6, 14]) run(code, n, {}, rest);
      for (const code of [8, 10, 13]) run(code, n, { key: a }, rest);
      for (const value of [NULL, F]) run(5, n, { value }, rest);
      run(9, n, { key: a, descriptor: { value: integer(4464) } }, rest); run(9, n, { key: b, descriptor: open(a) }, rest); run(13, n, { key: b }, rest);
      run(11, n, { key: a, receiver: F }, rest); run(12, n, { key: a, value: F, receiver: named(n) }, rest); run(12, n, { key: b, value: F, receiver: named(n) }, rest);
      for (const level of [0, 1]) run(19, n, { value: integer(level) }, rest);
    }
    // a result, a TypeError and a throw; a getter and a setter
    run(11, p, { key: a, receiver: NULL }, more(answered(float(70000)))); run(11, p, { key: a, receiver: NULL }, more(answered(integer(4464)))); run(11, p, { key: a }, more(thrown(F)));
    run(4, p, {}, more(answered(a))); run(6, p, {}, more(no)); run(8, p, { key: b }, more(answered(UNDEFINED))); run(8, p, { key: a }, more(answered(UNDEFINED)));
    run(11, o, { key: s, receiver: NULL }, more(yes)); run(12, o, { key: s, value: a, receiver: NULL }, more(no)); run(12, o, { key: s, value: a, receiver: NULL }, more(thrown(a)));
    for (let code = 4; code <= 14; code++) run(code, gone, { key: code > 7 && code < 14 ? a : ZERO, value: code === 5 ? NULL : ZERO }, rest);
    // 9 keeps its number; 8 has nothing unread; 13 comes before 11
    run(8, p, { key: a }, more(listed([a]))); run(14, p, {}, more(described({}))); run(11, p, { key: a }); run(11, p, { key: a }, []);
    run(14, o, {}, rest, 17); run(14, o, {}, rest, 18); run(14, o, {}, rest, 0); run(14, p, {}, more(listed([s, a])), 17); run(14, p, {}, more(listed([a, s])), 18); run(14, p, {}, more(listed([b, b])), 0);
    // 1 to 4, over the step and over the sheet
    run(4, 99, {}, rest); run(10, o, { key: NULL }, rest); run(9, o, { key: a, descriptor: { get: F, value: NULL } }, rest); run(6, o, {}, more(answered(object(99)))); run(6, o, {}, more(answered(string(99))));
  }
  // as many as a sheet holds, and one too many
  run(6, o, {}, all(FULL.answers)); run(6, p, {}, all(FULL.answers)); run(6, p, {}, all(2)); run(6, p, {}, all(1)); doStep(stepBytes({ code: 6, object: o }), [65], 0);
  // 10: a ring of prototypes
  const ring = make(), back = proxy(ring, 0);
  run(5, ring, { value: object(back) }, [yes]); run(10, ring, { key: a }, [yes]); run(11, back, { key: a, receiver: NULL }, all(3)); run(8, back, { key: a }, [yes]);
  // step 18: what it changed comes back, whatever it would have ended in; then it is changed
  emptied();
  const [c, d] = ['c', 'd'].map(enter);
  for (const level of [0, 1]) {
    const filled = (mask) => { const n = make(); define(n, c, open(integer(1))); define(n, s, open(integer(2))); return proxy(n, mask); };
    const set = (n, answers) => { run(18, n, { value: integer(level) }, answers); run(19, n, { value: integer(level) }, mayAsk(n) ? [] : [yes]); };
    const mayAsk = (n) => world.objects[n].proxy && world.objects[n].mask !== 0;
    const plain = filled(0), lists = filled(1024), defines = filled(32);
    set(plain, [yes]); set(plain, all(7));
    set(lists, [listed([c, s, d]), no]);                                                 // 26
    set(lists, [thrown(c), yes]); set(lists, [listed([s, c]), yes]);
    set(defines, [no, yes]);                                                             // 32
    set(defines, [thrown(s), answered(a)]);
    run(18, make(), { value: integer(level) }, [thrown(c)]); run(18, makeFunction(), { value: integer(level) }, [yes, no]);
    run(18, lists, { value: integer(level) }, [yes, no]);                                // 9
    run(7, make(), {}, [yes]); run(7, filled(0), {}, all(2)); run(7, filled(8), {}, [no, yes]); run(7, filled(8), {}, [yes, yes]);
  }
  // 7: the 33rd object, the 257th property
  while (world.live.length < FULL.objects) make();
  run(1, 0, { value: NULL }, [yes]); run(16, 0, { value: NULL }, all(2)); run(2, 0, { value: integer(0) }, [thrown(c)]);
  emptied();
  const crowd = make(), last = make();
  for (let i = 0; i < FULL.strings; i++) doEnter('k' + i);
  for (let i = 0; i < FULL.properties; i++) define(crowd, string(i), { configurable: true });
  define(last, string(0), { configurable: true }, [yes]); run(12, last, { key: string(1), value: NULL, receiver: object(last) }, all(2)); define(crowd, string(0), { value: NULL }, [yes]); run(14, crowd, {}, [yes], 9 * FULL.properties);
  shows(last, []);
}

// Property pages.
function fixedPages(enter, run, make, makeFunction, proxy, define) {
  const yes = answered(boolean(true)), no = answered(boolean(false)), none = answered(UNDEFINED);
  const open = (value) => ({ value, writable: true, enumerable: true, configurable: true });
  const fixed = (value) => ({ value, writable: false, enumerable: true, configurable: false });
  const set = (o, key, value, receiver, answers) => run(12, o, { key, value, receiver: named(receiver) }, answers);
  const nothing = '0'.repeat(18), undefinedLines = (keys) => keys.map((key) => key + ' .c. ' + nothing);

  // 2: an empty store
  emptied();
  refusesPage(2, objectNumber(0), [0, 46, 47, 100]);
  // an object without properties; outputs that are too short
  const [a, b, c] = ['a', 'b', 'c'].map(enter), bare = make();
  shows(bare, []);
  refusesPage(11, objectNumber(bare), [0, 1, 46]);
  // each combination of attributes
  const attributes = make(), truths = [false, true];
  let n = 0;
  for (const enumerable of truths) for (const configurable of truths) for (const writable of truths) define(attributes, symbol(n++), { value: NULL, enumerable, configurable, writable });
  shows(attributes, ['...', '..w', '.c.', '.cw', 'e..', 'e.w', 'ec.', 'ecw'].map((cell, i) => 'y00' + i + ' ' + cell + ' 010000000000000000'));
  // accessors: no function, a getter, a setter, both, one function as both
  const f = makeFunction(), F = callable(f), G = callable(makeFunction()), accessors = make();
  define(accessors, a, { get: UNDEFINED, configurable: true }); define(accessors, b, { get: F }); define(accessors, c, { set: G, enumerable: true });
  define(accessors, symbol(1), { get: F, set: G, enumerable: true, configurable: true }); define(accessors, symbol(0), { get: G, set: G });
  shows(accessors, ['s000 .c- ' + nothing + ' ' + nothing, 's001 ..- 080200000000000000 ' + nothing, 's002 e.- ' + nothing + ' 080300000000000000', 'y001 ec- 080200000000000000 080300000000000000', 'y000 ..- 080300000000000000 080300000000000000']);
  // data in the place of an accessor, and an accessor in the place of data: where the first was
  define(accessors, a, { value: a }); define(accessors, symbol(1), { writable: true }); define(attributes, symbol(3), { set: F });
  shows(accessors, ['s000 .c. 050000000000000000', 's001 ..- 080200000000000000 ' + nothing, 's002 e.- ' + nothing + ' 080300000000000000', 'y001 ecw ' + nothing, 'y000 ..- 080300000000000000 080300000000000000']);
  shows(attributes, ['...', '..w', '.c.'].map((cell, i) => 'y00' + i + ' ' + cell + ' 010000000000000000').concat(['y003 .c- ' + nothing + ' 080200000000000000'], ['e..', 'e.w', 'ec.', 'ecw'].map((cell, i) => 'y00' + (i + 4) + ' ' + cell + ' 010000000000000000')));
  // values of each kind; numbers keep their representation, and a NaN is one
  const p = proxy(bare), values = make();
  [UNDEFINED, NULL, boolean(false), boolean(true), integer(70000), integer(-1), integer(-2147483648), float(0.5), float(-0), float(70000), float(-Infinity), [4, 1, 0, 0, 0, 0, 0, 0xf0, 0xff], b, symbol(200), object(values), object(p), F]
    .forEach((value, i) => define(values, symbol(i), { value }));
  shows(values, ['00', '01', '0200', '0201', '0370110100', '03ffffffff', '0300000080', '04000000000000e03f', '040000000000000080', '04000000000017f140', '04000000000000f0ff', '04000000000000f87f', '0501', '06c8', '0706', '0705', '0802']
    .map((bytes, i) => 'y' + threeDigits(i) + ' ... ' + bytes.padEnd(18, '0')));
  // an equal number of the other representation is stored where the property is not fixed: by a definition, by [[Set]], through a proxy without traps
  const numbers = make(), through = proxy(proxy(numbers, 0), 0);
  define(numbers, a, open(integer(1))); shows(numbers, ['s000 ecw 030100000000000000']);
  define(numbers, a, { value: float(1) }); shows(numbers, ['s000 ecw 04000000000000f03f']);
  set(numbers, a, integer(1), numbers); shows(numbers, ['s000 ecw 030100000000000000']);
  set(through, a, float(1), through); shows(numbers, ['s000 ecw 04000000000000f03f']);
  define(through, a, { value: integer(1), configurable: false }); shows(numbers, ['s000 e.w 030100000000000000']);
  define(numbers, a, { value: float(1), writable: false }); shows(numbers, ['s000 e.. 04000000000000f03f']);
  // it stays as it was where the property is fixed; and where a definition is rejected, a trap answers, or a definition has no value
  define(numbers, a, { value: integer(1) }); define(numbers, a, fixed(integer(1))); define(through, a, { value: integer(1) }); set(numbers, a, integer(1), numbers); define(numbers, a, { value: integer(2) });
  shows(numbers, ['s000 e.. 04000000000000f03f']);
  define(numbers, b, open(integer(0))); const traps = proxy(numbers, 32 + 256), defines = proxy(numbers, 32);
  define(numbers, b, { value: float(-0) }); shows(numbers, ['s000 e.. 04000000000000f03f', 's001 ecw 040000000000000080']);
  define(numbers, b, { value: float(0) }); define(traps, b, { value: integer(0) }, [yes]); define(traps, b, { value: integer(0) }, [no]); set(traps, b, integer(0), traps, [yes]); set(defines, b, integer(0), defines, [yes]);
  define(numbers, b, { enumerable: false }); set(numbers, b, integer(0), p, [none, yes]);
  shows(numbers, ['s000 e.. 04000000000000f03f', 's001 .cw 040000000000000000']);
  // 3: a proxy, over an object and over a proxy; a revoked one; before 11
  const gone = proxy(bare);
  run(3, gone);
  for (const o of [p, through, traps, gone]) refusesPage(3, objectNumber(o), [0, 46, 47, 500]);
  // 2: numbers never made, with the low bytes of one that is; before 11
  const count = world.objects.length, beside = (at, byte) => { const bytes = objectNumber(values); bytes[at] = byte; return bytes; };
  for (const record of [objectNumber(count), objectNumber(31), objectNumber(32), objectNumber(255), beside(1, 1), beside(2, 1), beside(3, 128), beside(4, 1), beside(7, 1), beside(7, 128), Array(8).fill(255)]) refusesPage(2, record, [0, 47, 1000]);

  // array indices ascending, other strings and then symbols by creation: not by their numbers
  emptied();
  const keys = ['10', 'b', '9', 'a', '4294967294', '4294967295', '01', '0', ''].map(enter), [ten, bee, nine] = keys, order = make();
  for (const i of [5, 4, 3, 0, 6, 1, 2, 8, 7]) { define(order, symbol(20 - i), { configurable: true }); define(order, keys[i], { configurable: true }); }
  const ordered = ['s007', 's002', 's000', 's004', 's005', 's003', 's006', 's001', 's008', 'y015', 'y016', 'y017', 'y020', 'y014', 'y019', 'y018', 'y012', 'y013'];
  shows(order, undefinedLines(ordered));
  // a key that is defined or set again keeps its place; one that was deleted comes last among its kind, an index back to where it was
  define(order, bee, { value: NULL }); define(order, symbol(15), { get: UNDEFINED }); define(order, nine, { configurable: true });
  const redefined = (lines) => lines.map((line) => (line.startsWith('s001') ? 's001 .c. 010000000000000000' : line.startsWith('y015') ? 'y015 .c- ' + nothing + ' ' + nothing : line));
  shows(order, redefined(undefinedLines(ordered)));
  for (const key of [bee, symbol(15), nine]) run(13, order, { key });
  const without = ordered.filter((key) => !['s001', 'y015', 's002'].includes(key));
  shows(order, undefinedLines(without));
  for (const key of [nine, symbol(15), bee]) define(order, key, { configurable: true });
  shows(order, undefinedLines(['s007', 's002', 's000', 's004', 's005', 's003', 's006', 's008', 's001', 'y016', 'y017', 'y020', 'y014', 'y019', 'y018', 'y012', 'y013', 'y015']));
  // a function: without properties, and with what a script's function has
  const [length, name] = ['length', 'name'].map(enter), g = makeFunction();
  shows(g, []);
  define(g, length, { value: integer(2), configurable: true }); define(g, name, { value: bee, configurable: true }); define(g, ten, { get: callable(g), enumerable: true });
  shows(g, ['s000 e.- 080100000000000000 ' + nothing, 's009 .c. 030200000000000000', 's010 .c. 050100000000000000']);
  refusesPage(11, objectNumber(g), [0, 47, 94, 141, 187]);
  // closed, sealed, frozen: also through a proxy, and not where the step is refused
  const level = (l) => {
    const o = make(object(order));
    define(o, length, open(integer(7))); define(o, bee, { get: callable(g), set: UNDEFINED, enumerable: true, configurable: true }); define(o, symbol(255), open(float(7)));
    if (l < 0) run(7, o); else run(18, proxy(o, 0), { value: integer(l) });
    return o;
  };
  shows(level(-1), ['s009 ecw 030700000000000000', 's001 ec- 080100000000000000 ' + nothing, 'y255 ecw 040000000000001c40']);
  shows(level(0), ['s009 e.w 030700000000000000', 's001 e.- 080100000000000000 ' + nothing, 'y255 e.w 040000000000001c40']);
  const frozen = level(1), cold = ['s009 e.. 030700000000000000', 's001 e.- 080100000000000000 ' + nothing, 'y255 e.. 040000000000001c40'];
  shows(frozen, cold);
  define(frozen, length, { value: float(7) }); define(frozen, length, { value: integer(8) }); set(frozen, bee, NULL, frozen); run(13, frozen, { key: bee }); define(frozen, nine, {}); run(18, frozen, { value: integer(1) });
  shows(frozen, cold);
  const half = make(), lists = proxy(half, 1024);
  define(half, ten, open(integer(10))); run(18, lists, { value: integer(1) }, [yes]); shows(half, ['s000 ecw 030a00000000000000']);
  run(18, lists, { value: integer(1) }, [listed([ten]), no]); shows(half, ['s000 e.. 030a00000000000000']);
  // what is inherited is not shown, and a page of another object stays
  const heir = make(object(order));
  set(heir, ten, integer(5), heir); shows(heir, []); define(heir, nine, open(integer(5))); shows(heir, ['s002 ecw 030500000000000000']); set(heir, nine, float(5), half); shows(heir, ['s002 ecw 030500000000000000']);
  // the number of a key in three digits
  const digits = make();
  for (const i of [255, 9, 100, 0, 10, 99]) define(digits, symbol(i), { configurable: true });
  shows(digits, undefinedLines(['y255', 'y009', 'y100', 'y000', 'y010', 'y099']));
}

// Releases: what a step ended in, a result for 0, must be what is written here.
function endedAs(n) {
  const { outcome, numbers, completion } = latest;
  if (n === 0 ? outcome !== 1 || completion !== '01' + valueText(true) : outcome !== 0 || numbers !== 1 << n) throw new Error('not ' + n + ', but ' + JSON.stringify(latest));
}

// Each way of being named, and what ends it.
function fixedNames(enter, run, make, makeFunction, proxy, define) {
  const yes = answered(boolean(true)), s = symbol(3), t = symbol(4);
  const open = (value) => ({ value, writable: true, enumerable: true, configurable: true });
  const releases = (n, o, answers) => { run(17, o, {}, answers); endedAs(n); };
  let a, b;
  const begun = () => { emptied(); [a, b] = ['a', '7'].map(enter); make(); };
  const over = (n, key, descriptor) => { define(n, key, descriptor); return n; };

  // what names x, and the ends of it: the steps after each of which x is named still, and after the last of which it is not
  const unset = (n) => run(5, n, { value: NULL }), gone = (n) => releases(0, n);
  const any = [
    [(x) => make(x), unset], [(x) => makeFunction(x), unset], [(x) => { const n = make(); run(5, n, { value: x }); return n; }, gone],
    [(x) => { const n = makeFunction(); run(5, n, { value: x }); return n; }, (n) => run(5, n, { value: object(0) })],
    [(x) => { const n = make(x); run(7, n); return n; }, unset, gone],                                            // it stays the prototype
    [(x) => over(make(), a, open(x)), (n) => run(13, n, { key: a })], [(x) => over(makeFunction(), s, open(x)), (n) => define(n, s, { value: NULL })],
    [(x) => { const n = make(); run(12, n, { key: b, value: x, receiver: object(n) }); return n; }, (n) => run(12, n, { key: b, value: a, receiver: object(n) })],
    [(x) => over(over(make(), t, open(x)), a, open(x)), (n) => run(13, n, { key: t }), (n) => define(n, a, { get: UNDEFINED })],
    [(x) => over(make(), a, { value: x }), (n) => run(13, n, { key: a }), (n) => define(n, a, { value: NULL }), gone],    // it is fixed
    [(x) => { const n = over(make(x), b, open(x)); run(18, n, { value: integer(1) }); return n; }, unset, (n) => run(13, n, { key: b }), gone],
  ];
  const functions = [
    [(x) => over(make(), a, { get: x, configurable: true }), (n) => define(n, a, { get: UNDEFINED })], [(x) => over(makeFunction(), s, { set: x, configurable: true }), (n) => define(n, s, { set: UNDEFINED })],
    [(x) => over(make(), a, { get: x, set: x, configurable: true }), (n) => define(n, a, { get: UNDEFINED }), (n) => define(n, a, { set: UNDEFINED })],
    [(x) => over(make(), a, { get: x, set: x, configurable: true }), (n) => define(n, a, { set: UNDEFINED }), (n) => define(n, a, { value: NULL })],
    [(x) => over(make(), b, { get: x }), (n) => run(13, n, { key: b }), gone], [(x) => over(makeFunction(), b, { set: x, get: UNDEFINED }), (n) => define(n, b, { set: UNDEFINED }), gone],
  ];
  const own = (descriptor) => [(x) => over(payload(x), a, descriptor(x)), (n) => run(13, n, { key: a })];
  const targets = [
    [(x) => proxy(payload(x)), (n) => run(3, n)], [(x) => proxy(payload(x), 0), gone], [(x) => { proxy(payload(x), 0); return proxy(payload(x)); }, (n) => run(3, n), (n) => gone(n - 1)],
    [(x) => proxy(proxy(payload(x), 0), 0), (n) => run(3, n), (n) => run(3, n - 1)],
  ];
  const revoked = () => { const n = proxy(0); run(3, n); return n; };
  const cases = [
    [[make], any.concat(targets, [own(open)])],
    [[makeFunction, () => makeFunction(object(0))], any.concat(functions, [own(open), own((x) => ({ get: x, configurable: true })), own((x) => ({ set: x, configurable: true }))])],
    [[() => proxy(0), revoked], any.concat(targets)],
  ];
  for (const [makers, namings] of cases) {
    for (const made of makers) {
      for (const [names, ...ends] of namings) {
        begun();
        const x = made(), name = named(x), by = names(name);
        for (const end of ends) { releases(14, x); end(by); }
        releases(0, x); releases(2, x);
        make(); make();
      }
    }
  }
  // by several at once; the sheet's names, a receiver and an inherited property do not count
  begun();
  const f = makeFunction(), F = callable(f), o = make(F), p = proxy(o), O = object(o), P = object(p);
  define(o, a, { get: F, set: F, configurable: true }); define(o, s, open(F)); define(f, a, open(P));
  for (const n of [f, o, p]) releases(14, n);
  run(13, f, { key: a }); run(11, p, { key: a, receiver: P }, [answered(P)]); run(12, p, { key: b, value: P, receiver: P }, [yes]);
  releases(14, f); releases(14, o); releases(0, p); releases(0, o); releases(0, f);
  // an object that names itself, straight and through a proxy; two and three that name one another
  begun();
  const self = make(), selves = makeFunction();
  define(self, a, open(object(self))); releases(14, self); define(self, a, { value: NULL }); releases(0, self);
  define(selves, a, { get: callable(selves), set: callable(selves), configurable: true }); define(selves, b, open(callable(selves))); releases(14, selves);
  define(selves, a, { value: NULL }); releases(14, selves); run(13, selves, { key: b }); releases(0, selves);
  const fixed = make();
  define(fixed, a, { value: object(fixed) }); run(7, fixed); releases(14, fixed); run(13, fixed, { key: a }); releases(14, fixed);
  begun();
  const one = make(), two = make(object(one)), three = proxy(two);
  define(one, a, open(object(two))); releases(14, one); releases(14, two); releases(0, three); releases(14, two); run(13, one, { key: a }); releases(14, one); releases(0, two); releases(0, one);
  const ring = make(), back = proxy(ring, 0);
  run(5, ring, { value: object(back) }); releases(14, ring); releases(14, back); run(10, ring, { key: a }); run(3, back); releases(14, back); releases(0, ring); releases(0, back);
}

// Refusals of step 17 in their order, and a released number in every place.
function fixedReleaseRefusals(enter, run, make, makeFunction, proxy, define) {
  const yes = answered(boolean(true)), s = symbol(3);
  const open = (value) => ({ value, writable: true, enumerable: true, configurable: true });
  const releases = (n, o, answers) => { run(17, o, {}, answers); endedAs(n); };

  emptied();
  const a = enter('a'), o = make(), named = make(), f = makeFunction(), free = make(), gone = make(), F = callable(f);
  define(o, a, open(object(named))); releases(0, gone);
  // 1, then 2, then 14, over the step; then the sheet's
  const sheets = [[1, []], [1, [65]], [1, [1, 0]], [1, [1, 1].concat(ZERO, [0])], [2, sheetBytes([answered(object(gone))])], [2, sheetBytes([answered(callable(99))])], [3, sheetBytes([answered(callable(o))])],
    [3, sheetBytes([thrown(string(99))])], [3, sheetBytes([listed([symbol(256)])])]];
  for (const n of [named, free, gone, 32, 255]) {
    const step = stepBytes({ code: 17, object: n });
    for (const bytes of [step.slice(0, 57), step.concat([0]), stepBytes({ code: 17, object: n, key: a }), stepBytes({ code: 17, object: n, value: integer(0) }), stepBytes({ code: 17, object: n, value: NULL }), stepBytes({ code: 17, object: n, receiver: F }), stepBytes({ code: 17, object: n, descriptor: { get: NULL } }), stepBytes({ code: 17, object: n, descriptor: { enumerable: false } })]) {
      doStep(bytes, [0], 9); endedAs(1); doStep(bytes, [], 0); endedAs(1);
    }
    for (const [number, bytes] of sheets) { doStep(step, bytes, 9); endedAs(n === named ? 14 : n === free ? number : 2); }
  }
  releases(14, named, [yes]); releases(2, gone, [yes]); releases(14, named, [answered(object(named))]);
  // 13, then the release; its sheet may name it
  const spare = make();
  if (spare !== gone) throw new Error('the released number is not taken');
  releases(0, spare, [yes]); run(1, 0, { value: NULL }, [yes]); releases(0, spare, [thrown(object(spare)), listed([a])]); releases(0, free, Array.from({ length: FULL.answers }, () => yes)); releases(2, free);
  // the output is not used
  run(17, make(), {}, [], 0); endedAs(0); run(17, make(), {}, [], 100); endedAs(0); run(17, named, {}, [], 100); endedAs(14);

  // each part of a step, a sheet, a descriptor by itself, a page: the number of an object, of a function and of a proxy
  emptied();
  const key = enter('a'), base = make(), g = makeFunction(), G = callable(g), p = proxy(base), P = object(p);
  const left = [make(), makeFunction(), proxy(base)];
  for (const n of left) releases(0, n);
  const whole = { value: G, writable: true, enumerable: true, configurable: true };
  for (const n of left) {
    for (let code = 3; code <= 19; code++) if (code !== 15 && code !== 16) run(code, n, { key: code > 7 && code < 14 ? key : ZERO, value: code === 5 ? NULL : code > 17 ? integer(1) : ZERO });
    run(2, n, { value: integer(0) }); run(9, n, { key, descriptor: whole }); run(12, n, { key, value: G, receiver: P }); run(4, n, {}, [yes]);
    refusesPage(2, objectNumber(n), [0, 47, 100]);
    for (const v of [object(n), callable(n)]) {
      const two = (...parts) => { run(...parts); endedAs(2); };
      for (const code of [1, 16]) two(code, 0, { value: v });
      for (const at of [base, g, p]) {
        two(5, at, { value: v }); two(10, at, { key: v }); two(11, at, { key, receiver: v }); two(11, at, { key: v, receiver: G }); two(12, at, { key, value: v, receiver: G }); two(12, at, { key, value: G, receiver: v });
        two(18, at, { value: v }); two(19, at, { value: v }); two(12, at, { key: string(99), value: v, receiver: NULL });
        for (const d of [{ value: v }, { get: v }, { set: v }, { get: G, set: v }, { value: NULL, get: v }]) two(9, at, { key, descriptor: d });
        for (const given of [answered(v), thrown(v), listed([v]), listed([key, v]), described({ value: v }), described({ get: v }), described({ get: NULL, set: v })]) { two(6, at, {}, [given]); two(6, at, {}, [yes, given]); two(10, at, { key }, [given]); }
      }
      two(2, base, { value: v }); two(16, 0, { value: NULL }, [answered(v)]); two(3, p, {}, [listed([v])]); two(17, p, {}, [thrown(v)]);
      for (const d of [{ value: v }, { get: v }, { set: v, value: NULL }]) {
        doAlone(3, descriptorBytes(d), []); endedAs(2);
        for (const kind of [4, 5, 6]) {
          doAlone(kind, descriptorBytes(d), descriptorBytes(whole)); endedAs(2); doAlone(kind, descriptorBytes(whole), descriptorBytes(Object.assign({ enumerable: true, configurable: true }, d))); endedAs(2);
        }
      }
    }
  }
  // taken again, as another kind of object: its own name alone is right then
  const again = [makeFunction(), proxy(base), make()];
  if (again.join() !== left.join()) throw new Error('other numbers were taken');
  for (const n of again) {
    for (const v of [object(n), callable(n)]) { run(11, base, { key, receiver: v }); run(5, base, { value: v }); run(5, base, { value: NULL }); run(6, base, {}, [answered(v)]); run(9, g, { key, descriptor: { get: v, configurable: true } }); run(13, g, { key }); }
    run(4, n, {}, [answered(NULL)]); run(14, n, {}, [listed([])]); run(3, n); run(2, n, { value: integer(0) });
  }
}

// Numbers taken again, what is freed, and 32 live objects.
function fixedReuse(enter, run, make, makeFunction, proxy, define) {
  const yes = answered(boolean(true)), no = answered(boolean(false)), s = symbol(3);
  const open = (value) => ({ value, writable: true, enumerable: true, configurable: true });
  const releases = (n, o, answers) => { run(17, o, {}, answers); endedAs(n); };
  const takes = (n, o) => { if (o !== n || latest.outcome !== 1) throw new Error('number ' + o + ' and not ' + n + ' is taken'); return o; };
  const full = () => { for (const code of [1, 16]) { run(code, 0, { value: NULL }); endedAs(7); run(code, 0, { value: NULL }, [yes]); endedAs(7); } };

  // the number released longest ago: not the last, the lowest or the highest
  emptied();
  let a = enter('a');
  for (let n = 0; n < 6; n++) takes(n, make());
  for (const n of [3, 1, 4]) releases(0, n);
  takes(3, make()); takes(1, makeFunction()); releases(0, 0); takes(4, make()); releases(0, 3); takes(0, proxy(5)); takes(3, make()); takes(6, make());
  releases(14, 5); releases(0, 0); releases(0, 5); releases(0, 6); takes(0, makeFunction()); takes(5, make(callable(0))); takes(6, proxy(5, 0)); takes(7, make());
  // released and taken over and over: more than 32 times, among others that wait
  for (let turn = 0; turn < 40; turn++) { releases(0, 7); releases(0, 1); takes(7, make()); takes(1, makeFunction()); }
  for (let turn = 0; turn < 12; turn++) { const n = [2, 3, 4][turn % 3]; releases(0, n); if (turn > 0) takes([2, 3, 4][(turn - 1) % 3], make()); }
  // none live; strings stay
  for (const n of [6, 5, 0, 2, 1, 3, 7]) releases(0, n);
  refusesPage(2, objectNumber(0), [0, 47]); run(6, 0); run(4, 7); enter('a'); enter('b');
  for (const n of [4, 6, 5, 0, 2, 1, 3, 7, 8]) takes(n, make());
  shows(4, []);

  // an old number's new object has nothing of the old one: extensible, its own prototype, no properties, callable or not, its own traps
  emptied();
  const [b, c] = ['b', 'c'].map(enter), old = make(), after = make(), F = callable(makeFunction());
  define(old, b, { value: integer(70000) }); define(after, b, open(integer(1))); define(old, c, { get: F, set: F }); define(after, c, open(integer(2))); run(18, old, { value: integer(1) });
  shows(old, ['s000 ... 037011010000000000', 's001 ..- 080200000000000000 080200000000000000']);
  releases(0, old); takes(old, makeFunction(object(after))); run(6, old); run(4, old); run(8, old, { key: b }); run(11, old, { key: b, receiver: NULL }); run(14, old); shows(old, []);
  define(old, b, open(integer(3))); shows(old, ['s000 ecw 030300000000000000']); shows(after, ['s000 ecw 030100000000000000', 's001 ecw 030200000000000000']); run(11, old, { key: c, receiver: callable(old) });
  releases(0, old); takes(old, proxy(after, 128)); run(11, old, { key: b, receiver: NULL }, [answered(a)]); run(11, old, { key: b, receiver: NULL }); run(10, old, { key: b }); run(14, old); refusesPage(3, objectNumber(old), [100]);
  releases(0, old); takes(old, proxy(after, 64)); run(11, old, { key: b, receiver: NULL }); run(10, old, { key: b }, [yes]); run(10, old, { key: b }); run(3, old); run(10, old, { key: b });
  releases(0, old); takes(old, make()); run(10, old, { key: b }); run(3, old); define(old, s, open(NULL)); run(14, old); run(5, old, { value: object(after) }); run(11, old, { key: b, receiver: object(old) });
  // the order of what is left: rows of the released object stood among the others
  const order = make(), away = make();
  for (const key of [c, s, b, symbol(9), symbol(2)]) { define(away, key, open(NULL)); define(order, key, open(key)); define(away, symbol(100 + key[1]), open(NULL)); }
  releases(0, away); run(14, order, {}, [], 45); shows(order, ['s001 ecw 050100000000000000', 's000 ecw 050000000000000000', 'y003 ecw 060300000000000000', 'y009 ecw 060900000000000000', 'y002 ecw 060200000000000000']);
  takes(away, make(object(order))); shows(away, []); define(away, b, open(NULL)); define(order, symbol(1), open(NULL)); run(13, order, { key: s }); run(14, order, {}, [], 45); run(14, away); run(10, away, { key: c });

  // a prototype and a target with a higher number; step 18 through it, refused midway and not; a ring; 10
  emptied();
  a = enter('a');
  const low = make(), lower = make(), high = make(), higher = make();
  releases(0, low); releases(0, lower); define(high, a, open(integer(1))); define(high, s, open(integer(2)));
  takes(low, proxy(high, 32)); takes(lower, make(object(higher)));
  run(11, low, { key: a, receiver: NULL }); run(18, low, { value: integer(1) }, [no]); run(6, high); run(5, higher, { value: object(lower) }); run(4, lower); releases(14, high); releases(14, higher);
  const third = make();
  define(third, a, open(object(low))); define(third, s, open(integer(3)));
  const lists = proxy(third, 16);
  run(18, lists, { value: integer(1) }, [described(open(object(low)))]); run(6, third); run(18, lists, { value: integer(1) }, [described(open(object(low))), described(open(integer(3)))]); run(19, third, { value: integer(1) });
  run(5, higher, { value: object(low) }); run(10, lower, { key: symbol(8) }); run(5, high, { value: object(lower) }); run(10, lower, { key: symbol(8) }); run(11, lower, { key: a, receiver: object(lower) });

  // a revoked proxy names nothing: its target is released, and its number taken by an object that the proxy never sees
  emptied();
  a = enter('a');
  const target = make(), p = proxy(target);
  define(target, a, open(integer(70000))); releases(14, target); run(3, p); releases(0, target); releases(2, target);
  const methods = (n, answers) => {
    for (let code = 4; code <= 14; code++) run(code, n, { key: code > 7 && code < 14 ? a : ZERO, value: code === 5 ? NULL : ZERO }, answers);
    for (const code of [18, 19]) run(code, n, { value: integer(0) }, answers);
  };
  methods(p); run(3, p); takes(target, make()); define(target, a, open(integer(4464))); methods(p); releases(0, target); takes(target, makeFunction()); releases(0, target);
  takes(target, proxy(p)); methods(target, [yes]); releases(14, p); run(3, p); run(3, target); releases(0, p); methods(target); releases(0, target); takes(p, make()); takes(target, make());
  // over a proxy that is not revoked, whose target is: the inner one is named, and then not
  const base = make(), inner = proxy(base), outer = proxy(inner, 0);
  run(3, inner); releases(0, base); releases(14, inner); methods(outer); run(3, outer); releases(0, inner); releases(0, outer);
  // step 18 that is refused midway, while a revoked proxy's target is gone
  takes(base, make()); const q = takes(inner, proxy(base)); run(3, q); const held = takes(outer, make()); releases(0, base); define(held, a, open(object(q))); const over = takes(base, proxy(held, 32));
  run(18, over, { value: integer(1) }); run(6, held); run(18, over, { value: integer(1) }, [no]); run(6, held); releases(14, q);

  // 7: 32 live ones, however many were made
  emptied();
  a = enter('a');
  for (let n = 0; n < FULL.objects; n++) takes(n, n % 3 === 2 ? proxy(0, n) : n % 3 === 1 ? makeFunction() : make());
  full(); run(2, 0, { value: integer(0) }); endedAs(7); releases(14, 0); full();
  for (const n of [31, 7, 1]) { releases(0, n); }
  takes(31, make()); takes(7, makeFunction()); takes(1, proxy(3)); full();
  for (let turn = 0; turn < 6; turn++) { releases(0, 4 + turn); takes(4 + turn, turn % 2 ? make() : proxy(3, 0)); full(); run(2, 3, { value: integer(0) }); endedAs(7); }
  // all of them, and all again in that order; what is named waits
  const all = [];
  while (world.live.length > 0) { const n = world.live.filter((x) => waysNamed(x).size === 0).sort((x, y) => 7 * x % 32 - 7 * y % 32)[0]; releases(0, n); all.push(n); }
  for (const n of all) takes(n, n % 2 ? makeFunction() : make());
  full(); releases(0, 17); releases(0, 16); run(1, 0, { value: callable(17) }); run(1, 0, { value: NULL }, [yes]); takes(16, proxy(0)); full();

  // 256 properties: what was released makes room
  emptied();
  const crowd = make(), other = make(), last = make();
  for (let i = 0; i < FULL.strings; i++) doEnter('k' + i);
  for (let i = 0; i < FULL.properties; i++) define(i % 4 === 3 ? crowd : other, string(i), open(integer(i)));
  define(last, string(0), open(NULL)); endedAs(7); run(12, other, { key: string(3), value: NULL, receiver: object(other) }); endedAs(7);
  define(other, string(0), open(object(crowd))); releases(14, crowd); define(other, string(0), open(integer(0))); define(last, string(0), open(NULL)); endedAs(7);
  releases(0, crowd);
  const rest = Array.from({ length: FULL.properties }, (_, i) => i).filter((i) => i % 4 !== 3);
  shows(other, rest.map((i) => 's' + threeDigits(i) + ' ecw 03' + HEX[i] + '0'.repeat(14))); run(14, other, {}, [], 9 * rest.length);
  for (let i = 0; i < 64; i++) { define(last, string(i), open(integer(i))); endedAs(0); }
  define(last, string(64), open(NULL)); endedAs(7); takes(crowd, make()); shows(crowd, []); define(crowd, string(3), open(NULL)); endedAs(7);
  releases(0, last); define(crowd, string(3), open(NULL)); endedAs(0); releases(0, other); takes(last, makeFunction()); takes(other, make()); shows(last, []); shows(other, []);
  define(other, string(255), open(string(1))); endedAs(0); shows(crowd, ['s003 ecw 010000000000000000']); shows(other, ['s255 ecw 050100000000000000']); run(14, other);
}
