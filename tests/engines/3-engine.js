// What differs between the engines: printing, arguments, the text of a stack overflow, and the texts of the TypeErrors.

const engine = typeof process === 'object' ? 'node' : typeof ARGV === 'object' ? 'gjs' : 'jsc';
const args = engine === 'node' ? process.argv.slice(2) : engine === 'gjs' ? ARGV : globalThis.arguments;
const lines = [];
let waiting = 0;

function flush() {
  if (lines.length === 0) return;
  const text = lines.join('\n');
  if (engine === 'node') process.stdout.write(text + '\n');
  else print(text);
  lines.length = waiting = 0;
}

function emit(text) {
  lines.push(text);
  waiting += text.length;
  if (waiting > 60000) flush();
}

if (engine === 'node') Error.stackTraceLimit = 0;

const isOverflow = (e) => /^(Maximum call stack size exceeded|too much recursion)/.test(e.message);

// By how a text begins and what else it holds: the numbers of the messages that the check may have. 29 to 32 are our own numbers;
// no more than the TypeError was asked for there, but the texts tell these checks apart too. None is where Object.freeze and Object.seal throw and step 18
// answers false.
const TEXTS = {
  node: [
    ["Cannot perform '", 'on a proxy that has been revoked', [1]],
    ["'getPrototypeOf' on proxy: trap returned neither object nor null", '', [2]],
    ["'getPrototypeOf' on proxy: proxy target is non-extensible but the trap did not return its actual prototype", '', [3]],
    ["'setPrototypeOf' on proxy: trap returned truish for setting a new prototype on the non-extensible proxy target", '', [4]],
    ["'isExtensible' on proxy: trap result does not reflect extensibility of proxy target", '', [5]],
    ["'preventExtensions' on proxy: trap returned truish but the proxy target is extensible", '', [6]],
    ["'getOwnPropertyDescriptor' on proxy: trap returned neither object nor undefined", '', [7]],
    ["'getOwnPropertyDescriptor' on proxy: trap returned undefined for property", 'which is non-configurable in the proxy target', [8]],
    ["'getOwnPropertyDescriptor' on proxy: trap returned undefined for property", 'which exists in the non-extensible proxy target', [9]],
    ["'getOwnPropertyDescriptor' on proxy: trap returned descriptor for property", 'that is incompatible with the existing property', [10]],
    ["'getOwnPropertyDescriptor' on proxy: trap reported non-configurable and writable for property", '', [11]],
    ["'getOwnPropertyDescriptor' on proxy: trap reported non-configurability for property", '', [12]],
    ["'defineProperty' on proxy: trap returned truish for adding property", 'to the non-extensible proxy target', [13]],
    ["'defineProperty' on proxy: trap returned truish for defining non-configurable property", 'which is either non-existent or configurable', [13, 15]],
    ["'defineProperty' on proxy: trap returned truish for adding property", 'that is incompatible with the existing property', [14]],
    ["'defineProperty' on proxy: trap returned truish for defining non-configurable property", 'which cannot be non-writable', [16]],
    ["'has' on proxy: trap returned falsish for property", '', [10]],
    ["'get' on proxy: property", 'is a read-only and non-configurable data property on the proxy target', [17]],
    ["'get' on proxy: property", 'is a non-configurable accessor property on the proxy target', [18]],
    ["'set' on proxy: trap returned truish for property", 'data property with a different value', [19]],
    ["'set' on proxy: trap returned truish for property", 'accessor property without a setter', [20]],
    ["'deleteProperty' on proxy: trap returned truish for property", '', [21]],
    ["'ownKeys' on proxy: trap returned duplicate entries", '', [22, 23]],
    ["'ownKeys' on proxy: trap result did not include", '', [24, 25]],
    ["'ownKeys' on proxy: trap returned extra keys but proxy target is non-extensible", '', [26]],
    ['Getter must be a function', '', [27]],
    ['Setter must be a function', '', [28]],
    ['Invalid property descriptor. Cannot both specify accessors and a value or writable attribute', '', [29]],
    ['', 'is not a valid property name', [30]],
    ['CreateListFromArrayLike called on non-object', '', [31]],
    ["'defineProperty' on proxy: trap returned falsish for property", '', [32]],
    ["'preventExtensions' on proxy: trap returned falsish", '', []],
  ],
  gjs: [
    ['illegal operation attempted on a revoked proxy', '', [1]],
    ['proxy getPrototypeOf handler returned a non-object, non-null value', '', [2]],
    ["proxy getPrototypeOf handler didn't return the target object's prototype", '', [3]],
    ["proxy setPrototypeOf handler returned true, even though the target's prototype is immutable", '', [4]],
    ['proxy must report same extensiblitity as target', '', [5]],
    ["proxy can't report an extensible object as non-extensible", '', [6]],
    ['proxy [[GetOwnProperty]] must return an object or undefined', '', [7]],
    ["proxy can't report a non-configurable own property", 'as non-existent', [8, 10]],
    ["proxy can't report an existing own property", 'as non-existent on a non-extensible object', [9, 10, 25]],
    ["proxy can't report an incompatible property descriptor", '', [10]],
    ["proxy can't report existing writable property", 'as non-writable', [11]],
    ["proxy can't report a non-existent property", 'as non-configurable', [12]],
    ["proxy can't report existing configurable property", 'as non-configurable', [12]],
    ["proxy can't define a new property", 'on a non-extensible object', [13]],
    ["proxy can't define a non-existent", 'property as non-configurable', [13]],
    ["proxy can't define an incompatible property descriptor", "proxy can't define an existing configurable property as non-configurable", [15]],
    ["proxy can't define an incompatible property descriptor", "proxy can't define an existing non-configurable writable property as non-writable", [16]],
    ["proxy can't define an incompatible property descriptor", '', [14]],
    ['proxy must report the same value for the non-writable, non-configurable property', '', [17]],
    ['proxy must report undefined for a non-configurable accessor property', 'without a getter', [18]],
    ["proxy can't successfully set a non-writable, non-configurable property", '', [19]],
    ["proxy can't succesfully set an accessor property", 'without a setter', [20]],
    ['property ', "is non-configurable and can't be deleted", [21]],
    ["proxy can't delete property", 'on a non-extensible object', [21]],
    ["proxy [[OwnPropertyKeys]] can't report property 'Symbol", 'more than once', [23]],
    ["proxy [[OwnPropertyKeys]] can't report property '", 'more than once', [22]],
    ["proxy can't skip a non-configurable property", '', [24]],
    ["proxy can't report a new property", 'on a non-extensible object', [26]],
    ["property descriptor's getter field is neither undefined nor a function", '', [27]],
    ["property descriptor's setter field is neither undefined nor a function", '', [28]],
    ['property descriptors must not specify a value or be writable when a getter or setter has been specified', '', [29]],
    ['proxy [[OwnPropertyKeys]] must return an array with only string and symbol elements', '', [30]],
    ['ownKeys trap must be an object', '', [31]],
    ['proxy defineProperty handler returned false for property', '', [32]],
    ['proxy preventExtensions handler returned false', '', []],
  ],
  jsc: [
    ['Proxy has already been revoked', '', [1]],
    ["Proxy handler's 'getPrototypeOf' trap should either return an object or null", '', [2]],
    ["Proxy's 'getPrototypeOf' trap for a non-extensible target should return the same value as the target's prototype", '', [3]],
    ["Proxy 'setPrototypeOf' trap returned true when its target is non-extensible", '', [4]],
    ["Proxy object's 'isExtensible' trap returned", '', [5]],
    ["Proxy's 'preventExtensions' trap returned true even though its target is extensible", '', [6]],
    ["result of 'getOwnPropertyDescriptor' call should either be an Object or undefined", '', [7]],
    ["When the result of 'getOwnPropertyDescriptor' is undefined the target must be configurable", '', [8]],
    ["When 'getOwnPropertyDescriptor' returns undefined, the 'target' of a Proxy should be extensible", '', [9]],
    ["Result from 'getOwnPropertyDescriptor' fails the IsCompatiblePropertyDescriptor test", '', [10]],
    ["Result from 'getOwnPropertyDescriptor' can't be non-configurable and non-writable when the target's property is writable", '', [11]],
    ["Result from 'getOwnPropertyDescriptor' can't be non-configurable when the 'target' doesn't have it", '', [12]],
    ["Proxy's 'defineProperty' trap returned true even though getOwnPropertyDescriptor of the Proxy's target returned undefined", '', [13]],
    ["Proxy's 'defineProperty' trap returned true for a non-configurable field even though", '', [13]],
    ["Proxy's 'defineProperty' trap did not define a property on its target that is compatible", '', [14]],
    ["Proxy's 'defineProperty' trap did not define a non-configurable property on its target", '', [15]],
    ["Proxy's 'defineProperty' trap returned true for a non-writable input descriptor", '', [16]],
    ["Proxy 'has' must return 'true' for", '', [10]],
    ["Proxy handler's 'get' result of a non-configurable and non-writable property", '', [17]],
    ["Proxy handler's 'get' result of a non-configurable accessor property without a getter", '', [18]],
    ["Proxy handler's 'set' on a non-configurable and non-writable property", '', [19]],
    ["Proxy handler's 'set' method on a non-configurable accessor property without a setter", '', [20]],
    ["Proxy handler's 'deleteProperty' method should return false when the target", '', [21]],
    ["Proxy handler's 'ownKeys' trap result must not contain any duplicate names", '', [22, 23]],
    ["Proxy object's 'target' has the non-configurable property", '', [24]],
    ["Proxy object's non-extensible 'target' has configurable property", '', [25]],
    ["Proxy handler's 'ownKeys' method returned a key that was not present in its non-extensible target", '', [26]],
    ['Getter must be a function', '', [27]],
    ['Setter must be a function', '', [28]],
    ["Invalid property.  '", 'present on property with getter or setter', [29]],
    ["Proxy handler's 'ownKeys' method must return an array-like object containing only Strings and Symbols", '', [30]],
    ["Proxy handler's 'ownKeys' method must return an object", '', [31]],
    ["Proxy's 'defineProperty' trap returned falsy value for property", '', [32]],
    ['Unable to prevent extension in Object.', '', []],
  ],
}[engine];

const ANY = -2;                                           // every message but 32: the text is in no row
const STATUS = 0;                                         // no message: [[PreventExtensions]] was false

function messagesOf(text) {
  for (const [begin, rest, numbers] of TEXTS) {
    if (text.startsWith(begin) && text.includes(rest)) return numbers.reduce((bits, n) => bits | 1 << n, 0);
  }
  return ANY;
}
