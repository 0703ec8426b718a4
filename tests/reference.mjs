// Whether docs/REFERENCE.md and include/demnyaluz.h name the same numbers: every constant of the header's enums stands in exactly one table row,
// its number in the first cell and its name, without DEMNYALUZ_, in the second; and the texts of the messages, each in a line behind its number, are
// those of crates/message. Prints each difference, and fails if there is one.
//
//     node tests/reference.mjs [REFERENCE.md [demnyaluz.h]]
import { readFileSync } from "node:fs";
import { dirname, join } from "node:path";
import { fileURLToPath } from "node:url";

const root = join(dirname(fileURLToPath(import.meta.url)), "..");
const [document = join(root, "docs/REFERENCE.md"), header = join(root, "include/demnyaluz.h")] = process.argv.slice(2);
const differences = [];

// The header's constants, by name. Each gives its number.
const numbers = new Map();
const code = readFileSync(header, "utf8").replace(/\/\*[^]*?\*\//g, "");
for (const [, body] of code.matchAll(/\benum\b[^{;()]*\{([^}]*)\}/g)) {
    for (const constant of body.split(",").map((text) => text.trim()).filter((text) => text !== "")) {
        const [, name, number] = constant.match(/^DEMNYALUZ_([A-Z0-9_]+) = (\d+)$/) ?? [];
        if (name === undefined) differences.push(`the header's ${constant}: not a name and its number`);
        else if (numbers.has(name)) differences.push(`the header's ${name}: there twice`);
        else numbers.set(name, Number(number));
    }
}

// The texts of the messages, by number; 0 is none.
const messages = readFileSync(join(root, "crates/message/src/lib.rt"), "utf8");
const texts = [...messages.matchAll(/^ {4}\*b"([^"]*)",$/gm)].map(([, text]) => text.replace(/(\\0)+$/, ""));
const lengths = messages.match(/const LENGTHS[^=]*= \[([^\]]*)\]/)[1].split(",").map((text) => text.trim()).filter((text) => text !== "").map(Number);
if (texts.length !== lengths.length || texts.some((text, i) => text.length !== lengths[i])) differences.push("crates/message: rows and lengths differ");
const named = [...numbers].filter(([name]) => name.startsWith("MESSAGE_"));
if (named.length !== texts.length - 1) differences.push(`the header has ${named.length} messages, crates/message ${texts.length - 1}`);

// The rows of the document.
const rows = new Map();
const content = readFileSync(document, "utf8");
for (const [i, line] of content.split("\n").entries()) {
    const cells = line.trim().match(/^\|(.*)\|$/)?.[1].split(/(?<!\\)\|/).map((cell) => cell.trim());
    const name = cells?.[1]?.match(/^`([A-Z][A-Z0-9_]*)`$/)?.[1];
    if (name === undefined || !/^\d+$/.test(cells[0])) continue;
    const where = `line ${i + 1}, ${name}`;
    const number = numbers.get(name);
    if (rows.has(name)) differences.push(`${where}: stands in line ${rows.get(name)} too`);
    else rows.set(name, i + 1);
    if (number === undefined) differences.push(`${where}: the header has no such name`);
    else if (number !== Number(cells[0])) differences.push(`${where}: ${cells[0]}, the header has ${number}`);
}
for (const name of numbers.keys()) if (!rows.has(name)) differences.push(`${name}: no row`);

// The texts of the messages in the document, in their order.
const section = content.split(/^## /m).find((part) => part.startsWith("Messages\n")) ?? "";
const told = [...section.matchAll(/^ {4}(\d+) (.*)$/gm)];
for (const [i, [, number, text]] of told.entries()) {
    if (Number(number) !== i + 1) differences.push(`the text of message ${number}: stands where that of ${i + 1} is expected`);
    if (text !== texts[number]) differences.push(`the text of message ${number}: '${text}', crates/message has '${texts[number]}'`);
}
if (told.length !== texts.length - 1) differences.push(`the document has ${told.length} texts of messages, crates/message ${texts.length - 1}`);

// Names outside of the tables.
const groups = [...new Set([...numbers.keys()].map((name) => name.split("_")[0]))].join("|");
for (const [, name] of content.matchAll(new RegExp(`\`(?:DEMNYALUZ_)?((?:${groups})_[A-Z0-9_]+)\``, "g"))) {
    if (!numbers.has(name) && !rows.has(name)) differences.push(`${name}: the header has no such name`);
}

for (const line of differences) console.log(line);
console.log(`reference: ${numbers.size} names, ${differences.length} differences`);
process.exit(differences.length === 0 ? 0 : 1);
