// Whether what the documents name is there: every path, every name behind a path ("FILE: `name`"), every must-fail edit
// ("Edits: crate: `name`, `name`; crate: `name`."). Prints what is missing, and fails if anything is.
import { existsSync, readFileSync, readdirSync } from "node:fs";
import { dirname, join } from "node:path";
import { fileURLToPath } from "node:url";

const root = join(dirname(fileURLToPath(import.meta.url)), "..");
const landings = join(root, "docs/landings");
const documents = ["README.md", "bindings/rust/README.md", ...readdirSync(join(root, "docs")).filter((f) => f.endsWith(".md")).map((f) => `docs/${f}`)]
    .concat(existsSync(landings) ? readdirSync(landings).map((f) => `docs/landings/${f}`) : []);
const crates = new Set(readdirSync(join(root, "crates")));

let checked = 0;
const missing = [];
function expect(holds, document, what) {
    checked += 1;
    if (!holds) missing.push(`${document}: ${what}`);
}

// a path is meant from the root, from crates/ or from the document's own folder
function found(path, document) {
    return [root, join(root, "crates"), join(root, dirname(document))].map((base) => join(base, path)).find(existsSync);
}

for (const document of documents) {
    const text = readFileSync(join(root, document), "utf8");
    const flat = text.replace(/```[^]*?```/g, "").replace(/\s+/g, " ");
    const ending = "(?:antt|rt|rs|mjs|js|py|sh|c|h|md|txt|toml|svg|steps|edit)";
    const file = new RegExp(`(?<![\\w/.-])((?:[\\w.+-]+/)+[\\w.+-]+\\.${ending})\\b(?:: ((?:\`[^\`]+\`(?:, | and )?)+))?`, "g");
    for (const [, path, names] of flat.matchAll(file)) {
        if (path.startsWith("target/")) continue;
        const at = found(path, document);
        expect(at, document, path);
        if (!at || !names) continue;
        const content = readFileSync(at, "utf8");
        for (const [, name] of names.matchAll(/`([^`]+)`/g)) expect(name.split(".").every((part) => part === "" || content.includes(part)), document, `${path}: ${name}`);
    }
    // a folder of a crate
    for (const [, path] of flat.matchAll(/(?<![\w/.-])((?:crates\/)?[a-z_]+\/(?:src|specs|proofs|must-fail|more-must-fail))(?![\w/-])/g)) expect(found(path, document), document, path);
    // a crate's module or function, as crate::module::function
    for (const [, crate, rest] of flat.matchAll(/`([a-z_]+)::([a-z_:]+)`/g)) {
        if (!crates.has(crate)) continue;
        const sources = readdirSync(join(root, "crates", crate, "src"));
        const all = sources.map((f) => readFileSync(join(root, "crates", crate, "src", f), "utf8")).join("\n");
        for (const part of rest.split("::")) expect(sources.includes(`${part}.rt`) || new RegExp(`\\b(?:fn|mod|struct|enum|const) ${part}\\b`).test(all), document, `${crate}::${rest}`);
    }
    for (const [, list] of flat.matchAll(/Edits?(?: of the \w+)?: ((?:[^.`|]*`[^`]+`)+)/g)) {
        let crate = null;
        for (const [, named, edit] of list.matchAll(/(?:([a-z_]+): )?`([^`]+)`/g)) {
            crate = named ?? crate;
            expect(["must-fail", "more-must-fail"].some((folder) => existsSync(join(root, "crates", String(crate), folder, `${edit}.edit`))), document, `the edit ${crate}: ${edit}`);
        }
    }
}
for (const line of missing) console.log(`not there: ${line}`);
console.log(`paths: ${checked} names in ${documents.length} documents, ${missing.length} of them missing`);
process.exit(missing.length === 0 ? 0 : 1);
