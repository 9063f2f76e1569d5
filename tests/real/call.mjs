// Tells a module's imports and exports, and calls one: call.mjs MODULE NAME NUMBER.. Each import gives its first number and one.
import { readFileSync } from "node:fs";

const [file, name, ...numbers] = process.argv.slice(2);
const module = new WebAssembly.Module(readFileSync(file));
const tell = (of) => of.map((x) => `${x.kind} ${x.name}`).sort().join(", ") || "none";
console.log("imports: " + tell(WebAssembly.Module.imports(module)));
console.log("exports: " + tell(WebAssembly.Module.exports(module)));
const env = {};
for (const { name } of WebAssembly.Module.imports(module)) env[name] = (x) => x + 1;
const { exports } = new WebAssembly.Instance(module, { env });
console.log(`${name}: ${exports[name](...numbers.map(Number))}`);
