// The names of functions on the stack of a trap: stack.mjs MODULE EXPORT.
import { readFileSync } from "node:fs";

const [path, name] = process.argv.slice(2);
const instance = new WebAssembly.Instance(new WebAssembly.Module(readFileSync(path)), {});
try {
  instance.exports[name]();
} catch (error) {
  for (const [, found] of error.stack.matchAll(/at (?:[^ ]*\.)?([^ .]+) \(wasm:/g)) console.log(found);
}
