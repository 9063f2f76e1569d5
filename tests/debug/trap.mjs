// Calls an export of a module, which traps, and prints the place of the trap in the module: trap.mjs MODULE EXPORT ARGUMENT
// A side module gets its places, and its words of data their addresses.
import { readFileSync } from "node:fs";

const [path, name, argument] = process.argv.slice(2);
const env = {
  memory: new WebAssembly.Memory({ initial: 3 }),
  __indirect_function_table: new WebAssembly.Table({ element: "anyfunc", initial: 16 }),
  __stack_pointer: new WebAssembly.Global({ value: "i32", mutable: true }, 65536),
  __memory_base: 65536,
  __table_base: 1,
};
const { instance } = await WebAssembly.instantiate(readFileSync(path), { env });
instance.exports.__wasm_apply_data_relocs?.();
try {
  instance.exports[name](Number(argument));
} catch (trap) {
  console.log(trap.stack.match(/wasm-function\[\d+\]:(0x[0-9a-f]+)/)[1]);
}
