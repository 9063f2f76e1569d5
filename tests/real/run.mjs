// Runs a command module under WASI: run.mjs MODULE WORD..
import { readFileSync } from "node:fs";
import { WASI } from "node:wasi";

const [file, ...words] = process.argv.slice(2);
const bytes = readFileSync(file);
if (!WebAssembly.validate(bytes)) {
  console.log("the module is not valid");
  process.exit(1);
}
const wasi = new WASI({ version: "preview1", args: [file, ...words], returnOnExit: true });
const { instance } = await WebAssembly.instantiate(bytes, { wasi_snapshot_preview1: wasi.wasiImport });
process.exitCode = wasi.start(instance);
