// Runs a module under WASI: run.mjs FOLDER MODULE WORD.. The folder is /here, and PLACE is "at home". A module that has _initialize is
// a reactor, whose `next` is called twice.
import { readFileSync } from "node:fs";
import { WASI } from "node:wasi";

const [folder, file, ...words] = process.argv.slice(2);
const bytes = readFileSync(file);
if (!WebAssembly.validate(bytes)) {
  console.log("the module is not valid");
  process.exit(1);
}
const wasi = new WASI({ version: "preview1", args: [file, ...words], env: { PLACE: "at home" }, preopens: { "/here": folder }, returnOnExit: true });
const { instance } = await WebAssembly.instantiate(bytes, { wasi_snapshot_preview1: wasi.wasiImport });
if (instance.exports._initialize) {
  wasi.initialize(instance);
  console.log(instance.exports.next(), instance.exports.next());
} else {
  process.exitCode = wasi.start(instance);
}
