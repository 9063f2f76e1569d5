// Runs a command module under WASI, and writes down what wasmrun is to be told and has to print: record.mjs MODULE SCRIPT TRACE. The script
// calls _start, and answers each call of the host by what it wrote to memory and gave here; the trace is the whole of it.
import { readFileSync, writeFileSync } from "node:fs";
import { WASI } from "node:wasi";

const PAGE = 65536;
const ROW = 16;
const [file, script, trace] = process.argv.slice(2);

const hex = (bytes) => Buffer.from(bytes).toString("hex").toUpperCase();
const value = (v) => (typeof v === "bigint" ? `i64:${BigInt.asUintN(64, v)}` : `i32:${v >>> 0}`);
const words = (values) => values.map((v) => ` ${value(v)}`).join("");

// The runs of bytes that differ, as writes.
function writes(before, after) {
  const found = [];
  for (let at = 0; at < after.length; at++) {
    if (after[at] === before[at]) continue;
    let end = at + 1;
    while (end < after.length && after[end] !== before[end]) end++;
    found.push(` ${at}=${hex(after.subarray(at, end))}`);
    at = end;
  }
  return found.join("");
}

function rows(memory) {
  const lines = [];
  for (let at = 0; at < memory.length; at += ROW) {
    const row = memory.subarray(at, at + ROW);
    if (row.some((b) => b !== 0)) lines.push(`${at.toString(16).toUpperCase().padStart(8, "0")} ${hex(row)}`);
  }
  return lines;
}

const said = ["# what the host does for _start", "call _start"];
const happened = [];
let memory;

const wasi = new WASI({ version: "preview1", args: [file], returnOnExit: true });
const host = {};
for (const [name, call] of Object.entries(wasi.wasiImport)) {
  host[name] = (...args) => {
    const before = memory.slice();
    const result = call(...args);
    happened.push(`asked wasi_snapshot_preview1 ${name}${words(args)}`);
    said.push(`answer${writes(before, memory)} ${value(result)}`);
    return result;
  };
}

const { instance } = await WebAssembly.instantiate(readFileSync(file), { wasi_snapshot_preview1: host });
memory = new Uint8Array(instance.exports.memory.buffer);
wasi.start(instance);
const end = [`memory ${memory.length / PAGE}`, ...rows(memory), "end"];
writeFileSync(script, [...said, ""].join("\n"));
writeFileSync(trace, [...happened, "returned", ...end, ""].join("\n"));
