// What node shows of the calls of a script, one line each, as wasmrun prints it: calls.mjs MODULE SCRIPT. It stops before memory grows, which node
// asks nobody for.
import { readFileSync } from "node:fs";

const [file, script] = process.argv.slice(2);
const lines = readFileSync(script, "utf8").split("\n").filter((line) => line && !line.startsWith("#"));
const answers = lines.filter((line) => line.startsWith("answer "));

const KINDS = [
  [/unreachable/, "Unreachable"],
  [/divide by zero/, "DivideByZero"],
  [/divide result unrepresentable/, "IntegerOverflow"],
  [/memory access out of bounds/, "MemoryBounds"],
  [/table index is out of bounds/, "TableBounds"],
];

const number = (word) => (word.startsWith("i64:") ? BigInt(word.slice(4)) : Number(word.slice(4)));
const value = (v) => (typeof v === "bigint" ? `i64:${BigInt.asUintN(64, v)}` : `i32:${v >>> 0}`);

function ask(x) {
  console.log(`asked host ask ${value(x)}`);
  return number(answers.shift().split(" ")[1]);
}

const { instance } = await WebAssembly.instantiate(readFileSync(file), { host: { ask } });
for (const line of lines) {
  const [head, name, ...args] = line.split(" ");
  if (head !== "call") continue;
  if (name === "grow") break;
  try {
    console.log(`returned ${value(instance.exports[name](...args.map(number)))}`);
  } catch (error) {
    console.log(`trapped ${KINDS.find(([text]) => text.test(error.message))[1]}`);
  }
}
