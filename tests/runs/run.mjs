// Runs the exports of a module by lines 'call NAME i32:N ..' and prints what wasmrun prints.
import { readFileSync } from 'node:fs';

const [module, script] = process.argv.slice(2);
const { instance } = await WebAssembly.instantiate(readFileSync(module), {});
const read = (word) => (word.startsWith('i64:') ? BigInt(word.slice(4)) : Number(word.slice(4)));
const kind = /^call \S+ i64:/m.test(readFileSync(script, 'utf8')) ? 'i64' : 'i32';
const printed = (value) =>
  value === undefined ? '' : kind === 'i64' ? ` i64:${BigInt.asUintN(64, value)}` : ` i32:${value >>> 0}`;

for (const line of readFileSync(script, 'utf8').split('\n').filter((one) => one)) {
  const [, name, ...words] = line.split(' ');
  try {
    console.log(`returned${printed(instance.exports[name](...words.map(read)))}`);
  } catch (trap) {
    if (!(trap instanceof WebAssembly.RuntimeError)) throw trap;
    console.log('trapped');
  }
}
const bytes = Buffer.from(instance.exports.memory.buffer);
console.log(`memory ${bytes.length / 65536}`);
for (let at = 0; at < bytes.length; at += 16) {
  const row = bytes.subarray(at, at + 16);
  if (row.some((byte) => byte)) console.log(`${at.toString(16).toUpperCase().padStart(8, '0')} ${row.toString('hex').toUpperCase()}`);
}
console.log('end');
