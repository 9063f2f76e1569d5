// Reads requests as lines of JSON, and answers each with a line: whether the module is valid, and what its exports give.
"use strict";
const readline = require("readline");

function given(one, log) {
  switch (one.kind) {
    case "function":
      return () => {
        log.push(one.module + "." + one.field);
        return one.result === "i64" ? 0n : one.result ? 0 : undefined;
      };
    case "global":
      return new WebAssembly.Global({ value: one.value, mutable: one.mutable }, one.value === "i64" ? 0n : 0);
    case "memory":
      return new WebAssembly.Memory(one.maximum === null ? { initial: one.initial } : { initial: one.initial, maximum: one.maximum });
    default:
      return new WebAssembly.Table({ element: "anyfunc", initial: one.initial });
  }
}

function callOne(instance, log, title, words) {
  log.length = 0;
  try {
    const value = instance.exports[title](...words.map((word) => (typeof word === "string" ? BigInt(word) : word)));
    return { value: typeof value === "bigint" ? value.toString() : value === undefined ? null : value, log: [...log] };
  } catch (trap) {
    return { trap: String(trap), log: [...log] };
  }
}

function answer(request) {
  const bytes = Buffer.from(request.module, "base64");
  if (!WebAssembly.validate(bytes)) {
    return { valid: false, calls: (request.calls || []).map(() => ({ trap: "the module isn't valid" })) };
  }
  if (!request.calls) {
    return { valid: true };
  }
  const log = [];
  const imports = {};
  for (const one of request.imports) {
    (imports[one.module] = imports[one.module] || {})[one.field] = given(one, log);
  }
  const instance = new WebAssembly.Instance(new WebAssembly.Module(bytes), imports);
  return { valid: true, calls: request.calls.map(([title, words]) => callOne(instance, log, title, words)) };
}

readline.createInterface({ input: process.stdin }).on("line", (line) => {
  console.log(JSON.stringify(answer(JSON.parse(line))));
});
