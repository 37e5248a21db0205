// The WebAssembly module of targets/build.sh, called from JavaScript with no C between them: it imports nothing, exports every
// function that the headers name, and judges the sample run as the program `run` does.
//
//     node targets/module.mjs MODULE.wasm HEADERS RUN       the folder of the headers, the folder with the sample's stdin and stdout
import assert from "node:assert/strict";
import { readFileSync, readdirSync } from "node:fs";

const [path, headers, run] = process.argv.slice(2);
const module = new WebAssembly.Module(readFileSync(path));

// ---- what it exports

const PROTOTYPE = /^(?:void|uint64_t) (tillerclover_[a-z_]+)\(/gm;
const named = readdirSync(headers).flatMap((name) => [...readFileSync(`${headers}/${name}`, "utf8").matchAll(PROTOTYPE)].map((found) => found[1]));
assert.deepEqual(WebAssembly.Module.imports(module), []);
assert.deepEqual(WebAssembly.Module.exports(module).map((one) => one.name).sort(), ["__heap_base", "memory", ...named].sort());

// ---- the sample run

const calls = new WebAssembly.Instance(module, {}).exports;
calls.memory.grow(1);
const LENGTHS = { counts: 4, devowner: 16, rowners: 64, creds: 936, aces: 1152, queue: 6504, record: 32768, reply: 1168, said: 72 };
const at = {};
let free = calls.__heap_base.value;
for (const [name, length] of Object.entries(LENGTHS)) {
  at[name] = free = (free + 7) & ~7;
  free += length;
}
const memory = new Uint8Array(calls.memory.buffer);
const tables = [at.counts, at.devowner, at.rowners, at.creds, at.aces, at.queue];
const noDefaults = [0, 0n, 0, 0n];

function judge(clock, record) {
  memory.set(record, at.record);
  calls.tillerclover_judge_at(...tables, ...noDefaults, clock, at.record, BigInt(record.length), at.reply, 1168n, at.said);
  return new BigUint64Array(calls.memory.buffer, at.said, 9);
}

calls.tillerclover_fresh_at(...tables, ...noDefaults);
assert.equal(calls.tillerclover_is_sound_at(...tables), 1n);
const input = readFileSync(`${run}/stdin`);
let text = "n answer perm state\n";
for (let from = 0, n = 1; from < input.length; n++) {
  const length = input.readUInt16BE(from + 4);
  const [answer, permission] = judge(input.readUInt32BE(from), input.subarray(from + 6, from + 6 + length));
  text += `${n} ${answer} ${permission} ${memory[at.counts]}\n`;
  from += 6 + length;
}
assert.equal(text, readFileSync(`${run}/stdout`, "utf8"));
