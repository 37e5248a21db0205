// The page's module under node, by the script of the page itself.
//
//     node tests/page/module.mjs answer MODULE.wasm QUESTIONS.json         the answers, as tests/page/questions.py compares them
//     node tests/page/module.mjs hostile MODULE.wasm QUESTIONS.json MANY   questions and files of any content: none stops the module
//     node tests/page/module.mjs digest MODULE.wasm CALLS                  the digest of the calls at random, and that of the build
import { readFileSync } from "node:fs";
import { dirname } from "node:path";
import { fileURLToPath } from "node:url";

const here = dirname(fileURLToPath(import.meta.url));
// the part of the page's script that talks to the module, as it is
const engine = new Function(readFileSync(`${here}/../../page/web/engine.js`, "utf8") + "\nreturn engine;")();
const [what, path, file, many] = process.argv.slice(2);
const bytes = readFileSync(path);
engine.module = new WebAssembly.Module(bytes);
if (WebAssembly.Module.imports(engine.module).length) throw new Error("the module imports something");
engine.start();

const fromHex = (text) => new Uint8Array(Buffer.from(text, "hex"));

function answers() {
  const all = JSON.parse(readFileSync(file, "utf8"));
  const files = all.files.map(fromHex);
  const said = all.questions.map((one) => {
    const answer = engine.ask(one.question, files[one.file]);
    return { ...answer, bytes: Buffer.from(answer.bytes ?? []).toString("hex") };
  });
  console.log(JSON.stringify(said));
}

let seed = 0x9e3779b9;
function any(below) {
  seed ^= seed << 13;
  seed ^= seed >>> 17;
  seed ^= seed << 5;
  return (seed >>> 0) % below;
}

function hostile() {
  const all = JSON.parse(readFileSync(file, "utf8")), files = all.files.map(fromHex);
  const keys = ["ask", "record", "lines", "senders", "verb", "resource", "name", "other", "list", "clock", "with", "yards", "of", "sender", "zone"];
  const values = ["", "x", "UPDATE", "hex:0", "a=7,8", "\u0000\u202e", -1, 1e12, 5.5, null, [], {}, ["UPDATE /tare"], [70000, -1], "now", "9999-99-99"];
  let stopped = 0, errors = 0;
  for (let i = 0; i < Number(many); i++) {
    const base = all.questions[any(all.questions.length)], question = { ...base.question };
    for (let n = any(4); n > 0; n--) question[keys[any(keys.length)]] = values[any(values.length)];
    let bytes = files[base.file].slice();
    for (let n = any(4); n > 0; n--) bytes[any(bytes.length)] ^= 1 << any(8);
    if (any(4) === 0) bytes = bytes.slice(0, any(bytes.length));
    const { error } = engine.ask(question, bytes);
    errors += Boolean(error);
    if (error?.text.startsWith("The module stopped") && ++stopped <= 3) console.log("STOPPED", error.text, JSON.stringify(question).slice(0, 300));
  }
  console.log(`hostile: ${many} questions, ${errors} errors in words, ${stopped} stopped the module`);
  process.exitCode = stopped ? 1 : 0;
}

function digest() {
  const found = engine.digest(Number(file)), expected = engine.ask({ ask: "version" }).json.built.digest;
  console.log(`digest ${found}, at the build ${expected}`);
  process.exitCode = found === expected ? 0 : 1;
}

({ answer: answers, hostile, digest })[what]();
