"use strict";
// The page shows what the library answers, and decides nothing: every right, reason and refusal comes from the module, and so does every
// list of names, checks, fields and lengths.

const engine = {
  zone: "UTC",

  async load() {
    const text = document.getElementById("wasm").textContent.trim();
    const packed = Uint8Array.from(atob(text), (letter) => letter.charCodeAt(0));
    const plain = new Response(new Blob([packed]).stream().pipeThrough(new DecompressionStream("gzip")));
    engine.module = await WebAssembly.compile(await plain.arrayBuffer());
    engine.start();
  },

  start() {
    engine.calls = new WebAssembly.Instance(engine.module, {}).exports;
  },

  // A question and a file; the answer, with the file as it is then. The module keeps nothing between two questions.
  ask(question, file = new Uint8Array()) {
    const now = Math.floor(Date.now() / 1000);
    const object = new TextEncoder().encode(JSON.stringify({ zone: engine.zone, now, ...question }));
    try {
      const at = engine.calls.room(4 + object.length + file.length) >>> 0;
      const memory = new Uint8Array(engine.calls.memory.buffer);
      new DataView(memory.buffer).setUint32(at, object.length, true);
      memory.set(object, at + 4);
      memory.set(file, at + 4 + object.length);
      const from = engine.calls.ask() >>> 0;
      const bytes = new Uint8Array(engine.calls.memory.buffer, from, engine.calls.answered() >>> 0).slice();
      const length = new DataView(bytes.buffer).getUint32(0, true);
      const answer = JSON.parse(new TextDecoder().decode(bytes.subarray(4, 4 + length)));
      answer.bytes = bytes.slice(4 + length);
      return answer;
    } catch (fault) {
      engine.start(); // what stopped half way is not asked again
      return { error: { text: "The module stopped: " + fault.message } };
    }
  },

  // The digest of the calls at random, in digits: a fresh instance, so that nothing else is touched.
  digest(calls) {
    const fresh = new WebAssembly.Instance(engine.module, {}).exports;
    return BigInt.asUintN(64, fresh.digest(calls)).toString(16).padStart(16, "0");
  },
};
