// Runs a C program that was built for WebAssembly, under node's WASI.
//
//     node targets/wasi.mjs PROGRAM.wasm WORD..
//
// A word that names a file gives the program that file's folder, as /data, and no other.
import { existsSync, readFileSync } from "node:fs";
import { basename, dirname } from "node:path";

// what node says of WASI being young is no part of the program's text
process.removeAllListeners("warning");
const { WASI } = await import("node:wasi");

const [program, ...words] = process.argv.slice(2);
const file = words.find((word) => existsSync(word));
const wasi = new WASI({
  version: "preview1",
  args: [program, ...words.map((word) => (word === file ? `/data/${basename(word)}` : word))],
  preopens: file ? { "/data": dirname(file) } : {},
  returnOnExit: true,
});
const module = new WebAssembly.Module(readFileSync(program));
process.exitCode = wasi.start(new WebAssembly.Instance(module, { wasi_snapshot_preview1: wasi.wasiImport }));
