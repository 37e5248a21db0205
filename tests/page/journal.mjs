// The page's view of a journal, without a browser: its scripts over elements that only keep what they are given, and answers of the
// page's crate on this machine. What the view shows is compared with what the command says.
//
//     node tests/page/journal.mjs ANSWER TOOL JOURNAL NAMES     ANSWER is page/examples/answer.rs, TOOL the command tillerclover
import { spawnSync } from "node:child_process";
import { mkdtempSync, readFileSync, rmSync, writeFileSync } from "node:fs";
import { tmpdir } from "node:os";
import { basename, dirname, join } from "node:path";
import { fileURLToPath } from "node:url";

const [answer, tool, journal, names] = process.argv.slice(2);
const web = join(dirname(fileURLToPath(import.meta.url)), "../../page/web");
const work = mkdtempSync(join(tmpdir(), "page-"));

class Element {
  constructor(tag) {
    Object.assign(this, { tag, attributes: {}, children: [], handlers: {}, dataset: {}, style: {}, classList: { toggle() {} } });
  }
  setAttribute(name, value) { this.attributes[name] = String(value); }
  addEventListener(name, act) { this.handlers[name] = act; }
  append(...children) { this.children.push(...children); }
  replaceChildren(...children) { this.children = children; }
  focus() {}
  set textContent(text) { this.children = [text]; }
  get textContent() { return this.children.map((child) => child?.textContent ?? String(child)).join(""); }
  all(test, found = []) {
    if (test(this.attributes)) found.push(this);
    for (const child of this.children) if (child instanceof Element) child.all(test, found);
    return found;
  }
}

const ids = {};
globalThis.document = { createElement: (tag) => new Element(tag), createElementNS: (_, tag) => new Element(tag), querySelector: () => null,
  getElementById: (id) => (ids[id] ??= new Element("div")), documentElement: new Element("html"), activeElement: null };

// the scripts in the page's order, without their start
const order = readFileSync(join(web, "../build.py"), "utf8").match(/SCRIPTS = (\[.*\])/)[1];
const scripts = JSON.parse(order).map((name) => readFileSync(join(web, name + ".js"), "utf8")).join("\n").replace(/\nstart\(\);\s*$/, "\n");
const { page, engine, opened } = new Function(scripts + "\nreturn { page, engine, opened };")();

engine.ask = (question, file = new Uint8Array()) => {
  const path = join(work, "questions.json");
  const one = { question: { zone: "UTC", now: 1794981600, ...question }, file: 0 };
  writeFileSync(path, JSON.stringify({ files: [Buffer.from(file).toString("hex")], questions: [one] }));
  const [said] = JSON.parse(spawnSync(answer, [path], { maxBuffer: 1 << 28 }).stdout);
  return { ...said, bytes: new Uint8Array(Buffer.from(said.bytes ?? "", "hex")) };
};
const command = (...words) => spawnSync(tool, ["--json", "--names", names, "journal", ...words], { maxBuffer: 1 << 28 }).stdout.toString();
const entries = (...words) => command("show", journal, ...words).trim().split("\n").map((line) => JSON.parse(line));

let faults = 0;
function same(what, found, expected) {
  if (JSON.stringify(found) === JSON.stringify(expected)) return;
  console.log(`journal.mjs: ${what}: ${JSON.stringify(found)}, and the command says ${JSON.stringify(expected)}`);
  faults += 1;
}
const view = (key) => ids.view.all((attributes) => key in attributes);
const shown = () => view("data-line").map((one) => Number(one.attributes["data-line"]));
const named = (id) => ids.view.all((attributes) => attributes.id === id)[0];
const click = (element) => element.handlers.click({ target: element });

page.names = engine.ask({ ask: "version" }).json;
page.clock = 1794981600;
const file = (path) => ({ name: basename(path), arrayBuffer: async () => new Uint8Array(readFileSync(path)) });
await opened([file(journal), file(names)]);
same("the view that opens", page.tab, "journal");
same("the differences", view("data-differences").map((one) => Number(one.attributes["data-differences"])), [JSON.parse(command("check", journal)).count]);
const records = entries().filter((one) => one.record);
same("the lines", shown(), records.map((one) => one.line));
for (const { line } of records) {
  click(view("data-line").find((one) => one.attributes["data-line"] === String(line)));
  const { journal: at, why, entry } = JSON.parse(command("why", journal, String(line)));
  same(`why of line ${line}`, named("j-why").textContent, `line ${at.line}, ${at.local}`);
  const answers = view("data-answer").map((one) => Number(one.attributes["data-answer"]));
  same(`the answer of line ${line}`, answers, why ? [why.answer.number] : []);
  if (!why) same(`what is told of line ${line}`, ids.view.textContent.includes(entry.explained), true);
}
named("j-changes").handlers.change({ target: { checked: true } });
same("the changes", shown(), entries("--changes").map((one) => one.line));
named("j-changes").handlers.change({ target: { checked: false } });
named("j-sender").handlers.change({ target: { value: "10" } });
same("the lines of a sender", shown(), entries("--sender", "10").map((one) => one.line));
const last = entries("--sender", "10").at(-1);
click(view("data-line").at(-1));
click(named("j-open"));
same("the tables of a moment", [page.tab, page.clock], ["rights", last.clock]);
rmSync(work, { recursive: true });
console.log(`journal: ${records.length} lines of the view, ${faults} faults`);
process.exitCode = faults ? 1 : 0;
