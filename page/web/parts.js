// ---- what the page keeps, and how it makes elements

const page = {
  name: "", file: null, clock: 0, past: [], tab: "rights", chosen: null, cells: {}, log: [], yards: {}, list: null, names: null, shown: null, journal: null,
  edges: [], yardNames: "",
};
const $ = (id) => document.getElementById(id);

// A question about the open file at the page's clock.
function ask(kind, more = {}, file = page.file) {
  return engine.ask({ ask: kind, name: page.name, clock: page.clock, names: page.yardNames, ...more }, file);
}

// Elements: h("p", { class: "x", onclick: f }, children..)
function h(tag, attributes = {}, ...children) {
  const element = document.createElement(tag);
  for (const [name, value] of Object.entries(attributes)) {
    if (value === false || value === null || value === undefined) continue;
    if (name.startsWith("on")) element.addEventListener(name.slice(2), value);
    else element.setAttribute(name, value === true ? "" : value);
  }
  element.append(...children.flat(Infinity).filter((child) => child !== null && child !== undefined && child !== false));
  return element;
}
const pill = (text, tone = "") => h("span", { class: "pill " + tone }, text);
const card = (title, ...children) => h("section", { class: "card" }, h("h2", {}, title), children);
const options = (pairs, chosen) => pairs.map(([value, text]) => h("option", { value, selected: String(value) === String(chosen) }, text));
const table = (heads, rows) =>
  h("div", { class: "wide" },
    h("table", {}, h("thead", {}, h("tr", {}, heads.map((head) => h("th", { scope: "col" }, head)))), h("tbody", {}, rows)));
const say = (text) => { $("live").textContent = text; };
function fail(text) {
  $("error").hidden = !text;
  $("error").textContent = text || "";
}

// Times, in the module's words and the chosen zone.
const local = (second) => engine.ask({ ask: "time", clock: second }).text;
const word = (second) => local(second).slice(0, 19).replace("T", " ");
const season = (row) => engine.ask({ ask: "period", first: row.first, last: row.last }).text;

const letters = (permission) => permission.letters.replaceAll("-", "");
const on = (row) => [...row.resources, ...row.wildcards].join(" ") || "nothing";
const role = (one) => one.role + (one.authority ? "@" + one.authority : "");
const short = (subject) => (brief(subject) === subject ? subject : h("span", { title: subject, class: "mono" }, brief(subject)));
const brief = (text) => text.replace(/([0-9a-f]{8})-[-0-9a-f]{23}([0-9a-f]{4})/g, "$1…$2");
const toHex = (bytes) => Array.from(bytes, (byte) => byte.toString(16).padStart(2, "0")).join("");
const resourceOf = (name) => page.names.resources.find((resource) => resource.name === name);

// A sender: what it is called, and what is said below.
function senderName(sender) {
  if (sender.kind === "clear") return ["Anybody", "not authenticated"];
  if (sender.kind === "credential") return [sender.name ?? "Partner " + sender.number, (sender.name ? sender.number + ", " : "") + sender.subject];
  return ["Role " + role(sender), "whoever takes it on"];
}
const senderKey = (sender) => sender.kind + (sender.number ?? "") + ":" + (sender.role ?? "") + "@" + (sender.authority ?? "");

function download(name, bytes, type) {
  const link = h("a", { href: URL.createObjectURL(new Blob([bytes], { type })), download: name });
  document.body.append(link);
  link.click();
  link.remove();
  setTimeout(() => URL.revokeObjectURL(link.href), 10000);
}
