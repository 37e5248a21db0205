// ---- files, the views, and the start

function take(name, bytes) {
  const shown = engine.ask({ ask: "show", name, clock: page.clock }, bytes);
  if (shown.error) return fail(shown.error.text);
  if (engine.ask({ ask: "show", name, clock: page.clock, names: page.yardNames }, bytes).error) page.yardNames = ""; // of another terminal
  Object.assign(page, { name, file: bytes, past: [], log: [], chosen: null, yards: {}, list: null, cells: {} });
  fail("");
  draw();
  say(name + " is open");
}
function takeNames(text) {
  const read = engine.ask({ ask: "time", clock: 0, names: text }, page.file ?? undefined);
  fail(read.error ? read.error.text : "");
  if (read.error) return;
  page.yardNames = text;
  draw();
  say("names are read");
}
function change(bytes, what) {
  if (toHex(bytes) === toHex(page.file)) return;
  page.past.push({ file: page.file, what });
  page.file = bytes;
}
function undo() {
  const last = page.past.pop();
  if (!last) return;
  page.file = last.file;
  page.log.unshift({ tone: "", text: "undone: " + last.what });
  draw();
}
// A file whose name ends in .names has names; what the module takes for a journal or for tables is opened, and any other is a list, if
// tables are open.
async function opened(files) {
  for (const file of files) {
    const bytes = new Uint8Array(await file.arrayBuffer());
    if (file.name.endsWith(".names")) {
      takeNames(new TextDecoder().decode(bytes));
      continue;
    }
    if (isJournal(file.name, bytes)) {
      takeJournal(file.name, bytes);
      continue;
    }
    if (!page.file || !engine.ask({ ask: "show", name: file.name, clock: page.clock }, bytes).error) {
      take(file.name, bytes);
      continue;
    }
    page.list = { name: file.name, bytes, text: isText(bytes) };
    page.tab = "lists";
    fail("");
    draw();
  }
}
// Bytes that are letters and signs alone, in UTF-8.
function isText(bytes) {
  try {
    return !/[\u0000-\u0008\u000e-\u001f]/.test(new TextDecoder("utf-8", { fatal: true }).decode(bytes));
  } catch {
    return false;
  }
}

const VIEWS = { rights: ["Rights", rights], tables: ["Tables", tables], ask: ["Ask and judge", asks], yards: ["Yards", yards], lists: ["Lists", lists],
  journal: ["Journal", journal] };

function draw() {
  const open = page.file !== null;
  for (const id of ["open-only", "copy"]) $(id).hidden = !open;
  for (const id of ["save", "office", "sheet"]) $(id).disabled = !open;
  $("undo").disabled = page.past.length === 0;
  if (!open) return drawStart();
  const answer = ask("show");
  if (answer.error) return fail(answer.error.text);
  const shown = answer.json;
  page.shown = shown;
  drawClock(shown);
  drawHead(shown);
  const held = document.activeElement?.dataset?.keep;
  const sideAt = document.querySelector(".side")?.scrollTop ?? 0;
  $("view").replaceChildren(!shown.sound || shown.damage ? unsound(shown) : VIEWS[page.tab][1]());
  const side = document.querySelector(".side");
  if (side) side.scrollTop = sideAt;
  if (held) document.querySelector(`[data-keep="${held}"]`)?.focus({ preventScroll: true });
}
function drawHead(shown) {
  const many = page.past.length;
  $("what").replaceChildren(h("span", { class: "name" }, page.name), pill(shown.state.name, shown.state.name === "RFNOP" ? "good" : "over"),
    shown.damage ? pill("damaged", "bad") : shown.sound ? pill("sound", "good") : pill("not sound", "bad"),
    shown.owned === 0 ? pill("nobody owns it", "bad") : "", pill("a copy"),
    many ? pill(`${many} ${many === 1 ? "change" : "changes"}, not saved`, "come") : "");
  $("tabs").replaceChildren(...Object.entries(VIEWS).map(([name, [title]]) => h("button", {
    role: "tab", id: "tab-" + name, "aria-selected": String(page.tab === name), "aria-controls": "view", tabindex: page.tab === name ? 0 : -1,
    "data-keep": "tab-" + name, onclick: () => { page.tab = name; draw(); }, onkeydown: tabKey }, title)));
  $("view").setAttribute("role", "tabpanel");
  $("view").setAttribute("aria-labelledby", "tab-" + page.tab);
}
function tabKey(event) {
  const all = Object.keys(VIEWS), at = all.indexOf(page.tab);
  const to = { ArrowRight: at + 1, ArrowLeft: at - 1, Home: 0, End: all.length - 1 }[event.key];
  if (to === undefined) return;
  event.preventDefault();
  page.tab = all[(to + all.length) % all.length];
  draw();
  $("tab-" + page.tab).focus();
}
const CAN = [["Turned away?", "who may do what at any second, why not, and from when again"], ["What if", "without a row, with a record, after the season"],
  ["What happened?", "a terminal’s journal, judged again, with why at each line"], ["Two yards", "whether what one sends can change anything for the other"], ["Is this list good?", "the office’s JSON or bytes, tested and loaded"]];
function drawStart() {
  $("what").replaceChildren(h("span", { class: "faint" }, "the access decision of a weighbridge terminal, proved, without a network"));
  $("view").replaceChildren(h("div", { class: "drop card" }, h("h2", {}, "Drop a terminal’s file of tables here"),
    h("p", { class: "faint" }, "or open one, start from a new terminal, or look at the example. Nothing leaves this page."),
    h("div", { class: "buttons" }, h("button", { class: "main", onclick: () => $("file").click() }, "Open a file…"),
      h("button", { id: "new", onclick: fresh }, "New terminal"), h("button", { id: "example", onclick: example }, "Example yard"))),
  h("ul", { class: "can" }, CAN.map(([head, text]) => h("li", {}, h("strong", {}, head), text))));
}

const EXAMPLE = `UPDATE /oic/sec/cred number=5 subject=11111111-1111-1111-1111-111111111111
UPDATE /oic/sec/cred number=7 subject=22222222-2222-2222-2222-222222222222 role=7@2
UPDATE /oic/sec/cred number=8 subject=33333333-3333-3333-3333-333333333333
UPDATE /oic/sec/cred number=9 subject=55555555-5555-5555-5555-555555555555
UPDATE /oic/sec/acl2 number=1 subject=22222222-2222-2222-2222-222222222222 permission=RU resources=/tare first=2026-07-01 last=2026-09-30
UPDATE /oic/sec/acl2 number=2 subject=anon-clear permission=R resources=-
UPDATE /oic/sec/acl2 number=3 subject=role:7@2 permission=RU resources=/ticket
UPDATE /oic/sec/acl2 number=4 subject=44444444-4444-4444-4444-444444444444 permission=R resources=+
UPDATE /oic/sec/acl2 number=5 subject=auth-crypt permission=R resources=/weight,/yard
UPDATE /oic/sec/acl2 number=6 subject=55555555-5555-5555-5555-555555555555 permission=RU resources=/zero,/calib first=2027-03-01 last=2027-03-31
UPDATE /oic/sec/acl2 number=7 subject=22222222-2222-2222-2222-222222222222 permission=RU resources=/tare first=2027-07-01 last=2027-09-30
UPDATE /oic/sec/doxm owner=11111111-1111-1111-1111-111111111111
UPDATE /oic/sec/pstat as 5 state=RFPRO
UPDATE /oic/sec/pstat as 5 state=RFNOP`;

function fresh() {
  take("new.tables", engine.ask({ ask: "new" }).bytes);
}
function example() {
  const made = engine.ask({ ask: "judge", name: "example.tables", clock: 0, lines: EXAMPLE }, engine.ask({ ask: "new" }).bytes);
  if (made.error || !made.well) return fail("the example: " + (made.error?.text ?? made.text));
  page.clock = engine.ask({ ask: "time", clock: "2026-10-05T06:30:00" }).json.second;
  take("example.tables", made.bytes);
}
// Tables that somebody put into the page: a line with their name, one with their bytes in base64, and perhaps one with names.
function enclosed() {
  const [name, tables, names] = $("tables").textContent.trim().split("\n");
  const bytes = (text) => Uint8Array.from(atob(text), (letter) => letter.charCodeAt(0));
  if (tables) take(name, bytes(tables));
  if (names) takeNames(new TextDecoder().decode(bytes(names)));
}

const CALLS = 20000;
function testBrowser() {
  $("tested").textContent = "…";
  setTimeout(() => {
    const start = performance.now(), found = engine.digest(CALLS), expected = page.names.built.digest;
    const text = `${CALLS.toLocaleString("en")} calls here ${found}, at the release ${expected ?? "not known"}: `;
    $("tested").replaceChildren(text, pill(found === expected ? "the same" : "NOT THE SAME", found === expected ? "good" : "bad"), ` ${Math.round(performance.now() - start)} ms`);
  }, 30);
}

const theme = (name) => { document.documentElement.dataset.theme = name; };
function buttons() {
  const stem = () => page.name.replace(/\.tables$/, "");
  $("theme").onclick = () => theme(document.documentElement.dataset.theme === "dark" ? "light" : "dark");
  $("open").onclick = () => $("file").click();
  $("file").onchange = (event) => {
    opened([...event.target.files]);
    event.target.value = "";
  };
  $("undo").onclick = undo;
  $("save").onclick = () => {
    download(page.name, page.file, "application/octet-stream");
    page.past = [];
    draw();
  };
  $("office").onclick = () => {
    const text = ask("list text");
    fail(text.error?.text ?? text.notices.join("; "));
    if (!text.error) download(stem() + ".json", new TextEncoder().encode(text.text), "application/json");
  };
  $("sheet").onclick = () => {
    const sheet = ask("sheet", { by: "the page of tillerclover, " + build() });
    if (sheet.file) download(stem() + ".html", sheet.bytes, "text/html");
    else fail(sheet.error?.text ?? sheet.text);
  };
  $("test").onclick = testBrowser;
  const over = (event, is) => {
    event.preventDefault();
    document.body.classList.toggle("over", is);
  };
  for (const kind of ["dragenter", "dragover"]) addEventListener(kind, (event) => over(event, true));
  for (const kind of ["dragleave", "drop"]) addEventListener(kind, (event) => over(event, false));
  addEventListener("drop", (event) => opened([...event.dataTransfer.files]));
  addEventListener("beforeunload", (event) => { if (page.past.length) event.preventDefault(); });
}
function build() {
  const { built, interface: version, format } = page.names;
  return `library interface ${version}, table format ${String(format).padStart(2, "0")}, libterminal.a sha256 ${built.archive ?? "not known"}`;
}
async function start() {
  theme(matchMedia("(prefers-color-scheme: dark)").matches ? "dark" : "light");
  try {
    await engine.load();
  } catch (fault) {
    return fail("This browser cannot run the page: " + fault.message);
  }
  page.names = engine.ask({ ask: "version" }).json;
  if (!page.names?.identified) return fail("The module and the page are not of one build.");
  $("foot").textContent = `Each right is an answer of the proved library, compiled to WebAssembly: ${build()}.`;
  page.clock = Math.floor(Date.now() / 1000);
  buttons();
  startClock();
  enclosed();
  draw();
  document.documentElement.dataset.ready = "yes";
}
start();
