// ---- the journal: what happened, and why, on the tables of that moment

const ENTRIES = 200;
const journalView = { sender: "", changes: false, first: 0, line: null };

// A question about the journal that was dropped.
const askJournal = (kind, more = {}) => ask(kind, { name: page.journal.name, ...more }, page.journal.bytes);

// Whether bytes are a journal is the module's to say.
const isJournal = (name, bytes) => {
  const answer = engine.ask({ ask: "journal show", name, many: 0 }, bytes);
  return !answer.error && answer.json.begins;
};

// A journal is opened with the tables that it ends with, if none are open.
function takeJournal(name, bytes) {
  page.journal = { name, bytes, checked: null };
  Object.assign(journalView, { sender: "", changes: false, first: 0, line: null });
  if (!page.file) {
    const last = engine.ask({ ask: "journal tables", name }, bytes);
    if (last.error) return fail(last.error.text);
    take(name.replace(/\.journal.*$/, "") + ".tables", last.bytes);
  }
  page.tab = "journal";
  fail("");
  draw();
  say(name + " is open");
}

function journal() {
  if (!page.journal) {
    return card("Journal", h("p", { class: "faint" }, "Drop the journal of a terminal here. Every answer in it is judged again, and each line says why, on the tables of that moment."),
      h("div", { class: "buttons" }, h("button", { onclick: () => $("file").click() }, "Open a journal…")));
  }
  return h("div", { class: "even" }, h("div", { class: "stack" }, checkedCard(), entriesCard()), h("div", { class: "side" }, momentCard()));
}

function checkedCard() {
  page.journal.checked ??= askJournal("journal check");
  const { error, json, text } = page.journal.checked;
  if (error) return card("Is it whole?", h("p", { class: "error" }, error.text));
  const place = (one) => h("li", {}, `line ${one.line}: ${one.what}`);
  return card("Is it whole?", h("div", { class: "verdict " + (json.well ? "good" : "bad"), "data-differences": json.count },
    h("strong", {}, json.well ? "the chain fits" : `${json.count} differences`), `${json.judged} answers judged again by the library${json.well ? ", all the same" : ""}`),
  h("ul", { class: "notes" }, json.differences.map(place), json.notes.map(place)),
  h("details", {}, h("summary", {}, "In the command’s words"), h("pre", { class: "mono" }, text)));
}

function entriesCard() {
  const filter = { changes: journalView.changes, ...(journalView.sender === "" ? {} : { sender: Number(journalView.sender) }) };
  const answer = askJournal("journal show", { ...filter, first: journalView.first, many: ENTRIES });
  if (answer.error) return card("What happened", h("p", { class: "error" }, answer.error.text));
  const { entries, all } = answer.json, last = journalView.first + entries.length;
  const set = (change) => {
    Object.assign(journalView, { first: 0, line: null }, change);
    draw();
  };
  const partner = h("input", { id: "j-sender", type: "number", min: 0, max: 65535, "data-keep": "j-sender", value: journalView.sender,
    placeholder: "all", onchange: (event) => set({ sender: event.target.value }) });
  const changes = h("input", { id: "j-changes", type: "checkbox", "data-keep": "j-changes", checked: journalView.changes, onchange: (event) => set({ changes: event.target.checked }) });
  const step = (text, first, id) => h("button", { id, disabled: first < 0 || first >= all, "data-keep": id,
    onclick: () => { journalView.first = first; draw(); } }, text);
  return card("What happened", h("div", { class: "buttons" }, h("label", { for: "j-sender" }, "Partner number, 0 for anybody"), partner, changes, h("label", { for: "j-changes" }, "changes alone")),
    entries.length ? table(["line", "time", "what"], entries.map(entryRow)) : h("p", { class: "faint" }, "No such entry."),
    h("div", { class: "buttons" }, step("Earlier", journalView.first - ENTRIES, "j-back"), step("Later", last, "j-on"),
      h("span", { class: "faint" }, entries.length ? `${journalView.first + 1} to ${last} of ${all}` : "")));
}

function entryRow(one) {
  const good = one.answer?.number === 0, tone = one.faults.length || (one.answer && !good) ? "bad" : good ? "good" : "";
  const choose = () => {
    journalView.line = one.line;
    draw();
  };
  const words = (one.text ?? "cannot be read").replace(/ {2,}/g, " ").trim();
  return h("tr", { class: journalView.line === one.line ? "chosen" : "" },
    h("th", { scope: "row" }, one.record ? h("button", { "data-keep": "j-" + one.line, "data-line": one.line, "aria-pressed": String(journalView.line === one.line), onclick: choose }, String(one.line)) : String(one.line)),
    h("td", { class: "mono time" }, one.local ?? ""),
    h("td", { class: tone }, words, [...one.changes_words, ...one.faults].map((text) => h("div", { class: "faint" }, text))));
}

// Why, on the tables of the line that was chosen.
function momentCard() {
  const { line } = journalView;
  if (line === null) return card("Why?", h("p", { class: "faint" }, "Choose a line: the library explains it on the tables as they were."));
  const answer = askJournal("journal why", { line });
  if (answer.error) return card("Why?", h("p", { class: "error" }, answer.error.text));
  const { journal: at, entry, why } = answer.json;
  const open = () => {
    const then = askJournal("journal tables", { line: at.line - 1 });
    if (then.error) return fail(then.error.text);
    page.clock = entry.clock ?? page.clock;
    take(`${page.journal.name}, before line ${at.line}`, then.bytes);
    page.tab = "rights";
    draw();
  };
  return card("Why?", h("p", { class: "mono", id: "j-why" }, `line ${at.line}, ${at.local}`),
    at.differences ? h("p", { class: "error" }, "The journal does not fit up to this line.") : "",
    why ? [verdict(why.answer), details(why, { kind: "asserting" })] : h("div", { class: "verdict bad" }, entry.explained),
    h("div", { class: "buttons" }, h("button", { id: "j-open", onclick: open }, "Open the tables of this moment")));
}
