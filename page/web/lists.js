// ---- lists: tested before they are loaded, made of words or of the office's JSON

const written = { text: "" };

function lists() {
  const office = ask("list text", { seasons: true });
  const area = h("textarea", { id: "written", rows: 6, "aria-label": "Rows in words or the office's JSON", spellcheck: "false", "data-keep": "list",
    oninput: (event) => { written.text = event.target.value; } }, written.text);
  const test = () => {
    page.list = { name: "written here", bytes: new TextEncoder().encode(written.text), text: true };
    draw();
  };
  return h("div", { class: "even" },
    card("Is this list good?", h("p", { class: "faint" }, "Drop a list here, as bytes, as the office’s JSON or as rows in words; or write it."), area,
      h("div", { class: "buttons" }, h("button", { id: "try", onclick: test }, "Test it"), h("button", { onclick: () => $("file").click() }, "Open a list…")),
      page.list ? tested(page.list) : ""),
    card("The office’s text of these tables", h("pre", { class: "mono" }, office.error ? office.error.text : JSON.stringify(office.json.list ?? office.text, null, 1))));
}

// What a list is, is found by asking: bytes are tested, a text is made a list first, and an older terminal's list is converted.
function tested(list) {
  const made = list.text ? engine.ask({ ask: "list make", name: list.name }, list.bytes) : null;
  if (made?.error) return h("p", { class: "error" }, made.error.text);
  if (made && !made.file) return h("div", { class: "verdict bad" }, h("strong", {}, "not made"), made.text);
  const bytes = made ? made.bytes : list.bytes;
  const said = engine.ask({ ask: "list check", name: list.name }, bytes).json, good = said.answer.number === 0;
  const row = (one, place) => h("tr", { class: place + 1 === said.row ? "bad" : "" }, h("th", { scope: "row" }, String(one.number)), h("td", { class: "mono" }, one.subject),
    h("td", { class: "mono" }, one.permission.letters), h("td", {}, on(one)), h("td", {}, season(one)));
  const fits = said.rows.length && said.rows.length <= page.names.capacity.access_control_entries;
  return [h("div", { class: "verdict " + (good ? "good" : "bad"), "data-answer": said.answer.number },
    h("strong", {}, good ? `accepted, ${said.rows.length} rows` : `not accepted, ${said.answer.number}${said.row ? ", row " + said.row : ""}`), said.reason ?? ""),
  fits ? table(["number", "subject", "permission", "resources", "season"], said.rows.map(row)) : "",
  said.open_roles.length ? h("p", {}, h("strong", {}, "A role row is open to every partner. Rows for roles: " + said.open_roles.join(", "))) : "",
  good ? loading(list.name, bytes) : older(list)];
}

function older(list) {
  const made = engine.ask({ ask: "list convert", name: list.name }, list.bytes);
  if (list.text || !made.file) return "";
  const use = () => {
    page.list = { name: list.name + ", converted", bytes: made.bytes, text: false };
    draw();
  };
  return h("p", {}, "It may be a list of an older terminal. ", h("button", { onclick: use }, "Convert it"));
}

function loading(name, bytes) {
  const sender = h("select", { "aria-label": "Loaded as", id: "loader" },
    page.shown.credentials.map((row) => h("option", { value: row.number, selected: row.subject === page.shown.owner }, "partner " + row.number)));
  const replace = h("input", { type: "checkbox", id: "replace" });
  const load = () => {
    const done = ask("list load", { list: toHex(bytes), list_name: name, sender: Number(sender.value || 0), replace: replace.checked });
    if (done.error) return fail(done.error.text);
    fail(done.well ? "" : done.text);
    page.log.unshift({ tone: done.well ? "good" : "bad", text: done.text });
    if (done.file) change(done.bytes, "the list " + name);
    draw();
    say(done.text);
  };
  return h("div", { class: "buttons" }, h("button", { class: "main", id: "load", onclick: load }, "Load into the copy as"), sender, replace,
    h("label", { for: "replace" }, "replace all rows"),
    h("button", { onclick: () => download(name.replace(/\.[a-z]+$/, "") + ".list", bytes, "application/octet-stream") }, "Save as a list"));
}
