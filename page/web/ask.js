// ---- ask and judge: a record in words or by fields, on the copy in this page

const form = { sender: "0", verb: "RETRIEVE", resource: "/weight", line: "RETRIEVE /weight", fields: {} };
const TEXT = "text";

function compose() {
  const filled = Object.entries(form.fields).filter(([, value]) => value);
  const words = filled.map(([name, value]) => (name === TEXT ? "text:" + value : `${name}=${value}`));
  const sender = form.sender === "0" ? [] : ["as", form.sender];
  form.line = [form.verb, form.resource, ...sender, ...words].join(" ");
}

function asks() {
  return h("div", { class: "even" }, recordCard(), h("div", { class: "stack" }, whoMay(), logCard()));
}

function recordCard() {
  const change = (key) => (event) => {
    form[key] = event.target.value;
    if (key !== "sender") form.fields = {};
    compose();
    draw();
  };
  const pick = (key, label, pairs) => [h("label", { for: "f-" + key }, label),
    h("select", { id: "f-" + key, "data-keep": "f-" + key, onchange: change(key) }, options(pairs, form[key]))];
  const senders = [["0", "anybody, not authenticated"], ...page.shown.credentials.map((row) => [String(row.number), `partner ${row.number} of ${row.subject}`])];
  const known = resourceOf(form.resource), own = known.fields[form.verb];
  const names = own.length ? own : form.verb === "UPDATE" ? [TEXT] : [];
  const out = h("div", { id: "said", "aria-live": "polite" });
  const buttons = h("div", { class: "buttons" },
    h("button", { class: "main", id: "why", onclick: () => out.replaceChildren(whyRecord(form.line)) }, "Why?"),
    h("button", { id: "judge", onclick: () => judge(form.line) }, "Judge it here"),
    h("button", { id: "hand-in", onclick: () => judge("hand-in " + form.line) }, "Hand in"),
    h("button", { id: "take", onclick: () => judge("take") }, "Take"));
  return card("A record", h("div", { class: "fields" }, pick("sender", "sender", senders), pick("verb", "verb", page.names.verbs.map((verb) => [verb, verb])),
    pick("resource", "resource", page.names.resources.map((one) => [one.name, `${one.name}, ${one.plain}`])), names.map(field),
    h("label", { for: "line" }, "in words, or in digits"),
    h("textarea", { id: "line", rows: 2, spellcheck: "false", "data-keep": "line", oninput: (event) => { form.line = event.target.value; } }, form.line)),
  buttons, h("p", { class: "faint" }, "“Why?” changes nothing. The others change the copy in this page, until you undo or save it."), out);
}
function field(name) {
  const type = (event) => {
    form.fields[name] = event.target.value;
    compose();
    $("line").value = form.line;
  };
  return [h("label", { for: "x-" + name }, name),
    h("input", { id: "x-" + name, type: "text", "data-keep": "x-" + name, value: form.fields[name] ?? "", oninput: type })];
}

function whyRecord(record) {
  const answer = ask("why", { record });
  if (answer.error) return h("p", { class: "error" }, answer.error.text);
  const when = ask("when", { record }).json, good = answer.json.answer.number === 0;
  return h("div", {}, verdict(answer.json.answer), h("p", { class: "when" }, next(when, good)), details(answer.json));
}

function judge(lines) {
  const answer = ask("judge", { lines });
  if (answer.error) return fail(answer.error.text);
  fail(answer.json.notes.map(sentence).join(" "));
  for (const one of answer.json.records) {
    const good = one.answer.number === 0;
    const result = good ? "permitted " + one.permission.letters : `refused ${one.answer.number}, ${one.answer.words}`;
    const more = [...one.changes.map(changeWords), ...one.reply_words, ...one.links].join("; ");
    page.log.unshift({ tone: good ? "good" : "bad", text: `${result}: ${one.act === "judge" ? "" : one.act + " "}${one.words}`, more });
    say(good ? "permitted" : "refused, " + one.answer.words);
  }
  change(answer.bytes, lines);
  draw();
  const last = answer.json.records.at(-1);
  if (last) $("said")?.replaceChildren(verdict(last.answer, last.permission), h("p", { class: "mono" }, last.words));
}

function logCard() {
  const entry = (one) => h("li", { class: one.tone }, one.text, one.more ? h("div", { class: "faint" }, one.more) : "");
  return card("What was judged", page.log.length ? h("ol", { class: "log" }, page.log.map(entry)) : h("p", { class: "faint" }, "Nothing yet."));
}

const who = { verb: "UPDATE", resource: "/tare" };
function whoMay() {
  const pick = (key, pairs) => h("select", { "aria-label": key, "data-keep": "w-" + key, onchange: (event) => { who[key] = event.target.value; draw(); } },
    options(pairs, who[key]));
  const answer = ask("who", who), said = answer.json;
  if (answer.error || !said.may) return card("Who may?", h("p", { class: "error" }, answer.error?.text ?? answer.text));
  const name = (sender) => senderName(sender)[0];
  const by = (one) => [...(one.rows.length ? ["row " + one.rows.join(", ")] : []), ...(one.sources ?? [])].map((text) => ", " + text).join("");
  const list = (title, all, tone) => [h("h3", {}, title),
    all.length ? h("div", { class: "parts" }, all.map((text) => pill(text, tone))) : h("p", { class: "faint" }, "nobody")];
  return card("Who may?",
    h("div", { class: "buttons" }, pick("verb", page.names.verbs.map((verb) => [verb, verb])), pick("resource", page.names.resources.map((one) => [one.name, one.name]))),
    said.refusal ? h("p", { class: "verdict bad" }, `Nobody now: ${said.refusal.number}, ${said.refusal.words}. What follows are rights alone.`) : "",
    list("may", said.may.map((one) => name(one.sender) + by(one)), "good"),
    list("could by taking on a role", said.could.map((one) => `${name(one.sender)}, role ${role(one)}` + by(one)), "over"),
    list("may not now", said.may_not.map(name), ""));
}
