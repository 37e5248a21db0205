// ---- rights: who may do what at the clock, and why

function rights() {
  const answer = ask("rights");
  if (answer.error) { fail(answer.error.text); return ""; }
  const lines = answer.json.senders;
  const open = lines.some((line) => line.sender.kind === "asserting");
  const legend = h("p", { class: "faint" }, "R read and watch, U change, C create, D delete, N be told. Hatched: not served to this sender. ",
    pill("u over", "over"), " the season is over, ", pill("u later", "come"), " it is to come.",
    open ? h("strong", {}, " A role is open to every partner: whoever has a credential may take it on.") : "");
  return h("div", { class: "two" },
    card("Who may do what at " + word(page.clock), h("div", { class: "wide" }, grid(lines)), legend),
    h("aside", { class: "card side", "aria-label": "Why" }, whyPanel(lines)));
}

function grid(lines) {
  const resources = page.names.resources, security = resources.filter((resource) => resource.security).length;
  const before = page.cells;
  page.cells = {};
  const rows = lines.map((line, row) => {
    const [who, what] = senderName(line.sender);
    const small = h("small", { class: "mono", title: what }, brief(what));
    return h("tr", { role: "row" }, h("th", { scope: "row", role: "rowheader" }, who, small),
      resources.map((resource, column) => cell(line, resource, row, column, before)));
  });
  return h("table", { class: "grid", role: "grid", "aria-label": "What each sender may do with each resource", onkeydown: gridKey },
    h("thead", {},
      h("tr", {}, h("td"), h("th", { class: "group", colspan: security, scope: "colgroup" }, "to set the terminal up"),
        h("th", { class: "group", colspan: resources.length - security, scope: "colgroup" }, "to weigh")),
      h("tr", { role: "row" }, h("th", { scope: "col" }, h("span", { class: "sr" }, "Sender")),
        resources.map((resource) => h("th", { scope: "col", title: resource.name + ": " + resource.plain }, resource.short)))),
    h("tbody", {}, rows));
}

function cell(line, resource, row, column, before) {
  const { served, now, over, to_come: soon } = line.resources[resource.name];
  const key = senderKey(line.sender) + resource.name, text = served ? [now, over, soon].map(letters).join("/") : "x";
  page.cells[key] = text;
  const chosen = page.chosen && senderKey(page.chosen.sender) + page.chosen.resource === key;
  const first = page.chosen ? chosen : row === 0 && column === 0;
  const label = `${senderName(line.sender).join(" ")}, ${resource.name}: ${served ? letters(now) || "nothing" : "not served"}` +
    (letters(over) ? `, ${letters(over)} over` : "") + (letters(soon) ? `, ${letters(soon)} to come` : "");
  const turned = before[key] !== undefined && before[key] !== text;
  return h("td", {
    role: "gridcell", class: "cell" + (served ? (letters(now) ? " has" : "") : " shut") + (turned ? " turned" : ""), tabindex: first ? 0 : -1,
    "aria-selected": String(Boolean(chosen)), "aria-label": label, title: `${resource.name}: ${resource.plain}`,
    "data-row": row, "data-column": column, "data-keep": "cell-" + row + "-" + column,
    onclick: () => choose({ sender: line.sender, resource: resource.name, verb: null }, `cell-${row}-${column}`),
  }, served ? inCell(now, over, soon) : h("span", { class: "sr" }, "not served"));
}

function inCell(now, over, soon) {
  const one = (letter, place) => (now.letters[place] === "-" ? h("i", {}, "·") : h("b", {}, letter));
  return [
    letters(now) ? h("span", { class: "letters" }, [...page.names.letters].map(one)) : h("i", {}, "–"),
    letters(over) ? h("span", { class: "late" }, letters(over).toLowerCase() + " over") : null,
    letters(soon) ? h("span", { class: "soon" }, letters(soon).toLowerCase() + " later") : null,
  ];
}

function choose(chosen, keep) {
  page.chosen = chosen;
  draw();
  if (keep) document.querySelector(`[data-keep="${keep}"]`)?.focus({ preventScroll: true });
}

function gridKey(event) {
  const at = event.target.closest("[data-row]");
  if (!at) return;
  const row = Number(at.dataset.row), column = Number(at.dataset.column);
  if (event.key === "Enter" || event.key === " ") {
    event.preventDefault();
    at.click();
    return;
  }
  const to = {
    ArrowRight: [row, column + 1], ArrowLeft: [row, column - 1], ArrowDown: [row + 1, column], ArrowUp: [row - 1, column],
    Home: [row, 0], End: [row, page.names.resources.length - 1],
  }[event.key];
  const next = to && document.querySelector(`[data-keep="cell-${to[0]}-${to[1]}"]`);
  if (!next) return;
  event.preventDefault();
  at.tabIndex = -1;
  next.tabIndex = 0;
  next.focus();
}

// ---- why: somebody was turned away

// Who, what and at which clock, by a cell or by three fields; the answer below them.
function whyPanel(lines) {
  const senders = lines.map((line) => [senderKey(line.sender), senderName(line.sender).map(brief).join(", ")]);
  const sender = page.chosen && senderKey(page.chosen.sender);
  const pick = (key, label, pairs, chosen, change) => [h("label", { for: "why-" + key }, label),
    h("select", { id: "why-" + key, "data-keep": "why-" + key, onchange: (event) => change(event.target.value) },
      page.chosen ? [] : h("option", { value: "" }, "choose"), options(pairs, chosen))];
  const now = page.chosen ?? { sender: lines[0].sender, resource: page.names.resources[0].name, verb: null };
  const of = (key) => lines.find((line) => senderKey(line.sender) === key).sender;
  const fields = h("div", { class: "fields" },
    pick("sender", "Who", senders, sender, (key) => choose({ ...now, sender: of(key), verb: page.chosen?.verb ?? null })),
    pick("resource", "on what", page.names.resources.map((one) => [one.name, `${one.name}, ${one.plain}`]), page.chosen?.resource,
      (resource) => choose({ ...now, resource })));
  const intro = h("p", { class: "faint" }, "Choose a cell of the table, or who and what. Move the clock to the time it happened.");
  return h("div", {}, h("h2", {}, "Why was somebody turned away?"), fields, page.chosen ? explained() : intro);
}

function explained() {
  const { sender, resource, verb } = page.chosen;
  const answer = ask("cell", { of: sender, resource });
  if (answer.error) return h("p", { class: "error" }, answer.error.text);
  const verbs = answer.json.verbs;
  const permitted = (one) => one.why.answer.number === 0;
  const chosen = verbs.find((one) => one.verb === verb) ?? verbs.find((one) => one.verb === "UPDATE" && relevant(one)) ?? verbs.find(permitted) ?? verbs[1];
  const button = (one) => h("button", {
    class: permitted(one) ? "good" : "bad", "aria-pressed": String(one === chosen), "data-keep": "verb-" + one.verb, "data-answer": one.why.answer.number,
    onclick: () => choose({ ...page.chosen, verb: one.verb }, "verb-" + one.verb) }, one.verb);
  return h("div", { "aria-live": "polite" }, h("div", { class: "verbs", role: "group", "aria-label": "What they wanted to do" }, verbs.map(button)),
    inShort(chosen, senderName(sender)[0], resource), details(chosen.why, sender));
}
// A verb is worth showing first where it is permitted at some time.
const relevant = (one) => one.when.spans.some((span) => span.answer.number === 0);

// The answer in two sentences: what, why, and from when to when.
function inShort(one, who, resource) {
  const { why, when } = one, good = why.answer.number === 0;
  const what = `${one.verb} ${resource}`;
  const seasons = outOfSeason(why);
  const reason = good ? givenBy(why) : [sentence(why.answer.words), ...(seasons.length ? seasons : why.notes.map(sentence))].join(" ");
  return h("div", { class: "verdict " + (good ? "good" : "bad"), "data-answer": why.answer.number },
    h("strong", {}, `${who} ${good ? "may" : "may not"} ${what} at ${word(page.clock)}.`),
    h("p", { class: "when" }, next(when, good)), h("p", {}, reason));
}
// If the permission is what lacks: the rows that would give it but for their season, with the season.
const holds = (permission, needed) => [...needed.letters].every((letter) => letter === "-" || permission.letters.includes(letter));
function outOfSeason(why) {
  const { needed, there, rows: all } = why.rights ?? { rows: [] };
  if (!all.length || holds(there, needed)) return [];
  const rows = all.filter((fit) => fit.subject && fit.resource && !fit.season && holds(fit.row.permission, needed)).map((fit) => fit.row);
  return rows.map((row) => `Access row ${row.number} is for this, but ${row.last < page.clock ? "its season is over" : "its season is to come"}: ${season(row)}.`);
}
function sentence(text) {
  return text.charAt(0).toUpperCase() + text.slice(1) + (text.endsWith(".") ? "" : ".");
}
function givenBy(why) {
  const rows = why.rights.rows.filter((fit) => letters(fit.share)).map((fit) => fit.row.number);
  const from = [...why.rights.sources.map((source) => source.why), ...(rows.length ? [`by access row ${rows.join(", ")}`] : [])];
  return sentence(from.join("; "));
}
// From when it is otherwise, by asking the library at each second at which something begins or ends.
function next(when, good) {
  if (good) return when.next ? ["Until ", h("strong", {}, word(when.next.first - 1)), "."] : "Without an end, as the tables are now.";
  if (!when.next) return "As the tables are now, at no later time either.";
  const again = when.spans.some((span) => span.answer.number === 0 && span.last < page.clock) ? "Again " : "It may ";
  return [again, h("strong", {}, /^\d/.test(when.next.words) ? "from " + when.next.words : when.next.words), "."];
}

function details(why, sender) {
  const rights = why.rights;
  const parts = [h("p", { class: "mono" }, why.words), checks(why)];
  parts.push(h("dl", {}, h("dt", {}, "sender"), h("dd", {}, why.sender),
    rights ? [h("dt", {}, "needed"), h("dd", { class: "mono" }, rights.needed.letters), h("dt", {}, "there"), h("dd", { class: "mono" }, rights.there.letters)] : []));
  if (why.notes.length) parts.push(h("ul", { class: "notes" }, why.notes.map((note) => h("li", {}, note))));
  if (rights?.sources.length) {
    const source = (one) => h("li", { class: "gives" }, pill(one.share.letters, "good"), " ", one.why);
    parts.push(h("h3", {}, "Without access rows"), h("ul", { class: "rows" }, rights.sources.map(source)));
  }
  const rows = [...(rights?.rows ?? [])].sort((a, b) => fitness(b) - fitness(a));
  if (rows.length) parts.push(h("h3", {}, "Access rows, and whether their parts fit"), h("ul", { class: "rows" }, rows.map((fit) => fitting(fit, why.words, sender))));
  if (why.planned) parts.push(planned(why.planned));
  return h("div", { class: "details" }, parts);
}
function checks(why) {
  return h("ol", { class: "checks", "aria-label": "The checks in their order" }, page.names.checks.map(({ number, words }) => {
    const passed = why.passed.includes(number), refuses = why.answer.number === number;
    const state = passed ? "passed" : refuses ? "refuses" : "not made";
    return h("li", { class: passed ? "good" : refuses ? "bad" : "", title: `${words}: ${state}` }, String(number), h("span", { class: "sr" }, " " + state));
  }));
}

const fitness = (fit) => (letters(fit.share) ? 8 : 0) + fit.subject + fit.resource + fit.season;
function fitting(fit, record, sender) {
  const { row } = fit, gives = letters(fit.share);
  const part = (name, fits) => pill(name + (fits ? " fits" : " does not fit"), fits ? "good" : "bad");
  const whatIf = gives && sender?.kind !== "asserting";
  return h("li", { class: gives ? "gives" : "" }, h("strong", {}, "Row " + row.number), gives ? [" gives ", pill(fit.share.letters, "good")] : " gives nothing here",
    h("div", {}, short(row.subject), ` has ${row.permission.letters} on ${on(row)}, ${season(row)}`),
    h("div", { class: "parts" }, part("subject", fit.subject), part("resource", fit.resource), part("season", fit.season)),
    whatIf ? h("button", { onclick: (event) => without(row.number, record, event.target) }, "What if it were not there?") : null);
}
function without(number, record, button) {
  const answer = ask("why", { record, without: [number] });
  document.querySelector(".planned")?.remove();
  const box = answer.error ? h("p", { class: "error planned" }, answer.error.text) : planned(answer.json.planned);
  button.closest("li").append(box);
  box.scrollIntoView({ block: "nearest" });
}
function changeWords(one) {
  const fields = (one.fields ?? []).map((field) => `${field.field} ${field.from} → ${field.to}`);
  return `${one.what} ${one.key ?? ""}` + (one.kind === "changed" ? ": " + fields.join("; ") : " " + one.kind);
}
function planned(plan) {
  if (plan.impossible) return h("div", { class: "planned" }, h("h3", {}, "If " + plan.plan), h("p", {}, plan.impossible));
  const shift = (one) => h("li", {}, `${senderName(one.sender)[0]} on ${one.resource}: ${one.from} → ${one.to}`);
  return h("div", { class: "planned" }, h("h3", {}, "If " + plan.plan), verdict(plan.answer, plan.permission),
    h("ul", { class: "notes" }, plan.changes.map((one) => h("li", {}, changeWords(one))), plan.rights.map(shift),
      plan.rights.length ? [] : h("li", {}, "no sender's rights change")));
}
function verdict(answer, permission) {
  const good = answer.number === 0;
  return h("div", { class: "verdict " + (good ? "good" : "bad"), "data-answer": answer.number },
    h("strong", {}, good ? "permitted" + (permission ? " " + permission.letters : "") : `refused, ${answer.number}`), good ? "" : answer.words);
}
