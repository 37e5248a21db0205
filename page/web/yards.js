// ---- yards: whether what one yard sends can change anything for another

const YARDS = ["north", "south", "east", "west"];

function yards() {
  const senders = [[0, "anybody, not authenticated"], ...page.shown.credentials.map((row) => [row.number, `partner ${row.number}`, row.subject])];
  const move = (number) => (event) => {
    page.yards[number] = event.target.value;
    draw();
  };
  const row = ([number, text, subject]) => h("tr", {}, h("th", { scope: "row" }, text, subject ? h("div", { class: "mono faint" }, subject) : ""),
    h("td", {}, h("select", { "aria-label": "Yard of " + text, "data-keep": "y-" + number, onchange: move(number) },
      options([["", "no yard"], ...YARDS.map((name) => [name, name])], page.yards[number] ?? ""))));
  const of = (yard) => senders.filter(([number]) => page.yards[number] === yard).map(([number]) => number || "clear");
  const named = YARDS.map((name) => [name, of(name)]).filter(([, all]) => all.length).map(([name, all]) => `${name}=${all.join(",")}`);
  return h("div", { class: "even" }, card("Who is of which yard", h("table", {}, h("tbody", {}, senders.map(row)))),
    card("Are they isolated?", h("div", { "aria-live": "polite" }, isolation(named))));
}

function isolation(named) {
  if (!named.length) return h("p", { class: "faint" }, "Put partners into yards: the page then says whether what one yard sends can change anything for anybody else.");
  const answer = ask("yards", { yards: named }), said = answer.json;
  if (answer.error) return h("p", { class: "error" }, answer.error.text);
  const yard = (one) => h("div", { class: "verdict " + (one.isolated ? "good" : "bad") }, h("strong", {}, `${one.name}: ${one.isolated ? "isolated" : "not isolated"}`),
    one.reason ? one.reason.words : "Whatever its partners send changes nothing for anybody else.");
  const could = said.others.filter((other) => other.could_end), not = said.others.filter((other) => !other.could_end);
  const last = answer.text.trim().split("\n\n").at(-1);
  return [said.yards.map(yard), h("h3", {}, "Of no yard, and could end it"),
    could.length ? h("ul", { class: "notes" }, could.map((other) => h("li", {}, senderName(other.sender)[0], ": ", other.reason.words))) : h("p", { class: "faint" }, "nobody"),
    h("h3", {}, "Of no yard, and could not"), h("div", { class: "parts" }, not.map((other) => pill(senderName(other.sender)[0]))), h("p", { class: "faint" }, last)];
}
