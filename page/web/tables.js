// ---- tables: what the terminal holds

function tables() {
  const shown = page.shown, held = (key) => `${shown[key].length} of ${page.names.capacity[key]}`;
  const tone = (mark) => (mark.includes("to come") ? "come" : "over");
  const partner = (row) => h("tr", {}, h("th", { scope: "row" }, String(row.number)),
    h("td", { class: "mono" }, row.subject, row.subject === shown.owner ? [" ", pill("owner")] : ""),
    h("td", {}, row.role ? role(row) : "none"), h("td", {}, String(row.type)),
    h("td", {}, row.asserted.map((one) => `${role(one)} to ${word(one.last)}`).join(", ")));
  const access = (row) => h("tr", {}, h("th", { scope: "row" }, String(row.number)), h("td", { class: "mono" }, row.subject),
    h("td", { class: "mono" }, row.permission.letters), h("td", {}, on(row)), h("td", {}, season(row)),
    h("td", {}, (row.marks ?? []).map((mark) => [pill(mark, tone(mark)), " "])));
  return h("div", { class: "stack" }, card("The terminal", terminalFacts(shown)),
    card(`Partners (credentials), ${held("credentials")}`,
      table(["number", "subject", "role", "type", `roles taken on (${engine.zone})`], shown.credentials.map(partner))),
    card(`Access rows, ${held("access_control_entries")}`,
      table(["number", "subject", "permission", "resources", `season (${engine.zone})`, "worth a second look"], shown.access_control_entries.map(access))),
    card(`Waiting, ${held("waiting")}`, shown.waiting.length
      ? h("ul", { class: "notes" }, shown.waiting.map((slot) => h("li", { class: "mono" }, slot.words)))
      : h("p", { class: "faint" }, "Nothing waits.")));
}

function terminalFacts(shown) {
  const owners = Object.entries(shown.row_owners).filter(([, owner]) => !/^[0-]+$/.test(owner));
  return h("dl", {}, h("dt", {}, "state"), h("dd", {}, shown.state.name), h("dt", {}, "owner"),
    h("dd", { class: "mono" }, shown.owned ? shown.owner : "nobody"),
    owners.map(([resource, owner]) => [h("dt", {}, "row owner of " + resource), h("dd", { class: "mono" }, owner)]),
    h("dt", {}, "file"), h("dd", {}, `${page.name}, form ${shown.form}, ${page.file.length} bytes`));
}

function unsound(shown) {
  const fault = (one) => h("li", {}, `${one.place}, at byte ${one.byte}: ${one.what}`);
  return card(shown.damage ? "This file is damaged" : "These tables are not sound",
    h("p", {}, shown.damage ?? "Every record gets answer 1 until the terminal is cleared."), h("ul", { class: "notes" }, shown.faults.map(fault)));
}
