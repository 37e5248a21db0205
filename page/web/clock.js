// ---- the clock: bands for seasons, and the seconds at which something begins or ends

const BANDS = 8;

function drawClock(shown) {
  const now = Math.floor(Date.now() / 1000), slider = $("slider"), last = page.names.last_second;
  page.edges = ask("when", { verb: page.names.verbs[1], resource: page.names.resources[0].name }).json?.edges ?? [];
  const near = page.edges.filter((edge) => edge > 86400 && edge < last);
  const month = 30 * 86400;
  const from = Math.max(0, Math.min(now, page.clock, ...near) - month), to = Math.min(last, Math.max(now, page.clock, ...near) + month);
  slider.min = from - (from % 3600);
  slider.max = to;
  slider.value = page.clock;
  slider.setAttribute("aria-valuetext", word(page.clock) + " " + engine.zone);
  $("time").value = local(page.clock).slice(0, 19);
  $("back").disabled = !page.edges.some((edge) => edge < page.clock);
  $("on").disabled = !page.edges.some((edge) => edge > page.clock);
  drawBands(shown.access_control_entries.filter((row) => row.first > 0 || row.last < last).slice(0, BANDS), from, to);
}

function drawBands(rows, from, to) {
  const tall = 16 / Math.max(2, rows.length);
  const x = (second) => Math.max(0, Math.min(1000, ((second - from) / (to - from)) * 1000));
  $("seasons").setAttribute("viewBox", "0 0 1000 16");
  $("seasons").replaceChildren(...rows.map((row, place) => {
    const band = document.createElementNS("http://www.w3.org/2000/svg", "rect");
    const tone = row.last < page.clock ? "over" : row.first > page.clock ? "" : "now";
    const size = { x: x(row.first), width: Math.max(2, x(row.last) - x(row.first)), y: place * tall + 0.8, height: tall - 1.6, rx: 2, class: "band " + tone };
    for (const [name, value] of Object.entries(size)) band.setAttribute(name, value);
    return band;
  }));
}

let frame = 0;
function setClock(second) {
  if (!Number.isFinite(second)) return;
  page.clock = Math.max(0, Math.min(page.names.last_second, Math.floor(second)));
  cancelAnimationFrame(frame);
  frame = requestAnimationFrame(draw);
}

function setZone(zone) {
  const read = engine.ask({ ask: "time", clock: 0, zone });
  fail(read.error ? read.error.text : "");
  if (!read.error) engine.zone = zone;
  $("zone").value = engine.zone;
  draw();
}

function startClock() {
  $("slider").oninput = (event) => setClock(Number(event.target.value));
  $("time").onchange = (event) => {
    const read = engine.ask({ ask: "time", clock: event.target.value });
    fail(read.error ? read.error.text : "");
    if (!read.error) setClock(read.json.second);
  };
  const own = Intl.DateTimeFormat().resolvedOptions().timeZone;
  const zones = [...new Set(["UTC", own, ...(Intl.supportedValuesOf?.("timeZone") ?? [])])];
  $("zone").replaceChildren(...options(zones.map((zone) => [zone, zone]), "UTC"));
  $("zone").onchange = (event) => setZone(event.target.value);
  $("now").onclick = () => setClock(Date.now() / 1000);
  $("back").onclick = () => setClock(page.edges.filter((edge) => edge < page.clock).pop());
  $("on").onclick = () => setClock(page.edges.find((edge) => edge > page.clock));
}
