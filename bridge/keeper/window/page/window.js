"use strict";
// The window of a session: it hears from the keeper what changed, shows it, and asks for what is done here.
// All names and lines come from programs that play, so they are put in as text and never as HTML.

const GROUP = 1, PARALLEL = 2, PAUSED = 4;
const FLOOR = -60;                                    // the lowest level that a bar shows, in decibels
const HOUR = 3600, SVG = "http://www.w3.org/2000/svg";
const byId = name => document.getElementById(name);
const token = document.querySelector("meta[name=token]").content;

const rows = new Map();                               // of each node its row
const synths = new Map();                             // of each synth its definition and its controls
let flags = new Map(), chosen = null, settings = {}, state = null, heard = 0, restartSeen = 0;

// Texts.

const time = seconds => new Date(seconds * 1000).toTimeString().slice(0, 8);
const whole = number => Math.round(number).toLocaleString("en");
const mebi = bytes => `${whole(bytes / 1048576)} MiB`;
const decibels = peak => peak ? 20 * Math.log10(peak / 32768) : -Infinity;

function shown(value, digits = 6) {
  if (value === null) return "–";
  return String(Number.isInteger(value) ? value : Number(value.toPrecision(digits)));
}

const controlText = ([name, value, , bus]) => `${name} ${bus ? bus : shown(value, 4)}`;
const MEASURES = { hertz: "Hz", seconds: "s", "seconds of a lag": "s", radians: "rad" };

function span(seconds) {
  const days = Math.floor(seconds / 86400), clock = new Date(seconds % 86400 * 1000).toISOString().slice(11, 19);
  return days ? `${days} d ${clock}` : clock;
}

// Elements.

function make(name, attributes = {}, ...children) {
  const made = document.createElement(name);
  for (const [key, value] of Object.entries(attributes)) made.setAttribute(key, value);
  made.append(...children);
  return made;
}

function draw(name, attributes, ...children) {
  const made = document.createElementNS(SVG, name);
  for (const [key, value] of Object.entries(attributes)) made.setAttribute(key, value);
  made.append(...children);
  return made;
}

function say(element, text) {
  if (element.textContent !== text) element.textContent = text;
}

function table(place, heads, lines, none) {
  if (!lines.length) {
    place.replaceChildren(make("p", { class: "none" }, none));
    return;
  }
  const head = make("tr", {}, ...heads.map(each => make("th", { scope: "col" }, each)));
  const body = lines.map(([first, ...others]) =>
    make("tr", {}, make("th", { scope: "row" }, first), ...others.map(each => make("td", {}, each))));
  place.replaceChildren(make("table", {}, make("thead", {}, head), make("tbody", {}, ...body)));
}

// What the keeper tells.

function showSettings(told) {
  if (told.token !== token) location.reload();
  settings = told;
  const sound = `${whole(told.rate)} Hz, ${told.channels} channels of ${told.bits} bits`;
  say(byId("facts"), `${sound}, clients at port ${told.port}`);
}

const TILES = [
  ["Running for", told => [span(told.now - told.since), `since ${time(told.since)}`]],
  ["Load", told => [`${told.load[0].toFixed(0)} %`, `at most ${told.load[1].toFixed(0)} %`]],
  ["Late blocks", ({ late }) => [whole(late[0]), late[0] ? `the worst by ${late[1].toFixed(1)} ms` : "none so far"]],
  ["Restarts", told => [String(told.restarts[0]), `and ${told.players[0]} of the player`]],
  ["Memory", told => [mebi(told.memory.server), `keeper ${mebi(told.memory.keeper + told.memory.window)}`]],
  ["Buffers", told => [`${whole(told.memory.words)}`, `of ${whole(told.memory.most)} words`]],
];

function showState(told) {
  state = told;
  heard = Date.now();
  const tiles = byId("tiles");
  if (!tiles.children.length) {
    tiles.append(...TILES.map(([name]) =>
      make("div", {}, make("dt", {}, name), make("dd"), make("dd", { class: "small" }))));
  }
  TILES.forEach(([, tell], at) => {
    const [much, more] = tell(told), [, first, second] = tiles.children[at].children;
    say(first, much);
    say(second, more);
  });
  tiles.children[2].classList.toggle("bad", told.late[0] > 0);
  const clients = told.clients.length;
  say(byId("clients"), `${clients || "no"} client${clients > 1 ? "s are" : " is"} registered`);
  byId("clients").title = told.clients.map(([number, name]) => `${number}: ${name}`).join("\n");
  showHealth();
  showRestart(told.restarts);
}

function showHealth() {
  const silent = (Date.now() - heard) / 1000, pill = byId("health");
  const plays = state && state.plays ? "plays" : "the server is being started";
  const text = !state ? "no news yet" : silent > 4 ? "no news for some seconds" : plays;
  say(pill, text);
  pill.classList.toggle("bad", text !== "plays" && state !== null);
}

function showRestart([count, last]) {
  const banner = byId("banner");
  banner.hidden = !count || count <= restartSeen;
  if (count) {
    const often = count > 1 ? `, for the ${count}. time` : "";
    say(banner.firstElementChild, `The server was started again at ${time(last)}${often}. ` +
      "What units had written into buffers and buses is lost.");
  }
}

// Levels.

const height = level => Math.max(0, Math.min(1, 1 - level / FLOOR));

const SCALE = [0, -6, -12, -20, -30, -40, -50, -60];

function scaleMark(level) {
  const mark = make("span", {}, String(level));
  mark.style.bottom = `${100 * height(level)}%`;
  return mark;
}

function makeLevels(count) {
  const place = byId("levels"), bars = [], peaks = [], names = [];
  document.documentElement.style.setProperty("--channels", count);
  for (let channel = 0; channel < count; channel++) {
    const says = { "aria-label": `Channel ${channel}`, "aria-valuemin": FLOOR, "aria-valuemax": 0 };
    bars.push(make("div", { class: "bar", role: "meter", ...says }, make("i"), make("b")));
    peaks.push(make("div", { class: "peak" }));
    names.push(make("div", { class: "channel" }, String(channel)));
  }
  const scale = make("div", { class: "scale", "aria-hidden": "true" }, ...SCALE.map(scaleMark));
  place.replaceChildren(scale, ...bars, make("div", { class: "peak quiet" }, "dB"), ...peaks, make("div"), ...names);
}

let nextSpoken = 0;

function showMeters(told) {
  if (!told) return;
  const place = byId("levels"), count = told.length, now = Date.now();
  if (place.querySelectorAll(".bar").length !== count) makeLevels(count);
  const bars = place.querySelectorAll(".bar"), peaks = place.querySelectorAll(".peak:not(.quiet)");
  told.forEach(([peak, held, most], at) => {
    const [cover, mark] = bars[at].children, level = decibels(held);
    cover.style.transform = `scaleY(${1 - height(decibels(peak))})`;
    mark.style.bottom = `calc(${100 * height(level)}% - 2px)`;
    mark.hidden = level < FLOOR;
    say(peaks[at], level < FLOOR ? "–" : level.toFixed(1));
    peaks[at].classList.toggle("full", most >= 32767);
    peaks[at].title = most ? `the greatest so far: ${decibels(most).toFixed(1)} dB` : "";
    if (now > nextSpoken) {
      bars[at].setAttribute("aria-valuenow", Math.max(FLOOR, decibels(held)).toFixed(0));
      bars[at].setAttribute("aria-valuetext", level < FLOOR ? "silent" : `${level.toFixed(0)} decibels`);
    }
  });
  if (now > nextSpoken) nextSpoken = now + 1000;
}

// Nodes.

function makeRow(number) {
  const row = make("div", { role: "treeitem", tabindex: "-1", "aria-selected": "false" },
    make("span", { class: "id" }, String(number)), make("span", { class: "name" }), make("span", { class: "values" }));
  row.number = number;
  rows.set(number, row);
  return row;
}

function placeRow(row, depth, flag) {
  if (row.depth !== depth) {
    row.depth = depth;
    row.setAttribute("aria-level", depth);
    row.style.paddingLeft = `${(depth - 1) * 1.25 + 0.25}rem`;
  }
  if (row.flag === flag) return;
  row.flag = flag;
  const kinds = [flag & GROUP && "group", flag & PARALLEL && "parallel", flag & PAUSED && "paused"];
  row.className = kinds.filter(Boolean).join(" ");
  const tag = row.querySelector(".tag");
  if (flag & PAUSED && !tag) row.append(make("span", { class: "tag" }, "paused"));
  if (!(flag & PAUSED) && tag) tag.remove();
  if (flag & GROUP) say(row.children[1], flag & PARALLEL ? "parallel group" : "group");
}

function showShape(told) {
  const tree = byId("tree"), there = new Map();
  for (let at = 0; at < told.length; at += 3) there.set(told[at], told[at + 2]);
  for (const [number, row] of rows) {
    if (there.has(number)) continue;
    row.remove();
    rows.delete(number);
    synths.delete(number);
  }
  let next = tree.firstElementChild;
  for (let at = 0; at < told.length; at += 3) {
    const row = rows.get(told[at]) || makeRow(told[at]);
    placeRow(row, told[at + 1], told[at + 2]);
    if (row === next) next = next.nextElementSibling;
    else tree.insertBefore(row, next);
  }
  flags = there;
  const groups = [...there.values()].filter(flag => flag & GROUP).length;
  say(byId("count"), there.size ? `${there.size - groups} synths, ${groups} groups` : "");
  byId("silence").hidden = there.size > 0;
  if (!tree.querySelector("[tabindex='0']") && tree.firstElementChild) tree.firstElementChild.tabIndex = 0;
  if (chosen !== null) showChosen();
}

function showSynths(told) {
  for (const [key, [name, controls]] of Object.entries(told)) {
    const number = Number(key), row = rows.get(number);
    synths.set(number, { name, controls });
    if (!row) continue;
    say(row.children[1], name);
    say(row.children[2], controls.map(controlText).join("  "));
    if (number === chosen) showChosen();
  }
}

function choose(number) {
  const before = rows.get(chosen), row = rows.get(number);
  if (!row) return;
  if (before) before.setAttribute("aria-selected", "false");
  for (const each of byId("tree").querySelectorAll("[tabindex='0']")) each.tabIndex = -1;
  if (chosen !== number) byId("controls").replaceChildren();
  chosen = number;
  row.tabIndex = 0;
  row.setAttribute("aria-selected", "true");
  showChosen();
}

function showChosen() {
  const flag = flags.get(chosen), synth = synths.get(chosen), is_there = flag !== undefined;
  const what = flag & PARALLEL ? "parallel group" : flag & GROUP ? "group" : synth ? synth.name : "";
  say(byId("node-head"), is_there ? `Node ${chosen}: ${what}` : `Node ${chosen} has ended`);
  byId("hint").hidden = true;
  byId("acts").hidden = !is_there;
  say(byId("acts").firstElementChild, flag & PAUSED ? "Run" : "Pause");
  showControls(is_there && synth ? synth.controls : []);
}

function controlFields(controls) {
  const fields = controls.flatMap((_, at) => [
    make("label", { for: `control-${at}` }),
    make("input", { id: `control-${at}`, type: "number", step: "any", "data-control": at }),
    make("span", { class: "quiet" })]);
  return controls.length ? [...fields, make("button", { class: "unseen", tabindex: "-1" }, "Set")] : [];
}

function showControls(controls) {
  const form = byId("controls");
  if (form.querySelectorAll("input").length !== controls.length) form.replaceChildren(...controlFields(controls));
  controls.forEach(([name, value, measure, bus], at) => {
    const input = form.querySelector(`#control-${at}`);
    say(input.previousElementSibling, name);
    if (document.activeElement !== input || input.dataset.sent) input.value = value === null ? "" : shown(value);
    delete input.dataset.sent;
    say(input.nextElementSibling, [MEASURES[measure], bus && `follows ${bus}`].filter(Boolean).join(", "));
  });
}

// The plan.

const BOX = { width: 84, height: 40, across: 132, down: 54 };

// A line from a box to another; that of a clash hangs below the boxes between them.
function linkBetween(from, to, kind, text) {
  const start = [from[0] + BOX.width, from[1] + BOX.height / 2], end = [to[0], to[1] + BOX.height / 2];
  const hangs = kind === "clash" && end[0] - start[0] > BOX.across ? 40 : 0;
  const bend = hangs ? 20 : Math.max(12, (end[0] - start[0]) / 2);
  const first = [start[0] + bend, start[1] + hangs], second = [end[0] - bend, end[1] + hangs];
  const path = draw("path", { class: `link ${kind}`, d: `M${start} C${first} ${second} ${end}` });
  const label = hangs ? { x: (start[0] + end[0]) / 2, y: Math.max(start[1], end[1]) + 44, "text-anchor": "middle" }
    : { x: end[0] - 4, y: end[1] - 6, "text-anchor": "end" };
  return text ? [path, draw("text", { class: kind === "clash" ? "clash" : "shared", ...label }, text)] : [path];
}

// Lines of what is shared, those of the longest chain, and those of clashes; each from a node to another.
function planLinks(told, places) {
  const clashes = new Map(told.clashes.map(([, first, second, what]) => [`${first} ${second}`, what]));
  const named = new Set(), found = [];
  for (const [first, second, text] of told.lines) {
    if (clashes.has(`${first} ${second}`)) continue;
    const label = `${second} ${text}`;
    found.push([first, second, "", named.has(label) ? "" : text]);
    named.add(label);
  }
  told.chain.slice(1).forEach((number, at) => found.push([told.chain[at], number, "chain", ""]));
  told.clashes.forEach(([, first, second, what]) => found.push([first, second, "clash", what]));
  return found.filter(([first, second]) => places.has(first) && places.has(second))
    .flatMap(([first, second, kind, text]) => linkBetween(places.get(first), places.get(second), kind, text));
}

function planBox([number, units], [x, y], kind) {
  const name = synths.has(number) ? synths.get(number).name : "";
  return draw("g", { class: `box ${kind}`, transform: `translate(${x} ${y})` },
    draw("title", {}, `${number} ${name}, ${units} units`),
    draw("rect", { width: BOX.width, height: BOX.height, rx: 4 }),
    draw("text", { x: 8, y: 17 }, (name || String(number)).slice(0, 11)),
    draw("text", { class: "quiet", x: 8, y: 32 }, name ? `${number} · ${units}` : `${units} units`));
}

function planText({ synths: count, units, boxes, cost }) {
  const some = boxes.length < count ? `, of which ${boxes.length} are drawn` : "";
  const gain = cost ? (units / cost).toFixed(1) : "1.0";
  return `${count} synths with ${units} units${some}; the longest chain, thick, has ${cost}: many workers are at ` +
    `best ${gain} times as fast as one. Synths one below the other may run at the same time`;
}

function showPlan(told) {
  const place = ([number, , column, row]) => [number, [4 + column * BOX.across, 4 + row * BOX.down]];
  const places = new Map(told.boxes.map(place)), corners = [...places.values()];
  const chain = new Set(told.chain), clash = new Set(told.clashes.flatMap(([, first, second]) => [first, second]));
  const kind = number => clash.has(number) ? "clash" : chain.has(number) ? "chain" : "";
  const width = Math.max(0, ...corners.map(each => each[0])) + BOX.width + 8;
  const high = Math.max(0, ...corners.map(each => each[1])) + BOX.height + (told.clashes.length ? 28 : 8);
  const label = `The longest chain is ${told.chain.join(", ") || "empty"}.`;
  const picture = draw("svg", { viewBox: `0 0 ${width} ${high}`, role: "img", "aria-label": label },
    ...planLinks(told, places), ...told.boxes.map(box => planBox(box, places.get(box[0]), kind(box[0]))));
  Object.assign(picture.style, { width: "100%", maxWidth: `${width}px`, minWidth: `${Math.round(0.8 * width)}px` });
  byId("plan").replaceChildren(told.boxes.length ? picture : make("p", { class: "none" }, "Nothing plays."));
  say(byId("plan-says"), planText(told));
  say(byId("clashes"), told.clashes.map(([group, first, second, what]) =>
    `In parallel group ${group} nodes ${first} and ${second} clash on ${what}.`).join(" "));
}

// Late blocks.

const PLOT = { width: 600, high: 150, left: 40, right: 592, top: 12, bottom: 124 };

function plotFrame(top, across, now) {
  const line = y => draw("line", { class: "axis", x1: PLOT.left, x2: PLOT.right, y1: y, y2: y });
  const beside = (text, y) => draw("text", { class: "quiet", x: PLOT.left - 6, y, "text-anchor": "end" }, text);
  const below = minutes => draw("text", { class: "quiet", x: across(now - 60 * minutes), y: 142,
    "text-anchor": minutes === 60 ? "start" : minutes ? "middle" : "end" }, minutes ? `${minutes} min ago` : "now");
  return [line(PLOT.top), line(PLOT.bottom), beside(top.toFixed(0), 16), beside("ms", 70), beside("0", 128),
    ...[60, 40, 20, 0].map(below)];
}

function showLate(told) {
  const now = told.length ? told[told.length - 1][0] : 0, worst = Math.max(0, ...told.map(each => each[2]));
  const top = Math.max(10, worst), count = told.reduce((sum, each) => sum + each[1], 0);
  const across = seconds => PLOT.left + (PLOT.right - PLOT.left) * (1 - (now - seconds) / HOUR);
  const up = (value, most) => PLOT.bottom - (PLOT.bottom - PLOT.top) * Math.min(1, value / most);
  const bars = told.filter(each => each[1]).map(([at, , by]) => draw("rect",
    { class: "lateness", x: across(at) - 2, width: 3, y: up(by, top), height: PLOT.bottom - up(by, top) }));
  const load = told.map(([at, , , percent]) => `${across(at)},${up(percent, 100)}`).join(" ");
  const restart = state ? state.restarts[1] : null, at = across(restart);
  const mark = draw("line", { class: "again", x1: at, x2: at, y1: PLOT.top, y2: PLOT.bottom });
  const by = count ? `, the worst by ${worst.toFixed(1)} ms` : "";
  const text = `${count ? whole(count) : "none"} in the last hour${by}`;
  say(byId("late-says"), `${text}; grey is the load, to 100 %`);
  const label = `Late blocks: ${text}.`, viewBox = `0 0 ${PLOT.width} ${PLOT.high}`;
  byId("late").replaceChildren(draw("svg", { viewBox, role: "img", "aria-label": label },
    ...plotFrame(top, across, now), draw("polyline", { class: "load", points: load }), ...bars,
    ...(restart && restart > now - HOUR ? [mark] : [])));
}

// Tables.

const more = ([count, some]) => count > some.length ? ` and ${count - some.length} more` : "";
const ids = who => who[0] ? who[1].join(" ") + more(who) : "–";
let users = [];

function showUsers() {
  const known = new Map();
  for (const [bus, value] of state ? state.buses : []) known.set(`c${bus}`, shown(value));
  for (const [number, frames, channels] of state ? state.buffers : []) {
    known.set(`b${number}`, `${whole(frames)} × ${channels}`);
  }
  const used = new Set(users.map(([name]) => name));
  const lines = users.map(([name, ...who]) => [name, ...who.map(ids), known.get(name) || ""]);
  const others = [...known].filter(([name]) => !used.has(name)).map(([name, what]) => [name, "–", "–", "–", what]);
  table(byId("users"), ["", "written by", "mixed by", "read by", "value, or frames"], [...lines, ...others],
    "No bus and no buffer is in use.");
}

const when = seconds => make("span", { class: "when" }, time(seconds));
const showRefused = told => table(byId("refused"), ["last", "what, and why", "times"],
  told.map(([now, what, count]) => [when(now), what, String(count)]), "Nothing was refused.");

let events = [], clashesTold = [];

function showEvents() {
  const told = clashesTold.map(([now, message]) => [now, message.join(" ")]);
  const lines = [...events, ...told].sort((one, other) => other[0] - one[0]);
  table(byId("events"), ["when", "what"], lines.map(([now, line]) => [when(now), line]), "Nothing yet.");
}

const SHOW = {
  settings: showSettings, state: showState, meters: showMeters, shape: showShape, synths: showSynths, plan: showPlan,
  users: told => { users = told; }, late: showLate, refused: showRefused,
  events: told => { events = told; }, told_clashes: told => { clashesTold = told; },
};

const source = new EventSource("/events");
source.onopen = () => { synths.clear(); };
source.onmessage = event => {
  const told = JSON.parse(event.data);
  for (const part of Object.keys(SHOW)) if (part in told) SHOW[part](told[part]);
  if ("users" in told || "state" in told) showUsers();
  if ("events" in told || "told_clashes" in told) showEvents();
};
setInterval(showHealth, 1000);

// What is done here.

async function ask(what, more = {}) {
  const said = byId("said");
  try {
    const answer = await fetch("/do", { method: "POST", body: new URLSearchParams({ token, what, ...more }) });
    if (!answer.ok) throw new Error(answer.statusText);
    const told = await answer.json();
    said.textContent = told.said;
    said.classList.toggle("bad", !told.done);
  } catch (wrong) {
    said.textContent = `It wasn't done: ${wrong.message}.`;
    said.classList.add("bad");
  }
}

function move(event) {
  const tree = byId("tree"), from = document.activeElement;
  const page = Math.max(1, Math.floor(tree.clientHeight / from.offsetHeight) - 1), all = tree.children;
  const steps = { ArrowDown: 1, ArrowUp: -1, PageDown: page, PageUp: -page, Home: -Infinity, End: Infinity };
  if (!(event.key in steps) || from.parentElement !== tree) return;
  event.preventDefault();
  const at = Math.max(0, Math.min(all.length - 1, [...all].indexOf(from) + steps[event.key]));
  choose(all[at].number);
  all[at].focus();
}

function sendControl(input) {
  if (input.value === "" || !input.checkValidity()) return;
  input.dataset.sent = "1";
  ask("set", { node: chosen, control: input.dataset.control, value: input.value });
}

byId("tree").addEventListener("keydown", move);
byId("tree").addEventListener("click", event => {
  const row = event.target.closest("[role=treeitem]");
  if (row) choose(row.number);
});
byId("tree").addEventListener("focusin", event => {
  if (event.target.number !== undefined) choose(event.target.number);
});
byId("acts").addEventListener("click", event => {
  const what = event.target.dataset.what;
  if (what) ask(what === "run" && !(flags.get(chosen) & PAUSED) ? "pause" : what, { node: chosen });
});
byId("controls").addEventListener("change", event => sendControl(event.target));
byId("controls").addEventListener("submit", event => {
  event.preventDefault();
  const input = document.activeElement;
  if (input.dataset.control && !input.dataset.sent) sendControl(input);
});
byId("off").addEventListener("click", () => byId("sure").showModal());
byId("sure").addEventListener("close", () => {
  if (byId("sure").returnValue === "yes") ask("off");
  byId("sure").returnValue = "";
});
byId("banner").lastElementChild.addEventListener("click", () => {
  restartSeen = state.restarts[0];
  byId("banner").hidden = true;
});
