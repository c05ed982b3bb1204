// The page: what is pressed becomes a line of the session, and what is replied is laid out.
"use strict";

const byId = (id) => document.getElementById(id);
let machine = null;

// What was asked for so far: the session is its input and its commands.
const state = { source: "", input: "", policies: [], commands: [], lesson: null };
let started = null; // of the source that runs: its image, the places of its lines, and the runs of words that are shown
let shown = null; // what the last reply showed
let asking = false;
let waiting = null; // what is started once the call that is being made ends

// ---- pieces of the page

function made(name, { text = "", className = "", ...properties } = {}, ...children) {
  const node = Object.assign(document.createElement(name), properties);
  if (className) node.className = className;
  if (text) node.textContent = text;
  node.append(...children);
  return node;
}

// A tag's text, which may be cut between the parts of its policies.
const tagNodes = (tag) => tag.split("|").flatMap((part, at) => (at === 0 ? [part] : ["|", made("wbr"), part]));

const heard = (text) => made("span", { className: "heard", text });

function tell(text, isWrong = false) {
  byId("told").textContent = text;
  byId("told").classList.toggle("wrong", isWrong);
}

// While a call is made, presses do nothing. Buttons keep their focus, so they aren't disabled but say that they are.
function setAsking(now) {
  asking = now;
  const stays = !started || state.commands.length === 0;
  for (const button of document.querySelectorAll("#run button, #assemble, #lesson-step")) setOff(button, now || !started);
  setOff(byId("assemble"), now);
  setOff(byId("stop"), !now);
  for (const id of ["back", "reset"]) setOff(byId(id), now || stays);
  byId("run").setAttribute("aria-busy", String(now));
  if (now) return;
  if (started && shown) layOutLesson();
  const act = waiting;
  waiting = null;
  act?.();
}

function setOff(button, isOff) {
  button.setAttribute("aria-disabled", String(isOff));
}

// ---- the session

function shellLine() {
  const list = state.policies.length ? state.policies.join(",") : "none";
  return `pump shell file --policy ${list}`;
}

// Asks for the whole session anew, and lays out what it came to.
async function ask() {
  const lines = linesOf(state, started.windows);
  const reply = await machine.call(shellLine(), started.image, inputOf(lines.lines));
  if (reply.status !== 0) throw new Error(`${text(reply.err).trim()} (status ${reply.status}: ${STATUSES[reply.status] ?? ""})`);
  shown = { ...readSession(state, lines, reply.out), took: reply.took };
  layOut();
}

// Makes these the session's commands; where the call is ended or fails, the session is as before.
async function go(commands) {
  if (asking || !started) return;
  const before = state.commands;
  state.commands = commands;
  setAsking(true);
  try {
    await ask();
    tell("");
  } catch (error) {
    state.commands = before;
    tell(error instanceof Ended ? "Stopped: the session is as it was before this press." : `The machine gave no reply: ${error.message}`, !(error instanceof Ended));
  }
  setAsking(false);
  keepInAddressSoon();
}

const press = (command) => go([...state.commands, command]);

// ---- assembling

async function start(commands = []) {
  if (asking) {
    waiting = () => start(commands);
    return;
  }
  readForm();
  setAsking(true);
  started = null;
  state.commands = [];
  try {
    const { image, refused } = await assemble(machine, state.source);
    if (refused) {
      refuse(refused);
    } else {
      await startImage(image, commands);
    }
  } catch (error) {
    started = null;
    showSource(false);
    tell(`The machine gave no reply: ${error.message}`, true);
  }
  setAsking(false);
  keepInAddressSoon();
}

async function startImage(image, commands) {
  const listing = await listed(machine, image);
  const places = await placesOf(machine, state.source);
  started = { image, listing, places, windows: windowsOf(listing, state.source) };
  state.commands = commands;
  showSource(true);
  await ask();
  tell(places.every((place) => place === null) ? "Assembled. The assembler tells no places of lines here." : "Assembled.");
}

// The line that refuses the source is shown, and the line of the source that it names is marked.
function refuse(line) {
  showSource(false);
  tell(line, true);
  const number = line.match(/ line (\d+) /);
  if (!number) return;
  const field = byId("source");
  const before = field.value.split("\n").slice(0, number[1] - 1).join("\n").length;
  const from = number[1] === "1" ? 0 : before + 1;
  field.focus();
  field.setSelectionRange(from, from + field.value.split("\n")[number[1] - 1].length);
}

function readForm() {
  state.source = byId("source").value;
  state.input = byId("input").value;
  state.policies = [...document.querySelectorAll("[name=policy]:checked")].map((box) => box.value);
}

function fillForm() {
  byId("source").value = state.source;
  byId("input").value = state.input;
  for (const box of document.querySelectorAll("[name=policy]")) box.checked = state.policies.includes(box.value);
}

function showSource(isRunning) {
  byId("source").hidden = isRunning;
  byId("lines").hidden = !isRunning;
  byId("edit").hidden = !isRunning;
  if (isRunning) byId("lines").replaceChildren(...state.source.split("\n").map(lineNode));
}

// A click on the line, or on its button, sets or clears a breakpoint; one that ends a selection of text does not.
function lineNode(line, at) {
  const place = started.places[at];
  const begun = line.indexOf("#") < 0 ? line.length : line.indexOf("#");
  const node = made("div", { className: place === null ? "line" : "line at" },
    place === null ? made("span") : made("button", { type: "button", text: "○" }),
    made("span", { className: "harts" }),
    made("span", { className: "number", text: String(at + 1) }),
    made("span", { className: "place", text: place ?? "" }),
    made("span", {}, line.slice(0, begun), made("span", { className: "comment", text: line.slice(begun) })));
  if (place !== null) node.onclick = () => { if (getSelection().isCollapsed) toggleBreak(place); };
  return node;
}

// ---- breakpoints: those that the session's commands set and didn't clear

function breaks() {
  const set = new Set();
  for (const command of state.commands) {
    const { first, second } = partsOf(command);
    const place = (second ?? "").toUpperCase().padStart(8, "0");
    if (first === "break") set.add(place);
    if (first === "clear") set.delete(place);
  }
  return set;
}

function toggleBreak(place) {
  press(breaks().has(place) ? `clear ${place}` : `break ${place}`);
}

// ---- laying out

function layOut() {
  layOutHarts();
  layOutLines();
  layOutStops();
  layOutFacts();
  layOutRegisters();
  layOutMemory();
  layOutOwners();
  layOutLog();
  layOutLesson();
  requestAnimationFrame(bringIntoView);
}

// Made anew only where there are other harts than before, since a button that is made anew loses the focus.
function layOutHarts() {
  const { harts } = shown.now;
  if (byId("hart").length === harts.length) return;
  byId("hart").replaceChildren(...harts.map(({ hart }) => made("option", { text: String(hart), value: String(hart) })));
  byId("steps").replaceChildren(...harts.map(({ hart }) =>
    made("button", { type: "button", text: harts.length > 1 ? `Step hart ${hart}` : "Step", onclick: () => press(`step ${hart} 1`) })));
}

// A line's node is changed only where its breakpoint or the harts there did: a page lays out anew what is changed.
function layOutLines() {
  const set = breaks();
  const hartsAt = new Map();
  for (const { hart, pc } of shown.now.harts) {
    const at = lineAt(started.places, pc);
    hartsAt.set(at, [...(hartsAt.get(at) ?? []), hart]);
  }
  [...byId("lines").children].forEach((node, at) => {
    const harts = (hartsAt.get(at) ?? []).join(", ");
    const place = started.places[at];
    const marks = `${harts} ${set.has(place)}`;
    if (node.marks === marks) return;
    node.marks = marks;
    markLine(node, at, harts, place, set.has(place));
  });
}

function markLine(node, at, harts, place, isSet) {
  node.classList.toggle("here", harts !== "");
  node.children[1].replaceChildren(...(harts ? [`▶${harts}`, heard(` the pc of hart ${harts}`)] : []));
  if (place === null) return;
  node.firstChild.textContent = isSet ? "●" : "○";
  node.firstChild.setAttribute("aria-pressed", String(isSet));
  node.firstChild.setAttribute("aria-label", `Breakpoint at line ${at + 1}, ${place}`);
}

// The line of a pc and the session's end come into view, once the browser has laid out what changed.
function bringIntoView() {
  const lines = byId("lines");
  const here = lines.querySelector(".here");
  const log = byId("log");
  const place = (node) => node.getBoundingClientRect().top;
  const top = lines.scrollTop + (here ? place(here) - place(lines) - lines.clientHeight / 3 : 0);
  const end = log.scrollHeight;
  lines.scrollTop = top;
  log.scrollTop = end;
}

function layOutStops() {
  byId("stops").replaceChildren(...shown.now.harts.map(({ why, pc, tag }) => {
    const reason = reasonOf(why);
    const link = reason?.page ? made("a", { href: reason.page, text: reason.link }) : "";
    return made("div", { className: why.startsWith("ready") ? "stop ready" : "stop" },
      made("p", {}, made("code", { text: why })),
      made("p", {}, `${reason?.text ?? ""} `, link),
      made("p", {}, made("code", {}, `pc ${pc} `, ...tagNodes(tag))));
  }));
}

function layOutFacts() {
  const last = shown.log.at(-1);
  byId("reply").textContent = last ? last.reply.filter((line) => !line.startsWith("out ")).join("\n") || "(nothing)" : "";
  const bytes = outputOf(shown.log);
  byId("output").textContent = bytes.length ? text(bytes) : "(none)";
  byId("stats").textContent = shown.now.stats;
  byId("blocks").textContent = shown.now.blocks.filter((line) => line !== "").join("\n") || "(none)";
}

// Makes the children of a node from what they show; a child that shows the same as before stays.
function layChildren(parent, items, nodeOf) {
  items.forEach((item, at) => {
    const marks = JSON.stringify(item);
    const old = parent.children[at];
    if (old?.marks === marks) return;
    const node = Object.assign(nodeOf(item), { marks });
    if (old) old.replaceWith(node);
    else parent.append(node);
  });
  while (parent.children.length > items.length) parent.lastChild.remove();
}

function layOutRegisters() {
  const chosen = Number(byId("hart").value);
  const now = shown.now.harts.find(({ hart }) => hart === chosen);
  const old = shown.old.harts.find(({ hart }) => hart === chosen);
  const registers = now.regs.map((register, at) => {
    const isChanged = old.regs[at].second !== register.second || old.regs[at].rest !== register.rest;
    return { name: NAMES[at] === undefined ? register.first : `${register.first} (${NAMES[at]})`, value: register.second, tag: register.rest, isChanged };
  });
  layChildren(byId("registers"), registers, registerNode);
}

function registerNode({ name, value, tag, isChanged }) {
  return made("div", { className: isChanged ? "register changed" : "register" },
    made("span", { text: name }), made("span", { text: value }), made("span", {}, ...tagNodes(tag), ...(isChanged ? [heard(" changed")] : [])));
}

function layOutMemory() {
  const old = new Map(shown.old.words.map((word) => [word.address, word]));
  const harts = new Map();
  for (const { hart, pc } of shown.now.harts) harts.set(pc, [...(harts.get(pc) ?? []), hart]);
  const rows = shown.now.words.map((word) => ({ now: word, old: old.get(word.address) ?? word, harts: harts.get(word.address) ?? [] }));
  layChildren(byId("memory").tBodies[0], rows, rowNode);
}

function rowNode({ now, old, harts }) {
  const cells = ["word", "text", "tag"].map((part) => cell(now[part], old[part]));
  const row = made("tr", { className: harts.length ? "here" : "" }, made("td", { text: now.address }), ...cells);
  if (harts.length) row.cells[0].append(` ▶${harts.join(",")}`, heard(` the pc of hart ${harts.join(", ")}`));
  return row;
}

function cell(value, old) {
  const isChanged = old !== value;
  return made("td", { text: value, className: isChanged ? "changed" : "" }, ...(isChanged ? [heard(" changed")] : []));
}

// Words side by side with the same tag are one row.
function layOutOwners() {
  const rows = [];
  for (const { address, tag } of shown.now.words) {
    const row = rows.at(-1);
    const isNext = row && row.tag === tag && parseInt(row.to, 16) + 4 === parseInt(address, 16);
    if (isNext) row.to = address;
    else rows.push({ from: address, to: address, tag });
  }
  layChildren(byId("owners").tBodies[0], rows, ({ from, to, tag }) =>
    made("tr", {}, made("td", { text: from }), made("td", { text: to }), made("td", { text: tag })));
}

const MOST_LOGGED = 200;

function layOutLog() {
  const first = Math.max(0, shown.log.length - MOST_LOGGED);
  byId("log").start = first + 1;
  layChildren(byId("log"), shown.log.slice(first), ({ command, reply }) =>
    made("li", {}, made("div", { className: "asked", text: command }), made("pre", { text: reply.slice(0, MOST_LOGGED).join("\n") })));
}

// ---- examples and lessons

function fillChoice() {
  const group = (label, list, kind) => made("optgroup", { label }, ...list.map(({ name, title }, at) =>
    made("option", { value: `${kind} ${at}`, text: title ?? name })));
  byId("choice").replaceChildren(
    made("option", { value: "", text: "your own source" }),
    group("Lessons", PUMP_LESSONS, "lesson"), group("Examples", PUMP_EXAMPLES, "example"));
}

const exampleOf = (name) => PUMP_EXAMPLES.find((example) => example.name === name);

function chosen() {
  const [kind, at] = byId("choice").value.split(" ");
  if (kind === "lesson") return { lesson: Number(at), example: exampleOf(PUMP_LESSONS[at].example) };
  if (kind === "example") return { lesson: null, example: PUMP_EXAMPLES[at] };
  return { lesson: null, example: null };
}

function takeChoice(run) {
  const { lesson, example } = chosen();
  state.lesson = lesson;
  byId("attack").replaceChildren(...(example?.runs ?? []).map((run, at) => made("option", { value: String(at), text: run.title })));
  if (!example) return;
  state.source = example.source;
  if (lesson === null) {
    takeRun(run ?? example.runs.length - 1);
  } else {
    byId("attack").value = "";
    Object.assign(state, { policies: PUMP_LESSONS[lesson].policies, input: "" });
  }
  fillForm();
  start();
}

function takeRun(at) {
  const run = chosen().example?.runs[at];
  if (!run) return;
  byId("attack").value = String(at);
  Object.assign(state, { policies: run.policies, input: run.input });
  fillForm();
}

function layOutLesson() {
  const lesson = PUMP_LESSONS[state.lesson];
  byId("lesson").hidden = !lesson;
  if (!lesson) return;
  byId("lesson-title").textContent = lesson.title;
  byId("lesson-goal").textContent = lesson.goal;
  const done = state.commands.filter((command, at) => command === lesson.steps[at]).length;
  const next = done === state.commands.length ? lesson.steps[done] : undefined;
  setOff(byId("lesson-step"), next === undefined);
  byId("lesson-next").textContent = next === undefined ? (done === lesson.steps.length ? "That was the last one." : "The session has gone another way: Reset leads back.") : next;
  byId("lesson-step").onclick = () => { if (next !== undefined) press(next); };
}

// ---- a link that holds the state

let keeping = 0; // the timer of the next time that the address is changed

// Soon, and once for presses in a row: a browser takes its time to change a long address.
function keepInAddressSoon() {
  clearTimeout(keeping);
  keeping = setTimeout(keepInAddress, 400);
}

function keepInAddress() {
  clearTimeout(keeping);
  const held = { s: state.source, i: state.input, p: state.policies, c: state.commands, l: state.lesson };
  const bytes = new TextEncoder().encode(JSON.stringify(held));
  const letters = btoa([...bytes].map((byte) => String.fromCharCode(byte)).join(""));
  history.replaceState(null, "", `#${letters.replace(/\+/g, "-").replace(/\//g, "_").replace(/=+$/, "")}`);
}

const isText = (value, most) => typeof value === "string" && value.length <= most;
const isList = (value, most) => Array.isArray(value) && value.every((item) => isText(item, most) && !item.includes("\n"));

// What a link holds, where it is what this page writes; a link comes from elsewhere.
function heldInAddress() {
  try {
    const letters = location.hash.slice(1).replace(/-/g, "+").replace(/_/g, "/");
    const held = JSON.parse(new TextDecoder().decode(Uint8Array.from(atob(letters), (letter) => letter.charCodeAt(0))));
    const isWhole = isText(held.s, 1 << 20) && isText(held.i, 1 << 16) && isList(held.p, 5) && isList(held.c, 256);
    return isWhole ? held : null;
  } catch {
    return null;
  }
}

function openAddress() {
  const held = location.hash.length > 1 ? heldInAddress() : null;
  if (!held) return false;
  const lesson = Number.isInteger(held.l) && held.l >= 0 && held.l < PUMP_LESSONS.length ? held.l : null;
  const policies = held.p.filter((name) => Object.hasOwn(POLICIES, name));
  const commands = held.c.filter((command) => command !== MARK && !command.startsWith("quit"));
  Object.assign(state, { source: held.s, input: held.i, policies, lesson });
  byId("choice").value = lesson === null ? "" : `lesson ${lesson}`;
  fillForm();
  start(commands);
  return true;
}

async function share() {
  keepInAddress();
  try {
    await navigator.clipboard.writeText(location.href);
    tell("The link is copied: it holds the source, the policies, the input and the session.");
  } catch {
    tell("The link is in the address bar: it holds the source, the policies, the input and the session.");
  }
}

// ---- buttons and keys

function look() {
  const address = parseInt(byId("from").value, 16);
  const count = Number(byId("words").value);
  if (!started || !(address >= 0) || !(count >= 1)) return;
  started.windows = joined([...started.windows.map((run) => [...run]), [address - (address % 4), Math.min(count, MOST_WORDS)]]);
  go(state.commands);
}

const buttons = {
  assemble: () => start(),
  edit: () => { showSource(false); byId("source").focus(); },
  share,
  go: () => press(`run ${byId("most").value}`),
  back: () => go(state.commands.slice(0, -1)),
  reset: () => go([]),
  stop: () => { if (asking) machine.stop(); },
  turns: () => press(`turns ${byId("order").value.trim()}`),
  look,
};

for (const [id, act] of Object.entries(buttons)) byId(id).onclick = act;
byId("choice").onchange = () => takeChoice();
byId("attack").onchange = () => { state.lesson = null; takeRun(Number(byId("attack").value)); start(); };
byId("hart").onchange = () => { if (shown) layOutRegisters(); };
byId("order").onkeydown = (event) => { if (event.key === "Enter") buttons.turns(); };
byId("input").onkeydown = (event) => { if (event.key === "Enter") start(); };
for (const box of document.querySelectorAll("[name=policy]")) box.onchange = () => { if (started) start(); };
window.onhashchange = openAddress;

// What a page without a state begins with: an attack that a policy stops.
function showAttack() {
  const at = PUMP_EXAMPLES.findIndex(({ name }) => name === "hijack");
  byId("choice").value = `example ${at}`;
  takeChoice(PUMP_EXAMPLES[at].runs.findIndex(({ policies }) => policies.join() === "flow"));
}

function begin() {
  showSource(false);
  setAsking(false);
  if (typeof PUMP_MODULE === "undefined" || typeof PUMP_EXAMPLES === "undefined") {
    tell("The folder made/ isn't there yet: web/make makes it.", true);
    return;
  }
  machine = new Machine(bytesOfModule(PUMP_MODULE));
  fillChoice();
  if (!openAddress()) showAttack();
}

begin();
