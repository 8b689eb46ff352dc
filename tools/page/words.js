"use strict";
// Names, elements and sentences. Nothing here or in the files after it writes markup: every text becomes a text node.

const $ = id => document.getElementById(id);

function fill(element, attributes, children) {
  for (const [name, value] of Object.entries(attributes || {})) {
    if (value === undefined || value === null || value === false) continue;
    if (name === "hue") element.style.setProperty("--hue", value);
    else if (name === "grow") element.style.flexGrow = value;
    else if (name.startsWith("on")) element.addEventListener(name.slice(2), value);
    else element.setAttribute(name, value === true ? "" : value);
  }
  element.append(...children.flat(Infinity).filter(child => child !== null && child !== undefined && child !== false));
  return element;
}

const make = (tag, attributes, ...children) => fill(document.createElement(tag), attributes, children);
const shape = (tag, attributes, ...children) =>
  fill(document.createElementNS("http://www.w3.org/2000/svg", tag), attributes, children);
const bold = text => make("b", {}, text);
const code = text => make("code", {}, text);
const plural = (count, word) => `${count.toLocaleString("en")} ${word}${count === 1 ? "" : "s"}`;
const cut = (text, most) => text.length > most ? `${text.slice(0, most - 1)}…` : text;

// Neighbouring keys in a lane get different colours. A colour shows nothing that a name does not show too.
const hueOf = key => Math.round(key.index * 137.5 + 210) % 360;

const LANES = { p: "input pool", b: "base key", call: "one long read" };

function laneName(lane) {
  if (LANES[lane]) return LANES[lane];
  return lane[0] === "c" ? `CPU ${lane.slice(1)}` : `vDSO state ${lane.slice(1)}`;
}

// A lane, as the object of a visit.
const placeName = lane => lane === "p" || lane === "b" ? `the ${laneName(lane)}` : laneName(lane);

function laneOf(holder) {
  if (holder === "base") return "b";
  if (holder === "call") return "call";
  return holder.startsWith("cpu") ? `c${holder.slice(3)}` : `v${holder.slice(5)}`;
}

function grouped(items, by) {
  const groups = new Map();
  for (const item of items) {
    const name = by(item);
    if (!groups.has(name)) groups.set(name, []);
    groups.get(name).push(item);
  }
  return groups;
}

// Tables that are looked up again and again.
function indexed(model) {
  model.byId = new Map(model.lines.map(line => [line.id, line]));
  model.byName = new Map(model.keys.map(key => [key.name, key]));
  model.madeAt = grouped(model.keys, key => key.from);
  model.goneAt = grouped(model.keys, key => key.to);
  model.shown = model.lines.filter(line => line.parts.length);
  return model;
}

const eventOf = (model, line) => (model.callers[line.caller][line.event] || { text: "end" }).text;

// The name of a key, which highlights the key wherever it is shown.
function keyName(model, name) {
  const key = model.byName.get(name);
  return key ? make("button", { class: "key-name mono", hue: hueOf(key), "data-key": name, title: `light ${name}` }, name) : code(name);
}

const span = use => `bytes ${use.from} to ${use.end}`;

// The fate of a piece of a key's keystream.
function fateOf(model, key, use) {
  const next = model.byName.get(use.target);
  if (use.kind === "=" && next) {
    const isNext = use.from === 0 || key.holder.startsWith("state");
    return [isNext && next.holder === key.holder ? "the next key, " : "a key of ", isNext && next.holder === key.holder ? "" :
      next.holder === "call" ? "this read alone, " : `${laneName(laneOf(next.holder))}, `, keyName(model, use.target)];
  }
  if (use.kind === ">") return [`handed out on line ${use.target}`];
  return [use.kind === "!" ? "given up: never handed out" : "left in a batch"];
}

// The pieces of a keystream, with the many pieces of a batch as one.
function piecesOf(key) {
  const served = key.uses.filter(use => use.kind !== "=");
  if (served.length <= 3) return key.uses;
  const [first, last] = [served[0], served[served.length - 1]];
  const batch = { from: first.from, end: last.end, length: last.end - first.from, kind: "batch", target: "" };
  return [...key.uses.filter(use => use.kind === "="), batch].sort((one, other) => one.from - other.from);
}

function pieceWords(model, key, use) {
  if (use.kind === "batch") return [`${span(use)} are served piece by piece, each once`];
  return [`${span(use)} are `, ...fateOf(model, key, use)];
}

const listed = parts => parts.flatMap((part, at) => at ? ["; ", ...part] : part);

// ---- The sentence of a moment ---------------------------------------------------------------------------------------

function endOfKey(model, key) {
  if (!key.uses.length) return [keyName(model, key.name), " is replaced. ", bold("No byte of it was ever used."), " "];
  if (key.holder === "call") return [keyName(model, key.name), " exists in this read alone: ", ...listed(key.uses.map(use =>
    pieceWords(model, key, use))), ". "];
  const isBatch = key.holder.startsWith("state");
  return ["The stream of ", keyName(model, key.name), ": ", ...listed(piecesOf(key).map(use => pieceWords(model, key, use))),
    ". ", isBatch ? "The key is " : "So the old key is ", bold("erased"), ". "];
}

const QUIET = {
  bits: "It reads how many bits are credited.", credit: "It credits bits, and mixes nothing.",
  end: "The caller leaves. The key stays.", tick: "The reseed timer is not due. The key stays.",
  irq: "The interrupt's words go into the CPU's fast pool. The key stays.",
  online: "The fast pool counts from 0 again. The key stays.",
  prepare: "The CPU forgets its generation: its next read takes a new key.",
};

function quietVisit(model, moment, line) {
  if (moment.lane === "p") return [QUIET[line.word] || "Samples are mixed in. Nothing comes out."];
  if (line.word === "fork") return forkWords(model, moment, line);
  if (QUIET[line.word]) return [QUIET[line.word]];
  if (line.word.startsWith("int")) return ["The integer comes out of the CPU's batch. The key stays."];
  return [moment.lane === "b" && line.answer === "EINTR" ? "It waits, and no caller is left that could make the core ready." :
    "No key is used."];
}

function forkWords(model, moment, line) {
  const child = eventOf(model, line).split(" ")[1];
  if (moment.at !== line.first) return [`Caller ${child} runs within its parent's thread, since a page has one thread. The key stays.`];
  return [`Caller ${child} starts. `, bold("Its vgetrandom states are wiped"),
    ", so it can serve none of the bytes that its parent has left. The key stays."];
}

function visitWords(model, moment, line) {
  const gone = model.goneAt.get(moment.at) || [], made = model.madeAt.get(moment.at) || [];
  const roots = made.filter(key => key.name.startsWith("Root")).map(key => ["The pool is hashed twice: the first hash is the pool's next state, the second is ",
    keyName(model, key.name), ", on its way to the base. "]);
  const ends = gone.map(key => endOfKey(model, key));
  if (roots.length || ends.length) return [...roots, ...ends];
  if (made.length) return made.map(key => ["It takes ", keyName(model, key.name), " as its key. "]);
  return quietVisit(model, moment, line);
}

function copyWords(model, moment) {
  const serve = moment.entries.filter(entry => entry.kind === "serve"), refill = moment.entries.find(entry => entry.kind === "refill");
  const words = [];
  for (const key of model.goneAt.get(moment.at) || []) words.push(...endOfKey(model, key));
  if (refill) words.push("96 bytes of the stream become the state's new batch, and the 32 after them its next key. ");
  const bytes = serve.reduce((sum, entry) => sum + entry.length, 0);
  if (bytes) words.push(`${plural(bytes, "byte")} of the batch ${bytes === 1 ? "is" : "are"} served, and overwritten with zeros. `);
  if (!refill) words.push("No lock, no system call: the state's own memory is enough. ");
  if (!moment.holds) words.push(bold("But the generation is not the state's any more"),
    ": the copied bytes are not handed out, and the call tries again.");
  return words;
}

function wipeWords(model, moment) {
  const gone = (model.goneAt.get(moment.at) || []).map(key => keyName(model, key.name));
  const lost = gone.length ? ["Its key ", gone, " is gone", moment.rest ? `, and so are the ${moment.rest} bytes left of its batch. ` : ". "] :
    ["It held no key. "];
  return [bold(`The memory of vDSO state ${moment.state} becomes zeros. `), ...lost];
}

const ANSWERS = {
  EAGAIN: "The core is not ready, and the call does not wait: it fails with EAGAIN.",
  EINVAL: "The flags are bad: the call fails with EINVAL.",
  ENODATA: "The core is not ready: there is nothing to reseed from, and the call fails with ENODATA.",
  unused: "This act does not happen: no call of vgetrandom comes to its point.",
};

function effectOf(model, moment, line) {
  if (moment.kind === "visit") return visitWords(model, moment, line);
  if (moment.kind === "copy") return copyWords(model, moment);
  if (moment.kind === "wipe") return wipeWords(model, moment);
  return [ANSWERS[line.answer] || "It takes nothing, and visits nothing."];
}

function momentWords(model, at) {
  if (at === 0) return ["Nothing has happened yet. Press ", bold("step"), " or the right arrow key. Each step is one visit of the pool, of the base key or of a CPU's key, or one thing that a caller does by itself."];
  const moment = model.moments[at - 1], line = model.byId.get(moment.line), event = cut(eventOf(model, line), 48);
  const action = { visit: [" visits ", bold(placeName(moment.lane || "p"))], copy: [" copies from ", bold(`vDSO state ${moment.state}`)],
    wipe: [" wipes ", bold(`vDSO state ${moment.state}`)], answer: [" ends at once"] }[moment.kind];
  const subject = model.callers.length > 1 ? `Caller ${moment.caller}, line ${line.id}: ` : `Line ${line.id}: `;
  return [subject, code(event), ...action, moment.within ? ` (inside line ${moment.within})` : "", ". ", ...effectOf(model, moment, line)];
}
