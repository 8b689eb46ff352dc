"use strict";
// The panels beside the picture: the transcript, the content of memory, the bytes that follow from it, and the table of
// keys.

const LINES_AT_ONCE = 100, KEYS_AT_ONCE = 50, LONGEST_HEX = 96;
const tag = (kind, text) => make("span", { class: `tag ${kind}` }, text);

// ---- The transcript ------------------------------------------------------------------------------------------------

function hexOf(model, line) {
  if (!line.parts.length) return line.data === "-" ? "" : cut(line.data, LONGEST_HEX);
  let at = 0;
  return line.parts.map(part => {
    const text = line.data.slice(at * 2, (at + part.length) * 2), key = model.keys[part.key];
    at += part.length;
    return make("span", { class: "hex", hue: hueOf(key), "data-key": key.name, title: `bytes ${part.from} to ${part.from + part.length} of ${key.name}` },
      cut(text, LONGEST_HEX));
  });
}

function lineRow(model, line, at, reached) {
  const isNow = line.first <= at && at <= line.last, isLater = !line.first || line.first > at;
  const reach = line.parts.length && at > 0 ? reachTag(line, reached) : null;
  return make("div", { class: `line${isNow ? " now" : ""}${isLater ? " later" : ""}`, "data-line": line.id, "aria-current": isNow ? "step" : null },
    make("button", { class: "line-id mono", title: "go to this line" }, line.id), " ", bold(line.word), ` ${line.answer} `,
    make("span", { class: "soft" }, line.stepsText), " ", hexOf(model, line), reach ? [" ", reach] : null);
}

function reachTag(line, reached) {
  if (!reached) return null;
  const bytes = (reached[line.id] || []).reduce((sum, piece) => sum + piece.length, 0);
  if (!bytes) return tag("safe", "out of reach");
  return tag("leak", bytes < line.data.length / 2 ? `${bytes} bytes in reach` : "in reach");
}

// The part of a long transcript in which the moment is.
function windowFrom(model, at) {
  if (model.lines.length <= LINES_AT_ONCE) return 0;
  const moment = model.moments[Math.max(0, at - 1)], index = model.lines.indexOf(model.byId.get(moment.line));
  return Math.max(0, Math.min(model.lines.length - LINES_AT_ONCE, index - LINES_AT_ONCE / 2));
}

// ---- Memory and reach ----------------------------------------------------------------------------------------------

function chip(model, it) {
  return make("li", {}, keyName(model, it.key), make("span", { class: "quiet" }, ` ${laneName(laneOf(it.holder))}`));
}

function restChip(model, rest) {
  return make("li", {}, `${rest.length} bytes of a batch, `, make("span", { class: "quiet" }, `bytes ${rest.from} to ${rest.end} of `), keyName(model, rest.key));
}

function heldPanel(model, memory, source) {
  const keys = memory.held.map(it => chip(model, it)), rests = memory.rests.map(it => restChip(model, it));
  return [keys.length ? make("ul", { class: "chips" }, keys, rests) : make("p", {}, "No key yet."), make("p", { class: "quiet" }, source)];
}

function reachPanel(model, memory, at) {
  const names = model.shown.filter(line => memory.lines[line.id]);
  const safe = model.shown.filter(line => !memory.lines[line.id]), past = safe.filter(line => line.last <= at).length, later = safe.length - past;
  const list = names.length > 12 ? `${plural(names.length, "answer")}, lines ${names[0].id} to ${names[names.length - 1].id}` :
    names.map(line => `line ${line.id}`).join(", ");
  return [
    make("p", {}, tag("leak", "in reach"), names.length ? ` ${list}, whose bytes come from this memory.` : " No answer of this run."),
    make("p", {}, tag("safe", "out of reach"), ` ${plural(past, "earlier answer")}`,
      later ? ` and ${plural(later, "later one")}: their keys do not follow from this memory` : "", "."),
    make("p", { class: "quiet" }, "Proved: no byte of a key in this memory was used before. It is believed of ChaCha20 that nobody computes a key from its own stream. The pool's own memory is not counted: a thief that has it too can follow a reseed that mixes in nothing new."),
  ];
}

// ---- The table of keys ---------------------------------------------------------------------------------------------

function fates(model, key) {
  const pieces = key.uses.length > 8 ? piecesOf(key) : key.uses;
  if (!pieces.length) return key.gone ? "never used" : "";
  return listed(pieces.map(use => [`${use.from} to ${use.end}: `, ...(use.kind === "batch" ? ["served piece by piece"] : fateOf(model, key, use))]));
}

// `held` are the keys in memory, if they are known. A new key that is not among them is on its way to its holder.
function keyRow(model, key, at, hot, held) {
  const isMade = key.from <= at, isOnItsWay = held && !held.has(key.name);
  const state = !isMade ? "not made yet" : key.to <= at ? "erased" : isOnItsWay ? "on its way" : "in memory";
  return make("tr", { class: `${key.name === hot ? "hot " : ""}${key.from > at ? "later" : ""}`, "data-row": key.name },
    make("th", { scope: "row" }, keyName(model, key.name), make("span", { class: "quiet" }, ` ${state}`)),
    make("td", {}, laneName(laneOf(key.holder))),
    make("td", { class: "mono" }, `${key.made.by}@${key.made.stamp}`, make("span", { class: "quiet" }, ` line ${key.made.line}`)),
    make("td", { class: "mono" }, key.gone ? [`${key.gone.by}@${key.gone.stamp}`, make("span", { class: "quiet" }, ` line ${key.gone.line}`)] : bold("held to the end")),
    make("td", {}, fates(model, key)));
}

// The part of the table with the last key that was made so far.
function pageOfKeys(model, at) {
  let index = 0;
  for (const key of model.keys) if (key.from <= at) index = key.index;
  return Math.floor(index / KEYS_AT_ONCE) * KEYS_AT_ONCE;
}

// Buttons that go through a long list part by part.
function pager(name, from, count, each, go) {
  if (count <= each) return [make("span", { class: "quiet" }, plural(count, name))];
  const button = (text, label, to) => make("button", { "aria-label": label, disabled: to < 0 || to >= count || to === from, onclick: () => go(to) }, text);
  return [button("◀", `earlier ${name}s`, from > 0 ? Math.max(0, from - each) : -1),
    make("span", { class: "quiet" }, `${name}s ${from + 1} to ${Math.min(from + each, count)} of ${count.toLocaleString("en")}`),
    button("▶", `later ${name}s`, from + each)];
}
