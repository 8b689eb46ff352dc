"use strict";
// Bytes drawn as strips: the keystream of a key that ends at a moment, and the batches of a vgetrandom state.

function strip(title, cells) {
  return make("div", { class: "strip" }, make("p", { class: "quiet" }, title), make("div", { class: "cells" }, cells));
}

// A cell's width follows the number of its bytes, within bounds. A word names the meaning of its pattern.
function cell(kind, length, hue, range, fate, more) {
  return make("div", { class: `cell ${kind}`, grow: Math.max(14, Math.min(length, 96)), hue },
    make("span", {}, make("span", { class: "mono" }, range), " ", fate), make("small", { class: "mono" }, more || ""));
}

// The bytes of the line that came from these bytes of a key.
function shownBytes(model, key, use) {
  const line = use.kind === ">" && model.byId.get(use.target);
  if (!line) return "";
  let at = 0;
  for (const part of line.parts) {
    if (part.key === key.index && part.from === use.from) return cut(line.data.slice(at * 2, (at + part.length) * 2), 26);
    at += part.length;
  }
  return "not handed out";
}

function streamCell(model, key, use) {
  const next = model.byName.get(use.target), range = `${use.from}–${use.end}`;
  if (use.kind === "=") return cell("key-cell", use.length, hueOf(next), range, fateOf(model, key, use), "never shown");
  if (use.kind === "batch") return cell("given", 96, null, range, "a batch, served piece by piece");
  if (use.kind === ">") return cell("given", use.length, null, range, `line ${use.target}`, shownBytes(model, key, use));
  return cell("unused", use.length, null, range, fateOf(model, key, use), "never shown");
}

// The whole keystream of a key up to its last use. The bytes between uses have none.
function streamOf(model, key) {
  const cells = [];
  let end = 0;
  for (const use of piecesOf(key)) {
    if (use.from > end) cells.push(cell("unused", 20, null, `${end}–${use.from}`, "no use", "never shown"));
    cells.push(streamCell(model, key, use));
    end = use.end;
  }
  return strip(["The stream that ChaCha20 makes of ", keyName(model, key.name), ", from its first byte on:"], cells);
}

function streamsAt(model, at) {
  const ended = (model.goneAt.get(at) || []).filter(key => key.uses.length && key.to <= model.moments.length);
  return ended.sort((one, other) => (one.holder === "call") - (other.holder === "call")).map(key => streamOf(model, key));
}

// ---- Batches -------------------------------------------------------------------------------------------------------

function pieceCell(model, batch, piece, at, isOver) {
  const range = `${piece.from - batch.start}–${piece.end - batch.start}`;
  if (piece.kind === ">" && piece.at < at) return cell("zeros", piece.length, null, range, `served on line ${piece.target}`, "now zeros");
  if (piece.kind === ">" && piece.at === at) return cell("given", piece.length, null, range, `served now, line ${piece.target}`, shownBytes(model, batch.key, piece));
  if (isOver) return cell("zeros", piece.length, null, range, "given up", "erased, never served");
  return cell("left", piece.length, hueOf(batch.key), range, "not served yet", "in memory");
}

// The bytes that are left, and that no call has got so far, are one cell.
function cellsOf(model, batch, at, isOver) {
  const isUsed = piece => piece.kind === ">" && piece.at <= at, used = batch.pieces.filter(isUsed);
  const from = used.reduce((most, piece) => Math.max(most, piece.end), batch.start);
  const rest = from < batch.end ? [{ kind: "?", from, end: batch.end, length: batch.end - from }] : [];
  return [...used, ...rest].map(piece => pieceCell(model, batch, piece, at, isOver));
}

// The batch of the state that a moment is about, as it is after that moment.
function batchAt(model, batches, at) {
  const moment = model.moments[at - 1];
  if (!moment || !moment.state) return null;
  const all = batches.get(`v${moment.state}`) || [], title = `The batch of vDSO state ${moment.state}: `;
  const over = moment.kind === "wipe" && all.find(batch => batch.to === at);
  const batch = over || all.filter(it => it.from <= at && at < it.to).pop();
  if (!batch) return make("p", { class: "quiet" }, title, "empty.");
  return strip([title, `bytes ${batch.start} to ${batch.end} of `, keyName(model, batch.key.name), over ? ", erased by the wipe" : ""],
    cellsOf(model, batch, at, Boolean(over)));
}
