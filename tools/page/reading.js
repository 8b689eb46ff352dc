"use strict";
// Reads the three texts: scripts, transcripts, and the rows of a key audit. docs/SCRIPT.md, TRANSCRIPT.md and AUDIT.md have
// their grammars. The texts are taken as valid, since the programs have judged them before.

// A script's events by caller. `row` is a line's number in the text, from 1.
function readScript(text) {
  const callers = [];
  const lines = text.split("\n");
  for (let at = 2; at < lines.length && lines[at] !== "end"; at++) {
    const fields = lines[at].split(" ");
    if (fields[0] === "caller") callers.push([]);
    else callers[callers.length - 1].push({ fields, text: lines[at], row: at + 1 });
  }
  return callers;
}

function readStep(text) {
  if (text[0] === "~") return { look: Number(text.slice(1)) };
  const [, lane, place, stamp] = text.match(/^(\w+):(\d+)@(\d+)$/);
  return { lane, place: Number(place), stamp: Number(stamp) };
}

const isVisit = step => step.lane !== undefined;

function readTranscript(text) {
  return text.split("\n").slice(1, -2).map((line, at) => {
    const [id, word, answer, steps, data] = line.split(" ");
    const [caller, event] = id.split(".").map(Number);
    const taken = steps === "-" ? [] : steps.split(",").map(readStep);
    return { id, caller, event, word, answer, steps: taken, stepsText: steps, data, row: at + 2 };
  });
}

function readMoment(text, line) {
  const [by, stamp] = text.split("@");
  return { by, stamp: Number(stamp), line };
}

function readUse(text) {
  const [, from, length, kind, target] = text.match(/^(\d+)\+(\d+)([=>!?])(.*)$/);
  return { from: Number(from), length: Number(length), end: Number(from) + Number(length), kind, target };
}

function readKey(text, index) {
  const fields = text.split(" ");
  const [name, holder, made, madeLine, gone] = fields;
  const isHeld = gone === "held";
  return {
    name, holder, index,
    made: readMoment(made, madeLine),
    gone: isHeld ? null : readMoment(gone, fields[5]),
    uses: fields.slice(isHeld ? 5 : 6).map(readUse),
  };
}

const readKeys = text => text.split("\n").slice(0, -1).map(readKey);

// An answer of `key_audit live T`.
function readLive(text) {
  const live = { held: [], rests: [], lines: {} };
  for (const line of text.split("\n")) {
    const fields = line.split(" ");
    if (fields[0] === "held") live.held.push({ key: fields[1], holder: fields[2] });
    if (fields[0] === "rest") live.rests.push({ key: fields[1], holder: fields[2], ...readUse(fields[3] + "?") });
    if (fields[0] === "line") live.lines[fields[1]] = fields.slice(2).map(piece => readUse(piece.replace("<", ">")));
  }
  return live;
}
