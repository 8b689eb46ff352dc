"use strict";
// The moments of a run, in the order in which they are shown. A moment is a visit of a lane, or an act of a caller that no
// visit shows: a vgetrandom call's copy out of its batch, a wipe, or an answer without a visit.
//
// The moments of one caller are in the caller's own order. Between callers the stamps decide. An act
// without a visit has the stamp of the caller's last visit before, and comes after the visits with that stamp.

const BATCH = 96, BLOCK = 64, KEY = 32, STATES = 16;
const SETTINGS = ["at", "on", "hw", "state"];

class Walk {
  constructor(caller, stamp) {
    Object.assign(this, { caller, stamp, current: 0, cpu: 0, moments: [] });
    this.states = Array.from({ length: STATES }, () => ({ generation: 0, at: 0, count: 0 }));
  }

  add(kind, line, more) {
    const moment = { kind, caller: this.caller, line: line.id, stamp: this.stamp, entries: [], ...more };
    this.moments.push(moment);
    return moment;
  }

  visit(line, step, more) {
    this.stamp = Math.max(this.stamp, step.stamp);
    return this.add("visit", line, { lane: step.lane, place: step.place, by: `${step.lane}:${step.place}`, ...more });
  }

  // The moments of a line: its visits, or its answer alone if it has no visit.
  line(line, steps, more) {
    const visits = steps.filter(isVisit);
    visits.forEach(step => this.visit(line, step, more));
    if (!visits.length && !SETTINGS.includes(line.word)) this.add("answer", line, more);
  }

  // An entry in the list of the current state.
  entry(moment, kind, more) {
    const state = this.states[this.current];
    moment.entries.push({ kind, by: `v${this.caller}.${this.current}:${state.count++}`, ...more });
    moment.state = `${this.caller}.${this.current}`;
  }

  wipe(line, more) {
    const state = this.states[this.current];
    const moment = this.add("wipe", line, { ...more, rest: state.at < BATCH && state.generation ? BATCH - state.at : 0 });
    Object.assign(state, { generation: 0, at: 0 });
    this.entry(moment, "wipe");
    return moment;
  }

  acts(acts, point, within) {
    let isWiped = false;
    for (const act of acts.filter(it => it.point === point)) {
      if (act.words[0] !== "wipe") this.line(act.line, act.line.steps, { within });
      else if (!isWiped) isWiped = Boolean(this.wipe(act.line, { within }));
    }
  }

  vread(line, length, flags, acts) {
    const state = this.states[this.current], isBad = (flags & ~7) !== 0 || (flags & 6) === 6;
    const steps = [...line.steps];
    if (isBad || !steps.length || steps[0].look === 0 || !length) return this.line(line, steps);
    const look = steps.shift().look;
    if (!acts.length && state.generation === look + 1 && length <= BATCH - state.at) return this.copy(line, 0, length, 1);
    return this.attempts(line, length, acts, steps);
  }

  attempts(line, length, acts, steps) {
    const state = this.states[this.current];
    let block = 0;
    for (const attempt of [1, 2]) {
      const bound = attempt === 1 ? acts : [];
      const published = steps.shift().look + 1;
      this.acts(bound, 1, line.id);
      if (state.generation !== published) {
        state.generation = published;
        this.acts(bound, 2, line.id);
        this.rekey(line, steps);
      }
      this.acts(bound, 3, line.id);
      const copy = this.copy(line, block, length, attempt);
      block = copy.nextBlock;
      this.acts(bound, 4, line.id);
      copy.holds = steps.shift().look + 1 === state.generation;
      if (copy.holds) return;
    }
    this.line(line, steps, { isFallback: true });
  }

  // The system call by which the state gets a new key: two looks, and the visits of the base and of the CPU.
  rekey(line, steps) {
    steps.splice(0, 2);
    let step = steps.shift();
    if (step.lane === "b") {
      this.visit(line, step, { isRekey: true });
      step = steps.shift();
    }
    const moment = this.visit(line, step, { isRekey: true });
    this.states[this.current].at = BATCH;
    this.entry(moment, "rekey");
  }

  // A copy of so many bytes: the rest of the batch, whole blocks, a new batch, and the front of that batch.
  copy(line, block, length, attempt) {
    const state = this.states[this.current], front = Math.min(length, BATCH - state.at);
    const moment = this.add("copy", line, { attempt, holds: true, length, nextBlock: block });
    if (front) this.entry(moment, "serve", { from: state.at, length: front });
    state.at += front;
    if (front === length) return Object.assign(moment, { state: `${this.caller}.${this.current}` });
    const whole = Math.floor((length - front) / BLOCK), last = (length - front) % BLOCK;
    if (whole) this.entry(moment, "blocks", { from: block, length: whole });
    this.entry(moment, "refill", { from: block + whole });
    if (last) this.entry(moment, "serve", { from: 0, length: last });
    state.at = last;
    moment.nextBlock = block + whole + 2;
    return moment;
  }

  // All lines of the caller, and the places of its forks. `lines` are the caller's own lines, in order.
  walk(events, lines, forks) {
    const lastVread = events.findLastIndex(event => event.fields[0] === "vread");
    let waiting = [];
    lines.forEach((line, number) => {
      const [word, ...words] = (events[number] || { fields: ["end"] }).fields;
      if (word === "inside" && number < lastVread) {
        waiting.push({ point: Number(words[0]), words: words.slice(1), line });
      } else if (word === "vread") {
        this.vread(line, Number(words[0]), Number(words[1]), waiting);
        waiting = [];
      } else if (word === "drop") {
        this.wipe(line);
      } else {
        if (word === "state") this.current = Number(words[0]);
        if (word === "fork") forks[words[0]] = (line.steps.find(isVisit) || this).stamp;
        this.line(line, line.steps);
      }
    });
  }
}

function inOrder(moments) {
  const rank = moment => moment.kind === "visit" ? 0 : 1;
  const numbered = moments.flat();
  numbered.forEach((moment, at) => { moment.seq = at; });
  return numbered.sort((one, other) => one.stamp - other.stamp || rank(one) - rank(other) || one.seq - other.seq);
}

// All moments of a run, each with its number, and the first and last moment of each line.
function momentsOf(callers, lines) {
  const forks = { 0: 0 }, of = callers.map(() => []);
  lines.forEach(line => of[line.caller].push(line));
  const moments = inOrder(callers.map((events, caller) => {
    const walk = new Walk(caller, forks[caller]);
    walk.walk(events, of[caller], forks);
    return walk.moments;
  }));
  const byId = new Map(lines.map(line => [line.id, line]));
  moments.forEach((moment, at) => {
    moment.at = at + 1;
    const line = byId.get(moment.line);
    line.first = line.first || at + 1;
    line.last = at + 1;
    const call = byId.get(moment.within || moment.line);
    call.first = call.first || at + 1;
    call.last = Math.max(call.last || 0, at + 1);
  });
  return moments;
}

// The first and last moment of each key, by their numbers. A key that is held at the end has the number after the last.
function placeKeys(keys, moments) {
  const at = new Map();
  for (const moment of moments) {
    if (moment.by) at.set(moment.by, moment.at);
    for (const entry of moment.entries) at.set(entry.by, moment.at);
  }
  for (const key of keys) {
    key.from = at.get(key.made.by);
    key.to = key.gone ? at.get(key.gone.by) : moments.length + 1;
  }
}

// The pieces of keys that a line shows, in the order of its bytes. If an attempt of a vgetrandom call did not hold, it
// also copied bytes, which no caller got. So the line shows the last pieces.
function partsOf(line, pieces) {
  let left = /^([0-9a-f]{2})+$/.test(line.data) && line.word !== "bits" ? line.data.length / 2 : 0;
  const parts = [];
  for (const piece of [...pieces].reverse()) {
    if (!left || piece.length > left) break;
    parts.unshift(piece);
    left -= piece.length;
  }
  return left ? [] : parts;
}

function placeParts(lines, keys) {
  const pieces = new Map(lines.map(line => [line.id, []]));
  for (const key of keys) {
    for (const use of key.uses) if (use.kind === ">") pieces.get(use.target).push({ key: key.index, from: use.from, length: use.length });
  }
  for (const line of lines) line.parts = partsOf(line, pieces.get(line.id));
}

// Everything that the page shows of a lawful transcript.
function modelOf(script, transcript, rows) {
  const callers = readScript(script), lines = readTranscript(transcript), keys = readKeys(rows);
  const moments = momentsOf(callers, lines);
  placeKeys(keys, moments);
  placeParts(lines, keys);
  return { callers, lines, keys, moments };
}

// ---- Memory between two stamps -------------------------------------------------------------------------------------

// Whether this is the last moment of its stamp. After that moment `key_audit live` lists the content of memory.
const endsStamp = (model, at) => at === 0 || at === model.moments.length || model.moments[at].stamp > model.moments[at - 1].stamp;

// A vgetrandom call is over with the last moment of its line. From then on the content of its state counts.
function statesAt(model, at) {
  const byId = model.byId || (model.byId = new Map(model.lines.map(line => [line.id, line])));
  const over = new Map();
  for (const moment of model.moments.slice(0, at)) {
    if (moment.entries.length && byId.get(moment.within || moment.line).last <= at) over.set(moment.state, moment.at);
  }
  return over;
}

// The content of memory after a moment that ends a call but not its stamp. For the lanes `live` lists it for the stamp.
// For each vgetrandom state it is the rest that its calls have left so far. The rows show which bytes can be computed.
function memoryAfter(model, at, live) {
  const isState = it => it.holder.startsWith("state");
  const memory = { held: live.held.filter(it => !isState(it)), rests: live.rests.filter(it => !isState(it)), lines: {} };
  for (const [state, upTo] of statesAt(model, at)) {
    const holder = `state${state}`;
    const key = model.keys.find(it => it.holder === holder && it.from <= upTo && upTo < it.to);
    if (key) memory.held.push({ key: key.name, holder });
    const rest = restAfter(model, holder, upTo);
    if (rest) memory.rests.push({ holder, ...rest });
  }
  memory.lines = reachOf(model, memory);
  return memory;
}

// The bytes of a state's batch that are left after a moment.
function restAfter(model, holder, at) {
  const batch = batchesOf(model, holder).filter(it => it.from <= at && at < it.to).pop();
  if (!batch) return null;
  const served = batch.pieces.filter(piece => piece.at <= at).reduce((most, piece) => Math.max(most, piece.end), batch.start);
  return served < batch.end ? { key: batch.key.name, from: served, length: batch.end - served, end: batch.end, kind: "?" } : null;
}

// The batches that a vgetrandom state had: 96 bytes of a key's keystream, just before the 32 that became its next key.
function batchesOf(model, holder) {
  const byName = new Map(model.keys.map(key => [key.name, key]));
  const lineOf = new Map(model.lines.map(line => [line.id, line]));
  const batches = [], ends = [...endsOfBatches(model, holder), model.moments.length + 1];
  for (const key of model.keys.filter(it => it.holder === holder)) {
    for (const use of key.uses.filter(it => it.kind === "=")) {
      const next = byName.get(use.target), start = use.from - BATCH;
      const pieces = key.uses.filter(it => it.from >= start && it.end <= use.from && it.kind !== "=").map(it => ({
        ...it, at: it.kind === ">" ? lineOf.get(it.target).last : Infinity }));
      batches.push({ key, next, start, end: use.from, from: next.from, to: firstAbove(ends, next.from), pieces });
    }
  }
  return batches;
}

// The moments at which a state lost its batch, because the batch was replaced or wiped.
function endsOfBatches(model, holder) {
  const isEnd = entry => entry.kind !== "serve" && entry.kind !== "blocks";
  return model.moments.filter(it => it.entries.length && `state${it.state}` === holder && it.entries.some(isEnd)).map(it => it.at);
}

// The first of these rising numbers that is greater than another number.
function firstAbove(numbers, other) {
  let [low, high] = [0, numbers.length];
  while (low < high) {
    const middle = (low + high) >> 1;
    if (numbers[middle] > other) high = middle;
    else low = middle + 1;
  }
  return numbers[low];
}

// Which bytes of which lines come from the content of memory, key by key.
function reachOf(model, memory) {
  const known = new Set(memory.held.map(it => it.key)), lines = {};
  for (const key of model.keys) {
    if (known.has(key.name)) key.uses.forEach(use => use.kind === "=" && known.add(use.target));
  }
  for (const key of model.keys) {
    for (const use of key.uses.filter(it => it.kind === ">")) {
      const isLeft = memory.rests.some(rest => rest.key === key.name && rest.from <= use.from && use.from < rest.end);
      if (known.has(key.name) || isLeft) (lines[use.target] = lines[use.target] || []).push({ ...use, target: key.name });
    }
  }
  return lines;
}
