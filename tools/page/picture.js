"use strict";
// The picture: a row for each lane and each caller, a column for each moment. Only the part in view is drawn.

const ZOOMS = [60, 34, 16, 7, 3, 1];
const EDGE = 10, HEAD = 24, LABELLED = 30, DETAILED = 7, SHORTEST_FOLD = 4, FOLDS_FROM = 120, MOST_ROWS = 16;
const HEIGHTS = { p: 34, b: 58, c: 40, call: 34, v: 60, k: 54 };

const holdsKey = lane => lane !== "p" && lane[0] !== "k";
const inNumbers = (one, other) => one.localeCompare(other, "en", { numeric: true });

// The lanes and callers from top to bottom, in the direction in which bytes go: from the pool to the callers.
function lanesOf(model) {
  const lanes = new Set([...model.moments.map(it => it.lane).filter(Boolean), ...model.keys.map(key => laneOf(key.holder))]);
  model.moments.forEach(it => it.state && lanes.add(`v${it.state}`));
  const of = letter => [...lanes].filter(lane => lane[0] === letter && lane !== "call").sort(inNumbers);
  return ["p", "b", ...of("c"), ...(lanes.has("call") ? ["call"] : []), ...of("v"), ...model.callers.map((_, at) => `k${at}`)];
}

function rowsOf(lanes) {
  let top = HEAD;
  return lanes.map(lane => {
    const height = HEIGHTS[lane === "call" ? lane : lane[0]], row = { lane, top, height, middle: top + height / 2 };
    top += height;
    return row;
  });
}

// A moment at which a key is made or erased, or a batch is copied from, has its own column. Long rows of others are
// folded.
function columnsOf(model, isFolded) {
  const isQuiet = moment => !model.madeAt.has(moment.at) && !model.goneAt.has(moment.at) && !moment.entries.length;
  const columns = [];
  let run = [];
  const close = () => {
    if (isFolded && run.length >= SHORTEST_FOLD) columns.push({ from: run[0], to: run[run.length - 1] });
    else run.forEach(at => columns.push({ from: at, to: at }));
    run = [];
  };
  for (const moment of model.moments) {
    if (isQuiet(moment)) run.push(moment.at);
    else {
      close();
      columns.push({ from: moment.at, to: moment.at });
    }
  }
  close();
  return columns;
}

class Picture {
  constructor(model, isFolded) {
    this.model = model;
    this.lanes = lanesOf(model);
    this.lives = grouped(model.keys, key => laneOf(key.holder));
    this.batches = new Map(this.lanes.filter(lane => lane[0] === "v").map(lane => [lane, batchesOf(model, `state${lane.slice(1)}`)]));
    this.fold(isFolded);
  }

  fold(isFolded) {
    this.isFolded = isFolded;
    this.columns = columnsOf(this.model, isFolded);
    this.column = new Int32Array(this.model.moments.length + 2);
    this.columns.forEach((column, number) => this.column.fill(number, column.from, column.to + 1));
    this.column[0] = -1;
    this.column[this.model.moments.length + 1] = this.columns.length;
  }

  width(gap) {
    return EDGE + (this.columns.length + 1) * gap;
  }

  // The place of a moment. A key that is held at the end goes on after the last moment.
  x(at) {
    return EDGE + (this.column[at] + 0.5) * this.gap;
  }

  isSeen(from, to) {
    return this.x(to) >= this.left - this.gap * 2 && this.x(from) <= this.right + this.gap * 2;
  }

  // The keys of a lane whose lives are in view. In a lane one key follows the other.
  seenKeys(lane) {
    return (this.lives.get(lane) || []).filter(key => this.isSeen(key.from, key.to));
  }

  seenColumns() {
    const first = Math.max(0, Math.floor((this.left - EDGE) / this.gap) - 1);
    return this.columns.slice(first, Math.ceil((this.right - EDGE) / this.gap) + 1);
  }

  // If there are many rows, rows of callers and states without a moment in view are left out.
  place() {
    const busy = new Set();
    if (this.lanes.length > MOST_ROWS) {
      for (const { from, to } of this.seenColumns()) {
        this.model.moments.slice(from - 1, to).forEach(it => busy.add(`k${it.caller}`).add(`v${it.state}`));
      }
    }
    const isShown = lane => this.lanes.length <= MOST_ROWS || !/^[kv]/.test(lane) || busy.has(lane);
    this.rows = rowsOf(this.lanes.filter(isShown));
    this.row = new Map(this.rows.map(row => [row.lane, row]));
    const last = this.rows[this.rows.length - 1];
    this.height = last.top + last.height + 6;
  }

  draw(view) {
    Object.assign(this, view);
    this.place();
    const parts = [this.ground(), this.cursor(), this.gap >= LABELLED ? this.flows() : null];
    for (const row of this.rows) if (holdsKey(row.lane)) parts.push(this.gap >= DETAILED ? this.bars(row) : this.denseBars(row));
    for (const [lane, batches] of this.batches) if (this.row.has(lane)) parts.push(batches.map(batch => this.gauge(this.row.get(lane), batch)));
    if (this.gap >= DETAILED) parts.push(this.dots(), this.marks());
    parts.push(this.calls(), this.gap >= LABELLED ? this.forks() : null);
    const width = this.right - this.left;
    return shape("svg", { width, height: this.height, viewBox: `${this.left} 0 ${width} ${this.height}`, role: "img",
      "aria-label": this.label(), class: this.hot ? "has-hot" : "" }, DEFINITIONS.map(it => it.cloneNode(true)), parts);
  }

  label() {
    const held = this.model.keys.filter(key => key.from <= this.at && this.at < key.to).length;
    return `Lanes over time, moment ${this.at} of ${this.model.moments.length}: ${plural(held, "key")} in memory. The sentence and the table below say the same.`;
  }

  ground() {
    const bands = this.rows.map((row, number) => shape("rect", { x: this.left, y: row.top, width: this.right - this.left,
      height: row.height, class: number % 2 ? "band odd" : "band" }));
    const every = Math.max(1, Math.ceil(52 / this.gap));
    const ticks = this.seenColumns().map((column, at) => this.tick(column, at % every === 0));
    return [bands, ticks];
  }

  tick(column, isLabelled) {
    if (!isLabelled) return null;
    const moment = this.model.moments[column.from - 1], count = column.to - column.from + 1, x = this.x(column.from);
    const own = this.gap >= LABELLED ? moment.line : "·";
    const text = count > 1 ? `×${count}` : moment.kind === "visit" ? String(moment.stamp) : own;
    return [shape("line", { x1: x, x2: x, y1: HEAD, y2: this.height, class: "tick" }),
      shape("text", { x, y: 16, "text-anchor": "middle", class: moment.kind === "visit" || count > 1 ? "soft" : "small" }, text)];
  }

  cursor() {
    if (this.at === 0) return null;
    const width = Math.max(3, this.gap - 8);
    return shape("rect", { x: this.x(this.at) - width / 2, y: 2, width, height: this.height - 4, rx: 5, class: "cursor" });
  }

  stateOf(from, to) {
    if (from > this.at) return "ahead";
    return to <= this.at ? "gone" : "held";
  }

  heat(...names) {
    return this.hot && names.includes(this.hot) ? " hot" : "";
  }

  bars(row) {
    return this.seenKeys(row.lane).map(key => this.bar(row, key));
  }

  bar(row, key) {
    const isRoot = key.name.startsWith("Root"), shift = row.lane[0] === "v" ? -9 : row.lane === "b" ? 8 : 0;
    const y = row.middle + (isRoot ? -24 : shift - 11), height = isRoot ? 15 : 22;
    const x = Math.max(this.x(key.from), this.left - 20), end = Math.min(this.x(key.to), this.right + 20);
    const width = Math.max(end - x - 2, key.from === key.to ? 14 : 3), letters = Math.floor((width - 8) / 6.2);
    const label = letters >= 3 ? shape("text", { x: x + 6, y: y + height / 2 + 4 }, cut(key.name, letters)) : null;
    return shape("g", { class: `key ${this.stateOf(key.from, key.to)}${this.heat(key.name)}`, hue: hueOf(key), "data-key": key.name },
      shape("rect", { x: x + 1, y, width, height, rx: 4 }), label, shape("title", {}, this.barTitle(key)));
  }

  barTitle(key) {
    const gone = key.gone ? `erased at ${key.gone.by}@${key.gone.stamp}` : "held to the end";
    return `${key.name}: made at ${key.made.by}@${key.made.stamp}, ${gone}`;
  }

  // The bars that are narrower than a pixel, as one path for each state.
  denseBars(row) {
    const paths = { gone: "", held: "", ahead: "" }, y = row.middle - 7;
    for (const key of this.seenKeys(row.lane)) {
      const x = this.x(key.from), width = Math.max(0.6, this.x(key.to) - x - 0.4);
      paths[this.stateOf(key.from, key.to)] += `M${x.toFixed(1)} ${y}h${width.toFixed(1)}v14h-${width.toFixed(1)}z`;
    }
    return Object.entries(paths).map(([state, d]) => d && shape("path", { d, class: `dense ${state}` }));
  }

  // The rest of a batch, as a level that falls with each call that the batch serves.
  gauge(row, batch) {
    if (!this.isSeen(batch.from, batch.to)) return null;
    const bottom = row.top + row.height - 6, full = 16, isAhead = batch.from > this.at;
    const served = [...new Set(batch.pieces.map(piece => piece.at))].filter(at => at < batch.to).sort((a, b) => a - b);
    let d = `M${this.x(batch.from)} ${bottom}`, left = batch.end - batch.start;
    for (const at of served) {
      left = batch.end - Math.max(...batch.pieces.filter(piece => piece.at <= at).map(piece => piece.end));
      d += ` H${this.x(at)} V${bottom - full * left / BATCH}`;
    }
    if (!served.length) d += ` V${bottom - full}`;
    d += ` H${this.x(batch.to)} V${bottom} Z`;
    const label = this.gap >= LABELLED && shape("text", { x: this.x(batch.from) + 6, y: bottom - 3, class: "small" }, "batch");
    return shape("g", { class: isAhead ? "ahead" : "" }, shape("path", { d, class: `batch ${batch.to <= this.at ? "gone" : ""}` },
      shape("title", {}, `batch of 96 bytes, ${left} of them left at its end`)), label);
  }

  dots() {
    return this.seenColumns().flatMap(column => {
      const lanes = new Set(this.model.moments.slice(column.from - 1, column.to).map(it => it.lane).filter(Boolean));
      return [...lanes].map(lane => {
        const row = this.row.get(lane), y = row.middle + (lane === "p" ? 0 : lane === "b" ? 19 : 11);
        return shape("circle", { cx: this.x(column.from), cy: y, r: lane === "p" ? 6 : 4,
          class: `visit${column.from > this.at ? " ahead" : ""}` });
      });
    });
  }

  // Wipes, each with a word.
  marks() {
    const seen = this.seenColumns(), from = seen.length ? seen[0].from : 1, to = seen.length ? seen[seen.length - 1].to : 0;
    return this.model.moments.slice(from - 1, to).filter(it => it.kind === "wipe").map(it => this.wipe(this.x(it.at), `v${it.state}`, it.at));
  }

  wipe(x, lane, at) {
    const row = this.row.get(lane);
    return row && shape("g", { class: `wipe${at > this.at ? " ahead" : ""}` },
      shape("line", { x1: x, x2: x, y1: row.top + 3, y2: row.top + row.height - 3 }),
      shape("text", { x: x + 4, y: row.top + row.height - 6 }, "✕ wiped"));
  }

  flow(name, to, at, d, kind) {
    const key = this.model.byName.get(name);
    return shape("path", { d, class: `flow ${kind}${at > this.at ? " ahead" : ""}${this.heat(name, to)}`, hue: hueOf(key),
      "marker-end": kind === "served" ? null : "url(#tip)" });
  }

  // Lines from key to key, and from a key to the answer that it made.
  flows() {
    const flows = [];
    this.served = new Set();
    for (const row of this.rows.filter(it => holdsKey(it.lane))) {
      for (const key of this.seenKeys(row.lane)) {
        if (key.name.startsWith("Root")) flows.push(this.flow(key.name, key.name, key.from,
          `M${this.x(key.from)} ${this.row.get("p").middle + 8} L${this.x(key.from) + 6} ${this.row.get("b").middle - 26}`, "made"));
        key.uses.forEach(use => flows.push(this.useFlow(row, key, use)));
      }
    }
    return flows;
  }

  useFlow(row, key, use) {
    const next = this.model.byName.get(use.target), line = use.kind === ">" && this.model.byId.get(use.target);
    const bottom = row.middle + (row.lane === "b" ? 19 : row.lane[0] === "v" ? 2 : 11);
    if (use.kind === "=" && next && next.holder !== key.holder && this.isSeen(next.from, next.from)) {
      const to = this.row.get(laneOf(next.holder));
      if (!to) return null;
      const x = this.x(next.from), end = to.middle - (to.lane[0] === "v" ? 21 : 12);
      return this.flow(key.name, next.name, next.from, `M${x} ${bottom} C${x} ${end - 12} ${x + 8} ${end - 14} ${x + 8} ${end - 1}`, "made");
    }
    const place = line && `${key.index} ${this.column[line.last]}`;
    if (line && !this.served.has(place) && this.isSeen(line.last, line.last)) {
      this.served.add(place);
      const to = this.row.get(`k${line.caller}`), x = this.x(line.last);
      if (!to) return null;
      return this.flow(key.name, key.name, line.last, `M${x} ${bottom} V${to.top + 7}`, "served");
    }
    return null;
  }

  // Each call of each caller, from its first moment to its last.
  calls() {
    const seen = this.seenColumns();
    if (!seen.length) return null;
    const ids = new Set(this.model.moments.slice(seen[0].from - 1, seen[seen.length - 1].to).map(it => it.within || it.line));
    if (this.gap < DETAILED) return this.denseCalls(ids);
    const taken = new Map();
    return [...ids].map(id => this.call(this.model.byId.get(id), taken));
  }

  call(line, taken) {
    if (!this.row.has(`k${line.caller}`)) return null;
    const row = this.row.get(`k${line.caller}`), half = Math.max(3, this.gap / 2 - 3), x = this.x(line.first) - half;
    const place = `${line.caller} ${this.column[line.first]}`, width = this.x(line.last) - this.x(line.first) + half * 2;
    if (taken.has(place)) return null;
    taken.set(place, true);
    const isNow = line.first <= this.at && this.at <= line.last, state = line.first > this.at ? " ahead" : isNow ? " now" : "";
    const key = line.parts.length ? this.model.keys[line.parts[0].key] : null, column = this.columns[this.column[line.first]];
    return shape("g", { class: `call${state}${key ? " served" + this.heat(...line.parts.map(part => this.model.keys[part.key].name)) : ""}`,
      hue: key && hueOf(key), "data-line": line.id },
    shape("rect", { x, y: row.top + 8, width, height: row.height - 16, rx: 4 }), this.callText(line, x, width, row, column),
    shape("title", {}, `line ${line.id}: ${cut(eventOf(this.model, line), 80)}: ${line.answer}`));
  }

  callText(line, x, width, row, column) {
    if (width < 40) return null;
    const letters = Math.floor((width - 4) / 6), count = column.to - column.from + 1, middle = x + width / 2;
    const answer = line.parts.length ? line.data : line.answer === "ok" ? "" : line.answer;
    const texts = count > 1 ? [`${count} ×`, "folded"] : [eventOf(this.model, line), answer];
    return texts.map((text, at) => text && shape("text", { x: middle, y: row.middle + (texts[1] ? at * 14 - 3 : 4),
      "text-anchor": "middle", class: at ? "mono" : "" }, cut(text, letters)));
  }

  denseCalls(ids) {
    const paths = {};
    for (const id of ids) {
      const line = this.model.byId.get(id), row = this.row.get(`k${line.caller}`);
      if (!row) continue;
      const kind = `${line.parts.length ? "served" : "plain"}${line.first > this.at ? " ahead" : ""}`;
      paths[kind] = (paths[kind] || "") + `M${this.x(line.last).toFixed(1)} ${row.top + (line.parts.length ? 12 : 24)}v${line.parts.length ? 30 : 12}`;
    }
    return Object.entries(paths).map(([kind, d]) => shape("path", { d, class: `ticks ${kind}` }));
  }

  forks() {
    return this.model.lines.filter(line => line.word === "fork" && line.first && this.isSeen(line.first, line.first)).map(line => {
      const child = Number(eventOf(this.model, line).split(" ")[1]), from = this.row.get(`k${line.caller}`), to = this.row.get(`k${child}`);
      if (!from || !to) return null;
      const x = this.x(line.first), states = this.rows.filter(row => row.lane.startsWith(`v${child}.`));
      return [shape("path", { d: `M${x} ${from.top + from.height - 8} V${to.top + 5}`, class: `fork${line.first > this.at ? " ahead" : ""}`, "marker-end": "url(#tip)" }),
        shape("text", { x: x + 5, y: to.top + 4, class: "small" }, "fork"), states.map(row => this.wipe(x, row.lane, line.first))];
    });
  }
}

const DEFINITIONS = [shape("defs", {},
  shape("pattern", { id: "hatch", width: 6, height: 6, patternUnits: "userSpaceOnUse", patternTransform: "rotate(45)" },
    shape("rect", { width: 6, height: 6, class: "hatch-ground" }), shape("line", { x1: 0, y1: 0, x2: 0, y2: 6, class: "hatch-line" })),
  shape("marker", { id: "tip", markerWidth: 7, markerHeight: 7, refX: 5, refY: 3, orient: "auto" },
    shape("path", { d: "M0,0 L6,3 L0,6z", class: "tip" })))];
