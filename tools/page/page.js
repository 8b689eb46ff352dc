"use strict";
// The page: the user's choices, the parts that are shown, and the questions to the worker.

const data = JSON.parse($("data").textContent);
const state = { model: null, script: "", transcript: "", at: 0, hot: "", pinned: "", zoom: 0, linesFrom: 0, keysFrom: 0, live: new Map(), visit: -1 };
let picture = null;
const scriptEditor = new Editor($("script-box")), transcriptEditor = new Editor($("transcript-box"));

// ---- The worker ----------------------------------------------------------------------------------------------------

const worker = new Worker(URL.createObjectURL(new Blob([$("shared").textContent, $("worker").textContent], { type: "text/javascript" })));
const waiting = new Map();
// The run that the worker is handing over, or handed over last.
const handed = {};
let asked = 0;

function ask(question) {
  worker.postMessage({ id: ++asked, ...question });
  return new Promise((answer, refuse) => waiting.set(asked, { answer, refuse }));
}

worker.onmessage = ({ data: reply }) => {
  if (reply.progress) return say("script-says", `${reply.progress} …`);
  if (reply.begins) return void (handed[reply.begins] = []);
  if (reply.piece) return void handed[reply.piece].push(...reply.items);
  const { answer, refuse } = waiting.get(reply.id);
  waiting.delete(reply.id);
  return reply.fault ? refuse(new Error(reply.fault)) : answer(reply.answer);
};

function say(id, ...children) {
  $(id).replaceChildren(...children.flat(Infinity));
}

// ---- Running and checking ------------------------------------------------------------------------------------------

const wholeLines = text => text.endsWith("\n") ? text : `${text}\n`;

// If a newer question was asked, the answer to an older one is dropped.
let current = 0;

async function work(question, show) {
  const mine = ++current, began = performance.now();
  document.body.setAttribute("aria-busy", "true");
  try {
    const answer = await ask(question);
    if (mine === current) await show(answer, performance.now() - began);
  } catch (fault) {
    say("script-says", bold("The program stopped: "), String(fault.message || fault));
  } finally {
    if (mine === current) document.body.removeAttribute("aria-busy");
  }
}

function showFault(answer) {
  const refused = answer.out.match(/^refused (\d+) (\d+)/), row = refused ? Number(refused[1]) : 0;
  scriptEditor.mark(row);
  say("script-says", make("b", { class: "no" }, row ? `✗ Line ${row}: ` : "✗ No script: "), answer.err.replace(/^\w+: (line \d+, )?/, "") || answer.out,
    state.model ? make("span", { class: "quiet" }, " The picture still shows the run before.") : "");
}

function take(script, answer, milliseconds) {
  state.model = indexed({ ...handed });
  Object.assign(state, { script, transcript: answer.transcript, live: new Map(), pinned: "", hot: "", keysFrom: 0 });
  const isLong = state.model.moments.length > FOLDS_FROM;
  $("fold").checked = isLong;
  picture = new Picture(state.model, isLong);
  state.zoom = 0;
  scriptEditor.mark(0);
  say("script-says", "Checked: lawful, ", make("b", { class: answer.verdict === "yes" ? "yes" : "no" }, `✓ ${answer.verdict}`),
    `. ${plural(state.model.lines.length, "line")}, ${plural(state.model.keys.length, "key")}, ${milliseconds.toFixed(0)} ms.`);
  $("at").max = state.model.moments.length;
  $("edit").disabled = state.model.lines.length > MOST_EDITED;
}

function run(at) {
  const script = wholeLines(scriptEditor.text.replace(/\n+$/, "\n"));
  return work({ ask: "run", script }, (answer, milliseconds) => {
    if (answer.status !== 0) return showFault(answer);
    take(script, answer, milliseconds);
    closeEditor();
    return go(Math.min(at || 0, state.model.moments.length));
  });
}

function check() {
  const script = wholeLines(scriptEditor.text.replace(/\n+$/, "\n")), transcript = wholeLines(transcriptEditor.text);
  return work({ ask: "judge", script, transcript }, (answer, milliseconds) => {
    if (answer.status === 5) return showFault({ ...answer, out: answer.verdict });
    if (answer.status !== 0) return showClause(answer);
    take(script, answer, milliseconds);
    transcriptEditor.mark(0);
    say("check-says", make("b", { class: "yes" }, "✓ yes: "), "this transcript is lawful for the script. The picture shows it.");
    return go(Math.min(state.at, state.model.moments.length));
  });
}

function showClause({ verdict, fault }) {
  transcriptEditor.mark(fault.row || 0);
  say("check-says", make("b", { class: "no" }, `✗ ${verdict}: `), `clause ${fault.clause}, ${fault.name}: ${fault.says}. `,
    fault.row ? bold(`Line ${fault.row} of the text. `) : "", fault.message || (fault.wanted ? ["Here has to be: ", code(cut(fault.wanted, 120))] : ""));
  say("script-says");
}

function openEditor() {
  transcriptEditor.text = state.transcript;
  ["lines", "edit", "pager"].forEach(id => { $(id).hidden = true; });
  ["transcript-box", "check", "done"].forEach(id => { $(id).hidden = false; });
  say("check-says", "Change anything, or paste another transcript of the script above, and press Check.");
  transcriptEditor.place();
  $("transcript").focus();
}

function closeEditor() {
  ["lines", "edit", "pager"].forEach(id => { $(id).hidden = false; });
  ["transcript-box", "check", "done"].forEach(id => { $(id).hidden = true; });
  say("check-says");
}

// ---- Moving ----------------------------------------------------------------------------------------------------------

function go(at) {
  if (!state.model) return;
  state.at = Math.max(0, Math.min(state.model.moments.length, at));
  state.linesFrom = windowFrom(state.model, state.at);
  state.keysFrom = pageOfKeys(state.model, state.at);
  scrollTo(state.at);
  show();
}

// A step goes from column to column, so that it passes over folded moments.
function step(by) {
  const column = picture.column[state.at] + by, columns = picture.columns;
  go(column < 0 ? 0 : column >= columns.length ? state.model.moments.length : columns[column].to);
}

// The word of `key_audit live` for a moment: its stamp; or its line, if a call ends there between two stamps.
function questionsOf(at) {
  const { model } = state, moment = model.moments[at - 1], line = moment && model.byId.get(moment.within || moment.line);
  const isUnderWay = Boolean(line) && line.word === "vread" && line.last !== at;
  const isBetween = at > 0 && !endsStamp(model, at) && !isUnderWay && moment.kind !== "visit";
  return { stamp: moment ? String(moment.stamp) : "0", line: isBetween ? line.id : null, isUnderWay };
}

const NOTHING = { held: [], rests: [], lines: {} };

// The content of memory after a moment, and its source; null if the program did not answer yet.
function memoryAt(at) {
  const { stamp, line, isUnderWay } = questionsOf(at), { live, model } = state;
  if (stamp === "0") return { memory: NOTHING, source: "No visit so far." };
  const found = live.get(line || stamp);
  if (found) {
    const source = `By key_audit live ${line || stamp}.`;
    return { memory: found, source: isUnderWay ? `${source} A vgetrandom state counts as it was before the call that is under way.` : source };
  }
  if (found === undefined || !live.get(stamp)) return null;
  return { memory: memoryAfter(model, at, live.get(stamp)), source: "Between two calls of one stamp: worked out by this page from the rows of key_audit." };
}

// The program is asked one question at a time, and only about the last moment that is wanted.
let isAsking = false;

async function askLive() {
  const { stamp, line } = questionsOf(state.at), { model } = state;
  const wanted = [line, stamp].find(it => it && state.live.get(it) === undefined);
  if (isAsking || !wanted) return;
  isAsking = true;
  try {
    const { live } = await ask({ ask: "live", moment: wanted });
    if (model === state.model) state.live.set(wanted, live);
  } finally {
    isAsking = false;
  }
  show();
}

// ---- Showing ---------------------------------------------------------------------------------------------------------

function showMemory() {
  const found = memoryAt(state.at), { model, at } = state;
  if (!found) {
    $("held").replaceChildren(make("p", { class: "quiet" }, "asking key_audit …"));
    $("reach").replaceChildren();
    askLive();
    return null;
  }
  $("held").replaceChildren(...heldPanel(model, found.memory, found.source));
  $("reach").replaceChildren(...reachPanel(model, found.memory, at));
  return found.memory;
}

function showLines(memory) {
  const { model, at, linesFrom } = state, box = $("lines");
  box.replaceChildren(...model.lines.slice(linesFrom, linesFrom + LINES_AT_ONCE).map(line => lineRow(model, line, at, memory && memory.lines)));
  $("pager").replaceChildren(...pager("line", linesFrom, model.lines.length, LINES_AT_ONCE, to => { state.linesFrom = to; showLines(memory); }));
  const now = box.querySelector(".now");
  if (now && (now.offsetTop < box.scrollTop || now.offsetTop + now.offsetHeight > box.scrollTop + box.clientHeight)) {
    box.scrollTop = now.offsetTop - box.clientHeight / 2;
  }
}

function showKeys() {
  const { model, at, keysFrom, hot } = state, found = memoryAt(at), held = found && new Set(found.memory.held.map(it => it.key));
  $("keys").replaceChildren(...model.keys.slice(keysFrom, keysFrom + KEYS_AT_ONCE).map(key => keyRow(model, key, at, hot, held)));
  $("keys-pager").replaceChildren(...pager("key", keysFrom, model.keys.length, KEYS_AT_ONCE, to => { state.keysFrom = to; showKeys(); }));
}

function showPicture() {
  const scroll = $("scroll"), gap = ZOOMS[state.zoom], width = Math.max(picture.width(gap), scroll.clientWidth - 2);
  const left = Math.max(0, Math.min(scroll.scrollLeft, width - scroll.clientWidth)) - 100;
  $("canvas").style.width = `${width}px`;
  const view = { gap, left, right: Math.min(left + scroll.clientWidth + 200, width), at: state.at, hot: state.hot, isFolded: picture.isFolded };
  if (JSON.stringify(view) === picture.drawn) return;
  picture.drawn = JSON.stringify(view);
  const drawn = picture.draw(view);
  drawn.style.left = `${left}px`;
  $("canvas").style.height = `${picture.height}px`;
  $("canvas").replaceChildren(drawn);
  $("names").replaceChildren(...picture.rows.map(row => make("div", { class: row.lane[0] === "k" ? "of-caller" : "" },
    row.lane[0] === "k" ? `caller ${row.lane.slice(1)}` : laneName(row.lane))));
  [...$("names").children].forEach((element, at) => { element.style.height = `${picture.rows[at].height}px`; });
  const seen = Math.min(picture.columns.length, Math.round(scroll.clientWidth / gap));
  const hidden = picture.lanes.length - picture.rows.length;
  say("zoom-says", ` ${seen} of ${plural(picture.columns.length, "column")} in view${hidden ? `, ${plural(hidden, "row")} with no moment here left out` : ""} `);
  $("closer").disabled = state.zoom === 0;
  $("wider").disabled = state.zoom === ZOOMS.length - 1 || seen === picture.columns.length;
}

function scrollTo(at) {
  const scroll = $("scroll"), x = EDGE + (picture.column[at] + 0.5) * ZOOMS[state.zoom];
  $("canvas").style.width = `${picture.width(ZOOMS[state.zoom])}px`;
  if (x < scroll.scrollLeft + 70 || x > scroll.scrollLeft + scroll.clientWidth - 70) scroll.scrollLeft = x - scroll.clientWidth / 2;
}

function show() {
  const { model, at } = state, moment = model.moments[at - 1];
  $("at").value = at;
  $("at").setAttribute("aria-valuetext", `moment ${at} of ${model.moments.length}`);
  say("where", `${at} of ${model.moments.length}`, moment ? `, stamp ${moment.stamp}` : "");
  $("first").disabled = $("back").disabled = at === 0;
  $("next").disabled = at === model.moments.length;
  say("moment-text", foldedWords(), momentWords(model, at));
  $("streams").replaceChildren(...streamsAt(model, at));
  $("batch").replaceChildren(...[batchAt(model, picture.batches, at)].filter(Boolean));
  showLines(showMemory());
  showPicture();
  showKeys();
  showVisit();
  light();
}

function foldedWords() {
  const column = picture.columns[picture.column[state.at]], count = column ? column.to - column.from + 1 : 1;
  return count > 1 ? `${count} moments that change no key are folded here. The last of them: ` : "";
}

// Highlights a key wherever it is named.
function light() {
  document.querySelectorAll(".hot").forEach(element => element.classList.remove("hot"));
  if (!state.hot) return;
  document.querySelectorAll("[data-key], [data-row]").forEach(element => {
    if ([element.dataset.key, element.dataset.row].includes(state.hot)) element.classList.add("hot");
  });
}

function heat(name) {
  const hot = name || state.pinned;
  if (hot === state.hot || !picture) return;
  state.hot = hot;
  showPicture();
  light();
}

function pin(name) {
  state.pinned = state.pinned === name ? "" : name;
  heat(state.pinned);
}

// ---- Finding, files, links -------------------------------------------------------------------------------------------

function find(text) {
  const { model } = state, wanted = text.trim().replace(/^line\s+/i, "").replace(/^key\s+/i, "").replace(/\s/g, "");
  if (!model || !wanted) return;
  const line = model.byId.get(wanted), key = model.byName.get(wanted) || model.keys.find(it => it.name.toLowerCase() === wanted.toLowerCase());
  if (line) go(line.last || nextMoment(line));
  else if (key) {
    state.pinned = state.hot = key.name;
    go(key.from);
    $("keys").querySelector(".hot")?.scrollIntoView({ block: "nearest" });
  } else say("zoom-says", bold(` no line or key ${cut(wanted, 30)} `));
}

// A line without a moment, such as `at`, is shown by the next moment of its caller.
function nextMoment(line) {
  const later = state.model.lines.find(it => it.caller === line.caller && it.event > line.event && it.first);
  return later ? later.first : state.model.moments.length;
}

async function textOfFile(file) {
  const stream = file.stream();
  return new TextDecoder().decode(file.name.endsWith(".gz") ? await inflated(stream, "gzip") : await new Response(stream).arrayBuffer());
}

// A script, or a script and its transcript, in either order or in one file.
async function openFiles(files) {
  const texts = (await Promise.all([...files].map(textOfFile))).join("\n");
  const at = texts.indexOf("rngtranscript "), other = texts.indexOf("rngscript ");
  const isFirst = other >= 0 && (at < 0 || other < at);
  const script = other < 0 ? "" : texts.slice(other, isFirst && at >= 0 ? at : undefined), transcript = at < 0 ? "" : texts.slice(at, isFirst ? undefined : other);
  if (script) scriptEditor.text = wholeLines(script.replace(/\n+$/, "\n"));
  if (!transcript) return run();
  openEditor();
  transcriptEditor.text = wholeLines(transcript.replace(/\n+$/, "\n"));
  return check();
}

const asLink = bytes => btoa(Array.from(bytes, byte => String.fromCharCode(byte)).join("")).replace(/\+/g, "-").replace(/\//g, "_").replace(/=+$/, "");
const fromLink = text => Uint8Array.from(atob(text.replace(/-/g, "+").replace(/_/g, "/")), character => character.charCodeAt(0));
const streamed = bytes => new Blob([bytes]).stream();

let ownAddress = "";

async function share() {
  const packed = await new Response(streamed(scriptEditor.text).pipeThrough(new CompressionStream("deflate-raw"))).arrayBuffer();
  location.hash = ownAddress = `#s=${asLink(new Uint8Array(packed))}&at=${state.at}`;
  const length = location.href.length, long = length > 8000 ? ` It has ${length.toLocaleString("en")} characters, which some programs cut.` : "";
  try {
    await navigator.clipboard.writeText(location.href);
    say("share-says", `The link is copied: the script is in the address itself.${long}`);
  } catch {
    say("share-says", `The address of this page has the script now: copy it from the address bar.${long}`);
  }
}

async function choose(number, at) {
  const example = data.examples[number];
  $("example").value = number;
  scriptEditor.text = example.script || (await ask({ ask: "unpack", gzip: example.gzip })).text;
  return run(at);
}

async function openAddress() {
  const words = new URLSearchParams(location.hash.slice(1)), at = Number(words.get("at")) || 0;
  try {
    if (words.get("s")) {
      scriptEditor.text = new TextDecoder().decode(await inflated(streamed(fromLink(words.get("s"))), "deflate-raw"));
      return await run(at);
    }
  } catch {
    say("share-says", "The address has no script that can be read. Here is the first example.");
  }
  const number = data.examples.findIndex(example => example.name === words.get("example"));
  await choose(Math.max(0, number), at);
  if (words.has("visit")) await openVisit(Number(words.get("visit")) - 1);
  if (words.get("find")) find(words.get("find"));
  return null;
}

// ---- The guided visit ------------------------------------------------------------------------------------------------

async function openVisit(number) {
  $("example").value = "";
  scriptEditor.text = VISIT;
  await run(0);
  state.visit = Math.max(0, Math.min(STEPS.length - 1, number || 0));
  $("visit").hidden = false;
  go(STEPS[state.visit].at);
  $("visit-title")?.focus();
}

function closeVisit() {
  state.visit = -1;
  $("visit").hidden = true;
  $("stage").focus();
}

function goVisit(number) {
  state.visit = number;
  go(STEPS[number].at);
  $("visit-title").focus();
}

function showVisit() {
  if (state.visit < 0) return;
  if (state.script !== VISIT || state.at !== STEPS[state.visit].at) {
    state.visit = -1;
    $("visit").hidden = true;
    return;
  }
  const found = memoryAt(state.at);
  if (found) $("visit").replaceChildren(...visitPanel(state.model, state.visit, found.memory, goVisit, closeVisit));
}
