"use strict";
// Finds the place at which a transcript fails the clause that `check` names. If the program itself names the place, that is used.
// Otherwise this searches the place: by the grammar, by the script, or by running the program on changed texts.
// `ask` runs `rng` on words and an input.

const CLAUSES = {
  1: ["text", "the text is not that of a transcript"],
  2: ["lines", "the lines are not those of the script"],
  3: ["marks", "places have to count up in each lane, and stamps have to rise along lanes and callers"],
  4: ["forms", "these steps are none that the event can have here"],
  5: ["answers", "the steps call for another answer"],
  6: ["data", "the steps and the lists give other bytes"],
  7: ["looks", "a look finds less than its caller knew, or more than there were reseeds"],
};

const NUMBER = "(?:0|[1-9][0-9]*)";
const STEP = `(?:~${NUMBER}|(?:p|b|c${NUMBER}):${NUMBER}@${NUMBER})`;
const WORD = "(?:at|on|hw|device|write|add|credit|bits|irq|input|read|vread|kread|dread|uread|int8|int16|int32|int64|reseed|" +
  "tick|drop|fork|inside|prepare|online|vmfork|state|end)";
const ANSWER = "(?:ok|EAGAIN|EINVAL|ENODATA|EINTR|fired|idle|unused)";
const LINE = new RegExp(`^${NUMBER}\\.${NUMBER} ${WORD} ${ANSWER} (?:-|${STEP}(?:,${STEP}){0,19}) (?:-|(?:[0-9a-f]{2})+|${NUMBER})$`);

// The first line that breaks the grammar, as far as a single line shows it.
function textFault(script, transcript) {
  const lines = transcript.split("\n");
  if (lines[0] !== "rngtranscript 1") return { row: 1, wanted: "rngtranscript 1" };
  for (let at = 1; at < lines.length; at++) {
    if (lines[at] === "end") return { row: at + 2, wanted: "nothing after the line `end` and its line feed" };
    if (!LINE.test(lines[at])) return { row: at + 1, wanted: "a line CALLER.EVENT WORD ANSWER STEPS DATA, or `end`" };
  }
  return { row: lines.length, wanted: "a last line `end`, with a line feed" };
}

function linesFault(script, transcript) {
  const wanted = readScript(script).flatMap((events, caller) =>
    [...events.map(event => event.fields[0]), "end"].map((word, number) => `${caller}.${number} ${word}`));
  const found = readTranscript(transcript);
  const at = wanted.findIndex((text, number) => !found[number] || `${found[number].id} ${found[number].word}` !== text);
  if (at < 0) return { row: wanted.length + 2, wanted: "`end`: the script has no more events" };
  return { row: at + 2, wanted: `line ${wanted[at].replace(" ", ", event ")}` };
}

function laneFault(lane, visits) {
  const inOrder = [...visits].sort((one, other) => one.place - other.place || one.row - other.row);
  const at = inOrder.findIndex((visit, place) => visit.place !== place || (place && visit.stamp <= inOrder[place - 1].stamp));
  if (at < 0) return null;
  const visit = inOrder[at], isPlace = visit.place !== at;
  return { row: visit.row, wanted: isPlace ? `place ${at} once in lane ${lane}` : `a stamp above ${inOrder[at - 1].stamp} in lane ${lane}` };
}

function marksFault(script, transcript) {
  const lines = readTranscript(transcript), lanes = new Map(), last = {};
  for (const line of lines) {
    for (const step of line.steps.filter(isVisit)) {
      if (!lanes.has(step.lane)) lanes.set(step.lane, []);
      lanes.get(step.lane).push({ ...step, row: line.row });
    }
  }
  const found = [...lanes].map(([lane, visits]) => laneFault(lane, visits)).filter(Boolean);
  if (found.length) return found.reduce((one, other) => one.row <= other.row ? one : other);
  for (const line of lines.filter(it => it.word !== "inside")) {
    for (const step of line.steps.filter(isVisit)) {
      if (step.stamp <= (last[line.caller] || -1)) return { row: line.row, wanted: `a stamp above ${last[line.caller]}` };
      last[line.caller] = step.stamp;
    }
  }
  return {};
}

// `replay` makes answers and bytes anew from the steps.
function replayFault(script, transcript, clause, ask) {
  const made = ask([["replay"], script + transcript]);
  if (made.status !== 0) return {};
  const wanted = made.out.split("\n"), found = transcript.split("\n"), field = clause === 5 ? 2 : 4;
  const at = wanted.findIndex((line, number) => line.split(" ")[field] !== (found[number] || "").split(" ")[field]);
  return at < 0 ? {} : { row: at + 1, wanted: wanted[at].split(" ")[field] };
}

// The first events of a script of one caller and their lines, with the last line that follows these events.
function prefixOf(script, transcript, count) {
  const [head, cpus, caller, ...events] = script.split("\n"), [first, ...lines] = transcript.split("\n").slice(0, count + 1);
  const marks = lines.flatMap(line => line.split(" ")[3].split(",")).filter(step => step.includes("@"));
  const stamps = marks.map(mark => Number(mark.split("@")[1])), place = marks.filter(mark => mark[0] === "b").length;
  const last = `0.${count} end ok b:${place}@${Math.max(0, ...stamps) + 1} -`;
  return [head, cpus, caller, ...events.slice(0, count), "end", first, ...lines, last, "end", ""].join("\n");
}

// The shortest prefix of a script of one caller that fails this clause. Its last line is the place.
function prefixFault(script, transcript, clause, ask) {
  const callers = readScript(script), lines = readTranscript(transcript);
  if (callers.length !== 1) return {};
  const cuts = lines.filter(line => line.word !== "inside" && line.word !== "end").map(line => line.event + 1);
  const verdictOf = count => ask([["check"], prefixOf(script, transcript, count)]).out.trim();
  let [low, high] = [0, cuts.length];
  while (low < high) {
    const middle = (low + high) >> 1;
    if (verdictOf(cuts[middle]) === "yes") low = middle + 1;
    else high = middle;
  }
  if (low === cuts.length) return { row: lines.length + 1 };
  return verdictOf(cuts[low]) === `no ${clause}` ? { row: cuts[low] + 1 } : {};
}

// The place by the program's own message on standard error.
function reportedFault(err) {
  const found = err.match(/transcript line (\d+), clause \d+, \w+: (.*)$/);
  return found ? { row: Number(found[1]), message: found[2] } : null;
}

function faultIn(script, transcript, { verdict, err }, ask) {
  const clause = Number(verdict.split(" ")[1]);
  const searches = { 1: textFault, 2: linesFault, 3: marksFault, 5: replayFault, 6: replayFault };
  const place = reportedFault(err) || (searches[clause] || prefixFault)(script, transcript, clause, ask);
  return { clause, name: CLAUSES[clause][0], says: CLAUSES[clause][1], ...place };
}
