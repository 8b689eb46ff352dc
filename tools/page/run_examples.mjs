// usage: node run_examples.mjs PAGE.html EXAMPLES: runs every script in the page's own modules, and compares.
//
// Of one caller the transcript has to be the recorded one. `check` has to print yes for every pair, and the page's own
// view of memory has to be that of `key_audit live`. It ends with a line of sums, and with status 1 if anything differs.
import fs from "fs";
import path from "path";
import vm from "vm";

const [file, examples] = process.argv.slice(2);
const page = fs.readFileSync(file, "utf8");
const part = id => page.match(new RegExp(`<script[^>]* id="${id}">([^]*?)</script>`))[1];
const shared = vm.runInThisContext(part("shared") + ";({ unpacked, runProgram, modelOf, readLive, memoryAfter, endsStamp })");
const data = JSON.parse(part("data"));
const modules = {};
for (const [name, { gzip }] of Object.entries(data.modules)) modules[name] = new WebAssembly.Module(await shared.unpacked(gzip));

const differs = [];
let same = 0;
function compare(name, found, wanted) {
  if (found === wanted) same++;
  else differs.push(name);
}

const asText = live => JSON.stringify([
  live.held.map(it => it.key + it.holder).sort(), live.rests.map(it => it.key + it.holder + it.from + "+" + it.length).sort(),
  Object.entries(live.lines).map(([line, pieces]) => [line, pieces.map(it => `${it.from}+${it.length}<${it.target}`)]).sort(),
]);

// If every call is over, the page's own view of memory is the program's. Of a long run some stamps are compared.
function compareMemory(name, pair, model) {
  const every = Math.ceil(model.moments.length / 60);
  for (const moment of model.moments.filter(it => it.at % every === 0 && shared.endsStamp(model, it.at))) {
    const isUnderWay = model.lines.some(line => line.word === "vread" && line.first <= moment.at && moment.at < line.last);
    if (isUnderWay) continue;
    if (moment.stamp === 0) continue;
    const live = shared.readLive(shared.runProgram(modules.key_audit, ["live", String(moment.stamp)], pair).out);
    compare(`${name}: memory after ${moment.stamp}`, asText(shared.memoryAfter(model, moment.at, live)), asText(live));
  }
  if (model.callers.length === 1) compareBetween(name, pair, model);
}

// The same after each call of a single caller that ends between two stamps, if the program takes an event for a stamp.
function compareBetween(name, pair, model) {
  for (const moment of model.moments.filter(it => ["copy", "wipe"].includes(it.kind) && !it.within && it.stamp)) {
    if (model.lines.find(line => line.id === moment.line).last !== moment.at) continue;
    const answer = shared.runProgram(modules.key_audit, ["live", moment.line], pair);
    const live = shared.readLive(shared.runProgram(modules.key_audit, ["live", String(moment.stamp)], pair).out);
    if (answer.status === 0) compare(`${name}: memory after ${moment.line}`, asText(shared.memoryAfter(model, moment.at, live)), asText(shared.readLive(answer.out)));
  }
}

function scriptsIn(folder) {
  return fs.readdirSync(folder, { recursive: true }).filter(name => name.endsWith(".script")).sort();
}

for (const name of scriptsIn(examples)) {
  const script = fs.readFileSync(path.join(examples, name), "utf8");
  const transcript = fs.readFileSync(path.join(examples, name.replace(/script$/, "transcript")), "utf8");
  const pair = script + transcript;
  try {
    const ran = shared.runProgram(modules.rng, ["run"], script);
    if (!/^fork /m.test(script)) compare(`${name}: run`, ran.out, transcript);
    compare(`${name}: check of its run`, shared.runProgram(modules.rng, ["check"], script + ran.out).out, "yes\n");
    compare(`${name}: check`, shared.runProgram(modules.rng, ["check"], pair).out, "yes\n");
    const rows = shared.runProgram(modules.key_audit, ["keys"], pair);
    compare(`${name}: keys`, rows.status, 0);
    compareMemory(name, pair, shared.modelOf(script, transcript, rows.out));
  } catch (fault) {
    differs.push(`${name}: ${fault}`);
  }
}
differs.slice(0, 20).forEach(name => console.log(`differs: ${name}`));
console.log(`examples: ${same} same, ${differs.length} differ`);
process.exitCode = differs.length || !same ? 1 : 0;
