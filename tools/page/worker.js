"use strict";
// The worker of the page: it has the modules, and answers one question at a time.

const modules = {};
let pair = "";

async function load(data) {
  await Promise.all(Object.entries(data).map(async ([name, { gzip }]) => {
    modules[name] = await WebAssembly.compile(await unpacked(gzip));
  }));
  return {};
}

const say = text => postMessage({ progress: text });

// A lawful transcript with everything that the page shows of it. The programs' answers about it are kept for later questions.
function shown(script, transcript) {
  say("key_audit lists the life of each key");
  const rows = runProgram(modules.key_audit, ["keys"], script + transcript);
  if (rows.status !== 0) return { status: rows.status, out: rows.out, err: rows.err };
  pair = script + transcript;
  hand(modelOf(script, transcript, rows.out));
  return { status: 0, transcript };
}

// A long run is handed over in pieces, so that the page can do other work in between.
const AT_ONCE = 1000;

function hand(model) {
  for (const [name, items] of Object.entries(model)) {
    postMessage({ begins: name });
    for (let at = 0; at < items.length; at += AT_ONCE) postMessage({ piece: name, items: items.slice(at, at + AT_ONCE) });
  }
}

function run(script) {
  say("running the script");
  const ran = runProgram(modules.rng, ["run"], script);
  if (ran.status !== 0) return ran;
  say("checking the transcript");
  const checked = runProgram(modules.rng, ["check"], script + ran.out);
  return { ...shown(script, ran.out), verdict: checked.out.trim() };
}

// A transcript checked against a script: the verdict, and the expected text if that is known.
function judge(script, transcript) {
  say("checking the transcript");
  const checked = runProgram(modules.rng, ["check"], script + transcript);
  const answer = { status: checked.status, verdict: checked.out.trim(), err: checked.err };
  if (checked.status === 0) return { ...shown(script, transcript), ...answer };
  if (checked.status === 1) answer.fault = faultIn(script, transcript, answer, ([words, text]) => runProgram(modules.rng, words, text));
  return answer;
}

// The content of memory after a stamp or an event; null if the program has no answer.
function live(moment) {
  const answer = runProgram(modules.key_audit, ["live", moment], pair);
  return { live: answer.status === 0 ? readLive(answer.out) : null };
}

const ANSWERS = {
  load: ({ data }) => load(data),
  unpack: async ({ gzip }) => ({ text: new TextDecoder().decode(await unpacked(gzip)) }),
  run: ({ script }) => run(script),
  judge: ({ script, transcript }) => judge(script, transcript),
  live: ({ moment }) => live(moment),
  program: ({ program, words, text }) => runProgram(modules[program], words, text),
};

onmessage = async ({ data: question }) => {
  try {
    postMessage({ id: question.id, answer: await ANSWERS[question.ask](question) });
  } catch (fault) {
    postMessage({ id: question.id, fault: String(fault) });
  }
};
