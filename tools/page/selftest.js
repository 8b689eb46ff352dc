"use strict";
// The page's own test, at the address #test. It runs each example, or each case that a gate has put beside the page's
// data. It ends with one line: how many answers are right, and a checksum of all of them, which is the same wherever
// the page runs.

const program = (name, words, text) => ask({ ask: "program", program: name, words, text });

// A checksum of texts (FNV-1a, 32 bits). It detects answers that differ by accident, and is no defence against anybody.
function addTo(sum, text) {
  for (let at = 0; at < text.length; at++) sum = Math.imul(sum ^ text.charCodeAt(at), 16777619);
  return sum >>> 0;
}

// The question of a case, the answer, and the expected answer if it is known. A fork's places may differ at each run.
async function answersTo({ script, transcript, keys, live, verdict }) {
  if (verdict) return [["verdict", (await program("rng", ["check"], script + transcript)).out, `${verdict}\n`]];
  const ran = (await program("rng", ["run"], script)).out, isAlone = !/^fork /m.test(script), pair = script + (transcript || ran);
  const stamps = live ? Object.keys(live) : [...new Set(ran.match(/(?<=@)[0-9]+/g) || [])].slice(0, 12);
  const lives = await Promise.all(stamps.map(stamp => program("key_audit", ["live", stamp], pair)));
  return [
    ["run", ran, isAlone ? transcript : undefined],
    ["check of the run", (await program("rng", ["check"], script + ran)).out, "yes\n"],
    ["check", (await program("rng", ["check"], pair)).out, "yes\n"],
    ["keys", (await program("key_audit", ["keys"], pair)).out, keys],
    ...lives.map((answer, at) => [`live ${stamps[at]}`, answer.out, live && live[stamps[at]]]),
  ];
}

async function selfTest() {
  const given = $("test-data"), cases = given ? JSON.parse(given.textContent) : data.examples.filter(it => it.script);
  let same = 0, sum = 2166136261;
  const differs = [];
  for (const one of cases) {
    for (const [name, found, wanted] of await answersTo(one)) {
      sum = addTo(sum, found);
      if (wanted === undefined || found === wanted) same++;
      else differs.push(`${name} of ${one.name}`);
    }
    say("share-says", `self test: ${same} answers …`);
  }
  say("share-says", make("span", { id: "self-test" }, `self test: cases=${cases.length} same=${same} differs=${differs.length} sum=${sum.toString(16)} `,
    differs.slice(0, 10).join("; ")));
}
