"use strict";
// The guided tour: seven steps of one run, from an empty pool to a stolen memory image. Its names and bytes are
// those of the run that the page has just made.

const VISIT = ["rngscript 1", "cpus 1", "caller 0", "read 16 1", `add ${Array.from({ length: 32 }, (_, at) =>
  at.toString(16).padStart(2, "0")).join("")} 256`, "read 16 0", "read 16 0", "read 16 0", "reseed", "read 16 0", "end", ""].join("\n");

// Each step: the moment that it shows, a title, its words, and their summary. A word in {braces} is a key.
const STEPS = [
  { at: 1, title: "The pool is empty",
    says: ["A kernel that has just started knows nothing that an attacker could not know too. It gathers bytes that are hard to guess, such as the times of interrupts, in the input pool, which is the state of a hash function.",
      "It has gathered none so far. A program that asks for 16 bytes, and does not want to wait, gets the error EAGAIN."],
    picture: "The input pool is empty. There is no base key, and CPU 0 has no key. The program gets EAGAIN." },
  { at: 2, title: "Samples go in",
    says: ["The script, in box 1 below, adds 32 bytes and credits 256 bits for them: an attacker is taken to know nothing about them. The bytes are hashed into the pool, so from now on the pool's state depends on all of them.",
      "At 256 bits the kernel calls the generator ready. Here you can read the 32 bytes in the script, so on this page nothing is secret."],
    picture: "Samples of 32 bytes go into the input pool, which has 256 bits and is ready." },
  { at: 4, title: "A root key comes out",
    says: ["The kernel makes two hashes of the pool. One is the pool's own next state. The other is {Root(1)}, and it becomes the base key, from which all other keys come. A key's name says where it was made: {Root(1)} by visit 1 of the pool, where visits count from 0.",
      "Nobody knows how to compute the hashed bytes from a hash. So {Root(1)} does not give the pool away."],
    picture: "The pool gives Root(1) to the base key." },
  { at: 5, title: "The base key makes a key for the CPU, and erases itself",
    says: ["A key has 32 bytes. The cipher ChaCha20 makes a long stream of bytes from it. The first 32 bytes of the stream of {Root(1)} overwrite {Root(1)} itself: they are the new base key, {Base(1)}. The next 32 bytes go to CPU 0 as its key, {Call(Base,1)}.",
      "So {Root(1)} is nowhere in memory any more. Each CPU has a key of its own, so that CPUs need not wait for one another."],
    picture: "Bytes 0 to 32 of Root(1)'s stream replace it as Base(1), and bytes 32 to 64 go to CPU 0. Root(1) is erased." },
  { at: 6, title: "The first answer",
    says: ["A program asks for 16 bytes. The CPU's key is used as the base key was: bytes 0 to 32 of its stream overwrite it, and are the new key {Cpu(0,0)}. Bytes 32 to 48 are the answer, which is line 0.2 of the transcript.",
      "So the key that made the answer is gone before the program has the answer. This is called fast key erasure."],
    picture: "CPU 0's key is replaced by Cpu(0,0), and 16 bytes go to the program. The key that made them is erased." },
  { at: 7, title: "The second answer",
    says: ["The same again: {Cpu(0,0)} makes {Cpu(0,1)} and 16 bytes, and is overwritten.",
      "This goes forwards only. From a key anybody can make its stream, and so the next key, and the one after that. The key before does not come out: that would be ChaCha20 backwards, and nobody knows how to do that."],
    picture: "Cpu(0,0) is replaced by Cpu(0,1), and a second answer goes to the program. Three keys are erased by now." },
  { at: 7, title: "The memory is stolen",
    says: ["Now a thief copies the memory of the base key and of the CPU. The copy has {Base(1)} and {Cpu(0,1)}, and no byte of their streams has been used. Both answers so far came from keys that are gone: they are out of reach.",
      "The next answer, line 0.4, is in reach, since {Cpu(0,1)} will make it. In line 0.5 the kernel reseeds: the keys come from the pool again, whose memory is not in this copy. So line 0.6 is out of reach. A thief who also had the pool's memory could compute it."],
    sum: "The answers so far came from keys that no longer exist, and the keys in memory have handed out nothing yet. For every run, at every stamp, it is proved that no byte of a key in memory was used before. (A stamp gives a visit's place in time.)",
    picture: "The thief has Base(1) and Cpu(0,1). Lines 0.2 and 0.3 are out of reach, line 0.4 is in reach, and line 0.6 is out of reach." },
];

// The places of the parts of the picture; on a narrow screen they are in two rows.
const BOX = 168;
const WIDE = { width: 860, height: 250, pool: [16, 84], base: [196, 84], cpu: [432, 84], out: [668, 84] };
const NARROW = { width: 412, height: 500, pool: [16, 84], base: [220, 84], cpu: [16, 318], out: [220, 318] };
const sceneNow = () => innerWidth < 700 ? NARROW : WIDE;

// The words of a step, with the names of keys highlighted.
function stepWords(model, text) {
  return text.split(/\{([^}]+)\}/).map((part, at) => at % 2 ? keyName(model, part) : part);
}

function sceneText(x, y, text, kind, anchor) {
  return shape("text", { x, y, class: kind || "", "text-anchor": anchor || "middle" }, text);
}

function poolScene([x, top], number) {
  const isFull = number > 0, width = 128, height = 92, level = 90;
  return [
    sceneText(x + width / 2, top - 14, "input pool", "head"),
    shape("rect", { x, y: top, width, height, rx: 10, class: "pool" }),
    isFull ? shape("rect", { x: x + 2, y: top + height - level, width: width - 4, height: level - 2, rx: 8, class: "pool-full" }) : null,
    sceneText(x + width / 2, top + 56, isFull ? "256 bits: ready" : "empty", isFull ? "" : "soft"),
    number === 1 ? [shape("path", { d: `M${x + 64} ${top - 72} V${top - 32}`, class: "arrow", "marker-end": "url(#tip)" }),
      sceneText(x + 74, top - 56, "32 bytes of samples", "small", "start")] : null,
  ];
}

// A box for a key: the key that is held, and below it those that were erased.
function keyScene(model, lane, at, [x, top], title) {
  const mine = model.keys.filter(key => laneOf(key.holder) === lane && key.from <= at), middle = x + BOX / 2;
  const held = mine.filter(key => key.to > at), gone = mine.filter(key => key.to <= at).reverse();
  const box = held.map(key => shape("g", { class: "key held", hue: hueOf(key), "data-key": key.name },
    shape("rect", { x, y: top, width: BOX, height: 44, rx: 6 }), sceneText(middle, top + 27, key.name)));
  return [
    sceneText(middle, top - 14, title, "head"),
    box.length ? box : [shape("rect", { x, y: top, width: BOX, height: 44, rx: 6, class: "no-key" }), sceneText(middle, top + 27, "no key", "soft")],
    gone.slice(0, 3).map((key, number) => shape("g", { class: "key gone", hue: hueOf(key), "data-key": key.name },
      shape("rect", { x: x + 10, y: top + 62 + number * 30, width: BOX - 20, height: 24, rx: 5 }),
      sceneText(middle, top + 78 + number * 30, `${cut(key.name, 14)} erased`))),
  ];
}

// An arrow from the right of one part to the left of the next, or down if that one is in the next row.
function arrowScene([x, y], [toX, toY], label) {
  const isDown = toY > y + 100, middle = (x + toX) / 2;
  const d = isDown ? `M${x - 150} ${y + 14} C${x - 170} ${y + 70} ${toX + 100} ${toY - 120} ${toX + 100} ${toY - 36}` :
    `M${x} ${y} C${middle} ${y} ${middle} ${toY} ${toX - 4} ${toY}`;
  return [shape("path", { d, class: "arrow", "marker-end": "url(#tip)" }),
    isDown ? sceneText(x - 150, y + 58, label, "small", "start") : sceneText(middle, Math.min(y, toY) - 7, label, "small")];
}

// The arrows from the key that was just erased: up to the key that replaced it, and to the part that got its next bytes.
function erasedScene([x, top], to, label) {
  return [shape("path", { d: `M${x + 30} ${top + 61} V${top + 48}`, class: "arrow", "marker-end": "url(#tip)" }),
    sceneText(x + 38, top + 57, "bytes 0 to 32", "small", "start"), arrowScene([x + BOX - 8, top + 74], to, label)];
}

function arrowsScene(number, { pool, base, cpu, out }) {
  const at = ([x, top], down) => [x, top + down];
  if (number === 2) return arrowScene([pool[0] + 130, pool[1] + 22], at(base, 22), "a hash");
  if (number === 3) return erasedScene(base, at(cpu, 22), "32 to 64");
  if (number === 4) return erasedScene(cpu, at(out, 17), "32 to 48");
  if (number === 5) return erasedScene(cpu, at(out, 57), "32 to 48");
  return null;
}

function answersScene(model, number, at, memory, [x, top]) {
  const isShown = line => line.word === "read" && (line.last <= at || number === 6) && (line.parts.length || number === 0);
  return [sceneText(x + 92, top - 14, "programs", "head"), model.lines.filter(isShown).map((line, row) => {
    const y = top + row * 40, isLater = line.last > at, key = line.parts.length ? model.keys[line.parts[0].key] : null;
    const reach = number === 6 && key ? (memory.lines[line.id] ? "in reach" : "out of reach") : "", kind = reach === "in reach" ? "leak" : "safe";
    return shape("g", { class: `answer${isLater ? " later" : ""}`, hue: key && hueOf(key), "data-key": key && key.name },
      shape("rect", { x, y, width: 184, height: 34, rx: 5 }),
      sceneText(x + 8, y + 14, `line ${line.id}${isLater ? ", later" : ""}`, "small", "start"),
      sceneText(x + 8, y + 28, key ? `${line.data.slice(0, 12)}…` : line.answer, "mono", "start"),
      reach ? [shape("rect", { x: x + 98, y: y + 8, width: 80, height: 18, rx: 9, class: kind }), sceneText(x + 138, y + 21, reach, kind)] : null);
  })];
}

// A frame around the keys that the thief has: around both, or around each of them.
function thiefScene({ base, cpu }) {
  const frame = ([x, top], width) => [shape("rect", { x: x - 12, y: top - 58, width: width + 24, height: 109, rx: 10, class: "thief" }),
    sceneText(x + width / 2, top - 40, width > BOX ? "the stolen memory image" : "in the stolen image", "thief-word")];
  return base[1] === cpu[1] ? frame(base, cpu[0] + BOX - base[0]) : [frame(base, BOX), frame(cpu, BOX)];
}

function scene(model, number, memory) {
  const { at, picture } = STEPS[number], places = sceneNow();
  return shape("svg", { viewBox: `0 0 ${places.width} ${places.height}`, role: "img", "aria-label": picture, class: "scene" },
    DEFINITIONS.map(it => it.cloneNode(true)),
    number === 6 ? thiefScene(places) : null,
    poolScene(places.pool, number), keyScene(model, "b", at, places.base, "base key"), keyScene(model, "c0", at, places.cpu, "CPU 0's key"),
    arrowsScene(number, places), answersScene(model, number, at, memory, places.out));
}

function visitPanel(model, number, memory, go, close) {
  const step = STEPS[number], isLast = number + 1 === STEPS.length;
  const button = (text, to, kind) => make("button", { class: kind, disabled: to < 0, onclick: () => go(to) }, text);
  return [
    make("div", { class: "bar" }, button("◀ back", number - 1),
      isLast ? make("button", { class: "main", onclick: close }, "Now step through it yourself") : button("next ▶", number + 1, "main"),
      make("h2", { id: "visit-title", tabindex: -1 }, `Step ${number + 1} of ${STEPS.length}: ${step.title}`),
      make("button", { onclick: close, class: "close" }, "Close the tour")),
    scene(model, number, memory),
    make("div", { class: "words", "aria-live": "polite" }, step.says.map(text => make("p", {}, stepWords(model, text))),
      step.sum ? make("p", { class: "sum" }, bold("In short: "), step.sum) : null,
      make("p", { class: "quiet" }, isLast ? "Change the script, and see which keys the thief gets then." : "The picture below shows the same moment in full.")),
  ];
}
