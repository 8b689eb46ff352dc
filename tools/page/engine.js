"use strict";
// Runs the two programs. A module is compiled once; each call makes its own instance, so that no call sees memory that
// another call left.

// A program ends by throwing this through the module, from its `_exit`.
class Ended {
  constructor(status) {
    this.status = status;
  }
}

// The bytes that a base64 text of a gzip file holds.
async function unpacked(base64) {
  const packed = Uint8Array.from(atob(base64), character => character.charCodeAt(0));
  return inflated(new Blob([packed]).stream(), "gzip");
}

async function inflated(stream, format) {
  return new Uint8Array(await new Response(stream.pipeThrough(new DecompressionStream(format))).arrayBuffer());
}

// The imports of the C library's shim: standard input, standard output, standard error, and the end.
function hostOf(input, streams, memory) {
  let at = 0;
  const view = (place, length) => new Uint8Array(memory().buffer, Number(place), Number(length));
  return {
    read(place, length) {
      const count = Math.min(Number(length), input.length - at);
      view(place, count).set(input.subarray(at, at + count));
      at += count;
      return BigInt(count);
    },
    write(stream, place, length) {
      streams[stream].push(view(place, length).slice());
      return BigInt(length);
    },
    exit(status) {
      throw new Ended(status);
    },
  };
}

function textOf(pieces) {
  const decoder = new TextDecoder();
  return pieces.map(piece => decoder.decode(piece, { stream: true })).join("") + decoder.decode();
}

// Runs a program on the words of a command line and an input. Returns its status and its output.
function runProgram(module, words, text) {
  const streams = { 1: [], 2: [] };
  let memory = null;
  const host = hostOf(new TextEncoder().encode(text), streams, () => memory);
  const { exports } = new WebAssembly.Instance(module, { host });
  memory = exports.memory;
  ["page", ...words].forEach((word, number) => {
    new TextEncoder().encode(word).forEach((byte, at) => exports.page_word(BigInt(number), BigInt(at), BigInt(byte)));
  });
  let status;
  try {
    status = exports.page_main();
  } catch (end) {
    if (!(end instanceof Ended)) throw end;
    status = end.status;
  }
  return { status, out: textOf(streams[1]), err: textOf(streams[2]).trim() };
}
