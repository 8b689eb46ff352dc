"use strict";
// The events that the page listens to, and its start.

const redraw = () => state.model && showPicture();

function resized() {
  redraw();
  showVisit();
}

function onKey(event) {
  if (!state.model || event.ctrlKey || event.altKey || event.metaKey || /^(TEXTAREA|SELECT|INPUT)$/.test(event.target.tagName)) return;
  const moves = { ArrowRight: () => step(1), ArrowLeft: () => step(-1), Home: () => go(0), End: () => go(state.model.moments.length) };
  if (!moves[event.key]) return;
  event.preventDefault();
  moves[event.key]();
}

function listen() {
  const on = (id, kind, does) => $(id).addEventListener(kind, does);
  const zoom = by => { state.zoom = Math.max(0, Math.min(ZOOMS.length - 1, state.zoom + by)); scrollTo(state.at); showPicture(); };
  on("run", "click", () => run(0));
  on("example", "change", () => choose(Number($("example").value), 0));
  on("files", "change", () => openFiles($("files").files));
  on("edit", "click", openEditor);
  on("check", "click", check);
  on("done", "click", () => { closeEditor(); run(0); });
  on("first", "click", () => go(0));
  on("back", "click", () => step(-1));
  on("next", "click", () => step(1));
  on("at", "input", () => go(Number($("at").value)));
  on("closer", "click", () => zoom(-1));
  on("wider", "click", () => zoom(1));
  on("fold", "change", () => { picture.fold($("fold").checked); go(state.at); });
  on("find-form", "submit", event => { event.preventDefault(); find($("find").value); });
  on("share", "click", share);
  on("visit-open", "click", () => openVisit(0));
  on("theme", "change", () => { document.documentElement.dataset.theme = $("theme").value; });
  on("scroll", "scroll", () => requestAnimationFrame(redraw));
  on("lines", "click", event => {
    const row = event.target.closest("[data-line]"), line = row && state.model.byId.get(row.dataset.line);
    if (line) go(line.last || nextMoment(line));
  });
  addEventListener("resize", resized);
  addEventListener("keydown", onKey);
  addEventListener("hashchange", () => location.hash === ownAddress || openAddress());
  document.addEventListener("mouseover", event => heat(event.target.closest("[data-key]")?.dataset.key));
  document.addEventListener("click", event => {
    const name = event.target.closest("[data-key]")?.dataset.key;
    if (name) pin(name);
  });
}

function begin() {
  $("example").append(...data.examples.map((example, at) => make("option", { value: at }, example.title)),
    make("option", { value: "", hidden: true }, "The guided tour's script"));
  say("sources", `Version ${data.version}. `, Object.entries(data.modules).map(([name, it]) =>
    [`${name}: ${it.bytes.toLocaleString("en")} bytes of WebAssembly, of sources `, code(it.sources.slice(0, 16)), ". "]));
  if (typeof WebAssembly !== "object" || typeof DecompressionStream !== "function") {
    say("script-says", bold("This browser is too old for this page. "), "It takes Chromium 103, Firefox 113 or Safari 16.4, or a later one.");
    return;
  }
  listen();
  say("script-says", "loading the programs …");
  ask({ ask: "load", data: data.modules }).then(() => { $("run").disabled = false; return location.hash === "#test" ? selfTest() : openAddress(); })
    .catch(fault => say("script-says", bold("The programs did not start: "), String(fault.message)));
}

begin();
