"use strict";
// A text with numbered lines, one of which can be marked with a message about a fault. Of a long text only some lines
// are shown, and it cannot be edited: a browser takes seconds to lay out a field of 20,000 lines.

const MOST_EDITED = 3000, SHOWN_OF_LONG = 300;

class Editor {
  constructor(box) {
    this.numbers = box.querySelector("pre");
    this.area = box.querySelector("textarea");
    this.box = box;
    this.long = null;
    this.from = 0;
    this.marked = 0;
    this.stripe = make("div", { class: "stripe", hidden: true, "aria-hidden": "true" });
    box.prepend(this.stripe);
    this.area.addEventListener("scroll", () => this.place());
    this.area.addEventListener("input", () => this.mark(0));
  }

  // The whole text, with the line feeds that the programs expect.
  get text() {
    return this.long ? this.long.join("\n") : this.area.value.replace(/\r/g, "");
  }

  set text(value) {
    const lines = value.split("\n");
    this.long = lines.length > MOST_EDITED ? lines : null;
    this.area.readOnly = Boolean(this.long);
    this.area.title = this.long ? `${lines.length.toLocaleString("en")} lines: too long to edit here` : "";
    this.from = 0;
    if (!this.long) this.area.value = value;
    this.mark(0);
  }

  get lineHeight() {
    return parseFloat(getComputedStyle(this.area).lineHeight);
  }

  // Marks a line and shows it; 0 marks no line.
  mark(row) {
    this.marked = row;
    this.area.setAttribute("aria-invalid", row ? "true" : "false");
    if (this.long) {
      this.from = Math.max(0, row - SHOWN_OF_LONG / 2);
      this.area.value = this.long.slice(this.from, this.from + SHOWN_OF_LONG).map(line => cut(line, 400)).join("\n");
    }
    if (row) this.area.scrollTop = Math.max(0, (row - this.from - 4) * this.lineHeight);
    this.place();
  }

  // The numbers of the lines in view, and the stripe of the marked one.
  place() {
    const height = this.lineHeight, top = this.area.scrollTop, first = Math.floor(top / height);
    const shown = Math.ceil(this.box.clientHeight / height) + 1, count = this.area.value.split("\n").length;
    const rows = Array.from({ length: Math.max(0, Math.min(shown, count - first)) }, (_, at) => this.from + first + at + 1);
    this.numbers.textContent = rows.map(row => row === this.marked ? `✗ ${row}` : row).join("\n");
    this.numbers.style.marginTop = `${first * height - top}px`;
    this.stripe.hidden = !this.marked;
    this.stripe.style.top = `${parseFloat(getComputedStyle(this.area).paddingTop) + (this.marked - this.from - 1) * height - top}px`;
    this.stripe.style.height = `${height}px`;
  }
}
