// The map of a card: a cell for each block, in it its pages by their places. Each state has a pattern of its own.

const STATES = ["live", "older", "past", "damaged", "free"];
const SAID = {
  live: "live: part of the newest version",
  older: "older: replaced or removed, or the head of a record",
  past: "past the end of the journal: a mount does not see it",
  damaged: "damaged: neither a record nor blank, or what can't be read",
  free: "free",
};
const PAGE_BYTES = 516;

function color(name) {
  return getComputedStyle(document.documentElement).getPropertyValue(`--${name}`).trim();
}

// A small canvas with the pattern of a state: filled, lines, dots, crosses, or only a dot in the middle.
function tile(state) {
  const canvas = document.createElement("canvas");
  canvas.width = canvas.height = 8;
  const pen = canvas.getContext("2d");
  pen.fillStyle = state === "live" ? color("live") : color("paper");
  pen.fillRect(0, 0, 8, 8);
  pen.strokeStyle = pen.fillStyle = color(state);
  pen.lineWidth = 1.6;
  pen.beginPath();
  if (state === "older") for (const at of [-4, 0, 4, 8]) pen.moveTo(at, 8), pen.lineTo(at + 8, 0);
  if (state === "damaged") for (const [x, y] of [[0, 8], [8, 0]]) pen.moveTo(0, x), pen.lineTo(8, y);
  pen.stroke();
  if (state === "past") for (const [x, y] of [[1, 1], [5, 5]]) pen.fillRect(x, y, 3, 3);
  if (state === "free") pen.fillRect(3, 3, 1, 1);
  return canvas;
}

function fillOf(pen, state) {
  return pen.createPattern(tile(state), "repeat");
}

function swatch(state, width = 24, height = 16) {
  const canvas = element("canvas", { width, height, "aria-hidden": "true" });
  const pen = canvas.getContext("2d");
  pen.fillStyle = fillOf(pen, state);
  pen.fillRect(0, 0, width, height);
  return canvas;
}

// A bar of the bytes of each state.
function fullnessBar(sizes) {
  const canvas = element("canvas", { width: 900, height: 20, "aria-hidden": "true" });
  const pen = canvas.getContext("2d"), whole = sizes.reduce((one, other) => one + other, 0) || 1;
  let at = 0;
  sizes.forEach((size, state) => {
    pen.fillStyle = fillOf(pen, STATES[state]);
    pen.fillRect(at, 0, (900 * size) / whole, 20);
    at += (900 * size) / whole;
  });
  return canvas;
}

class CardMap {
  constructor(canvas, told) {
    this.canvas = canvas;
    this.told = told;
    this.block = 0;
    canvas.addEventListener("mousemove", (event) => this.point(event));
    canvas.addEventListener("click", (event) => this.point(event, true));
    canvas.addEventListener("keydown", (event) => this.key(event));
    const resized = () => this.card && this.measure() && this.draw();
    new ResizeObserver(() => requestAnimationFrame(resized)).observe(canvas.parentElement);
    matchMedia("(prefers-color-scheme: dark)").addEventListener("change", () => this.card && this.draw());
  }

  show(card, rows) {
    this.card = card;
    this.marked = new Set(rows);
    this.block = Math.min(3, Math.max(0, card.blocks - 1));
    const first = card.banks.flatMap((bank) => bank.pages).find((page) => this.marked.has(page[2]));
    if (first) this.block = Math.floor(first[0] / card.block);
    this.columns = 0;
    this.measure();
    this.draw();
    this.told(this.block);
  }

  measure() {
    const stripe = this.card.blocks <= 200 ? 9 : this.card.blocks <= 1100 ? 5 : 3;
    this.wide = stripe * 8;
    this.high = stripe >= 9 ? 24 : 14;
    const columns = Math.max(1, Math.floor(this.canvas.parentElement.clientWidth / (this.wide + 3)));
    const is = columns !== this.columns;
    this.columns = columns;
    return is;
  }

  size() {
    const scale = window.devicePixelRatio || 1, width = this.columns * (this.wide + 3);
    const height = Math.ceil(this.blocks() / this.columns) * (this.high + 4) + 2;
    this.canvas.width = width * scale;
    this.canvas.height = height * scale;
    this.canvas.style.width = `${width}px`;
    this.canvas.style.height = `${height}px`;
    this.pen = this.canvas.getContext("2d");
    this.pen.scale(scale, scale);
  }

  blocks() {
    return Math.max(1, Math.ceil(this.card.bytes / this.card.block));
  }

  corner(block) {
    return [(block % this.columns) * (this.wide + 3) + 1, Math.floor(block / this.columns) * (this.high + 4) + 2];
  }

  // Calls a function with the rectangle of each part of a stretch of bytes.
  stretch(begin, end, each) {
    for (let block = Math.floor(begin / this.card.block); block * this.card.block < end; block++) {
      const from = Math.max(begin, block * this.card.block) % this.card.block;
      const to = Math.min(end - block * this.card.block, this.card.block);
      const [x, y] = this.corner(block), scale = this.wide / this.card.block;
      each(x + from * scale, y, Math.max(1, (to - from) * scale), this.high);
    }
  }

  fill(begin, end, state) {
    this.pen.fillStyle = this.fills[state];
    this.stretch(begin, end, (...at) => this.pen.fillRect(...at));
  }

  draw() {
    this.size();
    this.fills = STATES.map((it) => fillOf(this.pen, it));
    for (const bank of this.card.banks) this.drawBank(bank);
    this.pen.strokeStyle = color("line");
    for (let block = 0; block < this.blocks(); block++) {
      this.pen.strokeRect(...this.corner(block), this.wide, this.high);
    }
    this.drawVotes();
    this.drawMarks();
    this.outline(this.block, color("mark"), 2);
  }

  drawBank(bank) {
    this.fill(bank.start, bank.end, 4);
    if (bank.version) this.fill(bank.start, bank.start + 16, 1);
    for (const [place, end] of bank.records) this.fill(place, end, 1);
    for (const [begin, end] of bank.damage) this.fill(begin, end, 3);
    for (const [place, state] of bank.pages) this.fill(place, place + PAGE_BYTES, state);
  }

  drawVotes() {
    this.pen.fillStyle = color("ink");
    this.pen.font = `${Math.min(14, this.high - 3)}px sans-serif`;
    this.card.votes.forEach((vote, block) => {
      const [x, y] = this.corner(block);
      this.pen.fillText(vote < 2 ? `v${vote}` : "v?", x + 4, y + this.high - 4, this.wide - 6);
    });
  }

  // The pages of the entry that was pointed at, and the place that `check` names.
  drawMarks() {
    this.pen.lineWidth = 2;
    this.pen.strokeStyle = color("ink");
    for (const page of this.card.banks.flatMap((bank) => bank.pages)) {
      if (!this.marked.has(page[2])) continue;
      this.stretch(page[0], page[0] + PAGE_BYTES, (x, y, wide, high) => this.pen.strokeRect(x, y - 1, wide, high + 2));
    }
    if (this.card.place >= 0) this.outline(Math.floor(this.card.place / this.card.block), color("damaged"), 3);
    this.pen.lineWidth = 1;
  }

  outline(block, stroke, width) {
    this.pen.strokeStyle = stroke;
    this.pen.lineWidth = width;
    const [x, y] = this.corner(block);
    this.pen.strokeRect(x - 1, y - 1, this.wide + 2, this.high + 2);
    this.pen.lineWidth = 1;
  }

  go(block) {
    if (block < 0 || block >= this.blocks()) return;
    this.block = block;
    this.draw();
    this.told(block);
  }

  point(event, isClicked = false) {
    const box = this.canvas.getBoundingClientRect();
    const column = Math.floor((event.clientX - box.left) / (this.wide + 3));
    const line = Math.floor((event.clientY - box.top) / (this.high + 4));
    const block = line * this.columns + column;
    if (column >= this.columns || block >= this.blocks()) return;
    const [x] = this.corner(block);
    const byte = Math.floor((this.card.block * (event.clientX - box.left - x)) / this.wide) + block * this.card.block;
    this.canvas.title = sayByte(this.card, byte);
    if (isClicked) this.go(block);
  }

  key(event) {
    const steps = { ArrowRight: 1, ArrowLeft: -1, ArrowDown: this.columns, ArrowUp: -this.columns };
    const ends = { Home: 0, End: this.blocks() - 1 };
    if (event.key in steps) this.go(this.block + steps[event.key]);
    else if (event.key in ends) this.go(ends[event.key]);
    else return;
    event.preventDefault();
  }
}

function sayPage([place, state, row, object, part]) {
  const what = object === 0 ? "the directory" : object > 0 ? `object ${object}` : "an object whose number is damaged";
  const copy = row >= 0 && STATES[state] === "older" && DATA.rows[row][ROW.fate] === "live" ? "an older copy of " : "";
  const of = row >= 0 ? `: ${copy}${rowName(row)}, ${DATA.rows[row][ROW.fate]}` : "";
  return `byte ${place}, ${STATES[state]}: ${what}, part ${part}${of}`;
}

function sayByte(card, byte) {
  if (byte < 3 * card.block) return `vote ${Math.floor(byte / card.block)}`;
  for (const bank of card.banks) {
    const page = bank.pages.find(([place]) => place <= byte && byte < place + PAGE_BYTES);
    if (page) return sayPage(page);
    const record = bank.records.find(([place, end]) => place <= byte && byte < end);
    if (record) return `byte ${byte}: the head or the deletes of the record at byte ${record[0]}, ${record[2]}`;
    if (bank.damage.some(([begin, end]) => begin <= byte && byte < end)) return `byte ${byte}: damaged`;
    if (bank.start <= byte && byte < bank.start + 16) return `the header of bank ${bank.number}`;
    if (bank.start <= byte && byte < bank.end) return `byte ${byte}: free, bank ${bank.number}`;
  }
  return `byte ${byte}: of no bank`;
}
