// The table of a soup. A row is made when it is scrolled to.

const ROW_HEIGHT = 28;
const MOST_HEIGHT = 8_000_000; // browsers bound how high an element is
const MOST_PRINTED = 3000;

class Table {
  constructor(grid, head, body, opened) {
    this.grid = grid;
    this.head = head;
    this.body = body;
    this.opened = opened;
    this.rows = [];
    this.current = 0;
    this.made = new Map();
    grid.addEventListener("scroll", () => this.draw());
    grid.addEventListener("keydown", (event) => this.key(event));
    body.addEventListener("click", (event) => {
      const row = event.target.closest(".row");
      if (row) this.go(Number(row.dataset.at), true);
    });
    new ResizeObserver(() => requestAnimationFrame(() => this.draw())).observe(grid);
    addEventListener("beforeprint", () => this.draw(true));
    addEventListener("afterprint", () => this.draw());
  }

  // Columns are pairs of a name and what gives the text of a row.
  show(columns, rows) {
    this.columns = columns;
    this.rows = rows;
    this.current = 0;
    this.layout = columns.map((it) => `minmax(${it.rems}rem, ${it.rems}fr)`).join(" ");
    this.head.style.gridTemplateColumns = this.layout;
    const rems = columns.reduce((sum, it) => sum + it.rems, 0);
    for (const it of [this.head, this.body]) it.style.minWidth = `${rems}rem`;
    const head = (it) => element("span", { role: "columnheader", class: it.class }, it.name);
    this.head.replaceChildren(...columns.map(head));
    this.grid.setAttribute("aria-rowcount", rows.length + 1);
    this.grid.setAttribute("aria-colcount", columns.length);
    this.body.style.height = `${Math.min(rows.length * ROW_HEIGHT, MOST_HEIGHT)}px`;
    this.grid.scrollTop = 0;
    this.made.clear();
    this.body.replaceChildren();
    this.draw();
  }

  draw(isPrinting = false) {
    const first = isPrinting ? 0 : Math.max(0, Math.floor(this.grid.scrollTop / ROW_HEIGHT) - 8);
    const many = isPrinting ? MOST_PRINTED : Math.ceil(this.grid.clientHeight / ROW_HEIGHT) + 16;
    const end = Math.min(this.rows.length, first + many);
    for (const [at, row] of this.made) {
      if (at < first || at >= end) {
        row.remove();
        this.made.delete(at);
      }
    }
    for (let at = first; at < end; at++) if (!this.made.has(at)) this.make(at);
    for (const [at, row] of this.made) row.setAttribute("aria-selected", String(at === this.current));
    const row = this.made.get(this.current);
    if (row) this.grid.setAttribute("aria-activedescendant", row.id);
    else this.grid.removeAttribute("aria-activedescendant");
  }

  make(at) {
    const cell = (it) => element("span", { role: "gridcell", class: it.class }, it.text(this.rows[at]));
    const named = { role: "row", class: "row", id: `row-${at}`, "aria-rowindex": at + 2, "data-at": at };
    const row = element("div", named, ...this.columns.map(cell));
    row.style.top = `${at * ROW_HEIGHT}px`;
    row.style.gridTemplateColumns = this.layout;
    this.made.set(at, row);
    this.body.append(row);
  }

  go(at, isOpened) {
    if (!this.rows.length) return;
    this.current = Math.max(0, Math.min(this.rows.length - 1, at));
    const top = this.current * ROW_HEIGHT, height = this.grid.clientHeight - this.head.offsetHeight - ROW_HEIGHT;
    if (top < this.grid.scrollTop) this.grid.scrollTop = top;
    else if (top > this.grid.scrollTop + height) this.grid.scrollTop = top - height;
    this.draw();
    if (isOpened) this.opened(this.rows[this.current]);
  }

  key(event) {
    const page = Math.max(1, Math.floor(this.grid.clientHeight / ROW_HEIGHT) - 2);
    const far = { PageDown: page, PageUp: -page, Home: -Infinity, End: Infinity };
    const steps = { ArrowDown: 1, ArrowUp: -1, Enter: 0, " ": 0, ...far };
    if (!(event.key in steps) || event.ctrlKey || event.altKey || event.metaKey) return;
    event.preventDefault();
    this.go(this.current + steps[event.key], steps[event.key] === 0);
  }
}
