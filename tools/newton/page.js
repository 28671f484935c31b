// The page: soups as tables, entries as literals and trees, cards as maps, and the search over all of them.

const DATA = JSON.parse(document.getElementById("data").textContent);
const ROW = { card: 0, uid: 1, time: 2, fate: 3, size: 4, place: 5, kind: 6, literal: 7, larges: 8 };
const MOST_OPEN = 12;
const NEWTON_EPOCH = Date.UTC(1904, 0, 1);

function element(name, attributes = {}, ...parts) {
  const made = document.createElement(name);
  for (const [key, value] of Object.entries(attributes)) if (value !== undefined) made.setAttribute(key, value);
  made.append(...parts);
  return made;
}

function byId(id) {
  return document.getElementById(id);
}

function span(kind, ...parts) {
  return element("span", { class: kind }, ...parts);
}

function listOf(items) {
  return element("ul", {}, ...items.map((it) => element("li", {}, it)));
}

function minuteText(time) {
  return `${time} (${new Date(NEWTON_EPOCH + time * 60000).toISOString().slice(0, 16).replace("T", " ")})`;
}

function counted(count, word) {
  return `${count.toLocaleString("en")} ${word}${count === 1 ? "" : "s"}`;
}

const viewOfRow = new Map();
DATA.views.forEach((view) => view.orders.forEach((order) => order.rows.forEach((row) => viewOfRow.set(row, view))));

function rowName(row) {
  return `${viewOfRow.get(row)?.name ?? "entry"} ${DATA.rows[row][ROW.uid]}`;
}

function factsTable(facts) {
  const table = element("table", { class: "facts" });
  for (const [name, value] of facts) {
    table.append(element("tr", {}, element("th", { scope: "row" }, name), element("td", {}, value)));
  }
  return table;
}

// Trees.

// The root is open, and so is what is short in it.
function treeOf(node, tag, row, depth = 0) {
  const label = node.label ? `#${node.label}= ` : "";
  const named = [span("tag", tag === null ? "" : `${tag}: `), label];
  if (node.kind === "frame" || node.kind === "array") {
    const said = node.kind === "frame" ? "frame" : `array${node.class ? " " + node.class : ""}`;
    const kind = span("kind", `${said}, ${counted(node.slots.length, "slot")}`);
    const summary = element("summary", {}, ...named, kind);
    const isOpen = row !== null && (depth === 0 || (depth === 1 && node.slots.length <= MOST_OPEN));
    const details = element("details", isOpen ? { open: "" } : {}, summary);
    const fill = () => {
      if (details.childElementCount > 1) return;
      details.append(...node.slots.map(([name, value]) => treeOf(value, name, row, depth + 1)));
    };
    details.addEventListener("toggle", fill);
    if (isOpen) fill();
    return details;
  }
  return element("p", {}, ...named, ...leaf(node, row));
}

function leaf(node, row) {
  if (node.kind === "string") return [`\u201C${node.text}\u201D`];
  if (node.kind === "again") return [span("kind", `the same as #${node.of}`)];
  if (node.kind !== "binary") return [node.text];
  const isLarge = node.large !== undefined && row !== null;
  const told = span("kind", `${isLarge ? "large " : ""}binary ${node.class}, ${counted(node.size, "byte")} `);
  const [picture, missing] = isLarge ? DATA.rows[row][ROW.larges][node.large] : [-1, 0];
  const parts = [told, element("code", {}, node.bytes + (node.bytes.length / 2 < node.size ? "\u2026" : ""))];
  if (missing) parts.push(span("warning", ` ${counted(missing, "page")} of it are gone, and are zeros here`));
  const shown = { src: DATA.pictures[picture], alt: "the picture that these bytes are" };
  if (picture >= 0) parts.push(element("img", shown));
  return parts;
}

// Entries.

let opener = null;

function openEntry(row) {
  opener = opener ?? document.activeElement;
  const told = DATA.rows[row], card = DATA.cards[told[ROW.card]];
  byId("entry").hidden = false;
  byId("entry-name").textContent = rowName(row);
  const pages = element("button", { type: "button", class: "link" }, "show its pages on the map");
  pages.addEventListener("click", () => showCard(told[ROW.card], [row]));
  byId("entry-facts").replaceChildren(factsTable([
    ["card", card.file],
    ["minute", minuteText(told[ROW.time])],
    ["version", told[ROW.fate]],
    ["where", `block ${Math.floor(told[ROW.place] / card.block)}, byte ${told[ROW.place]}, ${told[ROW.kind]}`],
    ["size", counted(told[ROW.size], "byte")],
    ["pages", pages],
  ]), versionLinks(row));
  byId("literal").textContent = told[ROW.literal];
  byId("tree").replaceChildren(treeOf(readLiteral(told[ROW.literal]), null, row));
  byId("entry").scrollTop = 0;
  byId("entry").focus({ preventScroll: true });
}

// The other versions of an entry, on its card.
function versionLinks(row) {
  const view = viewOfRow.get(row), own = DATA.rows[row], name = rowName(row);
  const all = new Set(view.orders.flatMap((order) => order.rows));
  const isOther = (it) => it !== row && DATA.rows[it][ROW.card] === own[ROW.card] && rowName(it) === name;
  const links = [...all].filter(isOther).map((it) => {
    const told = DATA.rows[it];
    return rowLink(it, `${told[ROW.fate]}, minute ${told[ROW.time]}, byte ${told[ROW.place]}`);
  });
  return links.length ? element("div", {}, element("h3", {}, "Other versions"), listOf(links)) : "";
}

function rowLink(row, text) {
  const link = element("button", { type: "button", class: "link" }, text);
  link.addEventListener("click", () => openEntry(row));
  return link;
}

function closeEntry() {
  byId("entry").hidden = true;
  if (opener?.isConnected) opener.focus();
  opener = null;
}

// Soups.

const table = new Table(byId("grid"), byId("grid-head"), byId("grid-body"), openEntry);
let shownView = null;

function cell(row, column) {
  const node = readLiteral(DATA.rows[row][ROW.literal]);
  const slot = node.slots.find(([tag]) => tag.toLowerCase() === column.toLowerCase());
  return slot ? shownShortly(slot[1]) : "";
}

function columnsOf(view, rows) {
  const columns = [{ name: "id", rems: 4, class: "number", text: (row) => String(DATA.rows[row][ROW.uid]) }];
  const cardName = (row) => DATA.cards[DATA.rows[row][ROW.card]].file;
  if (DATA.cards.length > 1) columns.push({ name: "card", rems: 7, text: cardName });
  columns.push(...view.columns.map((name) => ({ name, rems: 10, text: (row) => cell(row, name) })));
  columns.push({ name: "minute", rems: 7, class: "number", text: (row) => String(DATA.rows[row][ROW.time]) });
  columns.push({ name: "bytes", rems: 5, class: "number", text: (row) => String(DATA.rows[row][ROW.size]) });
  if (rows.some((row) => DATA.rows[row][ROW.fate] !== "live" || DATA.rows[row][ROW.kind] !== "in the journal")) {
    const told = (row) => `${DATA.rows[row][ROW.fate]}; ${DATA.rows[row][ROW.kind]}`;
    columns.push({ name: "found", rems: 16, text: told });
  }
  return columns;
}

function soupFacts(view) {
  return view.soups.map((soup) => {
    const facts = [["card", soup.card]];
    facts.push(["entries", `${soup.count.toLocaleString("en")}, next id ${soup.next}`]);
    facts.push(["indexes", soup.indexes.join("; ") || "none"]);
    if (soup.tags) {
      const chips = soup.tags.symbols.map(([name, count]) => span("chip", `${name} ${count}`));
      facts.push(["tags", element("span", {}, `at ${soup.tags.path}: `, ...chips)]);
    }
    if (soup.info) {
      facts.push(["info", element("div", { class: "info" }, treeOf(readLiteral(soup.info), null, null))]);
    }
    return factsTable(facts);
  });
}

function showView(view) {
  shownView = view;
  byId("card").hidden = true;
  byId("soup").hidden = false;
  const union = view.soups.length > 1 ? ` on ${view.soups.length} cards` : "";
  byId("soup-name").textContent = view.name + union;
  byId("soup-facts").replaceChildren(...soupFacts(view));
  const option = (order, at) => element("option", { value: at }, `${order.label} (${order.rows.length})`);
  byId("order").replaceChildren(...view.orders.map(option));
  showRows();
}

function showRows() {
  const order = shownView.orders[Number(byId("order").value) || 0];
  const rows = order.rows.filter(passing ?? (() => true));
  table.show(columnsOf(shownView, rows), rows);
  mark();
}

// Cards.

const map = new CardMap(byId("map"), tellBlock);

function tellBlock(block) {
  const begin = block * map.card.block, end = begin + map.card.block;
  const all = map.card.banks.flatMap((bank) => bank.pages);
  const pages = all.filter(([place]) => place + PAGE_BYTES > begin && place < end);
  const items = pages.map((page) => (page[2] >= 0 ? rowLink(page[2], sayPage(page)) : sayPage(page)));
  const { card } = map;
  const head = element("strong", {}, `Block ${block}, bytes ${begin} to ${end - 1}. `);
  const said = pages.length ? "" : `${sayByte(card, begin)}${block < 3 ? `: ${card.votes[block] ?? "none"}` : ""}. `;
  const isBad = card.place >= begin && card.place < end;
  const bad = isBad ? span("warning", `check names byte ${card.place} here: ${card.check}`) : "";
  byId("block").replaceChildren(head, said, bad, listOf(items));
}

function bankFacts(bank) {
  const header = bank.version ? `version ${bank.version}` : "no header";
  const told =
    `Bank ${bank.number}${bank.newer ? ", the newer one" : ""}, from byte ${bank.start}: ${header}, ` +
    `${counted(bank.records.length, "record")}; the journal ends at byte ${bank.journal}.`;
  const sizes = STATES.map((state, at) => `${state} ${bank.sizes[at].toLocaleString("en")}`).join(", ");
  return element("div", {}, element("p", {}, told), fullnessBar(bank.sizes), element("p", {}, `${sizes} bytes`));
}

function showCard(number, rows = []) {
  const card = DATA.cards[number];
  shownView = null;
  byId("soup").hidden = true;
  byId("card").hidden = false;
  byId("card-name").textContent = card.file;
  const fates = Object.entries(card.fates).filter(([, count]) => count).map(([fate, count]) => `${count} ${fate}`);
  const check = card.check.startsWith("ok clean") ? card.check : span("warning", card.check);
  const votes = card.votes.map((it) => (it < 2 ? it : "none")).join(", ");
  byId("card-facts").replaceChildren(factsTable([
    ["store", card.store === null ? "no directory is found" : `${card.store}, signature ${card.signature}`],
    ["size", `${counted(card.blocks, "block")}, ${counted(card.bytes, "byte")}`],
    ["check", check],
    ["votes", `${votes}; they choose ${card.chosen === null ? "no bank" : `bank ${card.chosen}`}`],
    ["entries", fates.join("; ") || "none is found"],
  ]));
  byId("fullness").replaceChildren(element("div", { class: "bars" }, ...card.banks.map(bankFacts)));
  byId("legend").replaceChildren(...STATES.map((state) => element("li", {}, swatch(state), SAID[state])));
  map.show(card, rows);
  mark();
  if (rows.length) byId("map").focus();
}

// What is shown, and the search.

let passing = null;
const buttons = [];

function navigate(list, name, count, shown, is) {
  const told = span("count");
  const button = element("button", { type: "button" }, element("span", {}, name), told);
  button.addEventListener("click", shown);
  byId(list).append(element("li", {}, button));
  buttons.push({ button, told, count, is });
}

function mark() {
  for (const { button, told, count, is } of buttons) {
    button.setAttribute("aria-current", String(is()));
    told.textContent = count();
  }
}

function found(view) {
  const rows = view.orders[0].rows;
  if (!passing) return String(rows.length);
  return `${rows.filter(passing).length} of ${rows.length}`;
}

function search() {
  passing = asked(byId("words").value, byId("how").value);
  const hits = passing ? DATA.views.reduce((sum, view) => sum + view.orders[0].rows.filter(passing).length, 0) : 0;
  byId("status").textContent = passing ? `${hits} found in all soups` : "";
  if (shownView) showRows();
  else if (passing && DATA.views.length) {
    showView(DATA.views.find((view) => view.orders[0].rows.some(passing)) ?? DATA.views[0]);
  }
  mark();
}

function begin() {
  for (const view of DATA.views) {
    navigate("soups", view.name, () => found(view), () => showView(view), () => view === shownView);
  }
  DATA.cards.forEach((card, at) => {
    const said = () => (card.check.startsWith("ok clean") ? "clean" : "damaged");
    navigate("cards", card.file, said, () => showCard(at), () => shownView === null && map.card === card);
  });
  byId("find").addEventListener("submit", (event) => event.preventDefault());
  byId("words").addEventListener("input", search);
  byId("how").addEventListener("change", search);
  byId("order").addEventListener("change", showRows);
  byId("close").addEventListener("click", closeEntry);
  addEventListener("keydown", (event) => event.key === "Escape" && !byId("entry").hidden && closeEntry());
  if (location.hash) go(location.hash.slice(1));
  else if (DATA.views.length && DATA.cards.every((card) => card.check.startsWith("ok clean"))) showView(DATA.views[0]);
  else showCard(0);
}

// `#card=0`, `#soup=Notes`, `#order=1`, `#find=milk`, `#how=entire` and `#row=3`, with `&` between, open it at a place.
function go(hash) {
  const asked = new URLSearchParams(hash);
  if (asked.has("card")) showCard(Number(asked.get("card")) || 0);
  else showView(DATA.views.find((view) => view.name === asked.get("soup")) ?? DATA.views[0]);
  if (asked.has("order")) byId("order").value = asked.get("order");
  if (asked.has("how")) byId("how").value = asked.get("how");
  if (asked.has("find")) byId("words").value = asked.get("find");
  search();
  if (shownView) showRows();
  if (asked.has("row")) openEntry(Number(asked.get("row")));
}

begin();
document.documentElement.dataset.opened = performance.now().toFixed(0);
