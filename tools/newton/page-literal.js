"use strict";
// Literals: the tree that one writes down, and its strings. What they hold is only ever shown as text.

const NAME = "\\|(?:[^|\\\\]|\\\\.)*\\||[A-Za-z_][A-Za-z0-9_]*";
const STRINGS = /\$(?:\\[0-9A-F]{4}|[^\\])|\|(?:[^|\\]|\\.)*\||"((?:[^"\\]|\\.)*)"/g;
const FORMS = {
  blank: /[ ,]+/y,
  label: /#(\d+)=/y,
  labelled: /#(\d+)#/y,
  string: /"((?:[^"\\]|\\.)*)"/y,
  binary: new RegExp(`(<<?)(${NAME}):([0-9A-F]*)(?:\\.\\.\\.(\\d+))?>>?`, "y"),
  slot: new RegExp(`(${NAME}): ?`, "y"),
  plain: new RegExp(`'(?:${NAME})|-?\\d+|&[0-9A-F]{8}|\\$(?:\\\\[0-9A-F]{4}|.)|nil|true`, "y"),
};

function unescaped(text) {
  const of = (_, code, plain) => (code ? String.fromCharCode(parseInt(code, 16)) : plain);
  return text.replace(/\\u([0-9A-F]{4})|\\(.)/g, of);
}

function nameOf(text) {
  return text.startsWith("|") ? text.slice(1, -1).replace(/\\(.)/g, "$1") : text;
}

function stringsOf(literal) {
  const found = [];
  for (const match of literal.matchAll(STRINGS)) {
    if (match[1] !== undefined) found.push(unescaped(match[1]));
  }
  return found;
}

class LiteralReader {
  constructor(text) {
    this.text = text;
    this.at = 0;
    this.larges = 0;
  }

  found(form) {
    FORMS[form].lastIndex = this.at;
    const match = FORMS[form].exec(this.text);
    if (match) this.at += match[0].length;
    return match;
  }

  passes(mark) {
    const is = this.text.startsWith(mark, this.at);
    if (is) this.at += mark.length;
    return is;
  }

  value() {
    const label = this.found("label");
    const node = this.object();
    if (label) node.label = label[1];
    return node;
  }

  object() {
    let match;
    if (this.passes("{")) return this.slots({ kind: "frame", slots: [] }, "}");
    if (this.passes("[")) return this.array();
    if ((match = this.found("string"))) return { kind: "string", text: unescaped(match[1]) };
    if ((match = this.found("labelled"))) return { kind: "again", of: match[1] };
    if ((match = this.found("binary"))) return this.binary(match);
    match = this.found("plain");
    if (!match) throw new Error(`no literal at ${this.at}`);
    return { kind: "plain", text: match[0] };
  }

  binary(match) {
    const size = Number(match[4] || match[3].length / 2);
    const node = { kind: "binary", class: nameOf(match[2]), bytes: match[3], size };
    if (match[1] === "<<") node.large = this.larges++;
    return node;
  }

  array() {
    const match = this.found("slot");
    const node = { kind: "array", class: match ? nameOf(match[1]) : null, slots: [] };
    return this.slots(node, "]");
  }

  slots(node, end) {
    for (this.found("blank"); !this.passes(end); this.found("blank")) {
      const tag = node.kind === "frame" ? nameOf(this.found("slot")[1]) : String(node.slots.length);
      node.slots.push([tag, this.value()]);
    }
    return node;
  }
}

function readLiteral(text) {
  return new LiteralReader(text).value();
}

function shownArray(node) {
  const values = node.slots.map(([, value]) => value);
  const is = values.length <= 6 && values.every((it) => it.kind === "plain" || it.kind === "string");
  const shown = is ? values.map(shownShortly).join(", ") : `${values.length} slots`;
  return `[${node.class ? node.class + ": " : ""}${shown}]`;
}

// The value of a slot as a cell shows it.
function shownShortly(node) {
  switch (node.kind) {
    case "string": return node.text;
    case "plain": return node.text.replace(/^'/, "");
    case "binary": return `${node.class}, ${node.size} bytes`;
    case "array": return shownArray(node);
    case "frame": return `{${node.slots.map(([tag]) => tag).join(", ")}}`;
    default: return `#${node.of}`;
  }
}
