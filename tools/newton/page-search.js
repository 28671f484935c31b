// Search: as a query with `words` or `text` finds, with the same folding.

const ASCII = /^[\0-\x7f]*$/;
const LONE = /[\uD800-\uDBFF](?![\uDC00-\uDFFF])|(?<![\uD800-\uDBFF])[\uDC00-\uDFFF]/g;

function folded(text) {
  if (ASCII.test(text)) return text.toLowerCase();
  let told = "";
  for (const one of text.replace(LONE, "\uFFFD")) told += Object.hasOwn(DATA.folds, one) ? DATA.folds[one] : one;
  return told;
}

function isWordCharacter(text, at) {
  const code = at < 0 || at >= text.length ? 0 : text.charCodeAt(at);
  return code > 127 || (code >= 48 && code <= 57) || (code >= 65 && code <= 90) || (code >= 97 && code <= 122);
}

function hasWord(text, word, isEntire) {
  for (let at = text.indexOf(word); at >= 0; at = text.indexOf(word, at + 1)) {
    const begins = isWordCharacter(text, at) && !isWordCharacter(text, at - 1);
    if (begins && !(isEntire && isWordCharacter(text, at + word.length))) return true;
  }
  return false;
}

// The folded strings of each row, a line each, made when they are first wanted.
const foldedRows = [];

function foldedRow(row) {
  foldedRows[row] ??= stringsOf(DATA.rows[row][ROW.literal]).map(folded).join("\n");
  return foldedRows[row];
}

// Whether a row passes, or null where nothing is asked.
function asked(typed, how) {
  const words = how === "text" ? (typed ? [typed] : []) : typed.split(/\s+/).filter((it) => it);
  if (!words.length) return null;
  const wanted = words.map(folded);
  if (how === "text") return (row) => foldedRow(row).includes(wanted[0]);
  return (row) => wanted.every((word) => hasWord(foldedRow(row), word, how === "entire"));
}
