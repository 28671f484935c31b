"""Looks through the documents: that their names exist, their links lead somewhere, their lines and sentences are short.

    python3 reference/documents.py [--counts]

Each finding is printed as `file:line: what`, and it ends with 0 where there is none. With --counts it prints words and
sentences of each document. That the examples of the documents run is looked at by `.ci/check` (examples.py, and the
tests of tools/). The documents are the files *.md of the repository.

Prose is all but headings, tables, code (fenced, or indented by four blanks after a blank line), and link targets. A
sentence ends at a point, a question mark or an exclamation mark with a blank after it, and where a paragraph or the
item of a list ends. Its words are what stands between blanks; a span of code is one word, whatever is in it.

A name is looked for in each span of code outside of code blocks, and each name of a crate also elsewhere:
- a span with a slash, and one that ends as files do, is a file: from the top, from `crates`, from a crate or from one
  of the other folders, where `.rt` or `.antt` may be left out; a part in capitals, and `*`, stand for any name;
- newt_.. is a crate, or with two points after it the beginning of names of crates;
- A::B is a B that a crate declares which declares A, or which is A;
- in the documents on the code (`OF_THE_CODE`) each other span that is one word is a name that is declared in a crate
  or in a script, or a word of commands, modes, refusals and replies; in the other documents, where words of examples
  stand too, only a name in mixed case, or with `_`, is;
- where it says "`A` of `B`", and B is declared in the crates, a crate that has B has A, or a crate that it names has;
- in a table with the columns `call` and `clause`, a crate that has the call has the clause, or one that it names has.
"""

import os
import re
import sys
from collections import defaultdict
from pathlib import Path
from typing import Iterator, NamedTuple

TOP = Path(__file__).resolve().parent.parent
COLUMNS, WORDS, AVERAGE = 100, 45, 25
NO_SOURCE = {".git", "out", "__pycache__"}
# What has been is told in these, by the names of then.
OF_THE_PAST = ("CHANGELOG.md", "docs/TRIED.md")
OF_THE_CODE = (
    "README.md", "CONTRIBUTING.md", "docs/ARCHITECTURE.md", "docs/DECISIONS.md", "docs/GATE.md", "docs/PROMISES.md",
    "docs/TESTING.md", "docs/THEOREM.md",
)
FOLDERS = ("", "crates", "docs", "reference", "tools", "tools/newton", "tools/tests")
# The exceptions: words of Rust, crates of the kit, other programs, names in examples; and files that are elsewhere.
FOREIGN = set(
    """
    Debug PartialEq RandomState ensures ghost match requires zip
    arrayvec byteorder caseless circular_buffer indexmap itoa lru memchr thiserror ucd_case
    chromium rm
    Internal Top abc fullName rename vCard
    """.split()
)
ELSEWHERE = {"crates/newton/out/newton", "cases/NAME", "SHORTER_PROOFS.md"}

Finding = tuple[str, int, str]


class Line(NamedTuple):
    """A line of a document that is no code: its number, what it is, and its text."""

    number: int
    kind: str
    text: str


# ---- the documents


def all_files() -> Iterator[str]:
    """The files of the repository, without what was built."""
    for folder, inner, files in os.walk(TOP):
        inner[:] = sorted(it for it in inner if it not in NO_SOURCE)
        yield from (str(Path(folder, it).relative_to(TOP)) for it in sorted(files))


def documents(files: set) -> list[Path]:
    return [TOP / it for it in sorted(files) if it.endswith(".md")]


ITEM = r" {0,3}(?:[-*]|(\d+)\.) "


def kind_of(text: str) -> str:
    for kind, form in (("blank", r"\s*$"), ("heading", r"#+ "), ("table", r" {0,3}\|"), ("target", r"\[[^]]+\]: ")):
        if re.match(form, text):
            return kind
    return "item" if re.match(ITEM, text) else "text"


def lines_of(text: str) -> Iterator[Line]:
    """The lines, those of code blank. What is indented within a paragraph or an item goes on with it."""
    is_fenced, last, count = False, "blank", 0
    for number, line in enumerate(text.splitlines(), 1):
        is_code = is_fenced or line.startswith("    ") and last not in ("text", "item")
        if line.startswith("```"):
            is_fenced = is_code = not is_fenced
        last = "blank" if is_code or line.startswith("```") else kind_of(line)
        numbered = re.match(ITEM, line) if last == "item" else None
        if numbered and numbered[1]:
            # A number that a line happens to begin with is none of an item.
            count, last = (int(numbered[1]), last) if int(numbered[1]) in (1, count + 1) else (count, "text")
        yield Line(number, last, "" if last == "blank" else line)


def blocks_of(lines: list[Line]) -> Iterator[tuple[int, str]]:
    """Paragraphs and items of lists, each with the number of its first line."""
    begun: list[Line] = []
    for line in [*lines, Line(0, "blank", "")]:
        if line.kind != "text" and begun:
            yield begun[0].number, "\n".join(it.text for it in begun)
            begun = []
        if line.kind in ("text", "item"):
            begun.append(line)


class Sentence(NamedTuple):
    number: int
    words: int
    begins: str


def sentences_of(lines: list[Line]) -> Iterator[Sentence]:
    for first, block in blocks_of(lines):
        text = re.sub(r"`[^`]+`", lambda it: "code" + "\n" * it[0].count("\n"), block)
        text = re.sub(r"!?\[([^]]*)\](?:\([^)]*\)|\[[^]]*\])", r"\1", text)
        text = re.sub(r"^ *(?:[-*>]|\d+\.) ", lambda it: " " * len(it[0]), text)
        at = 0
        for end in [*(it.end() for it in re.finditer(r"[.?!][)\"'*_]*(?=\s)", text)), len(text)]:
            words = re.findall(r"\S*\w\S*", text[at:end])
            begins = at + len(text[at:end]) - len(text[at:end].lstrip())
            if words:
                yield Sentence(first + text.count("\n", 0, begins), len(words), " ".join(words[:5]))
            at = end


# ---- what there is


DECLARED = {
    ".rt": (
        r"\b(?:fn|struct|enum|trait|const|static|type|mod|union|ghost|law)\s+(\w+)",
        r"\b(?:ensures|requires|invariant|holds)\s+(\w+)\s*\{",
        r"^\s*(?:pub(?:\([a-z]+\))? )?(\w+)\s*:[^:]",
        r"^\s+([A-Z]\w*)\s*(?:[,({=]|$)",
    ),
    ".antt": (r"^\s*(?:(?:pub|abbrev|unfoldable|record|data|mod|module|opaque|private)\s+)*([^\W\d][\w-]*)\s*[:({]",
              r"\b(?:record|data|abbrev|unfoldable)\s+(?:pub\s+)?([^\W\d][\w-]*)", r"^(?:pub )?mod (\w+)"),
    ".py": (r"^\s*(?:def|class)\s+(\w+)", r"^([A-Z_]{2,}|\w+)\b[^=\n]*="),
    ".c": (r"\b(\w+)\(",),
}


class Code(NamedTuple):
    """The files, the names of each crate, the crates that each names, all names, and the words that scripts have."""

    files: set
    crates: dict
    uses: dict
    names: set
    spoken: set

    def has_file(self, span: str) -> bool:
        """Whether a file or folder has this name, from the top or from one of the folders."""
        parts = [r"[^/]*" if re.fullmatch(r"[A-Z]{1,8}", it) else re.escape(it).replace(r"\*", "[^/]*")
                 for it in span.strip("/").split("/")]
        form = re.compile(rf"(?:.*/)?{'/'.join(parts)}(?:\.rt|\.antt|/.*)?" if "/" not in span.strip("/") else
                          rf"(?:{'|'.join(FOLDERS[1:])}|crates/[^/]+)?/?{'/'.join(parts)}(?:\.rt|\.antt|/.*)?")
        return any(map(form.fullmatch, self.files))

    def beside(self, crate: str) -> list[set]:
        """The names that a crate declares, and those of each crate that it names."""
        return [self.crates.get(it, set()) for it in (crate, *self.uses.get(crate, ()))]


def code() -> Code:
    files, crates, names, spoken, uses = set(all_files()), defaultdict(set), set(), set(), {}
    for file in files:
        path = TOP / file
        crate = file.split("/")[1] if file.startswith("crates/") else ""
        if crate:
            crates[crate].add(crate)
        forms = DECLARED.get(path.suffix, ())
        text = path.read_text(encoding="utf-8") if forms and path.is_file() else ""
        for form in forms:
            found = re.findall(form, text, re.MULTILINE)
            names.update(found)
            if crate:
                crates[crate].update(found)
        if not crate or path.suffix in ("", ".rt"):
            spoken.add(path.stem)
        if file in ("tools/newton/words.py", "reference/replies.py", "tools/newton.words"):
            spoken.update(re.findall(r"\w+", path.read_text(encoding="utf-8")))
    for line in (TOP / "crates.txt").read_text(encoding="utf-8").splitlines():
        words = re.findall(r"\bnewt\w+", line.partition("#")[0])
        if words:
            uses[words[0]] = words[1:]
    return Code(files, dict(crates), uses, names, spoken)


# ---- names


def spans_of(lines: list[Line]) -> Iterator[tuple[int, str]]:
    """The spans of code, each with the number of its line; one may go on in the next line."""
    text, numbers = "", []
    for line in lines:
        text += line.text + "\n"
        numbers += [line.number] * (len(line.text) + 1)
    for it in re.finditer(r"`([^`]+)`", text):
        yield numbers[it.start()], " ".join(it[1].split())


def wrong_span(span: str, known: Code, is_of_the_code: bool) -> str:
    is_mark = re.search(r"[^\w./:*()-]", span) or span.startswith(("-", ".", "/")) and "/" not in span[1:]
    if span in ELSEWHERE or is_mark:
        return ""
    if re.fullmatch(r"\.?[\w*-]+(?:\.[\w*-]+)*(?:/[\w.*-]+)+/?|[\w-]+/", span) or re.fullmatch(
        r"[\w-]+\.(?:rt|antt|py|md|txt|c|svg|png|1|words|edit)", span
    ):
        return "" if known.has_file(span) else "no such file"
    name = re.fullmatch(r"(\w+)((?:::\w+)*)(?:\(\w*\))?", span)
    if not name or span.isdigit():
        return ""
    if name[1].startswith("newt_"):
        if name[1] not in known.crates:
            return "no such crate"
        has = known.crates[name[1]]
        return "" if all(it in has for it in span.split("::")[1:]) else "that crate declares no such name"
    parts = re.findall(r"\w+", span.partition("(")[0])
    if len(parts) > 1:
        return "" if any(set(parts) <= it for it in known.crates.values()) else "no crate declares both"
    is_known = parts[0] in known.names or parts[0] in known.spoken or parts[0] in FOREIGN
    is_mixed = "_" in parts[0][1:] or re.search(r"[a-z][A-Z]|^[A-Z][a-z]", parts[0])
    is_name = is_mixed or is_of_the_code and re.fullmatch(r"[a-z]\w+", parts[0])
    return "nothing has this name" if is_name and not is_known else ""


def crates_named(lines: list[Line]) -> Iterator[tuple[int, str]]:
    for line in lines:
        for it in re.findall(r"\bnewt_\w+(?:\.\.)?(?![\w*])", line.text):
            yield line.number, it


def wrong_pairs(lines: list[Line], known: Code) -> Iterator[tuple[int, str]]:
    """Where it says "`A` of `B`", and no crate that has B, nor one that it names, declares A."""
    text, numbers = "", []
    for line in lines:
        text += line.text + "\n"
        numbers += [line.number] * (len(line.text) + 1)
    for it in re.finditer(r"`(\w+)`\s+of\s+`([\w:]+)`", text):
        having = [name for name, has in known.crates.items() if set(re.findall(r"\w+", it[2])) <= has]
        if having and not any(it[1] in has for name in having for has in known.beside(name)):
            yield numbers[it.start()], f"`{it[1]}` of `{it[2]}`: no crate that has the second declares the first"


def wrong_rows(lines: list[Line], known: Code) -> Iterator[tuple[int, str]]:
    """Rows of a table of calls and clauses whose clause no crate has that has the call, nor one that it names."""
    heads: list[str] = []
    calls: list[str] = []
    for line in lines:
        cells = [it.strip() for it in line.text.strip(" |").split("|")] if line.kind == "table" else []
        if not cells or "call" in cells and "clause" in cells:
            heads, calls = cells, []
        elif "call" in heads and len(cells) == len(heads):
            cell = cells[heads.index("call")]
            calls = re.findall(r"`([\w:]+)`", cell) + re.findall(r"\bnewt_\w+", cell) if cell else calls
            having = {it for it, has in known.crates.items() for call in calls if set(re.findall(r"\w+", call)) <= has}
            below = [has for crate in having for has in known.beside(crate)]
            for clause in re.findall(r"`(\w+)`", cells[heads.index("clause")]):
                if having and not any(clause in it for it in below):
                    yield line.number, f"`{clause}`: no crate that has `{calls[0]}` has such a clause"


def names_wrong(lines: list[Line], known: Code, is_of_the_code: bool) -> Iterator[tuple[int, str]]:
    for number, span in spans_of(lines):
        wrong = wrong_span(span, known, is_of_the_code)
        if wrong:
            yield number, f"`{span}`: {wrong}"
    for number, name in crates_named(lines):
        if name.endswith("..") and not any(it.startswith(name.rstrip(".")) for it in known.crates):
            yield number, f"{name}: no crate begins so"
        if not name.endswith("..") and name.rstrip(".") not in known.crates:
            yield number, f"{name}: no such crate"
    yield from wrong_pairs(lines, known)
    yield from wrong_rows(lines, known)


# ---- links


def anchors_of(text: str) -> set:
    """What a heading is called as the target of a link: in lower case, without marks, with hyphens for blanks."""
    headings = [it.text.lstrip("#").strip().lower() for it in lines_of(text) if it.kind == "heading"]
    return {re.sub(r"[^\w -]", "", it).replace(" ", "-") for it in headings}


def called_in(path: Path) -> set:
    """The headings of a document, and what begins its paragraphs and items in bold."""
    text = path.read_text(encoding="utf-8")
    bold = re.findall(r"\*\*([^*]+?)[.:]?\*\*", text)
    return {" ".join(it.split()).strip("# ") for it in re.findall(r"^#+ .*$", text, re.MULTILINE) + bold}


def links_wrong(path: Path, text: str, lines: list[Line]) -> Iterator[tuple[int, str]]:
    targets = dict(re.findall(r"^\[([^]]+)\]: (\S+)$", text, re.MULTILINE))
    used = {}
    for line in lines:
        bare = re.sub(r"`[^`]*`", "code", line.text)
        for form in (r"\]\(([^)\s]+)\)", r"^\[[^]]+\]: (\S+)$"):
            used.update({it: line.number for it in re.findall(form, bare)})
        for it in re.findall(r"\]\[([^]]+)\]", bare):
            if it not in targets:
                yield line.number, f"[{it}]: no such target"
    for link, number in used.items():
        file, _, anchor = link.partition("#")
        target = path.parent / file if file else path
        if "://" in link:
            continue
        if not target.exists():
            yield number, f"{link}: no such file"
        elif anchor and anchor not in anchors_of(target.read_text(encoding="utf-8")):
            yield number, f"{link}: no such heading"
    whole = "\n".join(it.text for it in lines)
    for it in re.finditer(r"(README|CONTRIBUTING|docs/\w+\.md)`?,\s+\"([^\"]+)\"", whole):
        target = TOP / (it[1] if it[1].endswith(".md") else f"{it[1]}.md")
        heading = " ".join(it[2].split())
        if target.is_file() and heading not in called_in(target):
            yield lines[whole.count("\n", 0, it.start())].number, f'{it[1]}, "{heading}": no such heading'


# ---- a document


def findings(path: Path, known: Code) -> Iterator[Finding]:
    file, text = str(path.relative_to(TOP)), path.read_text(encoding="utf-8")
    lines = list(lines_of(text))
    for number, line in enumerate(text.splitlines(), 1):
        if len(line) > COLUMNS:
            yield file, number, f"{len(line)} columns"
    sentences = list(sentences_of(lines))
    for it in sentences:
        if it.words > WORDS:
            yield file, it.number, f"a sentence of {it.words} words: {it.begins} .."
    if sentences and sum(it.words for it in sentences) > AVERAGE * len(sentences):
        yield file, 1, f"sentences of {sum(it.words for it in sentences) / len(sentences):.1f} words on average"
    for number, wrong in links_wrong(path, text, lines):
        yield file, number, wrong
    if file not in OF_THE_PAST:
        for number, wrong in names_wrong(lines, known, file in OF_THE_CODE):
            yield file, number, wrong


def main(words: list) -> int:
    found = []
    known = code()
    for path in documents(known.files):
        found += findings(path, known)
        if words == ["--counts"]:
            counts = [it.words for it in sentences_of(list(lines_of(path.read_text(encoding="utf-8"))))]
            all_words = len(path.read_text(encoding="utf-8").split())
            print(f"{path.relative_to(TOP)}: {all_words} words; sentences {len(counts)}, on average "
                  f"{sum(counts) / max(1, len(counts)):.1f}, the longest {max(counts, default=0)}")
    for file, number, wrong in found:
        print(f"{file}:{number}: {wrong}")
    return 1 if found else 0


if __name__ == "__main__":
    sys.exit(main(sys.argv[1:]))
