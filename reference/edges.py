"""Scripts at the limits: for each a name, the numbers of blocks of its units, and its lines."""

START = ["format 0 C 1", "mount 0", "soup 0 S"]
ZEROS = "<<w:*1000000>>"


def nested(count: int, inner: str = "1") -> str:
    return "[" * count + inner + "]" * count


def nested_frames(count: int) -> str:
    return "{a: " * count + "1" + "}" * count


def array(value: str, count: int) -> str:
    return "[" + ",".join([value] * count) + "]"


def string(length: int) -> str:
    return '"' + "a" * length + '"'


def stores() -> list[str]:
    lines = [f"format {unit} C{unit} {unit}" for unit in range(6)] + [f"mount {unit}" for unit in range(6)]
    lines += [
        "stores",
        "default 3",
        "unmount 3",
        "stores",
        "mount 4",
        "addu S {}",
        "unmount 0",
        "soup 1 S",
        "addu S {}",
    ]
    return lines + ["unmount 1", "unmount 2", "unmount 4", "addu S {}", "stores"]


def cursors() -> list[str]:
    lines = [*START, "add 0 S {}", *["query 0 S {}"] * 34, "clone 0", "close 5", "clone 31", "close 31"]
    return lines + ["query * S {}", "query * S {}", "count 31", "clone 31"]


def soups() -> list[str]:
    lines = [*START[:2], *[f"soup 0 s{number}" for number in range(252)], "soup 0 s1", "drop 0 s3"]
    return lines + ["soup 0 s3", "soup 0 s4", "soup 0 x", "soups 0"]


def indexes() -> list[str]:
    four = " ".join(f"{name}:int:ascend" for name in "abcd")
    lines = [*START, *[f"index 0 S p{number}:int:ascend" for number in range(18)]]
    lines += ["index 0 S p3:string:descend", "index 0 S q:real:ascend", "index 0 S p3:real:ascend", "unindex 0 S P4"]
    lines += [
        "index 0 S q:int:ascend",
        "indexes 0 S",
        "unindex 0 S q",
        f"index 0 S {four}",
        f"index 0 S {four} e:int:ascend",
    ]
    lines += ["unindex 0 S a b c d", "unindex 0 S a b c d e", "index 0 S a.b.c.d.e.f.g.h:char:descend a:int:ascend"]
    return lines + ["index 0 S a.b.c.d.e.f.g.h.i:char:descend", "indexes 0 S"]


def tags() -> list[str]:
    symbols = [f"t{number}" for number in range(65)]
    lines = [*START, "tags 0 S p " + " ".join(symbols[:-1]), "tags 0 S", "tags 0 S p " + " ".join(symbols)]
    lines += ["tags 0 S p a A", "tags 0 S p a b", "tags 0 S", "tags 0 S p"]
    return lines + ["tags 0 S p " + "x" * 254, "tags 0 S p " + "x" * 255, "tags 0 S p |a b|"]


def infos() -> list[str]:
    values = ("{}", "{ver: 2}", "nil", "5", "[]", "<<w:*4>>", "{b: <<w:*4>>}", "{b: <x:0102>}", "'a", "{", "{a: #1={}, b: #1#}")
    lines = [*START, "info 0 S", "info 0 T", "info 1 S", "info 0 T 5", "info 0 T {", "info 0", "info 0 S {} {}"]
    lines += [line for it in values for line in (f"info 0 S {it}", "info 0 S")]
    lines += [f"info 0 S {{b: <x:{'0' * (2 * count)}>}}" for count in (3_980, 3_984, 3_985, 3_986, 3_987, 3_990, 4_000)]
    lines += ["info 0 S", "drop 0 S", "soup 0 S", "info 0 S"]
    # A store that is full takes no info frame, and gives one away.
    full = ["soup 0 U", "info 0 U {a: 1}", *["add 0 U {}"] * 40, f"info 0 U {{b: <x:{'0' * 2_000}>}}", "info 0 U", "info 0 U nil"]
    return [*lines, *full, "info 0 U", "unmount 0", "mount 0", "info 0 U", "info 0 S"]


def lines() -> list[str]:
    long = [f"lit {string(length)}" for length in range(139_992, 139_997)]
    long += ["% " + "a" * 150_000, " " * 150_000, "x" * 140_001, "x" * 140_000]
    padded = ["lit 1" + " " * 139_995, "lit 1" + " " * 139_996]
    numbers = [f"time {number}" for number in ("4294967295", "4294967296", "0000000001", "00000000001", "-1", "+1", "")]
    return [*long, *padded, *[line + "\r" for line in padded], "lit\t1", "lit", "lit ", "LIT 1", *numbers]


def depths() -> list[str]:
    inner = ("1", "[1]", '"a"', "<a:00>", "[]")
    read = [f"lit {nested(count, it)}" for it in inner for count in (199, 200, 201)]
    read += [f"lit {nested_frames(count)}" for count in (199, 200, 201)]
    read += ["nsof 02" + "0501" * count + end for count in (198, 199, 200, 201) for end in ("0A", "0500", "0B01020304")]
    changed = [*START, "add 0 S {a: {b: {c: 1}}}"]
    changed += [f"set 0 S 0 {path} {nested(count)}" for path in ("a.b.c", "a.d", "e") for count in range(196, 202)]
    deep = [f"add 0 S {nested_frames(200)}", "set 0 S 1 a.a.a.a.a.a.a.a 5", "set 0 S 1 a.a.a.a.a.a.a 5", "get 0 S 1"]
    return [*read, *changed, "getx 0 S 0", *deep]


def rectangles() -> list[str]:
    sides, other = "{top: 1, left: 2, bottom: 3, right: 255}", "{Top: 1, left: 2, bottom: 3, right: 4}"
    values = [sides, other, f"[{sides}, {other}]", f"[{other}, {sides}]", f"[#1={sides}, #1#, 'right, 'right, #1#]"]
    values += [f"['RIGHT, {sides}]", f"[top: {sides}, 'left]", f"{{top: {sides}, left: {sides}}}", nested(198, sides)]
    values += ["{top: 1, left: 2, bottom: 3, right: 256}", "{top: 1, left: 2, right: 3, bottom: 4}"]
    # The text with small rectangles is the longer one here: a symbol gets a number of five bytes.
    many, tops = ", ".join(["[]"] * 253), ", ".join(["'top"] * 20)
    values += [f"[{sides}, {many}, {tops}]", f"[{many}, {sides}, {tops}]"]
    added = [f"add 0 S {{a: {it}, b: <<w:00>>}}" for it in values]
    lines = [*START, *added, *[f"getx 0 S {uid}" for uid in range(len(values))]]
    return lines + ["unmount 0", "mount 0", *[f"getx 0 S {uid}" for uid in range(len(values))]]


def nodes() -> list[str]:
    lines = [*START, f"lit {array('[]', 46_000)}", "add 0 S {a: 1}", f"set 0 S 0 b {array('[]', 30_000)}"]
    lines += ["set 0 S 0 c [nil]", f"change 0 S 0 {{a: {array('[]', 30_000)}}}", f"set 0 S 0 d {array('[]', 45_000)}"]
    lines += [f"add 0 S {{a: {array('1', count)}}}" for count in (21_328, 21_329, 21_330, 31_000)]
    lines += [f"add 0 S {{t: {string(length)}}}" for length in range(31_986, 31_996)]
    return lines + [f"set 0 S 0 t {string(length)}" for length in range(31_984, 31_990)] + ["soups 0"]


def larges() -> list[str]:
    four = ", ".join(f"{name}: {ZEROS}" for name in "vwxy")
    lines = [*START, "lit <<w:*1000001>>", f"add 0 S {{v: {ZEROS}}}", f"add 0 S {{{four}}}"]
    lines += [f"set 0 S 1 {path} {array(ZEROS, count)}" for path in "av" for count in (12, 13, 14)]
    lines += [f"add 0 S {{a: {array(ZEROS, count)}}}" for count in (3, 16, 17)]
    lines += ["add 0 S {v: <<w:*0>>}", "add 0 S {v: <<w:*0000001>>}", "add 0 S {v: <<w:*00000001>>}"]
    ranges = ("0 60000", "0 60001", "999999 1", "1000000 0", "1000001 0", "4294967295 1")
    lines += [f"vread 0 S 0 v {it}" for it in ranges]
    lines += ["vwrite 0 S 0 v 999998 0102", "vread 0 S 0 v 999990 10", "vwrite 0 S 0 v 999999 0102", "remove 0 S 0"]
    return lines + ["copy 0 S 1 0 S", "remove 0 S 1", "copy 0 S 2 0 S", "soups 0"]


def blocks() -> list[str]:
    lines = [f"{word} {unit}{after}" for word, after in (("format", " C 1"), ("mount", "")) for unit in range(7)]
    return lines + ["unmount 0", "soups 0", "stores"]


def names() -> list[str]:
    lines = ['format 0 "A \\"b\\" \\\\" 536870911', "mount 0", "format 0 x 536870912"]
    given = (string(39), string(40), "b" * 39, "b" * 40, "a,b", "{x}", '"x y" ', "A", "a", '"a"b', "a\\b")
    return [*lines, *[f"soup 0 {it}" for it in given], "soups 0", "stores", 'drop 0 "A"', "soups 0"]


def watches() -> list[str]:
    lines = [*START, *["watch S 1"] * 8, "watch N 2", "unwatch 3", "watch N 64", "watch N 1", "watch N 0", "watch N 65"]
    lines += ["soup 0 N", *["add 0 N {}"] * 66, "notes 3", "notes 3", "add 0 S {}", "remove 0 S 0", "notes 0", "notes 7"]
    return lines + ["move 0 N 5 0 S", "notes 3", "notes 0", "drop 0 N", "drop 0 N", "notes 3", "notes 8", "unwatch 9"]


def copies() -> list[str]:
    lines = [*START, "add 0 S {a: 1}", *["open 0 S 0"] * 17, "discard 4", "open 0 S 0", "open 0 S 1", "edit 4 a 2"]
    lines += ["save 4", "save 5", "revert 5", "edit 5 b.c 1", "edit 5 b {c: 2}", "save 5", "draft 5", "time 9", "save 5"]
    lines += [f"edit 5 b.d {nested(199)}", "draft 5"]
    lines += ["edit 5 t " + string(15_000), "edit 5 u " + string(16_500), "save 5", "edit 6 d " + nested(64), "save 6"]
    return lines + ["unmount 0", "save 5", "draft 5", "mount 0", "save 5", "remove 0 S 0", "revert 5", "save 5", "discard 5"]


EDGES = [
    (stores, (13,) * 6),
    (cursors, (13,)),
    (soups, (40,)),
    (indexes, (40,)),
    (tags, (40,)),
    (infos, (13,)),
    (lines, ()),
    (depths, (40,)),
    (rectangles, (40,)),
    (nodes, (600,)),
    (larges, (4099,)),
    (blocks, (12, 13, 4099, 4100, 0, 1)),
    (names, (20,)),
    (watches, (20,)),
    (copies, (40,)),
]
