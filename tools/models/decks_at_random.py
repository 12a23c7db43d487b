"""Random definition files, and random calls on their decks."""

from plain_lines import BLANKS, ENDS, key_text, kind_of


NAMES = ["a.units", "b.units", "sub/c.units", "sub/d.units"]
LEAVES = ["leaf.units", "sub/leaf.units"]
DEFINITIONS = [
    "a !", "a 2 b", "a 2  b", "b 3 a", "b !dimensionless", "c_1 a/b", "k- 1000", "k- 2", "k 5", "f(x) x + 1", "f() g",
    "f(x) x + 1 ; f - 1", "g() f()", "f[a] 1 2, 3 4", "!unitlist a a;b", "!unitlist a a", "! unitlist z b", "+a 7",
    "+\ta 7", "f(x) units=[a;b] domain=[0,1) x noerror a", "a\t2 b", "ab(x)x", "g[b] 1 1 2 2",
]
FAULTY = [
    "a", "a 3 *", "1a 2", "h_ 2", "h- ", "f(", "f() ", "f(x) ", "f(2) x", "t[a] 3 4, 1 2", "t[a 1 2", "a !b", "(x", "!unitlist",
    "!unitlist 3 a", "!unitlist z", "!unitlist z a;;b", "+!unitlist z a", "!", "! ", "!nosuch", "!Set V x", "!include",
    "!include a b", "!locale", "!locale a b", "!set V", "!var V", "!endvar x", "!utf8 x", "a sin(", "f(x) domain=[0 x", "sin 2", "+ +a 7",
]
OPENINGS = ["!locale en_US", "!locale en_GB", "!var V x", "!var V y x", "!varnot V x", "!varnot W x y", "!utf8", "! var W  y"]
CLOSINGS = ["!endlocale", "!endvar", "!endutf8"]
SETTINGS = ["!set V x", "!set V y", "!set W y", "!set W  x y", "!set V\tx"]
OTHERS = ["!message hello", "!message", "!message a  b ", "!prompt hello", "# no line", "", "  ", "\t# \\", "a 2 b # b"]
EDITS = ["define", "drop", "append", "switch", "splice", "back", "load", "text"]
KEYS = ["a", "b", "c_1", "k", "k-", "f()", "g()", "ab()", "!unitlist a", "!unitlist z", "sin", "h-"]


def random_line(r, open_ends):
    """A random line. A closing line usually closes the innermost block."""
    kind = r.choices(["define", "faulty", "open", "close", "set", "other", "leaf"], [40, 8, 14, 18, 8, 8, 4])[0]
    if kind == "close" and open_ends and r.randrange(6):
        return "!" + open_ends.pop()
    line = r.choice({
        "define": DEFINITIONS,
        "faulty": FAULTY,
        "open": OPENINGS,
        "close": CLOSINGS,
        "set": SETTINGS,
        "other": OTHERS,
        "leaf": ["!include leaf.units", "!include sub/leaf.units", "!include none.units", "!include /none/x.units"],
    }[kind])
    if kind == "open":
        open_ends.append(ENDS[kind_of(line)[0]])
    return line


def random_file(r, name):
    lines, ends = [], []
    for _ in range(r.randrange(14)):
        line = random_line(r, ends)
        if name in LEAVES and "include" in line:
            continue
        if r.randrange(8) == 0 and " " in line and "#" not in line:
            line = line.replace(" ", " \\\n ", 1)
        lines.append(line + r.choice(["", "", "", "\r", " ", "  # say"]))
    if name in NAMES and r.randrange(3):
        word = r.choice(["a.units", "b.units", "sub/c.units", "c.units", "d.units", "../b.units", "dir"])
        lines.insert(r.randrange(len(lines) + 1), f"!include {word}")
    while ends and r.randrange(4):
        lines.append("!" + ends.pop())
    return "\n".join(lines) + r.choice(["\n", "\n", "", " \\", "\\\n", "\n\n"])


def random_put(r):
    lines = r.choices(DEFINITIONS + SETTINGS + OTHERS[:4], k=r.randrange(3))
    if r.randrange(3) == 0:
        opening = r.choice(OPENINGS)
        lines = [opening, *lines, "!" + ENDS[kind_of(opening)[0]]]
    if r.randrange(8) == 0:
        lines.append(r.choice(CLOSINGS))
    return ";".join(r.choice(["", "", "", "~"]) + line for line in lines if line.strip(BLANKS) and ";" not in line)


def random_edit(r, board):
    kind = r.choices(EDITS, [4, 4, 3, 4, 6, 4, 1, 1])[0]
    if kind == "define":
        return f"define {r.choice([r.choice(DEFINITIONS), r.choice(DEFINITIONS), r.choice(FAULTY + OPENINGS + OTHERS)])}"
    if kind == "drop":
        present = list(map(key_text, board.deck.table())) if board.deck else []
        return f"drop {r.choice(present if present and r.randrange(4) else KEYS)}"
    if kind in ("append", "load", "text"):
        return f"{kind} {r.choice(NAMES + LEAVES + ['none.units'])}"
    if kind == "splice":
        length = len(board.deck.lines) if board.deck else 0
        at = r.randrange(length + 1)
        return f"splice {at} {r.randrange(min(4, length - at + 1) + (r.randrange(9) == 0))} {random_put(r)}"
    return kind


def random_calls(r, board, edits):
    """Calls with the answers of the board, which stores decks as lists."""
    questions = ["count", "keys", "lines", "notices", "messages", "defining", "settings", "compare"]
    questions += [f"{word} {key}" for word in ("entry", "place") for key in KEYS]
    calls = [f"load {r.choice(NAMES)}"]
    for _ in range(edits):
        calls += r.sample(questions, r.choice([4, len(questions)]))
        yield from ((call, board.answer(call)) for call in calls)
        settings = [f"locale {r.choice(['en_US', 'en_GB', 'de_DE'])}", f"set {r.choice('VW')} {r.choice('xy')}"]
        calls = [r.choice(["snapshot", *settings]), random_edit(r, board)]
    yield from ((call, board.answer(call)) for call in calls + questions)
