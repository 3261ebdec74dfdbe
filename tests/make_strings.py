"""Makes what the program strings must write: python3 tests/make_strings.py crates/strings

The lines come from definitions.py, by brute force. Where the table of strings with known results prints a line, the two must agree.
"""
import sys
from pathlib import Path

import definitions as by

STRINGS = {
    "P1": "a",
    "P2": "aa",
    "P3": "ab",
    "P4": "aaaa",
    "P5": "abaababab",
    "P6": "ababaababa",
    "P7": "abaababaababa",
    "P8": "ababaabaababa" + "ba" + "ababaabaababa",
    "left": "abaabab",
    "shorter seed": "abaabaab",
}

# Logs at the edges of held.
EDGES = {
    "no reading": b"",
    "1 at the ceiling": bytes([20]),
    "1 other": bytes([4]),
    "59 at the ceiling": bytes([20] * 59),
    "60 at the ceiling": bytes([20] * 60),
    "1 other and then 59": bytes([4] + [20] * 59),
    "1 other and then 60": bytes([4] + [20] * 60),
    "60 and then 1 other": bytes([20] * 60 + [4]),
}

# The lines that the table prints, by hand. Those of a window are the rows that it writes.
KNOWN = {
    "P1": ["border 0", "prefix 1", "cover 0", "best 0", "count 0", "normal 1 0 1", "covers 1"],
    "P2": ["border 0 1", "prefix 2 1", "best 0 1", "count 0 2", "normal 1 0 2", "covers 1 2"],
    "P3": ["border 0 0", "prefix 2 0", "best 0 0", "normal 2 0 1", "covers 2", "pattern refused 5"],
    "P4": ["best 0 1 1 1", "count 0 2 3 4", "normal 1 0 4", "covers 1 2 3 4", "weighed 1", "limit 2"],
    "P5": [
        "border 0 0 1 1 2 3 2 3 2", "prefix 9 0 1 3 0 3 0 2 0", "best 0 0 1 1 2 3 2 3 2", "count 0 0 2 3 4 6 6 8 8", "normal 7 2 1", "covers 9",
        "weighed 2", "limit 3",
    ],
    "P6": [
        "border 0 0 1 2 3 1 2 3 4 5", "prefix 10 0 3 0 1 5 0 3 0 1", "cover 0 0 0 2 3 0 0 3 0 5", "best 0 0 1 2 3 1 2 3 2 3",
        "count 0 0 2 4 5 4 6 8 8 10",
    ],
    "P7": ["normal 5 3 2", "covers 3 8 13", "breakdown 13 3 1"],
    "P8": ["normal 15 13 1", "covers 3 28", "breakdown 28 13 5 1", "weighed 3 1"],
    "left": ["left cover 0 0 1 1 2 3 2", "left count 0 0 2 3 4 6 6", "left seed 0 0 1 1 2 3 3", "seed count 0 0 2 3 4 6 7"],
    "shorter seed": ["best 0 0 1 1 2 3 4 5", "count 0 0 2 3 4 6 7 8", "left seed 0 0 1 1 2 3 3 3", "seed count 0 0 2 3 4 6 7 8"],
    "window 5 5": ["border 0 0 1 2 3", "cover 0 0 0 2 3", "best 0 0 1 2 3", "count 0 0 2 4 5"],
    "window 5 6": ["number 3"],
    "window 10 0": ["number 3"],
    "no reading": ["ceiling 1 0 0"],
    "1 at the ceiling": ["ceiling 0 1 1"],
    "1 other": ["ceiling 0 0 0"],
    "59 at the ceiling": ["ceiling 0 1 59"],
    "60 at the ceiling": ["ceiling 0 1 60"],
    "1 other and then 59": ["ceiling 0 0 59"],
    "1 other and then 60": ["ceiling 0 1 60"],
    "60 and then 1 other": ["ceiling 0 0 60"],
}

COLUMNS = [("border", by.border), ("prefix", by.prefix), ("cover", by.cover), ("best", by.best), ("count", by.count)]

LEFTS = [
    ("left cover", lambda x, i: by.left_cover_and_count(x, i)[0]),
    ("left count", lambda x, i: by.left_cover_and_count(x, i)[1]),
    ("left seed", lambda x, i: by.left_seed_and_count(x, i)[0]),
    ("seed count", lambda x, i: by.left_seed_and_count(x, i)[1]),
]

ROOM, FILLER = 12, 77


def cover_test(x, q):
    """1 or 0; ten and the number where the test is refused."""
    return int(by.covers(x, len(x), q)) if 1 <= q <= len(x) else 10 + 3


def ceiling_line(x):
    """The number, held and the ceiling."""
    return by.line("ceiling", [0, by.held(x), by.ceiling(x)] if x else [1, 0, 0])


def string_lines(x):
    n = len(x)
    pattern = x[:by.best(x, n)]
    return [
        *[by.line(name, by.column(row, x)) for name, row in COLUMNS],
        by.line("total", [by.total(x)]),
        *[by.line(name, by.column(row, x)) for name, row in LEFTS],
        by.line("normal", by.normal(x, n)),
        by.line("breakdown", by.breakdown(x)),
        by.line("covers", by.cover_list(x)),
        by.line("tests", [cover_test(x, q) for q in range(n + 2)]),
        by.line("weighed", by.weighed(x, n)),
        by.line("limit", [by.limit(n)]),
        f"pattern {pattern}\n" if pattern else by.line("pattern refused", [5]),
        ceiling_line(x.encode()),
    ]


def window_lines(x, a, m):
    accepted = m > 0 and a + m <= len(x)
    part = x[a:a + m] if accepted else ""
    before, after = [FILLER] * a, [FILLER] * (ROOM - a - m)
    return [
        by.line("number", [0 if accepted else 3]),
        *[by.line(name, before + by.column(row, part) + after if accepted else [FILLER] * ROOM) for name, row in COLUMNS],
        by.line("total", [by.total(part)]),
    ]


def without_filler(line):
    return " ".join(word for word in line.split() if word != str(FILLER))


def check(name, lines):
    for known in KNOWN[name]:
        assert known in map(without_filler, lines), f"{name}: {known}"


def main(crate):
    said = []
    for name, x in STRINGS.items():
        lines = string_lines(x)
        check(name, lines)
        said += [f"{name} {x}\n", *lines]
    for a, m in [(5, 5), (5, 6), (10, 0)]:
        lines = window_lines(STRINGS["P6"], a, m)
        check(f"window {a} {m}", lines)
        said += [by.line("window", [a, m]), *lines]
    for name, x in EDGES.items():
        lines = [ceiling_line(x)]
        check(name, lines)
        said += [f"{name}\n", *lines]
    (crate / "stdout").write_text("".join(said))


if __name__ == "__main__":
    main(Path(sys.argv[1]))
