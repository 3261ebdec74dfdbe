"""Turns what was measured into Markdown tables and a plot: report.py COUNTS TIMES PAIRS STACK BUILT FILE.md"""
import math
import re
import sys
from pathlib import Path

OPEN, CLOSE = "<!-- bench -->", "<!-- /bench -->"
CALLS = ["border", "prefix", "cover", "enhanced", "window"]
COLOURS = ["#1b6ca8", "#c0392b", "#2e8b57", "#8e44ad", "#d68910", "#d65f9e"]


class Measured:
    """A cost for each implementation, call, kind of log and n, divided by n."""

    def __init__(self, lines):
        self.costs = {}
        for implementation, call, kind, n, cost in lines:
            self.costs[implementation, call, kind, int(n)] = int(cost) / int(n)
        self.sizes = sorted({key[3] for key in self.costs})

    def __call__(self, implementation, call, kind, n):
        return self.costs[implementation, call, kind, n]

    def kinds(self, *calls):
        """The kinds of log that all of these calls are measured on."""
        kinds = dict.fromkeys(key[2] for key in self.costs)
        return [kind for kind in kinds if all(("proved", call, kind, self.sizes[0]) in self.costs for call in calls)]


def read_counts(path):
    """One dump a call, its name in the trigger's line and its instructions in the summary's."""
    dumps = re.findall(r"Client Request: (.+)\n(?:.*\n)*?summary: (\d+)", path.read_text())
    return Measured(name.split() + [cost] for name, cost in dumps)


def read_times(path):
    return Measured(line.split() for line in path.read_text().splitlines())


def read_pairs(path):
    """A line a log: its kind, n, and how many pairs of a reading and a pattern its left seeds take; for each reading."""
    rows = (line.split() for line in path.read_text().splitlines())
    return {(kind, int(n)): int(pairs) / int(n) for kind, n, pairs in rows}


def table(measured, sizes, cell):
    lines = ["| log | n | " + " | ".join(CALLS) + " |", "|---|---:|" + "---:|" * len(CALLS)]
    for kind in measured.kinds(*CALLS):
        for n in sizes:
            cells = " | ".join(cell(call, kind, n) for call in CALLS)
            lines.append(f"| {kind} | {n:,} | {cells} |")
    return "\n".join(lines)


def table_of_one(counts, call, cell):
    """One call: a row for each kind of log, a column for each n."""
    lines = ["| log | " + " | ".join(f"{n:,}" for n in counts.sizes) + " |", "|---|" + "---:|" * len(counts.sizes)]
    for kind in counts.kinds(call):
        lines.append(f"| {kind} | " + " | ".join(cell(call, kind, n) for n in counts.sizes) + " |")
    return "\n".join(lines)


def stack_table(path):
    """A line a call: its name, its bytes, and these in arrays of the log's length."""
    rows = (line.split() for line in path.read_text().splitlines())
    return "\n".join(["| call | bytes | arrays |", "|---|---:|---:|"] + [f"| {call} | {int(size):,} | {arrays} |" for call, size, arrays in rows])


def markdown(counts, times, pairs, stack, built, plot):
    def proved(call, kind, n):
        cost = counts("proved", call, kind, n)
        return f"{cost:.1f} ({cost / counts('c', call, kind, n):.2f})"

    def plain(call, kind, n):
        return f"{counts('c', call, kind, n):.1f} / {counts('rust', call, kind, n):.1f}"

    def in_enhanced_tables(call, kind, n):
        return f"{counts('proved', call, kind, n) / counts('proved', 'enhanced', kind, n):.2f}"

    def in_tables_and_plain_c(call, kind, n):
        return f"{in_enhanced_tables(call, kind, n)} ({counts('proved', call, kind, n) / counts('c', call, kind, n):.2f})"

    def all_three(call, kind, n):
        return f"{proved(call, kind, n)} {counts('rust', call, kind, n):.1f}"

    def looked_at(call, kind, n):
        """With what a pair costs: what the pairs that come with twice the length add."""
        more = pairs[kind, n] - pairs.get((kind, n // 2), pairs[kind, n])
        cost = counts("proved", call, kind, n) - counts("proved", call, kind, n // 2) if more > 1 else 0
        return f"{pairs[kind, n]:.1f}" + (f" ({cost / more:.1f})" if more > 1 else "")

    def time(call, kind, n):
        return " / ".join(f"{times(who, call, kind, n):.1f}" for who in ("proved", "c", "rust"))

    return f"""{OPEN}
Built with {built}.

Instructions a reading of the proved library; in brackets, how many times those of plain C:

{table(counts, counts.sizes, proved)}

Instructions a reading of plain C / plain Rust:

{table(counts, counts.sizes, plain)}

Instructions of `best_pattern`, in those of `enhanced_table` on the same log, by its length:

{table_of_one(counts, "pattern", in_enhanced_tables)}

Instructions of `left_covers`, in those of `enhanced_table` on the same log, by its length; in brackets, how many times those of plain C:

{table_of_one(counts, "left_covers", in_tables_and_plain_c)}

Instructions a reading of `left_seeds`, by the log's length; in brackets, how many times those of plain C; then those of plain Rust:

{table_of_one(counts, "left_seeds", all_three)}

Patterns that `left_seeds` looks at, a reading; in brackets, where they are more than one more than at half the length, the instructions that each of those more costs:

{table_of_one(counts, "left_seeds", looked_at)}

Instructions a reading of `ceiling`, by the log's length; in brackets, how many times those of plain C; then those of plain Rust:

{table_of_one(counts, "ceiling", all_three)}

Nanoseconds a reading, the median of many calls: proved / plain C / plain Rust:

{table(times, times.sizes[-1:], time)}

Bytes of stack that a call takes beyond an empty one, and how many arrays of the log's length they are:

{stack}

![Instructions a reading against the log's length]({plot})
{CLOSE}"""


def between_markers(text, block):
    """The text with the block in the place of the old one, or after everything else where there is none."""
    if OPEN not in text:
        return text + block + "\n"
    before, rest = text.split(OPEN, 1)
    return before + block + rest.split(CLOSE, 1)[1]


# A panel's own size, where the first one stands, and the way to the next.
WIDTH, HEIGHT, LEFT, TOP, ACROSS, DOWN = 280, 200, 60, 60, 350, 280


def text(x, y, words, anchor="middle", more=""):
    return f'<text x="{x:.1f}" y="{y:.1f}" text-anchor="{anchor}" {more}>{words}</text>'


def line(points, colour, dashes):
    path = " ".join(f"{x:.1f},{y:.1f}" for x, y in points)
    return f'<polyline points="{path}" fill="none" stroke="{colour}" stroke-width="1.8" stroke-dasharray="{dashes}"/>'


STYLES = {"proved": "none", "c": "5 4"}


def panel(counts, call, left, top):
    """One call: a line for each kind of log, whole for the proved library and broken for plain C."""
    kinds = counts.kinds(*CALLS)
    highest = max(counts(who, call, kind, n) for who in STYLES for kind in kinds for n in counts.sizes)
    step = 10 ** math.floor(math.log10(highest))
    step = next(s for s in (step / 5, step / 2, step, step * 2) if highest / s <= 6)
    ceiling = math.ceil(highest / step) * step
    first, last = counts.sizes[0], counts.sizes[-1]

    def x(n):
        return left + WIDTH * math.log2(n / first) / math.log2(last / first)

    def y(cost):
        return top + HEIGHT * (1 - cost / ceiling)

    yield text(left + WIDTH / 2, top - 14, call, more='font-weight="bold"')
    for k in range(round(ceiling / step) + 1):
        yield line([(left, y(k * step)), (left + WIDTH, y(k * step))], "#dddddd", "none")
        yield text(left - 8, y(k * step) + 4, f"{k * step:g}", "end")
    for n in counts.sizes:
        yield text(x(n), top + HEIGHT + 18, f"{n:,}")
    for who, dashes in STYLES.items():
        for kind, colour in zip(kinds, COLOURS):
            yield line([(x(n), y(counts(who, call, kind, n))) for n in counts.sizes], colour, dashes)


def legend(counts, left, top):
    rows = [(kind, colour, "none") for kind, colour in zip(counts.kinds(*CALLS), COLOURS)]
    rows += [("proved", "black", STYLES["proved"]), ("plain C", "black", STYLES["c"])]
    for k, (words, colour, dashes) in enumerate(rows):
        yield line([(left, top + 22 * k), (left + 40, top + 22 * k)], colour, dashes)
        yield text(left + 50, top + 22 * k + 4, words, "start")


def svg(counts):
    places = [(LEFT + ACROSS * (k % 3), TOP + DOWN * (k // 3)) for k in range(6)]
    parts = [part for call, place in zip(CALLS, places) for part in panel(counts, call, *place)]
    parts += legend(counts, *places[5])
    size = f'width="{LEFT + 3 * ACROSS}" height="{TOP + 2 * DOWN}"'
    body = "\n".join(parts)
    return f"""<svg xmlns="http://www.w3.org/2000/svg" {size} font-family="sans-serif" font-size="12">
<rect {size} fill="white"/>
{text(LEFT + 3 * ACROSS / 2, 24, "Instructions a reading against the log's length")}
{body}
</svg>
"""


def main(counts, times, pairs, stack, built, report):
    counts, times, report = read_counts(Path(counts)), read_times(Path(times)), Path(report)
    plot = report.with_suffix(".svg")
    plot.write_text(svg(counts))
    old = report.read_text() if report.exists() else ""
    report.write_text(between_markers(old, markdown(counts, times, read_pairs(Path(pairs)), stack_table(Path(stack)), built, plot.name)))


main(*sys.argv[1:])
