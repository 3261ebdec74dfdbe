"""The definitions of the log finder by brute force: each is tried at every length and every position.

Lengths and positions are counted from 1 as in the definitions; j is a number of readings skipped, from 0.
"""
from functools import cache

LONGEST = 4096
CEILING = 20
RECENT = 60


def occurrences(x, q, i):
    """Where the first q readings occur, ending at or before i."""
    pattern = x[:q]
    return [j for j in range(i - q + 1) if x.startswith(pattern, j)]


@cache
def covered(x, i, q):
    """How many of the first i positions the first q readings cover."""
    count = end = 0
    for j in occurrences(x, q, i):
        count += j + q - max(j, end)
        end = j + q
    return count


def covers(x, i, q):
    return covered(x, i, q) == i


def borders(x, i):
    """The nonempty borders of the first i readings, rising."""
    return [m for m in range(1, i) if x[:m] == x[i - m:i]]


def border(x, i):
    return max(borders(x, i), default=0)


def prefix(x, i):
    return max(m for m in range(len(x) - i + 2) if x[i - 1:i - 1 + m] == x[:m])


def cover(x, i):
    return max((q for q in range(1, i) if covers(x, i, q)), default=0)


def shortest_of_the_most(patterns, worth):
    """Of the patterns the shortest of those that are worth the most, and how much that is."""
    count, shorter = max(((worth(q), -q) for q in patterns), default=(0, 0))
    return -shorter, count


def best_and_count(x, i):
    return shortest_of_the_most(borders(x, i), lambda m: covered(x, i, m))


def best(x, i):
    return best_and_count(x, i)[0]


def count(x, i):
    return best_and_count(x, i)[1]


def repeated(x, i):
    """The patterns that occur at least twice in the first i readings."""
    return [q for q in range(1, i) if len(occurrences(x, q, i)) > 1]


def sown(x, i, q):
    """How many of the first i positions the first q readings cover, also with their starts that end at i."""
    starts = [m for m in borders(x, i) if m < q]
    inside = {p for j in occurrences(x, q, i) for p in range(j, j + q)} | {p for m in starts for p in range(i - m, i)}
    return len(inside)


def left_cover_and_count(x, i):
    return shortest_of_the_most(repeated(x, i), lambda q: covered(x, i, q))


def left_seed_and_count(x, i):
    return shortest_of_the_most(repeated(x, i), lambda q: sown(x, i, q))


def normal(x, i):
    """k1, k2 and k."""
    k1 = i - border(x, i)
    return [k1, i % k1, i // k1]


def breakdown(x):
    """The lengths of the parts."""
    lengths, i = [], len(x)
    while i:
        lengths.append(i)
        k1, k2, k = normal(x, i)
        i = k2 or (k1 if k > 1 else 0)
    return lengths


def cover_list(x):
    return [q for q in range(1, len(x) + 1) if covers(x, len(x), q)]


def weighed(x, i):
    """The nonempty borders that have no proper cover, longest first."""
    return [m for m in reversed(borders(x, i)) if not any(covers(x, m, q) for q in range(1, m))]


def limit(i):
    return max(e for e in range(i) if 2 ** e <= i)


def total(x):
    return sum(len(weighed(x, i)) for i in range(1, len(x) + 1))


def ceiling(x):
    return sum(symbol == CEILING for symbol in x)


def held(x):
    """1 if there are at least sixty readings and the last sixty are all at the ceiling, or fewer and every one is; else 0."""
    last = x[-RECENT:] if len(x) >= RECENT else x
    return int(all(symbol == CEILING for symbol in last))


def column(row, x):
    return [row(x, i) for i in range(1, len(x) + 1)]


def file_number(f):
    """0, or the number of the first refusal that applies."""
    if len(f) < 3:
        return 7
    if f[0] != 1:
        return 6
    n = f[1] * 256 + f[2]
    if n == 0:
        return 1
    if n > LONGEST:
        return 2
    if len(f) != 3 + n:
        return 7
    if any(symbol > CEILING for symbol in f[3:]):
        return 8
    return 0


def line(word, numbers):
    return " ".join([word] + [str(n) for n in numbers]) + "\n"


def report(f):
    number = file_number(f)
    if number:
        return line("refused", [number])
    x = f[3:]
    n = len(x)
    return "".join([
        line("log", [n]),
        line("normal", normal(x, n)),
        line("covers", cover_list(x)),
        line("best", best_and_count(x, n)),
        line("weighed", weighed(x, n)),
        line("ceiling", [ceiling(x)]),
        line("held", [held(x)]),
    ])


def rows(f):
    number = file_number(f)
    if number:
        return line("refused", [number])
    x = f[3:]
    lines = [line(str(i), [border(x, i), prefix(x, i), cover(x, i), *best_and_count(x, i)]) for i in range(1, len(x) + 1)]
    return "".join(lines) + line("total", [total(x)])
