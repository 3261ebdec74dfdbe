"""Makes the files of the program report_files, good and bad, and what it must write about them: python3 tests/make_report_files.py crates/report_files

The answers come from definitions.py, by brute force, and not from the program.
"""
import shutil
import sys
from pathlib import Path

from definitions import LONGEST, report

LOG = bytes([4, 20, 4, 20, 4, 4, 20, 4, 20, 4])


def plant_file(symbols, version=1, field=None):
    field = len(symbols) if field is None else field
    return bytes([version]) + field.to_bytes(2, "big") + bytes(symbols)


def with_symbol(value):
    """The log with one symbol changed, at a place that moves with the value."""
    place = value % len(LOG)
    return plant_file(LOG[:place] + bytes([value]) + LOG[place + 1:])


def marked(n):
    """A log of n symbols of which only the first and the last are 0: its one border is of length 1."""
    return bytes([0] + [1 + k * k % 19 for k in range(n - 2)] + [0])


def files():
    """Each file's name and bytes; None for a file that is not there."""
    whole = plant_file(LOG)
    for version in range(256):
        yield f"version_{version:02x}", plant_file(LOG, version=version)
    for size in range(len(whole)):
        yield f"cut_{size:02}", whole[:size]
    yield "whole", whole
    yield "one_more", whole + b"\x04"
    for value in range(21, 256):
        yield f"symbol_{value}", with_symbol(value)
    for n in [1, 2, 3, 4, 5, 59, 60]:
        yield f"held_{n}", plant_file(bytes([20] * n))
    for n in [0, 59, 60]:
        yield f"other_then_{n}", plant_file(bytes([4] + [20] * n))
    for n in [59, 60]:
        yield f"held_{n}_then_other", plant_file(bytes([20] * n + [4]))
    yield "field_0", plant_file(b"")
    yield "field_0_and_symbols", plant_file(LOG, field=0)
    yield "field_4096", plant_file(marked(LONGEST))
    yield "field_4096_held", plant_file(bytes([20] * LONGEST))
    for n in [59, 60]:
        yield f"field_4096_ends_{n}", plant_file(marked(LONGEST - n) + bytes([20] * n))
    yield "field_4096_one_less", plant_file(marked(LONGEST - 1), field=LONGEST)
    yield "field_4096_one_more", plant_file(marked(LONGEST + 1), field=LONGEST)
    yield "field_4097", plant_file(marked(LONGEST + 1))
    yield "field_65535", plant_file(LOG, field=65535)
    yield "missing", None
    yield "long", plant_file(marked(4997), field=LONGEST)
    yield "long_small_field", plant_file(marked(4997), field=10)
    yield "long_field_0", plant_file(marked(4997), field=0)
    yield "long_field_4997", plant_file(marked(4997))
    yield "long_version_2", plant_file(marked(4997), version=2)
    yield "first_version_then_field", plant_file(b"", version=2)
    yield "first_field_then_size", plant_file(LOG, field=4097)
    yield "first_size_then_symbol", plant_file(bytes([21, 21]), field=3)


def main(crate):
    data = crate / "data"
    shutil.rmtree(data, ignore_errors=True)
    data.mkdir()
    names, said = [], []
    for name, content in files():
        names.append(name)
        said.append(f"{name}\n" + ("missing\n" if content is None else report(content)))
        if content is not None:
            (data / name).write_bytes(content)
    (crate / "args").write_text("".join(f"{name}\n" for name in names))
    (crate / "stdout").write_text("".join(said))


if __name__ == "__main__":
    main(Path(sys.argv[1]))
