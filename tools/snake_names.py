#!/usr/bin/env python3
"""Brings the names of this repository's definitions and lemmas to snake case. Run once, after the toolchain's port.py, at the top of the checkout.

Turned are: every name that an .antt file of the repository declares, wherever it stands in .antt text, in the ghost clauses and imports of .rt files,
and between backquotes in comments and pages. Kept are: types and modules, names from the sources, strings, and the names that other libraries own.
Names that would fall together are told apart by LEMMAS. The script writes nothing if two names still would.
"""
import glob
import re
import sys

# A lemma that would get the name of the definition that it speaks of.
LEMMAS = {
    "breakdown-places": "breakdown_places_lem",
    "copy-row": "copy_row_lem",
    "count-row": "count_row_lem",
    "cover-row": "cover_row_lem",
    "first-no": "first_no_lem",
    "is-border": "is_border_lem",
    "line-end": "line_end_lem",
    "pattern-span": "pattern_span_lem",
    "weighed-places": "weighed_places_lem",
}
WORD = r"[^\s(){}\[\];,.:λ`\"|=«»]+"
DECLARED = re.compile(rf"^ *(?:let )?(?:abbrev |unfoldable )?(?:pub )?(?:abbrev |unfoldable )?(?:record |data )?({WORD})(?: [({{].*[)}}])? :(?: |$)")
BOUND = re.compile(rf"\blet ({WORD}) (?::|=)")
TOKEN = re.compile(WORD)


def snake(name):
    if name in LEMMAS:
        return LEMMAS[name]
    name = name.replace("get_d_", "get_or_").replace("getD", "get_or")
    if name[:1].isupper() or not re.match(r"[a-zA-Z]", name):
        return name
    return re.sub(r"(?<=[a-z0-9])([A-Z])", lambda m: "_" + m.group(1).lower(), name).replace("-", "_")


def read(path):
    with open(path, encoding="utf-8") as file:
        return file.read()


def write(path, text):
    with open(path, "w", encoding="utf-8") as file:
        file.write(text)


def declared(texts):
    names = set()
    for text in texts:
        for line in text.split("\n"):
            code = line.split("--")[0]
            found = DECLARED.match(code)
            if found:
                names.add(found.group(1))
            names.update(BOUND.findall(code))
    return names


def of_libraries(texts, crates):
    names = set()
    for text in texts:
        for module, items in re.findall(r"^(?:ghost )?use ([^\s{]+)\.\{([^}]*)\}", text, re.M):
            if not any(module.startswith(f"Rattle.{crate}.") for crate in crates):
                names.update(item.split(" as ")[0].strip() for item in items.split(","))
    return names


def turned(code, names):
    return TOKEN.sub(lambda m: names.get(m.group(0), m.group(0)), code)


def quoted(text, names):
    return re.sub(r"`[^`\n]*`", lambda m: turned(m.group(0), names), text)


def turn_antt(text, names):
    lines = []
    for line in text.split("\n"):
        code, dashes, comment = line.partition("--")
        lines.append(turned(code, names) + dashes + quoted(comment, names))
    return "\n".join(lines)


def turn_rt(text, names):
    lines = []
    for line in text.split("\n"):
        if re.match(r"\s*(ghost use|requires|ensures)\b", line):
            line = turned(line, names)
        elif re.match(r"\s*//", line):
            line = quoted(line, names)
        lines.append(line)
    return "\n".join(lines)


def main():
    antt = sorted(glob.glob("crates/*/specs/**/*.antt", recursive=True) + glob.glob("crates/*/proofs/**/*.antt", recursive=True))
    sources = sorted(glob.glob("crates/*/src/**/*.rt", recursive=True))
    pages = ["README.md", "CONTRIBUTING.md"] + sorted(glob.glob("docs/**/*.md", recursive=True))
    crates = [path.split("/")[1] for path in sorted(glob.glob("crates/*/src"))]
    texts = [read(path) for path in antt]
    before = declared(texts)
    kept = of_libraries(texts + [read(path) for path in sources], crates)
    names = {name: snake(name) for name in before - kept if snake(name) != name}
    stay = {name for name in before | kept if name not in names}
    for name, new in sorted(names.items()):
        others = [n for n in names if n != name and names[n] == new] + [n for n in stay if n == new]
        if others:
            sys.exit(f"{name} and {others[0]} would both be {new}")
    for name in sorted(before & kept):
        if snake(name) != name:
            print(f"kept, as another library has it too: {name}")
    for path, text in zip(antt, texts):
        write(path, turn_antt(text, names))
    for path in sources:
        write(path, turn_rt(read(path), names))
    for path in pages:
        write(path, quoted(read(path), names))
    print(f"{len(names)} names turned")


main()
