#!/usr/bin/env python3
"""Brings the names of this repository's definitions and lemmas to the kit's spelling: words in snake case, types and facts in camel case.

Run once at the top, after the kit's own script. Names are read off specs/ and proofs/; each is written anew wherever it stands: in specs/,
proofs/, the clauses of src/, must-fail edits and the pages. Functions, exported names, strings and outputs keep theirs.
`tools/respell.py --list` prints the names and what they become, and changes nothing.
"""

import pathlib
import re
import sys

NAME = r"[^\s(){}\[\];,.\"`|]+"
DECLARED = re.compile(rf"^\s*(?:(?:pub|abbrev|unfoldable)\s+)*({NAME})\s*:(?!=)\s")
RECORD = re.compile(r"^\s*(?:pub\s+)?record\s")
TOKEN = re.compile(NAME)
# Names that would fall together with a field of src/, which clauses read, or with another name.
OWN = {
    "biasY": "y_bias",
    "biasUV": "uv_bias",
    "rangeY": "y_range",
    "rangeUV": "uv_range",
    "greenStart": "start_of_green",
    "first-low": "first_low_lem",
    "second-low": "second_low_lem",
    "second_word": "second_word_lem",
    "y-bias": "y_bias_lem",
    "uv-bias": "uv_bias_lem",
    "in-turn": "in_turn_lem",
    "u-at": "u_at_lem",
    "v-at": "v_at_lem",
    "word-of": "word_of_lem",
    "first-word": "first_word_lem",
}
GENERATED = re.compile(r":\s*(?:\{.*\}\s*→\s*)?(?:tie\.|goal\.|statement\b)")


def antt_files(top):
    for part in ("specs", "proofs"):
        yield from sorted(top.glob(f"crates/*/{part}/**/*.antt"))


def snake(name):
    if name[0].isupper() or name.startswith("_"):
        return name
    words = re.sub(r"([a-z0-9])([A-Z])", r"\1_\2", name)
    words = words.replace("-", "_") if re.fullmatch(r"[A-Za-z0-9_\-]+", words) else words
    return words.lower() if re.fullmatch(r"[A-Za-z0-9_]+", words) else name


def declared(top):
    names = set()
    for path in antt_files(top):
        for line in path.read_text().splitlines():
            found = DECLARED.match(line)
            if found and not line.lstrip().startswith("--") and not GENERATED.search(line):
                names.add(found.group(1))
    return names


def imported(top):
    """Names that some file takes from a library: there the library's spelling is the one that stands."""
    crates = {path.name for path in top.glob("crates/*")}
    names = set()
    for path in antt_files(top):
        for module, listed in re.findall(r"^use ([A-Za-z_.]+?)\.\{(.*)\}", path.read_text(), flags=re.M):
            if module.split(".")[:1] != ["Rattle"] or module.split(".")[1] not in crates:
                names |= {name.split(" as ")[0] for name in re.split(r",\s*", listed)}
    return names


def renaming(top):
    names = declared(top) - imported(top)
    new = {n: snake(n) for n in names if snake(n) != n}
    # A lemma that would have its function's name gets _lem.
    functions = {name for old, name in new.items() if "-" not in old}
    new |= {old: f"{name}_lem" for old, name in new.items() if "-" in old and name in functions}
    return new | {old: name for old, name in OWN.items() if old in names}


def rewritten(text, new):
    return TOKEN.sub(lambda m: new.get(m.group(0), m.group(0)), text)


def rust(text, new):
    """Of a source file only its clauses and imports of definitions: lower camel case stands nowhere else in it."""
    camel = {k: v for k, v in new.items() if "-" not in k and not k.islower()}
    turn = lambda line: re.sub(r"\b[a-z][a-z0-9]*(?:[A-Z][A-Za-z0-9]*)+\b", lambda m: camel.get(m.group(0), m.group(0)), line)
    return "\n".join(rewritten(line, new) if line.startswith("ghost use ") else turn(line) for line in text.split("\n"))


def page(text, new):
    """Of a page only what stands between backticks."""
    return re.sub(r"`[^`\n]+`", lambda m: "`" + rewritten(m.group(0)[1:-1], new) + "`", text)


def main():
    top = pathlib.Path(".")
    new = renaming(top)
    if "--list" in sys.argv:
        print("\n".join(f"{old} {name}" for old, name in sorted(new.items())))
        return
    names = declared(top)
    together = sorted({(old, name) for old, name in new.items() if name in names})
    together += sorted((a, b) for a in new for b in new if a < b and new[a] == new[b])
    for pair in together:
        print("fall together:", *pair)
    for path in antt_files(top):
        text = path.read_text()
        before = set(TOKEN.findall(text))
        for old in sorted(before & new.keys()):
            if new[old] in before:
                print("stands already:", path, old, new[old])
        path.write_text(rewritten(text, new))
    for path in sorted(top.glob("crates/*/src/**/*.rt")):
        path.write_text(rust(path.read_text(), new))
    for path in sorted(top.glob("crates/*/must-fail/*.edit")):
        text = path.read_text()
        path.write_text(rewritten(text, new) if ".antt" in text else rust(text, new))
    for path in [top / "README.md", *sorted(top.glob("docs/**/*.md"))]:
        path.write_text(page(path.read_text(), new))


main()
