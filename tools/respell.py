#!/usr/bin/env python3
"""Brings this repository's own names to the spelling of today's library: words in snake case, types and modules in camel case.

Run once, at the top of the repository, right after the toolchain's own script. A name in lower camel case becomes one in snake case, in
definitions, lemmas, clauses, comments, must-fail edits and pages. A lemma whose name would then be that of the definition it speaks of gets
`_lem`. Names of src/'s functions, exported C names, strings, inputs and outputs have no such spelling, and stay.
"""

import re
from pathlib import Path

LEMMAS = ["bytes_read", "words_left", "walk_steps", "held_by", "moved_at", "sum_over", "one_more", "kept_by"]
# IEEE 754's own names, in comments.
KEPT = ["roundTiesToEven", "roundTowardZero"]
WORD = re.compile(r"(?<![\w'·-])[a-z][\w']*(?:-[\w']+)*")
CAMEL = re.compile(r"[a-z0-9'][A-Z]")


def snake(word):
    if word in ("xAC", "xCA"):
        return word.lower()
    return re.sub(r"([a-z0-9'])([A-Z])", lambda m: m.group(1) + "_" + m.group(2).lower(), word)


def own_names(root):
    names = set()
    for path in root.glob("crates/**/*.antt"):
        for match in WORD.finditer(path.read_text()):
            if CAMEL.search(match.group()) and match.group() not in KEPT:
                names.add(match.group())
    return names


def respell(text, names, lemmas):
    def turned(match):
        word = match.group()
        if word in lemmas:
            return word + "_lem"
        if word in names:
            return snake(word)
        return word

    return WORD.sub(turned, text)


def main():
    root = Path(".")
    names = own_names(root)
    for path in sorted(root.glob("crates/**/*")):
        if path.suffix in (".antt", ".rt", ".edit"):
            text = path.read_text()
            turned = respell(text, names, LEMMAS if path.suffix == ".antt" else [])
            if turned != text:
                path.write_text(turned)
    for path in [root / "README.md", *sorted(root.glob("docs/*.md"))]:
        text = path.read_text()
        turned = re.sub(r"`[^`\n]*`", lambda m: respell(m.group(), names, LEMMAS), text)
        if turned != text:
            path.write_text(turned)


if __name__ == "__main__":
    main()
