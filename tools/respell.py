#!/usr/bin/env python3
"""Brings the names of this repository's definitions and lemmas to snake case: `groupsIn` becomes `groups_in`, `canonicalOf-back` becomes `canonical_of-back`,
and the proof of a function f, `f-spec` with dashes, becomes `f_spec`.

usage: tools/respell.py [FOLDER]      the top of the repository; this folder where none is given

It was run once, after the toolchain's own script, and a second run changes nothing. Types, facts and modules keep their capital, as does a fact that is a part of
a name (`All-append`). Names that come from a library stay. A lemma that would then have its function's name gets `_lem`. Must-fail edits, README and docs/ follow.
It says which new names were there before: whoever runs it looks at those, in case two names fall together.
"""

import os
import re
import sys

NAME = re.compile(r"[A-Za-z_\u00b7\u2080-\u209c\u03b1-\u03c9'][\w'\u2080-\u209c-]*")
# Comments and quoted text, which hold the symbols of the papers: `sTTT` is one, and no name.
APART = re.compile(r'--[^\n]*|"[^"\n]*"')
USE = re.compile(r"^\s*(?:pub )?(?:ghost )?use ([^\s{;]+?)\.?(?:\{([^}]*)\})?(?: as (\S+?))?;?$")

# Lemmas that the toolchain's own script had brought to the name that their function gets here.
LEMMA = re.compile(r"(?<![\w.'-])(?:left_out|set_back|only_at|same_spot|sign_text)(?![\w'-])")


def snake_segment(segment):
    """One part of a name between dashes; a part that begins with a capital is a type or a fact."""
    if not segment or not segment[0].islower():
        return segment
    return re.sub(r"(?<=[a-z0-9])([A-Z])", lambda m: "_" + m.group(1).lower(), segment)


def snake(name):
    return "-".join(snake_segment(s) for s in name.split("-"))


def files(top, endings):
    for folder, dirs, names in os.walk(os.path.join(top, "crates")):
        dirs[:] = sorted(d for d in dirs if d != "out")
        for name in sorted(names):
            if name.endswith(endings):
                yield os.path.join(folder, name)


def read(path):
    with open(path, encoding="utf-8") as f:
        return f.read()


def of_libraries(texts, crates):
    """The names that a line `use` takes from a module which is not one of this repository's crates."""
    found = set()
    for text in texts.values():
        for line in text.split("\n"):
            m = USE.match(line)
            if m and not (m.group(1).startswith("Rattle.") and m.group(1).split(".")[1] in crates):
                found.update(NAME.findall(m.group(2) or ""))
                found.update(m.group(1).split("."))
    return found


def main(argv):
    top = argv[0] if argv else "."
    crates = set(os.listdir(os.path.join(top, "crates")))
    texts = {p: read(p) for p in files(top, (".rt", ".antt"))}
    taken = of_libraries(texts, crates)
    before, in_code = set(), set()
    for path, text in texts.items():
        before.update(NAME.findall(text))
        if path.endswith(".antt"):
            in_code.update(NAME.findall(APART.sub(" ", text)))
    new = {n: snake(n) for n in in_code if n not in taken and snake(n) != n}
    for n, s in sorted(new.items()):
        if s in before:
            print(f"look: {n} becomes {s}, which is a name already")
    pages = [os.path.join(top, "README.md")] + [os.path.join(d, f) for d, _, fs in os.walk(os.path.join(top, "docs")) for f in fs if f.endswith(".md")]
    texts.update({p: read(p) for p in list(files(top, (".edit",))) + pages})
    for path, text in texts.items():
        if path.endswith(".antt") and new:
            text_of_lemmas = LEMMA.sub(lambda m: m.group(0) + "_lem", text)
        else:
            text_of_lemmas = text
        turned = NAME.sub(lambda m: new.get(m.group(0), m.group(0)), text_of_lemmas)
        if path.endswith("Proof.antt"):
            turned = spec_name(path, turned)
        if turned != text:
            with open(path, "w", encoding="utf-8") as f:
                f.write(turned)
    print(f"respell: {len(new)} names")
    return 0


def spec_name(path, text):
    """The proof of the function f is `f_spec`."""
    function = os.path.basename(os.path.dirname(path))
    alike = re.escape(function).replace("_", "[-_]")
    return re.sub(rf"(?<![\w-]){alike}[-_]spec(?![\w-])", function + "_spec", text)


if __name__ == "__main__":
    sys.exit(main(sys.argv[1:]))
