#!/usr/bin/env python3
"""Brings this repository's own names in specs/, proofs/, clauses, edits and pages to one spelling: snake case for all but types and modules.

usage: tools/respell.py     once, at the top of the repository, after the kit's own scripts

A name is the repository's own where a file of specs/ or proofs/ declares it. `codeOf` becomes `code_of`, `code-zero` becomes `code_zero`. A type at
the head of a name keeps its dash. Names that would fall together are told apart by the table APART. Functions of src/ already have that spelling.
Where a page or a comment speaks, a name with a dash is turned between backticks alone, since a dash also joins words.
"""
import os
import re
import sys

LETTER = r"[\w'→≤ℤℕ↔⊎≡ᴰ×]"
NAME = re.compile(rf"(?<!{LETTER})(?!\d){LETTER}+(?:-{LETTER}+)*")
WHOLE = re.compile(rf"(?!\d){LETTER}+(?:-{LETTER}+)*")
MARKS = {"pub", "abbrev", "unfoldable", "pattern"}

# names that would fall together with another of the same scope, told apart
APART = {
    "case-b": "case_b_bytes", "cell-limit": "cell_limit_lem", "first-bad": "first_bad_lem", "first-strict": "first_strict_lem",
    "getD-member": "get_or_member", "is-mark": "is_mark_lem", "limit-fits": "limit_fits_lem", "limit-in": "limit_in_lem",
    "limit-place": "limit_place_lem", "link-in": "link_in_lem", "link-place": "link_place_lem", "links-answer": "links_answer_lem",
    "longest-fits": "longest_fits_lem", "longest-line": "longest_line_at", "lower-case": "lower_case_rule",
    "lower-case-line": "lower_case_line_at", "lower-cell": "lower_cell_lem", "lower-steps": "lower_steps_lem",
    "number-of": "number_of_lem", "no-link": "no_link_lem", "open-cell": "open_cell_lem", "open-join": "open_join_rule",
    "open-offer": "open_offer_lem", "open-steps": "open_steps_lem", "same-limit": "same_limit_lem", "side-of": "side_of_lem",
    "strict-join": "strict_join_rule", "strict-offer": "strict_offer_lem", "strict-steps": "strict_steps_lem",
    "upper-cell": "upper_cell_lem", "upper-point": "upper_point_lem", "word-bits": "word_bits_lem",
    "p-line": "p_line_rule", "before-feed": "before_feed_lem",
}
# a library's name too: left as it is
LEFT = {"or-true"}


def texts(*ends):
    for folder, dirs, files in os.walk("crates"):
        dirs[:] = sorted(d for d in dirs if d not in ("out", "target"))
        for name in sorted(files):
            if name.endswith(ends):
                yield os.path.join(folder, name)


def declared(text):
    """The names that a file of specs/ or proofs/ declares: definitions, lemmas, fields, constructors, bound variables."""
    found = []
    for line in text.split("\n"):
        if line.lstrip().startswith("--") or line.startswith("use "):
            continue
        heads = [line.partition(" :")[0].split()] if " :" in line else []
        heads += [m.group(1).split() for m in re.finditer(r"[({]([^(){}:]*) :", line)]
        heads += [m.group(1).split() for m in re.finditer(r"λ ([^().]*)\.", line)]
        heads += [m.group(1).split() for m in re.finditer(r"\blet (\S+) ", line)]
        for words in heads:
            words = [w for w in words if w not in MARKS]
            if all(WHOLE.fullmatch(w) for w in words):
                found += words
    return found


def older(name):
    return name not in LEFT and not name[0].isupper() and ("-" in name or re.search(r"[a-z0-9][A-Z]", name))


def snake(name):
    if name in APART:
        return APART[name]
    return re.sub(r"(?<=[a-z0-9])([A-Z])", lambda m: "_" + m.group(1).lower(), name.replace("-", "_"))


def main():
    own = set()
    for path in texts(".antt"):
        with open(path, encoding="utf-8") as f:
            own.update(n for n in declared(f.read()) if older(n))
    turned = {n: snake(n) for n in own}

    def name(m):
        return turned.get(m.group(0), m.group(0))

    def prose(text):
        text = re.sub(r"`[^`\n]*`", lambda m: NAME.sub(name, m.group(0)), text)
        return NAME.sub(lambda m: name(m) if "-" not in m.group(0) else m.group(0), text)

    def line(text, mark):
        code, at, comment = text.partition(mark)
        return NAME.sub(name, code) + at + prose(comment)

    changed = 0
    paths = [(p, "--") for p in texts(".antt")] + [(p, "//") for p in texts(".rt")] + [(p, None) for p in texts(".edit")]
    for folder, _, files in os.walk("docs"):
        paths += [(os.path.join(folder, f), "") for f in sorted(files) if f.endswith(".md")]
    paths.append(("README.md", ""))
    for path, mark in paths:
        with open(path, encoding="utf-8") as f:
            old = f.read()
        if mark is None:
            new = NAME.sub(name, old)
        elif mark == "":
            new = prose(old)
        else:
            new = "\n".join(line(l, mark) for l in old.split("\n"))
        if new != old:
            with open(path, "w", encoding="utf-8") as f:
                f.write(new)
            changed += 1
    print(f"respell: {len(turned)} names, {changed} files changed")
    return 0


if __name__ == "__main__":
    sys.exit(main())
