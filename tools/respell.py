#!/usr/bin/env python3
"""Brings the repository's own definitions and lemmas to snake case: `slideRefusal` and `row-cell-at` to
`slide_refusal` and `row_cell_at`. Types, modules, functions of src/, exported C names and strings keep theirs.

usage: tools/respell.py [--list]      at the top of the repository; --list prints the names and writes nothing

The names are those that the files of specs/ and the lemma files of proofs/ declare, fields and constructors too. They
turn in .antt files, in .rt files outside of string literals, in must-fail/*.edit, and in the code spans of .md files;
in comments those with a dash turn only between backquotes, as they may be words of English.
Names that would fall together are in TOGETHER, with what each becomes.
"""
import os
import re
import sys

WORD = re.compile(r'[^\s(){}\[\].;,@"«»`|]+')
SIGNATURE = re.compile(r"^\s*(?:(?:pattern|abbrev|unfoldable|pub)\s+)*([^\s:(){}\[\].;,]+)\s*:(?!:)")
HEAD = re.compile(r"^\s*(?:(?:abbrev|unfoldable|pub)\s+)*(?:record|data)\s+([^\s:(){}\[\].;,]+)")
STRING = re.compile(r'"(?:[^"\\\n]|\\.)*"')
SPAN = re.compile(r"(`+)(?:[^\n`]|\n(?!\s*\n))+?\1")
CLAUSES = re.compile(r"^ *(?:ghost use|requires|ensures)\b[^\n]*", re.M)
EDIT = re.compile(r"^#[^\n]*", re.M)
DASHES = re.compile(r"(?<![^\s(){};])--[^\n]*")
SLASHES = re.compile(r"//[^\n]*")
KEYWORDS = {"use", "module", "let", "in", "λ", "--", "where", "unfolding"}
TOGETHER = {
    "all-finite": "all_finite_lem",
    "all-open": "all_open_lem",
    "at-limit": "at_limit_lem",
    "cell-of": "cell_of_lem",
    "end-word": "end_word_lem",
    "first-of": "first_of_lem",
    "first-receivers": "first_receivers_lem",
    "first_of": "first_in_block",
    "gain-step": "gain_step_lem",
    "good-at": "good_at_lem",
    "grid-mark": "grid_mark_lem",
    "least-waiting": "least_waiting_lem",
    "mark-at": "mark_at_lem",
    "mix-put": "mix_put_lem",
    "no-base": "no_base_lem",
    "is-nan": "is_nan_lem",
    "nan-bits": "nan_bits_lem",
    "number-in": "number_in_lem",
    "open_step": "open_step_lem",
    "opening-steps": "opening_steps_lem",
    "pass-done": "pass_done_lem",
    "pass_on": "pass_on_lem",
    "ran-by": "ran_by_lem",
    "refusal-by": "refusal_by_lem",
    "row-length": "row_length_lem",
    "row_step": "row_step_lem",
    "rows-length": "rows_length_lem",
    "second-receivers": "second_receivers_lem",
    "shed-of": "shed_of_lem",
    "shed-step": "shed_step_lem",
    "some_below": "some_below_lem",
    "square-distances": "square_distances_lem",
    "thermal-params": "thermal_params_lem",
    "thermal-passes": "thermal_passes_lem",
    "whole_run": "whole_run_lem",
}


def files(ends):
    for top in ("crates", "docs", "README.md", "oracle", "reference", "host", "sample"):
        if os.path.isfile(top) and top.endswith(ends):
            yield top
        for folder, dirs, names in os.walk(top):
            dirs[:] = sorted(d for d in dirs if d not in ("out", "target", ".git"))
            for n in sorted(names):
                if n.endswith(ends):
                    yield os.path.join(folder, n)


def own(path):
    """Whether the file declares names of the repository's own: one of specs/, or a lemma file right in proofs/."""
    parts = path.split(os.sep)
    return len(parts) == 4 and parts[2] in ("specs", "proofs")


def snake(name):
    s = name.replace("-", "_")
    s = re.sub(r"(?<=[a-z0-9'ₐ-ₜ])(?=[A-Z])", "_", s)
    s = re.sub(r"(?<=[A-Z])(?=[A-Z][a-z])", "_", s)
    return s.lower()


def declared():
    names = set()
    for p in files(".antt"):
        if not own(p):
            continue
        with open(p, encoding="utf-8") as f:
            for line in f:
                m = SIGNATURE.match(line)
                if m and m[1] not in KEYWORDS:
                    names.add(m[1])
    return names


def table(names):
    to = {}
    for n in sorted(names):
        if not n[0].isalpha() or n[0].isupper() or "◌" in n or "->" in n or "→" in n:
            continue
        new = TOGETHER.get(n) or snake(n)
        if new != n:
            to[n] = new
    return to


def turn(text, to, made=None):
    """The text with each word of the table turned; behind a dot only words of `made`, where that is given."""

    def one(m):
        w = m[0]
        if w not in to:
            return w
        dotted = m.start() and text[m.start() - 1] == "."
        if dotted and made is not None and (w not in made or "_" in w):
            return w
        if dotted and text[: m.start()].endswith("proofs."):
            return w
        return to[w]

    return WORD.sub(one, text)


def comment(text, prose, to):
    """A comment, in which words with a dash turn only between backquotes."""
    return beside(SPAN, text, lambda t: turn(t, prose), lambda t: turn(t, to))


def beside(pattern, text, f, g):
    """The text with g of what the pattern finds, and f of what is between."""
    out, at = [], 0
    for m in pattern.finditer(text):
        out += [f(text[at : m.start()]), g(m[0])]
        at = m.end()
    return "".join(out + [f(text[at:])])


def outside(pattern, text, f):
    return beside(pattern, text, f, lambda t: t)


def main():
    names = declared()
    to = table(names)
    # no two names fall together, and none meets a name that is there already
    seen = {}
    bad = []
    for old, new in to.items():
        if new in names:
            if new not in to:
                bad.append((old, new, "declared"))
        if new in seen:
            bad.append((old, new, seen[new]))
        seen[new] = old
    if "--list" in sys.argv:
        for old, new in sorted(to.items()):
            print(old, new)
    for b in bad:
        print("together:", *b, file=sys.stderr)
    if "--list" in sys.argv:
        return
    # pages and edits still have the names that port.py turned
    pages = dict(to)
    for p in files((".md", ".edit")):
        with open(p, encoding="utf-8") as f:
            for w in WORD.findall(f.read()):
                if re.fullmatch(r"[a-z][\w'-]*", w) and w not in to and snake(w) != w and snake(w) in names:
                    pages[w] = snake(w)
    code = {w: n for w, n in to.items() if "_" not in w}
    for p in files((".antt", ".rt", ".edit", ".md")):
        with open(p, encoding="utf-8") as f:
            text = f.read()
        prose = {w: n for w, n in pages.items() if "-" not in w and "_" not in w}
        if p.endswith(".md"):
            new = SPAN.sub(lambda m: turn(m[0], pages), text)
        elif p.endswith(".edit"):
            new = beside(EDIT, text, lambda t: turn(t, pages), lambda t: comment(t, prose, pages))
        elif p.endswith(".antt") and not own(p):
            new = beside(DASHES, text, lambda t: turn(t, to, names), lambda t: comment(t, prose, to))
        elif p.endswith(".rt"):
            rest = lambda t: outside(STRING, t, lambda t: turn(t, code))
            new = beside(SLASHES, text, rest, lambda t: comment(t, prose, to))
            new = CLAUSES.sub(lambda m: turn(m[0], to), new)
        else:
            new = beside(DASHES, text, lambda t: turn(t, to), lambda t: comment(t, prose, to))
        if new != text:
            with open(p, "w", encoding="utf-8") as f:
                f.write(new)


main()
