#!/usr/bin/env python3
"""Brings the repository's own definitions and lemmas to one spelling: words in snake case, without dashes and inner capitals.

    python3 tools/respell.py        at the top, once, right after the toolchain's port.py

A name is respelled where crates/ declares it in specs/ or in a file of laws in proofs/: `branchesOf` becomes `branches_of`, `turn-jump`
`turn_jump`. A law that would then have its function's name ends in `_lem`. Types, modules, what the toolchain declares or makes, names of
src/ and exported names stay. Must-fail edits and names between backquotes in pages follow.
"""
import collections
import glob
import os
import re

# laws whose new spelling is a definition's, and names that keep theirs since a library has the same
LAWS = {
    "all-below": "all_below_lem", "bit-and": "bit_and_lem", "bit-or": "bit_or_lem", "is-byte": "is_byte_lem", "is-plain": "is_plain_lem",
    "list-of": "list_of_lem", "second-of": "second_of_lem", "up-to": "up_to_lem", "jump-first": "jump_is_first", "jump-last": "jump_is_last",
}
# laws that have the spelling already which a definition takes now
TAKEN = {n: n + "_lem" for n in ("all_sound", "at_bound", "bytes_left", "closed_at", "flat_word", "not_at", "range_at", "run_end")}
KEPT = {"or-false", "zero-add"}

DECLARED = re.compile(r"^\s*(?:(?:abbrev|unfoldable|pub|mutual|ruleset|private|data|record|unfolding)\s+)*([^\s(){}\[\].,;:]+)(?:\s+[({].*?[)}])*\s+:(?:\s|$)")


def antt():
    return sorted(p for d in ("specs", "proofs") for p in glob.glob(f"crates/*/{d}/**/*.antt", recursive=True))


def snake(name):
    return re.sub(r"([a-z0-9])([A-Z])", lambda m: m.group(1) + "_" + m.group(2).lower(), name).replace("-", "_")


def names():
    found = set()
    for p in antt():
        if p.endswith("Proof.antt"):
            continue
        with open(p, encoding="utf-8") as f:
            found |= {m.group(1) for line in f if (m := DECLARED.match(line))}
    turned = {n for n in found if n[0].islower() and n not in KEPT and ("-" in n or re.match(r"[a-z][a-z0-9]*[A-Z]", n))}
    same = collections.Counter(snake(n) for n in turned)
    to = {}
    for n in turned:
        s = snake(n)
        to[n] = LAWS.get(n) or (s + "_lem" if same[s] > 1 and "-" in n else s)
    for a, b in to.items():
        if b in found and b not in TAKEN and b not in ("too_many",):
            raise SystemExit(f"{a}: there is a {b} already")
    if len(set(to.values())) < len(to):
        raise SystemExit("two names fall together: " + str([b for b, n in collections.Counter(to.values()).items() if n > 1]))
    return to


def pattern(words):
    return re.compile(r"(?<![\w'-])(" + "|".join(sorted(map(re.escape, words), key=len, reverse=True)) + r")(?![\w'-])")


def main():
    to = names()
    new, taken = pattern(to), pattern(TAKEN)
    # a place of the code, or a function's folder, is not the law of that name
    place = re.compile(r"(?:before|\bc|proofs)\.$")

    def turn(text, laws):
        def one(m):
            return to[m.group(1)]

        def two(m):
            return m.group(1) if place.search(text[max(0, m.start() - 8):m.start()]) else TAKEN[m.group(1)]

        if laws:
            text = taken.sub(two, text)
        return new.sub(one, text)

    changed = 0
    files = [(p, True) for p in antt()] + [(p, False) for p in glob.glob("crates/*/src/**/*.rt", recursive=True)]
    for p in glob.glob("crates/*/must-fail/*.edit"):
        with open(p, encoding="utf-8") as f:
            files.append((p, ".antt" in f.read()))
    for p, laws in files:
        with open(p, encoding="utf-8") as f:
            old = f.read()
        text = turn(old, laws)
        if text != old:
            changed += 1
            with open(p, "w", encoding="utf-8") as f:
                f.write(text)
    # what port.py respelled in crates/ but not in edits and pages
    with_new = set()
    for p in antt():
        with open(p, encoding="utf-8") as f:
            with_new |= {m.group(1) for line in f if (m := DECLARED.match(line))}
    older = re.compile(r"(?<![\w'./-])([a-z][A-Za-z0-9]*(?:-[a-z0-9]+)+|[a-z][a-z0-9]*[A-Z]\w*)(?![\w'/-])")

    def follow(text):
        return older.sub(lambda m: snake(m.group(1)) if snake(m.group(1)) in with_new else m.group(1), new.sub(lambda n: to[n.group(1)], text))

    for p in glob.glob("crates/*/must-fail/*.edit"):
        with open(p, encoding="utf-8") as f:
            old = f.read()
        head, rest = old.split("file:", 1)
        text = head + "file:" + follow(rest)
        if text != old:
            changed += 1
            with open(p, "w", encoding="utf-8") as f:
                f.write(text)
    quoted = re.compile(r"`[^`\n]+`")
    for p in glob.glob("*.md") + glob.glob("docs/**/*.md", recursive=True) + glob.glob("crates/*/*.md") + glob.glob("compare/**/*.md", recursive=True):
        with open(p, encoding="utf-8") as f:
            old = f.read()
        text = quoted.sub(lambda m: follow(m.group(0)), old)
        if text != old:
            changed += 1
            with open(p, "w", encoding="utf-8") as f:
                f.write(text)
    print(f"{len(to) + len(TAKEN)} names, {changed} files")
    os.makedirs("target", exist_ok=True)
    with open("target/respelled.txt", "w", encoding="utf-8") as f:
        f.writelines(f"{a} {b}\n" for a, b in sorted({**to, **TAKEN}.items()))


if __name__ == "__main__":
    main()
