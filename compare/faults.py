#!/usr/bin/env python3
"""Puts one fault at a time into the third reading of document 01, whose rules stand in docs/RULES.md (src/model.rs and what it shares: src/sides.rs, src/listing.rs), runs the faulty reading over
everything that the gate stores (texts with haystacks, listings, pools, programs with windows), and holds its answers to the stored ones. A misreading that sits in definition and
code alike is seen by stored answers alone, so each fault must change one of them, or be excused: equal to the right reading on all inputs, for a reason that is written
beside it. Needs rustc and nothing of the original.

    compare/faults.py              all faults; the last line has the counts
    compare/faults.py -v           also a line for each: the gate's program and the first stored input that tells it
    compare/faults.py NAME..       these faults only (as -v)

The exit status is 1 if a fault is neither told nor excused, if one that is excused is told, if a fault's old text does not stand in its file exactly once or the new one does
not compile, or if the reading without a fault does not give every stored answer.

The faults stand in faults/*.txt, with a blank line after each; a line that begins with # is a heading.

    fault: NAME
    01: what the document says (01, or 02 where a request has changed it), and after 'here' the misreading
    file: the file in src/, unless it is model.rs
    old: a line, or a part of one, that stands there once; several for lines that follow each other
    new: what is put in its place; old and new may come again
    equal: why both readings give the same answer to every input, if they do
    each: KEY=VALUE ..    a fault for each, with <key> and <value> in the other lines replaced
"""
import concurrent.futures
import os
import re
import subprocess
import sys
import tempfile

TOP = os.path.dirname(os.path.dirname(os.path.abspath(__file__)))
SRC = os.path.join(TOP, "compare", "src")
LISTS = ("reading", "programs", "checks", "literals")
PARTS = ("stored", "model", "sides", "listing", "sample", "pools", "checkings")
# Seconds for one run over the stored inputs; the right reading takes a fraction of one.
MOST = 20


def stanzas(text):
    """The lines of each fault, as pairs of a word and what follows it."""
    for block in re.split(r"\n\s*\n", text):
        lines = [line for line in block.split("\n") if line and not line.startswith("#")]
        if lines:
            yield [(word, rest[1:]) for word, _, rest in (line.partition(":") for line in lines)]


def edits(lines):
    """The pairs of old and new text, in their order."""
    pairs, last = [], None
    for word, rest in lines:
        if word == "old" and last != "old":
            pairs.append(([], []))
        if word in ("old", "new"):
            pairs[-1][word == "new"].append(rest)
        last = word
    return [("\n".join(old), "\n".join(new)) for old, new in pairs]


def faults():
    """Each fault as a dict, those of an `each` apart."""
    for name in LISTS:
        with open(os.path.join(TOP, "compare", "faults", name + ".txt"), encoding="utf-8") as f:
            for lines in stanzas(f.read()):
                values = dict(lines)
                for pair in values.get("each", "=").split():
                    key, _, value = pair.partition("=")
                    filled = [(word, rest.replace("<key>", key).replace("<value>", value)) for word, rest in lines if word != "each"]
                    known = dict(filled)
                    unknown = set(known) - {"fault", "01", "file", "old", "new", "equal"}
                    if unknown or not known.get("fault") or not known.get("01"):
                        sys.exit(f"faults: {name}.txt: not a fault: {lines[0]} {sorted(unknown)}")
                    yield {"name": known["fault"], "file": known.get("file", "model.rs"), "edits": edits(filled), "equal": known.get("equal")}


def sources():
    """The text of each file that takes part."""
    texts = {}
    for part in PARTS:
        with open(os.path.join(SRC, part + ".rs"), encoding="utf-8") as f:
            texts[part + ".rs"] = f.read()
    return texts


def faulty(texts, fault):
    """The sources with a fault put in, or what is wrong with it."""
    text = texts.get(fault["file"], "")
    for old, new in fault["edits"]:
        if text.count(old) != 1:
            return None, f"stands {text.count(old)} times in {fault['file']}: {old.strip()}"
        text = text.replace(old, new)
    if not fault["edits"] or text == texts.get(fault["file"], ""):
        return None, "changes nothing"
    return dict(texts, **{fault["file"]: text}), None


def answers(texts):
    """What a reading answers to each stored input: (program, input, answer), and how it ended if not well."""
    work = os.path.join(TOP, "target", "faults")
    os.makedirs(work, exist_ok=True)
    with tempfile.TemporaryDirectory(dir=work) as folder:
        for name, text in texts.items():
            with open(os.path.join(folder, name), "w", encoding="utf-8") as f:
                f.write(text)
        command = ["rustc", "--edition", "2021", "-A", "warnings", "-C", "opt-level=0", "-C", "panic=abort", "-o", "reading", "stored.rs"]
        made = subprocess.run(command, cwd=folder, capture_output=True, text=True)
        if made.returncode != 0:
            return None, "does not compile: " + made.stderr.strip().split("\n")[0]
        with open(os.path.join(folder, "out"), "w+b") as out:
            try:
                run = subprocess.run([os.path.join(folder, "reading"), TOP], stdout=out, stderr=subprocess.DEVNULL, timeout=MOST)
                end = "panics" if run.returncode != 0 else None
            except subprocess.TimeoutExpired:
                end = "does not end"
            out.seek(0)
            return list(taken_apart(out.read())), end


def taken_apart(out):
    """What the program stored writes: a line with the gate's program, the answer's length and the input, and the answer."""
    at = 0
    while at < len(out):
        end = out.index(b"\n", at)
        program, length, named = out[at:end].decode("ascii").split(" ", 2)
        at = end + 1 + int(length)
        yield program, named, out[end + 1 : at]


def unlike_stored(right):
    """The programs for which the right reading does not write what is stored."""
    wrong = []
    for program in dict.fromkeys(program for program, _, _ in right):
        with open(os.path.join(TOP, "crates", program, "stdout"), "rb") as f:
            if b"".join(answer for p, _, answer in right if p == program) != f.read():
                wrong.append(program)
    return wrong


def tried(texts, right, fault):
    """What became of a fault: a word for the count, and a line."""
    changed, wrong = faulty(texts, fault)
    got, end = answers(changed) if changed else (None, wrong)
    if got is None:
        return "wrong", end
    at = next((i for i, (mine, due) in enumerate(zip(got, right)) if mine != due), min(len(got), len(right)))
    if at == len(right):
        return ("equal", fault["equal"]) if fault["equal"] else ("wrong", "changes no stored answer")
    program, named, _ = right[at]
    line = f"{program}: {named}" + (f" ({end})" if end and at == len(got) else "")
    return ("wrong", "is excused, and told by " + line) if fault["equal"] else (program, line)


def main():
    wanted = [word for word in sys.argv[1:] if not word.startswith("-")]
    loud = "-v" in sys.argv[1:] or bool(wanted)
    texts, all_faults = sources(), list(faults())
    names = [fault["name"] for fault in all_faults]
    strange = [word for word in wanted if word not in names] + sorted({name for name in names if names.count(name) > 1})
    if strange:
        sys.exit("faults: not the name of one fault: " + " ".join(strange))
    right, end = answers(texts)
    if end:
        sys.exit(f"faults: the reading itself {end}")
    unlike = unlike_stored(right)
    if unlike:
        sys.exit("faults: the reading does not give what is stored for " + ", ".join(unlike))
    chosen = [fault for fault in all_faults if not wanted or fault["name"] in wanted]
    counts = {}
    with concurrent.futures.ThreadPoolExecutor(os.cpu_count()) as pool:
        for fault, (word, line) in zip(chosen, pool.map(lambda fault: tried(texts, right, fault), chosen)):
            counts[word] = counts.get(word, 0) + 1
            if loud or word == "wrong":
                print(f"{fault['name']}: {word.upper() + ' ' if word in ('wrong', 'equal') else ''}{line}", flush=True)
    told = {word: n for word, n in counts.items() if word not in ("wrong", "equal")}
    by = ", ".join(f"{n} by {word}" for word, n in told.items())
    inputs = sum(not named.startswith("#") for _, named, _ in right)
    print(f"faults: {len(chosen)} tried on {inputs} stored inputs, {sum(told.values())} told ({by}), {counts.get('equal', 0)} equal on all inputs, {counts.get('wrong', 0)} wrong")
    return 1 if counts.get("wrong") else 0


if __name__ == "__main__":
    sys.exit(main())
