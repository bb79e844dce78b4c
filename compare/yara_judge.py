#!/usr/bin/env python3
"""A second judge: YARA itself (yara 4.2 on the path) on generated patterns without `~`.

For each pattern and haystack, the offsets at which YARA finds the pattern must be the starts from
which our forward check finds an end (the original's check where our library is not linked).

    BOREAL_SRC=.. compare/yara_judge.py [SEED [HAYSTACKS [PATTERNS EACH]]]
"""
import itertools
import os
import pathlib
import re
import subprocess
import sys
import tempfile

RUN = pathlib.Path(__file__).resolve().parent / "run"


def compare(*args, text=None):
    done = subprocess.run([RUN, *args], input=text, capture_output=True, text=True, check=True)
    return done.stdout.splitlines()


def yara(rules, hay):
    """The offsets by rule, or None where YARA refuses the rules."""
    done = subprocess.run(["yara", "-w", "-s", rules, hay], capture_output=True, text=True)
    if done.returncode != 0 or "error" in done.stderr:
        return None
    found, rule = {}, None
    for line in done.stdout.splitlines():
        if line.startswith("0x"):
            found[rule].add(int(line.split(":")[0], 16))
        else:
            rule = line.split(" ")[0]
            found[rule] = set()
    return found


def rule(number, pattern):
    # YARA does not know `[-b]`, which the original reads as `[0-b]`, and has no jump at a bound, where `[1]` is a `??` to the original.
    pattern = re.sub(r"\[\s*-\s*(\d)", r"[0-\1", pattern)
    pattern = re.sub(r"\[\s*0*1\s*(-\s*0*1\s*)?\]", "??", pattern)
    return f"rule r{number} {{ strings: $a = {pattern} condition: $a }}\n"


def together(folder, patterns):
    """For each pattern its offsets in the folder's haystack, or None where YARA does not take them all."""
    rules = folder / "rules"
    rules.write_text("".join(rule(n, p) for n, p in enumerate(patterns)))
    found = yara(rules, folder / "hay")
    return None if found is None else [found.get(f"r{n}", set()) for n in range(len(patterns))]


def offsets(folder, hay, patterns, ours):
    """For each pattern its offsets, or None where YARA does not take it. Those that we take are asked together; each other one by itself,
    for it mostly spoils the rules that it stands among."""
    (folder / "hay").write_bytes(bytes.fromhex(hay))
    answers = [None] * len(patterns)
    taken = [n for n, answer in enumerate(ours) if not answer.startswith("refused")]
    found = together(folder, [patterns[n] for n in taken])
    for n, offsets in zip(taken, found or []):
        answers[n] = offsets
    for n in range(len(patterns)):
        if (found is None or n not in taken) and ours[n] != "refused 12":
            answers[n] = (together(folder, [patterns[n]]) or [None])[0]
    return answers


def main():
    if not os.environ.get("BOREAL_SRC"):
        print("comparison: not run\nSet BOREAL_SRC; see compare/run.")
        return 0
    seed, haystacks, each = (sys.argv[1:] + ["1", "40", "50"][len(sys.argv) - 1:])[:3]
    lines = compare("patterns", seed, haystacks, each)
    ours = compare("starts", text="\n".join(lines) + "\n")
    counts = dict.fromkeys(["equal", "of these with a match", "not simple", "refused by both",
                            "refused by us alone", "refused by YARA alone", "differ"], 0)
    shown = 0
    pairs = [(*line.split(" ", 1), answer) for line, answer in zip(lines, ours, strict=True)]
    with tempfile.TemporaryDirectory() as name:
        for hay, group in itertools.groupby(pairs, key=lambda pair: pair[0]):
            group = list(group)
            _, patterns, answers = zip(*group)
            theirs = offsets(pathlib.Path(name), hay, patterns, answers)
            for (_, pattern, answer), judged in zip(group, theirs, strict=True):
                outcome = judge(answer, judged)
                counts[outcome] += 1
                counts["of these with a match"] += outcome == "equal" and bool(judged)
                if outcome in ("differ", "refused by us alone", "refused by YARA alone") and shown < 20:
                    shown += 1
                    print(f"  {outcome}: {pattern} on {hay}\n    ours {answer}, YARA {judged}")
    print(f"YARA on {len(pairs)} patterns, seed {seed}:", ", ".join(f"{k} {n}" for k, n in counts.items()))
    return 1 if counts["differ"] else 0


def judge(answer, judged):
    if answer == "refused 12":
        return "not simple"
    if answer.startswith("refused"):
        return "refused by both" if judged is None else "refused by us alone"
    if judged is None:
        return "refused by YARA alone"
    return "equal" if {int(n) for n in answer.split()} == judged else "differ"


if __name__ == "__main__":
    sys.exit(main())
