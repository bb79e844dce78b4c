#!/usr/bin/env python3
"""Writes what the program gate_replay must write (crates/gate_replay/stdout) for the texts of crates/gate_replay/data/texts, one to a line: the line's first
64 bytes, the listing that the comparison's reading of document 01 gives (compare/run listing), and an empty line."""
import os
import subprocess
import sys

TOP = os.path.dirname(os.path.dirname(os.path.abspath(__file__)))


def main():
    with open(os.path.join(TOP, "crates", "gate_replay", "data", "texts"), "rb") as f:
        texts = f.read().split(b"\n")[:-1]
    for text in texts:
        said = subprocess.run([os.path.join(TOP, "compare", "run"), "listing"], input=text, capture_output=True, check=True)
        sys.stdout.buffer.write(text[:64] + b"\n" + said.stdout + b"\n")


if __name__ == "__main__":
    main()
