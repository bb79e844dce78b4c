#!/usr/bin/env python3
"""Says where a pattern matches in a file, without a check at every offset.

    python3 find.py '{ 4D 5A [0-64] 50 45 00 00 }' FILE

Every match holds one of the pattern's literals. So the file is searched for these, and checked only at the offsets from which a match can reach to
one.
"""
import heapq
import os
import sys
from typing import Iterable, Iterator, Sequence, Tuple

import tokenmarsh


def longest(words: Sequence[int]) -> int:
    """The bytes of the longest match of some node words."""
    total, i = 0, 0
    while i < len(words):
        kind, a, b = words[i] & 255, words[i] >> 8 & 65535, words[i] >> 24 & 65535
        i += 1
        if kind == 6:
            most, end = 0, i + a
            while i < end:
                nodes = words[i] >> 8 & 65535
                most = max(most, longest(words[i + 1:i + 1 + nodes]))
                i += 1 + nodes
            total += most
        else:
            total += a if kind == 3 else b if kind == 4 else 1
    return total


def places(literal: bytes, haystack: bytes) -> Iterator[int]:
    """Where a literal begins."""
    at = haystack.find(literal)
    while at >= 0:
        yield at
        at = haystack.find(literal, at + 1)


def find(text: bytes, haystack: bytes) -> Iterator[Tuple[int, int]]:
    """Each offset from which the forward check finds an end, rising, with that end."""
    words = tokenmarsh.compile(text, strict=True).forward.words
    try:
        literals = set(tokenmarsh.literals(text).literals)
    except tokenmarsh.Refused:
        # What compiles is refused here by 17 or 19 alone. Then, as where none are picked, it is checked at every offset.
        literals = set()
    reach = 0
    candidates: Iterable[int] = range(len(haystack))
    if literals:
        # A match that holds a literal starts at most so far before it.
        reach = longest(words) - min(map(len, literals))
        candidates = heapq.merge(*(places(one, haystack) for one in literals))
    checked = 0
    for at in candidates:
        for start in range(max(checked, at - reach), at + 1):
            end = tokenmarsh.forward(words, haystack, start, len(haystack))
            if end is not None:
                yield start, end
        checked = at + 1


def main() -> int:
    if len(sys.argv) != 3:
        print("usage: find.py PATTERN FILE", file=sys.stderr)
        return 2
    try:
        with open(sys.argv[2], "rb") as f:
            haystack = f.read()
        try:
            for start, end in find(os.fsencode(sys.argv[1]), haystack):
                print(start, end)
            sys.stdout.flush()
        except OSError as error:
            # What is still in the buffer would be tried again at the end.
            os.dup2(os.open(os.devnull, os.O_WRONLY), sys.stdout.fileno())
            # A reader that goes away has had enough, and is told nothing.
            if isinstance(error, BrokenPipeError):
                return 141
            print("standard output cannot be written:", error, file=sys.stderr)
            return 1
    except (OSError, tokenmarsh.Refused) as error:
        print(error, file=sys.stderr)
        return 1
    return 0


if __name__ == "__main__":
    sys.exit(main())
