"""What a refusal says: its meaning is the header's, and its message that of bindings/messages.tsv, as in Rust."""
import copy
import os
import pickle
import re
import unittest

import tokenmarsh
from tokenmarsh import Leftover, Refusal, Refused

TOP = os.path.dirname(os.path.dirname(os.path.dirname(os.path.abspath(__file__))))
DOORS = {"read": tokenmarsh.read, "compile": tokenmarsh.compile, "literals": tokenmarsh.literals, "strict": lambda text: tokenmarsh.compile(text, strict=True)}


def file(path):
    with open(os.path.join(TOP, path), encoding="utf-8") as f:
        return f.read()


def meanings():
    """The meanings of the header's table by their numbers: each row's first words, up to a colon, a semicolon, a parenthesis or the column of places."""
    rows = {}
    for line in file("include/tokenmarsh.h").split(" */")[0].split("\n"):
        row, more = re.match(r" \* {3,4}(\d+)  (.*?)(?:  |$)", line), re.match(r" \* {7}(\S.*?)(?:  |$)", line)
        if row:
            rows[int(row[1])] = row[2]
        elif more:
            rows[max(rows)] += " " + more[1]
    return {number: re.split(r"[:;(]", words)[0].rstrip() for number, words in rows.items()}


def pattern(written):
    """A pattern as the table writes it."""
    signs = re.sub(r"\\(?:x(..)|n)", lambda m: chr(int(m[1], 16)) if m[1] else "\n", written)
    return re.sub(r"<([^<>*]*)\*(\d+)>", lambda m: m[1] * int(m[2]), signs).encode("latin-1")


class Messages(unittest.TestCase):
    def test_meanings_are_the_headers(self):
        self.assertEqual({refusal.value: refusal.meaning for refusal in Refusal}, meanings())
        self.assertEqual([refusal.value for refusal in Refusal], list(range(1, 20)))

    def test_messages_are_those_of_the_table(self):
        numbers = set()
        for row in file("bindings/messages.tsv").splitlines():
            if row.startswith("#"):
                continue
            door, written, message, *mended = row.split("\t")
            with self.assertRaises(Refused, msg=row) as caught:
                DOORS[door](pattern(written))
            # also of one that has travelled
            for one in (caught.exception, copy.copy(caught.exception), pickle.loads(pickle.dumps(caught.exception))):
                self.assertEqual(str(one), message)
                # what a token's place says of 12 and 19 stands in the words as well
                self.assertEqual(one.token is not None, one.number in (12, 19), row)
                self.assertIn("" if one.token is None else f" at {one.token}", message)
            for text in mended:
                DOORS[door](pattern(text))
            numbers.add(caught.exception.number)
        # those that no text has are 15, 16 and 18
        self.assertEqual(numbers, set(range(1, 20)) - {15, 16, 18} | {None})

    def test_without_a_place_none_is_told(self):
        for number in (*range(1, 20), 255):
            self.assertEqual(" at 0" in str(Refused(number)), 2 <= number <= 11, number)

    def test_an_unknown_number_is_refused(self):
        one = Refused(255)
        self.assertEqual((one.number, one.refusal, str(one)), (255, None, f"refused 255: unknown to version {tokenmarsh.__version__}"))

    def test_strict_refuses_what_follows(self):
        for door in (tokenmarsh.read, tokenmarsh.compile, tokenmarsh.literals):
            self.assertEqual(door(b"{ 4D 5A } 90 00 }").reached, 10)
            with self.assertRaises(Leftover) as caught:
                door(b"{ 4D 5A } 90 00 }", strict=True)
            self.assertEqual((caught.exception.place, caught.exception.refusal), (10, None))
            # blanks may follow
            self.assertEqual(door(b"{ 4D 5A } \t\r\n", strict=True), door(b"{ 4D 5A } \t\r\n"))
            self.assertEqual(door(b"{ 4D 5A } \t\r\n").reached, 13)


if __name__ == "__main__":
    unittest.main()
