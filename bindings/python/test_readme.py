"""What README.md says of patterns is so."""
import os
import re
import unittest

import tokenmarsh

TOP = os.path.dirname(os.path.dirname(os.path.dirname(os.path.abspath(__file__))))
with open(os.path.join(TOP, "README.md"), encoding="utf-8") as f:
    README = f.read()


def number(door, text):
    """A refusal's number, or 0."""
    try:
        door(text.encode())
        return 0
    except tokenmarsh.Refused as refused:
        return refused.refusal.value


class Patterns(unittest.TestCase):
    def test_the_table_of_the_syntax(self):
        section = README[README.index("### Write a pattern"):]
        table = section[section.index("|---"):section.index("\n\n", section.index("|---"))]
        seen = {}
        for row in table.split("\n")[1:]:
            syntax, _, said = (cell.strip() for cell in re.split(r"(?<!\\)\|", row)[1:4])
            due = re.match(r"(taken|refused|read but not compiled)(?: \((\d+)\))?", said)
            # What follows the brace, or precedes the other one, is told in words.
            for spelt in re.findall(r"`([^`]+)`", syntax) if due and "the `" not in syntax else ():
                text = re.sub(r"\bn\b", "3", spelt.replace("\\|", "|").replace("..", "EF"))
                text = re.sub(r"\ba\b", "2", re.sub(r"\bb\b", "4", text))
                text = text if text.startswith("{") else f"{{ 01 {text} 02 }}"
                refused = int(due[2] or 0)
                self.assertEqual(number(tokenmarsh.compile, text), refused, text)
                self.assertEqual(number(tokenmarsh.read, text), refused if due[1] == "refused" else 0, text)
                seen[due[1]] = seen.get(due[1], 0) + 1
        self.assertEqual(seen, {"taken": 12, "read but not compiled": 4, "refused": 16})

    def test_what_stands_about_the_braces(self):
        for before in (" ", "\t", "\n", "\ufeff", "// a\n", "/* a */"):
            self.assertEqual(number(tokenmarsh.read, before + "{ 41 }"), 2)
        self.assertEqual(tokenmarsh.read(b"{ 41 } // a").reached, 7)

    def test_the_limits(self):
        limits = re.search(r"The limits.*?\n\n", README, re.DOTALL)[0]
        for text, longer, said, refusal in (
            ("{41" + " " * 4092 + "}", "{41" + " " * 4093 + "}", "4,096 bytes", 1),
            ("{" + "41" * 512 + "}", "{" + "41" * 513 + "}", "512 tokens", 11),
            ("{ 41 " + "(" * 7 + "41" + ")" * 7 + "}", "{ 41 " + "(" * 8 + "41" + ")" * 8 + "}", "8 levels", 10),
            ("{" + "(41)" * 170 + "4141}", "{" + "(41)" * 171 + "}", "512 nodes", 13),
            ("{(" + "41" * 255 + ")}", "{(" + "41" * 256 + ")}", "255 in a branch", 14),
        ):
            self.assertRegex(limits, f"{said}[^(]*\\({refusal}\\)")
            self.assertIn(number(tokenmarsh.compile, text), (0, 12))
            self.assertEqual(number(tokenmarsh.compile, longer), refusal)

    def test_literals_that_are_refused(self):
        self.assertEqual(tokenmarsh.literals(b"{ ?? [2] ?? }").literals, ())
        self.assertEqual(number(tokenmarsh.literals, "{" + 2 * ("(" + 16 * "41|" + "42)") + "}"), 17)
        whole, *parts = re.findall(r"`(\{ 4D (?!5A [\[}])[^`]*)`", README)
        self.assertEqual([number(tokenmarsh.literals, text) for text in (whole, *parts)], [19, 0, 0])
        self.assertEqual(number(tokenmarsh.compile, whole), 0)


if __name__ == "__main__":
    unittest.main()
