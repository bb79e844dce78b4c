"""What the module makes of a library that answers what its own never does: over the shared library that bindings/standin builds of bindings/c/standin.c."""
import os
import subprocess
import sys
import unittest

import tokenmarsh

HERE = os.path.dirname(os.path.abspath(__file__))
STANDIN = os.path.join(HERE, "..", "..", "target", "bindings", "libstandin.so")
# A process of its own, since the library is loaded once: what each call comes to, a line each.
CALLS = """
import tokenmarsh
program, back = tokenmarsh.Forward([]), tokenmarsh.Reverse([])
for name, call in (("read", lambda: tokenmarsh.read(b"{ 61 }")), ("compile", lambda: tokenmarsh.compile(b"{ 61 }")), ("literals", lambda: tokenmarsh.literals(b"{ 61 }")),
                   ("end", lambda: program.end(b"a")), ("tail", lambda: program.tail(b"a")), ("start", lambda: back.start(b"a")), ("mirror", program.mirror)):
    try:
        print(f"{name}: {call()}")
    except Exception as error:
        print(f"{name}: {type(error).__name__}: {error}")
"""


class Standin(unittest.TestCase):
    maxDiff = None

    def said(self, answers):
        self.assertTrue(os.path.exists(STANDIN), "the stand-in is built by `make test`")
        env = dict(os.environ, TOKENMARSH_SO=STANDIN, STANDIN=answers, PYTHONPATH=HERE)
        done = subprocess.run([sys.executable, "-c", CALLS], env=env, stdout=subprocess.PIPE, stderr=subprocess.PIPE, text=True, timeout=60)
        return done.returncode, done.stdout.splitlines(), done.stderr.splitlines()[-1:]

    def test_an_unknown_refusal_is_one(self):
        due = [f"{name}: Refused: refused 255: unknown to version {tokenmarsh.__version__}" for name in ("read", "compile", "literals", "end", "tail", "start", "mirror")]
        self.assertEqual(self.said("refuses"), (0, due, []))

    def test_high_numbers_are_no_answer(self):
        most = {"read": 4096, "compile": 512, "literals": 256, "end": 1, "tail": 1, "start": 1, "mirror": 512}
        high = {name: (1 << 32) - 1 if name in ("end", "tail", "start") else (1 << 64) - 1 for name in most}
        due = [f"{name}: RuntimeError: libtokenmarsh broke its contract: {high[name]} where {most[name]} is the most" for name in most]
        self.assertEqual(self.said("raves"), (0, due, []))

    def test_another_version_is_not_imported(self):
        major, minor, patch = tokenmarsh.__version__.split(".")
        why = f"is of version {major}.{int(minor) + 1}.{patch}, and this module of {tokenmarsh.__version__}"
        self.assertEqual(self.said("other"), (1, [], [f"ImportError: libtokenmarsh in {os.path.abspath(STANDIN)} {why}"]))


if __name__ == "__main__":
    unittest.main()
