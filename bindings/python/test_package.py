"""The package as a project: its hints, its version, and what it says where the library is not to be had."""
import importlib.util
import inspect
import os
import re
import subprocess
import sys
import tempfile
import typing
import unittest

import _ctypes
import tokenmarsh

HERE = os.path.dirname(os.path.abspath(__file__))
TOP = os.path.dirname(os.path.dirname(HERE))


def functions():
    """Every function, method and property that the package offers and that is written in it."""
    for name in tokenmarsh.__all__:
        thing = getattr(tokenmarsh, name)
        inside = vars(thing).values() if inspect.isclass(thing) else [thing]
        for one in inside:
            one = one.fget if isinstance(one, property) else getattr(one, "__func__", one)
            if inspect.isfunction(one) and one.__code__.co_filename == tokenmarsh.__file__:
                yield one


def found(path, name):
    """What the only line of a file has in that expression's place."""
    with open(os.path.join(TOP, path), encoding="utf-8") as f:
        one, = re.findall(name, f.read(), re.MULTILINE)
    return one


class Package(unittest.TestCase):
    def test_what_is_offered_has_hints(self):
        seen = 0
        for one in functions():
            hints = typing.get_type_hints(one)
            for name in list(inspect.signature(one).parameters) + ["return"]:
                if name not in ("self", "cls"):
                    self.assertIn(name, hints, one.__qualname__)
            seen += 1
        self.assertGreater(seen, 15)
        self.assertTrue(os.path.isfile(os.path.join(HERE, "tokenmarsh", "py.typed")))

    @unittest.skipUnless(importlib.util.find_spec("mypy"), "no mypy at hand")
    def test_hints_hold(self):
        with tempfile.TemporaryDirectory() as folder:
            subprocess.run([sys.executable, "-m", "mypy", "--strict", "--cache-dir", folder, "-p", "tokenmarsh"], cwd=HERE, check=True)

    def test_one_version(self):
        header = ".".join(found("include/tokenmarsh.h", rf"^#define TM_VERSION_{part} (\d+)$") for part in ("MAJOR", "MINOR", "PATCH"))
        self.assertEqual(tokenmarsh.__version__, header)
        self.assertEqual(tokenmarsh.__version__, found("bindings/rust/Cargo.toml", r'^version = "(.*)"$'))

    def imported(self, path, cwd=HERE):
        env = dict(os.environ, TOKENMARSH_SO=path, PYTHONPATH=HERE)
        done = subprocess.run([sys.executable, "-c", "import tokenmarsh; print(tokenmarsh._lib._name)"], cwd=cwd, env=env, capture_output=True, text=True)
        return done.returncode, (done.stdout or done.stderr).rstrip().split("\n")[-1]

    def test_a_wrong_library_is_an_import_error_that_names_the_file(self):
        with tempfile.TemporaryDirectory() as folder:
            text = os.path.join(folder, "a text.so")
            with open(text, "w", encoding="utf-8") as f:
                f.write("no library\n" * 100)
            # none there, none at all, a folder, and a library, but another one
            for path in (os.path.join(folder, "none"), text, folder, _ctypes.__file__):
                status, said = self.imported(path)
                self.assertEqual((status, said.split(",")[0]), (1, f"ImportError: no tokenmarsh library in {path}"))

    def test_the_library_may_be_named_from_here(self):
        built = os.path.join(TOP, "target", "staticlib")
        self.assertEqual(self.imported("libtokenmarsh.so", built), (0, os.path.join(built, "libtokenmarsh.so")))

    def test_a_small_thread_is_enough(self):
        # what takes the most stack, on a thread that has as little as the package's text says; in a process of its own, which it would end
        calls = """
import threading, tokenmarsh
def calls():
    for words in ([0x0004] * 512, [0x0206, 0x0107, 0x4100] * 170):
        program = tokenmarsh.Forward(words)
        print(program.end(b"A" * 172), program.mirror().start(b"A" * 172))
    print(tokenmarsh.literals(b"{ " + b"(41|42)" * 170 + b" }").rank)
threading.stack_size(256 * 1024)
thread = threading.Thread(target=calls)
thread.start()
thread.join()
"""
        done = subprocess.run([sys.executable, "-c", calls], cwd=HERE, stdout=subprocess.PIPE, text=True)
        self.assertEqual((done.returncode, done.stdout), (0, "0 172\n170 2\n80\n"))


if __name__ == "__main__":
    unittest.main()
