"""Tests of the Python module gvrs: that all of it is said with an example, and that the examples go as they are printed; that it has type
hints throughout; its version; that pip installs it."""

import doctest
import inspect
import itertools
import os
import re
import shutil
import subprocess
import sys
import tempfile
import typing
import unittest
import unittest.mock
from pathlib import Path

import gvrs
from test_gvrs import PAGES, Tests

try:
    import numpy
except ImportError:
    numpy = None

ROOT = Path(__file__).parent.parent.parent
OF_NUMPY = re.compile(r"\barrays?\(|\.dtype\b|\bnumpy\b")


def public():
    """What the module offers, by its name: functions and classes, and what is in these."""
    for name in gvrs.__all__:
        value = getattr(gvrs, name)
        if inspect.isclass(value) or inspect.isfunction(value):
            yield name, value
        if inspect.isclass(value):
            for part, inner in vars(value).items():
                if not part.startswith("_") and (isinstance(inner, (property, classmethod)) or inspect.isfunction(inner)):
                    yield f"{name}.{part}", inner


class Examples(Tests):
    """The examples of the documentation strings."""

    def test_each_has_an_example(self):
        self.assertGreater(len(list(public())), 70)
        for name, value in public():
            text = getattr(value, "__func__", value).__doc__ or ""
            self.assertTrue(doctest.DocTestParser().get_examples(text), name)

    def test_examples(self):
        runner, count = doctest.DocTestRunner(optionflags=doctest.ELLIPSIS), 0
        for test in doctest.DocTestFinder(exclude_empty=True).find(gvrs, "gvrs", globs={"gvrs": gvrs, "numpy": numpy}):
            if not numpy and OF_NUMPY.search("".join(example.source for example in test.examples)):
                continue
            with tempfile.TemporaryDirectory() as folder:
                for name in ("page", "packed", "refused-7", "refused-8", "right-scores"):
                    shutil.copy(PAGES / f"{name}.gvrs", folder)
                self.run_in(folder, runner, test)
            count += len(test.examples)
        self.assertEqual(runner.failures, 0)
        self.assertGreater(count, 100)

    @staticmethod
    def run_in(folder, runner, test):
        before = os.getcwd()
        os.chdir(folder)
        try:
            runner.run(test)
        finally:
            os.chdir(before)

    def test_examples_of_numpy_are_told_apart(self):
        """Those that are left out where NumPy is missing are all that need it, and few."""
        tests = doctest.DocTestFinder(exclude_empty=True).find(gvrs, "gvrs")
        names = [test.name for test in tests if OF_NUMPY.search("".join(example.source for example in test.examples))]
        self.assertEqual(names, ["gvrs.Arrays", "gvrs.Page.array", "gvrs.Page.arrays", "gvrs.Raster.array", "gvrs.Raster.dtype"])


class Hints(Tests):
    """Type hints."""

    def test_throughout(self):
        functions = [value for _, value in inspect.getmembers(gvrs, inspect.isfunction) if value.__module__ == "gvrs"]
        for _, kind in inspect.getmembers(gvrs, inspect.isclass):
            if kind.__module__ == "gvrs":
                for value in vars(kind).values():
                    value = getattr(value, "fget", None) or getattr(value, "__func__", value)
                    if inspect.isfunction(value) and value.__module__ == "gvrs" and value.__code__.co_filename == gvrs.__file__:
                        functions.append(value)
        self.assertGreater(len(functions), 150)
        for function in functions:
            function = inspect.unwrap(function)
            signature = inspect.signature(function)
            self.assertIsNot(signature.return_annotation, inspect.Signature.empty, function.__qualname__)
            for name, parameter in signature.parameters.items():
                if name not in ("self", "cls"):
                    self.assertIsNot(parameter.annotation, inspect.Parameter.empty, f"{function.__qualname__}: {name}")

    @unittest.skipIf(sys.version_info < (3, 10), "Python before 3.10 cannot read int | None")
    def test_each_means_something(self):
        names = {**vars(gvrs), "numpy": numpy or unittest.mock.MagicMock()}
        for name, value in public():
            value = getattr(value, "fget", None) or getattr(value, "__func__", value)
            if not inspect.isclass(value):
                self.assertIn("return", typing.get_type_hints(inspect.unwrap(value), names), name)


class Version(Tests):
    """The version of the module, and that of the library."""

    def test_version(self):
        self.assertRegex(gvrs.__version__, r"^\d+\.\d+\.\d+$")

    @unittest.skipUnless(hasattr(gvrs._library, "gvrs_version"), "the library has no version")
    def test_as_the_library(self):
        ask = gvrs._library.gvrs_version
        ask.restype = gvrs.ctypes.c_char_p
        self.assertEqual(ask().decode(), gvrs.__version__)


class Rules(Tests):
    """Which rule a file breaks, in words."""

    COMMAND = Path(gvrs._library._name).parent.parent / "bin/gvrs"

    def test_in_words(self):
        why = gvrs.Why(20, 2, 412, 3, 0, "an element's label is not UTF-8")
        self.assertEqual(str(why), "element 2: an element's label is not UTF-8, at 412")
        self.assertEqual(str(why._replace(rule=29)), "an element's label is not UTF-8, at 412: found 3, wanted 0")
        self.assertEqual(gvrs.Why(38, 0, 16, 1, 2, "wrong").what, "header")
        whats = {gvrs.Why(rule, 1, 0, 0, 0, "").what for rule in range(76)}
        wanted = {"", "grid columns", "element 1", "record 1 behind the header", "record 0 behind the header", "record 1 of its type", "columns", "tile 1"}
        self.assertEqual(whats, wanted)

    def test_fronts(self):
        z = [("z", "Short", 7)]
        whys = (
            ((0, 3, 2, 2), z, (9, 0, 104, 0, 1)),
            ((3, 3, 2, 0), z, (9, 3, 116, 0, 1)),
            ((3, 3, 2, 2), [], (14, 0, 280, 0, 1)),
            ((3, 3, 2, 2), [("score_", "Short", 7)], (18, 0, 294, 6, 32)),
            ((3, 3, 2, 2), z + z, (19, 1, 326, 0, 0)),
            ((3, 65537, 2, 2), z, (28, 1, 108, 65537, 65536)),
            ((3, 3, 2, 2), [(f"z{number}", "Short", 7) for number in range(17)], (30, 0, 280, 17, 16)),
        )
        for sides, elements, why in whys:
            with self.assertRaises(gvrs.Refused) as caught:
                gvrs.front(*sides, elements)
            self.assertEqual(caught.exception.why[:5], why)

    def test_fronts_are_explained_by_their_own_bytes(self):
        """What is explained has the bytes of the front, but for its checksum, wherever there is one."""
        coded = gvrs.NewElement("s", "integer-coded", -4, "m", "label", "d\xe9scription", -8, 12, 4, 0.5, True)
        elements = [("a", "Short", -1), ("bb", "Integer", 5, "m"), coded, ("ccc", "Float", 0.5), ("A" * 32, "Short", 7, "\xb5m")]
        ask = gvrs._ask
        for count, checksums in itertools.product(range(1, 6), (True, False)):
            given = {"checksums": checksums, "uuid": bytes(range(16)), "label": "label"[:count], "methods": ["a", "GvrsHuffman", ""][: count - 1]}
            made = gvrs.front(3, 4, 2, 2, elements[:count], **given)
            refusing = unittest.mock.patch.object(gvrs, "_ask", lambda name, *rest: (3, [0]) if name == "gvrs_front" else ask(name, *rest))
            with refusing, unittest.mock.patch.object(gvrs, "_why") as why:
                self.assertRaises(gvrs.Refused, gvrs.front, 3, 4, 2, 2, elements[:count], **given)
            explained = why.mock_calls[0].args[0]
            self.assertEqual((explained[:-4], len(explained)), (made[:-4], len(made)))

    @unittest.skipUnless(COMMAND.exists(), "the command is not installed beside the library")
    def test_as_the_command_says_it(self):
        for number in range(1, 10):
            said = subprocess.run([self.COMMAND, "check", "--why", PAGES / f"refused-{number}.gvrs"], capture_output=True, text=True)
            with self.assertRaises(gvrs.Refused) as caught:
                gvrs.Page(PAGES / f"refused-{number}.gvrs", check=True)
            self.assertIn(caught.exception.in_full.split(": ", 2)[2] + "\n", said.stdout + said.stderr)


class Pip(Tests):
    """`pip install ./python`, without the network."""

    def pip(self, *words):
        return subprocess.run([sys.executable, "-m", "pip", "--disable-pip-version-check", *map(str, words)], capture_output=True, text=True)

    def test_installed(self):
        if self.pip("--version").returncode != 0:
            self.skipTest("pip is missing")
        with tempfile.TemporaryDirectory() as folder:
            done = self.pip("install", "--no-index", "--no-cache-dir", "--target", folder, ROOT / "python")
            self.assertEqual(done.returncode, 0, done.stdout + done.stderr)
            self.assertEqual((Path(folder) / "gvrs/__init__.py").read_bytes(), (ROOT / "python/gvrs.py").read_bytes())
            self.assertTrue((Path(folder) / "gvrs/py.typed").exists())
            environment = {"PATH": os.environ["PATH"], "PYTHONPATH": folder, "GVRS_LIBRARY": gvrs._library._name}
            text = f"import gvrs; print(gvrs.__version__, gvrs.Page({str(PAGES / 'page.gvrs')!r})['z'][2])"
            said = subprocess.run([sys.executable, "-c", text], env=environment, capture_output=True, text=True)
            self.assertEqual((said.stdout, said.stderr), (f"{gvrs.__version__} [11, 12, fill(7)]\n", ""))


if __name__ == "__main__":
    unittest.main()
