"""The search for the library, and its error."""

import os
import shutil
import subprocess
import sys
import tempfile
import unittest

from common import HERE

import logpurple
from logpurple import _calls

PACKAGE = os.path.dirname(os.path.abspath(logpurple.__file__))
VERSION = os.path.join(HERE, "..", "..", "..", "VERSION")
SHOW = "import logpurple._calls as c; print(c._library._name)"


class Library(unittest.TestCase):
    """Imports copies of the package by new interpreters."""

    def setUp(self):
        folder = tempfile.TemporaryDirectory()
        self.addCleanup(folder.cleanup)
        self.folder = os.path.realpath(folder.name)
        self.package = os.path.join(self.folder, "site", "packages", "logpurple")
        shutil.copytree(PACKAGE, self.package, ignore=shutil.ignore_patterns("*.so*", "__pyc*"))
        self.packaged = os.path.join(self.package, "libsst.so")
        self.named = os.path.join(self.folder, "named.so")
        self.built = os.path.join(self.folder, "site", "out", "libsst.so")
        self.script = os.path.join(self.folder, "site", "build")
        open(self.script, "wb").close()
        self.installed = os.path.join(self.folder, "libsst.so.4")
        os.mkdir(os.path.dirname(self.built))

    def copy(self, path):
        shutil.copy(_calls._library._name, path)

    def run_with(self, named=None):
        variables = dict(os.environ, LD_LIBRARY_PATH=self.folder,
                         PYTHONPATH=os.path.dirname(self.package), PYTHONDONTWRITEBYTECODE="1")
        variables.pop("LOGPURPLE_LIBRARY", None)
        if named is not None:
            variables["LOGPURPLE_LIBRARY"] = named
        return subprocess.run([sys.executable, "-c", SHOW], env=variables, cwd=self.folder,
                              stdout=subprocess.PIPE, stderr=subprocess.PIPE,
                              universal_newlines=True)

    def finds(self, wanted, named=None):
        found = self.run_with(named)
        self.assertEqual((found.stdout.strip(), found.stderr), (wanted, ""))

    @unittest.skipUnless(os.path.isabs(_calls._library._name), "the library has no path here")
    def test_the_order(self):
        for path, name in ((self.installed, "libsst.so.4"), (self.built, self.built),
                           (self.named, self.named), (self.packaged, self.packaged)):
            self.copy(path)
            named = self.named if os.path.exists(self.named) else None
            self.finds(name, named)
            self.finds(name, named or "")
        os.remove(self.packaged)
        self.finds(self.built)
        os.remove(self.script)  # which only a checkout has
        self.finds("libsst.so.4")

    def fails(self, *texts, named=None):
        found = self.run_with(named)
        self.assertEqual(found.returncode, 1)
        self.assertIn("ImportError: ", found.stderr)
        for text in texts:
            self.assertIn(text, found.stderr)

    def test_none(self):
        if self.run_with().returncode == 0:
            self.skipTest("the system has the library")
        self.fails("cannot load libsst.so", self.packaged, self.built, "LOGPURPLE_LIBRARY",
                   "bindings/build")
        os.remove(self.script)
        self.assertNotIn(self.built, self.run_with().stderr)

    def test_one_that_is_named_and_not_there(self):
        """If the named library is missing, the package loads no other one."""
        open(self.built, "wb").close()
        self.fails("cannot load libsst.so", self.named, named=self.named)

    def test_what_is_no_library(self):
        for path in (self.built, self.packaged):
            with open(path, "wb") as file:
                file.write(b"no library")
            self.fails("cannot load libsst.so", path)

    def test_another_library(self):
        another = getattr(sys.modules["_ctypes"], "__file__", None)
        if another is None:
            self.skipTest("there is no other library")
        shutil.copy(another, self.packaged)
        self.fails(self.packaged, "is not libsst")


class Versions(unittest.TestCase):
    @unittest.skipUnless(os.path.exists(VERSION), "the file of the version is not here")
    def test_the_version_of_the_package(self):
        with open(VERSION, encoding="ascii") as file:
            self.assertEqual(logpurple.__version__, file.read().strip())

    def test_another_version(self):
        class Other:
            _name = "other.so"

            @staticmethod
            def sst_version():
                return _calls.VERSION + 1

        library, _calls._library = _calls._library, Other
        try:
            with self.assertRaisesRegex(ImportError, "other.so has version"):
                _calls._require_version()
        finally:
            _calls._library = library


if __name__ == "__main__":
    unittest.main()
