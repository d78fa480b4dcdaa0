"""The examples in the docstrings."""
import copy
import doctest
import importlib
import pickle
import pkgutil
import unittest

import btworld
from btworld import _library as library

try:
    import numpy
except ImportError:
    numpy = None

MANY = {"btworld.games", "btworld.environments.vector_env"}


class Doctests(unittest.TestCase):
    def test_docstrings(self):
        names = [it.name for it in pkgutil.walk_packages(btworld.__path__, "btworld.") if not it.name.endswith("__main__")]
        if not (numpy and library.exports("look_all")):
            names = [it for it in names if it not in MANY]
        tried = 0
        for name in names:
            told = doctest.testmod(importlib.import_module(name), extraglobs={"copy": copy, "pickle": pickle})
            self.assertEqual(told.failed, 0, name)
            tried += told.attempted
        self.assertGreater(tried, 60)


if __name__ == "__main__":
    unittest.main()
