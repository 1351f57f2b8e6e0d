"""The examples in the docstrings."""
import doctest
import importlib.util
import shutil

import gjcut
from gjcut import _constructions, _derivations, _functions, _library, _map, _piecewise, _problems
from gjcut import _refusals, _search, literature


def load_tests(_loader, tests, _pattern):
    modules = [gjcut, _constructions, _derivations, _functions, _library, _map, _piecewise]
    modules += [_problems, _refusals, literature]
    if shutil.which("lrs") or importlib.util.find_spec("ppl"):
        modules.append(_search)
    for module in modules:
        tests.addTests(doctest.DocTestSuite(module))
    return tests
