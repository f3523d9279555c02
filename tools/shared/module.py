"""The Python module, as tools use it."""
import functools
import importlib
import os
import sys

from .command import Fault

TOP = os.path.dirname(os.path.dirname(os.path.dirname(os.path.realpath(__file__))))
# Beside the tools, in the repository or where an archive was unpacked; and below the root of a Debian package, wherever that is.
PLACES = (os.path.join(TOP, 'python'), os.path.join(TOP, '..', '..', 'lib', 'python3', 'dist-packages'))


@functools.lru_cache(maxsize=None)
def module():
    """The module `matchbench`: the one that came with the tools, else the one that Python finds."""
    beside = [os.path.normpath(it) for it in PLACES if os.path.isdir(os.path.join(it, 'matchbench'))][:1]
    sys.path[:0] = beside
    try:
        return importlib.import_module('matchbench')
    except ModuleNotFoundError as fault:
        if fault.name != 'matchbench':
            raise
        raise Fault('the Python module matchbench isn\'t beside the tools and not installed; python/ of the repository has it') \
            from None
    finally:
        del sys.path[:len(beside)]
