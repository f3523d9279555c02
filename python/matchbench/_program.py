"""The programs that came with this package: those of the repository, of a wheel or of a Debian package."""
from __future__ import annotations

import functools
import hashlib
import os
import subprocess
from typing import Optional


class Unusable(Exception):
    """A program is there, and isn't to be called; says why."""


def beside(name: str) -> Optional[str]:
    """The path of the program of this name that was built in the repository in which this file is, else of the released one there,
    or of the one that was installed with this package; None where there is none of these. Raises Unusable.
    """
    here = os.path.dirname(os.path.realpath(__file__))
    top = os.path.dirname(os.path.dirname(here))
    built = os.path.join(top, 'crates', name, 'out', name)
    if os.path.isfile(built) and os.access(built, os.X_OK):
        return built
    for folder in (os.path.join(top, 'release'), os.path.join(here, '..', '..', '..', '..', 'libexec', 'matchbench'),
                   os.path.join(here, '..', 'libexec', 'matchbench')):
        path = os.path.normpath(os.path.join(folder, name))
        if os.path.isfile(path) and os.path.isfile(os.path.join(folder, 'SHA256SUMS')):
            return _released(path)
    return None


@functools.lru_cache(maxsize=None)
def _released(path: str) -> str:
    """The path of a released program, if its checksum is that of SHA256SUMS beside it and it runs here; looked at once."""
    folder, name = os.path.split(path)
    try:
        with open(os.path.join(folder, 'SHA256SUMS'), encoding='ascii') as sums, open(path, 'rb') as program:
            if f'{hashlib.sha256(program.read()).hexdigest()}  {name}' not in sums.read().split('\n'):
                raise Unusable(f'{path} doesn\'t have the checksum of SHA256SUMS beside it, so it isn\'t run')
        # No program takes this word, and each says so at once.
        done = subprocess.run([path, '-'], stdin=subprocess.DEVNULL, stdout=subprocess.PIPE, stderr=subprocess.PIPE)
    except OSError as fault:
        raise Unusable(f'{path} can\'t be started: {fault.strerror}') from fault
    if done.stdout != b'usage 1\n':
        raise Unusable(f'{path} doesn\'t run here: it wants Linux on x86-64-v2 with the GNU C library 2.34 or later'
                       + f' ({done.stderr.decode(errors="replace").strip()})' * bool(done.stderr))
    return path
