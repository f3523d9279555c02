"""What Graphviz's `dot` does for the tools: pictures, and where the nodes of a graph are best put."""
import shutil
import subprocess

from .command import Fault

INSTALL = """--svg needs the command `dot` of Graphviz, which is missing here. It comes with the package graphviz:
  Debian, Ubuntu: apt-get install graphviz     Fedora: dnf install graphviz     macOS: brew install graphviz
Without --svg the picture is written in Graphviz's language, and can be drawn elsewhere by `dot -Tsvg`."""


def svg(text, path):
    """Has `dot` draw a graph into a file."""
    if shutil.which('dot') is None:
        raise Fault(INSTALL, 3)
    done = subprocess.run(['dot', '-Tsvg'], input=text.encode(), capture_output=True)
    if done.returncode != 0:
        raise Fault('`dot` failed: ' + done.stderr.decode(errors='replace').strip(), 3)
    with open(path, 'wb') as file:
        file.write(done.stdout)


def plain(text, seconds):
    """The lines of `dot -Tplain` for a graph, as fields, or None where `dot` is missing, fails or takes longer."""
    if shutil.which('dot') is None:
        return None
    try:
        done = subprocess.run(['dot', '-Tplain'], input=text.encode(), capture_output=True, timeout=seconds)
    except subprocess.TimeoutExpired:
        return None
    return [line.split(' ') for line in done.stdout.decode().split('\n')] if done.returncode == 0 else None
