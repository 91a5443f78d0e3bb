"""Runs the scripts of a wheel of `webgraph`: each is a command, as `webgraph-edges`."""

import os
import sys
from pathlib import Path

import webgraph

# Where the wheel has put its modules: in lib/pythonX.Y/site-packages as a rule, and beside `share` by `--target`.
HERE = Path(__file__).resolve().parent


def main():
    """Runs the script whose name the command has after the dash, with the arguments of the command."""
    name = os.path.basename(sys.argv[0]).partition("-")[2]
    scripts = (prefix / "share" / "webgraph" / "examples" / name for prefix in (HERE / "../../..", HERE))
    script = next(filter(os.path.isfile, map(os.path.normpath, scripts)), None)
    if script is None:
        sys.exit(f"webgraph-{name}: share/webgraph/examples/{name} is not installed with {HERE}")
    os.environ.setdefault("WEBGRAPH", webgraph.PROGRAM)
    with open(script, "rb") as text:
        # Python writes no compiled module beside the scripts, which pip would leave there.
        words = [sys.executable, "-B"] if b"python" in text.readline() else ["/bin/sh"]
    os.execv(words[0], [*words, script, *sys.argv[1:]])
