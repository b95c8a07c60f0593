"""What the tests of the tools share."""

import io
import os
import runpy
import sys

HERE = os.path.dirname(os.path.abspath(__file__))
TOOLS = os.path.dirname(HERE)
DATA = os.path.join(os.path.dirname(TOOLS), "crates", "pearl_examples", "data")
sys.path.insert(0, TOOLS)


def run(tool, *words, folder=HERE, given=b"", variables=None):
    """The status of a tool, and what it writes on standard output and on standard error."""
    kept = sys.argv, sys.stdin, sys.stdout, sys.stderr, os.getcwd(), dict(os.environ)
    sys.argv = [os.path.join(TOOLS, tool), *words]
    sys.stdin, sys.stdout, sys.stderr = (io.TextIOWrapper(io.BytesIO(it), "utf-8", newline="", write_through=True)
                                         for it in (given, b"", b""))
    os.chdir(folder)
    os.environ.update(variables or {})
    status = 0
    try:
        runpy.run_path(sys.argv[0], run_name="__main__")
    except SystemExit as ended:
        status = ended.code or 0
    finally:
        out, told = (stream.buffer.getvalue().decode("utf-8") for stream in (sys.stdout, sys.stderr))
        sys.argv, sys.stdin, sys.stdout, sys.stderr, before, variables_before = kept
        os.chdir(before)
        os.environ.clear()
        os.environ.update(variables_before)
    return status, out, told


def read(*path):
    with open(os.path.join(*path), encoding="utf-8", newline="") as file:
        return file.read()


def data(name):
    """The path of a file of the examples."""
    return os.path.join(DATA, name)
