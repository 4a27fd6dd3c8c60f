"""What the comparisons share: calls of the program, networks to compare, and TOML texts of values."""
import glob
import importlib.machinery
import importlib.util
import json
import os
import random
import subprocess

TOP = os.path.dirname(os.path.dirname(os.path.dirname(os.path.realpath(__file__))))
# Places of the sample networks, below examples/.
SAMPLES = ("networks/*.toml", "guide/*.toml", "*.toml")


def add_random(parser, count):
    """The words that say how many random networks are to be compared, by default so many."""
    parser.add_argument("--random", metavar="COUNT", type=int, default=count, help=f"how many random networks to compare too, {count} if left out")
    parser.add_argument("--seed", type=int, default=1, help="which ones, 1 if left out")


def numbers_of(given):
    """The random numbers of a call."""
    return random.Random(given.seed)


def called(program, *words, folder=None):
    """What the program prints, and its status."""
    done = subprocess.run([os.path.abspath(program), *words], capture_output=True, cwd=folder)
    return done.stdout.decode(errors="surrogateescape"), done.returncode


def samples(*patterns):
    """The sample networks, or those of these names below examples/."""
    return sorted(file for name in patterns or SAMPLES for file in glob.glob(f"{TOP}/examples/{name}", recursive=True))


def rows_tool():
    """tools/rows as a module: the rows of tests/, and the files that they name."""
    loader = importlib.machinery.SourceFileLoader("rows", f"{TOP}/tools/rows")
    rows = importlib.util.module_from_spec(importlib.util.spec_from_loader("rows", loader))
    loader.exec_module(rows)
    return rows


def read(path):
    with open(path, encoding="utf-8") as file:
        return file.read()


def write(path, text):
    """Writes the text, and returns the path."""
    with open(path, "w", encoding="utf-8") as file:
        file.write(text)
    return path


def toml(value):
    """A value as TOML, with inline tables."""
    if isinstance(value, dict):
        return "{ " + ", ".join(f"{key} = {toml(it)}" for key, it in value.items()) + " }"
    if isinstance(value, list):
        return "[" + ", ".join(map(toml, value)) + "]"
    return json.dumps(value) if isinstance(value, (str, bool)) else str(value)


def document(tables):
    """A file of these tables."""
    return "".join(f"{key} = {toml(value)}\n" for key, value in tables.items())


def counted(kinds):
    """How many there were of each kind, in one line."""
    return ", ".join(f"{count} {kind}" for kind, count in sorted(kinds.items()))
