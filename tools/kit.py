"""The kit's command `rt` as a module, for the scripts beside this file.

`rt` reads a library again for each way that leads to it, which takes minutes at the top of many crates. Here each crate's sum and its list of
libraries are computed once a run. Nothing else differs, and no file may be edited while a run goes on.
"""
import importlib.machinery
import importlib.util
import os
import re
import shutil
import sys

sys.dont_write_bytecode = True
TOP = os.path.dirname(os.path.dirname(os.path.realpath(__file__)))


def load():
    file = shutil.which("rt") or sys.exit("there is no rt on the PATH: it comes with the Rattle kit")
    loader = importlib.machinery.SourceFileLoader("rt", os.path.realpath(file))
    module = importlib.util.module_from_spec(importlib.util.spec_from_loader("rt", loader))
    loader.exec_module(module)
    return module


def once(method):
    name = f"_{method.__name__}_once"

    def value(self):
        if not hasattr(self, name):
            setattr(self, name, method(self))
        kept = getattr(self, name)
        return [*kept] if isinstance(kept, list) else kept

    return value


rt = load()
rtlib = rt.rtlib
rtlib.Crate.stamp = once(rtlib.Crate.stamp)
rtlib.Crate.below = once(rtlib.Crate.below)


def crates(top=TOP):
    """Returns the crates that crates.txt lists, each after those that it uses."""
    return sorted(rtlib.crates_below(top), key=lambda it: len(it.below()))


def proved_in(log):
    """Returns the names of the crates that the log of an `rt ci` says it proved, in this run or an earlier one: none where there is no log."""
    return {*re.findall(r"^rt: (\w+) (?:proved$|is kept:)", rtlib.text_of(log) or "", re.M)}


def has_ended(log):
    """Returns whether the `rt ci` that writes the log has come to its last line, or was broken off and its log taken away."""
    said = rtlib.text_of(log)
    return said is None or bool(re.search(r"^\d+ passed, \d+ failed$", said, re.M))


if __name__ == "__main__":
    sys.exit(rt.main(sys.argv[1:]))
