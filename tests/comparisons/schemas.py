"""schema/network.schema.json and schema/load.schema.json beside what the program takes

A schema has to take each example and each of some right files, and to refuse each of them with a key dropped, a key added, or a value changed (its type, its
range, its length), exactly where the program gives one of the faults that schema/README.md names. It tells how many texts there were of each kind. It wants
Python's package jsonschema.
"""
import collections
import copy
import json
import re
import tempfile
import tomllib

from jsonschema import Draft202012Validator

from .shared import TOP, called, document, read, samples, write

TARGET = {"logical": 254, "key": 0, "start": 0, "size": 64, "slots": 2}
ROUTE = {"address": 40, "last": 41, "ports": [2], "delete": False}
NETWORK = {
    "version": 3,
    "node": [{"name": "A", "target": TARGET}, {"name": "B", "outstanding": 2}],
    "switch": [{"name": "S", "arbiter": "fixed", "route": [ROUTE]}],
    "link": [
        {"a": "A", "b": "S", "b_port": 1, "buffer": 64, "buffer_a": 8, "buffer_b": 4096},
        {"a": "S", "a_port": 2, "b": "B", "buffer": 8},
    ],
    "flow": [{"name": "f", "from": "B", "to": "A", "address": [1], "left": 0, "reply": {"path": [2], "initiator": 67, "outstanding": 1}}],
}
LOAD = {"packet": [{"flow": "f", "cargo": "AA", "end": "EOP", "count": 3}]}
# Which keys came with version 2, and which with version 3.
NEWER = ("slots", "last", "buffer_a", "buffer_b")
NEWEST = ("outstanding",)
NUMBERS = [-1, 0, 1, 2, 3, 4, 7, 8, 9, 31, 32, 33, 64, 65, 254, 255, 256, 1000, 1001, 4096, 4097, 65535, 65536, 65537, 2**40 - 1, 2**40, 2**63 - 1]
TEXTS = ["", "A", "S", "f", "n" * 32, "n" * 33, "a b", "é", "least-recent", "Fixed", "EEP", "eop", "aB", " 5 A 5b ", "5A*4096", "5A*4097"]
TEXTS += ["5A*01", "5A*0", "5A5A*2", "5 A * 4 0 9 6", "5A*999", "5A*3999", "5A*4090", "5G", "*", "AA" * 4096, "AA" * 4097, "5A\t"]
LISTS = [[], [0], [31], [32], [255], [256], [-1], [1, 256], [1, 0], [1, True], ["1"], [[]], [{}], *([1] * n for n in (12, 13, 32, 33))]
OF_EACH_TYPE = [1, 1.5, True, False, "x", [1], {}, {"x": 1}, tomllib.loads("a = 2024-01-01")["a"]]
# The faults that the schemas are to tell, and of these the places where none can: what is right there hangs on another key.
TOLD = re.compile(r"fault (F[2345] |F8 E4 |F10 )")
UNTOLD = re.compile(
    r"fault (F[23] \w+ link \d+ [ab]_port|F5 OutOfRange (switch \d+ route \d+ last|node \d+ target size|flow \d+ left|packet \d+ count)|F10 )"
)


def ways(value, path=()):
    """Gives the way to each table in a value."""
    if isinstance(value, dict):
        yield path
    inner = value.items() if isinstance(value, dict) else enumerate(value) if isinstance(value, list) else ()
    for key, it in inner:
        yield from ways(it, (*path, key))


def changed(found, path, change):
    """The tables with a change made in the one to which the path leads."""
    found = table = copy.deepcopy(found)
    for key in path:
        table = table[key]
    change(table)
    return found


def variants(found):
    """The tables, and with each key of each of them dropped, written otherwise, and given each value."""
    yield found
    for path in ways(found):
        table = found
        for key in path:
            table = table[key]
        for added in ("unknown", "Name", *NEWER, *NEWEST):
            yield changed(found, path, lambda it: it.setdefault(added, 41))
        for key in table:
            yield changed(found, path, lambda it: it.pop(key))
            for value in [*{int: NUMBERS, str: TEXTS, list: LISTS}.get(type(table[key]), []), *OF_EACH_TYPE]:
                yield changed(found, path, lambda it: it.update({key: value}))


def without(keys, found, version):
    """The same network as a file of that version, without these keys."""
    kept = json.loads(json.dumps(found), object_hook=lambda it: {key: value for key, value in it.items() if key not in keys})
    return {**kept, "version": version}


def long_networks():
    """Networks with as many parts as allowed, and with one more."""
    for key, most in (("node", 1024), ("switch", 512), ("link", 1024), ("flow", 4096)):
        for count in (most, most + 1):
            entry = {"a": "A", "b": "B"} if key == "link" else {"from": "A", "to": "B"} if key == "flow" else {}
            names = [{} if key == "link" else {"name": f"n{i}"} for i in range(count)]
            yield {**NETWORK, key: [{**name, **entry} for name in names]}


def long_loads():
    for count in (4096, 4097):
        yield {"packet": [{"flow": "f", "cargo": "AA"}] * count}
    for last in (536, 537):
        yield {"packet": [{"flow": "f", "cargo": "AA", "count": 1000}] * 65 + [{"flow": "f", "cargo": "AA", "count": last}]}


class Texts:
    def __init__(self, program, folder):
        self.program, self.folder = program, folder
        self.kinds, self.differences, self.seen = collections.Counter(), 0, set()

    def fault(self, *words):
        """The first line that the program prints, where it is a fault."""
        printed = called(self.program, *words)[0].split("\n")[0]
        return printed if printed.startswith("fault") else ""

    def compare(self, schema, text, *words):
        """Compares the schema with the program on a text, which the program gets as the file whose name is None in the words."""
        if text in self.seen:
            return
        self.seen.add(text)
        path = write(f"{self.folder}/text", text)
        fault = self.fault(*(path if word is None else word for word in words))
        is_refused, is_told = not schema.is_valid(tomllib.loads(text)), bool(TOLD.match(fault))
        if is_refused == is_told:
            kind = "refused by both" if is_told else "taken by the schema"
        elif is_told and UNTOLD.match(fault):
            kind = "taken by the schema, which can't tell the fault"
        else:
            kind = "told differently"
            self.differences += 1
            print(f"{'refused' if is_refused else 'taken'} by the schema, by the program: {fault}\n{text[:2000]}")
        self.kinds[f"{kind}: {' '.join(fault.split()[:3 if fault.startswith('fault F8') else 2]) or 'no fault'}"] += 1


def schema(name):
    found = json.loads(read(f"{TOP}/schema/{name}.schema.json"))
    Draft202012Validator.check_schema(found)
    return Draft202012Validator(found)


def compare_networks(texts):
    network = schema("network")
    for path in samples("**/*.toml"):
        texts.compare(network, read(path), "decide", None)
    old, older = without(NEWEST, NETWORK, 2), without(NEWER + NEWEST, NETWORK, 1)
    for tables in [*variants(NETWORK), *variants(old), *variants(older), *long_networks()]:
        texts.compare(network, document(tables), "decide", None)


def compare_loads(texts):
    load, line = schema("load"), f"{TOP}/examples/line.toml"
    for path in samples("**/*.load"):
        texts.compare(load, read(path), "run", path.replace(".load", ".toml"), None, "--limit", "1")
    for tables in [*variants(LOAD), *long_loads()]:
        texts.compare(load, document(tables), "run", line, None, "--limit", "1")


def add_words(parser):
    pass


def compare(given):
    with tempfile.TemporaryDirectory() as folder:
        texts = Texts(given.program, folder)
        compare_networks(texts)
        compare_loads(texts)
    for kind, count in sorted(texts.kinds.items()):
        print(f"{count:7} {kind}")
    print(f"{sum(texts.kinds.values())} texts, {texts.differences} differences")
    return texts.differences
