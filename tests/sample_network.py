"""The network of a file, whose tables keep their entries in order, for second_verdict.py."""
import re
import tomllib

from second_verdict import Network, Verdict


def tables(file):
    """The tables of a network file. Its inline tables may go over several lines, which other readers refuse."""
    text = open(file, encoding="utf-8").read()
    lines = [re.sub(r'^((?:[^#"]|"[^"]*")*)#.*$', r"\1", line) for line in text.splitlines()]
    depth, joined = 0, ""
    for line in lines:
        bare = re.sub(r'"[^"]*"', "", line)
        depth += bare.count("{") - bare.count("}")
        joined += line + (" " if depth else "\n")
    joined = re.sub(r",(\s*\})", r"\1", joined)
    return tomllib.loads(joined)


class Sample:
    """The network of such tables."""

    def __init__(self, found):
        self.nodes = [(it["name"], "target" in it) for it in found.get("node", [])]
        self.slots = {i: it["target"].get("slots", 1) for i, it in enumerate(found.get("node", [])) if "target" in it}
        self.outstanding = {i: it["outstanding"] for i, it in enumerate(found.get("node", [])) if "outstanding" in it}
        self.switches = [(it["name"], [self.entry(r) for r in it.get("route", [])]) for it in found.get("switch", [])]
        names = [name for name, _ in self.nodes], [name for name, _ in self.switches]
        self.links = [tuple(self.end(names, it, key) for key in "ab") for it in found.get("link", [])]
        self.flows = [self.flow(names[0], it) for it in found.get("flow", [])]

    def entry(self, route):
        return [route["address"], route.get("last", route["address"]), sorted(set(route["ports"])), route.get("delete", False)]

    def end(self, names, link, key):
        name = link[key]
        return ("node", names[0].index(name)) if name in names[0] else ("switch", names[1].index(name), link[f"{key}_port"])

    def flow(self, names, it):
        reply = it.get("reply")
        return {
            "name": it["name"],
            "source": names.index(it["from"]),
            "target": names.index(it["to"]),
            "address": it.get("address", []),
            "left": it.get("left", 0),
            "reply": reply and (reply.get("path", []), reply["initiator"]),
            **({"outstanding": reply["outstanding"]} if reply and "outstanding" in reply else {}),
        }

    def network(self):
        switches = [(name, {b: (ports, delete) for low, high, ports, delete in table for b in range(low, high + 1)}) for name, table in self.switches]
        return Network(self.nodes, switches, self.links, self.flows, self.slots, self.outstanding)

    def verdict(self):
        return Verdict(self.network())
