"""mend, and mend --pairs, beside single changes and pairs that are made and decided by tests/second_verdict.py

The sample networks, and random ones, no more than half of which are free already. With --pairs it compares `mend --pairs`, on random networks of which no
more than half are answered without a pair being tried: two of them side by side, so that often no single change frees both. With --show it prints the rows
that are expected instead.
"""
import copy
import itertools
import os
import re
import tempfile
from collections import Counter

from random_network import add_limits, random_network
from sample_network import Sample, tables

from .shared import TOP, add_random, called, numbers_of, samples, write

MAX_NODES = MAX_LINKS = 1024
NAMES = ("networks/*.toml", "line.toml", "ring.toml", "turn.toml", "duel.toml", "group.toml", "bad.toml", "star.toml")


def add_words(parser):
    add_random(parser, 0)
    parser.add_argument("--pairs", action="store_true", help="compare `mend --pairs`")
    parser.add_argument("--show", action="store_true", help="print the rows that are expected")


class Change:
    """What is taken out of a network, by the numbers that its parts have in the file."""

    def __init__(self, line, reply=None, flow=None, port=None, entry=None):
        self.line, self.port, self.entry = f"without {line}", port, entry
        self.loses_reply = reply or (lambda number, flow: False)
        self.loses_flow = flow or (lambda number, flow: False)


class Split:
    """A node that is split: its target gets a link of its own, at a port of the switch beside that of the node's link."""

    def __init__(self, line, node, switch, beside, port):
        self.line, self.node, self.switch, self.beside, self.port = line, node, switch, beside, port


class Changing(Sample):
    """A network, and what single changes and pairs of them leave of it."""

    def changes(self):
        """Each single change of a part in its order: what can be taken away, and then the splits."""
        yield from self.parts_away()
        yield from self.splits()

    def removals(self):
        yield from self.parts_away()
        yield from self.units_away()

    def splits(self):
        for i, (name, target) in enumerate(self.nodes):
            if not target or not any(f["target"] == i and f["reply"] for f in self.flows):
                continue
            across = next(b if a == ("node", i) else a for a, b in self.links if ("node", i) in (a, b))
            if across[0] == "node":
                continue
            taken = {end[2] for link in self.links for end in link if end[:2] == across[:2]}
            free = [port for port in range(1, 32) if port not in taken]
            if free:
                switch = self.switches[across[1]][0]
                line = f"with a link of its own for the target of {name}, at port {free[0]} of {switch}"
                yield Split(line, i, across[1], across[2], free[0])

    def after(self, split):
        """The network after the split, or None where it is none."""
        changed, own = copy.deepcopy(self), len(self.nodes)
        name = self.nodes[split.node][0] + "-target"
        if name in [part for part, _ in self.nodes + self.switches] or own == MAX_NODES or len(self.links) == MAX_LINKS:
            return None
        changed.nodes.append((name, True))
        if split.node in self.slots:
            changed.slots[own] = self.slots[split.node]
        changed.links.append((("node", own), ("switch", split.switch, split.port)))
        for flow in changed.flows:
            if flow["target"] == split.node and flow["reply"]:
                flow["target"] = own
                deleted, left = split_at(list(flow["address"]), flow["left"])
                if deleted and deleted[-1] == split.beside:
                    deleted[-1] = split.port
                flow["address"] = deleted + left
        return changed

    def parts_away(self):
        """What is taken away of parts."""
        for i, flow in enumerate(self.flows):
            if flow["reply"]:
                yield Change(f"the reply of {flow['name']}", reply=lambda n, f, i=i: n == i)
        yield from self.replies_between()
        for i, flow in enumerate(self.flows):
            yield Change(f"the flow {flow['name']}", flow=lambda n, f, i=i: n == i)
        for i, (name, target) in enumerate(self.nodes):
            if target:
                yield Change(f"any reply of {name}", reply=lambda n, f, i=i: f["target"] == i)
        yield from self.table_changes()

    def replies_between(self):
        """The replies of the flows from one node to another, where there are two or more: dictionaries keep the order of the first of them."""
        ways = Counter((flow["source"], flow["target"]) for flow in self.flows if flow["reply"])
        for way in (way for way, count in ways.items() if count > 1):
            source, target = (self.nodes[node][0] for node in way)
            line = f"the replies to the flows from {source} to {target}"
            yield Change(line, reply=lambda n, f, way=way: (f["source"], f["target"]) == way)

    def units_away(self):
        for i, (name, _) in enumerate(self.nodes):
            yield Change(f"the flows from and to {name}", flow=lambda n, f, i=i: i in (f["source"], f["target"]))

    def table_changes(self):
        places = [(s, e, entry) for s, (_, table) in enumerate(self.switches) for e, entry in enumerate(table)]
        for s, e, (low, high, ports, _) in places:
            for port in ports if len(ports) > 1 else []:
                yield Change(f"port {port} for {words(low, high)} at {self.switches[s][0]}", port=(s, e, port))
        for s, e, (low, high, _, _) in places:
            yield Change(f"the entry for {words(low, high)} at {self.switches[s][0]}", entry=(s, e))

    def without(self, *changes):
        """The network with all these changes made: what is taken out is marked first, and only then do numbers shift."""
        changed = copy.deepcopy(self)
        for n, flow in enumerate(self.flows):
            if any(change.loses_reply(n, flow) for change in changes):
                changed.flows[n]["reply"] = None
            if any(change.loses_flow(n, flow) for change in changes):
                changed.flows[n] = None
        changed.flows = [flow for flow in changed.flows if flow is not None]
        for switch, entry, port in [change.port for change in changes if change.port]:
            changed.switches[switch][1][entry][2].remove(port)
        gone = {change.entry for change in changes if change.entry}
        for s, (_, table) in enumerate(changed.switches):
            table[:] = [entry for e, entry in enumerate(table) if (s, e) not in gone]
        return changed

    def is_unlimited(self, flow):
        return bool(flow["reply"]) and "outstanding" not in flow and flow["source"] not in self.outstanding

    def limited(self, most=None, slots=()):
        """The network with this limit on each unlimited flow that is answered, and with these slots at targets."""
        changed = copy.deepcopy(self)
        for flow in filter(self.is_unlimited, changed.flows):
            flow["outstanding"] = most
        changed.slots.update(slots)
        return changed

    def wanted_slots(self):
        """By number the least slots with which each target that has a limit always takes what comes, where it does not; None where 64 are too few."""
        network, wanted = self.network(), {}
        for target in sorted({flow["target"] for flow in self.flows if flow["reply"]}):
            if network.limit(target) is not None and not network.always_takes(target):
                enough = [count for count in range(1, 65) if self.limited(slots={target: count}).network().always_takes(target)]
                if not enough:
                    return None
                wanted[target] = enough[0]
        return wanted

    def limiting(self):
        """The words of the limit and the slots that free the network first, or None."""
        unlimited = any(map(self.is_unlimited, self.flows))
        for most in range(8, 0, -1) if unlimited else []:
            if self.limited(most).verdict().status == 0:
                return f"with at most {most} unanswered command{'s' * (most > 1)} of each flow"
        limited = self.limited(1) if unlimited else self
        slots = limited.wanted_slots()
        if not slots or limited.limited(slots=slots).verdict().status:
            return None
        told = "slots " + ", ".join(f"{count} at {self.nodes[target][0]}" for target, count in slots.items())
        return f"with at most 1 unanswered command of each flow, and {told}" if unlimited else f"with {told}"

    def frees(self, *changes):
        changed = self.after(*changes) if isinstance(changes[0], Split) else self.without(*changes)
        return changed is not None and changed.verdict().status == 0

    def expected(self, pairs=False):
        verdict = self.verdict()
        if verdict.status == 0:
            return "free already\n", 0
        if verdict.words.startswith("misrouted"):
            return verdict.words + "\n", 1
        mends = [change.line for change in self.changes() if self.frees(change)]
        pairs = pairs and not mends
        if pairs:
            failing = [change for change in self.removals() if not self.frees(change)]
            mends = [f"{a.line} and {b.line}" for a, b in itertools.combinations(failing, 2) if self.frees(a, b)]
        mends += [unit.line for unit in self.units_away() if self.frees(unit)]
        limiting = self.limiting()
        mends = ([limiting] if limiting else []) + mends
        if not mends:
            return "no pair of changes frees it\n" if pairs else "no single change frees it\n", 1
        return "".join(f"free {line}\n" for line in mends), 0


def split_at(address, left):
    """The address bytes that are deleted on the way, and those that are left."""
    return address[: len(address) - left], address[len(address) - left :]


def words(low, high):
    return f"address {low}" if low == high else f"addresses {low} to {high}"


def differs(program, file, expected, pairs):
    """Tells of a file of which the program says something else."""
    found = called(program, "mend", file, *["--pairs"] * pairs)
    if found != expected:
        print(f"{file}: expected {expected}, found {found}")
    return found != expected


def side_by_side(one, other):
    """The text of two networks in one file; the names of the second begin with another letter."""
    lines = zip(one.splitlines(), re.sub(r'"([NSf]\d+)"', r'"x\1"', other).splitlines())
    joined = [max(next(lines))]
    for first, second in lines:
        key, parts = first.split(" = ", 1)[0], [line.split(" = ", 1)[1].strip()[1:-1].strip() for line in (first, second)]
        joined.append(f"{key} = [{', '.join(part for part in parts if part)}]")
    return "\n".join(joined) + "\n"


def some_network(numbers, pairs):
    """One network, or two side by side; of half of them commands are limited."""
    networks = [random_network(numbers) for _ in range(1 + pairs)]
    if numbers.random() < 0.5:
        networks = [add_limits(numbers, network) for network in networks]
    texts = [network.text() for network in networks]
    return side_by_side(*texts) if pairs else texts[0]


def kind_of(told, pairs):
    """What there may be no more of than half: free networks, or all that are answered without a pair being tried."""
    by_pairs = " and without " in told or told.startswith("no pair")
    return "answered without a pair" if pairs and not by_pairs else "free already" if told == "free already\n" else "others"


def differing_random(given, folder):
    """How many of so many random networks differ, no more than one: it stops there."""
    numbers, kinds, often = numbers_of(given), Counter(), "answered without a pair" if given.pairs else "free already"
    while kinds.total() < given.random:
        text = some_network(numbers, given.pairs)
        file = write(f"{folder}/network.toml", text)
        expected = Changing(tables(file)).expected(given.pairs)
        kind = kind_of(expected[0], given.pairs)
        if kind == often and 2 * kinds[often] >= given.random:
            continue
        kinds[kind] += 1
        if differs(given.program, file, expected, given.pairs):
            print(text)
            return 1
    print(f"{given.random} random networks, {kinds[often]} of them {often}")
    return 0


def show(files, pairs):
    for file in files:
        told, status = Changing(tables(file)).expected(pairs)
        name = os.path.relpath(file, f"{TOP}/examples")
        print(f"> swcheck mend {name}{' --pairs' * pairs}\n{told}status {status}", flush=True)


def compare(given):
    files = samples(*NAMES)
    if given.show:
        show(files, given.pairs)
        return 0
    differing = sum(differs(given.program, file, Changing(tables(file)).expected(given.pairs), given.pairs) for file in files)
    print(f"{len(files)} files, {differing} differ")
    with tempfile.TemporaryDirectory() as folder:
        return differing + (differing_random(given, folder) if given.random else 0)
