"""Random descriptions of networks for the Python module: rings, trees and meshes of routers, with modes or without."""
from collections import deque

from swcheck import Network, Reply, Target

MODES = ("nominal", "redundant")
# Texts that a comment may be, and that have to be kept.
COMMENTS = ("", "", "a comment", 'with "quotes", # and \\ and [brackets]', "two\nlines", "größer als µ, ≥ 1\tand a tab")


class Draft:
    """A random description, as plain values: what is to be declared, and what the files have to say."""

    def __init__(self, numbers):
        self.random = numbers
        self.modes = numbers.choice([(), MODES])
        self.routers, self.units, self.links, self.flows, self.entries = {}, {}, [], [], []
        self.logicals = numbers.sample(range(32, 255), 60)
        for shape in (self.add_routers, self.add_switched, self.add_units, self.add_entries, self.add_flows):
            shape()

    def some_modes(self, most=0.3):
        """None, which is for all modes, or one of them."""
        return self.random.choice(self.modes) if self.modes and self.random.random() < most else None

    def port(self, router):
        """A free port of a router, where packets of replies may begin: not 0."""
        return f"{router}:{self.routers[router]['free'].pop()}"

    def link(self, a, b, modes=None):
        a, b = (a, b) if self.random.random() < 0.5 else (b, a)
        buffers = {key: self.random.randint(8, 4096) for key in ("buffer", "buffer_a", "buffer_b") if self.random.random() < 0.1}
        self.links.append({"a": a, "b": b, "modes": modes, "comment": self.random.choice(COMMENTS), **buffers})

    def add_router(self, name, modes=None):
        numbers = self.random.sample(range(1, 32), 31)
        names = {f"p{it}-{name}": it for it in self.random.sample(numbers, self.random.randint(0, 6))}
        arbiter = self.random.choice([None, "fixed", "round-robin", "least-recent"])
        self.routers[name] = {"free": numbers, "ports": names, "arbiter": arbiter, "modes": modes, "comment": self.random.choice(COMMENTS)}

    def add_routers(self):
        """Routers that hang together in each mode: a ring, a tree, or a tree with more links, some beside another one."""
        shape, count = self.random.choice(["ring", "tree", "mesh"]), self.random.randint(2, 7)
        for at in range(count):
            self.add_router(f"R{at}")
            if at:
                self.link(self.port(f"R{at}"), self.port(f"R{at - 1 if shape == 'ring' else self.random.randrange(at)}"))
        more = {"ring": [(count - 1, 0)], "tree": [], "mesh": [self.random.sample(range(count), 2) for _ in range(count)]}[shape]
        for a, b in more:
            self.link(self.port(f"R{a}"), self.port(f"R{b}"), self.some_modes())

    def add_switched(self):
        """Routers that are on in one mode alone, each a short cut between others."""
        bases = [*self.routers]
        for at in range(self.random.choice([0, 1, 2]) if self.modes else 0):
            name, mode = f"X{at}", self.random.choice(self.modes)
            self.add_router(name, mode)
            for base in self.random.sample(bases, 2):
                self.link(self.port(name), self.port(base))

    def add_units(self):
        bases = [it for it, of in self.routers.items() if of["modes"] is None]
        for at in range(self.random.randint(2, 10)):
            name, modes, numbers = f"unit.{at}", self.some_modes(0.15 if at else 0), self.random
            words = {"logical": self.logicals.pop() if numbers.random() < 0.9 else None, "target": None, "modes": modes}
            if words["logical"] is not None and numbers.random() < 0.7:
                window = {"size": numbers.randint(1, 65536), "start": numbers.choice([0, 0x40000000, 2**40 - 65536])}
                words["target"] = {**window, "key": numbers.choice([0, 0x20, 255]), "slots": numbers.choice([1, 1, 2, 64])}
            self.units[name] = {**words, "outstanding": numbers.choice([None, None, 1, 65535]), "comment": numbers.choice(COMMENTS)}
            if self.modes and modes is None and numbers.random() < 0.5:
                for mode, base in zip(self.modes, numbers.choices(bases, k=2)):
                    self.link(name, self.port(base), mode)
            else:
                self.link(name, self.port(numbers.choice(bases)))

    def add_entries(self):
        """Entries that lead nearer to a unit, or nowhere, of networks without modes."""
        for name, unit in self.units.items():
            if unit["logical"] is not None and not self.modes and self.random.random() < 0.3:
                steps, router = self.steps(None, name), self.random.choice([*self.routers])
                ways = [it for it in self.exits(None, router) if self.is_nearer(steps, router, it[1], name)]
                port, _ = self.random.choice(ways)
                self.entries.append((router, unit["logical"], [port]))
        if self.logicals and self.random.random() < 0.3:
            low, used = self.logicals.pop(), {it["logical"] for it in self.units.values()}
            last = low
            while last < 254 and last + 1 not in used and self.random.random() < 0.7:
                last += 1
            ports = self.random.sample(range(32), self.random.randint(1, 4))
            self.entries.append((self.random.choice([*self.routers]), low, ports, last, self.random.random() < 0.5))

    def add_flows(self):
        names = [*self.units]
        for at in range(self.random.randint(1, 8)):
            start, end = self.random.choice(names), self.random.choice(names)
            shared = [it for it in self.modes if all(self.is_on(self.units[unit], it) for unit in (start, end))]
            if not self.modes or shared:
                self.flows.append(self.flow(f"flow_{at}", start, end, shared))

    def flow(self, name, start, end, shared):
        """A flow with its words. None goes by a logical address and over given routers: others may want other ports there."""
        numbers, source, goal = self.random, self.units[start], self.units[end]
        one_mode = numbers.choice(shared) if shared and numbers.random() < 0.3 else None
        on = [one_mode] if one_mode else shared
        words = {"modes": one_mode, "comment": numbers.choice(COMMENTS), "logical": goal["logical"] is not None and numbers.random() < 0.4}
        mode = on[0] if on else None
        if len(on) < 2 and start != end and numbers.random() < 0.3 and not words["logical"]:
            words["via"] = self.any_way(mode, start, end)
        if goal["target"] is not None and source["logical"] is not None and numbers.random() < 0.8:
            words["outstanding"] = numbers.choice([None, 1, 7])
            words["reply"] = self.reply(mode, (end, start), len(on) < 2 and start != end, "via" in words)
        return {"name": name, "from": start, "to": end, "on": on, **words}

    def reply(self, mode, ends, may_say_way, has_way):
        kind = self.random.choice(["same", "path", "exact", *(["via"] if may_say_way else []), *([] if has_way else ["logical"])])
        exact = {"path": [self.random.randint(1, 31)], "initiator": self.random.randint(32, 254), "is_astray": True}
        found = {"same": True, "path": {"logical": False}, "exact": exact, "logical": {"logical": True}}
        return {"via": self.any_way(mode, *ends), "logical": False} if kind == "via" else found[kind]

    # What the draft comes to, found in another way than the module's.

    def is_on(self, part, mode):
        return part["modes"] in (None, mode)

    def is_link_on(self, link, mode):
        ends = [self.routers[it.partition(":")[0]] if ":" in it else self.units[it] for it in (link["a"], link["b"])]
        return mode is None or all(self.is_on(it, mode) for it in (link, *ends))

    def across(self, mode):
        on = [it for it in self.links if self.is_link_on(it, mode)]
        return {**{it["a"]: it["b"] for it in on}, **{it["b"]: it["a"] for it in on}}

    def exits(self, mode, router):
        return [(int(a.partition(":")[2]), b) for a, b in self.across(mode).items() if a.partition(":")[0] == router]

    def steps(self, mode, unit):
        """How many routers are on the shortest way from each router to a unit, its own counted."""
        across = self.across(mode)
        found = {across[unit].partition(":")[0]: 1}
        left = deque(found)
        while left:
            router = left.popleft()
            for _, end in self.exits(mode, router):
                other = end.partition(":")[0]
                if ":" in end and other not in found:
                    found[other] = found[router] + 1
                    left.append(other)
        return found

    def is_nearer(self, steps, router, end, unit):
        return end == unit if steps[router] == 1 else ":" in end and steps[end.partition(":")[0]] < steps[router]

    def any_way(self, mode, start, end):
        """Ports, or routers where these alone say as much, of any way from a unit to another that goes over no router twice."""
        across = self.across(mode)
        goal = across[end]

        def ways(router, seen):
            if router == goal.partition(":")[0]:
                yield [goal]
                return
            exits = self.exits(mode, router)
            self.random.shuffle(exits)
            for port, other in exits:
                if ":" in other and other.partition(":")[0] not in seen:
                    for rest in ways(other.partition(":")[0], {*seen, other.partition(":")[0]}):
                        yield [f"{router}:{port}", *rest]

        first = across[start].partition(":")[0]
        return next(ways(first, {first}))

    def walk(self, mode, unit, path):
        """The links over which a packet of a unit goes by path addresses: where each begins and ends, and how many bytes are deleted there."""
        across = self.across(mode)
        places = [(unit, across[unit], 0)]
        for at, byte in enumerate(path, 1):
            out = f"{places[-1][1].partition(':')[0]}:{byte}"
            places.append((out, across[out], at))
        return places

    # The description by the module.

    def network(self):
        net = Network(f"draft, {self.modes}", self.modes)
        for name, of in self.routers.items():
            net.router(name, ports=of["ports"], arbiter=of["arbiter"], modes=of["modes"], comment=of["comment"])
        for name, of in self.units.items():
            net.unit(name, **{**of, "target": of["target"] and Target(**of["target"])})
        for of in self.links:
            net.link(**of)
        for router, address, ports, *more in self.entries:
            net.route(router, address, ports, **dict(zip(("last", "delete"), more)))
        for of in self.flows:
            words = {key: it for key, it in of.items() if key not in ("from", "to", "on", "reply")}
            reply = of.get("reply", False)
            if isinstance(reply, dict):
                reply = Reply(**{key: it for key, it in reply.items() if key != "is_astray"})
            net.flow(**words, from_=of["from"], to=of["to"], reply=reply)
        return net
