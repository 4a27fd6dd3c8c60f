"""Reads a network file, or gives its first fault: written from docs/FORMATS.md alone, for tools/check_certificate.py.

It reads TOML 1.0, as Python's tomllib does, and the program TOML 1.1: a file that is TOML 1.1 only is `fault F1 Syntax` here. The
program gives `F1` where arrays, inline tables or the parts of a key are nested more than 80 deep; here that is another fault.
"""
import re
import tomllib

MOST_BYTES = 67_108_864
NEEDED = object()
NAME = re.compile(r"[A-Za-z0-9_.-]{1,32}")


class Fault(Exception):
    """Its text is what follows the word `fault`."""


class Table:
    """A table of the file; `where` names it in faults."""

    def __init__(self, values, where, keys):
        self.values, self.where = values, where
        for key in sorted(values.keys() - keys.split(), key=str.encode):
            self.fault("F2 UnknownKey", key)

    def fault(self, code, key):
        raise Fault(f"{code} {self.where} {key}")

    def take(self, key, kind, allowed=None, default=NEEDED, code="F5 OutOfRange"):
        value = self.values.get(key, default)
        if value is NEEDED:
            self.fault("F3 MissingKey", key)
        if type(value) is not kind:
            self.fault("F4 WrongType", key)
        if allowed is not None and value not in allowed:
            self.fault(code, key)
        return value

    def number(self, key, least, most, default=NEEDED):
        return self.take(key, int, range(least, most + 1), default)

    def numbers(self, key, most, lengths, default=NEEDED):
        values = self.take(key, list, None, default)
        for value in values:
            Table({key: value}, self.where, key).number(key, 0, most)
        if len(values) not in lengths:
            self.fault("F5 OutOfRange", key)
        return values

    def tables(self, key, most=MOST_BYTES, too_many=""):
        values = self.take(key, list, None, [])
        if any(type(value) is not dict for value in values):
            self.fault("F4 WrongType", key)
        if len(values) > most:
            raise Fault(too_many)
        return enumerate(values)

    def table(self, key, keys):
        return Table(self.take(key, dict), f"{self.where} {key}", keys)

    def named(self, names, meaning):
        name = self.take("name", str)
        if not NAME.fullmatch(name):
            self.fault("F5 OutOfRange", "name")
        if name in names:
            self.fault("F6 DuplicateName", "name")
        names[name] = meaning
        return name


class Network:
    """What a network file says.

    `starts` has for each channel the end where it starts, ("node", number) or ("switch", number, port); `routes` for each switch its
    table, from an address to the ports and whether it is deleted; `flows` each flow, replies after the declared ones, as
    (name, node it comes from, node it goes to, address, left); `waiting` the targets that answer a flow and don't always take what comes.
    """

    def __init__(self, text):
        document = Table(parse(text), "document", "version node switch link flow")
        self.version = document.number("version", 1, 3)
        self.is_new, self.has_limits = self.version >= 2, self.version >= 3
        self.names, self.slots, self.outstanding, self.commands = {}, {}, {}, []
        nodes = document.tables("node", 1024, "F8 E4 TooMany node")
        self.is_target = [self.node(Table(it, f"node {i}", "name target" + " outstanding" * self.has_limits), i) for i, it in nodes]
        switches = document.tables("switch", 512, "F8 E4 TooMany switch")
        self.routes = [self.switch(Table(it, f"switch {i}", "name arbiter route"), i) for i, it in switches]
        link_keys = "a b a_port b_port buffer" + " buffer_a buffer_b" * self.is_new
        links = document.tables("link", 1024, "F8 E4 TooMany link")
        self.starts = [end for i, it in links for end in self.link(Table(it, f"link {i}", link_keys))]
        self.check_joins()
        self.nodes = {name: end[1] for name, end in self.names.items() if end[0] == "node"}
        flow_names, declared, replies = {}, [], []
        for i, it in document.tables("flow", 4096, "F5 OutOfRange document flow"):
            flow = Table(it, f"flow {i}", "name from to address left reply")
            declared.append(self.flow(flow, flow_names))
            if "reply" in it:
                replies.append(self.reply(flow, i, declared[-1]))
        self.flows = declared + replies
        self.waiting = {target for _, target, _ in self.commands if not self.always_takes(target)}

    def node(self, node, i):
        """Returns whether the node is a target."""
        node.named(self.names, ("node", i))
        is_target = self.target(node, i)
        self.outstanding[i] = node.number("outstanding", 1, 65535) if "outstanding" in node.values else None
        return is_target

    def target(self, node, i):
        if "target" not in node.values:
            return False
        target = node.table("target", "logical key start size" + " slots" * self.is_new)
        target.number("logical", 32, 254)
        target.number("key", 0, 255, 0)
        start = target.number("start", 0, 2**40 - 1, 0)
        target.number("size", 1, min(65536, 2**40 - start))
        self.slots[i] = target.number("slots", 1, 64 if self.has_limits else 8, 1)
        return True

    def switch(self, switch, i):
        """Returns the routing table."""
        switch.named(self.names, ("switch", i))
        switch.take("arbiter", str, ("fixed", "round-robin", "least-recent"), "round-robin")
        routes = {}
        for j, entry in switch.tables("route"):
            route = Table(entry, f"switch {i} route {j}", "address ports delete" + " last" * self.is_new)
            first = route.number("address", 32, 254)
            addresses = range(first, route.number("last", first, 254, first) + 1)
            leads = route.numbers("ports", 31, range(1, 33)), route.take("delete", bool, None, False)
            if routes.keys() & addresses:
                raise Fault(f"F9 DuplicateRoute switch {i} route {j}")
            routes.update(dict.fromkeys(addresses, leads))
        return routes

    def link(self, link):
        """Returns the ends `a` and `b`."""
        ends = []
        for side in "ab":
            end, port = self.names[link.take(side, str, self.names, code="F7 UnknownName")], f"{side}_port"
            if end[0] == "node" and port in link.values:
                link.fault("F2 UnknownKey", port)
            ends.append(end if end[0] == "node" else (*end, link.number(port, 0, 31)))
        for key in ("buffer", "buffer_a", "buffer_b"):
            link.number(key, 8, 4096, 64)
        return ends

    def check_joins(self):
        for at, end in enumerate(self.starts):
            if end[0] == "switch" and end in self.starts[:at]:
                raise Fault(f"F8 E1 PortTaken link {at // 2}")
        for i in range(len(self.is_target)):
            if self.starts.count(("node", i)) != 1:
                raise Fault(f"F8 E2 NodeLinks node {i}")
        for i in range(len(self.routes)):
            if not any(end[:2] == ("switch", i) for end in self.starts):
                raise Fault(f"F8 E3 PortUnlinked switch {i}")

    def flow(self, flow, names):
        name = flow.named(names, None)
        source, target = (self.nodes[flow.take(key, str, self.nodes, code="F7 UnknownName")] for key in ("from", "to"))
        address = flow.numbers("address", 255, range(33), [])
        return name, source, target, address, flow.number("left", 0, len(address), 0)

    def reply(self, flow, i, declared):
        """Returns the flow of replies to a declared flow."""
        reply = flow.table("reply", "path initiator" + " outstanding" * self.has_limits)
        path, initiator = reply.numbers("path", 255, range(MOST_BYTES), []), reply.number("initiator", 0, 255)
        outstanding = reply.number("outstanding", 1, 65535) if "outstanding" in reply.values else None
        name, source, target, _, _ = declared
        if len(path) > 12 or path[:1] == [0] or not 32 <= initiator <= 254 or not self.is_target[target]:
            raise Fault(f"F10 ReplyShape flow {i}")
        self.commands.append((source, target, outstanding))
        return name + "+reply", target, source, [*path, initiator], 1

    def limit(self, target):
        """How many commands may be unanswered at a target: of each node as many as its flows may have together, or the node, if that is less."""
        total = 0
        for node, own in self.outstanding.items():
            of_flows = [outstanding for source, at, outstanding in self.commands if (source, at) == (node, target)]
            known = [*([own] if own is not None else []), *([sum(of_flows)] if None not in of_flows else [])]
            if of_flows and not known:
                return None
            total += min(known) if of_flows else 0
        return total

    def always_takes(self, target):
        """Whether fewer commands may be unanswered there than replies may be owed, or as many, where nothing else ends there."""
        limit, slots = self.limit(target), self.slots[target]
        ends = sum(flow[2] == target for flow in self.flows)
        return limit is not None and (limit < slots or limit == slots and ends == sum(at == target for _, at, _ in self.commands))


def is_too_large(value):
    """Whether a number in it is beyond 64 bits, which is a fault of TOML that tomllib lets pass."""
    if type(value) is int:
        return not -(2**63) <= value < 2**63
    inner = value.values() if type(value) is dict else value if type(value) is list else ()
    return any(map(is_too_large, inner))


def parse(text):
    if len(text) > MOST_BYTES:
        raise Fault("A1 TooLong")
    try:
        values = tomllib.loads(text.decode("utf-8-sig"))
        if not is_too_large(values):
            return values
    except (ValueError, RecursionError):
        pass
    raise Fault("F1 Syntax")
