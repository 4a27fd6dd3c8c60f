"""A second, slow program for what swcheck notes of a network file, written from docs/FORMATS.md and docs/COMMANDS.md alone."""
import tomllib

from network_file import Network


class Lint:
    """The notes on a network file's text, in `texts`."""

    def __init__(self, text):
        found = tomllib.loads(text.decode("utf-8-sig"))
        self.network = Network(text)
        self.nodes = [it["name"] for it in found.get("node", [])]
        self.switches = [it["name"] for it in found.get("switch", [])]
        self.entries = [[(it["address"], it.get("last", it["address"]), sorted({*it["ports"]})) for it in switch.get("route", [])] for switch in found.get("switch", [])]
        self.declared = len(found.get("flow", []))
        self.flows = found.get("flow", [])
        self.logicals = {it["name"]: it["target"]["logical"] for it in found.get("node", []) if "target" in it}
        self.replied = {i for i, it in enumerate(found.get("flow", [])) if "reply" in it}
        self.starts = self.network.starts
        self.channel_at = {it: c for c, it in enumerate(self.starts)}
        self.places = [self.places_of(it) for it in self.network.flows]
        self.texts = [*self.circling(), *self.unused(), *self.groups(), *self.shared(), *self.addresses()] if self.declared else ["the network has no flows"]

    def end(self, channel):
        return self.starts[channel ^ 1]

    def looked(self, switch, byte):
        """The channels that a byte leads to, and how many address bytes are deleted."""
        ports, deleted = ([byte], True) if byte < 32 else self.network.routes[switch].get(byte, ([], False))
        return [self.channel_at[it] for it in (("switch", switch, port) for port in ports) if it in self.channel_at], int(deleted)

    def places_of(self, flow):
        """The places of a flow, rising."""
        found, left = set(), [(self.channel_at["node", flow[1]], 0)]
        while left:
            place = left.pop()
            if place not in found:
                found.add(place)
                left += self.following(flow, place)
        return sorted(found)

    def following(self, flow, place):
        """The places to which packets of the flow go on from a place."""
        channel, deleted = place
        end, address = self.end(channel), flow[3]
        if end[0] == "node" or deleted == len(address):
            return []
        channels, more = self.looked(end[1], address[deleted])
        return [(it, deleted + more) for it in channels]

    def circles(self, flow, places):
        """For each set of these places from each of which packets can come to each other: the shortest circle, as channels."""
        leads = {it: sorted({*self.following(flow, it)} & {*places}) for it in places}
        ways = {goal: steps_to(goal, leads) for goal in places}
        left = {it for it in places if it in ways[it]}
        while left:
            first = min(left)
            together = {it for it in left if it in ways[first] and first in ways[it]}
            left -= together
            circle = [min(together, key=lambda it: (ways[it][it], it))]
            back = ways[circle[0]]
            while len(circle) < back[circle[0]]:
                circle.append(next(it for it in leads[circle[-1]] if it in back and back[it] == back[circle[0]] - len(circle)))
            yield [channel for channel, _ in circle]

    def circling(self):
        """Flows whose packets can come back to a place, and those of which none arrives."""
        for flow, places in zip(self.network.flows, self.places):
            same = ([it for it in places if it[1] == deleted] for deleted in range(len(flow[3])))
            circles = [circle for it in same for circle in self.circles(flow, it)]
            arrives = any(self.end(channel) == ("node", flow[2]) for channel, _ in places)
            told = "; over ".join(", ".join(map(self.channel_text, it)) for it in circles)
            over = f": they {'can ' * arrives}circle over {told}" if circles else ""
            if circles or not arrives:
                yield f"packets of {flow[0]} {'may ' * arrives}never reach {self.nodes[flow[2]]}{over}"

    def arrivals(self, switch):
        """Flow, port and leading byte of each place on a channel that ends at the switch."""
        for number, places in enumerate(self.places):
            address = self.network.flows[number][3]
            for channel, deleted in places:
                end = self.end(channel)
                if end[:2] == ("switch", switch):
                    yield number, end[2], address[deleted] if deleted < len(address) else None

    def told(self, switch, entry):
        first, last, _ = self.entries[switch][entry]
        addresses = f"address {first}" if first == last else f"addresses {first} to {last}"
        return f"{addresses} at {self.switches[switch]}"

    def is_used(self, switch):
        return any(end[:2] == ("switch", switch) for places in self.places for c, _ in places for end in (self.starts[c], self.end(c)))

    def unused(self):
        declared = self.network.flows[: self.declared]
        comes_from, goes_to = {it[1] for it in declared}, {it[2] for it in declared}
        yield from (f"no flow is from or to the node {name}" for n, name in enumerate(self.nodes) if n not in comes_from | goes_to)
        yield from (f"no flow goes over the switch {name}" for s, name in enumerate(self.switches) if not self.is_used(s))
        for n, name in enumerate(self.nodes):
            if self.network.is_target[n] and n in comes_from - goes_to:
                yield f"no flow goes to the target {name}"
        for s in range(len(self.switches)):
            bytes_here = {byte for _, _, byte in self.arrivals(s)} - {None}
            for e, (first, last, _) in enumerate(self.entries[s] if self.is_used(s) else []):
                if not any(first <= it <= last for it in bytes_here):
                    yield f"no flow uses the entry for {self.told(s, e)}"

    def linked(self, switch, ports):
        return [it for it in ports if ("switch", switch, it) in self.channel_at]

    def all_entries(self):
        return ((s, e, *entry) for s, entries in enumerate(self.entries) for e, entry in enumerate(entries))

    def groups(self):
        for s, e, _, _, ports in self.all_entries():
            linked = self.linked(s, ports)
            if len(ports) > 1 and len(linked) == 1:
                yield f"of the group for {self.told(s, e)} one port alone has a link: {linked[0]}"
        for s, e, first, last, ports in self.all_entries():
            back = [(port, byte, number) for number, port, byte in self.arrivals(s) if port in ports and byte is not None and first <= byte <= last]
            if len(self.linked(s, ports)) > 1 and back:
                port, _, number = min(back)
                flow = self.network.flows[number][0]
                yield f"the group for {self.told(s, e)} may lead packets of {flow} back over port {port} by which they come"

    def are_opposed(self, one, other):
        """Whether they are two targets one of which does not always take what comes."""
        return one != other and bool({one, other} & self.network.waiting)

    def shared(self):
        for link in range(len(self.starts) // 2):
            over = [[f for f in sorted(self.replied) if any(c == channel for c, _ in self.places[f])] for channel in (2 * link, 2 * link + 1)]
            pair = next(((f, g) for f in over[0] for g in over[1] if self.are_opposed(self.network.flows[f][2], self.network.flows[g][2])), None)
            if pair:
                told = [f"{self.network.flows[it][0]} to {self.nodes[self.network.flows[it][2]]}" for it in pair]
                yield f"commands of {told[0]} go over {self.channel_text(2 * link)} and of {told[1]} the other way: while both targets answer, each can wait for the other"

    def come_with(self):
        """For each declared flow the first address byte that is left at its end, or none."""
        return [it["address"][-left] if (left := it.get("left", 0)) else None for it in self.flows]

    def addresses(self):
        left = self.come_with()
        for flow, byte in zip(self.flows, left):
            logical = self.logicals.get(flow["to"])
            if None not in (byte, logical) and byte != logical:
                yield f"packets of {flow['name']} come to {flow['to']} with logical address {byte} in place of {logical}"
        for flow in (it for it in self.flows if "reply" in it):
            start, initiator = flow["from"], flow["reply"]["initiator"]
            known = {self.logicals.get(start), *(byte for it, byte in zip(self.flows, left) if it["to"] == start)} - {None}
            if known and initiator not in known | {254}:
                yield f"the initiator logical address {initiator} of {flow['name']} is no known address of {start}"
        for i, flow in enumerate(self.flows):
            for one in self.flows[:i]:
                both = [it["reply"]["initiator"] for it in (one, flow) if "reply" in it]
                if (one["from"], one["to"]) == (flow["from"], flow["to"]) and len({*both}) == 2:
                    yield (f"{one['name']} and {flow['name']} go from {flow['from']} to {flow['to']} "
                           f"with different initiator logical addresses: {both[0]} and {both[1]}")
                    break

    def channel_text(self, channel):
        names = {end: name for name, end in self.network.names.items()}
        text = lambda it: names[it] if it[0] == "node" else f"{names[it[:2]]}:{it[2]}"
        return f"{text(self.starts[channel])}>{text(self.end(channel))}"


def steps_to(goal, leads):
    """From where one or more steps lead to the goal, and by how few."""
    steps, reached = {}, [goal]
    for count in range(1, len(leads) + 1):
        reached = [it for it in leads if it not in steps and not {*reached}.isdisjoint(leads[it])]
        steps.update(dict.fromkeys(reached, count))
    return steps


def lint_texts(text):
    return Lint(text).texts
