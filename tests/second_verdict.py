"""A second, slow program for the verdict on a network and its report, written from docs/FORMATS.md, docs/COMMANDS.md and docs/DEFINITIONS.md alone."""

FAULTS = {1: "M1 AddressEnds", 2: "M2 NoRoute", 3: "M3 WrongNode", 4: "M4 WrongLeft"}


class Network:
    """Nodes (name, whether it is a target), switches (name, table), links (two ends) and flows, all by number.

    An end is ("node", number) or ("switch", number, port); a table gives for a byte its ports and whether it is deleted. A flow has
    the keys name, source, target, address, left and reply, which is None or a path and an initiator's byte; where how many of its commands may
    be unanswered is limited, also outstanding. `slots` and `outstanding` are by node, where they are not 1 and not without limit.
    """

    def __init__(self, nodes, switches, links, flows, slots=None, outstanding=None):
        self.nodes, self.switches, self.links, self.flows = nodes, switches, links, flows
        self.slots, self.outstanding = slots or {}, outstanding or {}

    def limit(self, target):
        """How many commands may be unanswered at a target, or None."""
        total = 0
        for source in range(len(self.nodes)):
            flows = [f.get("outstanding") for f in self.flows if f["reply"] is not None and (f["source"], f["target"]) == (source, target)]
            those = [self.outstanding.get(source), None if None in flows else sum(flows)]
            if flows and those == [None, None]:
                return None
            total += min(it for it in those if it is not None) if flows else 0
        return total

    def always_takes(self, target):
        """Whether a target takes what comes, whatever it owes."""
        limit, slots = self.limit(target), self.slots.get(target, 1)
        others = [f for f in self.flows if f["target"] == target and f["reply"] is None]
        replied = [f for f in self.flows if f["source"] == target and f["reply"] is not None]
        return limit is not None and (limit < slots or limit == slots and not others and not replied)

    def node_text(self, i, name, target):
        slots = f", slots = {self.slots[i]}" if i in self.slots else ""
        text = f'{{ name = "{name}"' + (f", target = {{ logical = {100 + i}, size = 16{slots} }}" if target else "")
        return text + (f", outstanding = {self.outstanding[i]}" if i in self.outstanding else "") + " }"

    def text(self):
        """The network file: of version 3 where it has limits, and else of version 1."""
        nodes = [self.node_text(i, *node) for i, node in enumerate(self.nodes)]
        switches = []
        for name, table in self.switches:
            routes = [
                f"{{ address = {byte}, ports = {ports}" + (", delete = true" if deleted else "") + " }"
                for byte, (ports, deleted) in table.items()
            ]
            switches.append(f'{{ name = "{name}", route = [{", ".join(routes)}] }}')
        links = [f'{{ {self.end_keys("a", a)}, {self.end_keys("b", b)} }}' for a, b in self.links]
        flows = [self.flow_text(flow) for flow in self.flows]
        lists = [("node", nodes), ("switch", switches), ("link", links), ("flow", flows)]
        limited = self.slots or self.outstanding or any("outstanding" in f for f in self.flows)
        return f"version = {3 if limited else 1}\n" + "".join(f"{key} = [{', '.join(entries)}]\n" for key, entries in lists)

    def end_keys(self, key, end):
        if end[0] == "node":
            return f'{key} = "{self.nodes[end[1]][0]}"'
        return f'{key} = "{self.switches[end[1]][0]}", {key}_port = {end[2]}'

    def flow_text(self, flow):
        source, target = self.nodes[flow["source"]][0], self.nodes[flow["target"]][0]
        text = f'{{ name = "{flow["name"]}", from = "{source}", to = "{target}", address = {flow["address"]}, left = {flow["left"]}'
        if flow["reply"] is not None:
            path, initiator = flow["reply"]
            outstanding = f", outstanding = {flow['outstanding']}" if "outstanding" in flow else ""
            text += f", reply = {{ path = {path}, initiator = {initiator}{outstanding} }}"
        return text + " }"


class Verdict:
    """What `decide` and `report` write of a network: `decided`, its status, and `reported`."""

    def __init__(self, network):
        self.network = network
        self.starts = [end for link in network.links for end in link]
        self.ends = [self.starts[channel ^ 1] for channel in range(len(self.starts))]
        self.flows = self.all_flows()
        self.causes = {}
        self.places = [self.places_of(number, flow) for number, flow in enumerate(self.flows)]
        self.add_targets()
        self.before = {channel: {c for c, d in self.causes if d == channel} for channel in range(len(self.ends))}
        self.after = {channel: {d for c, d in self.causes if c == channel} for channel in range(len(self.ends))}
        self.decide()

    def all_flows(self):
        """The declared flows, and then the reply flows."""
        flows = [(f["name"], f["source"], f["target"], f["address"], f["left"]) for f in self.network.flows]
        for f in self.network.flows:
            if f["reply"] is not None:
                path, initiator = f["reply"]
                flows.append((f["name"] + "+reply", f["target"], f["source"], path + [initiator], 1))
        return flows

    def look(self, switch, byte):
        """The channels that a leading byte names at a switch, and whether the byte is deleted."""
        ports, deleted = ([byte], True) if byte < 32 else self.network.switches[switch][1].get(byte, ([], False))
        return [c for c, end in enumerate(self.starts) if end[0] == "switch" and end[1] == switch and end[2] in ports], deleted

    def places_of(self, number, flow):
        _, source, _, address, _ = flow
        start = (self.starts.index(("node", source)), 0)
        found, left = {start}, [start]
        while left:
            channel, count = left.pop()
            end = self.ends[channel]
            if end[0] == "node" or count == len(address):
                continue
            channels, deleted = self.look(end[1], address[count])
            for following in channels:
                self.causes.setdefault((channel, following), f"flow {flow[0]}")
                place = (following, count + deleted)
                if place not in found:
                    found.add(place)
                    left.append(place)
        return sorted(found)

    def add_targets(self):
        """A target where a flow with a reply ends takes nothing while it owes as many replies as it may, which some never do."""
        for flow in self.network.flows:
            if flow["reply"] is not None and not self.network.always_takes(flow["target"]):
                out = self.starts.index(("node", flow["target"]))
                self.causes.setdefault((out ^ 1, out), f"target {self.network.nodes[flow['target']][0]}")

    def fault_at(self, flow, place):
        _, _, target, address, left = flow
        channel, count = place
        end = self.ends[channel]
        if end[0] == "switch":
            if count == len(address):
                return 1
            return 0 if self.look(end[1], address[count])[0] else 2
        if end[1] != target:
            return 3
        return 0 if len(address) - count == left else 4

    def first_fault(self):
        for flow, places in zip(self.flows, self.places):
            for channel, count in places:
                fault = self.fault_at(flow, (channel, count))
                if fault:
                    return f"misrouted {flow[0]} {channel} {count} {FAULTS[fault]}"
        return None

    def reached(self, channel):
        """The channels that chains of one dependency or more lead to."""
        found, left = set(), [channel]
        while left:
            for following in self.after[left.pop()] - found:
                found.add(following)
                left.append(following)
        return found

    def cycle(self):
        """The cycle to show, or none."""
        reached = [self.reached(channel) for channel in range(len(self.ends))]
        on_cycles = {channel for channel, those in enumerate(reached) if channel in those}
        if not on_cycles:
            return None
        behind = on_cycles.union(*(reached[channel] for channel in on_cycles))
        walk = [min(behind)]
        while walk.count(walk[-1]) == 1:
            walk.append(min(self.before[walk[-1]] & behind))
        cycle = walk[walk.index(walk[-1]) + 1 :][::-1]
        first = cycle.index(min(cycle))
        return cycle[first:] + cycle[:first]

    def end_text(self, end):
        if end[0] == "node":
            return self.network.nodes[end[1]][0]
        return f"{self.network.switches[end[1]][0]}:{end[2]}"

    def cycle_lines(self, cycle):
        for channel, following in zip(cycle, cycle[1:] + cycle[:1]):
            ends = f"{self.end_text(self.starts[channel])}>{self.end_text(self.ends[channel])}"
            yield f"channel {channel} {ends} by {self.causes[channel, following]}"

    def levels(self):
        """For each channel the most dependencies in a chain that ends there."""
        levels = {}

        def level(channel):
            if channel not in levels:
                levels[channel] = max((level(other) + 1 for other in self.before[channel]), default=0)
            return levels[channel]

        return [level(channel) for channel in range(len(self.ends))]

    def certificate_lines(self, levels):
        yield from ["swcert 1", f"channels {len(levels)}"]
        yield from (f"number {level}" for level in levels)
        yield f"flows {len(self.flows)}"
        for places in self.places:
            yield f"flow {len(places)}"
            yield from (f"place {channel} {count}" for channel, count in places)
        yield "end"

    def decide(self):
        self.words, cycle = self.first_fault(), self.cycle()
        if self.words is not None:
            lines, self.status = [self.words], 1
        elif cycle is not None:
            self.words = f"cyclic {len(cycle)}"
            lines, self.status = [self.words, *self.cycle_lines(cycle)], 1
        else:
            levels = self.levels()
            self.words = f"free height {max(levels, default=0)}"
            lines, self.status = list(self.certificate_lines(levels)), 0
        self.decided = "".join(line + "\n" for line in lines)
        network = self.network
        counts = [
            ("nodes", len(network.nodes)),
            ("switches", len(network.switches)),
            ("links", len(network.links)),
            ("channels", len(self.ends)),
            ("flows", len(network.flows)),
            ("replies", len(self.flows) - len(network.flows)),
            ("places", sum(len(places) for places in self.places)),
            ("dependencies", len(self.causes)),
        ]
        self.reported = "".join(f"{name} {count}\n" for name, count in counts) + f"verdict {self.words}\n"
