"""Random valid networks: small, connected, with path and logical addresses, some packets led astray, some targets that answer."""
from collections import deque

from second_verdict import Network

PORTS = 20


class Draft:
    """A network in the making, by one random generator."""

    def __init__(self, random, nodes, switches):
        self.random = random
        self.nodes = [(f"N{i}", random.random() < 0.5) for i in range(random.randint(2, nodes))]
        self.switches = [(f"S{i}", {}) for i in range(random.randint(1, switches))]
        self.free = [random.sample(range(32), PORTS) for _ in self.switches]
        self.links = []

    def port(self, switch):
        """A free port of the switch: there are enough for what is linked here."""
        return ("switch", switch, self.free[switch].pop())

    def link(self, one, other):
        self.links.append((one, other) if self.random.random() < 0.5 else (other, one))

    def wire(self):
        random = self.random
        for node in range(len(self.nodes)):
            # the first node at the last switch, so that no switch is left without a link
            switch = random.randrange(len(self.switches)) if node else len(self.switches) - 1
            self.link(("node", node), self.port(switch))
        for switch in range(1, len(self.switches)):
            self.link(self.port(switch), self.port(random.randrange(switch)))
        for _ in range(random.choice([0, 0, 0, 1, 1, 2])):
            # may join two ports of one switch
            self.link(self.port(random.randrange(len(self.switches))), self.port(random.randrange(len(self.switches))))
        random.shuffle(self.links)

    def across(self, end):
        """The other end of the link at an end."""
        for one, other in self.links:
            if end in (one, other):
                return other if end == one else one

    def neighbours(self, switch):
        """The ports of a switch that have a link, with the ends across, in random order."""
        ends = [end for link in self.links for end in link if end[0] == "switch" and end[1] == switch]
        self.random.shuffle(ends)
        return [(end[2], self.across(end)) for end in ends]

    def path(self, source, target, detours):
        """Path addresses from node to node, after some steps at random."""
        switch, path = self.across(("node", source))[1], []
        for _ in range(detours):
            steps = [(port, end) for port, end in self.neighbours(switch) if end[0] == "switch"]
            if steps:
                port, end = steps[0]
                path, switch = path + [port], end[1]
        left, seen = deque([(switch, path)]), {switch}
        while left:
            switch, path = left.popleft()
            for port, end in self.neighbours(switch):
                if end == ("node", target):
                    return path + [port]
                if end[0] == "switch" and end[1] not in seen:
                    seen.add(end[1])
                    left.append((end[1], path + [port]))
        raise ValueError("the switches hang together")

    def add_logical(self, target, byte):
        """Entries for a logical address of a node in each switch, some with a second port."""
        random, home = self.random, self.across(("node", target))
        self.switches[home[1]][1][byte] = ([home[2]], False)
        left = deque([home[1]])
        while left:
            for _, end in self.neighbours(left.popleft()):
                if end[0] == "node":
                    continue
                table = self.switches[end[1]][1]
                if byte not in table:
                    table[byte] = ([end[2]], False)
                    left.append(end[1])
                elif end[1] != home[1] and random.random() < 0.05:
                    table[byte][0].append(end[2])

    def add_tables(self):
        """Logical addresses of some nodes, and some entries that lead anywhere."""
        random, self.logical = self.random, {}
        for node in range(len(self.nodes)):
            if random.random() < 0.4:
                self.logical[node] = 40 + node
                self.add_logical(node, 40 + node)
        for _, table in self.switches:
            if random.random() < 0.2:
                table[random.randint(60, 254)] = ([random.randrange(32) for _ in range(random.randint(1, 3))], random.random() < 0.5)

    def address(self, source, target):
        """Address bytes of a flow, mostly right ones, and how many of them are to be left."""
        random = self.random
        if target in self.logical and random.random() < 0.5:
            address, left = [self.logical[target]], 1
        else:
            address, left = self.path(source, target, random.choice([0, 0, 0, 0, 1, 2, 3])), 0
            if random.random() < 0.3:
                address, left = address + [random.randint(32, 255)], 1
        if random.random() < 0.03:
            address = address + [random.randrange(256)]
        if random.random() < 0.03:
            address = address[:-1]
        return address, min(left, len(address))

    def reply(self, source, target):
        """What a target's reply is sent by, where the flow has one."""
        random = self.random
        if not self.nodes[target][1] or random.random() < 0.4:
            return None
        if source in self.logical and random.random() < 0.5:
            return [], self.logical[source]
        path = self.path(target, source, 0)
        # a path may not begin with 0; a wrong one leads the reply astray
        return (path if path[0] and random.random() < 0.97 else [random.randint(1, 31)]), 103

    def flow(self, number):
        source, target = self.random.sample(range(len(self.nodes)), 2)
        address, left = self.address(source, target)
        reply = self.reply(source, target)
        return {"name": f"f{number}", "source": source, "target": target, "address": address, "left": left, "reply": reply}


def add_limits(random, network):
    """Slots and limits on unanswered commands, so that most flows of commands are limited."""
    network.slots = {i: random.randint(1, 4) for i, (_, target) in enumerate(network.nodes) if target and random.random() < 0.8}
    network.outstanding = {i: random.randint(1, 3) for i in range(len(network.nodes)) if random.random() < 0.3}
    for flow in network.flows:
        if flow["reply"] is not None and random.random() < 0.8:
            flow["outstanding"] = random.randint(1, 2)
    return network


def random_network(random, nodes=6, switches=5, flows=7):
    """A network of at most so many parts."""
    draft = Draft(random, nodes, switches)
    draft.wire()
    draft.add_tables()
    flows = [draft.flow(number) for number in range(random.randint(0, flows))]
    return Network(draft.nodes, draft.switches, draft.links, flows)
