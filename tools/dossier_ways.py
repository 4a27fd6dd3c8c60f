"""The ways of a network's flows for tools/dossier: the places that `swcheck route` tells, in the order in which packets
come to them."""
import html


class Differs(Exception):
    """The program and the second reading of the file do not agree."""


class Ways:
    """The network as it is read a second time, by network_file.py, and each flow by its name."""

    def __init__(self, network):
        self.network, self.starts = network, network.starts
        self.names = {place: name for name, place in network.names.items()}
        self.channels = {end: channel for channel, end in enumerate(network.starts)}
        self.flows = {flow[0]: flow for flow in network.flows}

    def name(self, end):
        return self.names[end[:2]]

    def told_end(self, end):
        return self.name(end) + "".join(f":{it}" for it in end[2:])

    def told_channel(self, channel):
        return f"{self.told_end(self.starts[channel])}>{self.told_end(self.starts[channel ^ 1])}"

    def followers(self, address, place):
        """The places to which a packet may go on from a place."""
        channel, deleted = place
        kind, number, *_ = self.starts[channel ^ 1]
        if kind == "node" or deleted >= len(address):
            return []
        byte = address[deleted]
        ports, is_deleted = ([byte], True) if byte < 32 else self.network.routes[number].get(byte, ([], False))
        ends = [("switch", number, port) for port in sorted({*ports})]
        return [(self.channels[end], deleted + is_deleted) for end in ends if end in self.channels]

    def levels(self, name):
        """The places of a flow, those that are equally far from its start together, and the place that a packet on a
        single way comes back to, or None."""
        _, source, _, address, _ = self.flows[name]
        levels, found, back = [[(self.channels["node", source], 0)]], set(), None
        while levels[-1]:
            found.update(levels[-1])
            following = [it for place in levels[-1] for it in self.followers(address, place)]
            back = next((it for it in following if it in found), back)
            levels.append([*dict.fromkeys(it for it in following if it not in found)])
        return levels[:-1], back

    def way(self, route):
        """The way of a flow as HTML, by the object of `route`."""
        levels, back = self.levels(route["flow"])
        places = {(it["channel"], it["deleted"]) for it in route["places"]}
        if {place for level in levels for place in level} != places:
            raise Differs(f"the places of the flow {route['flow']} are others by a second reading of the file")
        is_single = self.is_single(levels)
        told = self.single(levels) if is_single else self.several(levels)
        if back:
            again = f" → back on {html.escape(self.told_channel(back[0]))}"
            told += again if is_single else "; a packet may come back to where it was"
        return told + self.fault(route["fault"], is_single)

    def is_single(self, levels):
        """Whether all places that are equally far from the start lead to one router or node: the ports may be
        several."""
        return all(len({self.starts[channel ^ 1][:2] for channel, _ in level}) == 1 for level in levels)

    def single(self, levels):
        told = [html.escape(self.name(self.starts[levels[0][0][0]]))]
        for level, following in zip(levels, [*levels[1:], []]):
            ends = [self.starts[channel ^ 1] for channel, _ in level]
            name = html.escape(self.name(ends[0]))
            if ends[0][0] == "switch":
                out = "|".join(dict.fromkeys(str(self.starts[channel][2]) for channel, _ in following))
                name = f'<span class="hop">{"|".join(str(end[2]) for end in ends)}·{name}{f"·{out}" if out else ""}</span>'
            told.append(name)
        return " → ".join(told)

    def several(self, levels):
        told = [" or ".join(self.told_channel(channel) for channel, _ in level) for level in levels]
        return html.escape(", then ".join(told))

    def fault(self, fault, is_single):
        if fault is None:
            return ""
        words = fault["text"].split(" ", 3)[3]
        where = "" if is_single else f" on {self.told_channel(fault['channel'])}"
        deleted = fault["deleted"]
        return f' <b class="bad">✗ {html.escape(words + where)}, {deleted} byte{"s" * (deleted != 1)} deleted</b>'
