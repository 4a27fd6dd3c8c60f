"""margin beside tests/second_verdict.py, and beside files that are edited as by hand

The sample networks, and random ones with some links doubled, half with limits on unanswered commands, at least nine of ten of them free.

Of a node: the dependencies with one more, from the channel into the node to the one out of it. Of a flow: the file with a `reply` by the arrival ports of its
way, from the last to the first, and its end made a target; the second program decides it, and so does `swcheck decide`. Of a flow with a limit: the file with
each greater number in its place, up to more than any target owes, and without; the program decides that with the greatest number and with one more. Of a link:
the flows with a place from which they go on over it alone, and beside that the verdict on the network without the link. With --show it prints the rows that
are expected instead.
"""
import copy
import os
import sys
import tempfile

from random_network import add_limits, random_network
from sample_network import Sample, tables

from .shared import TOP, add_random, called, document, numbers_of, samples, write

LONGEST_PATH = 12


def add_words(parser):
    add_random(parser, 0)
    parser.add_argument("--show", action="store_true", help="print the rows that are expected")


def has_cycle(pairs):
    """Whether chains of the pairs go round: what nothing leads to is taken away, again and again."""
    left = {*pairs}
    while left:
        led_to = {e for _, e in left}
        kept = {(c, e) for c, e in left if c in led_to}
        if kept == left:
            return True
        left = kept
    return False


class Margin:
    """A network by the tables of its file, and how far its premises bend."""

    def __init__(self, found):
        self.found = found
        self.sample = Sample(found)
        self.verdict = self.sample.verdict()
        self.starts, self.ends = self.verdict.starts, self.verdict.ends

    def expected(self):
        """The text, and beside it each edited file with what its verdict has to be."""
        if self.verdict.status:
            self.edits = []
            return self.verdict.words + "\n" if self.verdict.words.startswith("misrouted") else "not free\n"
        answers = self.answered_flows = self.answers()
        self.edits = [(edited, is_free) for _, edited, is_free in answers if edited]
        self.stalls, self.limits = self.all_stalls(), self.all_limits()
        lines = [f"{stays(is_free)} {name} stops taking while it wants to send\n" for name, is_free in self.stalls]
        lines += [f"{stays(is_free)} {name} is answered along its own way\n" for name, _, is_free in answers]
        lines += [f"free with {unanswered(most)} of {name}\n" for name, most in self.limits]
        return "".join(lines + [self.loss_line(link) for link in range(len(self.sample.links))])

    # ---- nodes

    def all_stalls(self):
        """Each node where nothing that comes may have to wait, and whether the network stays free if it takes nothing while it wants to send."""
        answering = {flow["target"] for flow in self.sample.flows if flow["reply"]}
        waiting = {node for node in answering if not self.verdict.network.always_takes(node)}
        quiet = [(node, name) for node, (name, _) in enumerate(self.sample.nodes) if node not in waiting]
        return [(name, not has_cycle({*self.verdict.causes, self.stall(node)})) for node, name in quiet]

    def stall(self, node):
        out = self.starts.index(("node", node))
        return out ^ 1, out

    # ---- flows

    def answers(self):
        """Each flow without a reply that goes one way, its file with one, if there can be such a file, and whether the network stays free with it."""
        found = []
        for number, flow in enumerate(self.sample.flows):
            way, is_alone = self.way(flow)
            if flow["reply"] or not is_alone:
                continue
            edited = self.answered(number, way)
            by_waits = not has_cycle({*self.verdict.causes, *waits_back(way), *self.at_source(flow)})
            if edited and by_waits != (Sample(edited).verdict().status == 0):
                sys.exit(f"{flow['name']}: free by its waits {by_waits}, and otherwise by the edited file\n{document(edited)}")
            found.append((flow["name"], edited, by_waits))
        return found

    def at_source(self, flow):
        """What waits where the flow starts once its replies end there: a target that always took, as long as it got nothing but limited flows."""
        network, source = self.verdict.network, flow["source"]
        return [self.stall(source)] if network.limit(source) == network.slots.get(source, 1) else []

    def way(self, flow):
        """The channels of the flow from its start on, each time by the least port that leads on, and whether no other leads on."""
        channels, deleted, is_alone = [self.starts.index(("node", flow["source"]))], 0, True
        while self.ends[channels[-1]][0] == "switch":
            following, is_deleted = self.verdict.look(self.ends[channels[-1]][1], flow["address"][deleted])
            channels.append(min(following, key=lambda c: self.starts[c][2]))
            deleted, is_alone = deleted + is_deleted, is_alone and len({*following}) == 1
        return channels, is_alone

    def answered(self, number, way):
        """The tables with the flow answered along its way, or none where no `reply` can say so, or where the limit of its node would be its limit too."""
        path = [self.ends[channel][2] for channel in reversed(way[:-1])]
        if len(path) > LONGEST_PATH or path[:1] == [0] or self.sample.flows[number]["source"] in self.sample.outstanding:
            return None
        found = copy.deepcopy(self.found)
        flow = found["flow"][number]
        node = next(it for it in found["node"] if it["name"] == flow["to"])
        node.setdefault("target", {"logical": 254, "size": 16})
        flow["reply"] = {"path": path, "initiator": 254}
        return found

    # ---- limits

    def all_limits(self):
        """Each flow with a limit of its own, and the greatest number of its commands that may be unanswered, or none where any number may."""
        limited = [(number, flow) for number, flow in enumerate(self.sample.flows) if "outstanding" in flow]
        return [(flow["name"], self.greatest(number, flow["outstanding"])) for number, flow in limited]

    def greatest(self, number, own):
        if Sample(self.limited(number, None)).verdict().status == 0:
            self.edits.append((self.limited(number, None), True))
            return None
        edits = [self.limited(number, most) for most in range(own, max([own, *self.sample.slots.values()]) + 2)]
        free = [Sample(edited).verdict().status == 0 for edited in edits]
        count = free.index(False)
        if any(free[count:]) or not count:
            sys.exit(f"{self.sample.flows[number]['name']}: free with {own} unanswered commands and more {free}\n{document(self.found)}")
        self.edits += [(edits[count - 1], True), (edits[count], False)]
        return own + count - 1

    def limited(self, number, most):
        """The tables where so many commands of the flow may be unanswered, or any number of them."""
        found = copy.deepcopy(self.found)
        reply = found["flow"][number]["reply"]
        del reply["outstanding"]
        found["flow"][number]["reply"] = {**reply, **({"outstanding": most} if most else {})}
        return found

    # ---- links

    def loss_line(self, link):
        one, other = self.sample.links[link]
        lost = self.lost(link)
        self.compare_losses(link, {*lost})
        names = " ".join(self.verdict.flows[number][0] for number in lost)
        return f"lost without the link {self.verdict.end_text(one)}>{self.verdict.end_text(other)}: {names or 'no flow'}\n"

    def lost(self, link):
        """The flows that begin on the link, or that can come to a place from which they go on over it alone."""
        return [number for number in range(len(self.verdict.flows)) if self.needs(number, link)]

    def needs(self, number, link):
        _, source, _, address, _ = self.verdict.flows[number]
        if self.starts.index(("node", source)) // 2 == link:
            return True
        for channel, deleted in self.verdict.places[number]:
            if self.ends[channel][0] == "switch" and {c // 2 for c in self.verdict.look(self.ends[channel][1], address[deleted])[0]} == {link}:
                return True
        return False

    def compare_losses(self, link, lost):
        """Stops where the network without the link says otherwise. The flows of a node need its link."""
        of_nodes = {end[1] for end in self.sample.links[link] if end[0] == "node"}
        if of_nodes:
            wanted = {number for number, (_, source, target, _, _) in enumerate(self.verdict.flows) if of_nodes & {source, target}}
        else:
            cut = copy.deepcopy(self.sample)
            del cut.links[link]
            wanted = astray(cut.verdict())
        # A flow that goes over the link, and back over it alone, does not come to the second place without it.
        back = {number for number in lost - wanted if {2 * link, 2 * link + 1} <= {channel for channel, _ in self.verdict.places[number]}}
        if lost != wanted | back:
            sys.exit(f"link {link}: the flows {sorted(lost)} need it, and {sorted(wanted)} go astray without it\n{document(self.found)}")


def stays(is_free):
    return "free if" if is_free else "not free if"


def unanswered(most):
    if most is None:
        return "any number of unanswered commands"
    return f"up to {most} unanswered command{'' if most == 1 else 's'}"


def waits_back(way):
    """What waits for what where replies go back over the links of this way."""
    return {(way[-1], way[-1] ^ 1)} | {(e ^ 1, c ^ 1) for c, e in zip(way, way[1:])}


def astray(verdict):
    """The flows with a place from which they can't go on."""
    flows = enumerate(zip(verdict.flows, verdict.places))
    return {number for number, (flow, places) in flows if any(verdict.fault_at(flow, place) for place in places)}


def differing_edits(program, margin, folder):
    """Tells of edited files that the program decides otherwise, and returns how many."""
    count = 0
    for edited, is_free in margin.edits:
        told, status = called(program, "decide", write(f"{folder}/edited.toml", document(edited)))
        if (status, told.startswith("cyclic")) != ((0, False) if is_free else (1, True)):
            print(f"{'free' if is_free else 'cyclic'} is expected, and decide ends with {status} and {told[:200]!r} of\n{document(edited)}")
            count += 1
    return count


def differs(program, file, margin, folder):
    """Tells of a file of which the program says something else, or of whose edits."""
    expected, found = (margin.expected(), 0), called(program, "margin", file)
    if found != expected:
        print(f"{file}: expected {expected}, found {found}")
    return differing_edits(program, margin, folder) > 0 or found != expected


def doubled(numbers, network):
    """The network with a second link beside some of those between switches, and its ports beside the first one's in some entries of tables."""
    for link in [*network.links]:
        if link[0][0] == link[1][0] == "switch" and link[0][1] != link[1][1] and numbers.random() < 0.5:
            network.links.append(tuple(beside(numbers, network, end) for end in link))
    return network


def beside(numbers, network, end):
    """A free port of the same switch, which joins the end's port in some entries."""
    _, switch, port = end
    taken = {it[2] for link in network.links for it in link if it[:2] == ("switch", switch)}
    other = numbers.choice([it for it in range(32) if it not in taken])
    for ports, _ in network.switches[switch][1].values():
        if port in ports and numbers.random() < 0.6:
            ports.append(other)
    return "switch", switch, other


def some_network(numbers):
    network = doubled(numbers, random_network(numbers))
    return (add_limits(numbers, network) if numbers.random() < 0.5 else network).text()


def differing_random(given, folder):
    """How many of so many random networks differ, no more than one: it stops there."""
    numbers, compared, kinds = numbers_of(given), 0, {"free": 0, "stalls": 0, "answers": 0, "limits": 0, "edits": 0}
    while compared < given.random:
        text = some_network(numbers)
        file = write(f"{folder}/network.toml", text)
        margin = Margin(tables(file))
        if margin.verdict.status and 10 * (compared - kinds["free"]) >= given.random:
            continue
        compared += 1
        if differs(given.program, file, margin, folder):
            print(text)
            return 1
        if margin.verdict.status == 0:
            kinds["free"] += 1
            kinds["stalls"] += not all(is_free for _, is_free in margin.stalls)
            kinds["answers"] += not all(is_free for _, _, is_free in margin.answered_flows)
            kinds["limits"] += any(most for _, most in margin.limits)
            kinds["edits"] += len(margin.edits)
    print(f"{given.random} random networks, {kinds['free']} of them free, {kinds['stalls']} not if some node stops taking, {kinds['answers']} not if some")
    print(f"flow is answered, {kinds['limits']} not with any number of unanswered commands of some limited flow; {kinds['edits']} edited files")
    return 0


def show(files):
    for file in files:
        print(f"> swcheck margin {os.path.relpath(file, f'{TOP}/examples')}\n{Margin(tables(file)).expected()}status 0", flush=True)


def compare(given):
    files = samples()
    if given.show:
        show(files)
        return 0
    with tempfile.TemporaryDirectory() as folder:
        differing = sum(differs(given.program, file, Margin(tables(file)), folder) for file in files)
        print(f"{len(files)} files, {differing} differ")
        return differing + (differing_random(given, folder) if given.random else 0)
