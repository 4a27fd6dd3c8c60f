#!/usr/bin/env python3
"""A second, slow program for `swcheck replay`: it makes a schedule's steps one after another, by the definitions of the machine alone.

`tests/second_machine.py NETWORK SCHEDULE` prints what `swcheck replay` prints, and ends with its status; it reads TOML 1.0, not 1.1. The definitions, which
docs/DEFINITIONS.md names, are those of sw_machine (network, state, steps, limits) and of sw_schedule (lines of a schedule, what is told of it); for targets
see second_target.py. A character is its byte's number or "EOP" or "EEP"; an input is "idle", "spilling" or the number of the channel that it holds.
"""
import pathlib
import re
import sys

sys.dont_write_bytecode = True
sys.path.append(str(pathlib.Path(__file__).resolve().parents[1] / "tools"))
from network_file import MOST_BYTES, Fault, Network, parse
from second_target import answer, reply_to

AT_CHANNEL, AT_NODE, MARKERS = ("fct", "fctin", "arrive", "drop", "forward", "spill"), ("emit", "accept", "reply"), ("EOP", "EEP")
COUNTS = {str(count): count for count in range(1, 100_001)}
CARGO = re.compile(r"([0-9A-Fa-f]{2})+|[0-9A-Fa-f]{2}\*[1-9][0-9]{0,3}")


def add(function, place, number):
    return function, place, function[place] + number


def push(function, place, last):
    return function, place, (*function[place], last)


def pop(function, place):
    return function, place, function[place][1:]


class Machine:
    """A network, and a state of it, at first the empty one: a list by channel or by node for each function of the state. What a node took is kept as it is cut:
    `came` has its packets, and `under_way` the bytes behind them. `begun` has by node the packets that were begun for it, in the bytes that it gets.
    """

    def __init__(self, text):
        self.net = net = Network(text)
        nodes, links, flows = (parse(text).get(key, []) for key in ("node", "link", "flow"))
        self.targets = [it.get("target") for it in nodes]
        self.capacity = [link.get(f"buffer_{end}", link.get("buffer", 64)) for link in links for end in "ba"]
        self.channel_at = {end: c for c, end in enumerate(net.starts)}
        self.out = [self.channel_at["node", n] for n in range(len(nodes))]
        answered = [i for i, it in enumerate(flows) if "reply" in it]
        self.reply_flow, self.command_flow = dict(zip(answered, net.flows[len(flows) :])), dict(zip(answered, net.commands))
        self.declared, self.channels = {it["name"]: i for i, it in enumerate(flows)}, {str(c): c for c in range(len(net.starts))}
        self.credit, self.fcts, self.outstanding = ([0] * len(net.starts) for _ in range(3))
        self.wire, self.buffer, self.input = [()] * len(net.starts), [()] * len(net.starts), ["idle"] * len(net.starts)
        self.to_send, self.pending, self.came, self.begun = ([()] * len(nodes) for _ in range(4))
        self.owed, self.under_way, self.memory = [0] * len(nodes), [b""] * len(nodes), [bytes(it["size"] if it else 0) for it in self.targets]

    def front(self, c):
        """The character in front at an idle input of a switch, or None."""
        return self.buffer[c][0] if self.net.starts[c ^ 1][0] == "switch" and self.input[c] == "idle" and self.buffer[c] else None

    def look(self, c, byte):
        """The channels that a leading byte names at the switch where channel c ends, and whether it is deleted there."""
        switch = self.net.starts[c ^ 1][1]
        ports, is_deleted = ([byte], True) if byte < 32 else self.net.routes[switch].get(byte, ([], False))
        return {self.channel_at.get(("switch", switch, port)) for port in ports} - {None}, is_deleted

    def left_bytes(self, i, cargo):
        _, _, _, address, left = self.net.flows[i]
        return bytes(address[len(address) - left :]) + cargo

    def is_declared(self, i, cargo):
        _, source, to, _, _ = self.net.flows[i]
        way = reply_to(self.targets[to], self.left_bytes(i, cargo))
        if way is not None:
            return i in self.reply_flow and [*way] == self.reply_flow[i][3]
        return i not in self.reply_flow or self.command_flow[i][2] is None and self.net.outstanding[source] is None

    def keeps_limit(self, i, cargo):
        """Whether what is unanswered where flow i ends is within the limit there, with this packet."""
        n = self.net.flows[i][2]
        limit = self.net.limit(n) if any(at == n for _, at, _ in self.net.commands) else None
        packets = [*self.begun[n], self.left_bytes(i, cargo)], [text for text, _ in self.came[n]]
        begun, came = (sum(reply_to(self.targets[n], text) is not None for text in texts) for texts in packets)
        return limit is None or begun + self.owed[n] - came <= limit

    def changes(self, step):
        """What the step puts where, or None where it is not possible."""
        s = self
        match step:
            case "fct", c if s.outstanding[c] + len(s.buffer[c]) + 8 <= s.capacity[c] and s.outstanding[c] <= 48:
                return add(s.outstanding, c, 8), add(s.fcts, c, 1)
            case "fctin", c if s.fcts[c] > 0:
                return add(s.fcts, c, -1), add(s.credit, c, 8)
            case "arrive", c if s.wire[c]:
                return pop(s.wire, c), push(s.buffer, c, s.wire[c][0]), add(s.outstanding, c, -1)
            case "grant", d, c if isinstance(s.front(c), int) and d in s.look(c, s.front(c))[0] and d not in s.input:
                return (s.input, c, d), *([pop(s.buffer, c)] if s.look(c, s.front(c))[1] else [])
            case "drop", c if s.front(c) in MARKERS:
                return [pop(s.buffer, c)]
            case "drop", c if isinstance(s.front(c), int) and not s.look(c, s.front(c))[0]:
                return [(s.input, c, "spilling")]
            case "forward", c if isinstance(s.input[c], int) and s.buffer[c] and s.credit[s.input[c]] > 0:
                d, first = s.input[c], s.buffer[c][0]
                return pop(s.buffer, c), push(s.wire, d, first), add(s.credit, d, -1), (s.input, c, "idle" if first in MARKERS else d)
            case "spill", c if s.input[c] == "spilling" and s.buffer[c]:
                return pop(s.buffer, c), (s.input, c, "idle" if s.buffer[c][0] in MARKERS else "spilling")
            case "begin", i, cargo, end if not s.to_send[s.net.flows[i][1]] and not s.pending[s.net.flows[i][1]] and s.is_declared(i, cargo):
                _, n, to, address, _ = s.net.flows[i]
                return (s.to_send, n, (*address, *cargo, end)), push(s.begun, to, s.left_bytes(i, cargo))
            case "emit", n if s.to_send[n] and s.credit[s.out[n]] > 0:
                owed = s.owed[n] if len(s.to_send[n]) > 1 else len(s.pending[n])
                return pop(s.to_send, n), push(s.wire, s.out[n], s.to_send[n][0]), add(s.credit, s.out[n], -1), (s.owed, n, owed)
            case "accept", n if s.owed[n] < s.net.slots.get(n, 1) and s.buffer[s.out[n] ^ 1]:
                taken, first = pop(s.buffer, s.out[n] ^ 1), s.buffer[s.out[n] ^ 1][0]
                if first not in MARKERS:
                    return taken, add(s.under_way, n, bytes([first]))
                _, reply, memory = answer(s.targets[n], s.memory[n], s.under_way[n], first)
                ended = taken, push(s.came, n, (s.under_way[n], first)), (s.under_way, n, b""), (s.memory, n, memory)
                return ended if reply is None else (*ended, push(s.pending, n, reply), add(s.owed, n, 1))
            case "reply", n if s.pending[n] and not s.to_send[n]:
                return (s.to_send, n, (*s.pending[n][0], "EOP")), pop(s.pending, n)

    def tried(self, step):
        """Why the step is refused, or None, and what it puts where."""
        changes, packet = self.changes(step), step[1:3] if step[0] == "begin" else None
        if packet and not self.is_declared(*packet):
            return "N2 NotInFlow", ()
        if changes is None:
            return "N1 NotEnabled", ()
        return "N4 OverLimit" if packet and not self.keeps_limit(*packet) else None, changes

    def put(self, changes):
        for function, place, value in changes:
            function[place] = value

    def moves(self):
        """The steps that are possible, but for beginnings."""
        channels, nodes = range(len(self.credit)), range(len(self.owed))
        steps = [(verb, c) for verb in AT_CHANNEL for c in channels] + [(verb, n) for verb in AT_NODE for n in nodes]
        steps += [("grant", d, c) for c in channels if self.front(c) is not None for d in channels]
        return [step for step in steps if self.changes(step) is not None]

    def told(self, made):
        """What is told of the state, behind how far the steps were made, and the status."""
        undelivered = sum(map(len, self.buffer + self.wire + self.to_send)) + sum(len(reply) + 1 for pending in self.pending for reply in pending)
        is_stuck = undelivered > 0 and not self.moves()
        nodes = [f"node {name} packets {len(self.came[n])}" for name, n in self.net.nodes.items()]
        packets = [f"packet {name} {text.hex().upper() or '-'} {end}" for name, n in self.net.nodes.items() for text, end in self.came[n]]
        lines = [made, f"undelivered {undelivered}", f"stuck {'yes' if is_stuck else 'no'}", *nodes, *packets]
        return "".join(f"{line}\n" for line in lines), 4 if is_stuck else 0


def step_of(machine, words):
    """The step that these words write; where they write none, it raises a KeyError or a ValueError."""
    match words:
        case verb, c if verb in AT_CHANNEL:
            return verb, machine.channels[c]
        case verb, n if verb in AT_NODE:
            return verb, machine.net.nodes[n]
        case "grant", d, c:
            return "grant", machine.channels[d], machine.channels[c]
        case "begin", flow, end, cargo if end in MARKERS and CARGO.fullmatch(cargo):
            pairs, _, times = cargo.partition("*")
            found = bytes.fromhex(pairs) * int(times or 1)
            if len(found) <= 4096:
                return "begin", machine.declared[flow], found, end
    raise ValueError(words)


def steps_of(machine, text):
    """The steps that a schedule lists."""
    if len(text) > MOST_BYTES:
        raise Fault("A1 TooLong")
    steps, lines = [], enumerate(text.decode("latin-1").split("\n"), 1)
    for at, words in [(at, line.split(" ")) for at, line in lines if line and line[0] != "#"]:
        try:
            times = COUNTS[words.pop(0)] if words[0] in COUNTS else 1
            steps += [step_of(machine, words)] * times
            if len(steps) > 1_000_000:
                raise ValueError
        except (KeyError, ValueError):
            raise Fault(f"S1 BadLine {at}") from None
    return steps


def replay(network, schedule):
    """What `swcheck replay` prints of the two texts, and its status."""
    try:
        steps = steps_of(machine := Machine(network), schedule)
    except Fault as fault:
        return f"fault {fault}\n", 3
    for number, step in enumerate(steps, 1):
        refusal, changes = machine.tried(step)
        if refusal:
            return machine.told(f"refused {number} {refusal}")[0], 1
        machine.put(changes)
    return machine.told(f"replayed {len(steps)}")


if __name__ == "__main__":
    printed, ended = replay(*(pathlib.Path(it).read_bytes() for it in sys.argv[1:]))
    print(printed, end="")
    sys.exit(ended)
