"""replay beside tests/second_machine.py, which makes each step by the machine's definitions

The schedules of examples/ and of the rows in tests/; those that witness finds on the sample networks; those of runs of the loads of examples/, by 1 worker and
by 4; one of RMAP commands of all kinds, right and wrong. Of each that is not too long also versions with a line left out, or with two neighbouring lines
exchanged, so that steps are refused. Then random networks, half of them with limits on unanswered commands: steps that are taken at random, and others that
become possible there, or impossible, tried just before that and just behind it. It stops at the first that differs, and prints it.
"""
import collections
import glob
import itertools
import os
import tempfile

from random_network import add_limits, random_network
from second_machine import AT_NODE, Machine, replay
from second_target import with_crc
from second_verdict import Network

from .shared import TOP, add_random, called, counted, numbers_of, rows_tool, samples

WORKERS = (1, 4)
# A schedule is changed so many times, but no oftener than it has lines, nor so often that more than so many lines are read again.
MOST, LINES = 6, 5_000
# How many steps are taken at random, one of these numbers; and of how many kinds others are tried.
LENGTHS, TRIALS = (100, 1000, 2000), 8
# What each target of a random network has beside its window's size of 16.
KEY, START = 7, 3
# How many commands go one after another on a duel.
COMMANDS = 300


def add_words(parser):
    add_random(parser, 200)


def read(path):
    with open(path, "rb") as file:
        return file.read()


def of_rows():
    """Networks and schedules that rows of tests/ replay."""
    rows = rows_tool()
    calls = [row.words.removesuffix(" --hints never").split() for file in sorted(glob.glob(f"{TOP}/tests/*.rows")) for row in rows.rows_of(file)]
    pairs = [words[1:] for words in calls if words[:1] == ["replay"] and len(words) == 3]
    named = {*itertools.chain(*pairs)}
    texts = {name: text.encode(errors="surrogateescape") for name, text in itertools.chain(rows.kept(), rows.made()) if name in named}
    texts |= {name: read(f"{TOP}/examples/{name}") for name in named if os.path.isfile(f"{TOP}/examples/{name}")}
    return [(texts[network], texts[schedule]) for network, schedule in pairs if network in texts and schedule in texts]


def of_examples():
    """Each schedule of examples/, with the network that is named alike."""
    schedules = [(it, it.removesuffix(".schedule") + ".toml") for it in samples("**/*.schedule")]
    return [(read(network), read(schedule)) for schedule, network in schedules if os.path.isfile(network)]


def of_witness(program):
    """What witness finds on the sample networks."""
    found = [(network, *called(program, "witness", network, "--hints", "never")) for network in samples()]
    return [(read(network), text.encode()) for network, text, status in found if status == 0]


def of_runs(program, folder):
    """The schedules of the runs of the loads of examples/."""
    for load, workers in itertools.product(samples("**/*.load"), WORKERS):
        network, schedule = load.removesuffix(".load") + ".toml", f"{folder}/out.schedule"
        called(program, "run", network, load, "--workers", str(workers), "--schedule", schedule)
        yield read(network), read(schedule)


def command(numbers, network, flow):
    """The cargo of an RMAP command for the flow; now and then something is wrong with its header, or with what stands behind."""
    path, initiator = flow["reply"] or ([], 103)
    # (to the others a command asks for no reply, or for one to an address of zeros)
    units = -(-len(path) // 4) if flow["reply"] else numbers.randrange(2)
    is_write, data = numbers.random() < 0.5, numbers.randbytes(numbers.choice([0, 1, 1, 4, 16]))
    instruction = 64 + (32 + 16 * numbers.randrange(2) if is_write else 0) + (8 if flow["reply"] or units else 0) + 4 + units
    head = [100 + flow["target"], 1, instruction, KEY, *[0] * (4 * units - len(path)), *path, initiator, *numbers.randbytes(2)]
    head += [0, 0, 0, 0, START + numbers.randint(-1, 17 - len(data)), 0, 0, len(data)]
    if numbers.random() < 0.3:
        head[numbers.choice([0, 2, 2, 3, numbers.randrange(len(head))])] ^= 1 << numbers.randrange(8)
    left, behind = flow["address"][len(flow["address"]) - flow["left"] :], with_crc(data) if is_write else b""
    header = with_crc(bytes([*left, *head[len(left) :]]))
    if numbers.random() < 0.05:
        header = header[:-1] + numbers.randbytes(1)
    if numbers.random() < 0.2:
        behind = numbers.choice([behind[:-1], behind[:-1] + numbers.randbytes(1), behind + b"\0"])
    return (header + behind)[len(left) :]


def beginning(numbers, network, i):
    """A packet of flow i is begun: a command for a target, or anything, also what a switch takes for an address where the flow's own ends too soon."""
    flow, ports = network.flows[i], [end[2] for link in network.links for end in link if link[0][0] == link[1][0] == "switch"]
    if network.nodes[flow["target"]][1] and numbers.random() < 0.8:
        cargo = command(numbers, network, flow)
    else:
        cargo = bytes(numbers.choices(ports, k=numbers.choice([1, 2]))) if ports and numbers.random() < 0.5 else numbers.randbytes(numbers.choice([1, 7, 40]))
    return "begin", i, cargo, numbers.choice(["EOP", "EOP", "EOP", "EEP"])


def line_of(network, step):
    verb, *places = step
    if verb == "begin":
        i, cargo, end = places
        places = network.flows[i]["name"], end, cargo.hex()
    elif verb in AT_NODE:
        places = [network.nodes[n][0] for n in places]
    return " ".join(map(str, (verb, *places))) + "\n"


def duel():
    """Two targets that are joined by one link, and command each other."""
    flows = [{"name": f"f{i}", "source": i, "target": 1 - i, "address": [], "left": 0, "reply": ([], 103)} for i in range(2)]
    return Network([("N0", True), ("N1", True)], [], [(("node", 0), ("node", 1))], flows)


def some_network(numbers):
    """A duel, or a random network that has flows of commands and in which some flows lose the last byte of their address; half of them with limits."""
    network = duel() if numbers.random() < 0.3 else random_network(numbers, nodes=4, switches=3)
    while not any(flow["reply"] for flow in network.flows):
        network = random_network(numbers, nodes=4, switches=3)
    for flow in network.flows:
        if flow["address"] and numbers.random() < 0.2:
            flow["address"] = flow["address"][:-1]
            flow["left"] = min(flow["left"], len(flow["address"]))
    return add_limits(numbers, network) if numbers.random() < 0.5 else network


def text_of(network):
    return network.text().replace("size = 16", f"key = {KEY}, start = {START}, size = 16").encode()


class Walk:
    """Steps taken at random on a network, each of those that are possible where it stands.

    `trials` has by kinds what else is to be tried: a step that one of the walk makes possible, or impossible, right before that one and right behind it; and
    beginnings that are refused. Each is told as how many of the walk's steps stand before it, and the step.
    """

    def __init__(self, numbers, network):
        self.numbers, self.network, self.machine = numbers, network, Machine(text_of(network))
        self.packets = [beginning(numbers, network, i) for i in range(len(network.flows)) for _ in range(3)]
        self.steps, self.trials, possible = [], collections.defaultdict(list), self.possible()
        for _ in range(numbers.choice(LENGTHS)):
            step = self.next_step(possible)
            refusal, changes = self.machine.tried(step)
            if refusal:
                is_sending = bool(self.machine.to_send[network.flows[step[1]]["source"]])
                self.trials[step[0], refusal, is_sending].append([(len(self.steps), step)])
                continue
            self.machine.put(changes)
            before, possible, at = possible, self.possible(), len(self.steps)
            for it in {**before, **possible}:
                if (it in before) != (it in possible) and it != step:
                    self.trials[step[0], it[0], it in possible].append([(at, it), (at + 1, it)])
            self.steps.append(step)

    def possible(self):
        """The steps that are possible; of beginnings, those of some packets of each flow."""
        begun = [it for it in self.packets if self.machine.changes(it) and self.machine.keeps_limit(*it[1:3])]
        return dict.fromkeys([*self.machine.moves(), *begun])

    def next_step(self, possible):
        """A step that is possible, or any beginning: each kind of these as often as the others."""
        steps = [*possible, beginning(self.numbers, self.network, self.numbers.randrange(len(self.network.flows)))]
        verb = self.numbers.choice([*dict.fromkeys(step[0] for step in steps)])
        return self.numbers.choice([step for step in steps if step[0] == verb])

    def schedules(self, kinds):
        """The whole walk, and trials of those kinds that were tried least so far."""
        lines = [line_of(self.network, step) for step in self.steps]
        yield lines
        for kind in sorted(self.trials, key=lambda it: (kinds[it], len(self.trials[it])))[:TRIALS]:
            kinds[kind] += 1
            for at, step in self.numbers.choice(self.trials[kind]):
                yield [*lines[:at], line_of(self.network, step)]


def of_random(numbers, count):
    """Walks on random networks, and what is tried on them."""
    kinds = collections.Counter()
    for _ in range(count):
        walk = Walk(numbers, some_network(numbers))
        for lines in walk.schedules(kinds):
            yield text_of(walk.network), "".join(lines).encode()


def of_commands(numbers):
    """A duel: commands that go one after another, each brought to its end before the next."""
    network = duel()
    machine, lines = Machine(text_of(network)), []
    for _ in range(COMMANDS):
        step = beginning(numbers, network, numbers.randrange(2))
        while step and machine.tried(step)[0] is None:
            machine.put(machine.changes(step))
            lines.append(line_of(network, step))
            step = next(iter(machine.moves()), None)
    return text_of(network), "".join(lines).encode()


def changed(numbers, schedule):
    """The schedule without one of its lines, or with two neighbouring ones exchanged."""
    lines = schedule.split(b"\n")
    at = numbers.randrange(len(lines))
    lines[at : at + 2] = lines[at + 1 : at + 2] + (lines[at : at + 1] if numbers.random() < 0.5 else [])
    return b"\n".join(lines)


def with_changed(numbers, pairs):
    """Each schedule with its network, and versions of it."""
    for network, schedule in pairs:
        lines = schedule.count(b"\n") + 1
        yield network, schedule
        yield from ((network, changed(numbers, schedule)) for _ in range(min(MOST, lines, LINES // lines)))


class Replays:
    def __init__(self, given, folder):
        self.program, self.folder = given.program, folder
        self.kinds, self.steps = collections.Counter(), 0

    def differs(self, network, schedule):
        """Tells of a schedule that the two replay otherwise."""
        for name, text in (("network", network), ("schedule", schedule)):
            with open(f"{self.folder}/{name}", "wb") as file:
                file.write(text)
        found, wanted = called(self.program, "replay", "network", "schedule", "--hints", "never", folder=self.folder), replay(network, schedule)
        if found != wanted:
            texts = [it.decode(errors="replace") for it in (network, schedule)]
            print(f"ends with {found[1]}:\n{found[0]}and not with {wanted[1]}:\n{wanted[0]}on the network\n{texts[0]}\nby the schedule\n{texts[1]}")
            return True
        words, status = found[0].split(), found[1]
        self.kinds[{0: "replayed", 1: f"refused by {words[2]}", 3: f"with fault {words[1]}", 4: "locked up"}[status]] += 1
        self.steps += int(words[1]) if status != 3 else 0
        return False


def compare(given):
    numbers = numbers_of(given)
    with tempfile.TemporaryDirectory() as folder:
        replays = Replays(given, folder)
        found = itertools.chain(of_examples(), of_rows(), of_witness(given.program), of_runs(given.program, folder), [of_commands(numbers)])
        if any(replays.differs(*it) for it in itertools.chain(with_changed(numbers, found), of_random(numbers, given.random))):
            return 1
    print(counted(replays.kinds))
    print(f"{sum(replays.kinds.values())} schedules with {replays.steps} steps, 0 differences")
    return 0
