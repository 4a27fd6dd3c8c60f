"""run beside replay, which makes the steps of the run's schedule again

A replay has to leave as much undelivered as the run told, to be stuck where the run was and not where it was drained, and to bring out the same packets. The
loads of examples/, and random networks with random loads; each with 1 worker and with 4. It stops at the first that differs.
"""
import collections
import tempfile

from random_network import random_network

from .shared import add_random, called, counted, numbers_of, samples, write

WORKERS = (1, 4)
STATUS = {"drained": 0, "stuck": 4, "waiting": 4, "journal-full": 5}
LONG = 1_000_000


def add_words(parser):
    add_random(parser, 200)


def told(lines):
    """What is undelivered, how many packets came out by node, and how often each packet did."""
    packets = collections.Counter()
    for words in (line.split() for line in lines):
        if words[0] == "packet":
            is_counted = len(words) == 5
            packets[(words[1], *words[-2:])] += int(words[2]) if is_counted else 1
    return [it for it in lines if it.startswith(("undelivered ", "node "))], packets


def entry(numbers, network):
    """A packet of some flow, with bytes that no target takes for a command."""
    flow = numbers.choice(network.flows)
    length = numbers.choice([1, 2, 7, 30, 200])
    cargo = f"{numbers.randrange(256):02X}*{length}" if numbers.random() < 0.5 else "".join(f"{numbers.randrange(256):02x}" for _ in range(length))
    end = numbers.choice(["EOP", "EOP", "EOP", "EEP"])
    return f'[[packet]]\nflow = "{flow["name"]}"\ncargo = "{cargo}"\nend = "{end}"\ncount = {numbers.choice([1, 1, 2, 40])}\n'


class Runs:
    def __init__(self, program, folder):
        self.program, self.schedule = program, f"{folder}/out.schedule"
        self.kinds = collections.Counter()

    def differ(self, file, load, limit):
        """Tells of a run by some workers whose replay ends otherwise; `limit` gives the most steps of each."""
        return any(self.differs(file, load, workers, limit()) for workers in WORKERS)

    def differs(self, file, load, workers, limit):
        text, status = called(self.program, "run", file, load, "--workers", str(workers), "--limit", str(limit), "--schedule", self.schedule)
        again, said = called(self.program, "replay", file, self.schedule)[::-1]
        lines, replayed = text.splitlines(), said.splitlines()
        if lines and STATUS.get(lines[0]) == status and len(replayed) > 2 and replayed[0].startswith("replayed "):
            stuck = replayed[2] == "stuck yes"
            is_same = again == (4 if stuck else 0) and told(lines) == told(replayed)
            if is_same and (lines[0] == "journal-full" or stuck == (lines[0] == "stuck")):
                self.kinds[lines[0]] += 1
                return False
        print(f"{file} {load}: by {workers} workers {status}\n{text}\nand its replay {again}\n{said}")
        return True


def random_call(runs, numbers, folder):
    """A random network and a load for it that can be read."""
    while True:
        network = random_network(numbers)
        if network.flows:
            file = write(f"{folder}/random.toml", network.text())
            load = write(f"{folder}/random.load", "".join(entry(numbers, network) for _ in range(numbers.randint(1, 6))))
            if called(runs.program, "run", file, load, "--hints", "never")[1] != 3:
                return file, load


def compare(given):
    numbers = numbers_of(given)
    with tempfile.TemporaryDirectory() as folder:
        runs = Runs(given.program, folder)
        for load in samples("**/*.load"):
            if runs.differ(load.removesuffix(".load") + ".toml", load, lambda: LONG):
                return 1
        for _ in range(given.random):
            if runs.differ(*random_call(runs, numbers, folder), lambda: numbers.choice([LONG, LONG, 100])):
                return 1
    print(counted(runs.kinds))
    return 0
