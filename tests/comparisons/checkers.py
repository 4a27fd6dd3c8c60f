"""check beside tools/check_certificate.py, in what they print and in their statuses

Each network of examples/, and then random ones, each with a certificate and with damaged ones, and some network files damaged; the certificates that an audit
of examples/ keeps, which both have to accept. Then a network whose certificate is so long that parts of it are read side by side, with damaged certificates. It
tells where the files of each difference are kept, and then how often each answer came, with its status in front.
"""
import collections
import os
import random
import re
import shutil
import subprocess
import tempfile

from check_certificate import answer
from random_network import random_network
from second_verdict import Verdict

from .shared import TOP, add_random, numbers_of, read, samples

CHECKER = f"{TOP}/tools/check_certificate.py"
COUNTED = re.compile(r"(flow|place|number|channels|flows) ")
VALUE = re.compile(r'(?P<key>\w+) = (?P<value>-?\w+|"[^"]*"|\[[0-9, ]*\])(?P<comma>, )?')
ENTRY = re.compile(r"(?<=[\[ ])\{[^{}]*(\{[^{}]*\}[^{}]*)*\}(?P<comma>, )?")
INNER_ENTRY = re.compile(r"(?<=[\[ ])\{[^{}]*\}(?P<comma>, )?")
ODD_VALUES = ["-1", "0", "1", "7", "8", "31", "32", "33", "254", "255", "256", "4096", "4097", "65536", "65537", "1099511627775"]
ODD_VALUES += ["9223372036854775808", "1.5", "true", '"N0"', '"S0"', '"f0"', '"a b"', '""', "[]", "[0]", "[1, 2]", "[true]", "[256]", "{}", "x"]
ODD_VALUES += [str([1] * 12), str([1] * 13), str([1] * 33), '"' + "n" * 33 + '"', "[{}]", "0x20", "2024-01-01"]


# Certificates: each damage takes the lines, without LF, and gives the new text.


def text_of(lines):
    return "".join(f"{line}\n" for line in lines)


def with_number(numbers, lines):
    """A number changed."""
    at = numbers.choice([at for at, line in enumerate(lines) if COUNTED.match(line)])
    words = lines[at].split()
    which = numbers.randrange(1, len(words))
    words[which] = str(numbers.choice([int(words[which]) + 1, max(0, int(words[which]) - 1), numbers.randrange(40), 33, 65535, 65536, 10**30]))
    return text_of([*lines[:at], " ".join(words), *lines[at + 1 :]])


def with_level(numbers, lines):
    """A channel's number changed."""
    at = numbers.choice([at for at, line in enumerate(lines) if line.startswith("number")])
    return text_of([*lines[:at], f"number {numbers.randrange(8)}", *lines[at + 1 :]])


def with_line(numbers, lines):
    """A line dropped, doubled or moved."""
    lines, at = lines[:], numbers.randrange(len(lines))
    taken = lines.pop(at)
    for _ in range(numbers.randrange(3)):
        lines.insert(numbers.choice([at, at, numbers.randrange(len(lines) + 1)]), taken)
    return text_of(lines)


def with_spelling(numbers, lines):
    """A line spelt in another way."""
    lines, at = lines[:], numbers.randrange(len(lines))
    change = numbers.choice([(" ", " 0"), (" ", "  "), (" ", "\t"), (" ", " +"), (" ", " -"), ("$", " "), ("$", "\r"), ("^", " "), ("^", "#"), (".$", "")])
    lines[at] = re.sub(*change, lines[at].upper() if numbers.random() < 0.1 else lines[at], count=1)
    return text_of(lines)


def with_end(numbers, lines):
    """The text ends in another way."""
    text = text_of(lines)
    return numbers.choice([text[:-1], text + "\n", text + "end\n", text + " ", text + "\0", "", text[: numbers.randrange(len(text))]])


def blocks_of(lines):
    """The lines before the places, and for each flow its places."""
    first = next(at for at, line in enumerate(lines) if line.startswith("flows"))
    blocks = []
    for line in lines[first + 1 : -1]:
        if line.startswith("flow"):
            blocks.append([])
        else:
            blocks[-1].append(tuple(map(int, line.split()[1:])))
    return lines[:first], blocks


def with_blocks(head, blocks):
    lines = [*head, f"flows {len(blocks)}"]
    for places in blocks:
        lines += [f"flow {len(places)}", *(f"place {channel} {deleted}" for channel, deleted in places)]
    return text_of([*lines, "end"])


def with_places(numbers, lines):
    """Some places added, removed or changed, in order and rightly counted."""
    head, blocks = blocks_of(lines)
    channels = len(head) - 2
    for _ in range(numbers.choice([1, 1, 1, 2, 3])):
        if blocks:
            places = numbers.choice(blocks)
            if places and numbers.random() < 0.6:
                del places[numbers.randrange(len(places))]
            if numbers.random() < 0.6:
                channel = numbers.choice([place[0] for place in places] or [0]) if numbers.random() < 0.3 else numbers.randrange(channels + 1)
                places[:] = sorted({*places, (channel, numbers.choice([0, 0, 1, 1, 2, 3, 4, 32]))})
    return with_blocks(head, blocks)


def with_counts(numbers, lines):
    """Another number of channels or flows, each counted rightly."""
    head, blocks = blocks_of(lines)
    if numbers.random() < 0.5:
        head = [head[0], f"channels {len(head) - 1}", *head[2:], "number 1"]
    elif blocks and numbers.random() < 0.5:
        blocks.pop()
    else:
        blocks.append([])
    return with_blocks(head, blocks)


def with_greater(numbers, lines):
    """Each channel's number twice as great, which changes no order."""
    return text_of([f"number {2 * int(line.split()[1])}" if line.startswith("number") else line for line in lines])


DAMAGES = [with_number, with_level, with_level, with_line, with_spelling, with_end, with_places, with_places, with_places, with_counts, with_greater]


# Network files.


def of_version_2(numbers, network):
    """The same network as a file of version 2, some of its routes for more than one address."""
    used = [int(it) for it in re.findall(r"address = (\d+)", network)] + [255]

    def ranged(entry):
        first = int(entry[1])
        return f"{entry[0]} last = {numbers.randrange(first, min(it for it in used if it > first))}," if numbers.random() < 0.5 else entry[0]

    return re.sub(r"address = (\d+),", ranged, network.replace("version = 1", "version = 2"))


def damaged_network(numbers, network):
    """A network file with some keys or values changed, and no comma before a brace, which TOML 1.1 alone allows."""
    for _ in range(numbers.choice([1, 1, 2, 3])):
        network = re.sub(r", *}", " }", changed_network(numbers, network))
    return network


def changed_network(numbers, network):
    kind = numbers.random()
    if kind < 0.05:
        at = numbers.randrange(len(network))
        return network[:at] + numbers.choice("=[]{},\"x0.\r\0é") + network[at + numbers.randrange(2) :]
    if kind < 0.25:
        # an entry of a list, or of a list in it, doubled or dropped
        entries = [*(ENTRY if kind < 0.15 else INNER_ENTRY).finditer(network)]
        if not entries:
            return network
        entry = numbers.choice(entries)
        return network[: entry.start()] + numbers.choice(["", entry[0] + (", " if entry["comma"] is None else "") + entry[0]]) + network[entry.end() :]
    if not VALUE.search(network):
        return network
    key = numbers.choice(sorted({it["key"] for it in VALUE.finditer(network)}))
    place = numbers.choice([it for it in VALUE.finditer(network) if it["key"] == key])
    value, comma = place["value"], place["comma"] or ""
    if kind < 0.35:
        new = ""
    elif kind < 0.45:
        new = f"{numbers.choice(['Node', 'slots', 'last', 'buffer_a', 'a_port', 'left', 'size', '_', 'é'])} = {value}{comma}"
    elif kind < 0.55:
        added = numbers.choice(["buffer", "buffer_b", "a_port", "left", "target", "arbiter", "delete", "unknown"])
        new = f"{added} = {numbers.choice(ODD_VALUES)}, {place[0]}"
    else:
        new = f"{key} = {numbers.choice(ODD_VALUES)}{comma}"
    return network[: place.start()] + new + network[place.end() :]


def list_of(key, count, entry):
    return f"{key} = [{', '.join(entry.replace('%', str(i)) for i in range(count))}]\n"


def at_limits():
    """Network files with as many parts as allowed and one more, and with faults that few changes lead to."""
    two = 'version = 2\nnode = [{ name = "A", target = { logical = 32, size = 1 } }, { name = "B" }]\n'
    link = 'link = [{ a = "A", b = "B" }]\n'
    for count in (1, 2):
        yield f"version = {count}\n"
    for key, most in (("node", 1024), ("switch", 512), ("link", 1024)):
        for count in (most, most + 1):
            yield "version = 1\n" + list_of(key, count, '{ name = "N%" }')
    for count in (4096, 4097):
        yield two + link + list_of("flow", count, '{ name = "f%", from = "A", to = "B" }')
    yield two + 'switch = [{ name = "S" }]\n' + link
    for route in ("address = 40, last = 39", "address = 40, last = 255", "address = 254, last = 254", "address = 40, last = 60", "address = 41"):
        yield two + 'switch = [{ name = "S", route = [{ address = 41, ports = [1] }, { %s, ports = [1] }] }]\n' % route + link
    for reply in ("initiator = 31", "initiator = 255", "initiator = 256", "initiator = -1", "initiator = 254", "initiator = 32, path = [0]"):
        yield two + link + 'flow = [{ name = "f", from = "B", to = "A", reply = { %s } }]\n' % reply
    for length in (12, 13, 32, 33, 300):
        yield two + link + 'flow = [{ name = "f", from = "B", to = "A", reply = { initiator = 32, path = %s } }]\n' % ([1] * length)
    yield two + link + 'flow = [{ name = "f", from = "A", to = "B", reply = { initiator = 32 } }]\n'
    for start, size in ((2**40 - 1, 1), (2**40 - 1, 2), (2**40, 1), (0, 65536), (0, 65537)):
        yield two.replace("size = 1", f"start = {start}, size = {size}") + link


# The comparison.


class Answers:
    def __init__(self, program):
        self.program, self.folder = program, tempfile.mkdtemp(prefix="compare-checkers-")
        self.kinds, self.differences = collections.Counter(), 0

    def ran(self, *words):
        done = subprocess.run(words, capture_output=True)
        return done.stdout, done.returncode

    def write(self, name, text):
        path = f"{self.folder}/{name}"
        with open(path, "wb") as file:
            file.write(text.encode())
        return path

    def decide(self, network):
        return self.ran(self.program, "decide", self.write("network.toml", network))

    def check(self, network, certificate, as_script=False):
        files = self.write("network.toml", network), self.write("certificate", certificate)
        ours = self.ran(CHECKER, *files) if as_script else answer(network.encode(), certificate.encode())
        self.note(files, self.ran(self.program, "check", *files), ours)

    def differs(self, text):
        self.differences += 1
        print(text, flush=True)

    def note(self, files, theirs, ours):
        words = theirs[0].decode(errors="replace").split()
        depth = 3 if words[1:2] in (["C6"], ["F8"]) else 2
        self.kinds[" ".join([str(theirs[1]), *words[:depth]])] += 1
        if theirs != ours:
            self.differences += 1
            for file in files:
                os.rename(file, f"{file}-{self.differences}")
            print(f"{' '.join(f'{file}-{self.differences}' for file in files)}: swcheck {theirs}, check_certificate {ours}", flush=True)

    def end(self):
        for kind, count in sorted(self.kinds.items()):
            print(f"{count:7} {kind}")
        print(f"{sum(self.kinds.values())} compared, {self.differences} differences")
        if not self.differences:
            for name in os.listdir(self.folder):
                os.remove(f"{self.folder}/{name}")
            os.rmdir(self.folder)
        return self.differences


def compare_examples(answers, numbers):
    turn = read(f"{TOP}/examples/turn.cert")
    for path in samples():
        network = read(path)
        decided, status = answers.decide(network)
        certificate = decided.decode() if status == 0 else turn
        answers.check(network, certificate, as_script=True)
        answers.check(network, numbers.choice(DAMAGES)(numbers, certificate.splitlines()))
        answers.check(damaged_network(numbers, network), certificate)
    for network in at_limits():
        answers.check(network, turn)
    # a file that can't be read, as the network and as the certificate
    for files in ((f"{answers.folder}/none", f"{TOP}/examples/turn.cert"), (f"{TOP}/examples/turn.toml", answers.folder)):
        answers.note((), answers.ran(answers.program, "check", *files), answers.ran(CHECKER, *files))


def compare_kept(answers):
    """The certificates that an audit of the examples keeps: one of each network that it tells to be free, which both checkers accept, and no other."""
    folder, paths = f"{answers.folder}/kept", samples()
    os.mkdir(folder)
    told = answers.ran(answers.program, "audit", "--certificates", folder, *paths)[0].decode().splitlines()
    kept = {int(it.partition("-")[0]): f"{folder}/{it}" for it in os.listdir(folder)}
    free = [number for number, line in enumerate(told, 1) if line.startswith("0 free ")]
    if len(told) != len(paths) or not free or sorted(kept) != free:
        answers.differs(f"audit tells that the networks {free} are free, and keeps certificates of {sorted(kept)}")
    for number, file in kept.items():
        files = paths[number - 1], file
        ended = answers.ran(answers.program, "check", *files), answers.ran(CHECKER, *files)
        answers.kinds["0 accepted, as it was kept"] += 1
        if ended != ((b"accepted\n", 0),) * 2:
            answers.differs(f"{' '.join(files)}: the certificate was kept, and swcheck {ended[0]}, check_certificate {ended[1]}")
    if not answers.differences:
        shutil.rmtree(folder)


def compare_random(answers, numbers):
    drawn = random_network(numbers, nodes=4, switches=4, flows=8)
    network = drawn.text() if numbers.random() < 0.5 else of_version_2(numbers, drawn.text())
    decided, status = answers.decide(network)
    if status == 0:
        certificate = decided.decode()
    else:
        # all places that can be reached, with some numbers: no certificate is right
        verdict = Verdict(drawn)
        certificate = text_of(verdict.certificate_lines([numbers.randrange(9) for _ in verdict.starts]))
    answers.check(network, certificate)
    for _ in range(3):
        answers.check(network, numbers.choice(DAMAGES)(numbers, certificate.splitlines()))
    answers.check(damaged_network(numbers, network), certificate)


def long_network(numbers, switches=60, flows=1500):
    """A line of switches, each with a node, and flows between random nodes: its certificate has some 400 kB."""
    text = ["version = 2"]
    text += [f'[[node]]\nname = "N{i}"' for i in range(switches)]
    for i in range(switches):
        routes = [(32, 31 + i, 1), (32 + i, 32 + i, 3), (33 + i, 31 + switches, 2)]
        routes = [f"{{ address = {first}, last = {last}, ports = [{port}] }}" for first, last, port in routes if first <= last]
        text.append(f'[[switch]]\nname = "S{i}"\nroute = [{", ".join(routes)}]')
    text += [f'[[link]]\na = "S{i}"\na_port = 3\nb = "N{i}"' for i in range(switches)]
    text += [f'[[link]]\na = "S{i}"\na_port = 2\nb = "S{i + 1}"\nb_port = 1' for i in range(switches - 1)]
    for i in range(flows):
        start, end = numbers.sample(range(switches), 2)
        text.append(f'[[flow]]\nname = "f{i}"\nfrom = "N{start}"\nto = "N{end}"\naddress = [{32 + end}]\nleft = 1')
    return "\n".join(text) + "\n"


def compare_long(answers, numbers, count):
    network = long_network(numbers)
    decided, status = answers.decide(network)
    assert status == 0 and len(decided) > 300_000, (status, len(decided))
    certificate = decided.decode()
    answers.check(network, certificate)
    for _ in range(count):
        answers.check(network, numbers.choice(DAMAGES)(numbers, certificate.splitlines()))


def add_words(parser):
    add_random(parser, 10_000)
    parser.add_argument("--long", metavar="COUNT", type=int, default=12, help="how many damaged long certificates, 12 if left out")


def compare(given):
    answers, numbers = Answers(given.program), numbers_of(given)
    compare_examples(answers, numbers)
    compare_kept(answers)
    for _ in range(given.random):
        compare_random(answers, numbers)
    compare_long(answers, numbers, given.long)
    return answers.end()
