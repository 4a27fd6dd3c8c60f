#!/usr/bin/env python3
"""Checks a certificate for a network: a second `swcheck check`, in plain Python.

    tools/check_certificate.py NETWORK CERTIFICATE

It and network_file.py beside it were written from docs/FORMATS.md and docs/COMMANDS.md alone, without a look at the program's sources.
It prints what `swcheck check` prints and ends with its statuses: 0 accepted, 1 refused, 2 wrong words, 3 a fault of the network file, 6 a file that
can't be read. It reads TOML 1.0, and the program TOML 1.1: a file that is TOML 1.1 only is `fault F1 Syntax` here.
"""
import re
import sys

sys.dont_write_bytecode = True
from network_file import MOST_BYTES, Fault, Network


class Refusal(Exception):
    """Its words are printed behind `refused`."""


class Lines:
    """The lines of a certificate, taken one after another; `at` counts them."""

    def __init__(self, text):
        self.lines, self.at = text.split(b"\n"), 0

    def take(self, words, *limits):
        """Returns the numbers of the next line: it has these words, with a number up to each limit behind."""
        self.at += 1
        pattern = words.encode() + rb" (0|[1-9][0-9]{0,4})" * len(limits)
        # (what stands behind the last LF is no line)
        found = self.at < len(self.lines) and re.fullmatch(pattern, self.lines[self.at - 1])
        if not found or any(int(number) > limit for number, limit in zip(found.groups(), limits)):
            raise Refusal("C1 Grammar", self.at)
        return tuple(map(int, found.groups()))

    def places(self):
        found = []
        for _ in range(*self.take("flow", 67584)):
            place = self.take("place", 65535, 32)
            if found and place <= found[-1]:
                raise Refusal("C1 Grammar", self.at)
            found.append(place)
        return found

    def end(self):
        self.take("end")
        self.at += 1
        if self.lines[self.at - 1 :] != [b""]:
            raise Refusal("C1 Grammar", self.at)


def read_certificate(text):
    """Returns the channels' numbers, and the places listed for each flow."""
    lines = Lines(text)
    lines.take("swcert 1")
    numbers = [number for _ in range(*lines.take("channels", 2048)) for number in lines.take("number", 65535)]
    listed = [lines.places() for _ in range(*lines.take("flows", 8192))]
    lines.end()
    return numbers, listed


class Check:
    """The check of a certificate for a network."""

    def __init__(self, network, numbers, listed):
        self.starts, self.routes = network.starts, network.routes
        self.channels = {end: channel for channel, end in enumerate(network.starts)}
        self.check_counts(network.flows, numbers, listed)
        pairs = []
        for flow, places in zip(network.flows, listed):
            pairs += self.pairs(flow, places)
        outputs = [self.channels["node", node] for node in sorted(network.waiting)]
        for channel, following in pairs + [(output ^ 1, output) for output in outputs]:
            if numbers[channel] >= numbers[following]:
                raise Refusal("C5 NotRising", channel, following)

    def check_counts(self, flows, numbers, listed):
        if len(numbers) != len(self.starts) or len(listed) != len(flows):
            raise Refusal("C2 WrongCount")
        for (_, _, _, address, _), places in zip(flows, listed):
            if any(channel >= len(self.starts) or deleted > len(address) for channel, deleted in places):
                raise Refusal("C2 WrongCount")

    def pairs(self, flow, places):
        """Returns each channel of the flow's places with each that follows it, and refuses places that are not right."""
        name, source, _, address, _ = flow
        known, pairs = set(places), []
        if (self.channels["node", source], 0) not in known:
            raise Refusal("C3 NoStart", name)
        for channel, deleted in places:
            end, left = self.starts[channel ^ 1], address[deleted:]
            followers = self.followers(end[1], deleted, left[0]) if end[0] == "switch" and left else []
            self.check_fault(flow, channel, deleted, len(left), followers)
            if not known.issuperset(followers):
                raise Refusal("C4 NotClosed", name, channel, deleted)
            pairs += [(channel, following) for following, _ in followers]
        return pairs

    def followers(self, switch, deleted, leading):
        """The places to which a switch passes a packet on, by the leading byte, when that many bytes have been deleted."""
        ports, is_deleted = ([leading], True) if leading < 32 else self.routes[switch].get(leading, ([], False))
        channels = {self.channels.get(("switch", switch, port)) for port in ports} - {None}
        return [(channel, deleted + is_deleted) for channel in sorted(channels)]

    def check_fault(self, flow, channel, deleted, bytes_left, followers):
        name, _, target, _, left = flow
        end = self.starts[channel ^ 1]
        if end[0] == "switch":
            fault = "M1 AddressEnds" if not bytes_left else "M2 NoRoute" if not followers else None
        else:
            fault = "M3 WrongNode" if end[1] != target else "M4 WrongLeft" if bytes_left != left else None
        if fault:
            raise Refusal("C6", fault, name, channel, deleted)


def answer(network, certificate):
    """Returns what is printed of the two texts, and the status."""
    try:
        network = Network(network)
        if len(certificate) > MOST_BYTES:
            raise Fault("A1 TooLong")
        Check(network, *read_certificate(certificate))
    except Fault as fault:
        return f"fault {fault}\n".encode(), 3
    except Refusal as refusal:
        return f"refused {' '.join(map(str, refusal.args))}\n".encode(), 1
    return b"accepted\n", 0


def main(words):
    if len(words) != 2:
        print("usage: check_certificate.py NETWORK CERTIFICATE", file=sys.stderr)
        return 2
    texts = []
    for word in words:
        try:
            with open(word, "rb") as file:
                texts.append(file.read())
        except OSError as error:
            print(f"check_certificate: read failed: {error}", file=sys.stderr)
            return 6
    printed, status = answer(*texts)
    sys.stdout.buffer.write(printed)
    return status


if __name__ == "__main__":
    sys.exit(main(sys.argv[1:]))
