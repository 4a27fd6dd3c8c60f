"""decide and report beside tests/second_verdict.py, a slow program

Random networks, half of them with limits on unanswered commands. It stops at the first that differs, and prints its file.
"""
import collections
import tempfile

from random_network import add_limits, random_network
from second_verdict import Verdict

from .shared import add_random, called, counted, numbers_of, write


def add_words(parser):
    add_random(parser, 1000)


def differs(program, file, network, verdict):
    """Tells of a command that answers otherwise, if one does."""
    for command, wanted in (("decide", (verdict.decided, verdict.status)), ("report", (verdict.reported, 0))):
        text, status = called(program, command, file)
        if (text, status) != wanted:
            print(f"{network.text()}\n{command} ends with {status}:\n{text}and not with {wanted[1]}:\n{wanted[0]}")
            return True
    return False


def compare(given):
    numbers, kinds = numbers_of(given), collections.Counter()
    with tempfile.TemporaryDirectory() as folder:
        for number in range(given.random):
            network = random_network(numbers)
            if number % 2:
                add_limits(numbers, network)
            verdict = Verdict(network)
            if differs(given.program, write(f"{folder}/network.toml", network.text()), network, verdict):
                return 1
            kinds[verdict.words.split()[0]] += 1
    print(counted(kinds))
    return 0
