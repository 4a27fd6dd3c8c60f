"""audit, and each command with --json, beside what tests/second_json.py makes of the answers in lines

The examples, the files of tests/data, those of lint.cases there, and random networks, of which one in seven is cut short; byte for byte. It stops at the
first that differs. With --show it writes the rows of tests/json.rows and tests/audit.rows anew instead, by a program that may lack --json.
"""
import collections
import glob
import itertools
import json
import os
import re
import shutil
import tempfile

import program
from random_network import random_network
from second_json import SecondAnswers
from second_lint import lint_texts

from .shared import TOP, add_random, called, counted, numbers_of, read, rows_tool, write

ERRORS = re.compile(r"^!.*\n", re.M)


def add_words(parser):
    add_random(parser, 200)
    parser.add_argument("--unproved", action="store_true", help="the program is to say that it is unproved")
    parser.add_argument("--show", action="store_true", help="write the rows anew")


class Answers:
    """What the program answers in a folder of files, and what it should."""

    def __init__(self, given, folder):
        self.program, self.folder = os.path.realpath(given.program), folder
        self.second = SecondAnswers(self.program, folder, *program.release(given.unproved), lint_texts)
        self.kinds = collections.Counter()

    def differs(self, words, wanted):
        found = called(self.program, *words, "--hints", "never", folder=self.folder)
        if found != wanted:
            print(f"{words}\nends with {found[1]}:\n{found[0]}and not with {wanted[1]}:\n{wanted[0]}")
        return found != wanted

    def audits_differ(self, files):
        """In each of its forms, with and without the certificates that it keeps."""
        for quiet, is_json in itertools.product((False, True), repeat=2):
            status, text, kept = self.second.audit(files, quiet, is_json)
            words = ["audit", *["--quiet"] * quiet, *["--json"] * is_json]
            if any(self.differs([*words, *more, *files], (text, status)) for more in ([], ["--certificates", "kept"])):
                return True
            found = {it: read(f"{self.folder}/kept/{it}") for it in os.listdir(f"{self.folder}/kept")}
            if found != kept:
                print(f"{files}\nkeeps {sorted(found)}, and not {sorted(kept)}, or with other texts")
                return True
            for it in found:
                os.remove(f"{self.folder}/kept/{it}")
        self.kinds.update(it["verdict"]["kind"] for it in json.loads(self.second.audit(files, False, True)[1])["files"])
        return False

    def commands_differ(self, file):
        """Each command of one file."""
        flows = re.findall(r'name = "(f[^"]*)"', read(f"{self.folder}/{file}"))[:3] + ["nobody"]
        calls = [(it, [file]) for it in ("decide", "report", "explain", "mend", "margin")]
        calls += [("mend", [file, "--pairs"])] + [("route", [file, it]) for it in flows]
        self.kinds["calls for one file"] += len(calls)
        return any(self.differs([command, "--json", *words], self.second.answer(command, words)[::-1]) for command, words in calls)

    def random_files(self, count, numbers):
        """The names of random networks."""
        for number in range(count):
            text = random_network(numbers).text()
            if number % 7 == 0:
                text = text[: numbers.randrange(len(text) + 1)]
            write(f"{self.folder}/random-{number}.toml", text)
            yield f"random-{number}.toml"

    def differ(self, count, numbers):
        os.mkdir(f"{self.folder}/kept")
        files = [*glob.glob("examples/**/*.toml", recursive=True, root_dir=TOP), *glob.glob("tests/data/*.toml", root_dir=TOP)]
        for file in files:
            os.makedirs(f"{self.folder}/{os.path.dirname(file)}", exist_ok=True)
            shutil.copy(f"{TOP}/{file}", f"{self.folder}/{file}")
        os.mkdir(f"{self.folder}/lint")
        noted = [write(f"{self.folder}/{name}", text) for name, text in rows_tool().kept() if name.startswith("lint/")]
        files += [os.path.relpath(it, self.folder) for it in noted]
        random_files = [*self.random_files(count, numbers)]
        audits = [[*sorted(files), "there-is-none.toml"], *(random_files[at : at + 50] for at in range(0, count, 50))]
        return any(map(self.audits_differ, audits)) or any(map(self.commands_differ, [*files, *random_files]))


def show(answers):
    """Writes the rows of the two files as they have to be."""
    rows = rows_tool()
    rows.fill(answers.folder, [])

    def anew(found):
        words = [it.encode().decode("unicode_escape").encode("latin-1").decode("utf-8", "surrogateescape") for it in found[1].split()]
        command, given = words[0], words[1:]
        if "--hints" in given:
            at = given.index("--hints")
            del given[at : at + 2]
        if command == "audit":
            keeps = "--certificates" not in given
            if not keeps:
                at = given.index("--certificates")
                keeps = given[at + 1] != "nowhere"
                del given[at : at + 2]
            files = [it for it in given if not it.startswith("--")]
            status, text, _ = answers.second.audit(files, "--quiet" in given, "--json" in given, keeps)
        else:
            status, text = answers.second.answer(command, [it for it in given if it != "--json"])
        errors = "".join(ERRORS.findall(found[2]))
        return f"> swcheck{found[1]}\n{text}{errors}status {status}\n"

    for file in (f"{TOP}/tests/audit.rows", f"{TOP}/tests/json.rows"):
        write(file, rows.ROW.sub(anew, read(file)))


def compare(given):
    with tempfile.TemporaryDirectory() as folder:
        answers = Answers(given, folder)
        if given.show:
            show(answers)
            return 0
        if answers.differ(given.random, numbers_of(given)):
            return 1
        print(counted(answers.kinds))
        return 0
