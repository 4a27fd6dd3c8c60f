"""The page of tools/dossier: what the program said of the files, as one HTML text without scripts and without anything
from outside."""
import collections

import dossier_words
from dossier_html import UNPROVED, VERDICTS, code, count, digits, facts, listed, mark, table, text, warning
from dossier_network import counts, section
from dossier_style import style

# Sections before those of the files, and those behind them, by the places of the page that they are.
FIRST = {"summary": "Summary", "meanings": "What the verdicts say"}
LAST = {
    "premises": "Premises to sign",
    "check": "How to check without this program",
    "hashes": "Versions and hashes",
    "signatures": "Signatures",
}
POLICY = "default-src 'none'; style-src 'unsafe-inline'"


class Page:
    """A page in the making."""

    def __init__(self, program, judged, makers, graphviz):
        self.program, self.judged, self.makers, self.graphviz = program, judged, makers, graphviz
        places = [*FIRST, *(f"n{it.number}" for it in judged), *LAST]
        self.numbers = {place: number for number, place in enumerate(places, 1)}

    def part(self, place, body, kind=""):
        words = {**FIRST, **LAST}[place]
        begin = f'<section id="{place}"{kind and f" class={chr(34)}{kind}{chr(34)}"}>\n'
        return f"{begin}<h2>{self.numbers[place]}. {text(words)}</h2>\n{body}</section>\n"

    def head(self, title, date):
        program = self.program
        logic = f"proved by {text(program.logic)}" if program.is_proved else "<b>unproved</b>"
        rows = [
            ("Date", text(date)),
            ("Made by", f"swcheck {text(program.version)}, {logic}"),
            ("SHA-256 of the program", digits(program.sha256)),
            ("Files", len(self.judged)),
        ]
        words = "Evidence on spacecraft data networks (SpaceWire, ECSS-E-ST-50-12C; RMAP, ECSS-E-ST-50-52C)"
        unproved = "" if program.is_proved else warning("Unproved program.", UNPROVED)
        return f"<header>\n<h1>{text(title)}</h1>\n<p>{words}</p>\n{facts(rows)}{unproved}</header>\n"

    def contents(self):
        entries = [(place, text(words)) for place, words in FIRST.items()]
        entries += [(f"n{it.number}", f"{text(it.path)}</a> {mark(it.kind)}") for it in self.judged]
        entries += [(place, text(words)) for place, words in LAST.items()]
        told = [f'<a href="#{place}">{words}{"" if "</a>" in words else "</a>"}' for place, words in entries]
        return f"<nav>\n<h2>Contents</h2>\n{listed(told)}</nav>\n"

    def summary(self):
        rows = [
            [it.number, f'<a href="#n{it.number}">{text(it.path)}</a>', mark(it.kind), it.status, *counts(it)]
            for it in self.judged
        ]
        heads = ["No.", "Network file", "Verdict", "Status", "Nodes", "Routers", "Links", "Flows"]
        tally = collections.Counter(it.kind for it in self.judged)
        told = ", ".join(f"{tally[it]} {VERDICTS[it][0].lower()}" for it in VERDICTS if tally[it])
        words = (
            f"{count(len(self.judged), 'file')}: {told}. Status is the exit status that the program gives for the file. "
            "Flows: declared ones, and those of replies."
        )
        return self.part("summary", f"<p>{words}</p>\n{table(heads, rows, 'summary', (6, 38, 14, 8, 8, 9, 7, 10))}")

    def meanings(self):
        rows = [[mark(kind), status, text(words)] for kind, (_, status, words) in VERDICTS.items()]
        body = table(["Verdict", "Status", "What it says"], rows, "meanings", (16, 8, 76))
        for document, heading in (dossier_words.GUARANTEE, dossier_words.GRANTED):
            body += f"<h3>{text(heading)}</h3>\n{dossier_words.told((document, heading))}"
        return self.part("meanings", body)

    def premises(self):
        before, found = dossier_words.premises()
        rows = [[at, dossier_words.inline(it), "", ""] for at, it in enumerate(found, 1)]
        heads = ["No.", "Premise", "Evidence: document, version, hash", "Name, date, signature"]
        words = "Where a premise does not hold of a network, its verdict guarantees nothing."
        told = table(heads, rows, "sign", (6, 48, 22, 24))
        return self.part("premises", f"{dossier_words.as_html(before)}<p>{words}</p>\n{told}", "new")

    def check(self):
        found = dossier_words.blocks(dossier_words.section(*dossier_words.CHECKING))
        # (the commands stand with each network)
        fence = next((at for at, (_, line) in enumerate(found) if line.startswith("```")), len(found))
        words = "The commands stand with each network that is free."
        return self.part("check", f"{dossier_words.as_html(found[:fence])}<p>{words}</p>\n")

    def hashes(self):
        program = self.program
        rows = [[f"swcheck {text(program.version)}, {text(program.logic)}", digits(program.sha256)]]
        rows += [[code(name), digits(sha256)] for name, sha256 in self.makers.items()]
        rows += [[code(it.path), digits(it.sha256)] for it in self.judged]
        free = [it for it in self.judged if it.kind == "free"]
        rows += [[code(it.certificate), digits(it.verdict["certificate_sha256"])] for it in free]
        drawn = f"Pictures: {text(self.graphviz)}." if self.graphviz else "There are no pictures: Graphviz was not there."
        words = "SHA-256 of the program, of what made this page, of the network files and of their certificates."
        told = table(["What", "SHA-256"], rows, "hashes", (36, 64))
        trusted = f"<h3>What is trusted</h3>\n{dossier_words.told(dossier_words.TRUSTED)}"
        return self.part("hashes", f"<p>{words} {drawn}</p>\n{told}{trusted}")

    def signatures(self):
        rows = [[it, "", "", ""] for it in ("Prepared by", "Checked by", "Approved by")]
        words = 'Of this page, as it is printed or kept: its own SHA-256 is <span class="line"></span>'
        told = table(["", "Name, organisation", "Date", "Signature"], rows, "sign", (18, 36, 16, 30))
        return self.part("signatures", f"<p>{words}</p>\n{told}")

    def body(self, title, date, is_kept):
        files = [section(it, self.numbers[f"n{it.number}"], self.graphviz, is_kept) for it in self.judged]
        first = [self.head(title, date), self.contents(), self.summary(), self.meanings()]
        return "".join([*first, *files, self.premises(), self.check(), self.hashes(), self.signatures()])


def page(title, date, program, judged, makers, graphviz, is_kept):
    """The whole page. The policy in its head lets a browser load nothing."""
    foot = f"swcheck {program.version}, {date}{'' if program.is_proved else ', unproved'}"
    head = [
        '<meta charset="utf-8">',
        f'<meta http-equiv="Content-Security-Policy" content="{POLICY}">',
        '<meta name="viewport" content="width=device-width, initial-scale=1">',
        f"<title>{text(title)}</title>",
        f"<style>{style(foot)}</style>",
    ]
    body = Page(program, judged, makers, graphviz).body(title, date, is_kept)
    lines = "\n".join(head)
    return f'<!DOCTYPE html>\n<html lang="en">\n<head>\n{lines}\n</head>\n<body>\n{body}</body>\n</html>\n'
