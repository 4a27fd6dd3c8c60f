"""The texts of tools/dossier that the documents have: they are taken from there when a page is made, so that they are
the same."""
import html
import re

from program import TOP

GUARANTEE = ("README.md", "What exit status 0 guarantees")
GRANTED = ("README.md", "What it takes for granted")
TO_SIGN = ("docs/ASSURANCE.md", "A list to sign")
TRUSTED = ("docs/ASSURANCE.md", "What is trusted")
CHECKING = ("docs/ASSURANCE.md", "How to check without this program")
DOCUMENTS = ("README.md", "docs/ASSURANCE.md")


class Missing(Exception):
    """A document has no such part, or not in the form that is read here."""


def section(document, heading):
    """The lines of a document below a heading, up to the next one."""
    with open(f"{TOP}/{document}", encoding="utf-8") as it:
        found = it.read().split(f"\n## {heading}\n")
    if len(found) != 2:
        raise Missing(f"{document} has {len(found) - 1} sections '{heading}', and not one")
    return re.split(r"\n## ", found[1])[0].strip("\n").split("\n")


def blocks(lines):
    """The paragraphs and the entries of lists, each as what it begins with, `1.`, `-` or nothing, and its text in one
    line."""
    found, is_open = [], False
    for line in lines:
        begun = re.match(r"(\d+\.|-) +(?=\S)", line)
        if begun:
            found.append((begun[1], line[begun.end() :].strip()))
        elif line.strip() and is_open:
            found[-1] = (found[-1][0], f"{found[-1][1]} {line.strip()}")
        elif line.strip():
            found.append(("", line.strip()))
        is_open = bool(line.strip())
    return found


def inline(text):
    """Markdown of a line as HTML: code, bold words, and of a link its text."""
    parts = re.split(r"`([^`]*)`", text)
    told = []
    for at, part in enumerate(parts):
        words = html.escape(part)
        if at % 2 == 0:
            words = re.sub(r"\[([^\]]*)\]\([^)]*\)", r"\1", words)
            words = re.sub(r"\*\*([^*]+)\*\*", r"<b>\1</b>", words)
        told.append(f"<code>{words}</code>" if at % 2 else words)
    return "".join(told)


def as_html(found):
    """Blocks as HTML."""
    told = "".join(f"<li>{inline(text)}</li>\n" if mark else f"<p>{inline(text)}</p>\n" for mark, text in found)
    return re.sub(r"((?:<li>.*</li>\n)+)", r"<ul>\n\1</ul>\n", told)


def told(part):
    return as_html(blocks(section(*part)))


def premises():
    """What stands before the list to sign, and its premises, which are numbered from 1."""
    found = blocks(section(*TO_SIGN))
    before = [it for it in found if not it[0]]
    marks, listed = [mark for mark, _ in found if mark], [text for mark, text in found if mark]
    is_numbered = marks == [f"{it}." for it in range(1, len(listed) + 1)] and found[: len(before)] == before
    if not listed or not is_numbered:
        raise Missing(f"{TO_SIGN[0]}, '{TO_SIGN[1]}', is no list that is numbered from 1")
    return before, listed
