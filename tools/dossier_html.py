"""What the pages of tools/dossier are made of: texts, tables and figures as HTML, and what each verdict says."""
import html

# Each verdict: its word on the page, the exit status, and what it says.
VERDICTS = {
    "free": (
        "Free",
        0,
        "The network can't lock up, as long as the premises to sign hold. A certificate is accepted for it: over every "
        "run, whatever the order of events, each state that holds an undelivered character, and is reached within the "
        "file's limits, has a possible step that begins no packet.",
    ),
    "cyclic": (
        "Cyclic",
        1,
        "Nothing is guaranteed. No numbers of the channels rise along all dependencies, and no more is said: some "
        "cyclic networks lock up in some order of events, some in none. The channels below may wait for one another.",
    ),
    "misrouted": (
        "Misrouted",
        1,
        "Nothing is guaranteed: packets of a declared flow can come to a place with a fault. Of lock-ups this verdict "
        "says nothing.",
    ),
    "fault": ("Fault", 3, "The file declares no network, so there is no verdict on one. Its first fault is told below."),
    "unread": ("Unread", 6, "The file can't be opened or read. There is no verdict."),
    "memory": ("No memory", 5, "There was no memory for the file or for its verdict. There is no verdict."),
}
UNPROVED = (
    "This program was built without any proof, as it says itself: nothing on this page is proved. The answers are those "
    "of a first look. Before anything is signed, the page has to be made again by the proved program."
)


def text(words):
    return html.escape(str(words))


def code(words):
    return f"<code>{text(words)}</code>"


def digits(sha256):
    return f'<code class="hash">{sha256 or "not read"}</code>'


def count(number, word, several=""):
    return f"{number:,} {word if number == 1 else several or word + 's'}"


def table(heads, rows, kind="", widths=()):
    """A table whose head is repeated on each printed page. Heads are text, cells are HTML; a row may be (class,
    cells)."""
    lines = []
    for row in rows:
        name, cells = row if isinstance(row, tuple) else ("", row)
        begin = f'<tr class="{name}">' if name else "<tr>"
        lines.append(begin + "".join(f"<td>{it}</td>" for it in cells) + "</tr>\n")
    columns = "".join(f'<col style="width:{it}%">' for it in widths)
    columns = f"<colgroup>{columns}</colgroup>" if columns else ""
    head = "".join(f"<th>{text(it)}</th>" for it in heads)
    body = "".join(lines)
    return f'<table class="{kind}">{columns}<thead><tr>{head}</tr></thead>\n<tbody>\n{body}</tbody></table>\n'


def facts(rows):
    """A table of names and values."""
    lines = "".join(f"<tr><th>{text(name)}</th><td>{value}</td></tr>\n" for name, value in rows)
    return f'<table class="facts"><tbody>\n{lines}</tbody></table>\n'


def figure(svg, words):
    return f"<figure>\n{svg}\n<figcaption>{text(words)}</figcaption>\n</figure>\n"


def names_in(names):
    """Names in a line, none of which is parted."""
    return ", ".join(f'<span class="hop">{text(it)}</span>' for it in names)


def listed(items, kind="ol"):
    lines = "".join(f"<li>{it}</li>\n" for it in items)
    return f"<{kind}>\n{lines}</{kind}>\n"


def mark(kind):
    """The word of a verdict, in a frame."""
    return f'<b class="verdict {kind}">{text(VERDICTS[kind][0])}</b>'


def warning(head, words):
    return f'<p class="warning"><b>{text(head)}</b> {text(words)}</p>\n'
