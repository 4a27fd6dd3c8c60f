"""Writes a TOML 1.1 text as one of TOML 1.0, which Python's tomllib reads: newlines, comments and trailing commas in
inline tables, `\\e`, `\\xHH`."""
import re

TOKEN = re.compile(
    r'''"""(?:\\.|[^\\])*?"{3,5}|\'\'\'.*?\'{3,5}|"(?:\\.|[^"\\\n])*"|\'[^\'\n]*\'|\#[^\n]*|[ \t\r\n]+|[^\s"'\#\[\]{},]+|.''', re.S
)
ESCAPE = re.compile(r"\\(?:e|x([0-9A-Fa-f]{2})|.)", re.S)


def older_escape(found):
    if found[0] == r"\e":
        return r"\u001B"
    return rf"\u00{found[1]}" if found[1] else found[0]


def without_last_comma(tokens):
    """The tokens up to a brace that closes a table: a comma before it is left out."""
    at = len(tokens)
    while at and not tokens[at - 1].strip():
        at -= 1
    return tokens[: at - 1] + tokens[at:] if at and tokens[at - 1] == "," else tokens


def as_toml_10(text):
    """Returns the same document in TOML 1.0; a text that is no TOML may become any other text."""
    written, open_ones = [], []
    for token in TOKEN.findall(text):
        is_in_table = open_ones[-1:] == ["{"]
        if token in "[{":
            open_ones.append(token)
        elif token in "]}":
            if token == "}" and is_in_table:
                written = without_last_comma(written)
            del open_ones[-1:]
        elif is_in_table and token.startswith("#"):
            token = ""
        elif is_in_table and "\n" in token and not token.strip():
            token = " "
        elif token.startswith('"'):
            token = ESCAPE.sub(older_escape, token)
        written.append(token)
    return "".join(written)
