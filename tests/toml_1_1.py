"""Writes a text of TOML 1.1 as one of TOML 1.0, which Python's tomllib reads.

TOML 1.1 added: the escapes \\e and \\xHH; comments, line ends and a comma at the end in inline tables; times without seconds.
A text that is no TOML 1.1 stays one that isn't TOML.
"""
import re

TOKEN = re.compile(
    r'(?P<text>"""(?:\\[\s\S]|(?!""")[^\\])*"{3,5}|"(?:\\.|[^"\\\n])*")'
    r"|(?P<literal>'''(?:(?!''')[\s\S])*'{3,5}|'[^'\n]*')"
    r"|(?P<gap>(?:[ \t]|\r?\n|#[^\x00-\x08\x0a-\x1f\x7f]*(?=\r?\n))+)"
    r"|(?P<comment>#[^\n]*)"
    r"|(?P<time>(?<![\w:+.-])(?:\d{4}-\d\d-\d\d[Tt ])?\d\d:\d\d(?![\w:.]|[^\x00-\x7f])|(?<![\w:+.-])\d{4}-\d\d-\d\d[Tt ]\d\d:\d\d(?=[Zz]))"
    r"|(?P<rest>[\"'][\s\S]*)"  # a text that doesn't end: nothing after it is TOML
    r"|(?P<other>[\s\S])"
)
ESCAPE = re.compile(r"\\(?:e|x([0-9A-Fa-f]{2})|[\s\S])")


def escaped(match):
    """An escape as TOML 1.0 has it."""
    if match[0] == "\\e":
        return "\\u001b"
    return f"\\u00{match[1]}" if match[1] else match[0]


def tokens_of(text):
    """The kinds and texts of the tokens."""
    return [(it.lastgroup, it[0]) for it in TOKEN.finditer(text)]


def in_inline_table(tokens):
    """For each token whether it stands right in an inline table, in no array within it."""
    open_ones, found = [], []
    for kind, text in tokens:
        if kind == "other" and text in "]}" and open_ones:
            open_ones.pop()
        found.append(open_ones[-1:] == ["{"])
        if kind == "other" and text in "[{":
            open_ones.append(text)
    return found


def neighbour(tokens, at, way):
    """The next token before or after one, gaps passed over; nothing at the ends."""
    at += way
    while 0 <= at < len(tokens) and tokens[at][0] == "gap":
        at += way
    return tokens[at][1] if 0 <= at < len(tokens) else ""


def as_1_0(text):
    """The text as TOML 1.0."""
    tokens, written = tokens_of(text), []
    for at, (is_inside, (kind, token)) in enumerate(zip(in_inline_table(tokens), tokens)):
        before, after = neighbour(tokens, at, -1), neighbour(tokens, at, 1)
        if kind == "text":
            token = ESCAPE.sub(escaped, token)
        elif kind == "time":
            token += ":00"
        elif is_inside and kind == "gap" and "\n" in token and not {before, after} & {"=", "."}:
            token = "\t"  # and no space, which may join a date and a time
        elif is_inside and token == "," and after == "}" and before not in ("{", ","):
            token = ""
        written.append(token)
    return "".join(written)
