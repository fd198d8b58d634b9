"""Random texts of a few keys, for tests/fuzz: values of all forms of TOML 1.1, inline tables over several lines
among them, and edits that may spoil them. None is a description; so what is asked is whether it is TOML."""

VALUES = [
    "1", "-0", "0x1F", "1_0", "1e5", "1.5", "inf", "true", '"a"', "'b'", '"#"', '"\\e"', '"\\x41"', '"{\\x7b"', '"\\x4"', '"\\xgg"', '"\\u00e9"',
    '"""a\\\n  b\\e"""', '""""a"""""', "'''x\ny'''", "[1,\n2,]", "[{a = 1,\n},]", "{}", "{\n}", "{,}", "{ # c\n}",
    "07:32", "07:32:10", "07:32.5", "07:32Z", "07:60", "25:00", "1979-05-27", "1979-05-27 07:32", "1979-05-27T07:32Z", "1979-05-27t07:32z",
    "1979-05-27T07:32+01:00", "1979-05-27T07:32:00+01:00", "1979-05-27 07:32-00:00", "1979-05-27T07:32:00.5", "1979-05-27  07:32", "1979-13-27 07:32",
]
KEYS = ["a", "b", "c", "d.e", '"k\\x41"', "'q'", '"\\e"']
GAPS = ["", "", "", " ", "\t", "\n", "\n ", "\r\n", "# c\n", " # c \r\n\n"]
PIECES = [
    "\n", "\r\n", "\r", "\t", " ", ",", ",\n", "=", ".", ":", "{", "}", "[", "]", '"', "'", '"""', "'''", "\\", "\\e", "\\x", "# c\n", "#\n",
    "# \x01\n", "\x00", "e", "T", "Z", "07:32",
]


def value(choices, depth):
    return inline_table(choices, depth + 1) if depth < 4 and choices.random() < 0.3 else choices.choice(VALUES)


def inline_table(choices, depth=0):
    written, number = "{" + choices.choice(GAPS), choices.randint(0, 3)
    for k in range(number):
        key = choices.choice(KEYS) + choices.choice(["", str(k)])
        written += key + choices.choice([" = ", "=", "\t=\t"]) + value(choices, depth) + choices.choice(GAPS)
        if k < number - 1 or choices.random() < 0.3:
            written += "," + choices.choice(GAPS)
    return written + "}"


def edited(choices, text):
    k = choices.randrange(len(text) + 1)
    how = choices.random()
    piece = "" if 0.5 < how < 0.8 else choices.choice(PIECES)
    return text[:k] + piece + text[k + (0 if how < 0.5 else choices.randint(1, 2)) :]


def toml_text(choices):
    """A text of one key to five."""
    text = ""
    for k in range(choices.randint(1, 3)):
        text += f"k{k} = {inline_table(choices) if choices.random() < 0.8 else choices.choice(VALUES)}" + choices.choice(["\n", "\r\n", " # z\n"])
    if choices.random() < 0.3:
        text += f"[t]\nx = {inline_table(choices)}\n[[u]]\ny = {choices.choice(VALUES)}\n"
    for _ in range(choices.choice([0, 0, 0, 1, 1, 2])):
        text = edited(choices, text)
    return text.encode()
