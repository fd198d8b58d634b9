"""Random networks and random edits of their texts, for tests/fuzz. A network is a table as tomllib
returns it, with exactly the keys that its text is to have."""
import copy

from interpreter import CEILING, GREATEST_BUDGET, KINDS, Network, load

PROCESSES = 64
GREATEST = 2 ** 63 - 1
LETTERS = "abcdefghijklmnopqrstuvwxyz"
AFTERWARDS = LETTERS + "0123456789_"


def pick(choices, *weighted):
    """Chooses one of the values, each given with its weight."""
    return choices.choices([it for it, _ in weighted], [weight for _, weight in weighted])[0]


# Networks.

def length(choices):
    """How many tokens a process counts, reads or takes."""
    return choices.randint(*pick(choices, ((0, 3), 4), ((2, 12), 6), ((8, 60), 3), ((60, 300), 1)))


def word(choices):
    return pick(
        choices, (choices.randint(0, 9), 8), (choices.randint(0, 1000), 2),
        (choices.randint(0, GREATEST), 1), (GREATEST - choices.randint(0, 3), 1),
    )


def args_of(choices, kind):
    if kind == "count":
        return [word(choices), length(choices)]
    if kind in ("sink", "take"):
        return [length(choices)]
    if kind in ("prefix", "scale", "constant", "hold", "offset", "noise"):
        return [word(choices)]
    if kind in ("shift", "left", "low_pass"):
        return [choices.randint(*pick(choices, ((0, 4), 4), ((0, 63), 1)))]
    if kind in ("decimate", "repeat", "delay"):
        return [choices.randint(1, 4)]
    if kind == "average":
        return [choices.randint(1, 5)]
    if kind == "gain":
        return [word(choices), pick(choices, (choices.randint(1, 9), 9), (max(1, word(choices)), 1))]
    if kind == "clip":
        return sorted([word(choices), word(choices)])
    if kind == "weave":
        return [choices.randint(1, 4), choices.randint(1, 4)]
    if kind == "divides":
        return [pick(choices, (choices.randint(1, 5), 9), (max(1, word(choices)), 1))]
    return []


def process(choices, kind, number):
    made = {"name": f"p{number}", "kind": kind}
    args = args_of(choices, kind)
    if args or choices.random() < 0.1:
        made["args"] = args
    return made


class Growing:
    """Processes with the ports that are still open, by their sort, in the order in which they came."""

    def __init__(self, choices):
        self.choices = choices
        self.processes, self.channels = [], []
        self.outs, self.ins = {"w": [], "f": []}, {"w": [], "f": []}

    def source(self):
        """A kind that gives words: its own, or where kinds for signals may be used those of a file."""
        return "input" if "input" in KINDS and self.choices.random() < 0.6 else "count"

    def end(self):
        """A kind that takes words."""
        return "drain" if "drain" in KINDS and self.choices.random() < 0.6 else "sink"

    def add(self, kind, joined):
        """Adds a process. With this probability each input is joined to an open output before it."""
        name = f"p{len(self.processes)}"
        self.processes.append(process(self.choices, kind, len(self.processes)))
        for port, sort in enumerate(KINDS[kind][2]):
            if self.outs[sort] and self.choices.random() < joined:
                self.join(self.any_of(self.outs[sort]), (name, port), sort)
            else:
                self.ins[sort].append((name, port))
        for port, sort in enumerate(KINDS[kind][3]):
            self.outs[sort].append((name, port))

    def any_of(self, ends):
        return ends.pop(self.choices.randrange(len(ends)))

    def join(self, begin, end, sort):
        channel = {"name": f"c{len(self.channels)}", "from": begin[0], "to": end[0]}
        if begin[1] or self.choices.random() < 0.1:
            channel["out"] = begin[1]
        if end[1] or self.choices.random() < 0.1:
            channel["in"] = end[1]
        if sort == "f" or self.choices.random() < 0.05:
            channel["sort"] = {"w": "words", "f": "flags"}[sort]
        self.channels.append(channel)

    def close(self, joined):
        """Adds processes until the ports fit, and channels for all open ports. These are joined at
        random, so there may be loops."""
        while len(self.outs["f"]) != len(self.ins["f"]):
            if len(self.outs["f"]) > len(self.ins["f"]):
                self.add(self.choices.choice(["switch", "select"]), joined)
            else:
                self.add("divides", joined)
        while len(self.outs["w"]) != len(self.ins["w"]):
            if len(self.outs["w"]) > len(self.ins["w"]):
                self.add(pick(self.choices, (self.end(), 5), ("add", 1), ("merge", 1), ("weave", 1)), joined)
            else:
                self.add(self.source(), joined)
        for sort in "wf":
            while self.outs[sort]:
                self.join(self.any_of(self.outs[sort]), self.any_of(self.ins[sort]), sort)


# Kinds that write for ever: a network with one seldom comes to its own end.
ENDLESS = ("constant", "count_up", "noise")


def kinds_of(choices):
    """The kinds of a network."""
    kinds = [it for it in sorted(KINDS) if it not in ENDLESS or choices.random() < 0.1]
    return choices.sample(kinds, choices.randint(2, len(kinds)))


def ports_fitted(choices):
    """Processes and channels, without capacities yet."""
    size = choices.randint(*pick(choices, ((1, 5), 12), ((4, 12), 6), ((10, 24), 3), ((24, 50), 1)))
    joined = pick(choices, (1.0, 4), (0.9, 6), (0.7, 2), (0.0, 1))
    kinds = ["take"] if choices.random() < 0.2 else kinds_of(choices)
    growing = Growing(choices)
    for _ in range(size):
        open_outs = sum(map(len, growing.outs.values()))
        ends = open_outs > 4 and choices.random() < 0.4
        growing.add(growing.end() if ends else growing.source() if not open_outs else choices.choice(kinds), joined)
    growing.close(joined)
    return growing


def chain(choices):
    """A source, processes that pass tokens on, and a sink."""
    growing = Growing(choices)
    growing.add(growing.source(), 1)
    for _ in range(choices.randint(0, pick(choices, (6, 5), (PROCESSES - 2, 1)))):
        growing.add(choices.choice(["scale", "take", "prefix"]), 1)
    growing.close(1)
    return growing


def any_tokens(choices, channel):
    room = min(channel.get("capacity", 1), 6)
    flags = channel.get("sort") == "flags"
    return [choices.random() < 0.5 if flags else word(choices) for _ in range(choices.randint(0, room))]


def fill_channels(choices, version, channels):
    """Capacities, most of them small, and start tokens."""
    most = pick(choices, (1, 6), (3, 4), (9, 1), (40, 1))
    filled = pick(choices, (0, 3), (0.2, 3), (0.6, 1)) if version == 2 else 0
    for channel in channels:
        if most > 1 or choices.random() < 0.1:
            channel["capacity"] = choices.randint(1, most)
        if choices.random() < filled:
            channel["tokens"] = any_tokens(choices, channel)


def renamed(choices, network):
    """Other names; a process and a channel may share one."""
    for key in ("process", "channel"):
        names = {}
        for it in network[key]:
            length = pick(choices, (2, 3), (8, 1), (16, 1))
            while it["name"] not in names:
                name = choices.choice(LETTERS) + "".join(choices.choice(AFTERWARDS) for _ in range(choices.randint(0, length - 1)))
                if name not in names.values():
                    names[it["name"]] = name
            it["name"] = names[it["name"]]
        if key == "process":
            for it in network["channel"]:
                it["from"], it["to"] = names[it["from"]], names[it["to"]]


def budget_near(choices, network, versions):
    """A budget near the number of entries with which the run is over, if that is small."""
    sketch = load(plain(network), versions)
    net = Network(sketch, choices.random())
    net.run(1500)
    return max(1, min(net.entries + choices.randint(-3, 3), GREATEST_BUDGET[network["version"]]))


def network(choices, versions):
    """A valid network of one of the versions."""
    version = choices.choice(versions)
    while True:
        growing = chain(choices) if choices.random() < 0.1 else ports_fitted(choices)
        if len(growing.processes) <= PROCESSES:
            break
    fill_channels(choices, version, growing.channels)
    made = {"version": version, "process": growing.processes, "channel": growing.channels}
    if choices.random() < 0.5:
        choices.shuffle(made["process"])
        choices.shuffle(made["channel"])
    if version == 2 and choices.random() < 0.5:
        made["step"] = pick(choices, (choices.randint(1, 5), 8), (1024, 1), (choices.randint(1, 1024), 1))
    if choices.random() < 0.5:
        renamed(choices, made)
    how = choices.random()
    if how < 0.35:
        made["budget"] = budget_near(choices, made, versions)
    elif how < 0.9:
        made["budget"] = choices.randint(*pick(choices, ((1, 30), 2), ((30, 600), 6), ((600, 3000), 2)))
    return made


def high_network(choices, versions):
    """A channel that grows near its ceiling, or ends there. Its run is long."""
    version = 2 if 2 in versions and choices.random() < 0.03 else 1
    if version not in versions:
        version = versions[0]
    ceiling = CEILING[version]
    tokens = ceiling + choices.randint(-3, 3)
    source = {"name": "src", "kind": "count", "args": [choices.randint(0, 5), tokens]}
    drain = {"name": "snk", "kind": "sink", "args": [choices.randint(0, 3)]}
    channel = {"name": "c0", "from": "src", "to": "snk", "capacity": ceiling - choices.randint(0, 40)}
    budget = pick(choices, (GREATEST_BUDGET[version], 3), (tokens + choices.randint(-3, 40), 1))
    made = {"version": version, "budget": min(budget, GREATEST_BUDGET[version]), "process": [source, drain], "channel": [channel]}
    if version == 2:
        made["step"] = choices.choice([1, 7, 1024])
    return made


# Texts.

def basic(text):
    return '"' + text.replace("\\", "\\\\").replace('"', '\\"').replace("\n", "\\n") + '"'


def value_text(value):
    if type(value) is bool:
        return str(value).lower()
    if type(value) is str:
        return basic(value)
    if type(value) is list:
        return "[" + ", ".join(map(value_text, value)) + "]"
    if type(value) is dict:
        return "{" + ", ".join(f"{key} = {value_text(it)}" for key, it in value.items()) + "}"
    return str(value)


def tables(network, key):
    """The tables at the key, if there are any; an edit may have put something else there."""
    found = network.get(key)
    return found if type(found) is list and all(type(it) is dict for it in found) else []


def values(network):
    """The other keys at the top level."""
    return {key: it for key, it in network.items() if not tables(network, key)}


def plain(network):
    """The text of a network, as one would write it."""
    lines = [f"{key} = {value_text(it)}" for key, it in values(network).items()]
    for key in ("process", "channel"):
        for it in tables(network, key):
            lines += ["", f"[[{key}]]", *(f"{k} = {value_text(v)}" for k, v in it.items())]
    return ("\n".join(lines) + "\n").encode()


def odd_integer(choices, value):
    forms = [str(value), str(value), f"{value:_}"]
    if value >= 0:
        forms += [f"+{value}", hex(value), oct(value), bin(value), f"0x{value:X}"]
    return choices.choice(forms)


def odd_value(choices, value):
    """The same value, written in another way."""
    if type(value) is int:
        return odd_integer(choices, value)
    if type(value) is str:
        forms = [basic(value)]
        if "'" not in value and value.isprintable():
            forms += [f"'{value}'", f"'''{value}'''", f'"""{value}"""' if '"' not in value and "\\" not in value else basic(value)]
        if value.isascii() and value.isalnum():
            escape = choices.choice(["\\u{:04x}", "\\x{:02x}"])
            forms.append('"' + "".join(escape.format(ord(it)) if choices.random() < 0.3 else it for it in value) + '"')
        return choices.choice(forms)
    if type(value) is list:
        between = choices.choice([", ", ",", " ,\n  ", ", # more\n"])
        last = choices.choice(["", "", ",", " ", "\n"]) if value else ""
        return "[" + between.join(odd_value(choices, it) for it in value) + last + "]"
    return value_text(value)


def odd_key(choices, key):
    return choices.choice([key, key, key, f'"{key}"', f"'{key}'"])


def odd_pairs(choices, table):
    pairs = list(table.items())
    if choices.random() < 0.5:
        choices.shuffle(pairs)
    return [(odd_key(choices, key), odd_value(choices, value)) for key, value in pairs]


def odd(choices, network):
    """The text of a network in one of the many ways that TOML allows. The order of processes stays,
    and so does that of channels; they may be mixed."""
    end = choices.choice(["\n", "\n", "\n", "\r\n"])
    lines = []
    for key, value in odd_pairs(choices, values(network)):
        lines.append(key + choices.choice([" = ", "=", "\t=  "]) + value)
    inline = [key for key in ("process", "channel") if tables(network, key) and choices.random() < 0.1]
    for key in inline:
        items = [inline_table(choices, it) for it in tables(network, key)]
        lines.append(f"{odd_key(choices, key)} = [" + ", ".join(items) + "]")
    queues = [[(key, it) for it in tables(network, key)] for key in ("process", "channel") if key not in inline]
    while any(queues):
        key, table = choices.choice([it for it in queues if it]).pop(0)
        lines += ["", choices.choice([f"[[{key}]]", f"[[{key}]]", f"  [[ {odd_key(choices, key)} ]] # {key}"])]
        lines += [f"{k} = {v}" + choices.choice(["", "", "", " # so", "  "]) for k, v in odd_pairs(choices, table)]
    return "".join(f"{line}\n" for line in lines).replace("\n", end).encode()


def inline_table(choices, table):
    """A table on one line, or on several, as TOML 1.1 allows."""
    begin, between, last = choices.choice([("", ", ", "")] * 3 + [("", ",", ", "), ("\n", ",\n  ", "\n"), (" ", " # so\n, ", ",# more\n")])
    return "{" + begin + between.join(f"{odd_key(choices, key)} = {value_text(value)}" for key, value in table.items()) + last + "}"


# Edits of networks.

STRANGE = [
    0, 1, 2, 3, -1, 64, 65, 255, 256, 1023, 1024, 1025, 65535, 65536, 1000000, 1000001, 2000000, 2000001,
    GREATEST, -GREATEST - 1, GREATEST + 1, -GREATEST - 2, 2 ** 64, 10 ** 30, 1.0, 1.5, True, False, "", "a", "words", "flags", "w", "src",
    "p0", "c0", "copy", "count", "sink", "Copy", "a" * 16, "a" * 17, "0a", "_a", "a b", "é", [], [1], [[]], [1, 2], [1, 2, 3, 4], [True], [-1],
    ["a"], [{}], {}, {"name": "a"}, [1, True],
]


def tables_of(network):
    return [network, *tables(network, "process"), *tables(network, "channel")]


def drop_key(choices, network):
    table = choices.choice([it for it in tables_of(network) if it])
    del table[choices.choice(list(table))]


def misspell_key(choices, network):
    table = choices.choice([it for it in tables_of(network) if it])
    key = choices.choice(list(table))
    other = choices.choice([key + "s", key[:-1] or "x", key.upper(), key + "_", "colour", "tokens", "step", "in", "out", "args"])
    table[other] = table.pop(key)


def add_key(choices, network):
    table = choices.choice(tables_of(network))
    key = choices.choice(["colour", "tokens", "step", "budget", "args", "capacity", "in", "out", "sort", "version", "name", "kind"])
    table[key] = copy.deepcopy(choices.choice(STRANGE))


def change_value(choices, network):
    table = choices.choice([it for it in tables_of(network) if it])
    table[choices.choice(list(table))] = copy.deepcopy(choices.choice(STRANGE))


def change_argument(choices, network):
    table = choices.choice(network["process"])
    args = table.setdefault("args", [])
    if args and choices.random() < 0.6:
        args[choices.randrange(len(args))] = choices.choice(STRANGE)
    elif args and choices.random() < 0.5:
        args.pop()
    else:
        args.append(choices.choice([0, 1, 7]))


def change_end(choices, network):
    table = choices.choice(network["channel"])
    key = choices.choice(["from", "to", "in", "out"])
    table[key] = choices.choice(network["process"])["name"] if key in ("from", "to") else choices.choice([0, 1, 2, 3, -1])


def change_kind(choices, network):
    choices.choice(network["process"])["kind"] = choices.choice([*KINDS, "filter", "Sink"])


def change_sort(choices, network):
    choices.choice(network["channel"])["sort"] = choices.choice(["words", "flags"])


def change_size(choices, network):
    """A number at the edge of its range."""
    version = network.get("version") if network.get("version") in (1, 2) else 1
    key = choices.choice(["budget", "capacity", "step", "version"])
    if key == "budget":
        network["budget"] = choices.choice([0, 1, -1, *(GREATEST_BUDGET[version] + it for it in (0, 1))])
    elif key == "capacity":
        choices.choice(network["channel"])["capacity"] = choices.choice([0, -1, *(it + more for it in CEILING.values() for more in (0, 1))])
    elif key == "step":
        network["step"] = choices.choice([0, -1, 1, 1024, 1025])
    else:
        network["version"] = choices.choice([0, 1, 2, 3, -1, "1", 1.0, True])


def change_tokens(choices, network):
    table = choices.choice(network["channel"])
    table["tokens"] = choices.choice([[], [1], [-1], [True], [1, True], [1, 2, 3], ["a"], [1.0], 7, [[1]], [GREATEST], [GREATEST + 1]])


def share_name(choices, network):
    key = choices.choice(["process", "channel"])
    choices.choice(network[key])["name"] = choices.choice(network[key])["name"]


def drop_table(choices, network):
    key = choices.choice(["process", "channel"])
    network[key].pop(choices.randrange(len(network[key])))


def double_table(choices, network):
    key = choices.choice(["process", "channel"])
    table = dict(choices.choice(network[key]))
    if choices.random() < 0.7:
        table["name"] = "again"
    network[key].insert(choices.randrange(len(network[key]) + 1), table)


def crowd(choices, network):
    """About as many processes or channels as are allowed."""
    key, most = choices.choice([("process", 64), ("channel", 256)])
    wanted = most + choices.choice([0, 0, 1])
    while len(network[key]) < wanted:
        network[key].append({**choices.choice(network[key]), "name": f"more_{len(network[key])}"})


NETWORK_EDITS = [
    (drop_key, 3), (misspell_key, 1), (add_key, 2), (change_value, 4), (change_argument, 4), (change_end, 5), (change_kind, 3),
    (change_sort, 4), (change_size, 9), (change_tokens, 4), (share_name, 2), (drop_table, 3), (double_table, 3), (crowd, 2),
]


def edited(choices, network):
    """A network with some edits, each of which may make it invalid."""
    network = copy.deepcopy(network)
    for _ in range(pick(choices, (1, 6), (2, 2), (3, 1))):
        try:
            pick(choices, *NETWORK_EDITS)(choices, network)
        except (IndexError, TypeError, AttributeError, KeyError, ValueError):  # an earlier edit took what this one edits
            pass
    return network


# Edits of texts.

BYTES = b"\x00\x01\t\n\r \"#'+-,.0123456789=[]_abcefinortuxz{}\\\x7f\x80\xc3\xa9\xef\xbb\xbf\xff"
PIECES = [
    b'"', b"'", b'"""', b"'''", b"[", b"]", b"[[", b"]]", b"=", b"#", b"\n", b"\r", b"\r\n", b"\\", b"\\u0061", b"1_0", b"_", b"0x", b"+", b"-", b".",
    b"e1", b"inf", b"nan", b"1979-05-27", b"07:32:00", b"\xef\xbb\xbf", b"\xc3\xa9", b"\x00", b"[process]\n", b"[[process]]\n", b"[channel]\n", b"[process.x]\n",
    b"version = 1\n", b"a.b = 1\n", b"process.name = 1\n", b"name = \"q\"\n", b"args = [1,]\n", b"00", b" ", b"\t", b"true",
]


def change_byte(choices, text):
    k = choices.randrange(len(text))
    return text[:k] + bytes([choices.choice(BYTES)]) + text[k + 1:]


def drop_bytes(choices, text):
    k = choices.randrange(len(text))
    return text[:k] + text[k + choices.randint(1, 4):]


def insert_piece(choices, text):
    k = choices.randrange(len(text) + 1)
    return text[:k] + choices.choice(PIECES) + text[k:]


def truncate(choices, text):
    return text[:choices.randrange(len(text))]


def with_lines(edit):
    def edit_lines(choices, text):
        lines = text.split(b"\n")
        edit(choices, lines)
        return b"\n".join(lines)
    return edit_lines


def drop_line(choices, lines):
    lines.pop(choices.randrange(len(lines)))


def double_line(choices, lines):
    k = choices.randrange(len(lines))
    lines.insert(choices.randrange(len(lines) + 1) if choices.random() < 0.5 else k, lines[k])


def move_line(choices, lines):
    line = lines.pop(choices.randrange(len(lines)))
    lines.insert(choices.randrange(len(lines) + 1), line)


TEXT_EDITS = [
    (change_byte, 6), (drop_bytes, 3), (insert_piece, 5), (truncate, 2),
    (with_lines(drop_line), 2), (with_lines(double_line), 2), (with_lines(move_line), 2),
]


def edited_text(choices, text):
    for _ in range(pick(choices, (1, 6), (2, 2), (4, 1))):
        if text:
            text = pick(choices, *TEXT_EDITS)(choices, text)
    return text
