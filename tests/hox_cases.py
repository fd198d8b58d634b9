"""Random runs of `hox`, for tests/fuzz: networks of the standard kinds and those for signals, with files of tokens, outputs
and budgets."""
import os
import random
import re

import hox_rules
import networks
from hox_rules import FORMATS, MAY_BE_NEGATIVE, Request, Written, check_of, expand_of, outcomes, prepared
from interpreter import CEILING, GREATEST_BUDGET, SIGNALS, WORD, Network, brought, token_text
from networks import pick, tables
from program import Program
from toml_texts import toml_text

DESCRIPTION = "network.toml"
BLANKS = ("", "", "", " ", "\t", "  ")
NO_WORDS = ("0x", "1x", "-", "+-1", "- 1", "1_0", "1 2", "1.0", "0xg", "true", "x", "é", str(WORD), hex(WORD), str(-WORD // 2 - 1))
NO_FLAGS = ("True", "truefalse", "1", "0", "x", "é", "true false")


# Files of tokens.

def word(choices):
    return pick(choices, (networks.word(choices), 6), (WORD - 1 - choices.randint(0, 9), 1), (choices.randrange(WORD), 1))


def word_text(choices, value):
    """A text that says the word: with a sign, if it stands for a number below 0."""
    if value >= WORD // 2 and choices.random() < 0.5:
        return choices.choice([str(value - WORD), f"-0{WORD - value}", f"-0x{WORD - value:x}"])
    if choices.random() < 0.1:
        return f"+{value}"
    return choices.choice([hex(value).upper(), str(value), str(value), str(value), hex(value), f"0x{value:X}", f"00{value}", f"0x0{value:x}"])


def line_of(choices, token):
    """A line that says the token."""
    text = token_text(token) if type(token) is bool else word_text(choices, token)
    after = pick(choices, ("", 6), (",", 1), (", 2, three", 1), ("# so", 1), (" , # 7", 1))
    return choices.choice(BLANKS) + text + choices.choice(BLANKS) + after


def file_of(choices, tokens):
    """A text that says these tokens."""
    is_plain = choices.random() < 0.3
    lines = []
    for token in tokens:
        while not is_plain and choices.random() < 0.1:
            lines.append(choices.choice(["", "# nothing", "  ", "\t#1", ",1", " , "]))
        lines.append(token_text(token) if is_plain else line_of(choices, token))
    end = "\n" if is_plain else choices.choice(["\n", "\n", "\r\n"])
    mark = "\ufeff" if choices.random() < 0.1 else ""
    return (mark + end.join(lines) + choices.choice([end, ""])).encode()


def length(choices):
    return choices.randint(*pick(choices, ((0, 3), 4), ((2, 12), 6), ((8, 60), 3), ((60, 400), 1)))


def tokens_for(choices, sort):
    return [choices.random() < 0.5 if sort == "flags" else word(choices) for _ in range(length(choices))]


def spoiled(choices, text, sort):
    """A text of tokens that is refused."""
    how = choices.random()
    if how < 0.1:
        return b"1 # \xe9\n" + text
    if how < 0.15:
        return (b"true\n" if sort == "flags" else b"7\n") * (CEILING[1] + choices.randint(1, 3))
    lines = text.decode().split("\n")
    lines.insert(choices.randrange(len(lines) + 1), choices.choice(NO_FLAGS if sort == "flags" else NO_WORDS))
    return "\n".join(lines).encode()


# Requests.

def is_name(name):
    return type(name) is str and re.fullmatch("[a-z][a-z0-9_]*", name)


def formatted(choices, form, tokens):
    """A file of this format that says these tokens, with a column more if there are columns."""
    if not form.delimiter or choices.random() < 0.5:
        return form.text(tokens)
    return form.head + b"".join(form.record(it, form.delimiter + b'"a ""column"""') for it in tokens)


def with_tokens(choices, request, network, has_formats):
    """Gives channels of the network tokens from files, of some format if there may be formats: nearly each that a process
    begins for which they are meant."""
    kinds = {it.get("name"): it.get("kind") for it in tables(network, "process") if is_name(it.get("name"))}
    often = choices.choice([0, 0.2, 0.6])
    for it in tables(network, "channel"):
        is_input = is_name(it.get("from")) and kinds.get(it["from"]) in ("input", "input_flags")
        # (an edited network may have two channels of one name, and a channel has one file)
        is_new = is_name(it.get("name")) and it["name"] not in dict(request.tokens)
        if is_new and choices.random() < (0.9 if is_input else often):
            file = f"in{len(request.tokens)}" + choices.choice(["", ".txt", ".csv"])
            tokens = tokens_for(choices, it.get("sort"))
            if has_formats and choices.random() < 0.2:
                request.formats[it["name"]], request.meant[it["name"]] = choices.choice(FORMATS), tokens
                text = formatted(choices, request.format_of(it["name"]), tokens)
            else:
                text = file_of(choices, tokens)
            request.files[file] = text if it["name"] in request.meant else spoiled(choices, text, it.get("sort")) if choices.random() < 0.01 else text
            request.tokens.append((it["name"], file))
    if choices.random() < 0.01:
        request.files["in"] = b"1\n"
        request.tokens.append(("nowhere", "in"))
    choices.shuffle(request.tokens)
    if request.tokens and request.description != "-" and choices.random() < 0.2:
        name, file = request.tokens[0]
        request.tokens[0] = name, "-"
        request.files["-"] = request.files.pop(file)


def with_outputs(choices, request, network):
    """Asks for streams of the network: in files, at most one on standard output, and up to three in the report, of which
    two may be one channel's."""
    names = [it["name"] for it in tables(network, "channel") if is_name(it.get("name"))]
    chosen = names if choices.random() < 0.4 else choices.sample(names, choices.randint(0, min(len(names), 4)))
    request.outputs = [(name, f"out{n}") for n, name in enumerate(chosen[:12])]
    if request.outputs and choices.random() < 0.4:
        n = choices.randrange(len(request.outputs))
        request.outputs[n] = request.outputs[n][0], "-"
    if choices.random() < 0.01:
        request.outputs.append(("nowhere", "out"))
    for name, _ in request.outputs:
        if name != "nowhere" and name not in dict(request.tokens) and choices.random() < 0.15:
            request.formats[name] = choices.choice(FORMATS)
    if names:
        request.show = choices.choices(names, k=choices.choice([0, 0, 1, 1, 2, 3]))
    if request.show and choices.random() < 0.02:
        request.show[choices.randrange(len(request.show))] = "nowhere"
    request.quiet = choices.random() < 0.15


def with_budget(choices, request, versions):
    """A budget near the entries of the run, or fewer, if these are few."""
    how = choices.random()
    if how < 0.6:
        return
    if how < 0.61:
        request.budget = choices.choice([0, *(it + 1 for it in GREATEST_BUDGET.values())])
        return
    try:
        net = Network(prepared(request, versions), choices.random())
    except hox_rules.Stopped:
        return
    net.run(1500)
    near = net.entries + choices.randint(-3, 3)
    request.budget = max(1, near if how < 0.8 else choices.randint(1, max(1, net.entries)))


def full_request(choices, versions):
    """A channel that a file fills up to its ceiling, or nearly, and that would have to grow past it."""
    ceiling, more = CEILING[1], choices.randint(0, 4)
    source = {"name": "src", "kind": "count", "args": [choices.randint(0, 9), choices.randint(more, 9)]}
    end = {"name": "snk", "kind": "sink", "args": [choices.randint(0, 3)]}
    network = {"version": 1, "process": [source, end], "channel": [{"name": "c0", "from": "src", "to": "snk"}]}
    text = "".join(f"{choices.randint(0, 9)}\n" for _ in range(ceiling - more)).encode()
    return Request(networks.plain(network), tokens=[("c0", "in")], files={"in": text}, outputs=[("c0", "out")])


def endless_request(choices, versions):
    """Words of a file that are added to an endless source, whose channel grows to its ceiling once they are used up; at times
    that channel is written out too, which then could go on."""
    network = {
        "version": 1,
        "process": [
            {"name": "src", "kind": "input"},
            {"name": "more", "kind": choices.choice(networks.ENDLESS), "args": []},
            {"name": "sum", "kind": "add"},
            {"name": "snk", "kind": choices.choice(["drain", "sink"]), "args": []},
        ],
        "channel": [
            {"name": "x", "from": "src", "to": "sum"},
            {"name": "k", "from": "more", "to": "sum", "in": 1},
            {"name": "y", "from": "sum", "to": "snk"},
        ],
    }
    for it in network["process"]:
        if it["kind"] in ("constant", "sink"):
            it["args"] = [choices.randint(0, 9)]
    words = [choices.randint(0, 9) for _ in range(choices.randint(0, 5))]
    outputs = choices.choice([[], ["y"], ["y"], ["x", "y"], ["y", "k"]])
    return Request(
        networks.plain(network),
        tokens=[("x", "in")],
        files={"in": "".join(f"{it}\n" for it in words).encode()},
        outputs=[(name, f"out{n}") for n, name in enumerate(outputs)],
        show=choices.choice([[], [], ["y"], ["x"]]),
    )


def without_sorts(network):
    """The network, of whose channels nothing says which sort they are but their ports."""
    return {**network, "channel": [{key: it[key] for key in it if key != "sort"} for it in network["channel"]]}


def with_negatives(choices, network):
    """Gives processes of the kinds that take them numbers below 0, and nearly each bound its place; and channels of words that
    hold some."""
    for it in network["process"]:
        if it["kind"] in MAY_BE_NEGATIVE and choices.random() < 0.6:
            args = [-1 - arg if choices.random() < 0.6 else arg for arg in it["args"]]
            args[1:] = args[1:] if it["kind"] == "clip" else it["args"][1:]
            it["args"] = sorted(args) if it["kind"] == "clip" and choices.random() < 0.97 else args
    for it in network["channel"]:
        if "tokens" in it:
            it["tokens"] = [-1 - token if type(token) is int and choices.random() < 0.4 else token for token in it["tokens"]]


def with_fans(choices, network):
    """Lets more channels leave the outputs of some, each to a drain, at any place among the others. Names may be such as
    copies would have."""
    often = pick(choices, (0, 4), (0.15, 3), (0.6, 1))
    channels = network["channel"]
    for it in list(channels):
        while choices.random() < often:
            taken = {it["name"] for it in network["process"] + channels}
            name = next(it for it in [f"copy_{choices.randint(0, 9)}", *(f"d{n}" for n in range(1000))] if it not in taken)
            network["process"].append({"name": name, "kind": "drain_flags" if it.get("sort") == "flags" else "drain"})
            more = {key: it[key] for key in ("from", "out", "sort") if key in it}
            channels.insert(choices.randint(0, len(channels)), {"name": name, **more, "to": name})


def with_delays(choices, network):
    """Has some channels delay, few by a number that none can; in version 1 by a key that it doesn't have."""
    if network.get("version") != 2 and choices.random() < 0.97:
        return
    often = pick(choices, (0, 3), (0.2, 2), (0.7, 1))
    for it in network["channel"]:
        if choices.random() < often:
            it["delay"] = pick(choices, (0, 2), (1, 6), (choices.randint(2, 9), 8), (choices.randint(10, 300), 2), (choices.choice([-1, 1000001, 2 ** 63 - 1, -2 ** 63, True, "1"]), 0.2))


def request_of(choices, versions):
    """A request, and what was done to its network."""
    if choices.random() < 0.008 and 1 in versions:
        how = choices.choice(["full", "endless"])
        return (full_request if how == "full" else endless_request)(choices, versions), how
    if choices.random() < 0.02:
        return Request(toml_text(choices)), "toml"
    network = networks.network(choices, versions)
    with_negatives(choices, network)
    with_fans(choices, network)
    with_delays(choices, network)
    network.setdefault("budget", 4000)
    how = pick(choices, ("valid", 18), ("edited", 1), ("bytes", 1))
    if how == "edited":
        network = networks.edited(choices, network)
    shown = without_sorts(network) if how == "valid" and choices.random() < 0.5 else network
    text = networks.plain(shown) if choices.random() < 0.4 else networks.odd(choices, shown)
    if how == "bytes":
        text = networks.edited_text(choices, text)
    request = Request(text, description=choices.choice(["-", DESCRIPTION]))
    with_tokens(choices, request, network, how == "valid")
    with_outputs(choices, request, network)
    with_budget(choices, request, versions)
    return request, how


class Runner:
    """The program, in a folder of its own, where it finds and leaves files."""

    def __init__(self, path, folder):
        self.program = Program(path)
        os.chdir(folder)

    def run(self, request, command, workers):
        for file in os.listdir():
            os.remove(file)
        for file, text in {DESCRIPTION: request.text, **request.files}.items():
            if file != "-":
                with open(file, "wb") as out:
                    out.write(text)
        before = set(os.listdir())
        output, errors, status = self.program.run_and_hear(request.words(command, workers), request.input())
        return Written(output, errors, status, {file: read(file) for file in os.listdir() if file not in before})


def read(file):
    with open(file, "rb") as it:
        return it.read()


class HoxCase:
    program = "hox"

    def __init__(self, choices, versions):
        self.seed, self.versions = choices.random(), versions
        with brought(SIGNALS):
            self.request, self.how = request_of(choices, versions)
        self.text = self.request.text

    def differences(self, runner, text, all_workers, repeats=1):
        """What the program writes, if it is nothing that may be written, and the runs made."""
        request = Request(**{**vars(self.request), "text": text})
        with brought(SIGNALS):
            expected, checked, written_out = outcomes(request, self.seed, self.versions), check_of(request, self.versions), expand_of(request, self.versions)
        choices = random.Random(text)
        runs = [("run", workers, expected) for workers in all_workers]
        if isinstance(expected[0], hox_rules.Stopped):
            runs = [choices.choice(runs), ("check", 1, [checked])]
        elif choices.random() < 0.2:
            runs.append(choices.choice([("check", 1, [checked]), ("expand", 1, [written_out])]))
        found, made = [], 0
        for command, workers, may_be in runs * repeats:
            made += 1
            written = runner.run(request, command, workers)
            with brought(SIGNALS):
                faults = [it.fault(request, written) for it in may_be]
            if None not in faults:
                found.append((request.words(command, workers), f"{written}: {' or '.join(faults)}"))
        return [it.kind() for it in expected], found, made

    def said(self, expected):
        """The case for the eyes."""
        files = "".join(f"# {file}: {text[:2000]}\n" for file, text in self.request.files.items())
        return f"# hox {' '.join(self.request.words('run', 1))}  ({self.how}: {' or '.join(expected)})\n{files}"
