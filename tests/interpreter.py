#!/usr/bin/env python3
"""An independent, slow interpreter of the rules: from the arguments of the command and the text of a
description to what is written on standard output and the exit status. It is written from docs/format.md
and docs/model.md and shares nothing with the engine: TOML is read by Python's tomllib (tests/toml_1_1.py), a process is
a Python generator, and any process that can go on may be the next, as a seed decides.

    tests/interpreter.py [--seed N] [--versions 1] [--signals] run --show NAME < FILE

With --signals descriptions may also use the kinds for signals.
"""
import math
import random
import re
import sys
import tomllib
from collections import deque
from contextlib import contextmanager
from fractions import Fraction

from toml_1_1 import as_1_0

LIMIT = 1048576  # bytes of a description
DEPTH = 80  # how deep arrays may lie in one another
WORD = 2 ** 64
BYTE_ORDER_MARK = b"\xef\xbb\xbf"  # TOML 1.1 passes over one at the front

CEILING = {1: 65535, 2: 1000000}
GREATEST_BUDGET = {1: 1000000, 2: 2000000}
GREATEST_STEP = 1024

STATUS = {"terminated": 0, "budget": 3, "deadlock": 5, "ceiling": 6}


# Kinds. A process of Kahn's: it reads a port, writes to a port, or stops.

def count(first, n):
    for i in range(n):
        yield "writes", 0, first + i


def sink(n):
    for _ in range(n):
        yield "reads", 0


def take(n):
    for _ in range(n):
        token = yield "reads", 0
        yield "writes", 0, token


def copy():
    while True:
        token = yield "reads", 0
        yield "writes", 0, token
        yield "writes", 1, token


def prefix(value):
    yield "writes", 0, value
    while True:
        token = yield "reads", 0
        yield "writes", 0, token


def add():
    while True:
        left = yield "reads", 0
        right = yield "reads", 1
        yield "writes", 0, (left + right) % WORD


def scale(factor):
    while True:
        token = yield "reads", 0
        yield "writes", 0, token * factor % WORD


def weave(a, b):
    while True:
        for port, n in ((0, a), (1, b)):
            for _ in range(n):
                token = yield "reads", port
                yield "writes", 0, token


def merge():
    left = yield "reads", 0
    right = yield "reads", 1
    while True:
        yield "writes", 0, min(left, right)
        refill_left, refill_right = left <= right, right <= left
        if refill_left:
            left = yield "reads", 0
        if refill_right:
            right = yield "reads", 1


def divides(m):
    while True:
        token = yield "reads", 0
        yield "writes", 0, token % m == 0


def switch():
    while True:
        flag = yield "reads", 1
        token = yield "reads", 0
        yield "writes", int(flag), token


def select():
    while True:
        flag = yield "reads", 2
        token = yield "reads", int(flag)
        yield "writes", 0, token


# The function, how many arguments it takes, and the sorts of its inputs and outputs.
KINDS = {
    "count": (count, 2, "", "w"),
    "sink": (sink, 1, "w", ""),
    "take": (take, 1, "w", "w"),
    "copy": (copy, 0, "w", "ww"),
    "prefix": (prefix, 1, "w", "w"),
    "add": (add, 0, "ww", "w"),
    "scale": (scale, 1, "w", "w"),
    "weave": (weave, 2, "ww", "w"),
    "merge": (merge, 0, "ww", "w"),
    "divides": (divides, 1, "w", "f"),
    "switch": (switch, 0, "wf", "ww"),
    "select": (select, 0, "wwf", "w"),
}
SORTS = {"w": "words", "f": "flags"}


# Kinds for signals, which are no standard ones: `bring(SIGNALS)` adds them.

def signed(word):
    """The number that a word stands for in two's complement."""
    return word - WORD if word >= WORD // 2 else word


def nothing():
    yield from ()


def drain():
    while True:
        yield "reads", 0


def constant(value):
    while True:
        yield "writes", 0, value


def count_up():
    count = 0
    while True:
        yield "writes", 0, count % WORD
        count += 1


def mapped(function):
    """The kind that writes what a function makes of each token."""
    def acts(*args):
        while True:
            token = yield "reads", 0
            yield "writes", 0, function(token, *args)
    return acts


def joined(function):
    """The kind that writes what a function makes of a token of input 0 and one of input 1."""
    def acts():
        while True:
            left = yield "reads", 0
            right = yield "reads", 1
            yield "writes", 0, function(left, right)
    return acts


def decimate(n):
    while True:
        token = yield "reads", 0
        yield "writes", 0, token
        for _ in range(n - 1):
            yield "reads", 0


def repeat(n):
    while True:
        token = yield "reads", 0
        for _ in range(n):
            yield "writes", 0, token


def hold(value):
    while True:
        token = yield "reads", 0
        flag = yield "reads", 1
        value = token if flag else value
        yield "writes", 0, value


def delay(n):
    past = deque([0] * n)
    while True:
        token = yield "reads", 0
        past.append(token)
        yield "writes", 0, past.popleft()


def low_pass(k):
    level = 0
    while True:
        token = yield "reads", 0
        level += (signed(token) - level) >> k
        yield "writes", 0, level % WORD


def running_sum():
    total = 0
    while True:
        total += yield "reads", 0
        yield "writes", 0, total % WORD


def difference():
    before = 0
    while True:
        token = yield "reads", 0
        yield "writes", 0, (token - before) % WORD
        before = token


def average(n):
    past = deque([0] * n, maxlen=n)
    while True:
        token = yield "reads", 0
        past.append(signed(token))
        yield "writes", 0, math.floor(Fraction(sum(past), n)) % WORD


def counter():
    count = 0
    while True:
        count += yield "reads", 0
        yield "writes", 0, count


def edge():
    before = False
    while True:
        flag = yield "reads", 0
        yield "writes", 0, flag and not before
        before = flag


def noise(state):
    """SplitMix64, as java.util.SplittableRandom makes its words."""
    while True:
        state = (state + 0x9E3779B97F4A7C15) % WORD
        word = (state ^ state >> 30) * 0xBF58476D1CE4E5B9 % WORD
        word = (word ^ word >> 27) * 0x94D049BB133111EB % WORD
        yield "writes", 0, word ^ word >> 31


def gate():
    while True:
        token = yield "reads", 0
        if (yield "reads", 1):
            yield "writes", 0, token


def clipped(word, least, greatest):
    return sorted((least, word, greatest), key=signed)[1]


SIGNALS = {
    "input": (nothing, 0, "", "w"),
    "input_flags": (nothing, 0, "", "f"),
    "drain": (drain, 0, "w", ""),
    "drain_flags": (drain, 0, "f", ""),
    "constant": (constant, 1, "", "w"),
    "count_up": (count_up, 0, "", "w"),
    "sub": (joined(lambda left, right: (left - right) % WORD), 0, "ww", "w"),
    "mul": (joined(lambda left, right: left * right % WORD), 0, "ww", "w"),
    "shift": (mapped(lambda word, k: (signed(word) >> k) % WORD), 1, "w", "w"),
    "left": (mapped(lambda word, k: (word << k) % WORD), 1, "w", "w"),
    "less": (joined(lambda left, right: signed(left) < signed(right)), 0, "ww", "f"),
    "equal": (joined(lambda left, right: left == right), 0, "ww", "f"),
    "not": (mapped(lambda flag: not flag), 0, "f", "f"),
    "and": (joined(lambda left, right: left and right), 0, "ff", "f"),
    "or": (joined(lambda left, right: left or right), 0, "ff", "f"),
    "decimate": (decimate, 1, "w", "w"),
    "repeat": (repeat, 1, "w", "w"),
    "hold": (hold, 1, "wf", "w"),
    "delay": (delay, 1, "w", "w"),
    "low_pass": (low_pass, 1, "w", "w"),
    "clip": (mapped(clipped), 2, "w", "w"),
    "copy_flags": (copy, 0, "f", "ff"),
    "min": (joined(lambda left, right: min(left, right, key=signed)), 0, "ww", "w"),
    "max": (joined(lambda left, right: max(left, right, key=signed)), 0, "ww", "w"),
    "abs": (mapped(lambda word: abs(signed(word))), 0, "w", "w"),
    "offset": (mapped(lambda word, k: (word + k) % WORD), 1, "w", "w"),
    "gain": (mapped(lambda word, a, b: signed(word) * signed(a) // b % WORD), 2, "w", "w"),
    "div": (joined(lambda left, right: signed(left) // signed(right) % WORD if right else 0), 0, "ww", "w"),
    "mod": (joined(lambda left, right: signed(left) % signed(right) % WORD if right else left), 0, "ww", "w"),
    "sum": (running_sum, 0, "w", "w"),
    "difference": (difference, 0, "w", "w"),
    "average": (average, 1, "w", "w"),
    "counter": (counter, 0, "f", "w"),
    "edge": (edge, 0, "f", "f"),
    "noise": (noise, 1, "", "w"),
    "gate": (gate, 0, "wf", "w"),
}


def bring(kinds):
    """Adds kinds to those that descriptions may use."""
    KINDS.update(kinds)


@contextmanager
def brought(kinds):
    """Has descriptions use these kinds too, meanwhile."""
    others = dict(KINDS)
    bring(kinds)
    try:
        yield
    finally:
        KINDS.clear()
        bring(others)


def args_fit(kind, args):
    """Whether a kind accepts these arguments; their number is right."""
    if kind == "count":
        return sum(args) < WORD
    if kind in ("weave", "divides", "decimate", "repeat"):
        return 0 not in args
    if kind in ("shift", "left", "low_pass"):
        return args[0] < 64
    if kind == "delay":
        return 1 <= args[0] <= 4
    if kind == "average":
        return 1 <= args[0] <= 5
    if kind == "gain":
        return 0 < args[1] < WORD // 2
    if kind == "clip":
        return signed(args[0]) <= signed(args[1])
    return True


# The description.

class Refused(Exception):
    """A description that is refused, with the number of its fault."""

    def __init__(self, number):
        super().__init__(number)
        self.number = number


def depth(value):
    """How deep arrays are nested. By a loop, since it may be very deep."""
    deepest, rest = 0, [(value, 0)]
    while rest:
        value, level = rest.pop()
        if isinstance(value, dict):
            rest += [(it, 0) for it in value.values()]
        elif isinstance(value, list):
            rest += [(it, level + 1) for it in value]
            deepest = max(deepest, level + 1)
    return deepest


def integers(value):
    rest = [value]
    while rest:
        value = rest.pop()
        if isinstance(value, dict):
            rest += value.values()
        elif isinstance(value, list):
            rest += value
        elif type(value) is int:
            yield value


def finite(text):
    """The value of a float; one too great for 64 bits is no TOML."""
    value = float(text)
    if math.isinf(value) and "inf" not in text:
        raise Refused(1)
    return value


def document(text):
    """The TOML document of the bytes; numbers have 64 bits, and arrays are nested at most 80 deep."""
    if len(text) > LIMIT:
        raise Refused(15)
    try:
        table = tomllib.loads(as_1_0(text.removeprefix(BYTE_ORDER_MARK).decode("utf-8")), parse_float=finite)
    except (UnicodeDecodeError, tomllib.TOMLDecodeError, RecursionError):
        raise Refused(1) from None
    except ValueError:  # Python's own limit on the digits of an integer
        raise Refused(1) from None
    if any(not -2 ** 63 <= it < 2 ** 63 for it in integers(table)) or depth(table) > DEPTH:
        raise Refused(1)
    return table


def is_integer(value):
    return type(value) is int


def is_text(value):
    return type(value) is str


def is_list_of(test):
    return lambda value: type(value) is list and all(map(test, value))


def is_table(value):
    return type(value) is dict


def is_sort(value):
    return type(value) is str and value in ("words", "flags")


def is_token(value):
    return type(value) in (int, bool)


NEEDED = object()


def read_keys(table, keys):
    """The values at the keys, each with its form and its default; no other key is allowed."""
    if any(key not in keys for key in table):
        raise Refused(2)
    values = {}
    for key, (form, default) in keys.items():
        if key not in table:
            if default is NEEDED:
                raise Refused(2)
            values[key] = default
        elif not form(table[key]):
            raise Refused(2)
        else:
            values[key] = table[key]
    return values


PROCESS_KEYS = {"name": (is_text, NEEDED), "kind": (is_text, NEEDED), "args": (is_list_of(is_integer), [])}
CHANNEL_KEYS = {
    "name": (is_text, NEEDED), "from": (is_text, NEEDED), "to": (is_text, NEEDED),
    "out": (is_integer, 0), "in": (is_integer, 0), "sort": (is_sort, "words"), "capacity": (is_integer, 1),
}
TOP_KEYS = {
    "version": (is_integer, NEEDED), "budget": (is_integer, 10000),
    "process": (is_list_of(is_table), NEEDED), "channel": (is_list_of(is_table), []),
}


def read_sketch(table, versions, more={}):
    """The description of a document, with its defaults. Version 2 has two more keys, and `more` of channels."""
    top, channel = dict(TOP_KEYS), dict(CHANNEL_KEYS)
    version = table.get("version")
    if 2 in versions and is_integer(version) and version == 2:
        top["step"] = (is_integer, 1)
        channel.update({"tokens": (is_list_of(is_token), []), **more})
    sketch = read_keys(table, top)
    sketch["process"] = [read_keys(it, PROCESS_KEYS) for it in sketch["process"]]
    sketch["channel"] = [{"tokens": [], **read_keys(it, channel)} for it in sketch["channel"]]
    return {"step": 1, **sketch}


def named_twice(things):
    names = [it["name"] for it in things]
    return len(set(names)) < len(names)


def ports(sketch, direction):
    """The sort of each port, by the process's name and the port's number."""
    return {
        (it["name"], k): SORTS[sort]
        for it in sketch["process"]
        for k, sort in enumerate(KINDS[it["kind"]][2 if direction == "in" else 3])
    }


def first_fault(sketch, versions):
    """The least number of 3 to 17 whose condition holds of a description, or none."""
    version, processes, channels = sketch["version"], sketch["process"], sketch["channel"]
    if version not in versions:
        return 3
    if not 1 <= len(processes) <= 64 or len(channels) > 256:
        return 4
    if any(not re.fullmatch("[a-z][a-z0-9_]{0,15}", it["name"]) for it in processes + channels):
        return 5
    if named_twice(processes) or named_twice(channels):
        return 5
    if any(it["kind"] not in KINDS for it in processes):
        return 6
    for it in processes:
        args = it["args"]
        if len(args) != KINDS[it["kind"]][1] or any(arg < 0 for arg in args) or not args_fit(it["kind"], args):
            return 7
    outs, ins = ports(sketch, "out"), ports(sketch, "in")
    begins = [(it["from"], it["out"]) for it in channels]
    ends = [(it["to"], it["in"]) for it in channels]
    if any(it not in outs for it in begins) or any(it not in ins for it in ends):
        return 8
    if len(set(begins)) < len(begins) or len(set(ends)) < len(ends):
        return 9
    if set(outs) - set(begins) or set(ins) - set(ends):
        return 10
    if any(not it["sort"] == outs[a] == ins[b] for it, a, b in zip(channels, begins, ends)):
        return 11
    if any(not 1 <= it["capacity"] <= CEILING[version] for it in channels):
        return 12
    if not 1 <= sketch["budget"] <= GREATEST_BUDGET[version]:
        return 13
    for it in channels:
        wanted = int if it["sort"] == "words" else bool
        tokens = it["tokens"]
        if len(tokens) > it["capacity"] or any(type(t) is not wanted or t < 0 for t in tokens):
            return 16
    if not 1 <= sketch["step"] <= GREATEST_STEP:
        return 17
    return None


def load(text, versions, change=lambda sketch: sketch, more={}):
    """What a text describes, as `change` has it. Channels of version 2 may have `more` keys."""
    sketch = change(read_sketch(document(text), versions, more))
    number = first_fault(sketch, versions)
    if number:
        raise Refused(number)
    return sketch


# The run.

class Process:
    """A process: what it wants next (an act, or none if it wants to stop), and what it has done."""

    def __init__(self, sketch, number):
        self.name, self.number = sketch["name"], number
        self.acts = KINDS[sketch["kind"]][0](*sketch["args"])
        self.inputs, self.outputs = {}, {}
        self.steps, self.done = 0, False
        self.wants = next(self.acts, None)

    def go_on(self, token):
        try:
            self.wants = self.acts.send(token)
        except StopIteration:
            self.wants = None

    def channel(self):
        """The channel that it wants to read or write."""
        return (self.inputs if self.wants[0] == "reads" else self.outputs)[self.wants[1]]


class Channel:
    def __init__(self, sketch, number):
        self.name, self.number = sketch["name"], number
        self.capacity = sketch["capacity"]
        self.begins_with = sketch["tokens"]
        self.holds = deque(sketch["tokens"])
        self.put = []
        self.writer = self.reader = None


class Network:
    """The sequential machine: a state and what was done. Any process that can go on may be the next."""

    def __init__(self, sketch, seed):
        self.choices = random.Random(seed)
        self.processes = [Process(it, p) for p, it in enumerate(sketch["process"])]
        self.channels = [Channel(it, c) for c, it in enumerate(sketch["channel"])]
        self.step, self.ceiling = sketch["step"], CEILING[sketch["version"]]
        self.entries, self.growths = 0, []
        by_name = {it.name: it for it in self.processes}
        for channel, it in zip(self.channels, sketch["channel"]):
            channel.writer, channel.reader = by_name[it["from"]], by_name[it["to"]]
            channel.writer.outputs[it["out"]] = channel
            channel.reader.inputs[it["in"]] = channel

    def is_enabled(self, process):
        if process.done:
            return False
        if process.wants is None:
            return True
        channel = process.channel()
        return bool(channel.holds) if process.wants[0] == "reads" else len(channel.holds) < channel.capacity

    def is_blocked_writing(self, process):
        return not process.done and process.wants is not None and process.wants[0] == "writes" and not self.is_enabled(process)

    def do(self, process):
        """Does the deed that an enabled process wants. Returns the channel that it changed."""
        self.entries += 1
        process.steps += 1
        if process.wants is None:
            process.done = True
            return None
        channel = process.channel()
        if process.wants[0] == "reads":
            process.go_on(channel.holds.popleft())
        else:
            token = process.wants[2]
            channel.holds.append(token)
            channel.put.append(token)
            process.go_on(None)
        return channel

    def go_until_quiet(self, budget):
        """Does deeds in any order, until no process can go on or there are more entries than the budget."""
        awake = list(self.processes)
        while awake and self.entries <= budget:
            k = int(self.choices.random() * len(awake))
            process = awake[k]
            if not self.is_enabled(process):
                awake[k] = awake[-1]
                awake.pop()
                continue
            channel = self.do(process)
            if channel is not None:
                other = channel.reader if channel.writer is process else channel.writer
                if other is not process and other not in awake:
                    awake.append(other)

    def run(self, budget):
        """The cause of the end; it is the budget if there are more entries than that."""
        while True:
            self.go_until_quiet(budget)
            if self.entries > budget:
                return "budget"
            assert not any(self.is_enabled(it) for it in self.processes)
            if all(it.done for it in self.processes):
                return "terminated"
            full = [it.channel() for it in self.processes if self.is_blocked_writing(it)]
            if not full:
                return "deadlock"
            chosen = min(full, key=lambda it: (it.capacity, it.number))
            if chosen.capacity == self.ceiling:
                return "ceiling"
            chosen.capacity = min(chosen.capacity + self.step, self.ceiling)
            self.growths.append((chosen.name, chosen.capacity))
            self.entries += 1

    def place(self, process):
        return "stopped" if process.done else f"{process.wants[0]} {process.channel().name}"

    def report(self, cause, show):
        lines = [f"end {cause}"]
        lines += [f"process {it.name} {self.place(it)} steps {it.steps}" for it in self.processes]
        lines += [f"channel {it.name} put {len(it.put)} left {len(it.holds)} capacity {it.capacity}" for it in self.channels]
        lines += [f"grew {name} {to}" for name, to in self.growths]
        lines.append(f"entries {self.entries}")
        for it in self.channels:
            if it.name == show:
                lines.append(" ".join([f"stream {it.name}", *map(token_text, it.begins_with + it.put)]))
        return text_of(lines)


def token_text(token):
    return str(token).lower() if type(token) is bool else str(token)


def text_of(lines):
    return "".join(f"{line}\n" for line in lines).encode()


OVER_BUDGET = (b"end budget\n", STATUS["budget"])


def outcomes(sketch, show, seed):
    """What may be written of a run, with the status. There is one possibility, except for a run that ends by a
    deadlock or at the ceiling with exactly as many entries as the budget: whether the machine sees its
    end first or the budget's depends on the order of the work."""
    net = Network(sketch, seed)
    cause = net.run(sketch["budget"])
    if cause == "budget":
        return [OVER_BUDGET]
    found = [(net.report(cause, show), STATUS[cause])]
    if net.entries == sketch["budget"] and cause != "terminated":
        found.append(OVER_BUDGET)
    return found


# The command.

def read_words(words):
    """The command and the name to show, or none if the arguments are refused."""
    if words == ["check"]:
        return "check", None
    if words[:1] != ["run"]:
        return None
    given, rest = {}, words[1:]
    while rest:
        option, *rest = rest
        match = re.fullmatch("(--workers|--show)(=(.*))?", option, re.DOTALL)
        if not match or match[1] in given:
            return None
        if match[2] is not None:
            given[match[1]] = match[3]
        elif rest and not rest[0].startswith("-"):
            given[match[1]], *rest = rest
        else:
            return None
    workers = given.get("--workers", "1")
    if not re.fullmatch(r"\+?[0-9]+", workers) or not 1 <= int(workers) <= 16:
        return None
    return "run", given.get("--show")


def serve(words, text, seed=0, versions=(1, 2)):
    """All that may be written on standard output, each with its exit status. Help is left out."""
    choice = read_words(words)
    if choice is None:
        return [(b"", 1)]
    command, show = choice
    try:
        sketch = load(text, versions)
    except Refused as refused:
        return [(b"refused %d\n" % refused.number, 2)]
    if command == "check":
        return [(b"ok %d processes %d channels\n" % (len(sketch["process"]), len(sketch["channel"])), 0)]
    if show is not None and all(it["name"] != show for it in sketch["channel"]):
        return [(b"no channel %s\n" % show.encode(), 1)]
    return outcomes(sketch, show, seed)


def main(words):
    seed, versions = 0, (1, 2)
    while words[:1] and words[0] in ("--seed", "--versions", "--signals"):
        option, *words = words
        if option == "--signals":
            bring(SIGNALS)
            continue
        value, *words = words
        if option == "--seed":
            seed = int(value)
        else:
            versions = tuple(map(int, value.split(",")))
    written, status = serve(words, sys.stdin.buffer.read(LIMIT + 1), seed, versions)[0]
    sys.stdout.buffer.write(written)
    return status


if __name__ == "__main__":
    sys.exit(main(sys.argv[1:]))
