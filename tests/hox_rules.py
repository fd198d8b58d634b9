"""What `hox run` and `hox check` may write, by tests/interpreter.py and docs/format.md: files of tokens, the verdict on a
run, and what goes where. It shares nothing with the engine."""
import re
from collections import namedtuple
from dataclasses import dataclass, field
from itertools import count, filterfalse, islice

from interpreter import CEILING, GREATEST_BUDGET, KINDS, SORTS, STATUS, WORD, Network, Refused, args_fit, document, is_integer, load, text_of, token_text

MOST_TOKENS = 1000000
MAY_BE_NEGATIVE = ("constant", "hold", "clip", "scale", "prefix", "offset", "gain")
VERDICTS = {"terminated": "finished", "budget": "cut", "ceiling": "full"}

# What the program wrote on standard output and standard error, its exit status, and the files that were there afterwards.
Written = namedtuple("Written", "output errors status files")


@dataclass
class Request:
    """What the program is asked for. A file is given by its name, and `-` stands for standard input or output."""
    text: bytes  # the description
    description: str = "-"
    tokens: list = field(default_factory=list)  # a channel and a file, for each file of tokens
    outputs: list = field(default_factory=list)  # a channel and a file, for each stream that is written
    files: dict = field(default_factory=dict)  # the texts of the files of tokens
    formats: dict = field(default_factory=dict)  # the formats that are named for the files of channels
    meant: dict = field(default_factory=dict)  # the tokens of such files that are read
    show: list = field(default_factory=list)  # the channels whose streams the report has
    budget: int = None
    quiet: bool = False

    def words(self, command, workers):
        words = ["check", self.description, "--expanded"] if command == "expand" else [command, self.description]
        words += [it for channel, file in self.tokens for it in ("--tokens", f"{channel}={file}")]
        used = dict(self.tokens) if command in ("check", "expand") else dict([*self.tokens, *self.outputs])
        words += [it for channel, said in self.formats.items() if channel in used for it in ("--format", f"{channel}={said}")]
        if command in ("check", "expand"):
            return words
        words += [it for channel, file in self.outputs for it in ("--out", f"{channel}={file}")]
        words += [it for name in self.show for it in ("--show", name)]
        words += ["--budget", str(self.budget)] if self.budget is not None else []
        return [*words, "--workers", str(workers), *["--quiet"] * self.quiet]

    def format_of(self, channel):
        return Format(self.formats.get(channel, "text"), channel)

    def input(self):
        return self.text if self.description == "-" else self.files.get("-", b"")


class Stopped(Exception):
    """A request that is not done: the exit status, and how the line on standard error begins."""

    def __init__(self, status, said=""):
        super().__init__(status, said)
        self.status, self.said = status, f"hox: {said}".encode()

    def kind(self):
        return f"hox {self.status}: {self.said[5:24].decode(errors='replace')}"

    def fault(self, request, written):
        if written.status != self.status or written.output or written.files or not written.errors.startswith(self.said):
            return f"expected status {self.status}, {self.said} on standard error, and no file"
        return None


# Formats, in which each word can be written.

FORMATS = ("text,digits=3", "text,digits=19,unsigned", "csv", "csv,delimiter=tab,header", "csv,delimiter=semicolon,digits=2,header", "csv,unsigned", "s64", "s64be", "u64le", "u64be")
DELIMITERS = {"tab": b"\t", "semicolon": b";"}


class Format:
    """A format that is named for the file of a channel."""

    def __init__(self, said, channel):
        name, *settings = said.split(",")
        keys = dict(it.partition("=")[::2] for it in settings)
        self.order = None if name in ("text", "csv") else "big" if name.endswith("be") else "little"
        self.digits, self.is_unsigned = int(keys.get("digits", 0)), "unsigned" in keys
        self.delimiter = DELIMITERS.get(keys.get("delimiter"), b",") if name == "csv" else None
        self.head = f"{channel}\n".encode() if "header" in keys else b""

    def record(self, token, after=b""):
        """What says a token."""
        if self.order:
            return int(token).to_bytes(8, self.order)
        text = token_text(token) if type(token) is bool else self.word_text(token)
        return text.encode() + after + b"\n"

    def word_text(self, word):
        number = word - WORD if word >= WORD // 2 and not self.is_unsigned else word
        digits = f"{abs(number):0{self.digits + 1}}"
        whole, part = digits[: len(digits) - self.digits], digits[len(digits) - self.digits :]
        return "-" * (number < 0) + whole + "." * (self.digits > 0) + part

    def text(self, tokens):
        """A file of these tokens."""
        return self.head + b"".join(map(self.record, tokens))

    def records(self, text):
        """The records of a file, if it begins as it should."""
        if not text.startswith(self.head):
            return [text]
        body = text[len(self.head) :]
        return [body[at : at + 8] for at in range(0, len(body), 8)] if self.order else body.splitlines(keepends=True)


# Files of tokens.

def token_of(cell, sort):
    """The token that a text stands for, or none."""
    if sort == "flags":
        return {"true": True, "false": False}.get(cell)
    decimal, hexadecimal = re.fullmatch("[+-]?[0-9]+", cell), re.fullmatch("([+-]?)0[xX]([0-9a-fA-F]+)", cell)
    value = int(cell) if decimal else int(hexadecimal[1] + hexadecimal[2], 16) if hexadecimal else WORD
    return value % WORD if -WORD // 2 <= value < WORD else None


def tokens_of(file, text, sort, most):
    """The tokens of a file: one on each line, in front of a comma or a comment; lines without one are ignored, and so is a
    byte order mark before a line."""
    name = "standard input" if file == "-" else file
    tokens = []
    for number, line in enumerate(text.split(b"\n"), 1):
        try:
            line = line.removeprefix(b"\xef\xbb\xbf").decode()
        except UnicodeDecodeError:
            raise Stopped(2, f"line {number} of {name} is not UTF-8") from None
        cell = line.partition("#")[0].partition(",")[0].strip()
        if cell:
            tokens.append(token_of(cell, sort))
            if tokens[-1] is None:
                raise Stopped(2, f"line {number} of {name}: ")
    if len(tokens) > most:
        raise Stopped(2, f"{name} has more than {most} tokens; ")
    return tokens


def channel_named(sketch, name):
    for it in sketch["channel"]:
        if it["name"] == name:
            return it
    raise Stopped(1, f"unknown channel \"{name}\"")


def port_sort(processes, name, direction, number):
    """The sort of a port of the first process of this name, if there is one."""
    kinds = [it["kind"] for it in processes if it["name"] == name]
    sorts = KINDS[kinds[0]][2 if direction == "in" else 3] if kinds and kinds[0] in KINDS else ""
    return SORTS[sorts[number]] if 0 <= number < len(sorts) else None


def as_words(sketch):
    """The description, in which a word stands for each negative argument of the kinds that take such, and for each negative
    start token."""
    for it in sketch["process"]:
        args = [arg % WORD for arg in it["args"]]
        if it["kind"] in MAY_BE_NEGATIVE and len(args) == KINDS[it["kind"]][1] and args_fit(it["kind"], args):
            it["args"] = args
    for it in sketch["channel"]:
        it["tokens"] = [token % WORD if type(token) is int else token for token in it["tokens"]]
    return sketch


def written_out(sketch):
    """The description with its copies: where several channels leave an output, the first copy reads it, and each writes to
    its channel and to the next copy, the last to the last two. The copy at channel number k has free name k, and so has the
    channel to it; but that to the first copy of an input has the name and the capacity of channel k, which gets the copy's."""
    processes, channels = sketch["process"], sketch["channel"]
    if not 1 <= len(processes) <= 64 or len(channels) > 256:
        return sketch
    taken = {it["name"] for it in processes + channels}
    names = list(islice(filterfalse(taken.__contains__, map("copy_{}".format, count())), len(channels)))
    fans = {}
    for k, it in enumerate(channels):
        fans.setdefault((it["from"], it["out"]), []).append(k)
    made = {}
    for (name, out), fan in fans.items():
        sort = port_sort(processes, name, "out", out)
        if sort is None:
            continue
        for k in fan[:-1]:
            copy = {"name": names[k], "kind": {"words": "copy", "flags": "copy_flags"}[sort], "args": []}
            link = {"name": names[k], "from": name, "out": out, "to": names[k], "in": 0, "sort": sort, "capacity": 1, "tokens": []}
            made[k] = copy, link
            kinds = [it["kind"] for it in processes if it["name"] == name]
            if k == fan[0] and kinds[0] in ("input", "input_flags"):
                link.update({key: channels[k][key] for key in ("name", "capacity")})
                channels[k]["name"] = names[k]
            channels[k].update({"from": names[k], "out": 0})
            name, out = names[k], 1
        channels[fan[-1]].update({"from": name, "out": out})
    for k in sorted(made):
        processes.append(made[k][0])
        channels.append(made[k][1])
    return sketch


def sort_by_ports(processes, it):
    """The sort of a channel's ports where these agree, else the one that it has."""
    sorts = {port_sort(processes, it["from"], "out", it["out"]), port_sort(processes, it["to"], "in", it["in"])}
    return sorts.pop() if len(sorts) == 1 and None not in sorts else it["sort"]


def by_ports(sketch):
    """The description, in which each channel has the sort of its ports where these agree."""
    for it in sketch["channel"]:
        it["sort"] = sort_by_ports(sketch["process"], it)
    return sketch


# The key of channels that hox alone knows.
DELAYS = {"delay": (is_integer, 0)}


def delayed(sketch):
    """The description, in whose channels as many zeros as they delay by come before the start tokens, with room for all. A
    delay that no channel has room for becomes the capacity."""
    for it in sketch["channel"]:
        delay = it.pop("delay", 0)
        if 0 < delay <= CEILING[2]:
            zero = {"words": 0, "flags": False}[sort_by_ports(sketch["process"], it)]
            it["tokens"] = [zero] * delay + it["tokens"]
            it["capacity"] = max(it["capacity"], len(it["tokens"]))
        elif delay:
            it["capacity"] = delay
    return sketch


def prepared(request, versions):
    """The description, with the tokens of the files in its channels."""
    try:
        sketch = load(request.text, versions, lambda sketch: by_ports(written_out(delayed(as_words(sketch)))), DELAYS)
    except Refused:
        raise Stopped(2, "" if request.description == "-" else f"{request.description}: ") from None
    for name, file in request.tokens:
        channel = channel_named(sketch, name)
        most = min(CEILING[sketch["version"]], MOST_TOKENS)
        channel["tokens"] = request.meant[name] if name in request.meant else tokens_of(file, request.files[file], channel["sort"], most)
        channel["capacity"] = max(channel["capacity"], len(channel["tokens"]))
    if "budget" not in document(request.text):
        sketch["budget"] = GREATEST_BUDGET[sketch["version"]]
    return sketch


# The verdict.

def next_of(process):
    """The process that this one waits for."""
    channel = process.channel()
    return channel.writer if process.wants[0] == "reads" else channel.reader


def circle_of(first):
    """The names on the cycle of waits on which this process is: itself, the channel at which another waits for it, that one,
    and so on; none if it is on no cycle."""
    names, seen, process = [], set(), first
    while not process.done and process not in seen:
        seen.add(process)
        other = next_of(process)
        names = [other.name, process.channel().name, *names]
        if other is first:
            return names
        process = other
    return []


def verdict_of(net, cause):
    if cause != "deadlock":
        return VERDICTS[cause]
    circles = [it for it in map(circle_of, net.processes) if it]
    return " ".join(["cycle", *circles[0]]) if circles else "ran dry"


# Dry processes: those that do nothing more, whatever others do.

def dry_ones(stopped, waiting):
    """The processes that have stopped, and those that wait to read an empty channel from a dry one. `waiting` gives each
    process that waits so the writer of the channel."""
    dry, found = set(), set(stopped)
    while found:
        dry |= found
        found = {process for process, writer in waiting.items() if writer in dry} - dry
    return dry


def dry_in(net):
    """The names of the dry processes of a network."""
    waiting = {it.name: it.channel().writer.name for it in net.processes if not it.done and it.wants and it.wants[0] == "reads" and not it.channel().holds}
    return dry_ones((it.name for it in net.processes if it.done), waiting)


def has_all(request, net, dry):
    """Whether some stream is written out, and each is of a channel whose writer is dry."""
    names = {*request.show, *(name for name, _ in request.outputs)}
    return bool(names) and all(it.writer.name in dry for it in net.channels if it.name in names)


def active_line(net, dry):
    """The line with the processes that could go on."""
    return " ".join(["active", *(it.name for it in net.processes if it.name not in dry)]) + "\n"


# The run.

def stream_of(net, name):
    channel = next(it for it in net.channels if it.name == name)
    return channel.begins_with + channel.put


def signed_text(token):
    """A token as hox writes it: a word from 2^63 on stands for itself less 2^64."""
    return str(token - WORD) if token is not True and token is not False and token >= WORD // 2 else token_text(token)


def tokens_line(word, name, tokens):
    return " ".join([word, name, *map(signed_text, tokens)])


def without_tokens(name, given):
    """What is said of a channel without tokens, whose file is one of these, if it has one."""
    if name in given:
        return f"channel {name}: {'standard input' if given[name] == '-' else given[name]} has no tokens"
    return f"channel {name}: no tokens; --tokens {name}=FILE gives some"


def unused(net, given):
    """What is said of what a run left unused that came to its own end: of each channel whose writer has stopped and put
    nothing on it that it has no tokens, or how many were not read."""
    sources = [it for it in net.channels if it.writer.done and not it.put]
    lines = [
        f"channel {it.name}: {len(it.holds)} of its {len(it.begins_with)} tokens were not read" if it.begins_with else without_tokens(it.name, given)
        for it in sources
        if it.holds or not it.begins_with
    ]
    return "".join(f"hox: {line}\n" for line in lines).encode()


# What is said of a run that was cut: which channels have no tokens depends on the schedule. If it ran dry, it is said how
# many tokens were not read, and nothing of the budget.
DRY = re.compile(rb"(?:hox: channel \w+: (?:no tokens; --tokens \w+=FILE gives some|[\w. ]+ has no tokens|\d+ of its \d+ tokens were not read)\n)*\Z")
CUT = re.compile(rb"((?:hox: channel \w+: (?:no tokens; --tokens \w+=FILE gives some|[\w. ]+ has no tokens)\n)*)hox: the budget of (\d+) entries is spent; --budget allows up to 1000000, in version 2 up to 2000000, and hox stream has no budget\n")


def due(request, report, streams):
    """What is written where, of a report and the text of the stream of each output."""
    to_output = b"".join(streams[name] for name, file in request.outputs if file == "-")
    files = {file: streams[name] for name, file in request.outputs if file != "-"}
    has_output = any(file == "-" for _, file in request.outputs)
    report = b"" if request.quiet else report
    return (to_output, report, files) if has_output else (report, b"", files)


class Ended:
    """A run that came to its own end: what is written is the same for all schedules."""

    def __init__(self, request, net, cause):
        dry = dry_in(net)
        is_early = cause == "ceiling" and has_all(request, net, dry)
        self.verdict = "ran dry" if is_early else verdict_of(net, cause)
        self.status = 0 if self.verdict == "ran dry" else STATUS[cause]
        shown = text_of(tokens_line("stream", name, stream_of(net, name)) for name in request.show)
        active = active_line(net, dry) if is_early else ""
        report = net.report(cause, None) + shown + f"verdict {self.verdict}\n{active}".encode()
        streams = {name: request.format_of(name).text(stream_of(net, name)) for name, _ in request.outputs}
        output, errors, files = due(request, report, streams)
        self.due = output, errors + unused(net, dict(request.tokens)), files

    def kind(self):
        return f"hox {self.verdict.split(' ')[0]}"

    def fault(self, request, written):
        output, errors, files = self.due
        if written != Written(output, errors, self.status, files):
            return f"expected status {self.status}, {output} on standard output, {errors} on standard error, and {files}"
        return None


def places_of(process):
    """How a cut may leave a process."""
    ends = [("reads", process.inputs), ("writes", process.outputs)]
    return ["ready", "stopped", *(f"{verb} {channel.name}" for verb, channels in ends for channel in channels.values())]


class Cut:
    """A run that its budget cut: of each stream and that of the interpreter's own run, which is longer, one begins with the
    other; and the streams have as many tokens as so many entries have that are no reads. The report says of each process
    that it was ready, has stopped or waits at a channel of its own, and then the streams so far that it shows, in order. It
    ran dry exactly if by these the writers of all streams that are written out are dry; then no stream goes on."""

    def __init__(self, request, net, budget):
        self.net, self.budget = net, budget
        net.run(4 * budget + 100)

    def kind(self):
        return "hox cut"

    def fault(self, request, written):
        texts = {name: written.files.get(file, b"") for name, file in request.outputs if file != "-"}
        texts.update({name: written.output for name, file in request.outputs if file == "-"})
        is_dry = written.status == 0
        said = (DRY if is_dry else CUT).search(written.errors)
        if said is None or not is_dry and (said.end() != len(written.errors) or int(said[2]) != self.budget):
            return f"expected that standard error ends with the budget of {self.budget}"
        written = written._replace(errors=written.errors[: said.start()])
        report = written.errors if "-" in dict(request.outputs).values() else written.output
        output, errors, files = due(request, report, texts)
        status = 0 if is_dry else STATUS["budget"]
        if written != Written(output, errors, status, files):
            return f"expected status 3, or 0 if it ran dry, {output} on standard output, {errors} on standard error, and the files {sorted(files)}"
        shown = [] if request.quiet else self.shown_in(request, report.decode(), is_dry)
        if shown is None:
            return f"expected a report of a run that was cut, or ran dry, and not {report}"
        formats = {name: request.format_of(name) for name in texts}
        records = {name: formats[name].records(text) for name, text in texts.items()}
        told = [*((name, it, formats[name]) for name, it in records.items()), *((name, it, Format("text", name)) for name, it in shown)]
        faults = [self.fault_of(*it, is_dry) for it in told]
        return next(filter(None, faults), self.fault_of_count(records))

    def shown_in(self, request, report, is_dry):
        """The streams that a report shows, each beside the name of its channel; none if it is no report of a run that was
        cut, or that ran dry."""
        lines = "".join(f"process {it.name} ({'|'.join(places_of(it))})\n" for it in self.net.processes)
        prefixes = "".join(f"prefix {name}((?: .+)?)\n" for name in request.show)
        found = re.fullmatch(f"end budget\nverdict (.*\n(?:active.*\n)?){lines}{prefixes}", report)
        if found is None or is_dry != self.is_dry_by(request, found.groups()):
            return None
        texts = found.groups()[1 + len(self.net.processes) :]
        return [(name, [f"{it}\n".encode() for it in text.split()]) for name, text in zip(request.show, texts)]

    def is_dry_by(self, request, said):
        """Whether the run ran dry by where it left the processes; neither if that is not what it says."""
        left = {it.name: place.split() for it, place in zip(self.net.processes, said[1:])}
        writers = {it.name: it.writer.name for it in self.net.channels}
        waiting = {name: writers[place[1]] for name, place in left.items() if place[0] == "reads"}
        dry = dry_ones((name for name, place in left.items() if place == ["stopped"]), waiting)
        is_dry = has_all(request, self.net, dry)
        return is_dry if said[0] == (f"ran dry\n{active_line(self.net, dry)}" if is_dry else "cut\n") else None

    def fault_of(self, name, lines, form, is_dry):
        """Of this stream and the interpreter's one begins with the other; if the run ran dry, the first with the second."""
        whole = list(map(form.record, stream_of(self.net, name)))
        common = len(whole) if is_dry else min(len(whole), len(lines))
        return None if lines[:common] == whole[:common] else f"expected that one of {name} and {whole} begins with the other"

    def fault_of_count(self, records):
        """Each entry is a put, or a take, of which there are no more than tokens, or a growth, of which there are no more than
        puts, or a process's stop."""
        held = {it.name: len(it.begins_with) for it in self.net.channels}
        put = sum(len(lines) - held[name] for name, lines in records.items())
        least = self.budget if len(records) == len(held) else 0
        if put > self.budget + 2 or 3 * put + sum(held.values()) + len(self.net.processes) < least:
            return f"{put} tokens put in {self.budget} to {self.budget + 2} entries"
        return None


def outcomes(request, seed, versions):
    """What a run may come to: with exactly as many entries as its budget it may be cut."""
    try:
        sketch = prepared(request, versions)
        budget = sketch["budget"] if request.budget is None else request.budget
        if not 1 <= budget <= GREATEST_BUDGET[sketch["version"]]:
            raise Stopped(1, "--budget must be 1 to ")
        for name in [*request.show, *(name for name, _ in request.outputs)]:
            channel_named(sketch, name)
    except Stopped as stopped:
        return [stopped]
    net = Network(sketch, seed)
    cause = net.run(budget)
    if cause == "budget":
        return [Cut(request, net, budget)]
    ended = Ended(request, net, cause)
    return [ended, Cut(request, net, budget)] if net.entries == budget and cause != "terminated" else [ended]


class Checked:
    """A description that is accepted."""

    def __init__(self, sketch):
        self.line = f"ok {len(sketch['process'])} processes {len(sketch['channel'])} channels\n".encode()

    def kind(self):
        return "hox ok"

    def fault(self, request, written):
        return None if written == Written(self.line, b"", 0, {}) else f"expected {self.line}"


class Expanded:
    """A description that is written out: the text has no fan-out, and describes the same network. It has version 2 if it has
    start tokens."""

    def __init__(self, sketch):
        is_second = sketch["version"] == 2 or any(it["tokens"] for it in sketch["channel"])
        self.sketch = {**sketch, "version": 2 if is_second else 1}

    def kind(self):
        return "hox expanded"

    def fault(self, request, written):
        try:
            found = load(written.output, (1, 2), lambda sketch: by_ports(as_words(sketch)))
        except Refused:
            found = None
        return None if found == self.sketch and written == Written(written.output, b"", 0, {}) else f"expected {self.sketch}, and not {found}"


def expand_of(request, versions):
    """What a check comes to that writes the network as a description."""
    try:
        return Expanded(prepared(request, versions))
    except Stopped as stopped:
        return stopped


def check_of(request, versions):
    """What a check comes to."""
    try:
        return Checked(prepared(request, versions))
    except Stopped as stopped:
        return stopped
