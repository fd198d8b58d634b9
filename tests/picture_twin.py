"""Pictures of networks, drawn a second time and apart from the engine: from a description and, after a run, from the
lines of its report, as the independent interpreter writes them. And networks of many processes to draw."""
import tomllib

OUTPUTS = {"sink": 0, "copy": 2, "switch": 2, "copy_flags": 2}  # of the kinds that don't have one
INPUTS = {
    "count": 0, "add": 2, "weave": 2, "merge": 2, "switch": 2, "select": 3,
    "sub": 2, "mul": 2, "less": 2, "equal": 2, "and": 2, "or": 2, "hold": 2,
    "min": 2, "max": 2, "div": 2, "mod": 2, "gate": 2, "noise": 0,
}
ENDS = {"terminated": "terminated", "deadlock": "deadlock", "ceiling": "a channel at the ceiling would have to grow", "budget": "budget spent"}
VERDICTS = {"terminated": "finished", "ceiling": "full", "budget": "cut"}
HEAD = """\
digraph kpn {
  graph [rankdir=%s, nodesep=0.4, ranksep=0.6, labelloc=t, fontname="Helvetica", fontsize=16];
  node [shape=box, style="rounded,filled", fillcolor="#eef3fa", color="#44546a", fontname="Helvetica"];
  edge [color="#44546a", fontcolor="#44546a", fontname="Helvetica", fontsize=11, labelfontsize=9, labeldistance=1.5, labelangle=25];
"""


class Run:
    """What the lines of a report say: the end; of each process its place, as (act, channel); of each channel what is
    left and its capacity. Of a run that was cut it says the end alone."""

    def __init__(self, report):
        lines = [line.split() for line in report.splitlines()]
        self.end = lines[0][1]
        self.places = {it[1]: (it[2], it[3] if it[2] != "stopped" else None) for it in lines if it[0] == "process"}
        self.channels = {it[1]: (int(it[5]), int(it[7])) for it in lines if it[0] == "channel"}

    def waits(self, process, channels):
        """The process for which one waits, and the channel at which it does."""
        act, name = self.places.get(process, ("stopped", None))
        ends = {"reads": "from", "writes": "to"}
        return (channels[name][ends[act]], name) if act in ends else (None, None)

    def cycle(self, process, channels):
        """The processes on the way from one back to itself, each with the channel at which it waits for the next."""
        way, at = [], process
        while at is not None and (at != process or not way) and len(way) <= len(self.places):
            other, channel = self.waits(at, channels)
            way.append((at, channel))
            at = other
        return way if at == process else []

    def title(self, processes, channels):
        cycles = [it for it in (self.cycle(p, channels) for p in processes) if it] if self.end == "deadlock" else []
        if self.end != "deadlock":
            said = VERDICTS[self.end]
        elif not cycles:
            said = "ran dry"
        else:
            # in the order in which tokens would flow: the way back, from the process itself
            way = cycles[0]
            said = "cycle " + " ".join(f"{way[(k + 1) % len(way)][0]} {way[k][1]}" for k in range(len(way) - 1, -1, -1))
        return f'  label="{said} ({ENDS[self.end]})";\n'


def label_of_channel(channel, left, last):
    first = channel.get("capacity", 1)
    parts = [channel["name"]]
    if channel.get("sort") == "flags":
        parts.append("flags")
    if (first, last) != (1, 1):
        parts.append(f"capacity {first}" if first == last else f"capacity {first} -> {last}")
    if left:
        parts.append(f"holds {left}")
    return "\\n".join(parts)


def picture(description, report=None, down=False):
    """The picture of a description, and of the run whose report this is."""
    table = tomllib.loads(description)
    processes, channels = {it["name"]: it for it in table["process"]}, {it["name"]: it for it in table.get("channel", [])}
    run = Run(report) if report else None
    jammed = {it[1] for p in processes for it in (run.cycle(p, channels) if run else [])}
    out = HEAD % ("TB" if down else "LR")
    out += run.title(processes, channels) if run else ""
    read = {it["to"]: name for name, it in channels.items() if it.get("in", 0) == 0}
    first_written = {it["from"]: name for name, it in channels.items() if it.get("out", 0) == 0}
    points = {name for name, it in processes.items() if it["kind"] in ("copy", "copy_flags") and name in (read.get(name), first_written.get(name))}
    for name, process in processes.items():
        lines, look = [name, " ".join([process["kind"], *map(str, process.get("args", []))])], ""
        if run and name in run.places:
            act, at = run.places[name]
            lines.append("ended" if act == "stopped" else f"waits to {act[:-1]} {at}")
            look = ', fillcolor="#e3e3e3"' if act == "stopped" else look
            look = ', color="#c0392b", penwidth=2' if run.cycle(name, channels) else look
        label = "\\n".join(lines)
        out += f'  "{name}" [shape=point, width=0.08, label=""{look}];\n' if name in points else f'  "{name}" [label="{label}"{look}];\n'
    rows = {name: k // 8 for k, name in enumerate(processes)}
    stays = {name: rows[it["from"]] == rows[it["to"]] for name, it in channels.items()}
    is_chain = not any(it.get("out") or it.get("in") for it in channels.values())
    has_rows = len(processes) > 12 and is_chain and 2 * sum(stays.values()) > len(channels)
    for name, channel in channels.items():
        first, writer, reader = channel.get("capacity", 1), channel["from"], channel["to"]
        left, last = run.channels[name] if run and run.channels else (len(channel.get("tokens", [])), first)
        color = "#c0392b" if name in jammed else "#1f6fb4" if last != first else None
        text_color = "#1f6fb4" if last != first else color
        look = f', color="{color}", fontcolor="{text_color}", penwidth={3 if name in jammed else 2}' if color else ""
        if OUTPUTS.get(processes[writer]["kind"], 1) > 1 and writer not in points:
            look += f', taillabel="{channel.get("out", 0)}"'
        if INPUTS.get(processes[reader]["kind"], 1) > 1:
            look += f', headlabel="{channel.get("in", 0)}"'
        if reader in points:
            look += ", arrowhead=none, minlen=0" if writer in points else ", arrowhead=none"
        if has_rows and not stays[name]:
            look += ", constraint=false"
        label = "" if name in points & {writer, reader} else label_of_channel(channel, left, last)
        out += f'  "{writer}" -> "{reader}" [label="{label}"{look}];\n'
    return out + "}\n"


class Drawn:
    """A network as it grows: processes, and channels between their ports."""

    def __init__(self):
        self.processes, self.channels = [], []

    def process(self, name, kind, *args):
        self.processes.append(f'{{ name = "{name}", kind = "{kind}"' + (f", args = {list(args)}" if args else "") + " }")
        return name

    def channel(self, writer, reader, out=0, port=0):
        self.channels.append(f'{{ name = "c{len(self.channels)}", from = "{writer}", out = {out}, to = "{reader}", in = {port} }}')

    def text(self):
        return "version = 1\nprocess = [\n%s]\nchannel = [\n%s]\n" % tuple("".join(f"    {it},\n" for it in them) for them in (self.processes, self.channels))


def chain(stages):
    """A counter, stages that double, and a sink."""
    net = Drawn()
    names = [net.process("src", "count", 1, 3), *(net.process(f"s{k}", "scale", 2) for k in range(1, stages + 1)), net.process("snk", "sink", 3)]
    for one, other in zip(names, names[1:]):
        net.channel(one, other)
    return net.text()


def taps(number):
    """A filter of so many taps: each stage delays by one word, scales and adds. 4 processes a tap, less one."""
    net = Drawn()
    word, total = (net.process("src", "count", 1, 9), 0), None
    for k in range(number):
        if k + 1 < number:
            copy = net.process(f"cp{k}", "copy")
            net.channel(word[0], copy, word[1])
            word = (net.process(f"d{k}", "prefix", 0), 0)
            net.channel(copy, word[0], 0)
            tap = (copy, 1)
        else:
            tap = word
        scaled = net.process(f"g{k}", "scale", k + 1)
        net.channel(tap[0], scaled, tap[1])
        if total:
            added = net.process(f"a{k}", "add")
            net.channel(total, added)
            net.channel(scaled, added, 0, 1)
            total = added
        else:
            total = scaled
    net.channel(total, net.process("snk", "sink", 5))
    return net.text()


def sums(loops):
    """Running sums of running sums: each stage feeds its sum back. 3 processes a stage, and two."""
    net = Drawn()
    at = (net.process("src", "count", 1, 9), 0)
    for k in range(loops):
        add, copy, prefix = net.process(f"ad{k}", "add"), net.process(f"cp{k}", "copy"), net.process(f"pf{k}", "prefix", 0)
        net.channel(at[0], add, at[1], 0)
        net.channel(add, copy)
        net.channel(copy, prefix, 0)
        net.channel(prefix, add, 0, 1)
        at = (copy, 1)
    net.channel(at[0], net.process("snk", "sink", 5), at[1])
    return net.text()


def tree(levels):
    """Two to the power of so many counters, merged in pairs. Twice as many processes as counters."""
    net = Drawn()
    nodes, merges = [net.process(f"s{k}", "count", k, 3) for k in range(2**levels)], 0
    while len(nodes) > 1:
        pairs = list(zip(nodes[::2], nodes[1::2]))
        nodes = [net.process(f"m{merges + k}", "merge") for k in range(len(pairs))]
        for node, pair in zip(nodes, pairs):
            for port, it in enumerate(pair):
                net.channel(it, node, 0, port)
        merges += len(pairs)
    net.channel(nodes[0], net.process("snk", "sink", 3))
    return net.text()


# Networks of 2, 12, 30 and 64 processes, and nearly so where the stages don't come out even.
MADE = {
    "chain_2": chain(0), "chain_12": chain(10), "chain_30": chain(28), "chain_64": chain(62),
    "taps_11": taps(3), "taps_31": taps(8), "taps_63": taps(16), "sums_14": sums(4), "sums_29": sums(9), "sums_62": sums(20), "tree_32": tree(4), "tree_64": tree(5),
}
