"""Worked networks and texts with what is written of them, worked out by hand from the rules."""
import re

from networks import plain
from reports import REPORTS

COUNTER = """version = 1

[[process]]
name = "src"
kind = "count"
args = [1, 3]

[[process]]
name = "snk"
kind = "sink"
args = [3]

[[channel]]
name = "c0"
from = "src"
to = "snk"
capacity = 1
"""

COUNTED = REPORTS["COUNTER_ALONE"]

PARKS = """version = 1
budget = 10000

[[process]]
name = "src"
kind = "count"
args = [1, 3]

[[process]]
name = "cp"
kind = "copy"

[[process]]
name = "wv"
kind = "weave"
args = [3, 3]

[[process]]
name = "snk"
kind = "sink"
args = [6]

[[channel]]
name = "c0"
from = "src"
to = "cp"

[[channel]]
name = "c1"
from = "cp"
out = 0
to = "wv"
in = 0

[[channel]]
name = "c2"
from = "cp"
out = 1
to = "wv"
in = 1

[[channel]]
name = "c3"
from = "wv"
to = "snk"
"""


def net(processes, channels, **top):
    """The text of `x=count(1,3) y=sink(3)` and `c0 x.0>y.0 capacity=1, c1 ..`."""
    made = {"version": 1, **top, "process": [], "channel": []}
    for name, kind, args in re.findall(r"(\w+)=(\w+)(?:\(([\d,]*)\))?", processes):
        made["process"].append({"name": name, "kind": kind, **({"args": [int(it) for it in args.split(",")]} if args else {})})
    for part in filter(None, map(str.strip, channels.split(";"))):
        name, ends, *more = part.split(" ", 2)
        channel = dict(zip(("name", "from", "out", "to", "in"), (name, *re.fullmatch(r"(\w+)\.(\d)>(\w+)\.(\d)", ends).groups())))
        channel["out"], channel["in"] = int(channel["out"]), int(channel["in"])
        for key, value in re.findall(r"(\w+)=(\[.*?\]|\w+)", " ".join(more)):
            channel[key] = {"words": "words", "flags": "flags"}.get(value) or eval(value, {"true": True, "false": False})
        made["channel"].append(channel)
    return plain(made).decode()


def run(show=None):
    return ["run", "--show", show] if show else ["run"]


CHECK = ["check"]
ROWS = []  # name, words, text, what is written, exit status


def row(name, words, text, written, status):
    ROWS.append((name, words, text if type(text) is bytes else text.encode(), written, status))


def refused(name, text, number):
    row(name, run(), text, f"refused {number}\n", 2)


def edit(text, *pairs):
    """The text with each first piece replaced, which must occur in it exactly once."""
    for old, new in pairs:
        assert text.count(old) == 1, old
        text = text.replace(old, new)
    return text


# Small networks.

row("counter", run("c0"), COUNTER, REPORTS["COUNTER"], 0)
row("counter without a stream", run(), COUNTER, COUNTED, 0)
row("a sink that wants more", run(), edit(COUNTER, ("[3]", "[4]")), REPORTS["SINK_OF_FOUR"], 5)
row("a sink that wants less", run(), edit(COUNTER, ("[3]", "[2]")), REPORTS["SINK_OF_TWO"], 0)
row("a sink that wants one", run(), edit(COUNTER, ("[3]", "[1]")), REPORTS["SINK_OF_ONE"], 0)
PARKS_ENDS = REPORTS["WOVEN"]
row("Parks's case", run("c3"), PARKS, PARKS_ENDS, 5)
TWO = "a=count(1,%d) b=count(1,%d) x=sink(0) y=sink(0)"


def two(a, b, c0=1, c1=1, **top):
    return net(TWO % (a, b), f"c0 a.0>x.0 capacity={c0}; c1 b.0>y.0 capacity={c1}", **top)


def two_end(a, b, sizes, grown):
    lines = ["end terminated", f"process a stopped steps {a + 1}", f"process b stopped steps {b + 1}", "process x stopped steps 1", "process y stopped steps 1"]
    lines += [f"channel c{k} put {n} left {n} capacity {size}" for k, (n, size) in enumerate(zip((a, b), sizes))]
    lines += [f"grew {it}" for it in grown] + [f"entries {a + b + 4 + len(grown)}"]
    return "".join(f"{it}\n" for it in lines)


row("two channels grow in turn", run(), two(2, 2), REPORTS["TWO_FULL"], 0)
row("the smaller grows first", run(), two(3, 3, c0=2), REPORTS["SMALLER_FIRST"], 0)
row("a full channel whose writer has stopped", run(), two(1, 3, c1=2), REPORTS["WRITER_STOPPED"], 0)
row("nothing is counted", run("c0"), net("src=count(5,0) snk=sink(0)", "c0 src.0>snk.0"), REPORTS["NOTHING"], 0)
row("the ceiling", run(), net("src=count(1,65537) snk=sink(0)", "c0 src.0>snk.0 capacity=65535", budget=1000000), REPORTS["CEILING"], 6)
MANY, FIRST = 55_000, 9_000_000_000_000_000_000
row("a report of more than a million bytes", run("c0"), net(f"src=count({FIRST},{MANY}) snk=sink({MANY})", "c0 src.0>snk.0", budget=1000000), f"""end terminated
process src stopped steps {MANY + 1}
process snk stopped steps {MANY + 1}
channel c0 put {MANY} left 0 capacity 1
entries {2 * MANY + 2}
stream c0 {" ".join(str(FIRST + k) for k in range(MANY))}
""", 0)
row("an endless loop", run(), net("p=prefix(1) cp=copy snk=sink(2)", "c0 p.0>cp.0; c1 cp.0>p.0; c2 cp.1>snk.0", budget=10), "end budget\n", 3)
row("products and sums that wrap", run("c3"), net(
    "s=count(9223372036854775807,1) d=scale(2) t=count(2,1) ad=add snk=sink(1)",
    "c0 s.0>d.0; c1 d.0>ad.0; c2 t.0>ad.1; c3 ad.0>snk.0"), REPORTS["WRAPS"], 5)
row("a word of 64 bits", run("c1"), net(
    "s=count(9223372036854775807,1) d=scale(2) snk=sink(1)", "c0 s.0>d.0; c1 d.0>snk.0"), """end deadlock
process s stopped steps 2
process d reads c0 steps 2
process snk stopped steps 2
channel c0 put 1 left 0 capacity 1
channel c1 put 1 left 0 capacity 1
entries 6
stream c1 18446744073709551614
""", 5)
FLAGS = net(
    "src=count(1,6) cp=copy dv=divides(2) sw=switch odd=sink(3) even=sink(3)",
    "c0 src.0>cp.0; c1 cp.0>dv.0; c2 cp.1>sw.0; c3 dv.0>sw.1 sort=flags; c4 sw.0>odd.0; c5 sw.1>even.0")
FLAGS_END = REPORTS["FLAGS"].rpartition("stream")[0]
for name, stream in (("c3", "false true false true false true"), ("c4", "1 3 5"), ("c5", "2 4 6")):
    row(f"flags, {name}", run(name), FLAGS, f"{FLAGS_END}stream {name} {stream}\n", 5)
row("the budget suffices", run(), edit(COUNTER, ("version = 1", "version = 1\nbudget = 8")), COUNTED, 0)
row("the budget is one short", run(), edit(COUNTER, ("version = 1", "version = 1\nbudget = 7")), "end budget\n", 3)
row("a loop without tokens", run(), net("k=copy snk=sink(1)", "c0 k.0>k.0; c1 k.1>snk.0"), REPORTS["DEAD"], 5)
row("check", CHECK, COUNTER, "ok 2 processes 1 channels\n", 0)
row("check of nothing", CHECK, "", "refused 2\n", 2)
row("another command", ["walk"], COUNTER, "", 1)
row("seventeen workers", ["run", "--workers", "17"], COUNTER, "", 1)
row("no channel of the name", run("c9"), COUNTER, "no channel c9\n", 1)
row("no channel of the name in Parks's case", run("c9"), PARKS, "no channel c9\n", 1)
row("the counter is a sink of another kind", run(), edit(COUNTER, ('"sink"', '"filter"')), "refused 6\n", 2)
row("equal heads are merged into one", run("c2"), net(
    "a=count(1,2) b=count(2,2) m=merge snk=sink(3)", "c0 a.0>m.0; c1 b.0>m.1; c2 m.0>snk.0"), """end deadlock
process a stopped steps 3
process b stopped steps 3
process m reads c0 steps 5
process snk reads c2 steps 2
channel c0 put 2 left 0 capacity 1
channel c1 put 2 left 1 capacity 1
channel c2 put 2 left 0 capacity 1
entries 13
stream c2 1 2
""", 5)
row("one is selected", run("c3"), net(
    "src=count(1,4) cp=copy dv=divides(2) sl=select t=count(10,2) f=count(20,2) snk=sink(4) ck=sink(0)",
    "c0 src.0>cp.0; c1 cp.0>dv.0; c2 cp.1>ck.0 capacity=4; c3 sl.0>snk.0; c4 f.0>sl.0; c5 t.0>sl.1; c6 dv.0>sl.2 sort=flags"), """end deadlock
process src stopped steps 5
process cp reads c0 steps 12
process dv reads c1 steps 8
process sl reads c6 steps 12
process t stopped steps 3
process f stopped steps 3
process snk stopped steps 5
process ck stopped steps 1
channel c0 put 4 left 0 capacity 1
channel c1 put 4 left 0 capacity 1
channel c2 put 4 left 4 capacity 4
channel c3 put 4 left 0 capacity 1
channel c4 put 2 left 0 capacity 1
channel c5 put 2 left 0 capacity 1
channel c6 put 4 left 0 capacity 1
entries 49
stream c3 20 10 21 11
""", 5)

# Budgets that are spent, or just not: a run that terminates with as many entries as the budget has come to its end.


def spending(text, budget):
    return edit(text, ("version = 1", f"version = 1\nbudget = {budget}"))


for budget in (11, 12):
    row(f"an endless loop with a budget of {budget}", run(), net("p=prefix(1) cp=copy snk=sink(2)", "c0 p.0>cp.0; c1 cp.0>p.0; c2 cp.1>snk.0", budget=budget), "end budget\n", 3)
FIVE = edit(COUNTER, ("[1, 3]", "[1, 5]"), ("[3]", "[5]"))
FIVE_END = COUNTED.replace("steps 4", "steps 6").replace("put 3", "put 5").replace("entries 8", "entries 12")
SIX = edit(FIVE, ("[5]", "[6]"))
SIX_END = """end deadlock
process src stopped steps 6
process snk reads c0 steps 5
channel c0 put 5 left 0 capacity 1
entries 11
"""
row("five are counted with a budget of 12, their entries", run(), spending(FIVE, 12), FIVE_END, 0)
row("two grow with a budget of 12, their entries", run(), two(3, 2, budget=12), two_end(3, 2, (3, 2), ["c0 2", "c1 2", "c0 3"]), 0)
row("a sink that wants a sixth with a budget of 12", run(), spending(SIX, 12), SIX_END, 5)
for budget in (10, 11):
    row(f"five are counted with a budget of {budget}", run(), spending(FIVE, budget), "end budget\n", 3)
    row(f"two grow with a budget of {budget}", run(), two(3, 2, budget=budget), "end budget\n", 3)
row("a sink that wants a sixth with a budget of 10", run(), spending(SIX, 10), "end budget\n", 3)

# Descriptions that are refused.

CHANNEL = '\n[[channel]]\nname = "c1"\nfrom = "src"\nto = "snk"\n'
refused("two channels share their ports", COUNTER + CHANNEL, 9)
refused("no channel", COUNTER[: COUNTER.index("[[channel]]")], 10)
refused("another sort", COUNTER + 'sort = "flags"\n', 11)
refused("cut short", COUNTER[: COUNTER.index('rc"')], 1)
refused("nothing", "", 2)
refused("version 3", edit(COUNTER, ("version = 1", "version = 3")), 3)
refused("version 3 and no capacity", edit(COUNTER, ("version = 1", "version = 3"), ("capacity = 1", "capacity = 0")), 3)
refused("no process", "version = 1\nprocess = []\n" + COUNTER[COUNTER.index("[[channel]]"):], 4)
refused("a name with a capital", edit(COUNTER, ('name = "src"', 'name = "Src"')), 5)
refused("a kind that there is not", edit(COUNTER, ('"count"', '"filter"')), 6)
refused("an argument too few", edit(COUNTER, ("[1, 3]", "[1]")), 7)
refused("a negative argument", edit(COUNTER, ("[1, 3]", "[1, -3]")), 7)
refused("a process that there is not", edit(COUNTER, ('to = "snk"', 'to = "snx"')), 8)
refused("a port that there is not", edit(COUNTER, ('to = "snk"', 'to = "snk"\nout = 1')), 8)
for capacity in (0, 65536):
    refused(f"capacity {capacity}", edit(COUNTER, ("capacity = 1", f"capacity = {capacity}")), 12)
for budget in (0, 1000001):
    refused(f"budget {budget}", edit(COUNTER, ("version = 1", f"version = 1\nbudget = {budget}")), 13)
refused("a byte too many", COUNTER + "\n" * (1048577 - len(COUNTER)), 15)

# Long growths.


def long_growth(tokens, capacity, budget=None):
    """A counter into a sink of none, whose channel grows by one for each token for which it has no room."""
    name = f"a channel grows from {capacity} to {tokens}"
    text = net(f"src=count(1,{tokens}) snk=sink(0)", f"c0 src.0>snk.0 capacity={capacity}", **({"budget": budget} if budget else {}))
    lines = f"end terminated\nprocess src stopped steps {tokens + 1}\nprocess snk stopped steps 1\nchannel c0 put {tokens} left {tokens} capacity {tokens}\n"
    lines += "".join(f"grew c0 {it}\n" for it in range(capacity + 1, tokens + 1))
    row(name, run(), text, f"{lines}entries {2 * tokens - capacity + 2}\n", 0)


long_growth(6, 1)
long_growth(100, 1, budget=1000000)
long_growth(65534, 65000, budget=1000000)

# Hostile texts.

row("filled up with line feeds", run(), COUNTER + "\n" * (1048576 - len(COUNTER)), COUNTED, 0)
for end in range(len(PARKS) - 1):
    row(f"the first {end} bytes of Parks's case", CHECK, PARKS[:end], None, 2)
row("Parks's case without its last line feed", run("c3"), PARKS[:-1], PARKS_ENDS, 5)
refused("no value", "version = ", 1)
refused("a thousand brackets", "version = " + "[" * 1000, 1)
refused("a thousand brackets in a whole line", "version = " + "[" * 1000 + "\n", 1)
refused("arrays 100,000 deep", "version = " + "[" * 100000 + "]" * 100000 + "\n", 1)
refused("arrays 80 deep", "version = " + "[" * 80 + "]" * 80 + "\n", 2)
refused("arrays 81 deep", "version = " + "[" * 81 + "]" * 81 + "\n", 1)
refused("arrays 500 deep", "version = " + "[" * 500 + "]" * 500 + "\n", 1)
refused("a byte order mark alone", b"\xef\xbb\xbf", 2)
refused("an integer of 65 bits", edit(COUNTER, ("[1, 3]", "[1, 9223372036854775808]")), 1)
refused("two keys of one name", edit(COUNTER, ("args = [1, 3]", "args = [1, 3]\nargs = [1, 3]")), 1)
refused("a kind twice and a key that is not known", edit(COUNTER, ("args = [1, 3]", "kind = 1\ncolour = 1")), 1)
refused("the byte 255", b"\xff", 1)
refused("an unknown key at the top", "colour = 1\n" + COUNTER, 2)
refused("a name that is a number", edit(COUNTER, ('name = "src"', "name = 7")), 2)
refused("65 processes", net(" ".join(f"p{k}=count(0,0)" for k in range(65)), ""), 4)
refused("257 channels", net("src=count(1,3) snk=sink(3)", ";".join(f"c{k} src.0>snk.0" for k in range(257))), 4)


def crowd(processes, channels):
    """Counters of nothing, and channels from the first to itself."""
    return net(" ".join(f"p{k}=count(0,0)" for k in range(processes)), ";".join(f"c{k} p0.0>p0.0" for k in range(channels))).replace("channel = []\n", "")


refused("65 processes without channels", crowd(65, 0), 4)
refused("257 channels of one process", crowd(1, 257), 4)
refused("256 channels of one process", crowd(1, 256), 8)
refused("64 processes without channels", crowd(64, 0), 10)
PAIRS = "".join(f"process a{k} stopped steps 2\nprocess b{k} stopped steps 2\n" for k in range(32))
row("32 pairs", run(), net(
    " ".join(f"a{k}=count(1,1) b{k}=sink(1)" for k in range(32)), ";".join(f"c{k} a{k}.0>b{k}.0" for k in range(32))),
    "end terminated\n" + PAIRS + "".join(f"channel c{k} put 1 left 0 capacity 1\n" for k in range(32)) + "entries 128\n", 0)
row("32 counters before their sinks, the last stream", run("c31"), net(
    " ".join([*(f"a{k}=count(1,1)" for k in range(32)), *(f"b{k}=sink(1)" for k in range(32))]), ";".join(f"c{k} a{k}.0>b{k}.0" for k in range(32))),
    "end terminated\n" + "".join(f"process {it}{k} stopped steps 2\n" for it in "ab" for k in range(32))
    + "".join(f"channel c{k} put 1 left 0 capacity 1\n" for k in range(32)) + "entries 128\nstream c31 1\n", 0)
# Each copy feeds both inputs of its adder, and each adder the next copy: 64 processes and 96 channels, and all wait.
row("a ring of 32 copies and adders", run(), net(
    " ".join(f"k{i}=copy a{i}=add" for i in range(32)),
    ";".join(f"c{i}_0 k{i}.0>a{i}.0; c{i}_1 k{i}.1>a{i}.1; s{i} a{i}.0>k{(i + 1) % 32}.0" for i in range(32)), budget=1000000),
    "end deadlock\n" + "".join(f"process k{i} reads s{(i + 31) % 32} steps 0\nprocess a{i} reads c{i}_0 steps 0\n" for i in range(32))
    + "".join(f"channel {it} put 0 left 0 capacity 1\n" for i in range(32) for it in (f"c{i}_0", f"c{i}_1", f"s{i}")) + "entries 0\n", 5)
LINKS = ["src", *(f"s{k}" for k in range(62)), "snk"]


def chain(tokens):
    """A chain of 64 processes, through which go this many tokens, and what is written of it but for a stream."""
    text = net(
        f"src=count(1,{tokens}) " + " ".join(f"s{k}=scale(1)" for k in range(62)) + f" snk=sink({tokens})",
        ";".join(f"c{k} {LINKS[k]}.0>{LINKS[k + 1]}.0" for k in range(63)), budget=30000)
    lines = f"end deadlock\nprocess src stopped steps {tokens + 1}\n" + "".join(f"process s{k} reads c{k} steps {2 * tokens}\n" for k in range(62))
    lines += f"process snk stopped steps {tokens + 1}\n" + "".join(f"channel c{k} put {tokens} left 0 capacity 1\n" for k in range(63))
    return text, f"{lines}entries {126 * tokens + 2}\n"


row("a chain of 64 processes", run(), *chain(100), 5)
CHAIN, CHAIN_END = chain(200)
row("a chain of 64 processes, its last stream", run("c62"), CHAIN, CHAIN_END + "stream c62 " + " ".join(map(str, range(1, 201))) + "\n", 5)

# Other starting capacities; those of the streams that the first row doesn't show by one worker and by four.

for code in range(256):
    sizes = [1 + code // 4 ** k % 4 for k in range(4)]
    grown = ["c2 2"] if sizes[2] == 1 else []
    ends = [sizes[0], sizes[1], max(2, sizes[2]), sizes[3]]
    text = net(
        "src=count(1,3) cp=copy wv=weave(3,3) snk=sink(6)",
        ";".join(f"{it} capacity={size}" for it, size in zip(("c0 src.0>cp.0", "c1 cp.0>wv.0", "c2 cp.1>wv.1", "c3 wv.0>snk.0"), sizes)))
    lines = "end deadlock\nprocess src stopped steps 4\nprocess cp reads c0 steps 9\nprocess wv reads c1 steps 12\nprocess snk stopped steps 7\n"
    lines += "".join(f"channel c{k} put {put} left 0 capacity {size}\n" for k, (put, size) in enumerate(zip((3, 3, 3, 6), ends)))
    lines += "".join(f"grew {it}\n" for it in grown) + f"entries {32 + len(grown)}\n"
    row(f"Parks's case from {sizes}", run("c3"), text, f"{lines}stream c3 1 2 3 1 2 3\n", 5)
    for show in ("c0", "c1", "c2"):
        for workers in ("1", "4"):
            row(f"Parks's case from {sizes}, {show}", [*run(show), "--workers", workers], text, f"{lines}stream {show} 1 2 3\n", 5)
for code in range(16):
    sizes = [1 + code // 4, 1 + code % 4]
    grown = [f"c{k} {size}" for size in (2, 3) for k in (0, 1) if sizes[k] < size]
    for show in ("c0", "c1"):
        row(f"two that grow from {sizes}, {show}", run(show), two(3, 3, *sizes), two_end(3, 3, [max(3, it) for it in sizes], grown) + f"stream {show} 1 2 3\n", 0)

# Version 2: tokens at the start, a step for growths, a higher ceiling.

ROUND = net("k=take(2)", "c0 k.0>k.0 tokens=[7]", version=2)
row("a token goes round", run("c0"), ROUND, REPORTS["ROUND"], 0)
SUMS = net("s=count(1,3) ad=add cp=copy snk=sink(3)", "c0 s.0>ad.0; c1 cp.0>ad.1 tokens=[0]; c2 ad.0>cp.0; c3 cp.1>snk.0", version=2)
row("running sums, with their start", run("c1"), SUMS, REPORTS["SUMS_BACK"], 5)
row("running sums", run("c3"), SUMS, REPORTS["SUMS_OUT"], 5)
for tokens, number in (("[1, 2]", 16), ("[true]", 16), ("[-1]", 16), ("[1, true]", 16), ('["a"]', 2)):
    refused(f"tokens {tokens}", edit(ROUND, ("[7]", tokens)), number)
refused("tokens in version 1", edit(ROUND, ("version = 2", "version = 1")), 2)
refused("tokens in version 3", edit(ROUND, ("version = 2", "version = 3")), 2)
refused("a token in a channel of no capacity", edit(ROUND, ("[7]", "[1]\ncapacity = 0")), 12)
row("the counter in version 2", run("c0"), edit(COUNTER, ("version = 1", "version = 2")), REPORTS["COUNTER"], 0)
FLAGGED = edit(FLAGS, ("version = 1", "version = 2"), ('sort = "flags"', 'sort = "flags"\ntokens = [true]'))
row("a flag at the start, which the switch reads first", run("c3"), FLAGGED, edit(
    FLAGS_END, ("process sw reads c3 steps 18", "process sw reads c2 steps 19"), ("entries 63", "entries 64"))
    + "stream c3 true false true false true false true\n", 5)
refused("a word at the start of a channel of flags", edit(FLAGGED, ("[true]", "[1]")), 16)
row("growths by four places", run(), two(3, 3, c0=2, version=2, step=4), REPORTS["FOUR_PLACES"], 0)
row("growths by one place", run(), two(3, 3, c0=2, version=2, step=1), REPORTS["SMALLER_FIRST"], 0)
HIGH = {"version": 2, "budget": 2000000, "step": 1024}
row("a growth up to the ceiling", run(), net("src=count(1,1000000) snk=sink(0)", "c0 src.0>snk.0 capacity=999990", **HIGH), REPORTS["GREATEST_GROWTH"], 0)
row("the higher ceiling", run(), net("src=count(1,1000001) snk=sink(0)", "c0 src.0>snk.0 capacity=1000000", **HIGH), REPORTS["HIGHER_CEILING"], 6)
SECOND = edit(COUNTER, ("version = 1", "version = 2"))
for step in (0, 1025):
    refused(f"step {step}", edit(SECOND, ("version = 2", f"version = 2\nstep = {step}")), 17)
row("a run with capacity 65536 in version 2", run(), edit(SECOND, ("capacity = 1", "capacity = 65536")), COUNTED.replace("capacity 1", "capacity 65536"), 0)
row("capacity 65536 in version 2", CHECK, edit(SECOND, ("capacity = 1", "capacity = 65536")), "ok 2 processes 1 channels\n", 0)
refused("capacity 1000001 in version 2", edit(SECOND, ("capacity = 1", "capacity = 1000001")), 12)
refused("budget 2000001 in version 2", edit(SECOND, ("version = 2", "version = 2\nbudget = 2000001")), 13)
refused("a step in version 1", edit(COUNTER, ("version = 1", "version = 1\nstep = 1")), 2)
refused("capacity 65536 in version 1", edit(COUNTER, ("capacity = 1", "capacity = 65536")), 12)
