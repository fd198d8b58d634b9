"""The chain that the benches run: a counter, scales by three and a sink, one behind the other."""
import re
import subprocess


def entries(scales, tokens):
    """How many entries: the counter puts each token, each scale takes and puts it, the sink takes it; two stop."""
    return tokens * (2 * scales + 2) + 2


def chain(scales, tokens, capacity=1, head="budget = 1000000"):
    """The description of a chain with this many tokens and channels of this capacity."""
    names = ["src"] + [f"scale_{i}" for i in range(scales)] + ["snk"]
    kinds = [("count", f"[1, {tokens}]")] + [("scale", "[3]")] * scales + [("sink", f"[{tokens}]")]
    text = f"version = 1\n{head}\n\n"
    for name, (kind, args) in zip(names, kinds):
        text += f'[[process]]\nname = "{name}"\nkind = "{kind}"\nargs = {args}\n\n'
    for i, (writer, reader) in enumerate(zip(names, names[1:])):
        text += f'[[channel]]\nname = "c{i}"\nfrom = "{writer}"\nto = "{reader}"\ncapacity = {capacity}\n\n'
    return text


def instructions(words, given=b""):
    """How many instructions a program takes, as callgrind counts them, and what it writes."""
    words = ["valgrind", "--tool=callgrind", "--callgrind-out-file=/dev/null", *words]
    done = subprocess.run(words, input=given, capture_output=True, check=False)
    said = re.search(r"Collected : ([0-9]+)", done.stderr.decode())
    assert said and done.stdout, (words, done.stderr[-500:])
    return int(said[1]), done.stdout
