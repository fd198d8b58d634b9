"""Driven by tests/callers, by the words and lines of drive.c, in Python: `obey` does what a text says with the calls that
keep nothing, and `pour` feeds all at once and lets the module do the rest."""

from array import array

import hoxburen

# So many entries are made at most, where a flow has no end.
LONGEST = 1_000_000


def opened(text, inputs, outputs):
    return hoxburen.open(text.decode() + "\n", inputs, outputs)


def advance(flow, most):
    before = flow.entries
    pause = flow.advance(most)
    made = flow.entries - before
    assert made <= most and (pause != hoxburen.Pause.CUT or made + 1 >= most)
    if pause not in (hoxburen.Pause.CUT, hoxburen.Pause.CEILING):
        assert flow.verdict == pause
    if pause == hoxburen.Pause.STARVED:
        assert any(it.is_starved and not it.has_ended for it in flow.inputs.values())
    if pause == hoxburen.Pause.BLOCKED:
        assert any(it.is_full for it in flow.outputs.values())
    return pause


def drain(output, most):
    """Lines of what is there, at most so many."""
    held, buffer = output.held, array("Q", bytes(8 * min(most, 1 << 16)))
    count = output.poll(buffer)
    assert count == min(held, most)
    return [f"{output.name} {word}" for word in buffer[:count]]


def finish(flow):
    for it in flow.inputs.values():
        it.end()
    lines = []
    while flow.entries < LONGEST:
        pause = advance(flow, 5000)
        drained = [line for it in flow.outputs.values() for line in drain(it, 1 << 16)]
        lines += drained
        if pause not in (hoxburen.Pause.CUT, hoxburen.Pause.BLOCKED) and not drained:
            return [*lines, f"over {pause.value}"]
    return [*lines, "over 0"]


def obey(text, inputs, outputs, lines):
    """What drive.c writes."""
    said = []
    with opened(text, inputs, outputs) as flow:
        for line in lines:
            verb, *words = line.split()
            if verb == "feed":
                offered = array("Q", map(int, words[1:]))
                may, fed = flow[words[0]].may_feed, flow[words[0]].offer(offered)
                assert may == (fed > 0)
                said.append(f"fed {fed}")
            elif verb == "advance":
                said.append(f"pause {advance(flow, int(words[0])).value}")
            elif verb == "drain":
                said += drain(flow[words[0]], int(words[1]))
            elif verb == "end":
                flow[words[0]].end()
            else:
                said += finish(flow)
        return said + flow.report().splitlines()


def pour(text, fed, outputs, choices):
    """The streams of the outputs, if the inputs get these words in random pieces, and the outputs are emptied in between in
    one of three ways."""
    streams = {name: [] for name in outputs}
    rest = {name: list(words) for name, words in fed.items()}
    with opened(text, list(fed), outputs) as flow:

        def empty(name):
            how, output = choices.randrange(3), flow[name]
            if how == 0:
                for word in output:
                    streams[name].append(word)
                    if choices.random() < 0.05:
                        break
            elif how == 1:
                streams[name] += output.drain(choices.choice([None, 0, 1, 10]))
            else:
                buffer = array("q", bytes(8 * choices.choice([0, 1, 7, 100])))
                count = output.drain_into(buffer)
                streams[name] += [word % 2**64 for word in buffer[:count]]

        while any(rest.values()):
            name = choices.choice([it for it in rest if rest[it]])
            count = choices.randint(1, len(rest[name]))
            batch, rest[name] = rest[name][:count], rest[name][count:]
            flow[name].feed(array("Q", batch) if choices.random() < 0.7 else batch)
            if streams and choices.random() < 0.5:
                empty(choices.choice(list(streams)))
        for name in fed:
            flow[name].end()
        for name in choices.sample(list(streams), len(streams)):
            streams[name] += flow[name].drain()
    return streams


def check(paths):
    """What drive.c writes of files."""
    said = []
    for path in paths:
        for what, call in (("check", hoxburen.check), ("run", hoxburen.run), ("open", lambda it: hoxburen.open(it, [], []).close())):
            try:
                made = call(path)
                said.append(f"{what} {made.end.value if what == 'run' else 0} ")
            except hoxburen.Refused as refused:
                said.append(f"{what} {refused.number.value} {refused}")
    return said
