"""Makes a failing text smaller while it still fails."""
import copy
import time
import tomllib

from interpreter import KINDS
from networks import plain, tables


def size(text):
    """How large a text is. Shorter is smaller, and among texts of one length the one with lesser digits."""
    return len(text), text


def without(network, key, kept):
    """The network with only those tables whose numbers are kept."""
    return {**network, key: [it for n, it in enumerate(tables(network, key)) if n in kept]}


def fewer_tables(network):
    for key in ("channel", "process"):
        n = len(tables(network, key))
        width = n
        while width:
            for k in range(0, n, width):
                yield without(network, key, set(range(n)) - set(range(k, k + width)))
            width //= 2


def component(network, name):
    """The names of the processes that are connected with this one."""
    found, rest = set(), [name]
    while rest:
        name = rest.pop()
        if name not in found:
            found.add(name)
            for it in tables(network, "channel"):
                if name in (it.get("from"), it.get("to")):
                    rest += [it.get("from"), it.get("to")]
    return found


def only(network, names):
    kept = [it for it in tables(network, "process") if it.get("name") in names]
    return {**network, "process": kept, "channel": [it for it in tables(network, "channel") if it.get("from") in names]}


def components(network):
    for it in tables(network, "process"):
        names = component(network, it.get("name"))
        if len(names) < len(network["process"]):
            yield only(network, names)


def cut(network):
    """Each channel replaced by a sink for what its writer puts, or a source for its reader, and then the
    part in which that process is alone."""
    for n, channel in enumerate(tables(network, "channel")):
        if channel.get("sort", "words") != "words":
            continue
        for end, kind, args in (("to", "sink", [0]), ("to", "sink", [100]), ("from", "count", [0, 0]), ("from", "count", [0, 9])):
            changed = copy.deepcopy(network)
            made = changed["channel"][n]
            made[end] = "cut"
            made.pop("in" if end == "to" else "out", None)
            changed["process"].append({"name": "cut", "kind": kind, "args": args})
            names = component(changed, "cut")
            # What was on the other side of the channel goes, unless something else connects it.
            yield only(changed, names)


def spliced(network):
    """Each process with one input and one output of a sort taken out of its chain."""
    for it in tables(network, "process"):
        kind = KINDS.get(it.get("kind"))
        if kind and kind[2] == kind[3] == "w":
            into = [c for c in tables(network, "channel") if c.get("to") == it.get("name")]
            out = [c for c in tables(network, "channel") if c.get("from") == it.get("name")]
            if len(into) == len(out) == 1 and into[0] is not out[0]:
                joined = {**into[0], "to": out[0].get("to")}
                joined.pop("in", None)
                if "in" in out[0]:
                    joined["in"] = out[0]["in"]
                channels = [joined if c is into[0] else c for c in network["channel"] if c is not out[0]]
                yield {**network, "process": [p for p in network["process"] if p is not it], "channel": channels}


def lesser(value):
    """Values that are simpler than this one."""
    if type(value) is int:
        yield from (it for it in (0, 1, value // 2, value - 1) if 0 <= it < value)
    elif type(value) is list:
        for k, it in enumerate(value):
            yield value[:k] + value[k + 1:]
            yield from (value[:k] + [less] + value[k + 1:] for less in lesser(it))


def simpler_values(network):
    for key in list(network):
        if key not in ("process", "channel"):
            yield {k: it for k, it in network.items() if k != key}
            for less in lesser(network[key]):
                yield {**network, key: less}
    for key in ("process", "channel"):
        for n, table in enumerate(tables(network, key)):
            for k in list(table):
                for less in [None, *lesser(table[k])]:
                    changed = {**network, key: list(network[key])}
                    changed[key][n] = {a: b for a, b in table.items() if a != k} if less is None else {**table, k: less}
                    yield changed


def renamed(network):
    """The names p0, p1, .. and c0, c1, .."""
    changed = copy.deepcopy(network)
    names = {it.get("name"): f"p{n}" for n, it in enumerate(tables(changed, "process"))}
    for it in tables(changed, "process"):
        it["name"] = names[it["name"]]
    for n, it in enumerate(tables(changed, "channel")):
        it["name"] = f"c{n}"
        for key in ("from", "to"):
            it[key] = names.get(it.get(key), it.get(key))
    yield changed


def smaller_networks(text):
    try:
        network = tomllib.loads(text.decode())
    except (ValueError, RecursionError):
        return
    for way in (components, cut, spliced, fewer_tables, simpler_values, renamed):
        try:
            for changed in way(network):
                yield plain(changed)
        except (TypeError, KeyError, ValueError, AttributeError):  # not of a form that can be made smaller so
            continue
    try:
        yield plain(network)
    except (TypeError, AttributeError):
        return


def smaller_texts(text):
    lines = text.splitlines(keepends=True)
    width = len(lines)
    while width:
        for k in range(0, len(lines), width):
            yield b"".join(lines[:k] + lines[k + width:])
        width //= 2
    if len(text) < 400:
        for k in range(len(text)):
            yield text[:k] + text[k + 1:]


def shrink(text, fails, seconds=40):
    """A text that fails as this one does, and from which nothing can be removed."""
    until = time.monotonic() + seconds
    found = True
    while found and time.monotonic() < until:
        found = False
        for smaller in (*smaller_networks(text), *smaller_texts(text)):
            if time.monotonic() > until:
                break
            if size(smaller) < size(text) and fails(smaller):
                text, found = smaller, True
                break
    return text
