"""Checks and runs Kahn process networks, and feeds and drains networks that may run forever.

A description is a TOML text that lists processes, each with its kind, and the channels between them (docs/format.md and
docs/signals.md of Hoxburen). A flow runs its network: you feed words into its inputs and drain them from its outputs.
The output depends only on what you feed, never on when, or in what pieces.

    import hoxburen

    with hoxburen.open("sums.toml") as flow:
        flow["x"].feed([1, 2, 3, 4])
        for word in flow["sum"]:
            print(word)

An input is a channel whose writer stops at once (kinds `input`, `input_flags` and `count 0 0`); an output is one whose
reader only reads it (`drain`, `drain_flags` and `sink`). Words have 64 bits. On a channel of flags, 0 is false and 1 is
true.

There are two ways to move words, which you may mix:

    feed, for, drain, drain_into    Simple. Words that don't fit into an input wait in this module, and so do words of
                                    other outputs that are full. The network advances by itself.
    offer, advance, poll            Under your control. No words wait in this module, so the capacities of the channels
                                    bound the memory; the network advances only when you call `advance`.

Words come from a list or another iterable of numbers, or from an object with the buffer protocol whose items are 64-bit
integers: an array of "Q" or "q", a NumPy array of uint64 or int64, a memoryview. Words of a buffer that fit are fed
without a copy.

The engine is a shared library, libhoxburen.so. This module looks for it in the folder named by the environment variable
HOXBUREN_LIB, then where the repository and `tools/install` put it, then where the system looks.

Flows of different threads run in parallel. A flow that several threads share takes one call at a time.
"""

from __future__ import annotations

import ctypes
import enum
import os
import threading
from array import array
from collections import deque
from typing import Any, Callable, Deque, Dict, Iterable, Iterator, List, NamedTuple, Optional, Tuple, Type, Union

__all__ = [
    "open", "check", "run", "version", "Flow", "Input", "Output", "Run", "Pause", "End", "Number",
    "Refused", "DescriptionRefused", "ChannelRefused", "FlagRefused", "InputEnded", "FlowClosed", "OutOfMemory",
]  # fmt: skip

# The versions of the library that this module calls: 0.1.*.
VERSIONS = range(100, 200)
# How many entries a flow makes before this module feeds again, and how many words move at once.
STRETCH = 1 << 20
BATCH = 4096


class Number(enum.Enum):
    """Why a call failed. Numbers up to 17 are the faults of a description (docs/format.md)."""

    TOML = 1
    KEYS = 2
    VERSION = 3
    COUNTS = 4
    NAME = 5
    KIND = 6
    ARGUMENTS = 7
    NO_END = 8
    PORT_TWICE = 9
    UNUSED = 10
    SORTS = 11
    CAPACITY = 12
    BUDGET = 13
    MEMORY = 14
    INPUT = 15
    TOKENS = 16
    STEP = 17
    CLOSED = 32
    OPEN = 33
    NO_CHANNEL = 34
    ENDED = 35
    NO_FLAG = 36
    NO_TEXT = 37
    NO_INPUT = 38
    NO_OUTPUT = 39
    TWICE = 40


class Pause(enum.Enum):
    """How a flow stands."""

    CUT = 0
    "It may continue."
    STARVED = 1
    "No process can continue, and one waits for a word of an empty input: feed or end it."
    BLOCKED = 2
    "Otherwise, no process can continue, and one waits for room in a full output: drain it."
    TERMINATED = 64
    "Each process has stopped."
    DEADLOCK = 65
    "No process can continue, and some wait for words that never come."
    CEILING = 66
    "A channel at its greatest capacity would have to grow."


class End(enum.Enum):
    """How a run ended."""

    TERMINATED = 64
    DEADLOCK = 65
    CEILING = 66
    BUDGET = 67
    MEMORY = 68


_MEANINGS = {
    Number.TOML: "the description is not UTF-8 or not TOML",
    Number.KEYS: "a key is missing or unknown, or its value has the wrong type",
    Number.VERSION: "the version is not 1 or 2",
    Number.COUNTS: "there is no process, or there are more than 64 processes or 256 channels",
    Number.NAME: "a name is malformed, or two processes or two channels share one",
    Number.KIND: "a kind is unknown",
    Number.ARGUMENTS: "a process has arguments that its kind does not take",
    Number.NO_END: "a channel names an unknown process or port",
    Number.PORT_TWICE: "two channels share a port",
    Number.UNUSED: "a port of a process has no channel",
    Number.SORTS: "a channel's sort differs from that of a port at its ends",
    Number.CAPACITY: "a capacity is out of range",
    Number.BUDGET: "the budget is out of range",
    Number.MEMORY: "out of memory",
    Number.INPUT: "the description is longer than 1,048,576 bytes",
    Number.TOKENS: "a channel's start tokens have the wrong sort, or are more than its capacity",
    Number.STEP: "the step is out of range",
    Number.CLOSED: "the flow is closed",
    Number.OPEN: "the flow is open already",
    Number.NO_CHANNEL: "no input or output has this name",
    Number.ENDED: "the input has ended",
    Number.NO_FLAG: "a word for a channel of flags is neither 0 nor 1",
    Number.NO_TEXT: "the names are not UTF-8",
    Number.NO_INPUT: "a channel to feed does not exist, or its writer does more than stop",
    Number.NO_OUTPUT: "a channel to drain does not exist, or its reader does more than read it",
    Number.TWICE: "a channel is named twice",
}


class Refused(Exception):
    """A call failed; nothing changed except what its exception says."""

    def __init__(self, number: Number, message: str = "", taken: int = 0) -> None:
        self.number = number
        "Why."
        self.taken = taken
        "How many words of this call an input took before it failed."
        super().__init__(message or _MEANINGS[self.number])


class DescriptionRefused(Refused, ValueError):
    """The description has a fault. The message says what is wrong, and where."""


class ChannelRefused(Refused, LookupError):
    """A channel does not exist, or can't be fed or drained."""


class FlagRefused(Refused, ValueError):
    """A word for a channel of flags is neither 0 nor 1. Words before it were fed; it and later ones were not."""


class InputEnded(Refused, ValueError):
    """The input has ended."""


class FlowClosed(Refused, ValueError):
    """The flow is closed."""


class OutOfMemory(Refused, MemoryError):
    """Out of memory. The flow is unchanged, and may be called again."""


def _refused(number: int, message: str = "", taken: int = 0) -> Refused:
    why = Number(number)
    kinds: Dict[Number, Type[Refused]] = {
        Number.MEMORY: OutOfMemory, Number.CLOSED: FlowClosed, Number.ENDED: InputEnded, Number.NO_FLAG: FlagRefused,
    }  # fmt: skip
    other = DescriptionRefused if number < Number.CLOSED.value else ChannelRefused
    return kinds.get(why, other)(why, message, taken)


# The library.


class _Session(ctypes.Structure):
    """hox_flow of hoxburen.h."""

    _fields_ = [("session", ctypes.c_void_p)]


_FLOW, _PLACE, _TEXT = ctypes.POINTER(_Session), ctypes.c_size_t, ctypes.c_char_p
_SIZE, _U32, _U64 = (ctypes.POINTER(it) for it in (ctypes.c_size_t, ctypes.c_uint32, ctypes.c_uint64))
_OUT = [_TEXT, _PLACE, _SIZE]
_FUNCTIONS: Dict[str, List[Any]] = {
    "hox_version": [],
    "hox_check": [_TEXT, _PLACE, *_OUT],
    "hox_run": [_TEXT, _PLACE, *_OUT],
    "hox_open": [_FLOW, _TEXT, _PLACE, _TEXT, _PLACE, _TEXT, _PLACE, *_OUT],
    "hox_close": [_FLOW],
    "hox_input": [_FLOW, _TEXT, _PLACE, _SIZE],
    "hox_output": [_FLOW, _TEXT, _PLACE, _SIZE],
    "hox_feed": [_FLOW, _PLACE, ctypes.c_void_p, _PLACE, _SIZE],
    "hox_advance": [_FLOW, ctypes.c_uint64, _U32],
    "hox_drain": [_FLOW, _PLACE, ctypes.c_void_p, _PLACE, _SIZE],
    "hox_end_input": [_FLOW, _PLACE],
    "hox_may_feed": [_FLOW, _PLACE, _U32],
    "hox_waits_for_input": [_FLOW, _PLACE, _U32],
    "hox_waits_for_output": [_FLOW, _PLACE, _U32],
    "hox_input_fill": [_FLOW, _PLACE, _U64, _U64],
    "hox_output_fill": [_FLOW, _PLACE, _U64, _U64],
    "hox_entries": [_FLOW, _U64, _U64],
    "hox_verdict": [_FLOW, _U32],
    "hox_report": [_FLOW, *_OUT],
}
_loaded: Optional[ctypes.CDLL] = None


def _places() -> Iterator[str]:
    """Yields the paths at which the library may be, in order."""
    named = os.environ.get("HOXBUREN_LIB")
    if named:
        yield os.path.join(named, "libhoxburen.so") if os.path.isdir(named) else named
        return
    folder = os.path.dirname(os.path.realpath(__file__))
    above = os.path.dirname(folder)
    # Beside this file; where the repository has it; and in lib, above lib/python3.*/site-packages.
    for place in (folder, os.path.join(above, "out"), os.path.dirname(above)):
        path = os.path.join(place, "libhoxburen.so")
        if os.path.isfile(path):
            yield path
    yield "libhoxburen.so"


def _library() -> ctypes.CDLL:
    global _loaded
    if _loaded is None:
        _loaded = _load()
    return _loaded


def _load() -> ctypes.CDLL:
    why = ""
    for path in _places():
        try:
            library = ctypes.CDLL(path)
        except OSError as error:
            why = str(error)
            continue
        for name, arguments in _FUNCTIONS.items():
            function = getattr(library, name)
            function.argtypes, function.restype = arguments, ctypes.c_uint32
        found = library.hox_version()
        if found not in VERSIONS:
            raise ImportError(f"{path} has the version {found}, and this module calls those from {VERSIONS[0]} to {VERSIONS[-1]}")
        return library
    raise ImportError(f"libhoxburen.so can't be loaded; HOXBUREN_LIB names the folder that holds it: {why}")


def _told(call: Callable[..., int]) -> Tuple[int, str]:
    """Returns the number that a call answers, and the text that it writes. `call` gets a buffer, its length, and a
    pointer for the text's length. Calls again with a longer buffer if the text did not fit."""
    room = 1024
    while True:
        text, length = ctypes.create_string_buffer(room), ctypes.c_size_t()
        number = call(text, room, ctypes.byref(length))
        if length.value <= room:
            return number, text.raw[: length.value].decode("utf-8", "replace")
        room = length.value


# Words.


class _Buffer(ctypes.Structure):
    """Py_buffer of Python's C interface."""

    _fields_ = [
        ("buf", ctypes.c_void_p),
        ("obj", ctypes.py_object),
        ("len", ctypes.c_ssize_t),
        ("itemsize", ctypes.c_ssize_t),
        ("readonly", ctypes.c_int),
        ("ndim", ctypes.c_int),
        ("format", ctypes.c_char_p),
        ("shape", ctypes.c_void_p),
        ("strides", ctypes.c_void_p),
        ("suboffsets", ctypes.c_void_p),
        ("internal", ctypes.c_void_p),
    ]


class _Words:
    """The words of a buffer: their address and number, while entered."""

    def __init__(self, view: memoryview) -> None:
        self._view, self._raw, self.count = view, _Buffer(), len(view)
        self.address = 0

    def __enter__(self) -> _Words:
        ctypes.pythonapi.PyObject_GetBuffer(ctypes.py_object(self._view), ctypes.byref(self._raw), 0)
        self.address = self._raw.buf or 0
        return self

    def __exit__(self, *_: object) -> None:
        ctypes.pythonapi.PyBuffer_Release(ctypes.byref(self._raw))


def _view(words: Any, to_write: bool = False) -> Optional[memoryview]:
    """Returns the words of an object with the buffer protocol; None if it has none."""
    try:
        view = memoryview(words)
    except TypeError:
        return None
    form = view.format.lstrip("@=<") if view.format[:1] != "<" or _IS_LITTLE else view.format
    if view.itemsize != 8 or form not in ("Q", "q", "L", "l", "N", "n") or view.ndim != 1:
        raise TypeError(
            f"a buffer of words is a row of integers of 64 bits, as array('Q') and array('q') are; this one has {view.ndim} dimensions"
            f" and items of format {view.format!r}; memoryview.cast('Q') reads bytes as words"
        )
    if not to_write:
        return view if view.c_contiguous else memoryview(array("Q", bytes(view)))
    if view.readonly or not view.c_contiguous:
        raise TypeError("a buffer to drain into is writable, and its words are next to one another")
    return view


_IS_LITTLE = array("H", [1]).tobytes() == b"\1\0"


def _words(words: Iterable[int]) -> memoryview:
    """Returns the words of a buffer as they are, those of an iterable in an array."""
    view = _view(words)
    if view is not None:
        return view
    numbers = words if isinstance(words, (list, tuple, range)) else list(words)
    try:
        return memoryview(array("Q", numbers))
    except OverflowError:
        for number in numbers:
            if not -(1 << 63) <= number < 1 << 64:
                raise OverflowError(f"{number} is no word: it is not from -2^63 to 2^64 - 1") from None
        return memoryview(array("Q", [number % (1 << 64) for number in numbers]))


class _Queue:
    """Waiting words, in arrays."""

    def __init__(self) -> None:
        self._parts: Deque[array[int]] = deque()
        self._first, self._count = 0, 0  # how many words of the first part have gone, and how many wait

    def __len__(self) -> int:
        return self._count

    def put(self, words: array[int]) -> None:
        if words:
            self._parts.append(words)
            self._count += len(words)

    def clear(self) -> None:
        self._parts.clear()
        self._first, self._count = 0, 0

    def front(self) -> memoryview:
        """Returns the waiting words of the first part."""
        return memoryview(self._parts[0])[self._first :]

    def drop(self, count: int) -> None:
        """Drops words of the first part."""
        self._first += count
        self._count -= count
        if self._first == len(self._parts[0]):
            self._parts.popleft()
            self._first = 0

    def pop(self) -> int:
        word: int = self._parts[0][self._first]
        self.drop(1)
        return word


# Flows.


class Input:
    """An input of a flow."""

    def __init__(self, flow: Flow, name: str, place: int) -> None:
        self._flow, self._place = flow, place
        self._queue, self._is_over, self._has_ended = _Queue(), False, False
        self.name = name
        "Its channel's name."

    def __repr__(self) -> str:
        return f"<hoxburen.Input {self.name}>"

    def feed(self, words: Iterable[int]) -> None:
        """Feeds words, in order. Words that don't fit wait here until the network has advanced.

        A word for a channel of flags is 0 or 1 (or False or True). The call that reaches another word, perhaps a later
        call, raises `FlagRefused`; it and the words waiting behind it are dropped.
        """
        view = _words(words)
        with self._flow._lock:
            self._refuse_if_over()
            fed = self._flow._feed_on(self, view)
            self._queue.put(array("Q", view[fed:].tobytes()))

    def offer(self, words: Iterable[int]) -> int:
        """Feeds as many of the words as fit now, and returns how many. The network does not advance."""
        view = _words(words)
        with self._flow._lock:
            self._refuse_if_over()
            self._flow._feed_waiting(self)
            return 0 if self._queue else self._flow._feed(self, view)

    def end(self) -> None:
        """Ends the input: `feed` and `offer` then fail. Waiting words are still fed."""
        with self._flow._lock:
            self._flow._check_open()
            self._is_over = True
            self._flow._feed_waiting(self)

    def _refuse_if_over(self) -> None:
        if self._is_over:
            raise InputEnded(Number.ENDED)

    @property
    def has_ended(self) -> bool:
        """Whether `end` was called."""
        return self._is_over

    @property
    def waiting(self) -> int:
        """How many words wait in this module."""
        return len(self._queue)

    @property
    def may_feed(self) -> bool:
        """Whether it takes a word now: none wait, and it has room and has not ended."""
        return not self._queue and bool(self._flow._ask("hox_may_feed", self._place, ctypes.c_uint32()))

    @property
    def is_starved(self) -> bool:
        """Whether it is empty and a process waits for a word of it."""
        return bool(self._flow._ask("hox_waits_for_input", self._place, ctypes.c_uint32()))

    @property
    def held(self) -> int:
        """The number of words in the channel."""
        return self._flow._fill("hox_input_fill", self._place)[0]

    @property
    def capacity(self) -> int:
        """The channel's current capacity."""
        return self._flow._fill("hox_input_fill", self._place)[1]


class Output:
    """An output of a flow. Iterating over it yields its words, as numbers from 0 to 2^64 - 1, and runs the network. The
    iteration ends when no more words come unless an input is fed."""

    def __init__(self, flow: Flow, name: str, place: int, queue: Optional[_Queue] = None, code: str = "Q") -> None:
        self._flow, self._place, self._code = flow, place, code
        self._queue = _Queue() if queue is None else queue
        self.name = name
        "Its channel's name."

    def __repr__(self) -> str:
        return f"<hoxburen.Output {self.name}>"

    @property
    def signed(self) -> Output:
        """The output with words as numbers from -2^63 to 2^63 - 1."""
        return Output(self._flow, self.name, self._place, self._queue, "q")

    def __iter__(self) -> Iterator[int]:
        while True:
            with self._flow._lock:
                if not self._queue:
                    if not self._flow._go_on(self):
                        return
                    self._queue.put(self._flow._drain(self._place, BATCH))
                word = self._queue.pop()
            yield word - (1 << 64) if self._code == "q" and word >> 63 else word

    def drain(self, most: Optional[int] = None) -> array[int]:
        """Returns at most `most` words in a new array of "Q" (of "q" for `signed`). Runs the network until it has that
        many, or no more come unless an input is fed. If the network writes forever, give a limit."""
        words = array(self._code)
        while most is None or len(words) < most:
            with self._flow._lock:
                if not self._queue:
                    if not self._flow._go_on(self):
                        break
                    self._queue.put(self._flow._drain(self._place, BATCH))
                front = self._queue.front()
                front = front if most is None else front[: most - len(words)]
                words.frombytes(front.cast("B"))
                self._queue.drop(len(front))
        return words

    def drain_into(self, buffer: Any) -> int:
        """Moves words to the front of a buffer, until it is full or no more come unless an input is fed, and returns
        how many. The buffer is writable, and its items are 64-bit integers."""
        return self._fill_up(buffer, self._flow._go_on)

    def poll(self, buffer: Any) -> int:
        """Moves the words that are there now to the front of a buffer, as many as fit, and returns how many. The
        network does not advance."""
        return self._fill_up(buffer, lambda _: False)

    def _fill_up(self, buffer: Any, go_on: Any) -> int:
        view = _view(buffer, to_write=True)
        if view is None:
            raise TypeError("it has no buffer protocol")
        done = 0
        with self._flow._lock:
            self._flow._check_open()
            while done < len(view):
                if self._queue:
                    front = self._queue.front()[: len(view) - done]
                    view.cast("B")[8 * done : 8 * (done + len(front))] = front.cast("B")
                    self._queue.drop(len(front))
                    done += len(front)
                    continue
                with _Words(view) as words:
                    drained = self._flow._drain_to(self._place, words.address + 8 * done, len(view) - done)
                done += drained
                if not drained and not go_on(self):
                    break
        return done

    @property
    def is_full(self) -> bool:
        """Whether it is full and a process waits for room in it."""
        return bool(self._flow._ask("hox_waits_for_output", self._place, ctypes.c_uint32()))

    @property
    def waiting(self) -> int:
        """How many words wait in this module."""
        return len(self._queue)

    @property
    def held(self) -> int:
        """The number of words in the channel."""
        return self._flow._fill("hox_output_fill", self._place)[0]

    @property
    def capacity(self) -> int:
        """The channel's current capacity."""
        return self._flow._fill("hox_output_fill", self._place)[1]


class Flow:
    """The network of a description's text, fed, run and drained. `open` makes one, and `with` closes it."""

    def __init__(self, text: Union[str, bytes], inputs: Iterable[str], outputs: Iterable[str]) -> None:
        self._lock = threading.RLock()
        self._session, self._library = _Session(), _library()
        self._text = text.encode() if isinstance(text, str) else bytes(text)
        self.inputs: Dict[str, Input] = {name: Input(self, name, place) for place, name in enumerate(_listed(inputs, Number.NO_INPUT))}
        "The inputs, by their names."
        self.outputs: Dict[str, Output] = {name: Output(self, name, place) for place, name in enumerate(_listed(outputs, Number.NO_OUTPUT))}
        "The outputs, by their names."
        number, message = self._open()
        if number:
            raise _refused(number, message)

    def _open(self) -> Tuple[int, str]:
        text, fed, drained = self._text, " ".join(self.inputs).encode(), " ".join(self.outputs).encode()
        return _told(lambda *out: self._library.hox_open(self._session, text, len(text), fed, len(fed), drained, len(drained), *out))

    def __enter__(self) -> Flow:
        return self

    def __exit__(self, *_: object) -> None:
        self.close()

    def __del__(self) -> None:
        if getattr(self, "_session", None):
            self._library.hox_close(self._session)

    def __repr__(self) -> str:
        names = f"inputs {' '.join(self.inputs)}, outputs {' '.join(self.outputs)}"
        return f"<hoxburen.Flow {'closed' if self.is_closed else names}>"

    def __getitem__(self, name: str) -> Any:
        """Returns the input or the output with this name."""
        found = self.inputs.get(name) or self.outputs.get(name)
        if found is None:
            raise ChannelRefused(Number.NO_CHANNEL, f"no input or output has the name {name!r}; there are {', '.join([*self.inputs, *self.outputs])}")
        return found

    def close(self) -> None:
        """Closes the flow and frees its memory. Does nothing if it is closed."""
        with self._lock:
            self._library.hox_close(self._session)

    @property
    def is_closed(self) -> bool:
        """Whether it is closed."""
        return not self._session.session

    def advance(self, most: int = (1 << 64) - 1) -> Pause:
        """Runs the flow for at most `most` entries, and returns why it stopped. (An entry is a word read or written, a
        process's stop or a channel's growth.) If the network runs forever, give a limit."""
        with self._lock:
            return self._advance(most)

    @property
    def verdict(self) -> Pause:
        """How the flow stands, without running it. `CUT` may mean that only `advance` finds what follows."""
        return Pause(self._ask("hox_verdict", None, ctypes.c_uint32()))

    @property
    def entries(self) -> int:
        """The number of entries that the flow has made."""
        return self._fill("hox_entries", None)[0]

    @property
    def growths(self) -> int:
        """How many of the entries were growths of channels."""
        return self._fill("hox_entries", None)[1]

    def report(self) -> str:
        """Returns how the flow, each process and each channel stands, in lines."""
        with self._lock:
            number, text = _told(lambda *out: self._library.hox_report(self._session, *out))
        if number:
            raise _refused(number)
        return text

    # The methods below need the lock, except _ask and _fill, which take it.

    def _check_open(self) -> None:
        if self.is_closed:
            raise FlowClosed(Number.CLOSED)

    def _ask(self, function: str, place: Optional[int], value: Any) -> int:
        with self._lock:
            number = getattr(self._library, function)(self._session, *([] if place is None else [place]), ctypes.byref(value))
        if number:
            raise _refused(number)
        return int(value.value)

    def _fill(self, function: str, place: Optional[int]) -> Tuple[int, int]:
        one, other = ctypes.c_uint64(), ctypes.c_uint64()
        with self._lock:
            places = [] if place is None else [place]
            number = getattr(self._library, function)(self._session, *places, ctypes.byref(one), ctypes.byref(other))
        if number:
            raise _refused(number)
        return one.value, other.value

    def _advance(self, most: int) -> Pause:
        pause = ctypes.c_uint32()
        number = self._library.hox_advance(self._session, most, ctypes.byref(pause))
        if number:
            raise _refused(number)
        if pause.value == End.MEMORY.value:
            raise OutOfMemory(Number.MEMORY, "a channel would have to grow, and there is no memory for it")
        return Pause(pause.value)

    def _feed(self, to: Input, view: memoryview) -> int:
        fed = ctypes.c_size_t()
        with _Words(view) as words:
            number = self._library.hox_feed(self._session, to._place, words.address, words.count, ctypes.byref(fed))
        if number:
            raise _refused(number, taken=fed.value)
        return int(fed.value)

    def _feed_on(self, to: Input, view: memoryview) -> int:
        """Feeds words behind those that wait, while the advancing network takes some. Returns how many were fed."""
        done = 0
        self._feed_waiting(to)
        while not to._queue and done < len(view):
            try:
                fed = self._feed(to, view[done:])
            except Refused as refused:
                refused.taken += done
                raise
            done += fed
            if done < len(view):
                self._advance(STRETCH)
                if not fed and not self._ask("hox_may_feed", to._place, ctypes.c_uint32()):
                    break
        return done

    def _feed_waiting(self, to: Input) -> bool:
        """Feeds waiting words that fit; then ends the input if `end` was called. Returns whether it did something."""
        done = False
        while to._queue:
            try:
                fed = self._feed(to, to._queue.front())
            except Refused as refused:
                to._queue.clear()
                refused.taken = 0
                raise
            if not fed:
                return done
            to._queue.drop(fed)
            done = True
        if to._is_over and not to._has_ended:
            number = self._library.hox_end_input(self._session, to._place)
            if number:
                raise _refused(number)
            to._has_ended = done = True
        return done

    def _drain_to(self, place: int, address: int, room: int) -> int:
        drained = ctypes.c_size_t()
        number = self._library.hox_drain(self._session, place, address, room, ctypes.byref(drained))
        if number:
            raise _refused(number)
        return int(drained.value)

    def _drain(self, place: int, room: int) -> array[int]:
        """Returns the words of an output, at most `room`."""
        words = array("Q", bytes(8 * room))
        del words[self._drain_to(place, words.buffer_info()[0], room) :]
        return words

    def _keep(self, output: Output) -> bool:
        """Moves the words of a full output with a waiting writer to its queue. Returns whether it did."""
        if not self._ask("hox_waits_for_output", output._place, ctypes.c_uint32()):
            return False
        output._queue.put(self._drain(output._place, self._fill("hox_output_fill", output._place)[0]))
        return True

    def _go_on(self, output: Output) -> bool:
        """Runs the flow until this output holds a word. False if none comes unless more is fed."""
        while not self._fill("hox_output_fill", output._place)[0]:
            pause = self._advance(STRETCH)
            done = [self._feed_waiting(it) for it in self.inputs.values()]
            if pause != Pause.CUT:
                done += [self._keep(it) for it in self.outputs.values() if it is not output]
                if not any(done) and not self._fill("hox_output_fill", output._place)[0]:
                    return False
        return True


class Run(NamedTuple):
    """A run of a network from start to end."""

    end: End
    "How it ended."
    report: str
    "The report of docs/format.md."


Source = Union[str, bytes, "os.PathLike[str]"]


def _text(source: Source) -> bytes:
    """Returns the description: a source with a line feed is the text, any other the path of a file."""
    if isinstance(source, bytes) and b"\n" in source:
        return source
    if isinstance(source, str) and "\n" in source:
        return source.encode()
    descriptor = os.open(source, os.O_RDONLY)
    with os.fdopen(descriptor, "rb") as file:
        return file.read()


def _listed(names: Iterable[str], number: Number) -> List[str]:
    """Returns the names of channels, if each is a valid name and none is repeated."""
    listed = [names] if isinstance(names, str) else list(names)
    for name in listed:
        if not name.replace("_", "a").isalnum() or not name.isascii():
            raise ChannelRefused(number, f"no channel has the name {name!r}")
        if listed.count(name) > 1:
            raise ChannelRefused(Number.TWICE, f"the channel {name} is named twice")
    return listed


def _may_be(text: bytes, inputs: List[str], outputs: List[str]) -> bool:
    try:
        Flow(text, inputs, outputs).close()
    except ChannelRefused:
        return False
    return True


def _channels(text: bytes) -> List[str]:
    with Flow(text, [], []) as flow:
        return [line.split()[1] for line in flow.report().splitlines() if line.startswith("channel ")]


def open(source: Source, inputs: Optional[Iterable[str]] = None, outputs: Optional[Iterable[str]] = None) -> Flow:
    """Opens a flow at the start of the network of a description.

    `source` is the path of a file, or the text itself, which has several lines. `inputs` and `outputs` name the
    channels to feed and to drain; by default, all that can be fed, and all others that can be drained. A channel that
    you don't name as an output is read by its own reader, and its words are lost.

    Raises DescriptionRefused, ChannelRefused, OutOfMemory, and OSError for a file that can't be read.
    """
    text = _text(source)
    fed = None if inputs is None else _listed(inputs, Number.NO_INPUT)
    drained = None if outputs is None else _listed(outputs, Number.NO_OUTPUT)
    names = _channels(text) if fed is None or drained is None else []
    if fed is None:
        fed = [it for it in names if it not in (drained or []) and _may_be(text, [it], [])]
    if drained is None:
        drained = [it for it in names if it not in fed and _may_be(text, [], [it])]
    return Flow(text, fed, drained)


def check(source: Source) -> None:
    """Checks a description. Raises DescriptionRefused if it has a fault, OutOfMemory, or OSError."""
    text = _text(source)
    number, message = _told(lambda *out: _library().hox_check(text, len(text), *out))
    if number:
        raise _refused(number, message)


def run(source: Source) -> Run:
    """Runs the network of a description from start to end, within its budget. Raises the errors of `check`."""
    text = _text(source)
    number, told = _told(lambda *out: _library().hox_run(text, len(text), *out))
    if number < End.TERMINATED.value:
        raise _refused(number, told)
    return Run(End(number), told)


def version() -> int:
    """Returns the version of the library: 10000 * major + 100 * minor + patch."""
    return int(_library().hox_version())
