"""Formulas by the rules of docs/format.md, apart from the engine: what a text computes, the sorts of its ports, and what
a card computes."""
import re

WORDS = 1 << 64
TOKEN = re.compile(r"\s*(0x[0-9a-fA-F]+|[0-9]+|[A-Za-z_]\w*|\|\||&&|==|!=|<=|>=|<<|>>|[-+*/%~!&|^<>=?:;,()])")
LEVELS = {"||": 1, "&&": 2, "|": 3, "^": 4, "&": 5, "==": 6, "!=": 6, "<": 7, "<=": 7, ">": 7, ">=": 7, "<<": 8, ">>": 8, "+": 9, "-": 9, "*": 10, "/": 10, "%": 10}
FLAGS = {"||", "&&", "==", "!=", "<", "<=", ">", ">="}
CALLS = {"min": 2, "max": 2, "abs": 1}


def signed(word):
    """The number that a word stands for, in two's complement."""
    return (word + WORDS // 2) % WORDS - WORDS // 2


def symbols_of(text):
    found, at = [], 0
    while at < len(text.rstrip()):
        match = TOKEN.match(text, at)
        found.append(match[1])
        at = match.end()
    return found


class Reader:
    """Reads the symbols of a formula: assignments, and what states begin with."""

    def __init__(self, text):
        self.symbols, self.at = symbols_of(text), 0

    def peek(self):
        return self.symbols[self.at] if self.at < len(self.symbols) else None

    def take(self, wanted=None):
        symbol = self.symbols[self.at]
        assert wanted in (None, symbol), (wanted, self.symbols, self.at)
        self.at += 1
        return symbol

    def whole(self):
        first = self.binary(1)
        if self.peek() != "?":
            return first
        self.take()
        yes = self.whole()
        self.take(":")
        return ("?", first, yes, self.whole())

    def binary(self, least):
        left = self.unary()
        while LEVELS.get(self.peek(), 0) >= least:
            operator = self.take()
            left = (operator, left, self.binary(LEVELS[operator] + 1))
        return left

    def unary(self):
        if self.peek() in ("-", "~", "!"):
            return ("front" + self.take(), self.unary())
        symbol = self.take()
        if symbol == "(":
            inside = self.whole()
            self.take(")")
            return inside
        if symbol in CALLS:
            return self.call(symbol)
        if symbol[0].isdigit():
            return ("number", int(symbol, 0))
        return ("name", {"in": "in0", "out": "out0"}.get(symbol, symbol))

    def call(self, name):
        self.take("(")
        parts = [self.whole()]
        for _ in range(CALLS[name] - 1):
            self.take(",")
            parts.append(self.whole())
        self.take(")")
        return (name, *parts)

    def start(self):
        self.take("(")
        sign = -1 if self.peek() == "-" and self.take() else 1
        number = sign * int(self.take(), 0)
        self.take(")")
        return number % WORDS

    def formula(self):
        lines, starts = [], {}
        while self.peek() is not None:
            name = self.take()
            name = {"out": "out0"}.get(name, name)
            if self.peek() == "(":
                starts[name] = self.start()
            self.take("=")
            lines.append((name, self.whole()))
            if self.peek() == ";":
                self.take()
        return lines, starts


def applied(operator, x, y):
    """What an operator makes of two words."""
    a, b = signed(x), signed(y)
    made = {
        "||": lambda: x != 0 or y != 0, "&&": lambda: x != 0 and y != 0,
        "|": lambda: x | y, "^": lambda: x ^ y, "&": lambda: x & y,
        "==": lambda: x == y, "!=": lambda: x != y, "<": lambda: a < b, "<=": lambda: a <= b, ">": lambda: a > b, ">=": lambda: a >= b,
        "<<": lambda: x << y if y < 64 else 0, ">>": lambda: a >> min(y, 63),
        "+": lambda: x + y, "-": lambda: x - y, "*": lambda: x * y,
        "/": lambda: a // b if b else 0, "%": lambda: a % b if b else a,
        "min": lambda: min(a, b), "max": lambda: max(a, b),
    }[operator]()
    return int(made) % WORDS


def value(tree, names):
    """The word of an expression."""
    head, *parts = tree
    if head == "number":
        return parts[0]
    if head == "name":
        return names[parts[0]]
    if head == "?":
        return value(parts[1 if value(parts[0], names) else 2], names)
    words = [value(part, names) for part in parts]
    if len(words) == 2:
        return applied(head, *words)
    return {"abs": lambda x: abs(signed(x)), "front-": lambda x: -x, "front~": lambda x: ~x, "front!": lambda x: int(x == 0)}[head](words[0]) % WORDS


def names_in(tree):
    if tree[0] == "name":
        yield tree[1]
    elif tree[0] != "number":
        for part in tree[1:]:
            yield from names_in(part)


def words_in(tree, is_condition=False):
    """The names that are used otherwise than as a condition alone."""
    head, *parts = tree
    if head == "name" and not is_condition:
        yield parts[0]
    elif head == "?":
        yield from words_in(parts[0], True)
        yield from words_in(parts[1])
        yield from words_in(parts[2])
    elif head not in ("name", "number"):
        for part in parts:
            yield from words_in(part, head in ("||", "&&", "front!"))


def is_flag(tree):
    """Whether an expression is 1 or 0 by its form."""
    if tree[0] == "?":
        return is_flag(tree[2]) and is_flag(tree[3])
    return tree[0] in FLAGS or tree[0] == "front!"


class Formula:
    """A formula: its ports, each with whether it carries flags, and what it computes."""

    def __init__(self, text):
        self.lines, self.starts = Reader(text).formula()
        used = {name for _, tree in self.lines for name in names_in(tree)}
        words = {name for _, tree in self.lines for name in words_in(tree)}
        targets = [name for name, _ in self.lines]
        self.ins = [name not in words for name in ("in0", "in1", "in2") if name in used]
        self.outs = [all(is_flag(tree) for other, tree in self.lines if other == name) for name in ("out0", "out1", "out2") if name in targets]
        self.states = {name: self.starts.get(name, 0) for name in targets if not name.startswith("out")}

    def streams(self, ins, rounds):
        """What goes out, in so many rounds."""
        states, made = dict(self.states), [[] for _ in self.outs]
        for k in range(rounds):
            names = {**states, **{f"out{j}": 0 for j in range(3)}, **{f"in{j}": int(words[k]) % WORDS for j, words in enumerate(ins)}}
            for name, tree in self.lines:
                names[name] = value(tree, names)
            states = {name: names[name] for name in states}
            for j, words in enumerate(made):
                words.append(names[f"out{j}"])
        return made


class Card:
    """A card: its shape, if it has one, and what its programs compute."""

    OPERATORS = ("+", "-", "*", "/", "%", "<<", ">>", "&", "|", "^", "min", "max", "<")

    def __init__(self, kind, args):
        self.states, self.inputs, self.outputs = kind % 8, kind // 8 % 4, kind // 32 % 4
        self.ins = [kind >> 7 + k & 1 == 1 for k in range(self.inputs)]
        self.outs = [kind >> 10 + k & 1 == 1 for k in range(self.outputs)]
        spare = (kind >> 7 & 7) >> self.inputs or (kind >> 10 & 7) >> self.outputs or kind >> 13
        few = self.inputs <= 1 and self.outputs <= 1
        most = 4 if few else 1 if 3 in (self.inputs, self.outputs) else 2
        ports = self.inputs + self.outputs
        self.is_kind = ports > 0 and not spare and self.states <= most and self.states + ports <= 6
        self.has_ports = self.is_kind and all(arg < 1 << 60 for arg in args)
        self.digits = [args[k // 12] >> 5 * (k % 12) & 31 for k in range(36)]

    def part(self, at, values):
        """Runs the program from a digit on: the values then, and the digit behind its end."""
        stack = [0] * 64
        digit = lambda k: self.digits[k] if k < 36 else 0
        number = lambda k: ((digit(k) | digit(k + 1) << 5 | digit(k + 2) << 10) ^ 1 << 14) - (1 << 14)
        while at < 36 and (code := digit(at)):
            at += 1
            if code in (1, 4):
                operand, at = digit(at), at + 1
            elif code in (2, 3):
                operand, at = number(at), at + 3
            if code in (1, 2):
                stack.append(operand % WORDS)
            elif code == 3:
                stack.append(stack.pop() * operand % WORDS)
            elif code == 4:
                stack.append(signed(stack.pop()) >> operand & WORDS - 1)
            elif code == 5:
                stack.append(int(stack.pop() == 0))
            elif code == 6:
                stack.append(abs(signed(stack.pop())))
            elif code == 7:
                no, yes, which = stack.pop(), stack.pop(), stack.pop()
                stack.append(yes if which else no)
            elif code <= 20:
                second, first = stack.pop(), stack.pop()
                stack.append(applied(self.OPERATORS[code - 8], first, second))
            elif code <= 26:
                stack.append(values[code - 21])
            else:
                values[code - 27] = stack.pop()
            stack = [0] * max(0, 64 - len(stack)) + stack
        return values, at + 1

    def streams(self, ins, rounds):
        """What goes out, in so many rounds."""
        _, behind = self.part(0, [0] * 6)
        kept = self.part(behind, [0] * 6)[0][: self.states]
        made = [[] for _ in self.outs]
        for k in range(rounds):
            given = [int(words[k]) % WORDS for words in ins]
            values = (kept + [0] * self.outputs + given + [0] * 6)[:6]
            values, _ = self.part(0, values)
            kept = values[: self.states]
            for j, words in enumerate(made):
                words.append(values[self.states + j])
        return made
