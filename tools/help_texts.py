"""Reads the command line of a program from its help texts.

`read_program(PATH, NAME)` runs the program, and each subcommand, with -h, which lists the options, and with --help, which may say
more below them. The same definition makes the help texts and parses the arguments, so nothing else need be kept in step. A line
in an unknown form raises `Unknown`: nothing is dropped.
"""
import re
import subprocess
from dataclasses import dataclass, field

SECONDS = 20  # that a help text may take

# The parts of a help text that have rows, and the form of a row: two columns, at least two spaces apart.
ROWS = {
    "Commands:": re.compile(r"  (?P<name>\S+) {2,}(?P<help>\S.*)"),
    "Arguments:": re.compile(r"  (?P<name>\[[A-Z]+\]) {2,}(?P<help>\S.*)"),
    "Options:": re.compile(r" {2,6}((?P<short>-\w), )?(?P<long>--[\w-]+)( <(?P<value>[^<>]+)>)? {2,}(?P<help>\S.*)"),
}


# The first line of an option in a long help text, where its help is on the next line.
LONG_ROW = re.compile(r" {2,6}(-\w, )?--[\w-]+( <[^<>]+>)?( {2,}.*)?")


class Unknown(Exception):
    """A help text has an unknown form."""


@dataclass
class Command:
    """A program or a subcommand. A block is a list of lines, up to an empty one, below the options."""

    name: str
    about: str
    usage: str
    arguments: list = field(default_factory=list)
    options: list = field(default_factory=list)
    blocks: list = field(default_factory=list)
    commands: list = field(default_factory=list)
    version: str = ""


def names_of(option):
    """The names of an option, such as -h and --help."""
    return [it for it in (option["short"], option["long"]) if it]


def ask(path, *words):
    """Returns what the program prints with these arguments."""
    ran = subprocess.run([path, *words], stdin=subprocess.DEVNULL, capture_output=True, text=True, timeout=SECONDS, check=False)
    if ran.returncode:
        raise Unknown(f"{path} {' '.join(words)} failed with status {ran.returncode}: {ran.stderr.strip()}")
    return ran.stdout


def rows_of(head, lines):
    """The rows of a part of a help text."""
    found = [ROWS[head].fullmatch(line) for line in lines]
    for line, row in zip(lines, found):
        if not row:
            raise Unknown(f"this line below {head!r} has an unknown form: {line!r}")
    return [row.groupdict() for row in found]


def read_command(name, text):
    """Reads one help text: the command, and the rows of its subcommands."""
    about, usage, *blocks = [block.splitlines() for block in text.strip("\n").split("\n\n")]
    if len(about) != 1 or len(usage) != 1 or not usage[0].startswith("Usage: "):
        raise Unknown(f"the help text of {name} doesn't begin with its purpose and its usage: {text[:200]!r}")
    parts = {head: [] for head in ROWS}
    while blocks and blocks[0][0] in ROWS:
        head, *lines = blocks.pop(0)
        parts[head] = rows_of(head, lines)
    for block in blocks:
        if block[0] in ROWS or any(map(ROWS["Options:"].fullmatch, block)):
            raise Unknown(f"the help text of {name} has options in an unknown place: {block[:3]}")
    command = Command(name, about[0], usage[0].removeprefix("Usage: "), parts["Arguments:"], parts["Options:"], blocks)
    return command, parts["Commands:"]


def blocks_below(text):
    """The blocks of a help text, short or long, below its options."""
    blocks = [block.splitlines() for block in text.strip("\n").split("\n\n")]
    ends = [at for at, block in enumerate(blocks) if block[0] in ROWS or LONG_ROW.fullmatch(block[0])]
    return blocks[max(ends, default=1) + 1 :]


def read_subcommand(path, name):
    """Reads the help texts of a subcommand. `kinds` also has what it lists."""
    command, below = read_command(name, ask(path, name, "-h"))
    if below:
        raise Unknown(f"{name} has subcommands")
    command.blocks = blocks_below(ask(path, name, "--help"))
    if name == "kinds":
        command.blocks.append(ask(path, name).splitlines())
    return command


def read_program(path, name):
    """Reads all help texts of a program."""
    program, rows = read_command(name, ask(path, "-h"))
    program.version = ask(path, "--version").split()[-1]
    for row in rows:
        if row["name"] == "help":
            program.commands.append(Command("help", row["help"], f"{name} help [COMMAND]"))
        else:
            program.commands.append(read_subcommand(path, row["name"]))
    return program


def formats_of(program):
    """The formats of files that the block on --format lists: in its first column, and after `also`, where those of more than 8
    bits end in `le` or `be`."""
    blocks = [block for command in program.commands for block in command.blocks if block[0].startswith("--format")]
    if not blocks:
        return []
    found = [it[1] for it in (re.match(r"  (\w+) {2,}", line) for line in blocks[0]) if it]
    also = re.search(r"\balso (.*), with le or be$", "\n".join(blocks[0]), re.M)
    if not also:
        raise Unknown(f"the help texts list no formats of samples after `also`: {blocks[0]}")
    for name in re.findall(r"[su]\d+", also[1]):
        found += [name] if name.endswith("8") else [f"{name}le", f"{name}be"]
    return list(dict.fromkeys(found))
