"""Generates a man page from a program's help texts (help_texts.py)."""
import re
import textwrap

from help_texts import Unknown, names_of

WIDTH = 70  # columns of a line in a table; man adds a margin

# Sections for blocks of the help texts, in the page's order, and how such blocks begin. Each block is printed once.
SECTIONS = {
    "DESCRIPTIONS OF NETWORKS": r"The description\b",
    "KINDS OF PROCESSES": r"Kinds\b",
    "FILES OF TOKENS": r"A file of tokens\b",
    "FORMATS": r"--format\b",
    "EXIT STATUS": r"Exit status:",
    "EXAMPLES": r"Example\b",
}
ALSO = {"hox": ("kpn", "dot", "sox"), "kpn": ("hox",)}
SIGNS = {"\\": r"\e", "-": r"\-", "^": r"\(ha", "~": r"\(ti", "`": r"\(ga", "'": r"\(aq", '"': r"\(dq"}
POINTER = re.compile(r"[^.]*\b\w+ run --help\b[^.]*\.")  # a sentence that refers to another help text, which the page has


def plain(text):
    """Escapes a text for roff."""
    written = "".join(SIGNS.get(it, it) for it in text)
    return rf"\&{written}" if written.startswith(".") else written


def bold(text):
    return rf"\fB{plain(text)}\fR"


def form(text):
    """Part of a command's usage, with placeholders (words in capitals) in italics."""
    parts = re.split(r"([A-Z]+)", text)
    return "".join(rf"\fI{plain(it)}\fR" if at % 2 else plain(it) for at, it in enumerate(parts))


def prose(text):
    """A text that man fills."""
    return [plain(it) for it in textwrap.wrap(text, WIDTH, break_long_words=False, break_on_hyphens=False)]


def entry(tag, text):
    """A tagged paragraph."""
    return [".TP", tag, *prose(text)]


def usage_of(program, command):
    """The usage of a subcommand."""
    names = f"{program.name} {command.name}"
    if command.usage != names and not command.usage.startswith(f"{names} "):
        raise Unknown(f"the usage of {names} is {command.usage!r}")
    return bold(names) + form(command.usage.removeprefix(names))


def options_of(command):
    """The arguments and options."""
    lines = []
    for row in command.arguments:
        lines += entry(form(row["name"]), row["help"])
    for row in command.options:
        tag = ", ".join(bold(it) for it in names_of(row))
        repeats = "; repeatable" if (row["value"] or "").startswith("CHANNEL") else ""
        lines += entry(f"{tag} {form(row['value'])}" if row["value"] else tag, row["help"] + repeats)
    return lines


def fitted(line):
    """Wraps a line of a table within its last column. A line without columns stays as it is."""
    columns = list(re.finditer(r"(?<=\S) {2,}(?=\S)", line))
    if len(line) <= WIDTH or not columns:
        return [line]
    return textwrap.wrap(line, WIDTH, subsequent_indent=" " * columns[-1].end(), break_long_words=False, break_on_hyphens=False)


def table(lines):
    """Indented lines: a table, or an example."""
    fits = [it for line in textwrap.dedent("\n".join(lines)).splitlines() for it in fitted(line)]
    return [".PP", ".RS 2", ".nf", *map(plain, fits), ".fi", ".RE"]


def block_lines(lines):
    """A block: prose, and indented lines."""
    written, at = [], 0
    while at < len(lines):
        is_table, end = lines[at].startswith(" "), at
        while end < len(lines) and lines[end].startswith(" ") == is_table:
            end += 1
        if is_table:
            written += table(lines[at:end])
        else:
            written += [".PP", *prose(POINTER.sub("", " ".join(lines[at:end])))]
        at = end
    return written


def statuses(lines):
    """The block of exit statuses."""
    written = []
    for line in lines[1:]:
        row = re.fullmatch(r"  (\d+)  (\S.*)", line)
        if not row:
            raise Unknown(f"this line below {lines[0]!r} has an unknown form: {line!r}")
        written += entry(bold(row[1]), row[2])
    return written


def example(lines):
    """A block that begins with `Example:`, or with `Example, in a pipe:` or `Example, in which x is y:`."""
    first = re.sub(r"^Example(:|, (in which )?)", "", lines[0])
    return block_lines([first[:1].upper() + first[1:], *lines[1:]] if first else lines[1:])


WRITERS = {"EXIT STATUS": statuses, "EXAMPLES": example}


def section_of(block):
    """The section of a block; None if it stays with its subcommand."""
    return next((it for it, begin in SECTIONS.items() if re.match(begin, block[0])), None)


def section(title, blocks):
    """A section with its blocks."""
    found = list(dict.fromkeys(tuple(it) for it in blocks if section_of(it) == title))
    if not found:
        return []
    return [f".SH {title}", *(line for it in found for line in WRITERS.get(title, block_lines)(it))]


def subcommand(program, command):
    """The part on a subcommand."""
    lines = [f".SS {program.name} {command.name}", usage_of(program, command), ".PP", *prose(f"{command.about}.")]
    return lines + options_of(command) + [line for it in command.blocks if not section_of(it) for line in block_lines(it)]


def without_idle(lines):
    """Drops the marks of paragraphs at the start of a section, or without text."""
    lines = [it for it, after in zip(lines, [*lines[1:], ""]) if it != ".PP" or not after.startswith((".PP", ".SH", ".SS"))]
    return [it for before, it in zip(["", *lines], lines) if it != ".PP" or not before.startswith((".SH", ".SS"))]


def beginning(program, date):
    """The page up to the options of the program itself."""
    name, about = program.name, program.about[0].lower() + program.about[1:]
    lines = [rf".\" Generated from the help texts of {name} by Hoxburen's tools/manual."]
    lines += [f'.TH {name.upper()} 1 {date} "Hoxburen {program.version}" "User Commands"']
    lines += [".SH NAME", rf"{name} \- {plain(about)}"]
    lines += [".SH SYNOPSIS", ".nf", *(usage_of(program, it) for it in program.commands)]
    lines += [f"{bold(name)} {' | '.join(map(bold, names_of(it)))}" for it in program.options]
    lines += [".fi", ".SH DESCRIPTION", f"{bold(name)} {plain(about)}.", "Its subcommands:"]
    lines += [line for it in program.commands for line in entry(bold(it.name), it.about)]
    return [*lines, ".SH OPTIONS", *options_of(program)]


def end(name):
    """What no help text says."""
    huge = f"If it is unset, {name} sets it to glibc.malloc.hugetlb=1: the C library then asks for huge pages."
    also = [f".BR {it} (1)" for it in ALSO[name]]
    return [".SH ENVIRONMENT", *entry(bold("GLIBC_TUNABLES"), huge), ".SH SEE ALSO", *(f"{it}," for it in also[:-1]), also[-1]]


def man_page(program, date):
    """The page."""
    lines = [*beginning(program, date), ".SH SUBCOMMANDS"]
    for command in program.commands:
        lines += subcommand(program, command)
    rest = [line for it in program.blocks if not section_of(it) for line in block_lines(it)]
    lines += [".SH NOTES", *rest] if rest else []
    blocks = program.blocks + [it for command in program.commands for it in command.blocks]
    for title in SECTIONS:
        lines += section(title, blocks)
    return "\n".join(without_idle([*lines, *end(program.name)])) + "\n"
