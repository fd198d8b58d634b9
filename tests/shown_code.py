"""Compares the code that a page shows with the files that it comes from.

Before each block of code there is a line with the path of its file: `PATH`: if the block is the whole
file, and In `PATH`: if it is a part of it. Crates that a page shows whole must have each of their files on it,
except for their tests.
"""

import pathlib
import re

ROOT = pathlib.Path(__file__).resolve().parent.parent
LEFT_OUT = {"must-fail", "wrong-bodies", "out", "tests.rt", "stdin", "stdout", "args", "status"}
PATH_LINE = re.compile(r"(In )?`([^`]+)`:")


def blocks(lines):
    """Each block of code: the number of its first line, the line of text before it, and its lines."""
    before, start, block = "", 0, None
    for number, line in enumerate(lines, 1):
        if line.startswith("```"):
            if block is None:
                start, block = number, []
            else:
                yield start, before, block
                before, block = "", None
        elif block is not None:
            block.append(line)
        elif line.strip():
            before = line
    if block is not None:
        yield start, before, block


def holds(whole, part):
    """Whether a file has the lines of a part one after the other."""
    return any(whole[at : at + len(part)] == part for at in range(len(whole) - len(part) + 1))


def fault_of(before, block, whole):
    """What is wrong with a block, if anything is; the path of a file that is shown whole goes into `whole`."""
    named = PATH_LINE.fullmatch(before.strip())
    if named is None:
        return "no line with the path of its file stands before it"
    path = ROOT / named[2]
    if not path.is_file():
        return f"there is no file {named[2]}"
    lines = path.read_text().splitlines()
    if named[1]:
        return None if block and holds(lines, block) else f"it does not stand so in {named[2]}"
    whole.add(named[2])
    return None if block == lines else f"it is not the whole of {named[2]}"


def files_to_show(crates):
    """The files of crates that a page must show."""
    for crate in crates:
        for path in sorted((ROOT / crate).rglob("*")):
            inner = path.relative_to(ROOT / crate)
            if path.is_file() and not LEFT_OUT.intersection(inner.parts):
                yield path.relative_to(ROOT).as_posix()


def compare(page, crates):
    """Compares a page that shows crates whole. Writes what differs, and returns 1 then."""
    whole, faults, count = set(), [], 0
    for start, before, block in blocks((ROOT / page).read_text().splitlines()):
        count += 1
        fault = fault_of(before, block, whole)
        if fault:
            faults.append(f"{page}:{start}: {fault}")
    faults += [f"{page} does not show {path}" for path in files_to_show(crates) if path not in whole]
    print("\n".join(faults) if faults else f"{count} blocks of code stand so in their files")
    return 1 if faults else 0
