"""Programs of this repository: what they are made from, where they stand in the tree, and where they come from.

What a program is made from is one sum, of all sources of its crates and of the toolchain that proves and builds it: of
contents alone, not of times, and not of the place where the tree lies.

Beside a program crates/NAME/out/NAME stands NAME.made_from, that sum, and NAME.crates, a line with the crates of which it is
made, by which ready.sh finds what was edited since.

In shipped/ stands NAME-SUM.gz, a program that was built from sources with this sum, and beside it NAME-SUM.sum, the
program's own sum. The gate proves and builds all from nothing, and compares what it built with what is shipped for the same
sources, byte for byte (tests/shipped_programs). In a folder that the environment variable KPN_SHELF names, clones on one
machine keep programs in the same way; what lies there is believed of whoever can write there.
"""
import glob
import gzip
import hashlib
import os
import shutil
import zlib

from room import PARTS, TOP, crates_below, read_crates

SHIPPED = os.path.join(TOP, "shipped")

# Not more than this is unpacked of a file: the programs have less than a megabyte.
MOST = 64 << 20


def toolchain():
    """The toolchain's identity, as `rt version` prints it; where there is none, that of the shipped programs."""
    rt = shutil.which("rt")
    if rt:
        return read(os.path.join(os.path.dirname(os.path.dirname(os.path.realpath(rt))), "KIT-ID"))
    return toolchain_of_shipped()


def toolchain_of_shipped():
    """The identity of the toolchain by which the shipped programs were proved and built."""
    return read(os.path.join(SHIPPED, "toolchain"))


def sum_of(name, by=None):
    """The sum of all that a program is made from, with this toolchain, or with that of this machine."""
    crates = read_crates()
    found = hashlib.sha256((by or toolchain()).strip())
    for it in crates_below(name, crates, []):
        found.update(repr((it, crates[it])).encode())
        folder = os.path.join(TOP, "crates", it)
        for path in files_of(folder):
            found.update(repr((os.path.relpath(path, folder), read(path))).encode())
    return found.hexdigest()


def files_of(folder):
    """The files that a crate is proved from, in order."""
    walks = [os.walk(os.path.join(folder, part)) for part in PARTS]
    return sorted(os.path.join(at, file) for walk in walks for at, _, files in walk for file in files)


def read(path):
    """A file's bytes, or none where there is no such file."""
    if not os.path.isfile(path):
        return b""
    with open(path, "rb") as file:
        return file.read()


def write(path, data, mode):
    """Writes a file in one step, so that no one sees a part of it."""
    os.makedirs(os.path.dirname(path), exist_ok=True)
    part = f"{path}.{os.getpid()}"
    with open(part, "wb") as file:
        file.write(data)
    os.chmod(part, mode)
    os.replace(part, path)


class Built:
    """A program in this tree."""

    def __init__(self, name):
        self.name, self.path = name, os.path.join(TOP, "crates", name, "out", name)

    def is_of(self, key):
        """Whether it was made from what has this sum."""
        return os.path.isfile(self.path) and read(f"{self.path}.made_from") == key.encode()

    def keep(self, key, data):
        """Puts it into the tree."""
        write(self.path, data, 0o755)
        self.note(key)

    def note(self, key):
        """Notes what it was made from. The note of the sum is newer than the sources that it is of."""
        write(f"{self.path}.crates", f"{' '.join(self.crates())}\n".encode(), 0o644)
        write(f"{self.path}.made_from", key.encode(), 0o644)

    def crates(self):
        return crates_below(self.name, read_crates(), [])

    def is_newest(self):
        """Whether it is newer than all that it is made from, if nothing is noted of it: `rt ci` and `rt run` leave it so."""
        if not os.path.isfile(self.path) or os.path.exists(f"{self.path}.made_from"):
            return False
        files = [it for crate in self.crates() for it in files_of(os.path.join(TOP, "crates", crate))]
        return max(map(os.path.getmtime, [os.path.join(TOP, "crates.txt"), *files])) < os.path.getmtime(self.path)

    def stands(self, key):
        """Whether it is the one of these sources, which are those of the tree; notes it then."""
        if not self.is_of(key) and not self.is_newest():
            return False
        self.note(key)
        return True


class Shelf:
    """A folder of packed programs."""

    def __init__(self, folder):
        self.folder = folder

    def packed(self, name, key):
        return os.path.join(self.folder, f"{name}-{key}")

    def has(self, name, key):
        return os.path.isfile(f"{self.packed(name, key)}.gz")

    def take(self, name, key):
        """The program that stands here for these sources, and whether one does that isn't as it was put here."""
        if not self.has(name, key):
            return None, False
        packed = self.packed(name, key)
        try:
            with gzip.open(f"{packed}.gz") as file:
                data = file.read(MOST)
            fits = hashlib.sha256(data).hexdigest().encode() == read(f"{packed}.sum").strip()
        except (OSError, EOFError, zlib.error):
            return None, True
        return (data, False) if fits else (None, True)

    def put(self, name, key, data):
        """Puts a program here."""
        packed = self.packed(name, key)
        write(f"{packed}.sum", hashlib.sha256(data).hexdigest().encode() + b"\n", 0o644)
        write(f"{packed}.gz", gzip.compress(data, 9, mtime=0), 0o644)


def ship(name, key, data):
    """Ships a program, in place of those that were shipped under its name."""
    for path in glob.glob(os.path.join(SHIPPED, f"{name}-*")):
        os.remove(path)
    Shelf(SHIPPED).put(name, key, data)
    write(os.path.join(SHIPPED, "toolchain"), toolchain(), 0o644)
