"""A copy of crates, in which rt works while the tree itself stays as it is.

One rt command at a time works on a crate and on those below it, and it checks all crates that crates.txt
names. So a tool that needs some crates alone, or many side by side, works in copies. What was proved of a
crate, its out/, is linked into them and stays in the tree; what is proved in them is given to the tree as
soon as it is there, unless something else was proved of that crate meanwhile.
"""
import fcntl
import os
import shutil
import subprocess
import sys
from concurrent.futures import FIRST_COMPLETED, ThreadPoolExecutor, wait

TOP = os.path.dirname(os.path.dirname(os.path.abspath(__file__)))
PARTS = ("src", "specs", "proofs")


def read_crates():
    """Each crate of crates.txt, with the libraries that it uses."""
    with open(os.path.join(TOP, "crates.txt"), encoding="utf-8") as file:
        lines = [line.partition("#")[0].partition(":") for line in file]
    return {head.split()[0]: uses.split() for head, colon, uses in lines if colon}


def crates_below(name, crates, found):
    """The crates that this one uses, lowest first, and then itself."""
    for it in crates.get(name, []):
        if it in crates and it not in found:
            crates_below(it, crates, found)
    if name not in found:
        found.append(name)
    return found


def processors():
    return len(os.sched_getaffinity(0))


class Held:
    """Keeps others from a file or folder, by the lock that rt itself takes on a crate's folder."""

    def __init__(self, path, waiting):
        self.path, self.waiting = path, waiting

    def __enter__(self):
        self.file = os.open(self.path, os.O_RDONLY)
        try:
            fcntl.flock(self.file, fcntl.LOCK_EX | fcntl.LOCK_NB)
        except BlockingIOError:
            print(self.waiting, file=sys.stderr, flush=True)
            fcntl.flock(self.file, fcntl.LOCK_EX)
        return self

    def __exit__(self, *failure):
        os.close(self.file)


class Room:
    """A copy of crates in target/NAME. Used as a context: a second one waits until the first is done."""

    def __init__(self, name):
        self.folder = os.path.join(TOP, "target", name)
        self.crates = read_crates()
        self.found = {}

    def __enter__(self):
        os.makedirs(os.path.dirname(self.folder), exist_ok=True)
        lock = f"{self.folder}.lock"
        open(lock, "a", encoding="utf-8").close()
        self.held = Held(lock, f"build: another build is under way in {TOP}; waiting until it is done")
        self.held.__enter__()
        shutil.rmtree(self.folder, ignore_errors=True)
        return self

    def __exit__(self, *failure):
        shutil.rmtree(self.folder, ignore_errors=True)
        self.held.__exit__(*failure)

    def path(self, *parts):
        return os.path.join(self.folder, "crates", *parts)

    def hold(self, names):
        """Adds crates, with what was proved of them."""
        for name in names:
            with self.lock_of(name) as _:
                origin = os.path.join(TOP, "crates", name)
                shutil.copytree(origin, self.path(name), ignore=shutil.ignore_patterns("out", "must-fail", "wrong-bodies"))
                link_tree(os.path.join(origin, "out"), self.path(name, "out"))
                self.found[name] = identity(os.path.join(origin, "out"))
        with open(os.path.join(self.folder, "crates.txt"), "a", encoding="utf-8") as file:
            file.writelines(f"{name}: {' '.join(self.crates[name])}\n" for name in names)

    def lock_of(self, name):
        return Held(os.path.join(TOP, "crates", name), f"build: an rt command is at work in crates/{name}; waiting until it is done")

    def give(self, name):
        """Has the tree keep what was proved of a crate, if nothing else was proved of it meanwhile."""
        goal = os.path.join(TOP, "crates", name, "out")
        with self.lock_of(name):
            if identity(goal) != self.found[name]:
                return
            fresh, old = os.path.join(self.folder, "fresh"), os.path.join(self.folder, "old")
            link_tree(self.path(name, "out"), fresh)
            if os.path.isdir(goal):
                os.rename(goal, old)
            os.rename(fresh, goal)
            shutil.rmtree(old, ignore_errors=True)
            self.found[name] = identity(goal)

    def rt(self, name, *words):
        """The lines that an rt command writes in a crate."""
        how = {"stdin": subprocess.DEVNULL, "stdout": subprocess.PIPE, "stderr": subprocess.STDOUT}
        ran = subprocess.run(["rt", *words], cwd=self.path(name), text=True, errors="replace", check=False, **how)
        return ran.stdout.splitlines(keepends=True)

    def prove(self, libraries, tell):
        """Proves libraries, side by side if they don't use each other, and calls `tell` for each.

        First comes the one on which most others wait; it gets the processors that would be idle. Returns
        what rt wrote.
        """
        lanes = [Lane(self, number) for number in range(processors())]
        left = sorted(libraries, key=lambda it: -self.height(it, libraries))
        proved, running, lines = [], {}, []
        with ThreadPoolExecutor(len(lanes)) as pool:
            while left or running:
                below = lambda it: crates_below(it, self.crates, [])[:-1]
                ready = [it for it in left if set(below(it)) <= set(proved)]
                idle = processors() - sum(given for _, _, given in running.values())
                for at, name in enumerate(ready[: max(idle, 0)]):
                    lane = lanes.pop()
                    given = max(1, idle - len(ready) + 1) if at == 0 and name == left[0] else 1
                    running[pool.submit(lane.prove, name, below(name), given)] = name, lane, given
                    left.remove(name)
                for done in wait(running, return_when=FIRST_COMPLETED).done:
                    name, lane, _ = running.pop(done)
                    lanes.append(lane)
                    lines += done.result()
                    if not has_rlib(self.folder, name):
                        left = []
                        continue
                    self.give(name)
                    proved.append(name)
                    tell(name, len(proved))
        return lines

    def height(self, name, libraries):
        """How much there is to prove on the longest way from a crate up."""
        above = [self.height(it, libraries) for it in libraries if name in self.crates[it]]
        return self.size(name) + max(above, default=0)

    def size(self, name):
        walks = [os.walk(self.path(name, part)) for part in ("src", "proofs")]
        return sum(os.path.getsize(os.path.join(at, file)) for walk in walks for at, _, files in walk for file in files)


class Lane:
    """A copy of the crates of a room, in which rt works beside other lanes."""

    def __init__(self, room, number):
        self.room, self.folder = room, os.path.join(room.folder, f"lane_{number}")

    def prove(self, name, below, jobs):
        """Proves a crate over those below it, which are proved, and puts what was proved into the room."""
        for it in [*below, name]:
            goal = os.path.join(self.folder, "crates", it)
            shutil.rmtree(goal, ignore_errors=True)
            link_tree(self.room.path(it), goal)
        with open(os.path.join(self.folder, "crates.txt"), "w", encoding="utf-8") as file:
            file.writelines(f"{it}: {' '.join(self.room.crates[it])}\n" for it in [*below, name])
        where = os.path.join(self.folder, "crates", name)
        how = {"stdin": subprocess.DEVNULL, "stdout": subprocess.PIPE, "stderr": subprocess.STDOUT}
        ran = subprocess.run(["rt", "lib", "--jobs", str(jobs)], cwd=where, text=True, errors="replace", check=False, **how)
        made, goal = os.path.join(where, "out"), self.room.path(name, "out")
        if os.path.isdir(made):
            shutil.rmtree(goal, ignore_errors=True)
            shutil.move(made, goal)
        return ran.stdout.splitlines(keepends=True)


def has_rlib(folder, name):
    return os.path.isfile(os.path.join(folder, "crates", name, "out", "rlib", "stamp"))


def link_tree(origin, goal):
    """Makes a copy of a folder, if there is one, whose files are links: rt makes new ones in place of those that it changes."""
    if os.path.isdir(origin):
        shutil.copytree(origin, goal, copy_function=os.link)


def identity(folder):
    """The files of a folder, by which it is seen whether it changed."""
    walk = os.walk(folder)
    return {(os.path.join(at, file), os.stat(os.path.join(at, file)).st_ino) for at, _, files in walk for file in files}
