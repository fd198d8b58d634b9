"""Runs the program with arguments and a text, with little overhead."""
import os
import select
import shutil
import signal
import subprocess
import sys

TOP = os.path.dirname(os.path.dirname(os.path.abspath(__file__)))
PROGRAM = f"{TOP}/crates/kpn/out/kpn"
HOX = f"{TOP}/crates/hox/out/hox"
BRINGS = "`./kpn --help` (`./hox --help`), which brings it"
SECONDS = 60  # that one run may take


def need(path, first):
    """Ends, and says what to run first, if a program isn't there."""
    if not os.access(path, os.X_OK):
        sys.exit(f"{os.path.basename(sys.argv[0])}: {os.path.relpath(path)} isn't there: first run {first}")


def need_tool(tool, *packages):
    """Installs the packages if the tool is missing, and fails the test if they can't be installed; the test is skipped where
    nothing is to be installed (tests/need.sh)."""
    words = ["bash", "-c", '. "$1/tests/need.sh"; shift; need_tool "$@"', sys.argv[0], TOP, tool, *packages]
    status = subprocess.run(words).returncode
    if status:
        sys.exit(status)


def need_cc():
    need_tool(*CC)


CC = ("cc", "gcc", "libc6-dev")


def has_tool(part, tool, *packages):
    """Whether a tool is there for a part of a test. If it is missing it is installed, as `need_tool` does it; where nothing is to be
    installed, the part is left out, which is said."""
    if os.environ.get("TESTS_INSTALL") == "no" and not shutil.which(tool):
        print(f"{os.path.basename(sys.argv[0])}: left out: {part}: there is no {tool} (packages: {' '.join(packages)})", flush=True)
        return False
    need_tool(tool, *packages)
    return True


class Program:
    """The program, with files in memory for its input and output."""

    def __init__(self, path):
        need(path, BRINGS)
        self.path = path
        self.files = [os.memfd_create(name) for name in ("input", "output", "errors")]

    def run(self, words, text):
        """What it writes on standard output, and its exit status. A signal is a negative status."""
        output, _, status = self.run_and_hear(words, text)
        return output, status

    def run_and_hear(self, words, text):
        """The same, with what it writes on standard error between them."""
        for file in self.files:
            os.ftruncate(file, 0)
            os.lseek(file, 0, os.SEEK_SET)
        os.write(self.files[0], text)
        os.lseek(self.files[0], 0, os.SEEK_SET)
        actions = [(os.POSIX_SPAWN_DUP2, it, n) for n, it in enumerate(self.files)]
        status = self.wait(os.posix_spawn(self.path, [self.path, *words], os.environ, file_actions=actions))
        output, errors = (os.pread(it, os.fstat(it).st_size, 0) for it in self.files[1:])
        return output, errors, status

    def wait(self, process):
        watch = os.pidfd_open(process)
        try:
            poll = select.poll()
            poll.register(watch, select.POLLIN)
            hangs = not poll.poll(1000 * SECONDS)
            if hangs:
                os.kill(process, signal.SIGKILL)
            _, status = os.waitpid(process, 0)
            return "hangs" if hangs else os.waitstatus_to_exitcode(status)
        finally:
            os.close(watch)
