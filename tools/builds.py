"""Builds of the coordinator's programs: proved ones, which are kept as rt leaves them, and unproved ones
(unproved.py)."""
import collections
import hashlib
import os
import re
import shutil
import subprocess
import sys
import threading
import time

from tools import repo
from tools.repo import TOP

PARTS = ("crates.txt", "crates/*/src/**/*.rt", "crates/*/specs/**/*.antt")
# Seconds between two lines about a build.
EACH = 15
# The most jobs that prove one crate, and how much memory must be free for that. rt by itself would use two jobs for a
# crate high up, since it expects that they need more memory than they do. Four jobs took at most 8.4 GB.
JOBS = 4
ROOM = 12 << 30


def say(text: str) -> None:
    print(f"coordinator: {text}", file=sys.stderr, flush=True)


class Progress:
    """Prints now and then which step a build has reached, and how long it has taken."""

    def __init__(self, what: str) -> None:
        self.what, self.began = what, time.monotonic()
        self.due = self.began + EACH

    def tick(self) -> None:
        now = time.monotonic()
        if now >= self.due:
            self.due = now + EACH
            minutes, seconds = divmod(int(now - self.began), 60)
            say(f"{self.what}, {minutes} min {seconds} s")


def text_sum(kit: str = "") -> str:
    """Returns a checksum of what a program is compiled from: the kit, if it is given, and each file of the crates."""
    found = hashlib.sha256(kit.encode())
    for part in PARTS:
        for path in repo.files(part):
            with open(f"{TOP}/{path}", "rb") as file:
                found.update(path.encode() + b"\0" + file.read() + b"\0")
    return found.hexdigest()


def is_kept(file: str, text: str) -> bool:
    """Whether a file says that the program beside it was built from this source text."""
    try:
        return repo.read(file) == text
    except OSError:
        return False


def need_rt() -> None:
    if not shutil.which("rt"):
        why = "there is no command rt, which builds the server: it comes with the kit of Rattle"
        raise SystemExit(f"coordinator: {why}")


def jobs() -> list[str]:
    """Returns the options that make rt share a proof among processors, if there is enough memory for that."""
    with open("/proc/meminfo", encoding="ascii") as file:
        free = re.search(r"^MemAvailable: +(\d+) kB$", file.read(), re.M)
    if not free or int(free[1]) << 10 < ROOM:
        return []
    return ["--jobs", str(min(JOBS, len(os.sched_getaffinity(0))))]


def run_rt(words: list[str], folder: str, progress: Progress) -> tuple[int, list[str]]:
    """Runs rt in a crate's folder and reports its progress. Returns the exit status and the last lines."""
    last, what = collections.deque[str](maxlen=12), progress.what
    run = subprocess.Popen(["rt", *words], cwd=folder, stdin=subprocess.DEVNULL, stdout=subprocess.PIPE,
                           stderr=subprocess.STDOUT, text=True, errors="replace")

    def read() -> None:
        for line in run.stdout or ():
            last.append(line)
            counted = re.match(r"so far: (\d+ of \d+ functions)", line)
            if counted:
                progress.what = f"{what}, {counted[1]}"

    with run:
        reader = threading.Thread(target=read)
        reader.start()
        while reader.is_alive():
            reader.join(0.2)
            progress.tick()
    return run.returncode, list(last)


def prove(name: str, top: str = TOP) -> None:
    """Has rt prove and build a program. Proves each crate below it first, from the lowest up: otherwise rt would read
    the sources of all crates for some minutes before it proves any. The program is built if it ran: it prints its usage
    when it is given words that it doesn't accept."""
    say("building. This proves every crate once, which takes 45 to 60 minutes on four processors.")
    below = repo.below(name, repo.crates(top))
    progress = Progress("")
    for number, crate in enumerate([*below, name], 1):
        progress.what = f"{crate} ({number} of {len(below) + 1})"
        words = ["run", *jobs(), "--", "serve", "0", "0", "."] if crate == name else ["lib", *jobs()]
        status, last = run_rt(words, f"{top}/crates/{crate}", progress)
        is_built = any(line.startswith(f"usage: {name}") for line in last) if crate == name else status == 0
        if not is_built:
            sys.stderr.writelines(last)
            raise SystemExit(f"coordinator: the program was not built: run 'rt check' in crates/{crate} to see why")


def proved(name: str) -> str:
    """Returns the path of a proved program, and builds it first if there is none for the present source text."""
    program, text = repo.program(name), text_sum()
    if not (is_kept(f"{program}.text", text) and os.access(program, os.X_OK)):
        need_rt()
        prove(name)
        repo.write(f"{program}.text", text)
    return program
