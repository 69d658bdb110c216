"""The quick start in README, line by line: the server, the participant, and the commands."""
import re
import subprocess
import time
import typing

from tools import repo


class QuickStart(typing.NamedTuple):
    """The quick start in README: the server's arguments, the participant's command, and the steps after that. A step is
    a line with what it prints, if README says so. What the participant prints is a step of its own, without a line."""

    nodes: int
    port: int
    command: list[str]
    steps: list[tuple[str | None, str | None]]


def quick_start() -> QuickStart:
    block = repo.found(r"\./coordinator --unproved (\d) (\d+) .*?(?=\n`python3 demo/trip)", repo.read("README.md"),
                       re.S)
    command: list[str] = []
    steps: list[tuple[str | None, str | None]] = []
    for line in block[0].split("\n"):
        printed = re.match(r"The participant prints `(.*?)`", line)
        if printed:
            steps.append((None, printed[1]))
        elif line.startswith("    # "):
            steps[-1] = (steps[-1][0], line[6:])
        elif line.startswith("    python3 "):
            command = line.split()
        elif line.startswith("    "):
            steps.append((line.strip(), None))
    return QuickStart(int(block[1]), int(block[2]), command, steps)


def is_question(line: str) -> bool:
    """Whether a line only asks and changes nothing, so that it may be repeated until the expected answer comes."""
    return line.startswith("curl ") and " -X " not in line


def printed_by(shell: subprocess.Popen, line: str, wanted: str) -> str:
    """Runs a line in a shell, and returns what it prints. A line that only asks is repeated until it prints what is
    wanted, or for 20 seconds."""
    end = time.monotonic() + (20 if is_question(line) else 0)
    assert shell.stdin and shell.stdout
    while True:
        shell.stdin.write(f"{line}\necho\necho =end=\n")
        printed = "".join(iter(shell.stdout.readline, "=end=\n")).strip()
        if printed == wanted or time.monotonic() > end:
            return printed
        time.sleep(0.05)
