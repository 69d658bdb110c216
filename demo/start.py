#!/usr/bin/env python3
"""The body of ./coordinator: checks its arguments, builds the server if that isn't done, and runs it. Uses only the
standard library.

It reports everything that can be wrong with the arguments, the folder and the ports before a build, which may take
three quarters of an hour."""
import os
import re
import signal
import subprocess
import sys
import time
from collections.abc import Collection, Sequence

sys.path.insert(0, os.path.dirname(os.path.dirname(os.path.abspath(__file__))))
from tools import unproved
from tools.builds import need_rt, proved, say
from tools.node import end_input
from tools.ports import is_free, listens_at

USAGE = """\
usage: ./coordinator [--unproved] [--operate PORT] [--keep MS] [--keep-failed MS] N PORT DIR
  N                  how many nodes, 1 to 8
  PORT               where node 1 listens on 127.0.0.1, 1024 to 65528; the others take the ports behind it
  DIR                an existing folder for the journals, which must be writable
  --unproved         compile the server in minutes, without proving it: for trying out, some 40 times slower
  --operate PORT     where node 1 listens for operators on 127.0.0.1; the others take the ports behind it
  --keep MS          purge closed or cancelled roots, MS milliseconds after they were first seen closed or cancelled
  --keep-failed MS   purge roots that failed to close or to cancel, in the same way"""
# The options that take a time, and the number of words that each option has.
TIMES = ("--keep", "--keep-failed")
OPTIONS = {"--unproved": 1, "--operate": 2, **dict.fromkeys(TIMES, 2)}

# Options that take a time, each with its time.
Times = Sequence[tuple[str, str]]


def is_number(word: str, least: int, most: int) -> bool:
    """Whether the server would read a word as a number in this range: decimal, without leading zeros."""
    return re.fullmatch("0|[1-9][0-9]{0,19}", word) is not None and least <= int(word) <= most


def ports_of(nodes: str, port: str) -> range:
    return range(int(port), int(port) + int(nodes))


def wrong_word(nodes: str, port: str, times: Times, operate: str | None) -> str | None:
    """Returns a message about a word that the server wouldn't accept, or `None`."""
    for option, word in times:
        if not is_number(word, 0, 2**64 - 1):
            return f"MS of {option} has to be a number of milliseconds, not {word!r}"
    if operate is not None and not is_number(operate, 1024, 65528):
        return f"PORT of --operate has to be a number from 1024 to 65528, not {operate!r}"
    if not is_number(nodes, 1, 8):
        return f"N has to be a number from 1 to 8, not {nodes!r}"
    if not is_number(port, 1024, 65528):
        return f"PORT has to be a number from 1024 to 65528, not {port!r}"
    twice = [] if operate is None else sorted(set(ports_of(nodes, port)) & set(ports_of(nodes, operate)))
    return f"port {twice[0]} would be both a node's own port and one for operators" if twice else None


def wrong_with(nodes: str, port: str, folder: str, times: Times = (),
               operate: str | None = None) -> tuple[int, str] | None:
    """Returns an exit status and a message about what is wrong, or `None` if all is well. `operate` is the operators'
    port of node 1."""
    word = wrong_word(nodes, port, times, operate)
    if word:
        return 2, word
    if not os.path.isdir(folder):
        return 1, f"there is no folder {folder!r}: make it first"
    if not os.access(folder, os.W_OK | os.X_OK):
        return 1, f"the folder {folder!r} isn't writable"
    wanted = [number for first in (port, operate) if first is not None for number in ports_of(nodes, first)]
    taken = [number for number in wanted if not is_free(number)]
    return (1, f"port {taken[0]} is in use") if taken else None


def options_of(words: list[str]) -> tuple[dict[str, str], list[str]]:
    """Returns the leading options, each at most once and in any order, with their values, and the words behind them."""
    options: dict[str, str] = {}
    while words and words[0] not in options and len(words) >= OPTIONS.get(words[0], len(words) + 1):
        count = OPTIONS[words[0]]
        options[words[0]], words = words[count - 1], words[count:]
    return options, words


def wrong_count(options: Collection[str], words: list[str]) -> str | None:
    """Returns a message that says why the words behind the options aren't three, or `None` if there are no words."""
    if not words:
        return None
    first, late = words[0], [word for word in words if word in OPTIONS]
    if first in options:
        return f"{first} is given twice"
    if late:
        return f"{late[0]} needs a value" if late[0] == first else f"{late[0]} has to come before N"
    if first.startswith("--"):
        return f"{first!r} isn't an option"
    if len(words) > 3:
        return f"{words[3]!r} is one word too many"
    return f"there have to be three words, N, PORT and DIR, and not {len(words)}"


def program_for(nodes: str, port: str, folder: str, times: Times, operate: str | None) -> tuple[str, list[str]]:
    """Returns the program that runs these nodes, and its arguments: a server; or, if roots are to be purged or
    operators served, members that all run in one process."""
    if not times and operate is None:
        return "lra_node", ["serve", nodes, port, folder]
    options = [] if operate is None else [f"operate=127.0.0.1:{operate}"]
    options += [f"{option.removeprefix('--')}={word}" for option, word in times]
    addresses = [f"127.0.0.1:{number}" for number in ports_of(nodes, port)]
    return "lra_node", ["member", f"1-{nodes}", folder, *options, *addresses]


def tell_when_up(server: subprocess.Popen, ports: Sequence[int], for_operators: Sequence[int] = ()) -> None:
    """Prints a line when the server answers at all its ports, and the URL of the operators' page if there is one,
    unless the server ends before."""
    while server.poll() is None:
        if listens_at(server.pid, [*ports, *for_operators]):
            which = f"port {ports[0]} answers" if len(ports) == 1 else f"the ports {ports[0]} to {ports[-1]} answer"
            say(f"{which}. Ctrl-C ends it.")
            if for_operators:
                say(f"operators: http://127.0.0.1:{for_operators[0]}/")
            return
        time.sleep(0.05)


def serve_unproved(name: str, words: list[str], ports: Sequence[int], for_operators: Sequence[int]) -> int:
    """Runs an unproved program until Ctrl-C, and returns its exit status. Its arguments are valid, and it listens at
    these ports."""
    program = unproved.compiled(name)
    say("this is the unproved build, for trying out. It checks each access to memory, and is some 40 times slower.")
    # The server gets a process group of its own: Ctrl-C goes to this program, which then closes the server's input.
    server = subprocess.Popen([program, *words], stdin=subprocess.PIPE, process_group=0)
    try:
        tell_when_up(server, ports, for_operators)
        return server.wait()
    except KeyboardInterrupt:
        end_input(server)
        return server.wait()


def main(words: list[str]) -> int:
    if {"-h", "--help"} & set(words):
        print(USAGE)
        return 0
    options, words = options_of(words)
    if len(words) != 3:
        wrong = wrong_count(options, words)
        print(*([f"coordinator: {wrong}"] if wrong else []), USAGE, sep="\n", file=sys.stderr)
        return 2
    nodes, port, folder = words
    times = [(option, options[option]) for option in TIMES if option in options]
    operate = options.get("--operate")
    refused = wrong_with(nodes, port, folder, times, operate)
    if refused:
        say(refused[1])
        return refused[0]
    name, given = program_for(nodes, port, folder, times, operate)
    if "--unproved" in options:
        need_rt()
        return serve_unproved(name, given, ports_of(nodes, port), ports_of(nodes, operate) if operate else ())
    # `rt run` passes standard input on as a file, so a server that it started would end at once. Instead this process
    # becomes the program. It resets two signals that Python ignores, so that the program finds them as a shell leaves
    # them.
    program = proved(name)
    for number in (signal.SIGPIPE, signal.SIGXFSZ):
        signal.signal(number, signal.SIG_DFL)
    os.execv(program, [program, *given])


if __name__ == "__main__":
    try:
        sys.exit(main(sys.argv[1:]))
    except KeyboardInterrupt:
        sys.exit(130)
