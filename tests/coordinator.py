#!/usr/bin/env python3
"""Tests how ./coordinator handles its arguments before any build: python3 tests/coordinator.py. Uses only the standard
library; takes some seconds.

First in PATH comes a fake `rt` that records that it was called, so a build that begins is noticed. Other fakes then
stand in for the kit's `rt` in a made-up repository, to test what is printed while a proof runs. Each check prints a
line. Exits with 1 if a check fails."""
import contextlib
import io
import os
import re
import shutil
import socket
import subprocess
import sys
import types
import typing
import unittest.mock
from collections.abc import Iterable, Iterator

sys.path.insert(0, os.path.dirname(os.path.dirname(os.path.abspath(__file__))))
from demo import start
from tools import builds, checks, repo
from tools.ports import free_row, is_free, listens_at
from tools.repo import TOP

USAGE = "usage: ./coordinator [--unproved] [--operate PORT] [--keep MS] [--keep-failed MS] N PORT DIR"
# An rt that records that it was called.
TELL = """#!/bin/sh
echo "rt was called: $*" >&2
touch "$(dirname "$0")/called"
exit 99
"""
# An rt that takes a moment, and prints what rt prints of a build and what the program prints when its arguments are
# wrong.
BUILD = """#!/bin/sh
echo 'statements std: modules loaded=1 checked=0'
echo 'so far: 3 of 8 functions checked'
sleep 0.3
case "$1 $(basename "$PWD")" in
'lib {fails}') echo 'error: not proved'; exit 1 ;;
'run '*) echo '{last}' >&2; exit 2 ;;
esac
"""
# An rt that builds a program for its folder. The program prints its arguments and copies its input.
BUILD_ANOTHER = """#!/bin/sh
if [ "$1" = lib ]; then exit; fi
name=$(basename "$PWD")
mkdir out
cat >"out/$name" <<'END'
#!/bin/sh
if [ "$2" = 0 ]; then echo "usage: $(basename "$0") .." >&2; exit 2; fi
echo "$(basename "$0") $*" && exec cat
END
chmod +x "out/$name"
exec "out/$name" serve 0 0 .
"""

# Arguments and what they must lead to: the exit status, and the first line of standard output and of standard error.
Case = tuple[list[str], int, str, str]


def coordinator(line: str) -> str:
    return f"coordinator: {line}"


def status_of(wrong: tuple[int, str] | None) -> int:
    return wrong[0] if wrong else 0


def with_options(cases: Iterable[Case], apart: str) -> Iterator[Case]:
    """Yields each case behind no option and behind several valid ones."""
    both = ["--keep-failed", "1", "--keep", "1"]
    ways: list[list[str]] = [[], ["--unproved"], ["--unproved", *both], ["--keep", "1", "--operate", apart]]
    for given, status, out, errors in cases:
        for way in ways:
            yield [*way, *given], status, out, errors


def of_operators(folder: str, first: str, apart: str, in_use: str) -> Iterator[Case]:
    """Yields cases of ports for operators that are in use, invalid, or nodes' own."""
    yield ["--operate", first, "2", apart, folder], 1, "", in_use
    for word in ("80", "65529", "08170", ""):
        wrong = f"PORT of --operate has to be a number from 1024 to 65528, not {word!r}"
        yield ["--operate", word, "3", "8070", folder], 2, "", coordinator(wrong)
    same = [("8070", "8070", 8070), ("8072", "8070", 8072), ("8070", "8072", 8072), ("65528", "65526", 65528)]
    for ours, theirs, both in same:
        wrong = f"port {both} would be both a node's own port and one for operators"
        yield ["--operate", ours, "3", theirs, folder], 2, "", coordinator(wrong)


def of_times(folder: str) -> Iterator[Case]:
    """Yields cases of invalid times."""
    times = [("--keep", "01"), ("--keep", "8070s"), ("--keep-failed", "-1"), ("--keep-failed", "18446744073709551616")]
    for option, word in times:
        wrong = f"MS of {option} has to be a number of milliseconds, not '{word}'"
        yield [option, word, "3", "8070", folder], 2, "", coordinator(wrong)


class TestWords(checks.Checked):
    def write_rt(self, text: str) -> None:
        """Puts a fake rt into the folder."""
        repo.write(f"{self.folder}/rt", text)
        os.chmod(f"{self.folder}/rt", 0o755)

    def environment(self) -> dict[str, str]:
        """Returns an environment in which the fake rt comes first."""
        return {**os.environ, "PATH": f"{self.folder}:{os.environ['PATH']}"}

    def test_words(self) -> None:
        """Arguments lead to the expected status and messages, and start no build."""
        self.write_rt(TELL)
        folder = self.folder
        with socket.create_server(("127.0.0.1", 0)) as other:
            # This is the second node's port, unless the port before it is taken too.
            taken = other.getsockname()[1]
            first, apart = str(taken - is_free(taken - 1)), str(free_row(3)[0])
            in_use, none = coordinator(f"port {taken} is in use"), f"{folder}/none"
            cases: list[Case] = [
                (["-h"], 0, USAGE, ""),
                (["--help"], 0, USAGE, ""),
                ([], 2, "", USAGE),
                (["9", "8070", folder], 2, "", coordinator("N has to be a number from 1 to 8, not '9'")),
                (["3", "80", folder], 2, "", coordinator("PORT has to be a number from 1024 to 65528, not '80'")),
                (["3", "8070", none], 1, "", coordinator(f"there is no folder '{none}': make it first")),
                (["2", first, folder], 1, "", in_use),
            ]
            others = [*of_operators(folder, first, apart, in_use), *of_times(folder)]
            self.try_words([*with_options(cases, apart), *others])
        self.check("no build began", not os.path.exists(f"{folder}/called"))

    def try_words(self, cases: list[Case]) -> None:
        """Runs ./coordinator with the arguments of each case, all at once."""
        runs = [subprocess.Popen([f"{TOP}/coordinator", *given], env=self.environment(), stdin=subprocess.DEVNULL,
                                 stdout=subprocess.PIPE, stderr=subprocess.PIPE, text=True) for given, *_ in cases]
        for run, (given, *wanted) in zip(runs, cases):
            out, errors = run.communicate()
            seen = [run.returncode, out.split("\n")[0], errors.split("\n")[0]]
            self.check(f"./coordinator {' '.join(given)}", seen == wanted, f"{seen} instead of {wanted}")

    def test_numbers(self) -> None:
        """Numbers are read as the server reads them."""
        right, file = ("3", "8070", self.folder), f"{self.folder}/rt"
        for word in ("0", "9", "03", "+3", " 3", "\u00b3", "three", "", "3\n"):
            self.check(f"N isn't {word!r}", status_of(start.wrong_with(word, *right[1:])) == 2)
        for word in ("1023", "65529", "08070", "8070 ", "8_070", "", "9" * 5000):
            self.check(f"PORT isn't {word[:9]!r}", status_of(start.wrong_with("3", word, self.folder)) == 2)
        self.check("a file is no folder",
                   start.wrong_with(*right[:2], file) == (1, f"there is no folder {file!r}: make it first"))
        for word in ("0", "60000", str(2**64 - 1)):
            wrong = start.wrong_with("9", *right[1:], [("--keep", word)])
            self.check(f"MS may be {word}", wrong is not None and wrong[1].startswith("N has"), wrong)
        for word in (str(2**64), "00", "+1", "1.5", "", "1\n"):
            self.check(f"MS isn't {word!r}", status_of(start.wrong_with(*right, [("--keep", word)])) == 2)

    def test_pages(self) -> None:
        """The commands on the pages are accepted as they stand there, except for the folder."""
        found = [(page, line) for page in ("README.md", "docs/OPERATING.md", "demo/README.md")
                 for line in re.findall(r"^    (?:.* && )?\./coordinator ([^<\n]*)", repo.read(page), re.M)]
        self.check("the pages have six commands", len(found) == 6, found)
        for page, line in found:
            options, (nodes, port, _) = start.options_of(line.split())
            times = [(name, options[name]) for name in ("--keep", "--keep-failed") if name in options]
            wrong = start.wrong_with(nodes, port, self.folder, times, options.get("--operate"))
            self.check(f"{page}: ./coordinator {line}", wrong is None or wrong[1].endswith("is in use"), wrong)

    def test_count(self) -> None:
        """A wrong number or order of words is reported, with the usage."""
        right = ("3", "8070", self.folder)
        others: list[tuple[tuple[str, ...], str]] = [
            (right[:2], "there have to be three words, N, PORT and DIR, and not 2"),
            ((*right, "more"), "'more' is one word too many"), (("--proved", *right), "'--proved' isn't an option"),
            ((right[0], "--unproved", *right[1:]), "--unproved has to come before N"),
            (("--unproved", "--unproved", *right), "--unproved is given twice")]
        for option in ("--keep", "--keep-failed", "--operate"):
            others += [((option,), f"{option} needs a value"),
                       ((option, *right), "there have to be three words, N, PORT and DIR, and not 2"),
                       ((option, "1", option, "1", *right), f"{option} is given twice"),
                       ((*right, option, "1"), f"{option} has to come before N")]
        for given, why in others:
            with contextlib.redirect_stderr(io.StringIO()) as errors:
                seen = start.main(list(given)), errors.getvalue()
            self.same(f"./coordinator {' '.join(given)}", (2, f"coordinator: {why}\n{start.USAGE}\n"), seen)

    def test_progress(self) -> None:
        """While the program is proved, the progress is printed; if it can't be built, the reason is."""
        for name in ("lra_node", "lra_low", "lra_lowest"):
            os.makedirs(f"{self.folder}/crates/{name}")
        listed = "# Crates\nlra_node: lra_low url\nlra_low: lra_lowest\nlra_lowest: uuid\ntest_low: lra_low\n"
        repo.write(f"{self.folder}/crates.txt", listed)
        below = repo.below("lra_node", repo.crates(self.folder))
        self.check("crates come in build order", below == ["lra_lowest", "lra_low"], below)
        usage, other, refused = "usage: lra_node script N", "usage: lra_gateway listen", "error: not proved"
        for last, fails, shown in ((usage, "none", ""), (other, "none", other), (usage, "lra_low", refused)):
            self.write_rt(BUILD.format(last=last, fails=fails))
            ended, errors = self.proved_quickly()
            line = re.search(r"^coordinator: lra_low \(2 of 3\), 3 of 8 functions, \d+ min \d+ s$", errors, re.M)
            self.check("it says which crate is proved", line, errors)
            at = "lra_low" if shown == refused else "lra_node"
            is_so = f"in crates/{at} to see why" in ended and shown in errors if shown else ended == ""
            self.check("it says whether the program was built, and which crate failed", is_so, ended + errors)

    def proved_quickly(self) -> tuple[str, str]:
        """Returns how a proof of the folder's program ends, and what is printed meanwhile, at each tenth of a
        second."""
        with contextlib.redirect_stderr(io.StringIO()) as errors, unittest.mock.patch.object(builds, "EACH", 0.1), \
                unittest.mock.patch.dict(os.environ, self.environment()):
            try:
                builds.prove("lra_node", self.folder)
                return "", errors.getvalue()
            except SystemExit as error:
                return str(error), errors.getvalue()

    def start_in(self, *options: str) -> tuple[int, str, str]:
        """Runs ./coordinator in a copy, and returns its exit status, what it prints, and its last line on standard
        error."""
        port = free_row(2)[0]
        words = [f"{self.folder}/coordinator", *options, "2", str(port), self.folder]
        ran = subprocess.run(words, env=self.environment(), input="input\n", capture_output=True, text=True)
        printed = ran.stdout.replace(self.folder, "DIR").replace(str(port), "PORT").replace(str(port + 1), "NEXT")
        return ran.returncode, printed, ran.stderr.split("\n")[-2:][0]

    def copy(self) -> None:
        """Copies ./coordinator, the files that it needs, and its program's first file."""
        files = ["coordinator", "demo/start.py", "crates.txt", *repo.files("tools/*.py")]
        for file in [*files, "crates/lra_node/src/main.rt"]:
            os.makedirs(os.path.dirname(f"{self.folder}/{file}"), exist_ok=True)
            shutil.copy(f"{TOP}/{file}", f"{self.folder}/{file}")
        for name in repo.crates():
            os.makedirs(f"{self.folder}/crates/{name}", exist_ok=True)

    def test_builds(self) -> None:
        """A copy of ./coordinator builds the program once for its source text, becomes it, and never runs a program
        that was built from another text."""
        self.copy()
        ended, failed, addresses = ("--keep", "5"), ("--keep-failed", "7"), "127.0.0.1:PORT 127.0.0.1:NEXT"
        operators = str(free_row(2)[0])
        operate, at = ("--operate", operators), f"operate=127.0.0.1:{operators}"
        ways = [
            ((), "lra_node serve 2 PORT DIR"),
            (ended, f"lra_node member 1-2 DIR keep=5 {addresses}"),
            (failed, f"lra_node member 1-2 DIR keep-failed=7 {addresses}"),
            ((*failed, *ended), f"lra_node member 1-2 DIR keep=5 keep-failed=7 {addresses}"),
            (operate, f"lra_node member 1-2 DIR {at} {addresses}"),
            ((*failed, *operate, *ended), f"lra_node member 1-2 DIR {at} keep=5 keep-failed=7 {addresses}"),
        ]
        for options, line in ways:
            self.write_rt(BUILD_ANOTHER)
            right = (0, f"{line}\ninput\n")
            seen = self.start_in(*options)
            self.check(f"{line.split()[0]} runs, with the words for {options} and the input", seen[:2] == right,
                       seen)
            self.write_rt("#!/bin/sh\nexit 1\n")
            seen = self.start_in(*options)
            self.check("it isn't built again for the same text", seen == (*right, ""), seen)
        with open(f"{self.folder}/crates/lra_node/src/main.rt", "a", encoding="utf-8") as file:
            file.write("// more\n")
        for options in ((), ended):
            seen = self.start_in(*options)
            self.check("a program of other text doesn't run", seen[:2] == (1, "") and "was not built" in seen[2], seen)

    def test_ports(self) -> None:
        """A server counts as answering if it listens at its ports itself, and not if another process does. This is
        reported."""
        with socket.create_server(("127.0.0.1", 0)) as own, subprocess.Popen(["sleep", "60"]) as other:
            port = own.getsockname()[1]
            itself = typing.cast(subprocess.Popen, types.SimpleNamespace(pid=os.getpid(), poll=lambda: None))
            for for_operators, page in (((), ""), ([port], f"coordinator: operators: http://127.0.0.1:{port}/\n")):
                with contextlib.redirect_stderr(io.StringIO()) as errors:
                    start.tell_when_up(itself, [port], for_operators)
                right = f"coordinator: port {port} answers. Ctrl-C ends it.\n{page}"
                where = ", and gives the page's URL" if page else ""
                self.check(f"it says that it answers{where}", errors.getvalue() == right, errors.getvalue())
            self.check("a process listens at its port", listens_at(os.getpid(), [port]))
            self.check("but not at other ports", not listens_at(os.getpid(), [port, 1]))
            self.check("another process doesn't listen at that port", not listens_at(other.pid, [port]))
            other.kill()


if __name__ == "__main__":
    sys.exit(checks.run(TestWords))
