"""Tests that consist of many checks, and the code that runs them as a program, where each check prints a line."""
import contextlib
import os
import sqlite3
import tempfile
import time
import traceback
import typing
import unittest
from collections.abc import Iterable

from tools.gateway import Gateway
from tools.node import Group, Server
from tools.participant import Participant


class Checked(unittest.TestCase):
    """A test that goes on after a check fails. It has a folder of its own, which is removed when it ends."""

    # Whether each check prints a line.
    is_told = False
    # The programs that must be built, and how long the whole test takes, if that is long.
    needs: tuple[type[Server] | type[Group] | type[Gateway], ...] = ()
    takes: str | None = None
    # Whether tests that take long run too, though they weren't started by name.
    is_long = False

    @classmethod
    def setUpClass(cls) -> None:
        for kind in cls.needs:
            if not os.access(kind.program, os.X_OK):
                raise unittest.SkipTest(f"{kind.program} isn't there: ./coordinator builds it")
        if cls.takes and not (cls.is_told or cls.is_long):
            raise unittest.SkipTest(f"it takes {cls.takes}: run it by itself")

    def setUp(self) -> None:
        folder = tempfile.TemporaryDirectory()
        self.addCleanup(folder.cleanup)
        self.folder = folder.name

    def check(self, what: str, is_so: object, seen: object = "") -> None:
        """Checks that something is true, and reports what was seen if it isn't."""
        with self.subTest(what):
            if self.is_told:
                print(f"ok      {what}" if is_so else f"FAILED  {what}: {seen}", flush=True)
            if not is_so:
                self.fail(f"{what}: {seen}")

    def same(self, what: str, wanted: object, seen: object) -> None:
        """Checks that two values are equal."""
        self.check(what, wanted == seen, f"\n  wanted {wanted}\n  seen   {seen}")

    def is_whole(self, journal: str, node: int) -> None:
        """Checks that SQLite finds a node's journal intact."""
        with contextlib.closing(sqlite3.connect(journal)) as database:
            found = database.execute("PRAGMA integrity_check").fetchone()
        self.check(f"the journal of node {node} is intact", found == ("ok",), found)

    def folder_in(self, *names: str) -> str:
        """Makes a folder inside the test's folder."""
        path = os.path.join(self.folder, *names)
        os.makedirs(path, exist_ok=True)
        return path

    def server(self, nodes: int, folder: str | None = None, **how: typing.Any) -> Server:
        """Starts a server, which is killed when the test ends."""
        started = Server(nodes, folder or self.folder, **how)
        self.addCleanup(started.__exit__)
        return started

    def participant(self, **how: typing.Any) -> Participant:
        """Starts a participant, which runs until the test ends."""
        part = Participant(**how)
        self.addCleanup(part.close)
        return part

    def group(self, count: int, *options: str, kind: type[Group] = Group) -> typing.Any:
        """Makes members that aren't started yet. They are killed when the test ends."""
        made = kind(count, self.folder, *options)
        self.addCleanup(made.__exit__)
        return made


class Lines(unittest.TestResult):
    """Prints what no check prints: a test that can't go on, one that is skipped, and one that took a second or more."""

    def startTest(self, test: unittest.TestCase) -> None:
        super().startTest(test)
        self.began = time.monotonic()

    def stopTest(self, test: unittest.TestCase) -> None:
        super().stopTest(test)
        took = time.monotonic() - self.began
        if took >= 1:
            print(f"        {word_of(test)}: {took:.0f} seconds", flush=True)

    def addError(self, test: unittest.TestCase, err: typing.Any) -> None:
        super().addError(test, err)
        print(f"FAILED  {word_of(test)}: {''.join(traceback.format_exception(*err)).rstrip()}", flush=True)

    def addFailure(self, test: unittest.TestCase, err: typing.Any) -> None:
        super().addFailure(test, err)
        print(f"FAILED  {word_of(test)}: {err[1]}", flush=True)

    def addSkip(self, test: unittest.TestCase, reason: str) -> None:
        super().addSkip(test, reason)
        print(f"skipped {word_of(test)}: {reason}", flush=True)


def word_of(test: unittest.TestCase) -> str:
    """Returns the word that selects a test on the command line."""
    return test.id().rpartition(".")[2].removeprefix("test_")


def words_of(kind: type[unittest.TestCase]) -> list[str]:
    """Returns the words of a class's tests, in the order of their definitions."""
    return [name.removeprefix("test_") for name in vars(kind) if name.startswith("test_")]


def run(*kinds: type[unittest.TestCase], words: Iterable[str] = ()) -> int:
    """Runs all tests of the given classes, or only those with the given words, and returns the exit status."""
    Checked.is_told = True
    every = [(kind, word) for kind in kinds for word in words_of(kind)]
    chosen = [(kind, one) for word in words for kind, one in every if one == word]
    result = Lines()
    unittest.TestSuite(kind(f"test_{word}") for kind, word in chosen or every).run(result)
    failed = {getattr(test, "test_case", test).id() for test, _ in [*result.failures, *result.errors]}
    print(f"{result.testsRun} tests, {len(failed)} failed")
    return 1 if failed else 0


def need(*kinds: type[Server] | type[Group] | type[Gateway]) -> None:
    """Exits at once if one of these programs isn't built."""
    for kind in kinds:
        if not os.access(kind.program, os.X_OK):
            raise SystemExit(f"{kind.program} isn't there: ./coordinator builds it")
