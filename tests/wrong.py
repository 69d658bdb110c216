"""Checks that the prover refuses wrong bodies, many in one check: `python3 tests/wrong.py NAME..`, each NAME a crate,
or `--all` for every crate. Crates are tried in parallel, `--jobs N` of them; by default one for each processor and for
each 4 GB of free memory. With `--minutes N`, as `.ci/run` uses it behind the gate, no check goes on longer than that.
Each day begins with another crate, so that all get their turn. It prints how many weren't tried, which is no failure.

A wrong body is a file tests/wrong/NAME/WHAT.edit in the same form as in must-fail/: a line 'file: src/x.rt', and pairs
of lines 'old: TEXT' and 'new: TEXT', each TEXT one line that stands exactly once in the file. A line 'fn: PATH' names
the function that must be refused, such as `front::Front::below`; without it, that is the function in which the first
changed line stands. With `--must-fail` those of crates/NAME/must-fail are tried instead, as a quick control after a
change of a crate.

Bodies of different functions share one copy of the crate, and one check reports on each function by itself: the prover
prints which of its own goals are open. A function doesn't count if it is unproved only because another one isn't
proved, nor does a proof file that only misses a name that the edit removed. A body that isn't refused in this way is
tried once more, alone in a copy. Bodies of the same function, or that change the same line, go into different copies.
`rattle check --only` proves those functions and what they call, over the libraries below the crate that are built in
crates/*/out/rlib, as `rt ci` leaves them in a clean clone. It doesn't build any.

It prints a line for each body, and last 'N refused, M not'. It exits with 0 if each body that was tried is refused. If
crates/NAME/out/incremental has what `rt check` kept, a check begins with that; WHOLE=1 makes it begin with nothing.
SAID=FILE appends the prover's output to FILE-NAME."""
import concurrent.futures
import math
import os
import re
import shutil
import subprocess
import sys
import tempfile
import time
import typing
from collections.abc import Iterable, Iterator

sys.path.insert(0, os.path.dirname(os.path.dirname(os.path.abspath(__file__))))
from tools import prover, repo
from tools.repo import TOP, Crates

PARTS = ("src", "specs", "proofs")
# What the prover says of a proof file that names something that an edit removed, and of files that cite that proof.
NAMES = re.compile(r"has no field|is not in scope|has no `|was not admitted|"
                   r"(was|were) rejected, (was|were) not checked")

# The texts of a crate's files, by their paths there.
Texts = dict[str, str]
# Whether an edit is refused, and the reason.
Verdict = tuple[bool, str]
# For each function that isn't proved by itself: its own open goals, and the goals of proof files that miss a name.
Goals = dict[str, tuple[list[str], list[str]]]


class Edit:
    """A wrong body: what it changes in which files, and the function that must be refused."""

    def __init__(self, path: str, folder: str) -> None:
        self.name, self.folder = os.path.basename(path).removesuffix(".edit"), folder
        self.pairs: list[tuple[str, str, str]] = []
        self.function = ""
        self.read(path)
        if not self.pairs:
            sys.exit(f"{path}: it has no pair of 'old:' and 'new:'")
        if self.applied({}) is None:
            sys.exit(f"{path}: an 'old:' text doesn't stand in its file exactly once")
        self.function = self.function or self.stands_in()

    def read(self, path: str) -> None:
        file = old = ""
        for line in repo.read(path).split("\n"):
            word, _, text = line.partition(":")
            text = text.removeprefix(" ")
            if word == "file":
                file = text.strip()
            elif word == "fn":
                self.function = text.strip()
            elif word == "old":
                old = text
            elif word == "new":
                self.pairs.append((file, old, text))

    def text(self, file: str) -> str:
        return repo.read(f"{self.folder}/{file}")

    def applied(self, texts: Texts) -> Texts | None:
        """Returns the texts with the edit, or `None` if an 'old:' text doesn't stand there exactly once."""
        made = dict(texts)
        for file, old, new in self.pairs:
            text = made.get(file) or self.text(file)
            if text.count(old) != 1:
                return None
            made[file] = text.replace(old, new)
        return made

    def stands_in(self) -> str:
        """Returns the path of the function in which the first changed line stands: the module of the file, or the type,
        and the name."""
        file, old, _ = self.pairs[0]
        text = self.text(file)
        lines, place = text.split("\n"), text[: text.index(old)].count("\n")
        heads = ((at, repo.FUNCTION.match(lines[at])) for at in range(place, -1, -1))
        at, head = next(((at, head) for at, head in heads if head), (0, None))
        if head is None:
            sys.exit(f"{self.name}: its first changed line isn't in a function: add a line 'fn: PATH'")
        if head[1]:
            # (a method's module is that of its type, which may be another one: the end of its name is enough)
            return f"{type_above(lines, at)}::{head[2]}"
        module = re.sub(r"^src/|(/mod)?\.rt$", "", file).replace("/", "::")
        return head[2] if module in ("lib", "main") else f"{module}::{head[2]}"


def type_above(lines: list[str], at: int) -> str:
    """Returns the type of the method at a line, from the `impl` above it, followed by the trait's name if the method is
    of a trait."""
    while not re.match(r"impl\b|pub trait\b|trait\b", lines[at]):
        at -= 1
    head = " ".join(line.strip() for line in lines[at : at + 12]).partition("{")[0]
    head = re.sub(r"^(impl\s*(<[^{]*?>\s)?|(pub )?trait )", "", head)
    of_trait = re.match(r"\s*(?:[\w:]*::)?(\w+)\b.*\bfor\s+(\w+)", head)
    return f"{of_trait[2]}{of_trait[1]}" if of_trait else repo.found(r"\w+", head)[0]


def open_goals(text: str, name: str) -> Goals:
    """Returns the open goals of each function of a crate, from the prover's output."""
    found: Goals = {}
    own: list[str] = []
    missing: dict[str, list[str]] = {}
    wrong: dict[str, list[str]] = {}
    error = r"^\./proofs/(\S+)/(?:Answers|Invariants|Proof)\.antt:\d+:\d+: error: (.*(?:\n .*)*)"
    for at, goal in re.findall(error, text, re.M):
        kind = missing if NAMES.search(goal) else wrong
        kind.setdefault(at.replace("/", "::"), []).append(goal.split("\n")[0])
    for line in text.split("\n"):
        note = re.match(r"note: src/\S+: (it is not proved .*)", line)
        own += [note[1]] if note else []
        function = re.match(rf"fn {name}::(\S+): (.*)", line)
        if function:
            path, is_open = function[1], not function[2].startswith("proved")
            found[path] = (own + wrong.get(path, []), missing.get(path, [])) if is_open else ([], [])
            own = []
    return found


class Copy:
    """A copy of a crate that gets some edits: no two of the same function, and no two of the same line."""

    def __init__(self, edit: Edit) -> None:
        self.edits, self.texts = [edit], edit.applied({}) or {}

    def takes(self, edit: Edit) -> bool:
        """Adds an edit, if it fits. Returns whether it did."""
        texts = edit.applied(self.texts)
        if texts is None or edit.function in {other.function for other in self.edits}:
            return False
        self.edits.append(edit)
        self.texts = texts
        return True


def copies(edits: Iterable[Edit]) -> list[Copy]:
    """Distributes the edits over as few copies as possible."""
    found: list[Copy] = []
    for edit in edits:
        if not any(copy.takes(edit) for copy in found):
            found.append(Copy(edit))
    return found


def linked(old: str, new: str) -> None:
    """Copies a file, as a hard link if possible: a check replaces kept files and doesn't change them."""
    try:
        os.link(old, new)
    except OSError:
        shutil.copyfile(old, new)


class Prover:
    """Checks copies of a crate over the built libraries, and over what was kept of other copies."""

    def __init__(self, kit: str, name: str, libraries: Crates, kept: str, deadline: float) -> None:
        self.kit, self.name, self.libraries, self.kept, self.deadline = kit, name, libraries, kept, deadline
        self.folder = f"{TOP}/crates/{name}"
        self.places = {used: prover.built(used, [TOP]) for used in repo.below(name, libraries)}
        missing = [used for used, place in self.places.items() if not place]
        if missing:
            how = "run `rt ci` first, in this clone"
            sys.exit(f"{name}: not tried, since its libraries {', '.join(missing)} aren't built: {how}")
        own = f"{self.folder}/out/incremental"
        if os.path.isdir(own) and "WHOLE" not in os.environ:
            shutil.copytree(own, kept, copy_function=linked, dirs_exist_ok=True)

    def check(self, copy: Copy) -> str | None:
        """Returns the prover's output for a copy, or `None` if the deadline comes first."""
        left = None if self.deadline == math.inf else self.deadline - time.time()
        if left is not None and left <= 0:
            return None
        words = prover.words(self.kit, self.name, self.libraries, self.places)
        words += ["--links", f"{self.name}=", "--jobs", "1", "--incremental", self.kept]
        for function in sorted({edit.function for edit in copy.edits}):
            words += ["--only", function]
        with tempfile.TemporaryDirectory(prefix="wrong-") as room:
            for part in PARTS:
                if os.path.isdir(f"{self.folder}/{part}"):
                    shutil.copytree(f"{self.folder}/{part}", f"{room}/{part}")
            for file, text in copy.texts.items():
                repo.write(f"{room}/{file}", text)
            try:
                ran = subprocess.run([f"{self.kit}/bin/rattle", "check", *words], cwd=room, stdin=subprocess.DEVNULL,
                                     stdout=subprocess.PIPE, stderr=subprocess.STDOUT, text=True, errors="replace",
                                     timeout=left)
            except subprocess.TimeoutExpired:
                return None
        if "SAID" in os.environ:
            with open(f"{os.environ['SAID']}-{self.name}", "a", encoding="utf-8") as record:
                record.write(ran.stdout)
        return ran.stdout

    def verdicts(self, copy: Copy) -> dict[str, Verdict]:
        """Returns for each edit of a copy whether it is refused there, and the reason. Empty after the deadline."""
        text = self.check(copy)
        if text is None:
            return {}
        if not re.search(r"^only=\d+ proved=\d+", text, re.M):
            first = next((line for line in text.split("\n") if "error" in line), text[:200])
            return {edit.name: (False, f"the check gave no result: {first[:200]}") for edit in copy.edits}
        found = open_goals(text, self.name)
        return {edit.name: verdict(edit, found) for edit in copy.edits}

    def each_tried(self, edits: list[Edit]) -> Iterator[tuple[Edit, Verdict]]:
        """Tries each edit of the crate in turn, except those that the deadline leaves out."""
        found: dict[str, Verdict] = {}
        for copy in copies(edits):
            found.update(self.verdicts(copy))
        for edit in (edit for edit in edits if edit.name in found):
            is_refused, why = found[edit.name]
            if not is_refused and len(edits) > 1:
                # (another function's wrong body may hide its own)
                alone = self.verdicts(Copy(edit))
                if not alone:
                    continue
                is_refused, again = alone[edit.name]
                why = f"{again} (alone in a copy; beside others: {why})" if is_refused else again
            yield edit, (is_refused, why)


def verdict(edit: Edit, found: Goals) -> Verdict:
    """Decides from the open goals whether an edit is refused."""
    its = [goals for path, goals in found.items() if path == edit.function or path.endswith(f"::{edit.function}")]
    own, missing = [goal for goals, _ in its for goal in goals], [goal for _, goals in its for goal in goals]
    if own:
        return True, f"at {edit.function}: {own[0][:150]}"
    if missing:
        return False, f"only a proof file names what it removed: {missing[0][:150]}"
    return False, "no goal of its own is open" if its else f"the prover said nothing about {edit.function}"


class Tried(typing.NamedTuple):
    """How many edits of a crate were tried, and the names of those that were not refused."""

    count: int
    missed: list[str]


def of_crate(kit: str, name: str, libraries: Crates, edits: list[Edit], deadline: float) -> Tried:
    """Tries a crate's edits until the deadline, and prints a line for each."""
    began, count, missed = time.time(), 0, []
    with tempfile.TemporaryDirectory(prefix="wrong-kept-") as kept:
        for edit, (is_refused, why) in Prover(kit, name, libraries, kept, deadline).each_tried(edits):
            print(f"{name}/{edit.name}: {'refused' if is_refused else 'NOT REFUSED'}: {why}", flush=True)
            count += 1
            missed += [] if is_refused else [f"{name}/{edit.name}"]
    print(f"{name}: {count} of {len(edits)} wrong bodies, {time.time() - began:.0f} seconds", flush=True)
    return Tried(count, missed)


def most_jobs() -> int:
    """Returns how many crates are tried in parallel: a check needs up to 4 GB."""
    free = repo.found(r"MemAvailable:\s+(\d+)", repo.read("/proc/meminfo"))[1]
    return max(1, min(os.cpu_count() or 1, int(free) // 4_000_000))


def number_of(flag: str, words: list[str]) -> tuple[int | None, list[str]]:
    """Returns the number behind a flag, if it is there, and the other words."""
    if flag not in words:
        return None, words
    at = words.index(flag)
    if not words[at + 1 : at + 2] or not words[at + 1].isdigit() or words[at + 1] == "0":
        sys.exit(f"{flag} needs a number")
    return int(words[at + 1]), words[:at] + words[at + 2 :]


def in_turn(names: list[str]) -> list[str]:
    """Returns the names in an order that begins each day with another one, far from that of the day before."""
    first = 11 * int(time.time() // 86_400) % max(len(names), 1)
    return names[first:] + names[:first]


def main() -> int:
    jobs, words = number_of("--jobs", sys.argv[1:])
    minutes, words = number_of("--minutes", words)
    libraries = repo.crates()
    flags = {word for word in words if word.startswith("--")}
    names = [word for word in words if word not in flags]
    strange = [*(flags - {"--all", "--must-fail"}), *(set(names) - set(libraries))]
    if strange or not names and "--all" not in flags:
        unknown = f"; unknown: {' '.join(strange)}" if strange else ""
        sys.exit(f"usage: python3 tests/wrong.py [--must-fail] [--jobs N] [--minutes N] --all | NAME..{unknown}")
    kit, began, spent = repo.kit(), time.time(), sum(os.times()[2:4])
    edits: dict[str, list[Edit]] = {}
    for name in libraries:
        folder = f"crates/{name}/must-fail" if "--must-fail" in flags else f"tests/wrong/{name}"
        if not (names and name not in names) and os.path.isdir(f"{TOP}/{folder}"):
            edits[name] = [Edit(path, f"crates/{name}") for path in repo.files(f"{folder}/*.edit")]
        elif name in names:
            print(f"{name}: there are none")
    deadline = began + 60 * minutes if minutes else math.inf
    # (the highest first: they take longest)
    order = in_turn([*reversed(edits)]) if minutes else [*reversed(edits)]
    with concurrent.futures.ThreadPoolExecutor(jobs or most_jobs()) as pool:
        tried = [pool.submit(of_crate, kit, name, libraries, edits[name], deadline) for name in order]
        results = [one.result() for one in tried]
    missed, count = [name for its in results for name in its.missed], sum(its.count for its in results)
    cost, left = sum(os.times()[2:4]) - spent, sum(map(len, edits.values())) - count
    print(f"{time.time() - began:.0f} seconds, {cost / 60:.1f} minutes of a processor")
    print(f"{count - len(missed)} refused, {len(missed)} not{': ' + ' '.join(missed) if missed else ''}"
          f"{f'; {left} not tried, for lack of time' if left else ''}")
    return 1 if missed else 0


if __name__ == "__main__":
    sys.exit(main())
