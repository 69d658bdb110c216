#!/usr/bin/env python3
"""Finds what has to be read to believe the headline: the definitions below the clause `headline` of World::step, and
then those that the laws of progress also need. It adds the types of the code that these mention, each with its `impl
Model`, which says what a contract sees of a value. It writes their files and line counts into docs/THEOREMS.md: python3
docs/reading.py. With --check it compares instead, and with --list it prints each definition and type. Blank lines,
comments and imports don't count. Uses only the standard library."""
import os
import re
import sys
import typing
from collections.abc import Iterable, Iterator

sys.path.insert(0, os.path.dirname(os.path.dirname(os.path.abspath(__file__))))
from tools import repo

PAGE = "docs/THEOREMS.md"
CALL = "crates/script_world/src/world.rt", "step", "headline"
# The types of that call: its receiver, its argument and its result.
TYPES = "World", "Event", "EventReply"
# The libraries that are read, in reading order.
CRATES = ["state_ids", "state_facts", "state_forest", "theory_history", "state_stamps", "state_replica", "wire_frames",
          "wire_pulls", "wire_callbacks", "script_world", "theory_progress", "state_journal", "state_book",
          "theory_trail"]
# The laws of progress. Each row counts what the rows before it don't.
PROGRESS = "crates/theory_progress/src/laws.rt"
TO_ITS_END = ["an_lra_ends_with_its_saga", "an_end_is_accepted", "open_participants_only_get_fewer",
              "after_so_many_ends_it_has_ended", "what_is_under_way_can_be_ended", "a_tree_goes_on_until_it_is_purged",
              "a_decided_tree_waits_for_so_many_answers", "a_decided_tree_can_be_purged"]
ALIKE = ["a_frame_brings_what_its_sender_had", "one_round_makes_all_alike", "one_round_brings_what_was_entered",
         "a_round_can_be_made", "frames_enter_nothing", "a_frame_since_nothing_is_taken"]
IN_ROUNDS = ["a_decided_tree_ends_in_so_many_rounds", "a_decided_tree_ends_with_its_longest_saga",
             "a_saga_ends_in_so_many_rounds"]
ASKED = ["what_is_asked_goes_one_way", "both_acts_are_asked_only_so", "a_call_is_listed_where_it_is_due"]
DIAGRAM = ["an_lra_goes_by_the_diagram", "a_root_keeps_to_one_branch", "one_event_crosses_few_edges",
           "each_edge_happens"]
# The laws of servers.
TRAIL = "crates/theory_trail/src/laws"
KILLED = ["servers_with_crashes_are_one_world", "a_turn_that_can_come_is_a_trail", "a_stop_in_a_call_is_a_lost_call"]
KEPT = ["no_crash_loses_a_compensation", "no_crash_calls_out_of_order", "no_call_is_lost",
        "only_an_answer_a_cancel_or_a_purge_ends_a_call", "a_purge_loses_no_call"]
LAWS = [("and that nothing is stuck", PROGRESS, ["nothing_is_stuck"]),
        ("and how it goes on to its end", PROGRESS, TO_ITS_END),
        ("and in how many rounds of calls", "crates/theory_progress/src/laws/bound.rt", IN_ROUNDS),
        ("and what a participant is asked", "crates/theory_progress/src/laws/asked.rt", ASKED),
        ("and that a saga is compensated backwards", "crates/theory_progress/src/laws/order.rt",
         ["a_saga_goes_backwards"]),
        ("and that an LRA goes by a diagram", "crates/theory_progress/src/laws/diagram.rt", DIAGRAM),
        ("and that one round makes all alike", PROGRESS, ALIKE),
        ("and so all servers", f"{TRAIL}/rounds.rt", ["one_round_makes_all_servers_alike",
                                                      "a_round_of_servers_can_be_made",
                                                      "a_round_of_calls_can_be_made"]),
        ("and also those that are killed", f"{TRAIL}/crashes.rt", KILLED),
        ("and that no crash loses a call", f"{TRAIL}/crashes.rt", KEPT),
        ("and that an upgrade may be killed", f"{TRAIL}/upgrades.rt", ["an_upgrade_may_be_killed"])]
# That a frame is bytes, and where a cut one is refused.
GRAMMAR = {"wire_frames", "state_facts LinkTexts"}
OF_BYTES = "and that a frame is bytes, and where a cut one is refused"
NAME = r"[A-Za-z_][A-Za-z0-9_']*"
WORDS = {"abbrev", "unfoldable", "opaque", "inline", "pub", "record", "data", "noncomputable", "let", "in", "if",
         "then", "else", "where", "infixl"}

# The place of a definition: its file and its name. Of a type: its crate and its name.
Place = tuple[str, str]
Lines = list[str]


def source(path: str) -> Iterator[str]:
    """Yields a file's lines without comments and imports."""
    for line in repo.read(path).split("\n"):
        line = line.split("--")[0].rstrip()
        if line.strip() and not re.match(r"\s*(ghost )?(pub )?(use|mod) ", line):
            yield line


def imports(path: str) -> dict[str, Place]:
    """Returns the place of each name that a file imports from a specs file."""
    found = {}
    brought = r"use Rattle\.([a-z]+_[a-z]+)\.specs\.([A-Z]\w*)\.\{([^}]*)\}"
    for crate, module, names in re.findall(brought, repo.read(path)):
        for name in names.split(","):
            there, _, here = name.strip().partition(" as ")
            found[here or there] = f"crates/{crate}/specs/{module}.antt", there
    return found


def definitions(path: str) -> dict[str, Lines]:
    """Returns each definition of a file: its name and its lines."""
    found: dict[str, Lines] = {}
    current = None
    for line in source(path):
        if not line[0].isspace():
            names = [name for name in re.findall(NAME, line) if name not in WORDS]
            current = names[0] if names else None
        if current:
            found.setdefault(current, []).append(line)
    return found


def variables(name: str, lines: Lines) -> set[str]:
    """Returns the names that a definition binds itself, in its patterns, functions and fields."""
    bound: set[str] = set()
    for line in lines:
        if re.match(rf"{name}\b[^:]*=", line):
            bound.update(word for word in re.findall(NAME, line.split("=")[0]) if word[0].islower() and word != name)
        for binders in re.findall(r"λ ([^.]*)\.", line):
            bound.update(re.findall(NAME, re.sub(r":[^()]*", "", binders)))
        for names in re.findall(r"\(([A-Za-z0-9_' ]+) : ", line):
            bound.update(names.split())
        bound.update(re.findall(rf"\blet ({NAME}) ", line))
        bound.update(re.findall(rf"^\s+pub ({NAME}) : ", line))
    return bound


def cited(name: str, lines: Lines) -> set[str]:
    """Returns the names that a definition uses and doesn't bind."""
    text = re.sub(rf"\.{NAME}", "", "\n".join(lines))
    if "record {" in text:
        text = re.sub(rf"\b{NAME} = (?!=)", "", re.sub(r"\brecord {", "{", text))
    return set(re.findall(NAME, text)) - variables(name, lines) - {name}


def clause(path: str, function: str, wanted: str | None) -> str:
    """Returns the text of a clause, or of a law's whole contract."""
    text = repo.read(path)
    contract = re.split(rf"fn {function}\b", text)[1]
    if not wanted:
        return re.split(r"\n\{", contract)[0]
    contract = contract[contract.index(f"ensures {wanted} {{"):]
    return contract[:contract.index("}\n")]


def block(lines: Lines, head: str) -> Lines:
    """Returns the item that begins with a line like this, up to its closing bracket."""
    found: Lines = []
    for line in lines:
        if found or re.match(head, line):
            found.append(line)
            if line in ("}", "};") or re.match(r"pub \w+ \w+(\(.*\))?;", line):
                break
    return found


def code(path: str) -> Iterator[str]:
    """Yields the lines of a code file, without comments, imports and attributes."""
    for line in repo.read(path).split("\n"):
        line = line.split("//")[0].rstrip()
        if line.strip() and not re.match(r"\s*(#\[|(pub )?use |ghost use )", line):
            yield line


class Type(typing.NamedTuple):
    """A struct or an enum: its file, its lines and those of its model."""

    path: str
    own: Lines
    model: Lines


Types = dict[Place, Type]


def types() -> Types:
    """Returns each type of the libraries."""
    found = {}
    for crate in CRATES:
        for path in repo.sources(crate):
            lines = list(code(path))
            for name in re.findall(r"^pub(?:\(crate\))? (?:struct|enum) (\w+)", "\n".join(lines), re.M):
                own = block(lines, rf"pub(\(crate\))? (struct|enum) {name}\b")
                found[crate, name] = Type(path, own, block(lines, rf"impl.* Model for {name}\b"))
    return found


def types_named(path: str, text: str, all_types: Types) -> list[Place]:
    """Returns the types of the libraries that a text of a file names: its own crate's, and those that the file
    imports."""
    crate = path.split("/")[1]
    known = {name: (own, name) for own, name in all_types if own == crate}
    for own, names in re.findall(r"^use ([a-z]+_[a-z]+)::(?:\w+::)*\{?([\w, \n]+)", repo.read(path), re.M):
        known.update({name.strip(): (own, name.strip()) for name in names.split(",")})
    return [known[name] for name in set(re.findall(r"\w+", text)) if known.get(name) in all_types]


def declared(path: str, lines: Lines) -> Iterator[Place]:
    """Yields the types that a definition names, from the imports of its file."""
    words = set(re.findall(NAME, "\n".join(lines)))
    imported = re.findall(r"use Rattle\.([a-z]+_[a-z]+)\.specs\.declared\.([\w.]+)\.\{([^}]*)\}", repo.read(path))
    for crate, module, names in imported:
        here = {name.strip().split(" as ")[-1] for name in names.split(",")}
        if here & words:
            yield crate, module.removesuffix(".TheVariants").split(".")[-1]


class Reached:
    """The definitions and types below clauses and laws: each definition by its place with its lines, and each type by
    its place with its file and lines."""

    def __init__(self) -> None:
        files = repo.files("crates/*/specs/*.antt")
        self.defined = {path: definitions(path) for path in files}
        self.known = {path: imports(path) for path in files}
        self.all_types = types()
        self.seen: dict[Place, Lines] = {}
        self.used: dict[Place, tuple[str, Lines]] = {}

    def add(self, path: str, function: str, wanted: str | None = None, named: Iterable[str] = ()) -> None:
        """Adds what a clause or a law needs. A clause also needs the types of its call, which are given."""
        text = clause(path, function, wanted)
        left = [place for name, place in imports(path).items() if re.search(rf"\b{name}\b", text)]
        asked = [place for name in named for place in types_named(path, name, self.all_types)]
        while left or asked:
            more, types_ = self.of_type(asked.pop()) if asked else self.of_definition(*left.pop())
            left += more
            asked += types_

    def of_type(self, place: Place) -> tuple[list[Place], list[Place]]:
        """Adds a type, and returns the definitions and the types that it names."""
        if place in self.used or place not in self.all_types:
            return [], []
        path, own, model = self.all_types[place]
        self.used[place] = path, own + model
        text = "\n".join(model)
        left = [there for name, there in imports(path).items() if re.search(rf"\b{name}\b", text)]
        return left, types_named(path, "\n".join(own), self.all_types)

    def of_definition(self, path: str, name: str) -> tuple[list[Place], list[Place]]:
        """Adds a definition, and returns the definitions and the types that it names."""
        if (path, name) in self.seen or name not in self.defined.get(path, {}):
            return [], []
        lines = self.seen[path, name] = self.defined[path][name]
        own, known = self.defined[path], self.known[path]
        left = [(path, word) if word in own else known.get(word, (path, "")) for word in cited(name, lines)]
        return left, list(declared(path, lines))


# A file of definitions: its crate, its module, their names and the count of their lines.
File = tuple[str, str, list[str], int]


def by_file(seen: Iterable[tuple[Place, Lines]]) -> Iterator[File]:
    """Yields the files in reading order."""
    found: dict[str, list[tuple[str, int]]] = {}
    for (path, name), lines in seen:
        found.setdefault(path, []).append((name, len(lines)))
    for path in sorted(found, key=lambda path: (CRATES.index(path.split("/")[1]), path)):
        crate, module = path.split("/")[1], os.path.basename(path).removesuffix(".antt")
        yield crate, module, sorted(name for name, _ in found[path]), sum(count for _, count in found[path])


def file_rows(files: Iterable[File], what: str) -> Iterator[str]:
    """Yields table rows for some files: a row for each crate, and one for all of them."""
    crates: dict[str, list[tuple[str, int]]] = {}
    for crate, module, _, count in files:
        crates.setdefault(crate, []).append((module, count))
    for crate, modules in crates.items():
        names = ", ".join(f"`{module}`" for module, _ in modules)
        yield f"| `{crate}` | {names} | {sum(count for _, count in modules)} |"
    yield f"| **{what}** | | **{sum(count for *_, count in files)}** |"


def type_rows(used: dict[Place, tuple[str, Lines]]) -> Iterator[str]:
    """Yields table rows for the types of the code: a row for each crate, and one for all of them."""
    for crate in CRATES:
        own = sorted((name, len(lines)) for (of, name), (_, lines) in used.items() if of == crate)
        if own:
            yield f"| `{crate}` | {', '.join(f'`{name}`' for name, _ in own)} | {sum(count for _, count in own)} |"
    yield f"| **what these speak of** | | **{sum(len(lines) for _, lines in used.values())}** |"


def show_each(files: Iterable[File], used: Iterable[tuple[Place, tuple[str, Lines]]]) -> None:
    """Prints each definition and type, if --list is given."""
    if "--list" in sys.argv[1:]:
        for crate, module, names, count in files:
            print(f"{crate} {module}, {count} lines: {', '.join(names)}")
        for (crate, name), (path, lines) in sorted(used):
            print(f"{crate} {name}, {len(lines)} lines: {path}")


def tables() -> str:
    """Returns the two tables: the files, and the types."""
    reached = Reached()
    reached.add(*CALL, TYPES)
    files = list(by_file(reached.seen.items()))
    show_each(files, reached.used.items())
    of_bytes = [file for file in files if {file[0], f"{file[0]} {file[1]}"} & GRAMMAR]
    lines = ["| Crate | Files of its `specs` | Lines |", "|---|---|---|"]
    rest = [file for file in files if file not in of_bytes]
    lines += [*file_rows(rest, "the headline"), *file_rows(of_bytes, OF_BYTES)]
    for what, path, laws in LAWS:
        before = len(reached.seen), len(reached.used)
        for law in laws:
            reached.add(path, law)
        files = list(by_file(list(reached.seen.items())[before[0]:]))
        show_each(files, list(reached.used.items())[before[1]:])
        lines += file_rows(files, what)
    lines += ["", "| Crate | Types of the code, with their models | Lines |", "|---|---|---|", *type_rows(reached.used)]
    return "\n".join(lines) + "\n"


def main() -> int:
    text, page = tables(), repo.read(PAGE)
    old = r"\| Crate \| Files .*?\n\n(\| Crate \| Types .*?\n\n)?"
    new = re.sub(old, lambda _: f"{text}\n", page, count=1, flags=re.S)
    if "--check" in sys.argv[1:]:
        is_so = new == page and text in page
        print("ok" if is_so else "FAILED: run python3 docs/reading.py")
        return 0 if is_so else 1
    if "--list" in sys.argv[1:]:
        print(text, end="")
    else:
        repo.write(PAGE, new)
    return 0


if __name__ == "__main__":
    sys.exit(main())
