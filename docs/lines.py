#!/usr/bin/env python3
"""Counts the lines of each layer, and writes the table in docs/THEOREMS.md: python3 docs/lines.py. With --check it
compares instead. Blank lines and comments don't count. Uses only the standard library."""
import os
import re
import sys
import typing
from collections.abc import Iterable, Iterator

sys.path.insert(0, os.path.dirname(os.path.dirname(os.path.abspath(__file__))))
from tools import repo

PAGE = "docs/THEOREMS.md"
TESTS = ["test_answers", "test_calls", "test_script", "test_server"]
# The crates of each layer, followed by a description.
LAYERS = [
    ("lra_node", "the program that runs nodes, and scripts"),
    ("lra_sim", "sim_node", "sim_runs", "sim_env", "the simulator"),
    ("program_args", "the words of command lines"),
    ("lra_gateway", "the gateway"),
    ("wire_narayana", "what services of Narayana's interface write and read"),
    ("node_server", "a node's runs over its journal, and the program"),
    ("node_metrics", "metrics, as text"),
    ("node_threads", "threads, and what they share"),
    ("node_sockets", "a connection's life"),
    ("node_effects", "what a call leaves for other threads to do"),
    ("theory_node", "laws of a node's state over all its calls"),
    ("node_core", "a node's state as one value"),
    ("node_agenda", "what the writer thread does next"),
    ("node_replication", "which nodes have stored what"),
    ("node_inbox", "answers and frames that were received"),
    ("node_schedule", "which participant is called next"),
    ("node_worker", "a worker thread's loop"),
    ("wire_operators", "the port for operators"),
    ("script_lines", "the script"),
    ("theory_trail", "laws of a node among others"),
    ("theory_progress", "laws of progress"),
    ("wire_api", "the HTTP interface"),
    ("state_book", "calls, the trail, and the desk with its lock"),
    ("state_journal", "the journal's rows"),
    ("script_world", "all nodes as one machine"),
    ("wire_pulls", "pulls"),
    ("wire_callbacks", "duties, calls and answers"),
    ("wire_frames", "frames"),
    ("state_replica", "what one node holds"),
    ("theory_history", "commands, histories, views and their laws"),
    ("state_forest", "records of a home"),
    ("state_stamps", "each node's stamps, in order"),
    ("state_facts", "facts and definitions"),
    ("wire_http", "HTTP messages"),
    ("state_ids", "ids and words"),
]


class Counts(typing.NamedTuple):
    """The lines of code, of contracts, of definitions and of proofs, and the number of wrong bodies."""

    code: int
    contracts: int
    definitions: int
    proofs: int
    edits: int


def lines_of(pattern: str, mark: str) -> Iterator[str]:
    """Yields the lines of some files that are neither blank nor comments."""
    for path in repo.files(pattern):
        for line in repo.read(path).splitlines():
            if line.strip() and not line.strip().startswith(mark):
                yield line


def code_and_contracts(pattern: str) -> tuple[int, int]:
    """Returns how many lines of some files are code, and how many are contracts."""
    code = contracts = 0
    within = False
    for line in lines_of(pattern, "//"):
        starts = re.match(r"\s*(ensures|requires)\b", line)
        within = bool(starts) or (within and not re.match(r"\s*\{\s*\}?$|\{\}$", line))
        contracts += within
        code += not within
        if within and line.rstrip().endswith(";"):
            within = False
    return code, contracts


def count(crates: Iterable[str]) -> Counts:
    """Returns the counts of some crates together."""
    of_code = [code_and_contracts(f"crates/{crate}/src/**/*.rt") for crate in crates]
    definitions = sum(1 for crate in crates for _ in lines_of(f"crates/{crate}/specs/**/*.antt", "--"))
    proofs = sum(1 for crate in crates for _ in lines_of(f"crates/{crate}/proofs/**/*.antt", "--"))
    places = [place for crate in crates for place in (f"crates/{crate}/must-fail", f"tests/wrong/{crate}")]
    edits = sum(len(repo.files(f"{place}/*.edit")) for place in places)
    return Counts(sum(code for code, _ in of_code), sum(contracts for _, contracts in of_code), definitions, proofs,
                  edits)


def table() -> str:
    """Returns the table, with the lines of tests last."""
    out = "| Crate | Code | Contracts | Definitions | Proofs | Wrong bodies |\n|---|---|---|---|---|---|\n"
    for *crates, what in LAYERS:
        numbers = " | ".join(f"{number:,}" for number in count(crates))
        out += f"| {', '.join(f'`{crate}`' for crate in crates)}: {what} | {numbers} |\n"
    tests = sum(code_and_contracts(f"crates/{crate}/src/**/*.rt")[0] for crate in TESTS)
    units = code_and_contracts("tests/units/**/*.rt.txt")[0]
    names = ", ".join(f"`{crate}`" for crate in TESTS)
    out += f"| proved tests by public calls: {names} | {tests:,} | | | | |\n"
    return out + f"| tests without proof: `tests/units` | {units:,} | | | | |\n"


def main() -> int:
    page = repo.read(PAGE)
    made = table()
    new = re.sub(r"(## The layers\n\n.*?\n\n)\|.*?\n\n", lambda found: f"{found[1]}{made}\n", page, count=1, flags=re.S)
    if "--check" in sys.argv[1:]:
        print("ok" if new == page else "FAILED: run python3 docs/lines.py")
        return 0 if new == page else 1
    repo.write(PAGE, new)
    return 0


if __name__ == "__main__":
    sys.exit(main())
