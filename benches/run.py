#!/usr/bin/env python3
"""Runs benchmarks: `python3 benches/run.py NAME..`, or `all`. It proves and builds these programs, several at a time,
over the libraries that are built in crates/*/out/rlib, as `rt ci` leaves them here or in the clone that BUILT names.
Then it runs them one after another, TURNS times each (3). All together take some 40 processor minutes. KEPT=FOLDER
keeps the programs there, and uses those that are there already. `--compile NAME..` only checks that they compile,
without proofs and built libraries, in some 20 seconds each; .ci/run does so, so that no benchmark is found broken when
it is needed.

  status   what an LRA shows, from the records of its home and by the slow evaluators over the same facts
  pages    a look-up in a home, and a record that is put before or behind all others
  prepare  a join that is prepared and applied, at homes of 16, 64 and 256 LRAs
  duties   the list of duties of a home of 16, 64 and 256 LRAs, as roots and as one tree of depth 8, by participants
  merge    the merge of two replicas of a home, each with new facts for the other, and the union of their facts
  frame    frames of 16, 64 and 256 records that are encoded and read, and one of a changed record that is applied
  news     the frame of one changed record, by the index and by a look at each record
  pull     a frame of 256 records over readers and writers, beside bytes; and pulls of 34 MB from the built server
  world    runs of a world of 2 and 8 nodes, at homes of 16 and 256 LRAs
  http     requests of 200 bytes, 1 KiB and 64 KiB, read from memory and through a buffer, and only their parser
  api      requests that a clerk serves from memory to memory, with a journal in memory, and only their parser
  journal  begins and joins stored in a file, and the opening of 2,048 LRAs, beside the C library"""
import os
import re
import shutil
import subprocess
import sys
import tempfile
from collections.abc import Iterable
from concurrent.futures import ThreadPoolExecutor

sys.path.insert(0, os.path.dirname(os.path.dirname(os.path.abspath(__file__))))
from tools import prover, repo
from tools.repo import TOP

REPLICAS = ("state_ids", "state_facts", "state_forest", "theory_history", "state_replica", "wire_frames",
            "script_world", "wire_http", "wire_callbacks")
# The libraries of each program.
USES = {
    **dict.fromkeys(("status", "pages", "prepare", "duties", "merge", "frame", "news"), REPLICAS),
    "pull": ("state_ids", "state_facts", "state_replica", "wire_frames", "wire_http"),
    "world": REPLICAS,
    "http": ("wire_http", "httparse"),
    "api": ("state_ids", "wire_http", "state_book", "wire_api", "httparse", "sqlite"),
    "journal": ("state_ids", "state_facts", "theory_history", "state_replica", "wire_frames", "state_journal",
                "sqlite"),
}
AT_ONCE = max((os.cpu_count() or 1) - 1, 1)


def unbuilt(names: Iterable[str]) -> list[str]:
    """Returns the libraries below these programs that aren't built."""
    libraries = repo.crates()
    used = {use for name in names for use in USES[name] if use in libraries}
    ours = {name for use in used for name in [use, *repo.below(use, libraries)]}
    return sorted(name for name in ours if not prover.built(name, prover.tops()))


def ran(words: list[str], folder: str) -> str | None:
    """Runs a tool, and returns its output if it fails."""
    tool = subprocess.run(words, cwd=folder, stdout=subprocess.PIPE, stderr=subprocess.STDOUT, text=True)
    return f"{tool.stdout}{words[0]} ended with {tool.returncode}" if tool.returncode else None


def build(kit: str, name: str, folder: str) -> str | None:
    """Proves and builds a program, and returns the tools' output if one fails."""
    crate, program, own = f"{folder}/bench_{name}", f"{folder}/{name}", f"bench_{name}"
    if os.path.exists(program):
        return None
    os.makedirs(f"{crate}/src", exist_ok=True)
    shutil.copy(f"{TOP}/benches/{name}/main.rt.txt", f"{crate}/src/main.rt")
    libraries = {**repo.crates(), own: [*USES[name], "anyhow"]}
    places = prover.places(repo.below(own, libraries), libraries)
    prover.tell_sources(places)
    words = [f"{kit}/bin/rattle", "build", *prover.words(kit, own, libraries, places, crate), "--jobs", "1"]
    wrong = ran([*words, "--toolchain", f"{kit}/toolchain", "--backend", "llvm", "-o", f"{program}.o"], crate)
    if wrong is not None:
        return wrong
    words = [f"{kit}/bin/rattle-link", "--target", "x86_64-unknown-linux-gnu", "--toolchain", f"{kit}/toolchain"]
    return ran([*words, "-o", program, f"{program}.o", f"{kit}/c/libos_c.a", f"{kit}/c/liblibc_c.a"], crate)


def run_turns(name: str, folder: str, turns: int) -> None:
    """Runs a program this often, and what belongs to it. The journal's program creates its files, so journal.py runs it
    in folders of its own."""
    for turn in range(1, turns + 1 if name != "journal" else 1):
        print(f"== {name}, turn {turn} of {turns}", flush=True)
        subprocess.run([f"{folder}/{name}"], cwd=folder, check=True)
    if name == "journal":
        subprocess.run([sys.executable, f"{TOP}/benches/journal.py", f"{folder}/journal"], cwd=folder, check=True)
    if name == "pull":
        servers = [repo.program("lra_node", top) for top in prover.tops()]
        server = next(filter(os.path.isfile, servers), None)
        if server:
            subprocess.run([sys.executable, f"{TOP}/benches/pull.py", server], cwd=folder, check=True)
        else:
            print("no built server: benches/pull.py was left out")


def is_compiled(copy: str, name: str) -> bool:
    """Whether a program compiles: `rt try` begins to run it, and cuts it off after a second."""
    crate = repo.add_crate(copy, f"bench_{name}", {"main.rt": repo.read(f"benches/{name}/main.rt.txt")},
                           " ".join([*USES[name], "anyhow"]))
    words = ["rt", "try", "--steps", "1", "--seconds", "1"]
    tried = subprocess.run(words, cwd=crate, stdin=subprocess.DEVNULL, stdout=subprocess.PIPE,
                           stderr=subprocess.STDOUT, text=True, errors="replace")
    is_well = re.search(r"^run=(?!none)", tried.stdout, re.M) is not None
    print(f"{name}: it compiles" if is_well else f"{tried.stdout}{name}: it doesn't compile", flush=True)
    return is_well


def compile_all(names: list[str]) -> int:
    """Checks whether each of these programs compiles, and returns the exit status."""
    with tempfile.TemporaryDirectory(prefix="benches-") as copy:
        repo.copy_crates(copy)
        with ThreadPoolExecutor(AT_ONCE) as pool:
            found = list(pool.map(lambda name: is_compiled(copy, name), names))
    return int(not all(found))


def main() -> int:
    words = sys.argv[1:]
    is_look = words[:1] == ["--compile"]
    names = words[1:] if is_look else words
    names = list(USES) if names == ["all"] else names
    if not names or any(name not in USES for name in names):
        sys.exit(__doc__)
    if is_look:
        return compile_all(names)
    missing = unbuilt(names)
    if missing:
        how = "run `rt ci` here first, or set BUILT to the clone in which it ran"
        sys.exit(f"{', '.join(missing)} aren't built: {how}")
    kit = repo.kit()
    with tempfile.TemporaryDirectory() as place:
        folder = os.path.abspath(os.environ.get("KEPT", place))
        os.makedirs(folder, exist_ok=True)
        with ThreadPoolExecutor(AT_ONCE) as pool:
            refusals = dict(zip(names, pool.map(lambda name: build(kit, name, folder), names)))
        for name, wrong in refusals.items():
            if wrong is not None:
                print(f"{wrong}\n{name}: not built", flush=True)
        for name, wrong in refusals.items():
            if wrong is None:
                run_turns(name, folder, int(os.environ.get("TURNS", "3")))
    return int(any(wrong is not None for wrong in refusals.values()))


if __name__ == "__main__":
    sys.exit(main())
