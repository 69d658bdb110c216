"""Simulates nodes in one thread, with a clock, a network, disks and participants whose behaviour a seed decides.

`python3 tests/sim.py` runs the proved program `lra_sim` for about a minute, and checks that the code has the text that
each hand-made fault replaces. `python3 tests/sim.py SEED SEEDS EVENTS [NODES [TOLD]]` simulates this many seeds from a
seed on, each with this many events; with `--unproved` in front `rt try` runs the sources instead, far slower, under an
address sanitizer. `--night [SEEDS EVENTS [FIRST]]` simulates 5,000 seeds with 20,000 events, one seed on each processor
at a time, and prints how many steps that were. `--faults [NAME..]` checks that the simulator finds the faults of
tests/sim/faults. It plants them one after another, each in an unproved copy of the code. Their files have the form of
those in tests/wrong, with a first line 'crate: NAME'.

The program is crates/lra_sim, over sim_env, sim_runs and sim_node. The same seed gives the same run everywhere.

It simulates one to eight nodes. Each has its book over files in memory: one call may fail, or all, and what wasn't
synced is lost or torn. It has its agenda with the schedule, planned calls, deadlines and sweeps. Participants answer
their calls, or don't, by the table of docs/HTTP.md. Pulls are complete messages over a network that delays, cuts off,
loses and partitions. Nodes stop between any two calls of a disk, and start over the newest copy or an older one. Clocks
jump. What a thread of the server does is one step here. What a node knows besides its journal is the value that the
server drives too, `NodeState` of node_core. Some lines repeat lines of the server: the heads of their files say which.

In half of the plays with several nodes, all want copies of their facts (docs/COPIES.md): in some of them strictly, and
in some each start is told that the journal is lost. In these plays a disk may be lost too, so that its node starts over
an empty one; or an empty disk may be in the place of a node's own for a while. A call may come into the middle of
another call of the same node. Some pulls wait until there is something new. And somebody may ask in another
node's name, as if that had facts which nobody ever stored.

After each step it checks these things. The node's pages and records say what its facts say, computed from a plain list
of all facts that were applied. Statuses only rise, and commands are answered accordingly. The participants that are due
are those that the facts say, and each call is on the newest list. A tree that is purged showed the same for its
retention time, also if something in it failed. Nothing is applied before the other nodes have been heard from. No
number is assigned twice. After each stop everything is there that was answered. At the end all is well for two minutes:
then nothing that was decided is left to be done, nothing waits, and all nodes are alike. After a start over an older
copy a node may lose facts that no other node has received. Facts that it sent and that are still on their way are lost
then too, and also facts that another node couldn't apply, which a server keeps.

If copies are wanted, it also checks these. An answer or a list of callbacks goes out as copied only if as many other
nodes as are wanted had all facts of its node on their disks that it may show. If one disk is lost after that, these
facts are still there, and the node has them again before it stores anything. No answer waits beyond its patience. If
copies are wanted strictly, no callback is made too late, and nothing is stored for a client while other nodes are
behind. A node answers nothing over an empty disk in the place of its own. No node takes another for one with its own
number.

It exits with 0 if nothing was found, or if each planted fault was. Uses only the standard library."""
import concurrent.futures
import os
import re
import subprocess
import sys
import tempfile
import time

sys.path.insert(0, os.path.dirname(os.path.dirname(os.path.abspath(__file__))))
from tools import repo

FAULTS = "tests/sim/faults"
NAME = "lra_sim"
# The first seed, the number of seeds, and the events of each: for a minute, for a night, and to look for a fault.
SHORT = ["1", "1000", "2000"]
NIGHT = ["5000", "20000"]
LONG = ["1", "100", "2000"]
# The number of nodes, seed by seed.
NODES = [3, 2, 3, 1, 4, 2, 5, 8]
# How many seconds `rt try` may run.
SECONDS = 900

# Files with their texts.
Texts = dict[str, str]


def names_of_faults() -> list[str]:
    return [os.path.basename(path).removesuffix(".edit") for path in repo.files(f"{FAULTS}/*.edit")]


def plant(folder: str, fault: str) -> Texts:
    """Returns the files that a fault changes in a folder, each with its changed text."""
    made: Texts = {}
    crate = file = old = ""
    for line in repo.read(f"{FAULTS}/{fault}.edit").splitlines():
        word, _, text = line.partition(": ")
        if word == "crate":
            crate = text
        elif word == "file":
            file = f"{folder}/crates/{crate}/{text}"
        elif word == "old":
            old = text
        elif word == "new":
            whole = made.get(file) or repo.read(file)
            if whole.count(old) != 1:
                raise SystemExit(f"{fault}: its text isn't there exactly once: {old}")
            made[file] = whole.replace(old, text)
    return made


def try_out(words: list[str], fault: str = "") -> tuple[int, str]:
    """Simulates with these arguments by `rt try`, with a planted fault if one is given. Returns the exit status and the
    output."""
    with tempfile.TemporaryDirectory(prefix="sim-") as folder:
        repo.copy_crates(folder)
        for file, text in plant(folder, fault).items() if fault else ():
            repo.write(file, text)
        command = ["rt", "try", "--seconds", str(SECONDS), "--", *words]
        ran = subprocess.run(command, cwd=f"{folder}/crates/{NAME}", stdin=subprocess.DEVNULL, stdout=subprocess.PIPE,
                             stderr=subprocess.STDOUT, text=True, errors="replace")
    return ran.returncode, ran.stdout


def play(words: list[str]) -> tuple[int, str]:
    """Simulates with these arguments by the proved program. Returns the exit status and the output."""
    program = repo.program(NAME)
    if not os.path.exists(program):
        raise SystemExit(f"{program} isn't built: run rt ci {NAME}, or say --unproved")
    ran = subprocess.run([program, *words], stdin=subprocess.DEVNULL, stdout=subprocess.PIPE, stderr=subprocess.STDOUT,
                         text=True, errors="replace")
    return ran.returncode, ran.stdout


def steps_in(out: str) -> int:
    """Returns how many steps were simulated without a finding."""
    return sum(int(steps) for steps in re.findall(r"^seed \d+, \d nodes: (\d+) steps", out, re.M))


def spread(first: int, seeds: int, rest: list[str]) -> int:
    """Simulates each seed in a process of its own, one on each processor at a time. Prints the findings, and how many
    steps took how long. Returns the exit status."""
    began = time.monotonic()
    each = [[str(seed), "1", *rest, str(NODES[seed % len(NODES)])] for seed in range(first, first + seeds)]
    found, steps = 0, 0
    with concurrent.futures.ThreadPoolExecutor(len(os.sched_getaffinity(0))) as pool:
        for status, out in pool.map(play, each):
            steps += steps_in(out)
            if status:
                found += 1
                print(out, end="", flush=True)
    print(f"{seeds} seeds, {steps:,} steps in {time.monotonic() - began:.0f} seconds: {found} with a finding")
    return 1 if found else 0


def is_found(fault: str) -> bool:
    """Whether a planted fault is found. Prints the seed that finds it."""
    status, out = try_out(LONG, fault)
    said = re.findall(r"^seed \d+, \d nodes, step .*$", out, re.M)
    is_well = status == 1 and len(said) == 1
    print(f"{fault}: {'found by ' + said[0][:300] if is_well else f'NOT FOUND, status {status}'}", flush=True)
    return is_well


def main() -> int:
    words = sys.argv[1:]
    if words[:1] == ["--faults"]:
        found = [is_found(fault) for fault in words[1:] or names_of_faults()]
        print(f"{sum(found)} of {len(found)} found")
        return 0 if all(found) else 1
    if words[:1] == ["--night"]:
        seeds, events, *first = words[1:] or NIGHT
        return spread(int(first[0]) if first else 1, int(seeds), [events])
    if words[:1] == ["--unproved"]:
        status, out = try_out(words[1:] or LONG)
    elif not words:
        for fault in names_of_faults():
            plant(repo.TOP, fault)
        return spread(int(SHORT[0]), int(SHORT[1]), SHORT[2:])
    else:
        status, out = play(words)
    print(out, end="")
    return status


if __name__ == "__main__":
    sys.exit(main())
