#!/usr/bin/env python3
"""Makes a release's packages: python3 tools/release.py [--gate FILE] [--unproved] [OUT]

They are written to release/, or to OUT, and only from what the gate passed and built: this runs `rt ci` at the top,
unless FILE has what the gate has just printed in this very tree, as `.ci/run | tee /tmp/gate` leaves it. It refuses a
tree that differs from the commit, a kit that the version doesn't name, and crates or programs that aren't those of the
commit from which the release was cut.

The same commit, kit and programs give the same bytes with the same Debian tools: every time stamp is the commit's.

--unproved packs the unproved builds (tools/unproved.py), to try the packages; nothing is proved then.

python3 tools/release.py cut X.Y.Z writes the version of a release that is cut from the current commit. Commit that
before the gate. python3 tools/release.py next X.Y.Z writes that the work after a release will become X.Y.Z: run it with
the first change of a crate. python3 tools/release.py check prints what doesn't agree with the version, and then exits
with 1.

Uses only the standard library, dpkg-deb and binutils."""
import hashlib
import os
import re
import subprocess
import sys

sys.path.insert(0, os.path.dirname(os.path.dirname(os.path.abspath(__file__))))
from tools import cuts, packages, repo, unproved
from tools.builds import text_sum
from tools.cuts import git
from tools.packages import NAME, PROGRAMS, Release
from tools.repo import TOP
from tools.version import Build, build_said

PASSED = r"(\d+) passed, 0 failed"
# The programs that print the commit that they are from.
TELLING = ("lra_node", "lra_gateway")
NO_TEXT = "The kit has no licence text of its own for these of its parts:"


def refuse(why: str) -> None:
    raise SystemExit(f"release: {why}")


def need_release(said: Build, kit: str) -> None:
    """Exits unless this tree and this kit are those of a release."""
    changed = git("status", "--porcelain", "--untracked-files=all")
    if changed:
        refuse(f"the tree differs from the commit:\n{changed}")
    if not cuts.is_released(said):
        refuse(f"{said.version} isn't a release: python3 tools/release.py cut X.Y.Z makes it one")
    if kit.split(" ")[0] != said.kit:
        refuse(f"the version names {said.kit}, but the kit here is {kit}")
    if not cuts.is_in_history(said.commit):
        refuse(f"{said.commit}, from which {said.version} was cut, isn't in this history")
    for wrong in cuts.misfits():
        refuse(wrong)


def last_line(file: str | None) -> str:
    """Returns the gate's last line. Runs the gate, unless a file has its output; then no source or program may be
    newer."""
    if file is None:
        text = ""
        with subprocess.Popen(["rt", "ci"], cwd=TOP, stdout=subprocess.PIPE, text=True) as gate:
            for line in gate.stdout or ():
                print(line, end="", flush=True)
                text += line
        if gate.returncode:
            refuse(f"rt ci ended with {gate.returncode}")
    else:
        text, told = repo.read(os.path.abspath(file)), os.path.getmtime(file)
        if told < int(git("log", "-1", "--format=%ct")):
            refuse(f"{file} is older than the commit")
        # (sources are newer if another commit was checked out meanwhile)
        for path in [*map(repo.program, PROGRAMS), *git("ls-files", "--", *cuts.COMPILED).split("\n")]:
            path = os.path.join(TOP, path)
            if os.path.exists(path) and os.path.getmtime(path) > told:
                refuse(f"{path} is newer than {file}: the gate didn't see it, or didn't leave it")
    for program in map(repo.program, PROGRAMS):
        if not os.path.exists(program):
            refuse(f"{program} isn't there: the gate builds it")
    last = text.rstrip("\n").split("\n")[-1]
    passed, least = re.fullmatch(PASSED, last), len(repo.crates())
    if not passed or int(passed[1]) < least:
        refuse(f"the gate's last line isn't 'N passed, 0 failed', with {least} or more, but {last!r}")
    return last


def parts_linked(kit: str) -> list[str]:
    """Returns the parts of the kit that are linked in: those that the crates use, and those below them."""
    ours = repo.crates()
    left = [used for name in PROGRAMS for crate in [*repo.below(name, ours), name] for used in ours[crate]]
    found: set[str] = set()
    while left:
        name = left.pop()
        if name not in found and name not in ours:
            found.add(name)
            with open(f"{kit}/rlibs/{name}.rlib/format", encoding="utf-8", errors="replace") as file:
                left += re.findall(r"^dep (\S+)", file.read(), re.M)
    return sorted(found)


def licences(kit: str) -> dict[str, str]:
    """Returns the licence texts of the linked parts, by paths, and a list of the parts that have none."""
    made, without = {}, []
    for name in parts_linked(kit):
        folder = f"{kit}/rattle/{name}"
        texts = sorted(file for file in os.listdir(folder) if file.startswith(("LICENSE", "NOTICE", "COPYING")))
        made |= {f"licences/{name}/{file}": repo.read(f"{folder}/{file}") for file in texts}
        without += [] if texts else [name]
    return made | {"licences/README": "\n".join([NO_TEXT, *without, ""])}


def sums_of(programs: dict[str, bytes]) -> list[str]:
    return [f"    {hashlib.sha256(data).hexdigest()}  {name}" for name, data in programs.items()]


def proof(said: Build, kit: str, gate: str, built: dict[str, bytes], packed: dict[str, bytes]) -> str:
    """Returns the text of the file PROVED."""
    lines = [f"version   {said.version}", f"commit    {git('rev-parse', 'HEAD')}", f"cut from  {said.commit}",
             f"kit       {kit}", f"gate      {gate}", f"tree      {git('rev-parse', 'HEAD^{tree}')}",
             f"sources   {text_sum()}", "", "SHA-256 of the programs here:", *sums_of(packed), "",
             "As the gate left them, before strip:", *sums_of(built), "",
             "The gate is `rt ci` of that kit, at the top of that commit. It proved all, and left the programs.",
             "The sum of the sources is text_sum of tools/builds.py.", ""]
    return "\n".join(lines)


def gather(is_proved: bool, gate_file: str | None) -> Release:
    """Gathers what is packed."""
    said, kit, time = build_said(), cuts.kit_here(), int(git("log", "-1", "--format=%ct"))
    if not is_proved:
        paths = {name: f"{os.path.dirname(unproved.compiled(name))}/program" for name in PROGRAMS}
        packed = {name: packages.stripped(path) for name, path in paths.items()}
        number = f"{said.version.removesuffix(cuts.UNRELEASED)}~unproved"
        return Release(number, time, packed, licences(repo.kit()), level=1)
    need_release(said, kit)
    head, gate = git("rev-parse", "HEAD"), last_line(gate_file)
    # The gate takes hours, so something may have changed meanwhile.
    if git("rev-parse", "HEAD") != head:
        refuse(f"another commit came while the gate ran over {head}")
    need_release(said, kit)
    built = {name: packages.bytes_at(repo.program(name)) for name in PROGRAMS}
    for name in TELLING:
        if said.commit.encode() not in built[name]:
            refuse(f"{name} isn't of {said.commit}, from which {said.version} was cut: the gate has to build it anew")
    packed = {name: packages.stripped(repo.program(name)) for name in PROGRAMS}
    texts = {**licences(repo.kit()), "PROVED": proof(said, kit, gate, built, packed)}
    return Release(said.version, time, packed, texts)


def write_all(release: Release, out: str) -> None:
    """Writes the packages into a folder, and their checksums."""
    os.makedirs(out, exist_ok=True)
    top = f"{NAME}-{release.version}-linux-x86_64"
    names = [f"{top}.tar.gz", f"{NAME}_{release.version}_amd64.deb"]
    packages.write_archive(f"{out}/{names[0]}", packages.archive(release), top, release)
    packages.write_debian(f"{out}/{names[1]}", release)
    made = {name: packages.bytes_at(os.path.abspath(f"{out}/{name}")) for name in names}
    sums = [f"{hashlib.sha256(data).hexdigest()}  {name}\n" for name, data in made.items()]
    repo.write(os.path.abspath(f"{out}/SHA256SUMS"), "".join(sums))
    for name, data in made.items():
        print(f"{len(data):>10}  {out}/{name}")


def check() -> int:
    wrong = list(cuts.misfits())
    for line in wrong:
        print(f"release: {line}")
    return 1 if wrong else 0


def main(words: list[str]) -> int:
    if words == ["check"]:
        return check()
    steps = {"cut": cuts.cut, "next": cuts.go_on}
    if len(words) == 2 and words[0] in steps:
        steps[words[0]](words[1])
        return 0
    gate, is_proved = None, True
    while words and words[0].startswith("-"):
        word, *words = words
        if word == "--gate" and words:
            gate, *words = words
        elif word == "--unproved":
            is_proved = False
        else:
            raise SystemExit(__doc__)
    if len(words) > 1:
        raise SystemExit(__doc__)
    write_all(gather(is_proved, gate), words[0] if words else f"{TOP}/release")
    return 0


if __name__ == "__main__":
    sys.exit(main(sys.argv[1:]))
