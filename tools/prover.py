"""How to call the kit's prover for a crate of this repository, over the libraries below it."""
import os
import sys
from collections.abc import Iterable, Mapping

from tools.repo import TOP, Crates, below

# For each library, the lowest first: the folder with its build, or `None` if its sources are to be read.
Places = Mapping[str, str | None]


def tops() -> list[str]:
    """Returns the repositories in which built libraries are looked for: those that BUILT names, and this one."""
    return [top for top in [*os.environ.get("BUILT", "").split(":"), TOP] if top]


def built(name: str, among: Iterable[str]) -> str | None:
    """Returns the folder with a library's build, or `None`."""
    for top in among:
        if os.path.isfile(f"{top}/crates/{name}/out/rlib/{name}.rlib/format"):
            return f"{top}/crates/{name}/out/rlib"
    return None


def places(names: Iterable[str], libraries: Crates) -> Places:
    """Returns where each library is taken from. A library above one whose sources are read is read from its sources
    too, and so is each library that SOURCE names."""
    found: dict[str, str | None] = {}
    for name in names:
        is_whole = all(found[used] for used in below(name, libraries))
        is_asked_for = name in os.environ.get("SOURCE", "").split()
        found[name] = built(name, tops()) if is_whole and not is_asked_for else None
    return found


def words(kit: str, name: str, libraries: Crates, found: Places, folder: str | None = None) -> list[str]:
    """Returns the arguments for the prover. The crate stands in crates, or in another folder."""
    read = [library for library, place in found.items() if not place]
    of_kit = {used for crate in [name, *read] for used in libraries[crate] if used not in libraries}
    of_kit |= {"core"} if read else set()
    is_program = os.path.isfile(f"{folder or os.path.join(TOP, 'crates', name)}/src/main.rt")
    given = ["--crate-name", name, "src/main.rt" if is_program else "src/lib.rt", "-L", f"dependency={kit}/rlibs"]
    for library in ["std", *sorted(of_kit)]:
        given += ["--extern", f"{library}={kit}/rlibs/{library}.rlib"]
    for library, place in found.items():
        if not place:
            uses = ",".join(["core", "std", *libraries[library]])
            given += ["--lib", f"{library}:{uses}={TOP}/crates/{library}/src/lib.rt"]
            continue
        given += ["-L", f"dependency={place}"]
        given += ["--extern", f"{library}={place}/{library}.rlib"] if read or library in libraries[name] else []
    project, logic = f"{kit}/rattle/logic/antt-project.json", f"{kit}/logic_built"
    return [*given, "--antt-project", project, "--logic-built", logic]


def tell_sources(found: Places) -> None:
    """Prints which libraries are read from their sources."""
    names = [library for library, place in found.items() if not place]
    print(f"sources: {' '.join(names) or 'none'}", file=sys.stderr, flush=True)
