"""The repository: its files, its crates, and the kit that proves them."""
import glob
import os
import re
import shutil
import subprocess

TOP = os.path.dirname(os.path.dirname(os.path.abspath(__file__)))
# The head of a function: the indentation of its line, and its name.
FUNCTION = re.compile(r"(\s*)(?:pub(?:\([a-z]+\))? )?(?:const )?fn (\w+)")
# What a copy of the crates doesn't need in order to be compiled without proofs.
UNNEEDED = ("out", "must-fail", "proofs", "specs")

# Each crate in the order of crates.txt, with the libraries that it uses, including those of the kit.
Crates = dict[str, list[str]]


def read(path: str) -> str:
    """Reads the text of a file. A path that isn't absolute is relative to the top."""
    with open(os.path.join(TOP, path), encoding="utf-8") as file:
        return file.read()


def write(path: str, text: str) -> None:
    """Writes a file. A path that isn't absolute is relative to the top."""
    with open(os.path.join(TOP, path), "w", encoding="utf-8") as file:
        file.write(text)


def found(pattern: str, text: str, flags: int = 0) -> re.Match[str]:
    """Finds a pattern that must be there."""
    match = re.search(pattern, text, flags)
    if not match:
        raise SystemExit(f"{pattern!r} is missing where it has to be")
    return match


def files(pattern: str) -> list[str]:
    """Returns the files that match a pattern, by their paths from the top, in order."""
    return sorted(glob.glob(pattern, root_dir=TOP, recursive=True))


def sources(crate: str) -> list[str]:
    """Returns the files of a crate's code, by their paths from the top, in order."""
    return files(f"crates/{crate}/src/**/*.rt")


def crates(top: str = TOP) -> Crates:
    """Returns the crates that crates.txt lists."""
    found: Crates = {}
    for line in read(f"{top}/crates.txt").splitlines():
        name, colon, uses = line.partition("#")[0].partition(":")
        if colon:
            found[name.split()[0]] = uses.split()
    return found


def below(name: str, libraries: Crates) -> list[str]:
    """Returns the crates of the repository below a crate, the lowest first."""
    found: list[str] = []
    for used in libraries[name]:
        if used in libraries:
            found += [one for one in [*below(used, libraries), used] if one not in found]
    return found


def program(name: str, top: str = TOP) -> str:
    """Returns where a crate's proved program lies, once it is built."""
    return f"{top}/crates/{name}/out/{name}"


def kit_pages() -> str:
    """Returns where the kit has its pages, as rt prints it."""
    return subprocess.run(["rt", "doc"], stdout=subprocess.PIPE, text=True).stdout


def kit() -> str:
    """Returns the folder of the kit."""
    pages = kit_pages().strip()
    if not pages:
        raise SystemExit("rt doc doesn't say where the kit is")
    return os.path.dirname(pages)


def copy_crates(folder: str) -> None:
    """Makes a repository in a folder, with the crates, but without their builds and proofs."""
    shutil.copytree(f"{TOP}/crates", f"{folder}/crates", ignore=shutil.ignore_patterns(*UNNEEDED))
    for file in ("crates.txt", "HANDLES"):
        shutil.copyfile(f"{TOP}/{file}", f"{folder}/{file}")
    subprocess.run(["git", "init", "-q", folder], check=True)


def add_crate(folder: str, name: str, texts: dict[str, str], uses: str) -> str:
    """Adds a crate to such a copy: its files under src with their texts, and its line of crates.txt. Returns the
    crate's folder."""
    crate = f"{folder}/crates/{name}"
    for file, text in texts.items():
        path = f"{crate}/src/{file}"
        os.makedirs(os.path.dirname(path), exist_ok=True)
        write(path, text)
    with open(f"{folder}/crates.txt", "a", encoding="utf-8") as listed:
        listed.write(f"{name}: {uses}\n")
    return crate
