"""A release's version: what must agree with it, and how a release is cut."""
import os
import re
import subprocess
import textwrap
from collections.abc import Iterator

from tools import repo
from tools.repo import TOP
from tools.version import CONSTANTS, FILE, Build, build_said, constant

CHANGES = "CHANGELOG.md"
# What the programs are compiled from, besides the kit.
COMPILED = ("crates", "crates.txt", "HANDLES")
# The version of a release, and the suffix of a version that isn't released yet.
RELEASED = r"(?:0|[1-9]\d*)\.(?:0|[1-9]\d*)\.(?:0|[1-9]\d*)"
UNRELEASED = "-dev"
# How a page or a file names a package, an image or a description of one version.
NAMED = re.compile(r'(lra-coordinator[-_:]|VERSION=|"version": ")(\d+\.\d+\.\d+)')
NAMING = ("*.md", "docs/*.md", "docs/*.json", "deploy/**/*")
# nginx's file, which must also stand in the file for Kubernetes as the value of a key, indented this far.
SHARED, INTO, INSIDE = "deploy/lra.conf.template", "deploy/kubernetes.yaml", "    "


def git(*words: str) -> str:
    """Runs git, and returns what it prints without the last newline."""
    ran = subprocess.run(["git", *words], cwd=TOP, stdout=subprocess.PIPE, text=True)
    if ran.returncode:
        raise SystemExit(f"release: git {' '.join(words)} ended with {ran.returncode}")
    return ran.stdout.rstrip("\n")


def is_released(build: Build) -> bool:
    return not build.version.endswith(UNRELEASED)


def kit_here() -> str:
    """Returns how the installed kit describes itself; its name comes first."""
    return subprocess.run(["rt", "version"], stdout=subprocess.PIPE, text=True).stdout.strip()


def sections() -> list[str]:
    """Returns the versions in CHANGELOG.md, the newest first: its headings of the second level begin with them."""
    return re.findall(r"^## \[?v?([^\s\]]+)", repo.read(CHANGES), re.M) if os.path.exists(f"{TOP}/{CHANGES}") else []


def is_in_history(commit: str) -> bool:
    words = ["git", "merge-base", "--is-ancestor", commit, "HEAD"]
    return subprocess.run(words, cwd=TOP, stderr=subprocess.DEVNULL).returncode == 0


def with_values(text: str, values: dict[str, str]) -> str:
    """Returns the source text with other values for its constants."""
    for name, value in values.items():
        found = constant(name, text)
        text = text[:found.start(2)] + value + text[found.end(2):]
    return text


def changed_since(commit: str) -> list[str]:
    """Returns the files that the programs are compiled from and that differ from those of a commit, ignoring the
    constants."""
    changed = git("diff", "--name-only", commit, "HEAD", "--", *COMPILED).split("\n")
    none = dict.fromkeys(CONSTANTS, "")
    was, now = (with_values(git("show", f"{which}:{FILE}"), none) for which in (commit, "HEAD"))
    return [path for path in changed if path not in ("", FILE) or path == FILE and was != now]


def named() -> Iterator[tuple[str, str]]:
    """Yields each page or file that names a version, with that version."""
    for path in [path for pattern in NAMING for path in repo.files(pattern)]:
        if path != CHANGES and os.path.isfile(f"{TOP}/{path}"):
            for _, found in NAMED.findall(repo.read(path)):
                yield path, found


def misfits() -> Iterator[str]:
    """Yields a sentence for each thing that doesn't agree with the version."""
    build = build_said()
    number = build.version.removesuffix(UNRELEASED)
    if not re.fullmatch(RELEASED, number):
        yield f"{build.version} isn't a version like 1.2.3 or 1.2.3{UNRELEASED}"
    newest = "".join(sections()[:1])
    if newest not in (build.version, number):
        yield f"the first section of {CHANGES} is for {newest or 'no version'}, not for {build.version}"
    for path, other in dict.fromkeys(named()):
        if other != number:
            yield f"{path} names {other}, not {number}"
    if is_released(build) and is_in_history(build.commit):
        for path in changed_since(build.commit):
            yield f"{path} differs from {build.commit}, from which {number} was cut"
    if textwrap.indent(repo.read(SHARED), INSIDE) not in repo.read(INTO):
        yield f"{INTO} doesn't have the text of {SHARED}"


def cut(number: str) -> None:
    """Writes the version of a release that is cut from the current commit."""
    if not re.fullmatch(RELEASED, number):
        raise SystemExit(f"release: {number} isn't a version like 1.2.3")
    if number not in sections():
        raise SystemExit(f"release: {CHANGES} has no section for {number}")
    put_version(number, VERSION=number, COMMIT=git("rev-parse", "HEAD"), KIT=kit_here().split(" ")[0])


def go_on(number: str) -> None:
    """Writes the version for the work after a release, which will become this version."""
    if not re.fullmatch(RELEASED, number):
        raise SystemExit(f"release: {number} isn't a version like 1.2.3")
    put_version(number, VERSION=f"{number}{UNRELEASED}", COMMIT="unknown")


def put_version(number: str, **values: str) -> None:
    """Gives the constants other values, and writes the number into the pages and files that name one."""
    repo.write(FILE, with_values(repo.read(FILE), values))
    for path in {path for path, other in named() if other != number}:
        repo.write(path, NAMED.sub(rf"\g<1>{number}", repo.read(path)))
