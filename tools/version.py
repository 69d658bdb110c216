"""Which build the programs say they are: the constants of crates/program_args/src/version.rt."""
import re
import typing

from tools import repo

FILE = "crates/program_args/src/version.rt"
CONSTANTS = ("VERSION", "COMMIT", "KIT")


class Build(typing.NamedTuple):
    """The version, the commit that its crates are from, and the kit that proved them."""
    version: str
    commit: str
    kit: str

    def line(self, program: str) -> str:
        """Returns what a program answers to --version."""
        return f"{program} {self.version}, commit {self.commit}, {self.kit}\n"


def constant(name: str, text: str) -> re.Match[str]:
    """Finds a constant in the source: the text before its value, and the value."""
    return repo.found(rf'(pub const {name}: &str =\s*")([^"]*)";', text)


def build_said() -> Build:
    """Returns the build that the constants describe."""
    text = repo.read(FILE)
    return Build(*(constant(name, text)[2] for name in CONSTANTS))
