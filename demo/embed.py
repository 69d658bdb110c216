#!/usr/bin/env python3
"""Writes the operators' page into the code: python3 demo/embed.py makes crates/wire_operators/src/page.rt from
demo/watch.html, minified. With --check it only checks that the file is up to date. Uses only the standard library."""
import os
import sys

sys.path.insert(0, os.path.dirname(os.path.dirname(os.path.abspath(__file__))))
from tools import repo
from tools.page import PAGE, squeeze

CODE = "crates/wire_operators/src/page.rt"
HEAD = """\
// The page for operators. demo/embed.py writes this of demo/watch.html.

/// The page, in HTML.
pub(crate) const PAGE: &str = "\\
"""


def literal() -> str:
    """Returns the text of the file. A line of the page ends with \\n, and the literal goes on in the next line."""
    lines = squeeze(repo.read(PAGE)).replace("\\", "\\\\").replace('"', '\\"').splitlines()
    return HEAD + "".join(f"{line}\\n\\\n" for line in lines) + '";\n'


def main() -> int:
    if "--check" not in sys.argv[1:]:
        repo.write(CODE, literal())
    elif repo.read(CODE) != literal():
        print(f"{CODE} is not as demo/embed.py writes it", file=sys.stderr)
        return 1
    return 0


if __name__ == "__main__":
    sys.exit(main())
