#!/usr/bin/env python3
"""Checks that the Python programs share one namespace: python3 tests/room.py. No two files define the same top-level
name, nothing runs on import, no program imports another, and no line is longer than 120 columns. Exits with 1 if that
isn't so. Uses only the standard library."""
import ast
import os
import sys
from collections import defaultdict

sys.path.insert(0, os.path.dirname(os.path.dirname(os.path.abspath(__file__))))
from tools import checks, repo

FOLDERS = ("tools", "demo", "docs", "tests", "benches")
# Files that newcomers read and copy: each stands alone.
ALONE = {"demo/participant.py", "demo/mail.py"}
WIDTH = 120
DEFINITIONS = (ast.FunctionDef, ast.ClassDef)


def programs() -> dict[str, ast.Module]:
    """Returns each file with its syntax tree."""
    paths = [path for folder in FOLDERS for path in repo.files(f"{folder}/**/*.py")]
    return {path: ast.parse(repo.read(path)) for path in paths}


def is_main(statement: ast.stmt) -> bool:
    """Whether a statement runs the program, or says where its tools are."""
    text = ast.unparse(statement)
    return text.startswith(("if __name__ == '__main__':", "sys.path.insert(0, "))


def runs_on_import(statement: ast.stmt) -> bool:
    """Whether a statement at the top level does more than define a name."""
    named = (*DEFINITIONS, ast.Import, ast.ImportFrom, ast.Assign, ast.AnnAssign)
    is_docstring = isinstance(statement, ast.Expr) and isinstance(statement.value, ast.Constant)
    return not (isinstance(statement, named) or is_docstring or is_main(statement))


def imported(statement: ast.stmt) -> list[str]:
    """Returns the modules that an import names."""
    if isinstance(statement, ast.ImportFrom):
        return [f"{statement.module}.{name.name}" for name in statement.names] + [statement.module or ""]
    return [name.name for name in statement.names] if isinstance(statement, ast.Import) else []


class TestRoom(checks.Checked):
    def setUp(self) -> None:
        super().setUp()
        self.programs = programs()

    def test_names(self) -> None:
        """Each name is defined once, except `main`, which each program has."""
        places: dict[str, list[str]] = defaultdict(list)
        for path, module in self.programs.items():
            if path not in ALONE:
                for statement in module.body:
                    if isinstance(statement, DEFINITIONS) and statement.name != "main":
                        places[statement.name].append(path)
        twice = {name: paths for name, paths in places.items() if len(paths) > 1}
        self.check(f"each of {len(places)} names is defined once", not twice, twice)

    def test_imports(self) -> None:
        """Nothing runs on import, and only tools are imported."""
        for path, module in self.programs.items():
            if path not in ALONE:
                first = next((ast.unparse(statement) for statement in module.body if runs_on_import(statement)), None)
                self.check(f"{path} runs nothing on import", first is None, first)
        ours = {path.removesuffix(".py").replace("/", ".") for path in self.programs if not path.startswith("tools/")}
        # (tests/coordinator.py imports this one to test its argument handling without a build)
        ours.remove("demo.start")
        for path, module in self.programs.items():
            names = {name for statement in module.body for name in imported(statement)}
            self.check(f"{path} imports no program", not names & ours, names & ours)

    def test_width(self) -> None:
        for path in self.programs.keys() - {"demo/participant.py"}:
            wide = [number for number, line in enumerate(repo.read(path).split("\n"), 1) if len(line) > WIDTH]
            self.check(f"{path} has no line over {WIDTH} columns", not wide, wide)


if __name__ == "__main__":
    sys.exit(checks.run(TestRoom))
