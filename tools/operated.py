"""Members that each have an operators' port."""
from collections.abc import Iterable

from tools import metrics, shapes
from tools.node import Answer, Group, Json, request
from tools.ports import HOST, free_row

# Samples by name and labels, without the label for the node.
Samples = dict[tuple[str, ...], float]


class Operated(Group):
    """A group whose nodes each have an operators' port."""

    def __init__(self, count: int, folder: str, *options: str) -> None:
        super().__init__(count, folder, *options)
        self.doors = free_row(count)

    def run(self, number: int, options: Iterable[str] | None = None, word: str | None = None) -> None:
        given = self.options if options is None else options
        super().run(number, [f"operate={HOST}:{self.doors[number - 1]}", *given], word)

    def at(self, node: int, path: str, method: str = "GET") -> Answer:
        """Makes a request at a node's operators' port."""
        return request((HOST, self.doors[node - 1]), method, path)

    def told(self, node: int, path: str, method: str = "GET") -> tuple[int, Json]:
        """Makes such a request, and returns the status and the JSON of the answer."""
        answer = self.at(node, path, method)
        return answer.status, answer.json()

    def calls(self, node: int) -> list[Json]:
        """Returns a node's calls that haven't been answered yet."""
        return self.told(node, "/calls")[1]["calls"]

    def record(self, node: int, lra: str) -> Json:
        """Returns everything that a node holds of an LRA."""
        return self.told(node, f"/lra/{lra}")[1]

    def refused(self, node: int, path: str, method: str = "GET") -> tuple[int, str]:
        """Makes such a request, and returns the status and the text of the answer."""
        answer = self.at(node, path, method)
        return answer.status, answer.text

    def samples(self, node: int) -> Samples:
        """Returns the metrics of a node."""
        found = metrics.samples(self.at(node, "/metrics").text)
        return {(name, *sorted(f"{key}={value}" for key, value in labels.items() if key != "node")): value
                for name, rows in found.items() for labels, value in rows}

    def all_of(self, node: int, path: str) -> list[Json]:
        """Returns all rows of a list, page by page."""
        rows: list[Json] = []
        after = None
        while True:
            status, page = self.told(node, path + (f"?after={after}" if after else ""))
            if status != 200:
                raise AssertionError(f"{path}: {status} {page}")
            rows += page["lras"]
            after = page["next"]
            if not after:
                return rows

    def strange_shapes(self, node: int) -> list[str]:
        """Returns where a node's answers don't match docs/operate.json."""
        return shapes.compare(f"http://{HOST}:{self.doors[node - 1]}")
