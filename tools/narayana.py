"""What services with LRA annotations send and answer, byte by byte: what Narayana's client (`NarayanaLRAClient`) sends
over Apache's HTTP client, what its filter (`ServerLRAFilter`) does around a method, and the callback methods."""
import contextlib
import http.client
import socket
import time
import typing
import urllib.parse
from collections.abc import Callable, Iterator
from email.message import Message

from tools.node import SLOW, Answer, comes_to
from tools.participant import Call, Participant, Reply
from tools.ports import HOST

# The HTTP method in the annotation of each callback method. A service gives links to these methods.
ANNOTATIONS = {"compensate": "PUT", "complete": "PUT", "status": "GET", "forget": "DELETE", "after": "PUT",
               "leave": "PUT"}
BEGINNER = "com.example.Trip#book"
AGENT = "Apache-HttpClient/4.5.14 (Java/17.0.9)"


class Declined(Exception):
    """A status that the client takes for an error."""

    def __init__(self, answer: Answer) -> None:
        super().__init__(f"{answer.status} {answer.text}")
        self.code, self.text = answer.status, answer.text


def quoted(text: str) -> str:
    return urllib.parse.quote(text, safe="")


def uid_of(lra: str) -> str:
    """Returns how a client names an LRA in requests: by what stands behind the last slash of its id's path."""
    return urllib.parse.urlsplit(lra).path.rpartition("/")[2]


def head_of(method: str, target: str, host: str, fields: tuple[str, ...] = (), length: int | None = None) -> bytes:
    """Returns the head of a request as the client writes it."""
    stated = () if length is None else (f"Content-Length: {length}",)
    lines = [f"{method} {target} HTTP/1.1", "Narayana-LRA-API-version: 1.0", *fields, *stated, f"Host: {host}",
             "Connection: Keep-Alive", f"User-Agent: {AGENT}", "Accept-Encoding: gzip,deflate"]
    return "\r\n".join([*lines, "", ""]).encode()


def answer_over(line: socket.socket, method: str = "GET") -> Answer:
    """Reads the answer that comes over a connection, up to its stated end."""
    with contextlib.closing(http.client.HTTPResponse(line, method=method)) as response:
        response.begin()
        return Answer(response.status, dict(response.getheaders()), response.read().decode())


class Client:
    """Calls the coordinator at a port. `port` may be set to move to another one."""

    def __init__(self, port: int, seconds: float = SLOW) -> None:
        self.port, self.seconds = port, seconds

    def root(self) -> str:
        return f"http://{HOST}:{self.port}/lra-coordinator"

    def connect(self) -> socket.socket:
        return socket.create_connection((HOST, self.port), self.seconds)

    def send(self, method: str, target: str, body: str | None = None, *fields: str) -> Answer:
        """Makes one request, to a target below the coordinator's path or to a whole path."""
        path = target if target.startswith("/") else f"/lra-coordinator/{target}"
        content = (body or "").encode()
        typed = ("Content-Type: text/plain",) if method == "PUT" else ()
        length = None if body is None else len(content)
        with self.connect() as line:
            line.sendall(head_of(method, path, f"{HOST}:{self.port}", (*typed, *fields), length) + content)
            return answer_over(line, method)

    def start(self, parent: str = "", limit: int = 0) -> str:
        """Begins an LRA, and returns its id."""
        query = f"ClientID={quoted(BEGINNER)}&TimeLimit={limit}&ParentLRA={quoted(parent)}"
        answer = self.send("POST", f"start?{query}", "")
        if answer.status != 201:
            raise Declined(answer)
        return answer.fields["Long-Running-Action"]

    def join(self, lra: str, link: str, limit: int = 0) -> str:
        """Joins a participant, and returns its recovery URL."""
        answer = self.send("PUT", f"{uid_of(lra)}?TimeLimit={limit}", link, f"Link: {link}")
        if answer.status != 200:
            raise Declined(answer)
        return answer.fields["Long-Running-Action-Recovery"]

    def leave(self, lra: str, link: str) -> None:
        answer = self.send("PUT", f"{uid_of(lra)}/remove", link)
        if answer.status != 200:
            raise Declined(answer)

    def end(self, lra: str, word: str = "close") -> str:
        """Closes or cancels an LRA, and returns the status that it then shows."""
        answer = self.send("PUT", f"{uid_of(lra)}/{word}", "")
        if answer.status not in (200, 202):
            raise Declined(answer)
        return answer.text

    def status(self, lra: str) -> str:
        answer = self.send("GET", f"{uid_of(lra)}/status")
        if answer.status not in (200, 204):
            raise Declined(answer)
        return answer.text or "Active"

    def comes_to(self, lra: str, status: str, seconds: float = 30) -> bool:
        """Waits until an LRA shows this status, and returns whether it did in time."""

        def is_so() -> bool:
            with contextlib.suppress(Declined, OSError, http.client.HTTPException):
                return self.status(lra) == status
            return False

        return comes_to(seconds, is_so)


def code_of(call: Callable[..., object], *words: typing.Any) -> int:
    """Returns the status with which a call is declined, or 0."""
    try:
        call(*words)
    except Declined as declined:
        return declined.code
    return 0


def insist(call: Callable[..., typing.Any], *words: typing.Any, tries: int = 100) -> typing.Any:
    """Returns the result of a call, which is repeated if it is declined with 503 or nothing answers."""
    for turn in range(tries):
        try:
            return call(*words)
        except (Declined, OSError, http.client.HTTPException) as error:
            if turn + 1 == tries or isinstance(error, Declined) and error.code != 503:
                raise
            time.sleep(0.1)


class Annotated(Participant):
    """A service with annotated methods, which are called by its links. Without a script it answers 200 and the id, in
    chunks."""

    def __init__(self, *words: str, root: str = "/trip", **how: typing.Any) -> None:
        self.words = words or ("compensate", "complete")
        self.root = root
        self.scripts: dict[str, list[Reply]] = {}
        super().__init__(**{"in_chunks": True, **how})

    def base(self) -> str:
        return self.url + self.root

    def link(self, package: str = "jakarta") -> str:
        """Returns the links with which it joins, as the client writes them."""
        return ",".join(f'<{self.base()}/{word}?method={package}.ws.rs.{ANNOTATIONS[word]}>; rel="{word}"; '
                        f'title="{word} URI"; type="text/plain"' for word in self.words)

    def say(self, word: str, *replies: Reply) -> None:
        """Scripts the answers to the next calls of a method. All further calls get the last of them."""
        self.scripts[word] = list(replies)

    def answer(self, path: str, lra: str, fields: Message, body: bytes) -> Reply:
        row = self.scripts.get(method_in(path))
        if not row:
            return 200, lra.encode()
        return row.pop(0) if len(row) > 1 else row[0]

    def of(self, word: str) -> list[Call]:
        """Returns the calls of a method, in order."""
        return [call for call in self.calls if method_in(call.path) == word]

    def is_called(self, word: str, times: int = 1, seconds: float = 30) -> bool:
        """Waits until a method has been called this often, and returns whether it was in time."""
        return comes_to(seconds, lambda: len(self.of(word)) >= times)


def method_in(path: str) -> str:
    """Returns the last part of a path, by which a service knows the method."""
    return path.partition("?")[0].rpartition("/")[2]


class Context(typing.NamedTuple):
    """What a service's method finds in its request."""

    lra: str
    recovery: str


# A method, which returns a status.
Body = Callable[[Context], int]


@contextlib.contextmanager
def passing_over(*codes: int) -> Iterator[None]:
    """Ignores it if a call is declined with one of these."""
    try:
        yield
    except Declined as declined:
        if declined.code not in codes:
            raise


def started_for(client: Client, kind: str, incoming: str, limit: int) -> str:
    """Returns the LRA that the filter starts for a method, or an empty string if it starts none."""
    is_new = kind in ("REQUIRES_NEW", "NESTED") or kind == "REQUIRED" and not incoming
    return client.start(incoming if kind == "NESTED" else "", limit) if is_new else ""


def invoke(client: Client, kind: str, service: Annotated, body: Body, incoming: str = "", ends: bool = True,
           limit: int = 0) -> int:
    """Calls a method of a service through the filter, with the type of its LRA, within the LRA of a request. Returns
    its status, or 412 if the filter refuses."""
    if kind == "MANDATORY" and not incoming or kind == "NEVER" and incoming:
        return 412
    started = started_for(client, kind, incoming, limit)
    lra, recovery = started or incoming, ""
    if lra:
        try:
            recovery = client.join(lra, service.link())
        except Declined:
            if started:
                client.end(started, "cancel")
            return 412
    code = body(Context(lra, recovery))
    with passing_over(404):
        if lra and (code >= 500 or ends):
            client.end(lra, "cancel" if code >= 500 else "close")
    return code
