"""A participant for tests and demonstrations, which answers calls and records them."""
import http.server
import sys
import threading
import time
import typing
from email.message import Message

from tools.ports import HOST

# The answer to a call: a status, perhaps with a body.
Reply = int | tuple[int, bytes]


class Call(typing.NamedTuple):
    """A call: its LRA, whether it reports that LRA's end, its header fields and body, how it was answered, and when it
    came."""

    method: str
    path: str
    lra: str
    is_end: bool
    fields: Message
    body: bytes
    code: int
    at: float


def chunks_of(body: bytes) -> bytes:
    """Returns a body as two chunks, or as one or none if it is too short for two, and the last chunk."""
    pieces = [piece for piece in (body[:3], body[3:]) if piece]
    return b"".join(b"%x\r\n%s\r\n" % (len(piece), piece) for piece in pieces) + b"0\r\n\r\n"


class QuietServer(http.server.ThreadingHTTPServer):
    """An HTTP server that prints nothing about a client that has disconnected."""

    request_queue_size = 256

    def handle_error(self, request: object, client_address: object) -> None:
        if not isinstance(sys.exc_info()[1], OSError):
            super().handle_error(request, client_address)  # type: ignore[arg-type]


class Participant:
    """Listens, answers each call with the entry of `answers` for its path, or with `status` if there is none, and
    records the call once its answer is known. With `in_chunks` it answers as many servers do: the body comes in two
    chunks, and the connection stays open."""

    def __init__(self, port: int = 0, status: int = 200, pause: float = 0, in_chunks: bool = False) -> None:
        self.status, self.pause, self.in_chunks = status, pause, in_chunks
        self.answers: dict[str, Reply] = {}
        self.calls: list[Call] = []
        self.port = port
        self.open()

    def open(self) -> None:
        """Begins to listen at its port, or at a free one, which it keeps from then on."""
        participant = self

        class Handler(http.server.BaseHTTPRequestHandler):
            protocol_version = "HTTP/1.1" if participant.in_chunks else "HTTP/1.0"

            def handle_call(self) -> None:
                body = self.rfile.read(int(self.headers.get("Content-Length") or 0))
                code, text = participant.hear(self.command, self.path, self.headers, body)
                self.send_response(code)
                if not participant.in_chunks:
                    self.send_header("Content-Length", str(len(text)))
                elif code != 204:
                    self.send_header("Transfer-Encoding", "chunked")
                self.end_headers()
                self.wfile.write(text if not participant.in_chunks else b"" if code == 204 else chunks_of(text))

            do_PUT = do_GET = do_POST = do_DELETE = handle_call

            def log_message(self, *words: object) -> None:
                pass

        self.server = QuietServer((HOST, self.port), Handler)
        self.port = self.server.server_port
        self.url = f"http://{HOST}:{self.port}"
        threading.Thread(target=self.server.serve_forever, args=(0.05,), daemon=True).start()

    def close(self) -> None:
        """Closes its port. It can be opened again."""
        self.server.shutdown()
        self.server.server_close()

    def hear(self, method: str, path: str, fields: Message, body: bytes) -> tuple[int, bytes]:
        """Records a call, and answers it after the pause."""
        ended = fields.get("Long-Running-Action-Ended")
        lra = (fields.get("Long-Running-Action") or ended or "").removeprefix("urn:uuid:")
        answer = self.answer(path, lra, fields, body)
        code, text = (answer, b"") if isinstance(answer, int) else answer
        self.calls.append(Call(method, path, lra, bool(ended), fields, body, code, time.monotonic()))
        time.sleep(self.pause)
        return code, text

    def answer(self, path: str, lra: str, fields: Message, body: bytes) -> Reply:
        """Returns the answer to a call. A service overrides this."""
        return self.answers.get(path, self.status)

    def paths(self) -> list[str]:
        """Returns the paths of all calls, in order."""
        return [call.path for call in self.calls]

    def ends(self) -> list[Call]:
        """Returns the calls that report an end, in order."""
        return [call for call in self.calls if call.is_end]

    def made(self, lra: str) -> list[tuple[str, str]]:
        """Returns the methods and paths of an LRA's calls, in order."""
        return [(call.method, call.path) for call in self.calls if call.lra == lra]

    def time_of(self, path: str, code: int) -> float | None:
        """Returns the time of the first call to a path that was answered with this status, or `None`."""
        return next((call.at for call in self.calls if (call.path, call.code) == (path, code)), None)
