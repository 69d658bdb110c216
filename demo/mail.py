#!/usr/bin/env python3
"""A mail service that is notified of what became of LRAs: python3 demo/mail.py PORT

It takes the coordinator's calls to an `after` link, such as http://127.0.0.1:PORT/mail, prints a line for each LRA and
answers 200. So it can also stand in for a listener that is gone for good, whose LRA can't be purged until it has
answered. Uses only the standard library."""
import http.server
import io
import sys
import threading
from collections.abc import Callable


class Mail:
    """Listens at a port, and passes each LRA of which it is notified, with its status, to `hear`. It ignores a repeated
    call."""

    def __init__(self, port: int, hear: Callable[[str, str], object]) -> None:
        self.link = f"http://127.0.0.1:{port}/mail"
        self.known: dict[str, str] = {}
        mail = self

        class Handler(http.server.BaseHTTPRequestHandler):
            def do_PUT(self) -> None:
                lra = self.headers.get("Long-Running-Action-Ended", "").removeprefix("urn:uuid:")
                status = self.rfile.read(int(self.headers.get("Content-Length", 0))).decode()
                if mail.known.get(lra) != status:
                    mail.known[lra] = status
                    hear(lra, status)
                self.send_response(200)
                self.send_header("Content-Length", "0")
                self.end_headers()

            def log_message(self, *words: object) -> None:
                pass

        self.server = http.server.ThreadingHTTPServer(("127.0.0.1", port), Handler)
        threading.Thread(target=self.server.serve_forever, args=(0.05,), daemon=True).start()


def main() -> None:
    if len(sys.argv) != 2 or not sys.argv[1].isdecimal():
        raise SystemExit("usage: python3 demo/mail.py PORT")
    if isinstance(sys.stdout, io.TextIOWrapper):
        sys.stdout.reconfigure(line_buffering=True)
    mail = Mail(int(sys.argv[1]), lambda lra, status: print(f"{lra} is {status}"))
    print(f"Listening at {mail.link}; stop with Ctrl-C")
    try:
        threading.Event().wait()
    except KeyboardInterrupt:
        pass


if __name__ == "__main__":
    main()
