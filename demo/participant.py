#!/usr/bin/env python3
"""A participant that prints each call and answers 200: python3 demo/participant.py [PORT [ADDRESS]]. It listens at
127.0.0.1:9001 unless another port, or a port and an address, are given. Uses only the standard library."""
import http.server
import sys


class Participant(http.server.BaseHTTPRequestHandler):
    def do_PUT(self):
        body = self.rfile.read(int(self.headers.get("Content-Length", 0))).decode()
        print(f"{self.command} {self.path} {self.headers.get('Long-Running-Action', '')} {body}".rstrip(), flush=True)
        self.send_response(200)
        # This needs a length, since the coordinator takes no answer in chunks.
        self.send_header("Content-Length", "0")
        self.end_headers()

    do_GET = do_DELETE = do_PUT

    def log_message(self, *words):
        pass


try:
    address = sys.argv[2] if len(sys.argv) > 2 else "127.0.0.1"
    http.server.ThreadingHTTPServer((address, int(sys.argv[1]) if len(sys.argv) > 1 else 9001), Participant).serve_forever()
except KeyboardInterrupt:
    pass
