"""Measures pulls of the largest frame that full homes produce, from the server, with its resident memory before, at
most and after, as Linux's /proc has it. `benches/run.py pull` runs this after its program. pull.py SERVER"""
import os
import sys
import tempfile
import time

sys.path.insert(0, os.path.dirname(os.path.dirname(os.path.abspath(__file__))))
from tools import checks
from tools.homes import NODES, PULL, fill_wholly, forget_most
from tools.node import Server, exchange, memory_of


def main() -> int:
    if len(sys.argv) != 2:
        print(__doc__, file=sys.stderr)
        return 2
    Server.program = os.path.abspath(sys.argv[1])
    checks.need(Server)
    with tempfile.TemporaryDirectory(dir=".") as folder:
        with Server(NODES, folder, stderr=None) as server:
            fill_wholly(server)
            for _ in range(3):
                before = memory_of(server.process, "VmRSS")
                forget_most(server.process)
                began = time.time()
                count = len(exchange(server.address(1), PULL))
                spent = time.time() - began
                most, after = memory_of(server.process), memory_of(server.process, "VmRSS")
                memory = f"MiB before {before:.1f}, at most {most:.1f}, after {after:.1f}"
                print(f"{count} bytes in {spent * 1000:.0f} ms; {memory}", flush=True)
                time.sleep(2)
            server.end()
        with Server(NODES, folder, stderr=None) as server:
            time.sleep(45)
            now, most = memory_of(server.process, "VmRSS"), memory_of(server.process)
            print(f"after a start over such journals: MiB {now:.1f}, at most {most:.1f}")
            server.end()
    return 0


if __name__ == "__main__":
    sys.exit(main())
