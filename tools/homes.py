"""Full homes, pulls of the largest frame that they produce, and what the kernel says of a process's memory."""
import subprocess
import threading
import time

from tools.node import Nodes

NODES, LRAS, PARTICIPANTS = 8, 256, 32
# A link of the greatest length.
LINK = "http://p/" + "a" * 118
# A pull of everything.
BODY = bytes([NODES]) + bytes(8 * NODES)
PULL = f"POST /peer/pull HTTP/1.1\r\nHost: peer\r\nContent-Length: {len(BODY)}\r\n\r\n".encode() + BODY


def fill_home(nodes: Nodes, node: int, participants: int, links: dict[str, str]) -> None:
    """Begins as many LRAs at a home as it holds, each with this many participants."""
    for _ in range(LRAS):
        lra = nodes.begin(node)
        for _ in range(participants):
            nodes.join(node, lra, **links)


def fill_homes(nodes: Nodes, participants: int, links: dict[str, str]) -> None:
    """Fills the homes of all nodes, and waits until every node shows all LRAs."""
    homes = range(1, len(nodes.ports) + 1)
    threads = [threading.Thread(target=fill_home, args=(nodes, node, participants, links)) for node in homes]
    for thread in threads:
        thread.start()
    for thread in threads:
        thread.join()
    while any(len(nodes.shown(node)) < len(homes) * LRAS for node in homes):
        time.sleep(1)


def fill_wholly(nodes: Nodes) -> None:
    """Fills homes with as many participants as are allowed, whose links are as long as is allowed, and waits until the
    runs end that store all this."""
    began = time.time()
    fill_homes(nodes, PARTICIPANTS, dict.fromkeys(("compensate", "complete", "status", "forget"), LINK))
    print(f"{NODES} homes filled in {time.time() - began:.0f} s", flush=True)
    time.sleep(20)


def forget_most(process: subprocess.Popen) -> None:
    """Makes the kernel reset the peak memory of a process."""
    with open(f"/proc/{process.pid}/clear_refs", "w", encoding="utf-8") as file:
        file.write("5")
