#!/usr/bin/env python3
"""Tests the proxies of docs/OPERATING.md: python3 tests/proxies.py [PROGRAM]. Two members reach each other only through
proxies, with TLS and certificates on both sides, and three nodes have one name, also with deploy/lra.conf.template. The
test makes the certificates with openssl; the proxies are nginx. Without these two programs it is skipped.

PROGRAM is crates/lra_node/out/lra_node, or --unproved (tools/unproved.py). Each check prints a line. Exits with 1 if a
check fails."""
import http.client
import os
import re
import shutil
import socket
import ssl
import struct
import subprocess
import sys
import threading
import unittest
from collections.abc import Iterable

sys.path.insert(0, os.path.dirname(os.path.dirname(os.path.abspath(__file__))))
from tools import checks, repo, unproved
from tools.node import Group, Json, ask, comes_to, exchange, home_of, request, wait_for
from tools.ports import HOST, free_row

HAS_BOTH = bool(shutil.which("nginx") and shutil.which("openssl"))

# What stands around the servers in a configuration file.
AROUND = """
pid {folder}/nginx.pid;
error_log {folder}/error.log;
events {{}}
http {{
    access_log off;
    client_body_temp_path {folder}/body;
    proxy_temp_path {folder}/proxied;
    fastcgi_temp_path {folder}/f; uwsgi_temp_path {folder}/u; scgi_temp_path {folder}/s;
{servers}
}}
"""

SERVERS = """
    server {{
        listen 127.0.0.1:{inward} ssl;
        ssl_certificate {folder}/member.crt;
        ssl_certificate_key {folder}/member.key;
        ssl_client_certificate {folder}/ca.crt;
        ssl_verify_client on;
        location = /peer/pull {{ proxy_pass http://127.0.0.1:{own}; proxy_http_version 1.1; }}
        location / {{ return 404; }}
    }}
    server {{
        listen 127.0.0.1:{outward};
        location = /peer/pull {{
            proxy_pass https://127.0.0.1:{theirs};
            proxy_http_version 1.1;
            proxy_ssl_certificate {folder}/member.crt;
            proxy_ssl_certificate_key {folder}/member.key;
            proxy_ssl_trusted_certificate {folder}/ca.crt;
            proxy_ssl_verify on;
            proxy_ssl_name member;
        }}
    }}
"""


def openssl(*words: str) -> None:
    subprocess.run(["openssl", *words], check=True, stdin=subprocess.DEVNULL, stdout=subprocess.DEVNULL,
                   stderr=subprocess.DEVNULL)


def authority(folder: str) -> None:
    """Makes a certificate authority."""
    openssl("req", "-x509", "-newkey", "rsa:2048", "-nodes", "-days", "2", "-subj", "/CN=ca",
            "-keyout", f"{folder}/ca.key", "-out", f"{folder}/ca.crt")


def certificate(folder: str, to: str) -> None:
    """Makes a member's certificate, signed by the authority of a folder."""
    openssl("req", "-newkey", "rsa:2048", "-nodes", "-subj", "/CN=member", "-addext", "subjectAltName=DNS:member",
            "-keyout", f"{to}/member.key", "-out", f"{to}/member.csr")
    openssl("x509", "-req", "-days", "2", "-in", f"{to}/member.csr", "-CA", f"{folder}/ca.crt",
            "-CAkey", f"{folder}/ca.key", "-CAcreateserial", "-copy_extensions", "copy", "-out", f"{to}/member.crt")


class Nginx:
    """An nginx with some servers, whose files lie in a folder."""

    def __init__(self, folder: str, servers: str) -> None:
        repo.write(f"{folder}/nginx.conf", AROUND.format(folder=folder, servers=servers))
        words = ["nginx", "-p", folder, "-c", f"{folder}/nginx.conf", "-e", f"{folder}/error.log", "-g", "daemon off;"]
        self.process = subprocess.Popen(words, stdin=subprocess.DEVNULL)

    def end(self) -> None:
        self.process.terminate()
        self.process.wait(60)


class Behind(Group):
    """Two members, each of which finds the other at its own proxy's outward port."""

    def __init__(self, count: int, folder: str, *options: str) -> None:
        super().__init__(count, folder, *options)
        self.inward, self.outward = free_row(count), free_row(count)

    def addresses_for(self, number: int) -> list[str]:
        ways = [port if node == number else self.outward[number - 1] for node, port in enumerate(self.ports, 1)]
        return [f"{HOST}:{port}" for port in ways]

    def servers(self, number: int, folder: str) -> str:
        """Returns the servers of the proxy beside a member."""
        own, other = number - 1, 2 - number
        return SERVERS.format(folder=folder, own=self.ports[own], inward=self.inward[own], outward=self.outward[own],
                              theirs=self.inward[other])


class Pods(Group):
    """Members as in a cluster: each at an address of its own, all at the same port."""

    def __init__(self, count: int, folder: str, *options: str) -> None:
        super().__init__(count, folder, *options)
        self.port = self.ports[0]
        self.hosts = [f"127.0.1.{number}" for number in range(1, count + 1)]
        self.addresses = [f"{host}:{self.port}" for host in self.hosts]

    def address(self, node: int) -> tuple[str, int]:
        return self.hosts[node - 1], self.port

    def is_reached(self, node: int) -> bool:
        with socket.socket() as probe:
            return probe.connect_ex(self.address(node)) == 0

    def run(self, number: int, options: Iterable[str] | None = None, word: str | None = None) -> None:
        given = self.options if options is None else options
        super().run(number, [f"listen={self.addresses[number - 1]}", *given], word)


class Names:
    """A DNS server that tells nginx which addresses names have."""

    def __init__(self, addresses: dict[str, list[str]]) -> None:
        self.addresses = addresses
        self.socket = socket.socket(socket.AF_INET, socket.SOCK_DGRAM)
        self.socket.bind((HOST, 0))
        self.port = self.socket.getsockname()[1]
        threading.Thread(target=self.serve, daemon=True).start()

    def serve(self) -> None:
        while True:
            question, client = self.socket.recvfrom(512)
            self.socket.sendto(self.answer(question), client)

    def answer(self, question: bytes) -> bytes:
        """Returns the answer to a query for the addresses of a name, which are valid for a second."""
        labels, place = [], 12
        while question[place]:
            labels.append(question[place + 1: place + 1 + question[place]].decode())
            place += 1 + question[place]
        found = self.addresses.get(".".join(labels), [])
        head = question[:2] + struct.pack(">HHHHH", 0x8180 if found else 0x8183, 1, len(found), 0, 0)
        record = struct.pack(">HHHIH", 0xC00C, 1, 1, 1, 4)
        return head + question[12: place + 5] + b"".join(record + socket.inet_aton(one) for one in found)


def template_file(front: int, names: int, port: int) -> str:
    """Returns deploy/lra.conf.template with what nginx's image fills in: the members' names, at one port, and the DNS
    server."""
    text = repo.read("deploy/lra.conf.template").replace("listen 8080;", f"listen {HOST}:{front};")
    text = text.replace("${NGINX_LOCAL_RESOLVERS}", f"{HOST}:{names}").replace("${ANY_NODE}", f"any.example:{port}")
    return re.sub(r"\$\{NODE_(\d)\}", rf"node-\1.example:{port}", text)


def told_over_tls(port: int, folder: str | None = None) -> str:
    """Sends an empty pull to a proxy, with the certificate of a folder or with none, and returns the body of the
    answer, if one comes."""
    context = ssl.SSLContext(ssl.PROTOCOL_TLS_CLIENT)
    context.check_hostname = False
    context.verify_mode = ssl.CERT_NONE
    if folder:
        context.load_cert_chain(f"{folder}/member.crt", f"{folder}/member.key")
    connection = http.client.HTTPSConnection(HOST, port, context=context, timeout=20)
    try:
        connection.request("POST", "/peer/pull", b"")
        return connection.getresponse().read().decode()
    except (OSError, http.client.HTTPException):
        return ""
    finally:
        connection.close()


def one_name_file(front: int, ports: list[int]) -> str:
    """Returns the file of docs/OPERATING.md that gives three nodes one name, with other ports."""
    text = repo.read("docs/OPERATING.md")
    text = text[text.index("upstream each_in_turn"):]
    text = text[: text.index("```")].replace("listen 80;", f"listen {HOST}:{front};")
    for i, port in enumerate(ports):
        text = text.replace(f"{HOST}:{8070 + i}", f"{HOST}:{port}")
    return text


@unittest.skipUnless(HAS_BOTH, "nginx or openssl is missing")
class TestProxies(checks.Checked):
    needs = (Group,)

    def setUp(self) -> None:
        super().setUp()
        os.chmod(self.folder, 0o755)

    def nginx(self, folder: str, servers: str) -> None:
        """Starts an nginx that ends with the test."""
        self.addCleanup(Nginx(folder, servers).end)

    def test_members(self) -> None:
        """Two members reach each other only through proxies."""
        group = self.group(2, kind=Behind)
        folders = {number: self.folder_in(f"proxy-{number}") for number in (1, 2)}
        other, stranger = self.folder_in("other"), self.folder_in("stranger")
        authority(self.folder)
        authority(other)
        for number, folder in folders.items():
            certificate(self.folder, folder)
            shutil.copy(f"{self.folder}/ca.crt", folder)
            self.nginx(folder, group.servers(number, folder))
        certificate(other, stranger)
        group.start()
        for port in (*group.inward, *group.outward):
            wait_for(port, 60)
        self.are_members(group)
        self.refuses_strangers(group, folders[2], stranger)
        for number in (1, 2):
            self.check(f"node {number} logs nothing", group.log(number) == "", group.log(number))
        group.end()

    def are_members(self, group: Group) -> None:
        """Checks that new facts come through."""
        shown = [group.comes_to(3 - node, group.begin(node), "Active") for node in (1, 2) for _ in range(3)]
        self.check("each shows what the other begins", None not in shown, shown)
        lra = group.begin(1)
        group.finish(1, lra)
        self.check("it shows what the other closes", group.comes_to(2, lra, "Closed") is not None)

    def refuses_strangers(self, group: Behind, folder: str, stranger: str) -> None:
        """Checks that nobody else comes through the first proxy."""
        inward = group.inward[0]
        for what, who in (("no certificate", None), ("one of another authority", stranger)):
            seen = told_over_tls(inward, who)
            self.check(f"a proxy refuses a client with {what}", "SSL certificate" in seen and "E16" not in seen, seen)
        seen = told_over_tls(inward, folder)
        what = "a client with a member's certificate gets the member's answer: an empty body isn't a pull"
        self.check(what, "E16 BadFrame 0" in seen, seen)
        plain = self.pulled(inward)
        self.check("a client without TLS is refused", b"400" in plain, plain)

    def pulled(self, port: int) -> bytes:
        """Sends an empty pull without TLS, and returns the first line of the answer."""
        pull = b"POST /peer/pull HTTP/1.1\r\nHost: a\r\nContent-Length: 0\r\nConnection: close\r\n\r\n"
        return exchange((HOST, port), pull).split(b"\r\n")[0]

    def test_one_name(self) -> None:
        """Three nodes of one process stand behind one nginx."""
        group, front = self.group(3, "keep=600000"), free_row(1)[0]
        group.start(1, word="1-3")
        self.nginx(self.folder, one_name_file(front, group.ports))
        for port in (*group.ports, front):
            wait_for(port, 60)
        begun = [ask(front, "POST", "/lra", {})[1]["lra"] for _ in range(6)]
        homes = sorted(map(home_of, begun))
        self.check("begins go to the nodes in turn", homes == [1, 1, 2, 2, 3, 3], homes)
        for lra in begun:
            self.goes_home(front, lra)
        all_of = comes_to(10, lambda: len(ask(front, "GET", "/lra")[1]["lras"]) == 12)
        self.check("a page has all LRAs", all_of)
        line = self.pulled(front)
        self.check("pulls aren't forwarded by that name", b" 404 " in line, line)
        group.end()

    def test_a_node_is_down(self) -> None:
        """One of three nodes behind one nginx is down: a client that begins doesn't notice, and nothing is begun
        twice."""
        group, front = self.group(3), free_row(1)[0]
        group.start()
        self.nginx(self.folder, one_name_file(front, group.ports))
        wait_for(front, 60)
        group.kill(2)
        answers = [ask(front, "POST", "/lra", {}) for _ in range(12)]
        codes = [code for code, _ in answers]
        self.check("each begin is answered by another node", codes == [201] * 12, codes)
        begun = {body["lra"] for code, body in answers if code == 201}
        self.check("each is made once", comes_to(10, lambda: self.held(group.ports[0]) == begun), begun)
        group.end(1, 3)

    def test_template(self) -> None:
        """Three members stand behind the nginx of deploy/, which looks up their names."""
        group, front = self.group(3, kind=Pods), free_row(1)[0]
        group.start()
        names = {f"node-{number}.example": [host] for number, host in enumerate(group.hosts, 1)}
        asked = Names({**names, "any.example": group.hosts})
        self.nginx(self.folder, template_file(front, asked.port, group.port))
        wait_for(front, 60)
        begun = [ask(front, "POST", "/lra", {})[1]["lra"] for _ in range(12)]
        self.check("begins go to several nodes", len(set(map(home_of, begun))) > 1, begun)
        for lra in {home_of(lra): lra for lra in begun}.values():
            self.goes_home(front, lra)
        self.same("a begin at a node", 2, home_of(ask(front, "POST", "/node/2/lra", {})[1]["lra"]))
        line = self.pulled(front)
        self.check("pulls aren't forwarded by that name", b" 404 " in line, line)
        group.kill(2)
        codes = [ask(front, "POST", "/lra", {})[0] for _ in range(12)]
        self.check("each begin is answered while one node is down", codes == [201] * 12, codes)
        # A pod that is started anew has another address.
        asked.addresses["node-2.example"] = ["127.0.1.9"]
        group.hosts[1] = "127.0.1.9"
        group.addresses[1] = f"127.0.1.9:{group.port}"
        group.start(2)
        lra = next(lra for lra in begun if home_of(lra) == 2)
        # (nginx's own answer isn't JSON)
        shown = comes_to(20, lambda: request((HOST, front), "GET", f"/lra/{lra}").status == 200)
        self.check("a node with a new address is found there", shown)
        # If no node is ready, the common name has no address.
        asked.addresses["any.example"] = []
        at_first = comes_to(20, lambda: {home_of(ask(front, "POST", "/lra", {})[1]["lra"]) for _ in range(6)} == {1})
        self.check("begins go to the first node if none is ready", at_first)
        group.end()

    def held(self, port: int) -> set[str]:
        """Returns all LRAs that a node shows on its first page."""
        return {lra["lra"] for lra in ask(port, "GET", "/lra")[1]["lras"]}

    def goes_home(self, front: int, lra: str) -> None:
        """Checks that calls for an LRA, made to the common name, reach its home."""

        def called(method: str, path: str, body: Json = None) -> tuple[int, Json]:
            return ask(front, method, path, body)

        joined = called("PUT", f"/lra/{lra}/join", {"compensate": f"http://{HOST}:9/c"})
        nested = called("POST", f"/node/{home_of(lra)}/lra", {"parent": lra})
        others = (lra.upper(), lra.replace("-", ""), f"urn:uuid:{lra}", "{" + lra + "}")
        spelled = [called("GET", f"/lra/{other}")[0] for other in others]
        shown = request((HOST, front), "GET", joined[1]["recovery"])
        closed = called("PUT", f"/lra/{lra}/close")
        codes = joined[0], nested[0], spelled, shown.status, closed[0]
        self.check(f"calls for {lra[14:18]} reach its home", codes == (200, 201, [200] * 4, 200, 200), codes)


def main() -> int:
    if len(sys.argv) > 1:
        Group.program = unproved.program_of(sys.argv[1])
    if HAS_BOTH:
        checks.need(Group)
    return checks.run(TestProxies)


if __name__ == "__main__":
    sys.exit(main())
