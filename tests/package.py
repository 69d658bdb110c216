#!/usr/bin/env python3
"""Tests the packages of a release, by hand and as root: python3 tests/package.py [--in FOLDER | --unproved] [--gate
FILE] [WORD..]. Uses only the standard library and Debian's tools: mmdebstrap, lintian, systemd, iproute2, curl and
nginx; and docker-compose and python3-kubernetes, if they are installed.

The packages are those in release/, or in FOLDER, which tools/release.py made; --unproved makes some from the unproved
builds. The words are

  install  a fresh Debian 12: README's commands with a node that runs there; an upgrade, a removal, a purge
  systemd  the units under a systemd that is booted in a container (systemd-nspawn)
  files    lintian, systemd-analyze, nginx; the programs accept the arguments in all units and files of deploy/
  image    deploy/Containerfile with buildah, and the image with runc, if these are installed
  release  what tools/release.py refuses, in a copy of this tree with another version and a fake rt
  twice    a second run of tools/release.py gives the same bytes; --gate FILE is passed on to it

Debian is downloaded once, into the temporary folder. Each check prints a line. Exits with 1 if a check fails."""
import filecmp
import glob
import hashlib
import json
import os
import re
import select
import shlex
import shutil
import subprocess
import sys
import tarfile
import typing
import unittest
from collections.abc import Iterator

sys.path.insert(0, os.path.dirname(os.path.dirname(os.path.abspath(__file__))))
from tools import checks, repo
from tools.debian import QUIET, Debian, kept_root
from tools.node import comes_to
from tools.packages import DOCS, NAME, PROGRAMS, UNITS, bytes_at
from tools.quick import printed_by, quick_start
from tools.repo import TOP
from tools.version import FILE

# Where Debian's Python packages are.
SYSTEM = "/usr/lib/python3/dist-packages"
STATE, CONF = "/var/lib/lra", "/etc/lra"
CONFS = ("gateway.conf", "member.conf", "node.conf")
# A fake rt: it names another kit, and has no gate of its own.
ANOTHER_RT = """#!/bin/sh
case "$1" in
version) echo "${{KIT_NAME:-rattle-kit-1}} logic 0" ;;
doc) exec {rt} doc ;;
ci) [ -z "$MEANWHILE" ] || touch "$MEANWHILE"; echo "${{GATE:-99 passed, 0 failed}}" ;;
esac
"""
# The highest exposure that a unit may have, of 100.
MOST_EXPOSED = 20
ADDED = "# added\n"

# The commands that run in a booted system, each with what it must print.
BOOTED = (
    ("apt-get install -y -qq /root/older.deb", r"Setting up"),
    ("systemctl list-units --all --no-legend 'lra*' | wc -l", r"^0$"),
    ("systemctl enable --now lra-node; ask -X POST 127.0.0.1:8070/lra", r'"Active"'),
    ("stat -c '%U:%G %a' /var/lib/lra; id -u lra; awk '/^Uid/ {print $2}' /proc/$(pid lra-node)/status",
     r"^lra:lra 750\n(\d+)\n\1$"),
    ("systemctl kill -s KILL lra-node; sleep 3; ask 127.0.0.1:8070/lra", r'"Active"'),
    ("systemctl show -p NRestarts --value lra-node", r"^1$"),
    ("before=$(pid lra-node); apt-get install -y -qq /root/package.deb; [ $before != $(pid lra-node) ] && echo another",
     r"another$"),
    ("ask 127.0.0.1:8070/lra", r'"Active"'),
    # Without a key the gateway exits with 2, and isn't started again.
    ("systemctl start lra-gateway; sleep 4; systemctl show -p NRestarts -p ExecMainStatus lra-gateway",
     r"NRestarts=0\nExecMainStatus=2"),
    ("echo 127.0.0.1 lra1 lra2 lra3 >>/etc/hosts", r"^$"),
    ("sed -i 's/^NODES=.*/NODES=\"lra1:8070 lra2:8071 lra3:8072\"/' /etc/lra/member.conf", r"^$"),
    ("systemctl start lra-member@1-3; systemctl is-active lra-node", r"^inactive$"),
    ("ask 127.0.0.1:8170/ready", r'"ready":true'),
    ("ask -X POST 127.0.0.1:8070/lra; sleep 3; ask 127.0.0.1:8072/lra", r'"lras":.*-000000000002"'),
    ("/usr/libexec/lra-coordinator/health 127.0.0.1:8172; echo $?", r"^0$"),
    ("/usr/libexec/lra-coordinator/health 127.0.0.1:8173; echo $?", r"^1$"),
    ("sed -i 's|/8170\"|/8170,127.0.0.1:8071/8171,127.0.0.1:8072/8172\"|' /etc/lra/gateway.conf", r"^$"),
    ("sed -i \"s/^LRA_GATEWAY_KEY=/&$(od -An -N32 -tx1 /dev/urandom | tr -d ' \\n')/\" /etc/lra/gateway.conf", r"^$"),
    ("systemctl restart lra-gateway; ask -X POST '127.0.0.1:8080/lra-coordinator/start?ClientID=a'",
     r"^http://127.0.0.1:8080/lra-coordinator/[0-9a-f-]+$"),
    ("before=$(pid lra-member@1-3); dpkg -i /root/package.deb; [ $before != $(pid lra-member@1-3) ] && echo another",
     r"another$"),
    ("systemctl is-active lra-gateway lra-node", r"^active\ninactive$"),
    ("apt-get remove -y -qq lra-coordinator; pgrep -u lra | wc -l", r"\n0$"),
    ("apt-get purge -y -qq lra-coordinator; ls /var/lib/lra; find /etc/systemd /etc/lra -name '*lra*'",
     r"node-1.db\n(.*\n)*.*node-3.db(-wal)?(\nfind: .*)?$"),
)
# What stands around these commands, and shuts the system down after them.
AROUND = """#!/bin/bash
export DEBIAN_FRONTEND=noninteractive LC_ALL=C.UTF-8 PATH=/usr/sbin:/usr/bin:/sbin:/bin
ask() {{ curl -s -m 300 --retry 300 --retry-delay 1 --retry-connrefused "$@"; }}
pid() {{ systemctl show -p MainPID --value "$1"; }}
{lines}
systemctl poweroff --no-block
"""
UNIT = """[Service]
Type=oneshot
ExecStart=/bin/bash /root/lines
"""


class Given:
    """The options of the command line: where the packages are, and how they are made once more."""

    folder = f"{TOP}/release"
    again: tuple[str, ...] = ()

    @classmethod
    def package(cls) -> str:
        """Returns the path of the Debian package."""
        found = glob.glob(f"{cls.folder}/{NAME}_*_amd64.deb")
        if len(found) != 1:
            raise SystemExit(f"tools/release.py has to make exactly one package in {cls.folder}, which has {found}")
        return found[0]


def older(package: str, folder: str) -> str:
    """Returns the same package with a lower version, and with other conf files."""
    tree, made = f"{folder}/older", f"{folder}/older.deb"
    subprocess.run(["dpkg-deb", "-R", package, tree], check=True)
    control = repo.read(f"{tree}/DEBIAN/control")
    repo.write(f"{tree}/DEBIAN/control", re.sub(r"(?m)^Version: .*$", "Version: 0.0.1", control))
    for name in CONFS:
        repo.write(f"{tree}/etc/lra/{name}", f"# older\n{repo.read(f'{tree}/etc/lra/{name}')}")
    words = ["dpkg-deb", "--root-owner-group", "-Znone", "-b", tree, made]
    subprocess.run(words, check=True, stdout=subprocess.DEVNULL)
    return made


# How long each of these tests takes, and what it needs.
LONG = "some minutes, as root, with Debian's network"


class TestPackage(checks.Checked):
    takes = LONG

    def install(self, debian: Debian, package: str) -> None:
        """Installs a package."""
        shutil.copyfile(package, debian.path("/root/package.deb"))
        ran = debian.apt("install", "/root/package.deb")
        self.check(f"{os.path.basename(package)} is installed", ran.returncode == 0, ran.stdout)

    def test_install(self) -> None:
        package = Given.package()
        with Debian() as debian:
            self.install(debian, older(package, self.folder))
            self.same("the journals' folder", "lra:lra 750", debian.stat(STATE))
            self.same("the file with the key", "root:lra 640", debian.stat(f"{CONF}/gateway.conf"))
            enabled = debian.run("find", "/etc/systemd", "-name", "*lra*").stdout
            self.same("no unit is enabled", "", enabled)
            lra = self.quick_start(debian)
            with open(debian.path(f"{CONF}/node.conf"), "a", encoding="utf-8") as file:
                file.write(ADDED)
            self.upgrade(debian, package, lra)
            self.removal(debian, package)

    def serve(self, debian: Debian) -> subprocess.Popen[str]:
        """Starts the nodes as README does, as the user lra in the root."""
        start = quick_start()
        words = ["lra_node", "serve", str(start.nodes), str(start.port), STATE]
        server = subprocess.Popen(debian.inside(*words, user="lra"), stdin=subprocess.PIPE, text=True, env=QUIET)
        self.addCleanup(server.kill)
        url = f"127.0.0.1:{start.port + start.nodes - 1}/lra"
        waits = ["curl", "-s", "--retry", "60", "--retry-delay", "1", "--retry-connrefused", url]
        subprocess.run(debian.beside(*waits), stdout=subprocess.DEVNULL, check=True)
        return server

    def ended(self, server: subprocess.Popen[str]) -> int:
        """Ends the nodes by closing their input, and returns the exit status."""
        server.communicate()
        return server.returncode

    def quick_start(self, debian: Debian) -> str:
        """Runs README's commands, and returns the path of the LRA that was closed."""
        server, start = self.serve(debian), quick_start()
        participant = subprocess.Popen(debian.beside(*start.command), cwd=TOP, stdout=subprocess.PIPE, text=True)
        shell = subprocess.Popen(debian.beside("sh"), stdin=subprocess.PIPE, stdout=subprocess.PIPE, text=True,
                                 bufsize=1)
        assert participant.stdout
        try:
            printed_by(shell, "curl -s --retry 9 --retry-connrefused 127.0.0.1:9001", "")
            participant.stdout.readline()
            for line, wanted in start.steps:
                if line:
                    self.same(line, wanted or "", printed_by(shell, line, wanted or ""))
                    continue
                is_told = select.select([participant.stdout], [], [], 60)[0]
                seen = participant.stdout.readline().strip() if is_told else "nothing"
                self.same("the participant's line", wanted, seen)
            lra = printed_by(shell, "echo $L", "")
        finally:
            participant.kill()
            shell.communicate()
            participant.communicate()
        self.same("the nodes end when their input does", 0, self.ended(server))
        return lra

    def upgrade(self, debian: Debian, package: str, lra: str) -> None:
        """Another version keeps the journals, and the configuration files that were changed."""
        before = repo.read(debian.path(f"{CONF}/member.conf"))
        self.install(debian, package)
        self.check("a changed file stays", repo.read(debian.path(f"{CONF}/node.conf")).endswith(ADDED))
        after = repo.read(debian.path(f"{CONF}/member.conf"))
        self.same("an unchanged file is replaced by the new one", before.removeprefix("# older\n"), after)
        self.same("the file with the key", "root:lra 640", debian.stat(f"{CONF}/gateway.conf"))
        server = self.serve(debian)
        port = quick_start().port
        seen = subprocess.run(debian.beside("curl", "-s", f"127.0.0.1:{port}/{lra}"), stdout=subprocess.PIPE, text=True)
        self.check("the LRA is in the journal", '"Closed"' in seen.stdout, seen.stdout)
        self.same("the nodes end", 0, self.ended(server))

    def removal(self, debian: Debian, package: str) -> None:
        """A removal keeps settings and journals. A purge keeps only journals, unless they are to be purged too."""
        journals = [debian.path(f"{STATE}/node-{node}.db") for node in range(1, quick_start().nodes + 1)]
        ran = debian.apt("remove", NAME)
        is_gone = ran.returncode == 0 and not os.path.exists(debian.path("usr/bin/lra_node"))
        self.check("it is removed", is_gone, ran.stdout)
        self.check("its settings stay", os.path.exists(debian.path(f"{CONF}/node.conf")))
        self.check("its journals stay", all(map(os.path.exists, journals)))
        ran = debian.apt("purge", NAME)
        self.check("it is purged", ran.returncode == 0 and not os.path.exists(debian.path(CONF)), ran.stdout)
        is_said = STATE in ran.stdout and all(map(os.path.exists, journals))
        self.check("its journals stay, and the purge says so", is_said, ran.stdout)
        self.install(debian, package)
        debian.run("debconf-set-selections", given=f"{NAME} {NAME}/purge_journals boolean true\n")
        ran = debian.apt("purge", NAME)
        is_gone = ran.returncode == 0 and not os.path.exists(debian.path(STATE))
        self.check("if told to, it purges them too", is_gone, ran.stdout)
        left = debian.run("find", "/", "-xdev", "-name", "*lra[-_]*")
        self.same("nothing is left", "", left.stdout)


def run_lines(words: list[str], **how: typing.Any) -> tuple[int, str]:
    """Runs a tool, and returns its exit status and everything that it prints."""
    ran = subprocess.run(words, stdin=subprocess.DEVNULL, stdout=subprocess.PIPE, stderr=subprocess.STDOUT, text=True,
                         **how)
    return ran.returncode, ran.stdout.strip()


def said_words() -> Iterator[tuple[str, list[str]]]:
    """Yields each command line in the units and files that runs a program, with its words. In a unit, variables from
    its conf file are replaced."""
    for name in UNITS:
        unit = repo.read(f"deploy/systemd/{name}")
        conf = repo.read("deploy/conf/" + repo.found(r"EnvironmentFile=/etc/lra/(.*)", unit)[1])
        values = dict(re.findall(r'^(\w+)="?([^"\n]*)"?$', conf, re.M))
        line = repo.found(r"ExecStart=/usr/bin/(.*)", unit)[1].replace("%i", "2")
        yield name, re.sub(r"\$(\w+)", lambda found: values[found[1]], line).split()
    compose = repo.read("deploy/compose.yaml")
    for line in re.findall(r"command: >-\n\s+(lra_.*\n.*)\n", compose):
        yield "compose.yaml", line.split()
    lines = repo.found(r"exec (lra_node member .*?)\n +ports:", repo.read("deploy/kubernetes.yaml"), re.S)[1].split()
    pod = {**QUIET, "HOSTNAME": "lra-1", "POD_IP": "10.0.0.1"}
    yield "kubernetes.yaml", run_lines(["sh", "-c", f"echo {' '.join(lines)}"], env=pod)[1].split()
    image = repo.read("deploy/Containerfile")
    yield "Containerfile", json.loads(repo.found(r"CMD (\[\"lra_node\", \"member.*\])", image)[1])


class TestSystemd(checks.Checked):
    takes = LONG

    def test_systemd(self) -> None:
        """The units work under a systemd that is booted in a container, with the rights that they give."""
        root, package = self.folder_in("root"), Given.package()
        subprocess.run(["tar", "-xf", kept_root("systemd,systemd-sysv,dbus,curl,procps"), "-C", root], check=True)
        shutil.copyfile(package, f"{root}/root/package.deb")
        shutil.copyfile(older(package, self.folder), f"{root}/root/older.deb")
        lines = "\n".join(f"{{ {line}; }} >/root/said.{number} 2>&1" for number, (line, _) in enumerate(BOOTED))
        repo.write(f"{root}/root/lines", AROUND.format(lines=lines))
        repo.write(f"{root}/etc/systemd/system/lines.service", UNIT)
        wants = self.folder_in("root/etc/systemd/system/default.target.wants")
        os.symlink("../lines.service", f"{wants}/lines.service")
        boot, nothing = ["systemd-nspawn", "--quiet", "--private-network", "-D", root, "--boot"], subprocess.DEVNULL
        # (if no systemd runs outside, the container can't be registered)
        boot += [] if os.path.isdir("/run/systemd/system") else ["--register=no", "--keep-unit"]
        subprocess.run(boot, stdin=nothing, stdout=nothing, stderr=nothing, timeout=900)
        for number, (line, wanted) in enumerate(BOOTED):
            path = f"{root}/root/said.{number}"
            said = repo.read(path).strip() if os.path.exists(path) else "nothing"
            self.check(line, re.search(wanted, said), said)


class TestFiles(checks.Checked):
    takes = LONG

    def setUp(self) -> None:
        super().setUp()
        self.tree = self.folder_in("tree")
        subprocess.run(["dpkg-deb", "-x", Given.package(), self.tree], check=True)

    def test_files(self) -> None:
        self.same("SHA256SUMS matches", 0, run_lines(["sha256sum", "--check", "SHA256SUMS"], cwd=Given.folder)[0])
        self.links()
        self.programs()
        self.words()
        self.units()
        self.lintian()
        self.nginx()
        self.manifests()

    def links(self) -> None:
        """The pages of both packages link only to files that are there."""
        unpacked = self.folder_in("unpacked")
        archive, = glob.glob(f"{Given.folder}/{NAME}-*.tar.gz")
        subprocess.run(["tar", "-xzf", archive, "-C", unpacked, "--strip-components=1"], check=True)
        for where, top in (("the archive", unpacked), ("the package", f"{self.tree}/{DOCS}")):
            pages = glob.glob(f"{top}/**/*.md", recursive=True)
            linked = [(page, link) for page in pages for link in re.findall(r"\]\(([^)#:\s]+)[)#]", repo.read(page))]
            missing = [f"{os.path.relpath(page, top)} links to {link}" for page, link in linked
                       if not os.path.exists(os.path.join(os.path.dirname(page), link))]
            self.same(f"the {len(pages)} pages of {where} link only to files that are there", [], missing)

    def programs(self) -> None:
        """Both packages have the same programs. PROVED has their checksums, if it is there: unproved packages have
        none."""
        archive, = glob.glob(f"{Given.folder}/{NAME}-*.tar.gz")
        proved = f"{self.tree}/{DOCS}/PROVED"
        told = repo.read(proved) if os.path.exists(proved) else ""
        self.check("PROVED is there unless the packages are unproved", bool(told) != ("~unproved" in archive), archive)
        with tarfile.open(archive) as tar:
            files = {entry.name.partition("/")[2]: entry for entry in tar}
            for name in PROGRAMS:
                data = bytes_at(f"{self.tree}/usr/bin/{name}")
                found = tar.extractfile(files[f"bin/{name}"])
                self.check(f"{name} is the same in both", found and found.read() == data)
                line = f"{hashlib.sha256(data).hexdigest()}  {name}"
                self.check(f"{name} has the checksum in PROVED", not told or line in told, told)

    def words(self) -> None:
        """Each program accepts its arguments: a node looks for its journal, and a gateway runs until its input ends."""
        none = f"{self.folder}/none"
        for where, words in said_words():
            given = [none if word == STATE else word for word in words]
            wanted = (0, "") if words[0] == "lra_gateway" else (1, "journal")
            run = [f"{self.tree}/usr/bin/{given[0]}", *given[1:]]
            status, said = run_lines(["unshare", "--net", "sh", "-c", f"ip link set lo up; exec {shlex.join(run)}"],
                                     env={**QUIET, "LRA_GATEWAY_KEY": "0" * 64})
            self.check(f"{where}: {shlex.join(words)}", status == wanted[0] and wanted[1] in said, (status, said))

    def units(self) -> None:
        """systemd-analyze finds no fault in the units, and a low exposure."""
        units = [f"{self.tree}/lib/systemd/system/{name}" for name in UNITS]
        # The units name programs in /usr/bin, so the programs are put there, where only this tool sees them.
        over = f'mount -t overlay -o "lowerdir={self.tree}/usr:/usr" overlay /usr && exec systemd-analyze verify "$@"'
        seen = run_lines(["unshare", "--mount", "sh", "-c", over, "sh", *units])
        self.same("systemd-analyze verify says nothing", (0, ""), seen)
        for unit in units:
            words = ["systemd-analyze", "security", "--offline=true", f"--threshold={MOST_EXPOSED}", unit]
            status, said = run_lines(words)
            last = said.split("\n")[-1]
            self.check(f"{os.path.basename(unit)}: {last}", status == 0, said)

    def lintian(self) -> None:
        status, said = run_lines(["lintian", "--allow-root", "--fail-on", "error,warning", Given.package()])
        self.check("lintian finds neither errors nor warnings", status == 0, said)

    def nginx(self) -> None:
        """nginx accepts its file, with the names put in."""
        text, folder = repo.read("deploy/lra.conf.template"), self.folder
        text = text.replace("${NGINX_LOCAL_RESOLVERS}", "127.0.0.1")
        text = re.sub(r"\$\{(NODE_\d|ANY_NODE)\}", "node.example:8070", text)
        around = f"pid {folder}/pid; error_log stderr; events {{}}\nhttp {{ access_log off;\n{text}}}\n"
        repo.write(f"{folder}/nginx.conf", around)
        self.check("every variable in lra.conf.template is known", "${" not in text, text)
        status, said = run_lines(["nginx", "-t", "-q", "-c", f"{folder}/nginx.conf"])
        self.check("nginx accepts lra.conf.template", status == 0, said)

    def manifests(self) -> None:
        """The files for compose and for Kubernetes are valid, if there is a tool that reads them."""
        if shutil.which("docker-compose"):
            status, said = run_lines(["docker-compose", "-f", f"{TOP}/deploy/compose.yaml", "config", "-q"])
            self.check("docker-compose accepts compose.yaml", status == 0, said)
        if os.path.isdir(f"{SYSTEM}/kubernetes"):
            status, said = run_lines(["/usr/bin/python3", f"{TOP}/tests/manifests.py"])
            self.check(f"kubernetes.yaml matches Kubernetes' models: {said}", status == 0, said)


class TestImage(checks.Checked):
    """The image of deploy/Containerfile, over a Debian that is made here, so that no registry is needed."""

    takes = LONG

    def buildah(self, *words: str) -> str:
        """Runs buildah, which keeps everything in the test's folder, and returns what it prints."""
        where = ["--root", f"{self.folder}/kept", "--runroot", f"{self.folder}/run", "--storage-driver", "vfs"]
        return subprocess.run(["buildah", *where, *words], stdout=subprocess.PIPE, check=True, text=True,
                              stderr=subprocess.DEVNULL).stdout.strip()

    def runc(self, *words: str) -> tuple[int, str]:
        return run_lines(["runc", "--root", f"{self.folder}/runc", *words], cwd=self.bundle)

    def built(self) -> str:
        """Returns the folder of a container of the image."""
        subprocess.run(["tar", "-xf", kept_root(), "-C", self.buildah("mount", self.buildah("from", "scratch")),
                        "--exclude=./dev/*"], check=True)
        self.buildah("commit", "working-container", "docker.io/library/debian:bookworm-slim")
        version = repo.found(r"_(.*)_", os.path.basename(Given.package()))[1]
        self.buildah("build", "--isolation=chroot", "--pull-never", f"--build-arg=VERSION={version}", "-t", "image",
                     "-f", f"{TOP}/deploy/Containerfile", Given.folder)
        return self.buildah("mount", self.buildah("from", "--pull-never", "localhost/image"))

    def described(self, root: str) -> None:
        """Writes runc's configuration from the image: its user and command line, no capabilities, and a read-only
        root."""
        self.runc("spec")
        said = json.loads(repo.read(f"{self.bundle}/config.json"))
        image = json.loads(self.buildah("inspect", "--type=image", "localhost/image"))["OCIv1"]["config"]
        user, group = map(int, image["User"].split(":"))
        volume = {"destination": STATE, "type": "bind", "source": self.folder_in("volume"), "options": ["rbind", "rw"]}
        os.chown(volume["source"], user, group)
        said["root"] = {"path": root, "readonly": True}
        said["process"] |= {"terminal": False, "user": {"uid": user, "gid": group}, "capabilities": {},
                            "args": [*image["Entrypoint"], *image["Cmd"]], "env": image["Env"]}
        said["mounts"].append(volume)
        repo.write(f"{self.bundle}/config.json", json.dumps(said))

    @unittest.skipUnless(shutil.which("buildah") and shutil.which("runc"), "buildah or runc is missing")
    def test_image(self) -> None:
        self.bundle = self.folder_in("bundle")
        self.described(self.built())
        with open(f"{self.folder}/log", "w", encoding="utf-8") as log:
            subprocess.run(["runc", "--root", f"{self.folder}/runc", "run", "--detach", NAME], cwd=self.bundle,
                           stdin=subprocess.DEVNULL, stdout=log, stderr=log, check=True)
        self.addCleanup(self.runc, "delete", "--force", NAME)
        health = f"/usr/libexec/{NAME}/health"
        self.check("its health check succeeds", comes_to(60, lambda: self.runc("exec", NAME, health)[0] == 0))
        self.same("its journal belongs to its user", 8070, os.stat(f"{self.folder}/volume/node-1.db").st_uid)
        self.runc("kill", NAME, "TERM")
        is_over = comes_to(3, lambda: '"stopped"' in self.runc("state", NAME)[1])
        self.check("it ends at SIGTERM", is_over, repo.read(f"{self.folder}/log"))


class TestRelease(checks.Checked):
    """tools/release.py in a copy of this tree, over the programs of the package."""

    takes = LONG

    def git(self, *words: str) -> None:
        who = ["-c", "user.name=tests", "-c", "user.email=tests@localhost", "-c", "commit.gpgsign=false"]
        subprocess.run(["git", *who, *words], cwd=self.copy, check=True, stdout=subprocess.DEVNULL)

    def commit(self, path: str = "", text: str = "") -> None:
        """Commits everything, after writing a file if one is given."""
        if path:
            repo.write(f"{self.copy}/{path}", text)
        self.git("add", "--all")
        self.git("commit", "-q", "--allow-empty", "-m", "of the test")

    def release(self, *words: str, **environment: str) -> tuple[int, str]:
        """Runs tools/release.py in the copy."""
        path = f"{self.folder}:{os.environ['PATH']}"
        return run_lines([sys.executable, f"{self.copy}/tools/release.py", *words],
                         env={**os.environ, "PATH": path, **environment})

    def refused(self, why: str, *words: str, **environment: str) -> None:
        status, said = self.release(*words, **environment)
        self.check(f"refused: {why}", status == 1 and re.search(why, said), (status, said))

    def copied(self) -> None:
        """Makes a copy with a version that isn't released yet, without `release/` and without builds."""
        self.copy = f"{self.folder}/copy"
        shutil.copytree(TOP, self.copy, ignore=shutil.ignore_patterns(".git", "out", "release", "__pycache__"))
        repo.write(f"{self.folder}/rt", ANOTHER_RT.format(rt=shutil.which("rt")))
        os.chmod(f"{self.folder}/rt", 0o755)
        self.git("init", "-q")
        version = 'pub const VERSION: &str = "{}";\npub const COMMIT: &str = "{}";\npub const KIT: &str = "none";\n'
        repo.write(f"{self.copy}/{FILE}", version.format("0.0.9-dev", "0" * 40))
        self.commit("CHANGELOG.md", "# Changes\n\n## 9.8.7\n\n- Something.\n\n## 0.0.8\n")
        subprocess.run(["dpkg-deb", "-x", Given.package(), f"{self.folder}/tree"], check=True)
        for name in PROGRAMS:
            # (the smallest program stands for all of them, since it is compressed fastest)
            os.makedirs(f"{self.copy}/crates/{name}/out")
            shutil.copyfile(f"{self.folder}/tree/usr/bin/lra_gateway", f"{self.copy}/crates/{name}/out/{name}")

    def test_release(self) -> None:
        self.copied()
        self.refused("isn't a release")
        self.refused("has no section for 9.8.6", "cut", "9.8.6")
        self.refused("isn't a version like", "cut", "9.8")
        self.same("the release is cut", (0, ""), self.release("cut", "9.8.7"))
        self.refused("the tree differs from the commit")
        self.commit()
        self.same("everything agrees", (0, ""), self.release("check"))
        self.refused("the kit here is rattle-kit-2", KIT_NAME="rattle-kit-2")
        self.refused("'99 passed, 1 failed'", GATE="99 passed, 1 failed")
        self.refused("'3 passed, 0 failed'", GATE="3 passed, 0 failed")
        self.refused("lra_node isn't of")
        self.told_commit()
        self.refused("the tree differs from the commit", MEANWHILE=f"{self.copy}/docs/NEW.md")
        os.remove(f"{self.copy}/docs/NEW.md")
        self.gate_of_file()
        source = repo.read(f"{self.copy}/{FILE}")
        self.commit(FILE, f"{source}// more\n")
        self.refused("version.rt differs from")
        self.commit(FILE, source)
        self.commit("crates.txt", "# other\n")
        self.refused("crates.txt differs from")

    def told_commit(self) -> None:
        """Writes the commit that the release is cut from into the programs."""
        told = [repo.found(r'COMMIT: &str =\s*"(.*)"', repo.read(f"{top}/{FILE}"))[1].encode()
                for top in (TOP, self.copy)]
        for name in PROGRAMS:
            path = f"{self.copy}/crates/{name}/out/{name}"
            with open(path, "rb") as file:
                data = file.read().replace(*told)
            with open(path, "wb") as file:
                file.write(data)

    def gate_of_file(self) -> None:
        """If the gate's output is in a file, programs and sources that are newer are refused."""
        gate, program = f"{self.folder}/gate", f"{self.copy}/crates/lra_node/out/lra_node"
        repo.write(gate, "built\n99 passed, 0 failed\n")
        self.same("the packages are made", 0, self.release("--gate", gate, f"{self.folder}/made")[0])
        names = sorted(os.listdir(f"{self.folder}/made"))
        wanted = [f"{NAME}-9.8.7-linux-x86_64.tar.gz", f"{NAME}_9.8.7_amd64.deb", "SHA256SUMS"]
        self.same("their names", sorted(wanted), names)
        with tarfile.open(f"{self.folder}/made/{wanted[0]}") as tar:
            file = tar.extractfile(f"{NAME}-9.8.7-linux-x86_64/PROVED")
            told = file.read().decode() if file else ""
        sum_here = hashlib.sha256(bytes_at(program)).hexdigest()
        self.check("PROVED names the gate and the programs", "99 passed, 0 failed\n" in told and sum_here in told, told)
        os.utime(program, (os.path.getmtime(gate) + 9,) * 2)
        self.refused("is newer than", "--gate", gate)
        os.utime(program, (os.path.getmtime(gate),) * 2)
        os.utime(f"{self.copy}/crates.txt", (os.path.getmtime(gate) + 9,) * 2)
        self.refused("crates.txt is newer than", "--gate", gate)
        os.utime(gate, (1, 1))
        self.refused("is older than the commit", "--gate", gate)
        os.remove(program)
        self.refused("isn't there")


class TestTwice(checks.Checked):
    takes = LONG

    def test_twice(self) -> None:
        """A second run, in another time zone and with another umask, gives the same bytes."""
        another = {**os.environ, "TZ": "Asia/Tokyo", "LC_ALL": "C", "TMPDIR": self.folder_in("room")}
        made = self.folder_in("made")
        words = [sys.executable, f"{TOP}/tools/release.py", *Given.again, made]
        subprocess.run(words, check=True, env=another, umask=0o077)
        names = sorted(os.listdir(made))
        self.check("a run gives three files", len(names) == 3, names)
        equal = filecmp.cmpfiles(Given.folder, made, names, shallow=False)
        self.same("they have the same bytes", (names, [], []), equal)


def main(words: list[str]) -> int:
    while words and words[0].startswith("--"):
        if words[0] == "--unproved":
            Given.again, Given.folder, words = ("--unproved",), f"{TOP}/release/unproved", words[1:]
            subprocess.run([sys.executable, f"{TOP}/tools/release.py", *Given.again, Given.folder], check=True)
        elif words[0] == "--gate" and len(words) > 1:
            Given.again, words = ("--gate", words[1]), words[2:]
        elif words[0] == "--in" and len(words) > 1:
            Given.folder, words = os.path.abspath(words[1]), words[2:]
        else:
            raise SystemExit(__doc__)
    return checks.run(TestPackage, TestSystemd, TestFiles, TestImage, TestRelease, TestTwice, words=words)


if __name__ == "__main__":
    sys.exit(main(sys.argv[1:]))
