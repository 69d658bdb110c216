"""Packages that have the same bytes wherever they are made from the same files: an archive and a Debian package."""
import gzip
import hashlib
import io
import os
import re
import subprocess
import tarfile
import tempfile
import typing
from collections.abc import Iterable

from tools import repo
from tools.repo import TOP

NAME = "lra-coordinator"
PROGRAMS = ("lra_node", "lra_gateway")
# Former names of programs, each with the program that it leads to.
OLD_NAMES = {"lra_member": "lra_node"}
# What a package holds besides the programs, as patterns of paths from the top.
PAGES = ("README.md", "CHANGELOG.md", "CONTRIBUTING.md", "LICENSE", "docs/*.md", "docs/*.json", "benches/README.md",
         "benches/figures.svg", "demo/README.md", "demo/alerts.yaml", "demo/grafana.json", "demo/[Pp]articipant.*",
         "demo/mail.py", "demo/watch.png")
DEPLOYED = ("deploy/Containerfile", "deploy/compose.yaml", "deploy/kubernetes.yaml", "deploy/lra.conf.template",
            "deploy/systemd/*")
UNITS = ("lra-node.service", "lra-member@.service", "lra-gateway.service")
# What each program is for, as its manual page says, and the page that tells more.
MANUAL = {
    "lra_node": ("nodes of an LRA coordinator", "OPERATING"),
    "lra_gateway": ("a gateway to LRA coordinators for services with LRA annotations", "GATEWAY"),
}
DOCS = f"usr/share/doc/{NAME}"
# The libraries that a program may need, with the names of Debian's packages.
LIBRARIES = {"libc.so.6": "libc6", "libm.so.6": "libc6", "libgcc_s.so.1": "libgcc-s1"}


class Member(typing.NamedTuple):
    """A file of a package: its content and its mode; or a link to another file beside it."""

    data: bytes
    mode: int = 0o644
    link: str = ""


# The files of a package, by their paths there.
Files = dict[str, Member]


class Release(typing.NamedTuple):
    """What is packed: the version, its time in seconds, the programs, and texts by their paths; and the compression
    level, from 0 to 9."""

    version: str
    time: int
    programs: dict[str, bytes]
    texts: dict[str, str]
    level: int = 9


def bytes_at(path: str) -> bytes:
    """Reads a file's bytes. A path that isn't absolute is relative to the top."""
    with open(os.path.join(TOP, path), "rb") as file:
        return file.read()


def found_by(pattern: str) -> list[str]:
    """Returns the files that match a pattern. There must be at least one."""
    found = repo.files(pattern)
    if not found:
        raise SystemExit(f"release: there is no {pattern}")
    return found


def put(path: str, member: Member) -> None:
    """Writes a file of a package, and makes its folders."""
    os.makedirs(os.path.dirname(path), exist_ok=True)
    if member.link:
        return os.symlink(member.link, path)
    with open(path, "wb") as file:
        file.write(member.data)
    os.chmod(path, member.mode)


def stripped(path: str) -> bytes:
    """Returns a program without its symbol names, which nobody needs to run it."""
    with tempfile.TemporaryDirectory() as folder:
        made = f"{folder}/program"
        subprocess.run(["strip", "--strip-all", "--remove-section=.comment", "-o", made, path], check=True)
        return bytes_at(made)


def told_by(tool: str, words: list[str], data: bytes) -> str:
    """Returns what a tool prints about a program."""
    with tempfile.NamedTemporaryFile() as file:
        file.write(data)
        file.flush()
        return subprocess.run([tool, *words, file.name], stdout=subprocess.PIPE, check=True, text=True).stdout


def usage_of(data: bytes, *words: str) -> str:
    """Returns the usage that a program prints if its arguments are wrong."""
    with tempfile.TemporaryDirectory() as folder:
        put(f"{folder}/program", Member(data, 0o755))
        said = subprocess.run([f"{folder}/program", *words], stdin=subprocess.DEVNULL, stderr=subprocess.PIPE,
                              text=True)
    if said.returncode != 2 or not said.stderr.startswith("usage: "):
        raise SystemExit(f"release: a program ends with {said.returncode} and doesn't print its usage: {said.stderr!r}")
    return said.stderr.removeprefix("usage: ").strip()


def manual(name: str, release: Release) -> bytes:
    """Returns a program's manual page, made from its own usage."""
    what, page = MANUAL[name]
    data = release.programs[name]
    usages = [usage_of(data), *([usage_of(data, "member")] if name == "lra_node" else [])]
    lines = [line.strip().replace("-", "\\-") for usage in usages for line in usage.splitlines()]
    usage = "\n.br\n".join(lines)
    return f"""\
.TH {name.upper()} 1 "" "{NAME} {release.version}"
.SH NAME
{name} \\- {what}
.SH SYNOPSIS
.ad l
{usage}
.SH DESCRIPTION
The file /{DOCS}/docs/{page}.md describes each argument, and everything that the program does.
The exit status is 0 once standard input has ended, 1 if the program can't start, for example because a port is in use,
and 2 if its arguments are wrong.
""".encode()


def common(release: Release) -> Files:
    """Returns the files that both packages have: pages and everything that they link to, licences, and the proof of the
    release."""
    made = {path: Member(bytes_at(path)) for pattern in (*PAGES, *DEPLOYED) for path in found_by(pattern)}
    made |= {path: Member(text.encode()) for path, text in release.texts.items()}
    return made


def archive(release: Release) -> Files:
    """Returns the files of the archive."""
    made = common(release)
    made |= {f"bin/{name}": Member(data, 0o755) for name, data in release.programs.items()}
    made |= {f"bin/{name}": Member(b"", link=program) for name, program in OLD_NAMES.items()}
    for path in repo.files("deploy/conf/*"):
        made[path] = Member(bytes_at(path))
    for path in repo.files("deploy/container/*"):
        made[path] = Member(bytes_at(path), 0o755)
    return made


def debian(release: Release) -> Files:
    """Returns the files that the Debian package puts into a system."""
    made = {f"{DOCS}/{path}": member for path, member in common(release).items() if path != "LICENSE"}
    made |= {f"usr/bin/{name}": Member(data, 0o755) for name, data in release.programs.items()}
    made |= {f"usr/bin/{name}": Member(b"", link=program) for name, program in OLD_NAMES.items()}
    made |= {f"lib/systemd/system/{name}": Member(bytes_at(f"deploy/systemd/{name}")) for name in UNITS}
    for path in repo.files("deploy/conf/*"):
        made[f"etc/lra/{os.path.basename(path)}"] = Member(bytes_at(path))
    made["etc/lra/gateway.conf"] = Member(bytes_at("deploy/conf/gateway.conf"), 0o640)
    for path in repo.files("deploy/container/*"):
        made[f"usr/libexec/{NAME}/{os.path.basename(path)}"] = Member(bytes_at(path), 0o755)
    for name in release.programs:
        made[f"usr/share/man/man1/{name}.1.gz"] = Member(squeezed(manual(name, release)))
    for name, program in OLD_NAMES.items():
        made[f"usr/share/man/man1/{name}.1.gz"] = Member(b"", link=f"{program}.1.gz")
    made[f"{DOCS}/copyright"] = Member(bytes_at("deploy/debian/copyright"))
    made[f"{DOCS}/changelog.gz"] = Member(squeezed(changes(release)))
    made[f"usr/share/lintian/overrides/{NAME}"] = Member(bytes_at("deploy/debian/overrides"))
    return made


def changes(release: Release) -> bytes:
    """Returns the list of changes in Debian's format, which refers to CHANGELOG.md."""
    date = subprocess.run(["date", "--utc", "--rfc-email", f"--date=@{release.time}"], stdout=subprocess.PIPE,
                          env={**os.environ, "LC_ALL": "C"}, check=True, text=True).stdout.strip()
    maintainer = repo.found(r"^Maintainer: (.*)$", repo.read("deploy/debian/control"), re.M)[1]
    return f"""\
{NAME} ({release.version}) unstable; urgency=medium

  * CHANGELOG.md beside this file lists what is new.

 -- {maintainer}  {date}
""".encode()


def squeezed(data: bytes, level: int = 9) -> bytes:
    """Compresses data with gzip, without a time or a name."""
    made = io.BytesIO()
    with gzip.GzipFile("", "wb", level, made, 0) as file:
        file.write(data)
    return made.getvalue()


def write_archive(path: str, files: Files, top: str, release: Release) -> None:
    """Writes an archive of the files below one folder, with their folders, in order."""
    folders = {f"{top}/{file}".rpartition("/")[0] for file in files}
    for folder in list(folders):
        while "/" in folder:
            folder = folder.rpartition("/")[0]
            folders.add(folder)
    made = io.BytesIO()
    with tarfile.open(fileobj=made, mode="w", format=tarfile.USTAR_FORMAT) as tar:
        for name in sorted(folders | {f"{top}/{file}" for file in files}):
            entry = tarfile.TarInfo(name)
            entry.mtime, entry.uname, entry.gname = release.time, "root", "root"
            member = files.get(name.removeprefix(f"{top}/"))
            if name in folders or member is None:
                entry.type, entry.mode = tarfile.DIRTYPE, 0o755
                tar.addfile(entry)
            elif member.link:
                entry.type, entry.linkname, entry.mode = tarfile.SYMTYPE, member.link, 0o777
                tar.addfile(entry)
            else:
                entry.mode, entry.size = member.mode, len(member.data)
                tar.addfile(entry, io.BytesIO(member.data))
    with open(path, "wb") as file:
        file.write(squeezed(made.getvalue(), release.level))


def needs(programs: Iterable[bytes]) -> str:
    """Returns the Debian packages that programs need: those of their libraries, with the C library at least as new as
    they ask for."""
    said = "".join(told_by("readelf", ["--wide", "--dynamic", "--version-info"], data) for data in programs)
    packages = {LIBRARIES[name] for name in re.findall(r"\(NEEDED\).*\[(.*)\]", said)}
    newest = max(int(number) for number in re.findall(r"\bGLIBC_2\.(\d+)", said))
    return ", ".join(f"{name} (>= 2.{newest})" if name == "libc6" else name for name in sorted(packages))


def control(release: Release, files: Files) -> Files:
    """Returns the files that describe the package to dpkg."""
    size = sum(-(-len(member.data) // 1024) for member in files.values())
    text = repo.read("deploy/debian/control")
    values = {"VERSION": release.version, "SIZE": str(size), "LIBRARIES": needs(release.programs.values())}
    for name, value in values.items():
        text = text.replace(f"@{name}@", value)
    kept = {path: member.data for path, member in files.items() if not member.link}
    sums = "".join(f"{hashlib.md5(data).hexdigest()}  {path}\n" for path, data in sorted(kept.items()))
    made = {"control": Member(text.encode()), "md5sums": Member(sums.encode())}
    for name in ("conffiles", "templates"):
        made[name] = Member(bytes_at(f"deploy/debian/{name}"))
    for name in ("config", "postinst", "prerm", "postrm"):
        made[name] = Member(bytes_at(f"deploy/debian/{name}"), 0o755)
    return made


def write_debian(path: str, release: Release) -> None:
    """Writes a Debian package."""
    files = debian(release)
    files |= {f"DEBIAN/{name}": member for name, member in control(release, files).items()}
    with tempfile.TemporaryDirectory() as folder:
        for name, member in files.items():
            put(f"{folder}/{name}", member)
        for root, _, names in os.walk(folder, topdown=False):
            os.chmod(root, 0o755)
            for each in (*(f"{root}/{name}" for name in names), root):
                os.utime(each, (release.time, release.time), follow_symlinks=False)
        # (xz runs in one thread, since with more threads it writes different bytes)
        words = ["--root-owner-group", "-Zxz", f"-z{release.level}", "--threads-max=1", "--build", folder, path]
        subprocess.run(["dpkg-deb", *words], check=True, stdout=subprocess.DEVNULL,
                       env={**os.environ, "SOURCE_DATE_EPOCH": str(release.time)})
