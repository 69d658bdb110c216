"""A fresh Debian 12 in a folder, with a network of its own, in which a package can be installed as root."""
import contextlib
import os
import subprocess
import tempfile
import types

MIRROR = "http://deb.debian.org/debian"
# Runs a command in a root, with system folders that are mounted only for it.
ENTER = """
root=$1
shift
mount -t proc proc "$root/proc" && mount -t devpts -o newinstance,ptmxmode=0666 devpts "$root/dev/pts" &&
ln -sf pts/ptmx "$root/dev/ptmx" && exec chroot "$root" "$@"
"""
QUIET = {"DEBIAN_FRONTEND": "noninteractive", "LC_ALL": "C.UTF-8", "PATH": "/usr/sbin:/usr/bin:/sbin:/bin"}


def kept_root(more: str = "") -> str:
    """Returns an archive of a fresh root, perhaps with more packages. It is made once, over the network from Debian."""
    path = f"{tempfile.gettempdir()}/lra-debian-12{'-' if more else ''}{more.replace(',', '-')}.tar"
    if not os.path.exists(path):
        words = ["mmdebstrap", "--quiet", "--variant=minbase", *([f"--include={more}"] if more else [])]
        subprocess.run([*words, "bookworm", f"{path}.part.tar", MIRROR], check=True)
        os.rename(f"{path}.part.tar", path)
    return path


class Debian:
    """A root, and a network that nothing else uses. Both are removed at the end."""

    def __init__(self) -> None:
        self.files = contextlib.ExitStack()
        self.folder = self.files.enter_context(tempfile.TemporaryDirectory())
        os.chmod(self.folder, 0o755)
        self.network = f"lra-{os.getpid()}"

    def __enter__(self) -> "Debian":
        subprocess.run(["tar", "-xf", kept_root(), "-C", self.folder], check=True)
        subprocess.run(["ip", "netns", "add", self.network], check=True)
        self.files.callback(subprocess.run, ["ip", "netns", "delete", self.network])
        subprocess.run(self.beside("ip", "link", "set", "lo", "up"), check=True)
        return self

    def __exit__(self, *_: type[BaseException] | BaseException | types.TracebackType | None) -> None:
        self.files.close()

    def beside(self, *words: str) -> list[str]:
        """Returns a command line that runs on this system, in the network of the root."""
        return ["ip", "netns", "exec", self.network, *words]

    def inside(self, *words: str, user: str = "root") -> list[str]:
        """Returns a command line that runs in the root and its network, as one of its users."""
        who = [] if user == "root" else ["setpriv", f"--reuid={user}", f"--regid={user}", "--clear-groups"]
        entered = ["unshare", "--mount", "--pid", "--fork", "--kill-child", "sh", "-c", ENTER, "sh", self.folder]
        return self.beside(*entered, *who, *words)

    def run(self, *words: str, given: str = "") -> subprocess.CompletedProcess[str]:
        """Runs a command in the root."""
        return subprocess.run(self.inside(*words), input=given, stdout=subprocess.PIPE, stderr=subprocess.STDOUT,
                              text=True, env=QUIET)

    def apt(self, *words: str) -> subprocess.CompletedProcess[str]:
        """Runs apt-get, which keeps configuration files that were changed."""
        keeps = [f"-oDpkg::Options::=--force-{what}" for what in ("confdef", "confold")]
        return self.run("apt-get", "-y", "-qq", *keeps, *words)

    def path(self, path: str) -> str:
        """Returns where a path of the root is on this system."""
        return f"{self.folder}/{path.lstrip('/')}"

    def stat(self, path: str) -> str:
        """Returns the owner, the group and the mode of a file."""
        return self.run("stat", "-c", "%U:%G %a", path).stdout.strip()
