"""Networks of their own on this machine for a test, each with a link to this machine's that can be cut: network namespaces of
Linux's, with a pair of virtual Ethernet devices.

Only the superuser can make them. They are gone with the `with` block.
"""
import os
import shutil
import subprocess
from typing import List


def _ip(*words: str, check: bool = True) -> bool:
    return subprocess.run(["ip", *words], capture_output=True, check=check).returncode == 0


def are_there() -> bool:
    """Whether this machine lets networks and links be made."""
    name = f"trial{os.getpid()}"
    if os.geteuid() != 0 or not shutil.which("ip") or not _ip("netns", "add", name, check=False):
        return False
    has_links = _ip("link", "add", f"{name}a", "type", "veth", "peer", "name", f"{name}b", check=False)
    if has_links:
        _ip("link", "del", f"{name}a")
    _ip("netns", "del", name)
    return has_links


class Network:
    """A network with one machine's address in it. `words` before a command run it there; `here` is this machine's address as
    seen from there, `there` the other way."""

    def __init__(self, number: int) -> None:
        self._name, self._link = f"net{number}p{os.getpid()}", f"v{number}p{os.getpid()}"
        self.here, self.there = f"10.213.{number}.1", f"10.213.{number}.2"
        self.words: List[str] = ["ip", "netns", "exec", self._name]

    def __enter__(self) -> "Network":
        try:
            _ip("netns", "add", self._name)
            _ip("link", "add", self._link, "type", "veth", "peer", "name", "eth0", "netns", self._name)
            _ip("addr", "add", f"{self.here}/24", "dev", self._link)
            _ip("link", "set", self._link, "up")
            for words in (["addr", "add", f"{self.there}/24", "dev", "eth0"], ["link", "set", "eth0", "up"], ["link", "set", "lo", "up"]):
                _ip("-n", self._name, *words)
        except BaseException:
            self.__exit__()
            raise
        return self

    def cut(self) -> None:
        """Takes the link down: what is sent is lost from now on, and no side is told."""
        _ip("link", "set", self._link, "down")

    def mend(self) -> None:
        """Takes the link up again."""
        _ip("link", "set", self._link, "up")

    def __exit__(self, *_: object) -> None:
        _ip("link", "del", self._link, check=False)
        _ip("netns", "del", self._name, check=False)
