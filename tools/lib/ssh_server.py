"""A server of ssh on this computer, for this computer alone, with keys and a port of its own: drivers are tried over it as on another computer."""

import collections.abc
import contextlib
import os
import pathlib
import signal
import socket
import subprocess
import time

SERVER = "/usr/sbin/sshd"
SERVES = """ListenAddress 127.0.0.1
Port {port}
HostKey {folder}/host
AuthorizedKeysFile {folder}/user.pub
PidFile none
UsePAM no
StrictModes no
ClientAliveInterval 5
MaxStartups 100
"""
ASKS = """Host *
HostName 127.0.0.1
Port {port}
IdentityFile {folder}/user
UserKnownHostsFile {folder}/known
StrictHostKeyChecking accept-new
BatchMode yes
ServerAliveInterval 5
"""


class Host:
    """What serves, and the words that reach it, behind which a command stands."""

    def __init__(self, server: subprocess.Popen[bytes], asks: pathlib.Path) -> None:
        self.server, self.words = server, f"ssh -F {asks} far"

    def sessions(self) -> list[int]:
        """The processes of the connections, without the commands that they run."""
        parents, names = {}, {}
        for it in pathlib.Path("/proc").glob("[0-9]*"):
            with contextlib.suppress(OSError):
                name, _, rest = (it / "stat").read_text().partition(" (")[2].rpartition(") ")
                names[int(it.name)], parents[int(it.name)] = name, int(rest.split()[1])
        found = {self.server.pid}
        while more := {it for it in parents if parents[it] in found and names[it].startswith("sshd")} - found:
            found |= more
        return sorted(found - {self.server.pid})

    def signal(self, number: int) -> None:
        """Sends a signal to all connections: SIGKILL drops them, SIGSTOP is a network that is gone."""
        for it in self.sessions():
            with contextlib.suppress(ProcessLookupError):
                os.kill(it, number)


def free_port() -> int:
    with socket.socket() as it:
        it.bind(("127.0.0.1", 0))
        return it.getsockname()[1]


def listens(port: int) -> bool:
    with socket.socket() as it:
        return it.connect_ex(("127.0.0.1", port)) == 0


@contextlib.contextmanager
def served(folder: pathlib.Path) -> collections.abc.Iterator[Host]:
    """Serves, as root. Its keys lie in this folder."""
    folder.mkdir()
    port, asks = free_port(), folder / "asks"
    for name in ("host", "user"):
        subprocess.run(["ssh-keygen", "-q", "-t", "ed25519", "-N", "", "-f", folder / name], check=True)
    (folder / "serves").write_text(SERVES.format(port=port, folder=folder))
    asks.write_text(ASKS.format(port=port, folder=folder))
    pathlib.Path("/run/sshd").mkdir(exist_ok=True)
    server = subprocess.Popen([SERVER, "-D", "-e", "-f", folder / "serves"], stderr=open(folder / "said", "wb"), start_new_session=True)
    until, host = time.monotonic() + 10, Host(server, asks)
    try:
        while not listens(port) and server.poll() is None and time.monotonic() < until:
            time.sleep(0.1)
        yield host
    finally:
        host.signal(signal.SIGCONT)
        host.signal(signal.SIGTERM)
        server.terminate()
        server.wait()
