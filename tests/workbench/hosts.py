"""Hosts for tests of sweeps: this machine several times, each by an ssh server of its own on the loopback."""
from __future__ import annotations

import os
import shutil
import signal
import socket
import subprocess
import time
from pathlib import Path

SSHD = "/usr/sbin/sshd"
WAIT = 10.0


def can_serve() -> bool:
    """Whether ssh servers, ssh and GNU parallel are there."""
    return os.access(SSHD, os.X_OK) and bool(
        shutil.which("ssh") and shutil.which("ssh-keygen") and shutil.which("parallel")
    )


def _free_port() -> int:
    with socket.socket() as probe:
        probe.bind(("127.0.0.1", 0))
        return int(probe.getsockname()[1])


def _children(process: int) -> list[int]:
    """All processes below one."""
    out: list[int] = []
    for folder in Path("/proc").iterdir():
        if folder.name.isdigit():
            try:
                parent = int((folder / "stat").read_text().rsplit(")", 1)[1].split()[1])
            except (OSError, IndexError):
                continue
            if parent == process:
                out += [int(folder.name), *_children(int(folder.name))]
    return out


class Host:
    """An ssh server with keys of its own."""

    def __init__(self, folder: Path) -> None:
        folder.mkdir(mode=0o700)
        self.key = folder / "key"
        for key in (self.key, folder / "host"):
            subprocess.run(["ssh-keygen", "-q", "-t", "ed25519", "-N", "", "-f", str(key)], check=True)
        self.port = _free_port()
        lines = [
            f"Port {self.port}",
            "ListenAddress 127.0.0.1",
            f"HostKey {folder / 'host'}",
            f"AuthorizedKeysFile {self.key}.pub",
        ]
        lines += ["StrictModes no", "PasswordAuthentication no", "UsePAM no", "PidFile none", "PermitRootLogin yes"]
        # (a home of its own: no start-up file of a shell is read, or ended in the middle when the host is lost)
        lines += [f"SetEnv HOME={folder}"]
        (folder / "config").write_text("\n".join(lines) + "\n")
        if os.getuid() == 0:
            os.makedirs("/run/sshd", exist_ok=True)
        self.server = subprocess.Popen([SSHD, "-D", "-f", str(folder / "config")], stderr=subprocess.DEVNULL)

    def login(self) -> str:
        """The line of the hosts' file."""
        options = "-o StrictHostKeyChecking=no -o UserKnownHostsFile=/dev/null -o LogLevel=ERROR -o BatchMode=yes"
        return f"ssh -p {self.port} -i {self.key} {options} 127.0.0.1"

    def answers(self) -> bool:
        """Whether a command can be run there, after some waiting."""
        end = time.monotonic() + WAIT
        while time.monotonic() < end and self.server.poll() is None:
            if subprocess.run([*self.login().split(), "true"], stdin=subprocess.DEVNULL, check=False).returncode == 0:
                return True
            time.sleep(0.1)
        return False

    def lose(self) -> None:
        """Ends the server with all that runs there, as where a machine is lost."""
        for process in [self.server.pid, *_children(self.server.pid)]:
            try:
                os.kill(process, signal.SIGKILL)
            except ProcessLookupError:
                pass
        self.server.wait()
