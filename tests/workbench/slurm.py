"""Slurm with one node, this machine: its three servers, in a folder of their own, as root."""
from __future__ import annotations

import os
import shutil
import socket
import subprocess
import time
from pathlib import Path

SERVERS = ("munged", "mungekey", "slurmctld", "slurmd", "sbatch", "squeue")
READY_SECONDS = 90
CONFIGURATION = """ClusterName=test
SlurmctldHost={host}(127.0.0.1)
SlurmctldPort={ports[0]}
SlurmdPort={ports[1]}
AuthType=auth/munge
AuthInfo=socket={folder}/munge.socket
CredType=cred/munge
SlurmUser=root
SlurmdUser=root
StateSaveLocation={folder}/state
SlurmdSpoolDir={folder}/spool
SlurmctldPidFile={folder}/slurmctld.pid
SlurmdPidFile={folder}/slurmd.pid
SlurmctldLogFile={folder}/slurmctld.log
SlurmdLogFile={folder}/slurmd.log
ProctrackType=proctrack/linuxproc
TaskPlugin=task/none
JobAcctGatherType=jobacct_gather/none
AccountingStorageType=accounting_storage/none
SelectType=select/linear
MpiDefault=none
ReturnToService=2
NodeName={host} NodeAddr=127.0.0.1 CPUs=1 State=UNKNOWN
PartitionName=main Nodes={host} Default=YES MaxTime=INFINITE OverSubscribe=NO State=UP
"""


def can_run() -> bool:
    """Whether Slurm and munge are there, and this is root's process."""
    path = os.environ["PATH"] + ":/usr/sbin"
    return os.getuid() == 0 and all(shutil.which(name, path=path) for name in SERVERS)


def free_ports(count: int) -> list[int]:
    """Ports that nobody listens on."""
    sockets = [socket.socket() for _ in range(count)]
    for one in sockets:
        one.bind(("127.0.0.1", 0))
    ports = [int(one.getsockname()[1]) for one in sockets]
    for one in sockets:
        one.close()
    return ports


class Slurm:
    """A cluster of one node."""

    def __init__(self, folder: Path) -> None:
        self.folder = folder
        self.servers: list[subprocess.Popen[bytes]] = []
        for name in ("state", "spool"):
            (folder / name).mkdir()
        configuration = folder / "slurm.conf"
        host = socket.gethostname().partition(".")[0]
        configuration.write_text(CONFIGURATION.format(host=host, ports=free_ports(2), folder=folder))
        self.environment = {**os.environ, "SLURM_CONF": str(configuration), "PATH": os.environ["PATH"] + ":/usr/sbin"}
        try:
            self._start(host)
        except BaseException:
            self.end()
            raise

    def _server(self, *words: str) -> None:
        self.servers.append(
            subprocess.Popen(
                words, env=self.environment, cwd=self.folder, stdout=subprocess.DEVNULL, stderr=subprocess.DEVNULL
            )
        )

    def _start(self, host: str) -> None:
        key, place = str(self.folder / "munge.key"), str(self.folder)
        subprocess.run(["mungekey", "--create", "--keyfile", key], env=self.environment, check=True)
        files = [f"--{name}-file={place}/munge.{name}" for name in ("pid", "log", "seed")]
        self._server(
            "munged", "--foreground", "--force", f"--key-file={key}", f"--socket={place}/munge.socket", *files
        )
        self._wait(lambda: (self.folder / "munge.socket").exists())
        self._server("slurmctld", "-D")
        self._server("slurmd", "-D", "-N", host)
        self._wait(lambda: "idle" in self.ask("sinfo", "--noheader", "--format=%T"))

    def _wait(self, is_ready: object) -> None:
        assert callable(is_ready)
        stop = time.monotonic() + READY_SECONDS
        while not is_ready():
            assert time.monotonic() < stop, "Slurm does not come up"
            time.sleep(0.5)

    def ask(self, *words: str) -> str:
        """What a command of Slurm prints."""
        run = subprocess.run(words, env=self.environment, cwd=self.folder, capture_output=True, text=True, check=False)
        return run.stdout

    def finish(self, seconds: float) -> bool:
        """Whether all jobs come to an end within this time."""
        stop = time.monotonic() + seconds
        while time.monotonic() < stop:
            if not self.ask("squeue", "--noheader").strip():
                return True
            time.sleep(0.5)
        return False

    def end(self) -> None:
        """Ends its servers."""
        for server in reversed(self.servers):
            server.terminate()
        for server in self.servers:
            try:
                server.wait(20)
            except subprocess.TimeoutExpired:
                server.kill()
                server.wait()
