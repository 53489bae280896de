"""SLURM on this machine for a test: one node, with a munge, a controller and a node daemon of its own in a folder.

Only the superuser can start them. Everything is ended and gone with the `with` block.
"""
import os
import shutil
import signal
import socket
import subprocess
import time
from pathlib import Path
from typing import Callable, Dict, List

NEEDED = ("munged", "slurmctld", "slurmd", "sbatch", "srun")

CONFIGURATION = """ClusterName=trial
SlurmctldHost={host}(127.0.0.1)
SlurmUser=root
SlurmdUser=root
AuthType=auth/munge
AuthInfo=socket={folder}/munge.socket
StateSaveLocation={folder}/state
SlurmdSpoolDir={folder}/spool
SlurmctldPidFile={folder}/slurmctld.pid
SlurmdPidFile={folder}/slurmd.pid
SlurmctldPort={ports[0]}
SlurmdPort={ports[1]}
ProctrackType=proctrack/linuxproc
TaskPlugin=task/none
SelectType=select/cons_tres
SelectTypeParameters=CR_Core
MpiDefault=none
SwitchType=switch/none
ReturnToService=2
AccountingStorageType=accounting_storage/none
JobAcctGatherType=jobacct_gather/none
NodeName={host} NodeAddr=127.0.0.1 CPUs={cpus} State=UNKNOWN
PartitionName=main Nodes={host} Default=YES MaxTime=INFINITE State=UP OverSubscribe=FORCE:4
"""


def is_there() -> bool:
    """Whether SLURM and munge are installed, and may be started."""
    path = os.pathsep.join([os.environ.get("PATH", ""), "/usr/sbin", "/sbin"])
    return os.geteuid() == 0 and all(shutil.which(name, path=path) for name in NEEDED)


def free_ports(count: int) -> List[int]:
    """Ports that nothing listens on."""
    sockets = [socket.socket() for _ in range(count)]
    for one in sockets:
        one.bind(("127.0.0.1", 0))
    ports = [one.getsockname()[1] for one in sockets]
    for one in sockets:
        one.close()
    return ports


class Node:
    """A cluster of one node. `environment` is for its commands."""

    def __init__(self, folder: str) -> None:
        self.folder = Path(folder)
        self.processes: Dict[str, "subprocess.Popen[bytes]"] = {}
        self.environment: Dict[str, str] = dict(os.environ, SLURM_CONF=str(self.folder / "slurm.conf"),
                                                PATH=f"{os.environ['PATH']}:/usr/sbin:/sbin")

    def __enter__(self) -> "Node":
        try:
            self._begin()
        except BaseException:
            self.__exit__()
            raise
        return self

    def _begin(self) -> None:
        host = socket.gethostname().split(".")[0]
        for name in ("state", "spool"):
            (self.folder / name).mkdir()
        text = CONFIGURATION.format(host=host, folder=self.folder, ports=free_ports(2), cpus=os.cpu_count())
        (self.folder / "slurm.conf").write_text(text)
        key = self.folder / "munge.key"
        key.touch(0o600)
        key.write_bytes(os.urandom(1024))
        munge = {name: f"--{name}-file={self.folder}/munge.{name}" for name in ("key", "pid", "log", "seed")}
        self._start("munged", "--foreground", "--force", f"--socket={self.folder}/munge.socket", *munge.values())
        self._until(lambda: (self.folder / "munge.socket").exists())
        self._start("slurmctld", "-D", "-f", str(self.folder / "slurm.conf"))
        self._start("slurmd", "-D", "-N", host, "-f", str(self.folder / "slurm.conf"))
        self._until(lambda: b"idle" in self.run(["sinfo", "-h", "-o", "%T"]).stdout)

    def _start(self, *words: str) -> None:
        with open(self.folder / f"{words[0]}.out", "wb") as log:
            self.processes[words[0]] = subprocess.Popen(words, env=self.environment, stdin=subprocess.DEVNULL, stdout=log, stderr=log,
                                                        start_new_session=True)

    def _until(self, is_so: Callable[[], object], seconds: float = 60) -> None:
        end = time.monotonic() + seconds
        while not is_so():
            for name, process in self.processes.items():
                if process.poll() is not None:
                    raise RuntimeError(f"{name} ended: {(self.folder / (name + '.out')).read_text()[-1000:]}")
            if time.monotonic() > end:
                logs = [path.read_text()[-1000:] for path in self.folder.glob("*.out")]
                raise RuntimeError("SLURM didn't start:\n" + "\n".join(logs))
            time.sleep(0.2)

    def run(self, words: List[str], timeout: float = 120, **more: str) -> "subprocess.CompletedProcess[bytes]":
        """Runs a command of SLURM's."""
        return subprocess.run(words, env={**self.environment, **more}, capture_output=True, timeout=timeout, check=False)

    def __exit__(self, *_: object) -> None:
        for process in [*self.processes.values()][::-1]:
            if process.poll() is None:
                process.send_signal(signal.SIGTERM)
                try:
                    process.wait(10)
                except subprocess.TimeoutExpired:
                    process.kill()
                    process.wait()
