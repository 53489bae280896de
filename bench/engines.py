#!/usr/bin/env python3
"""Measures a census by its engines: triangulations a second with one job, two processes, two workers of Dask, two of MPI.

    bench/engines.py [PROGRAM] [--rounds N]

The input is 10,000 lines, the 1,000 of bench/census_signatures.txt ten times. Seconds are those that the census itself says,
so Dask's workers have been started before, and processes of this machine within; the least of the rounds, in which the
engines take turns. Engines that this machine doesn't have are left out.
"""
from __future__ import annotations

import argparse
import contextlib
import os
import re
import shutil
import subprocess
import sys
import tempfile
from pathlib import Path
from typing import Any, Dict, Iterator, List

from common import HERE, TOP
from trinorm import find

sys.path.insert(0, str(Path(TOP, "python")))
from tests.engines import environment, python_with  # noqa: E402

COMMANDS: Dict[str, List[str]] = {"`sig`": ["--command", "sig"], "`surfaces`, quad": ["--coords", "quad"], "`surfaces`": []}


@contextlib.contextmanager
def dask(python: str, around: Dict[str, str], folder: str) -> Iterator[str]:
    """A scheduler with two workers. Its file."""
    file = os.path.join(folder, "scheduler")
    start = [python, "-m"]
    quiet: Dict[str, Any] = {"env": around, "stdout": subprocess.DEVNULL, "stderr": subprocess.DEVNULL}
    runs = [subprocess.Popen([*start, "distributed.cli.dask_scheduler", "--host", "127.0.0.1", "--port", "0", "--no-dashboard",
                              "--scheduler-file", file], **quiet)]
    try:
        for _ in range(2):
            runs.append(subprocess.Popen([*start, "distributed.cli.dask_worker", "--scheduler-file", file, "--nthreads", "1", "--no-dashboard",
                                          "--local-directory", folder], **quiet))
        wait = f"import os, time\nwhile not os.path.exists({file!r}): time.sleep(0.1)\nfrom distributed import Client\n"
        subprocess.run([python, "-c", f"{wait}Client(scheduler_file={file!r}).wait_for_workers(2)"], check=True, **quiet)
        yield file
    finally:
        for run in runs[::-1]:
            run.terminate()
        for run in runs:
            run.wait()


def seconds(words: List[str], around: Dict[str, str], out: str) -> float:
    """What a census says that it took."""
    done = subprocess.run(words, env=around, stderr=subprocess.PIPE, text=True, check=True)
    os.unlink(out)
    return float(re.findall(r"10,000 answered, 0 refused, 0 failed in ([\d.]+) s", done.stderr)[-1])


def main() -> None:
    """Measures."""
    reader = argparse.ArgumentParser(description=str(__doc__).split("\n", maxsplit=1)[0])
    reader.add_argument("program", nargs="?")
    reader.add_argument("--rounds", type=int, default=1)
    given = reader.parse_args()
    around = environment(find(given.program))
    with contextlib.ExitStack() as stack:
        folder = stack.enter_context(tempfile.TemporaryDirectory())
        signatures, out = os.path.join(folder, "signatures"), os.path.join(folder, "out")
        lines = Path(HERE, "census_signatures.txt").read_text("utf8").split()
        Path(signatures).write_text("".join(f"{line} {number}\n" for number in range(10) for line in lines), "utf8")
        census = ["trinorm", "census", signatures, "--out", out]
        engines: Dict[str, List[str]] = {name: [sys.executable, "-m", *census, "--jobs", jobs]
                                         for name, jobs in (("one job", "1"), ("two processes", "2"))}
        if python_with("distributed"):
            file = stack.enter_context(dask(str(python_with("distributed")), around, folder))
            engines["Dask, two workers"] = [str(python_with("distributed")), "-m", *census, "--dask", file]
        if python_with("mpi4py.futures") and shutil.which("mpiexec"):
            engines["MPI, two workers"] = ["mpiexec", "-n", "3", str(python_with("mpi4py.futures")), "-m", "mpi4py.futures", "-m", *census, "--mpi"]
        print(f"| Command | {' | '.join(engines)} |\n|---|{'---|' * len(engines)}")
        for name, options in COMMANDS.items():
            least = {engine: float("inf") for engine in engines}
            for _ in range(given.rounds):
                for engine, words in engines.items():
                    least[engine] = min(least[engine], seconds(words + options, around, out))
            print(f"| {name} | {' | '.join(f'{10000 / least[engine]:,.0f}' for engine in engines)} |", flush=True)


if __name__ == "__main__":
    main()
