"""A census by Dask, MPI and SLURM, each for real on this machine; skipped by name if they aren't installed."""
import contextlib
import json
import os
import shutil
import signal
import socket
import subprocess
import tempfile
import time
import unittest
from typing import Any, Callable, Dict, List, Sequence, Tuple

from tests import networks, slurm_node
from tests.engines import environment, needed, python_with, skip_without
from tests.programs import script

# answers at once, but kills what runs it if the signature is `killer`, and is slow for `slow`; tells which process runs it
PROGRAM = """read kind signature
echo $PPID >>"$FOLDER/processes"
case $signature in
  killer) kill -9 $PPID ;;
  slow*) sleep 0.05 ;;
esac
echo $signature
"""


class Engines(unittest.TestCase):
    """Tests with a census of a few hundred lines."""

    def setUp(self) -> None:
        folder = tempfile.TemporaryDirectory()
        self.addCleanup(folder.cleanup)
        self.folder = folder.name
        self.given = os.path.join(self.folder, "signatures")
        self.out = os.path.join(self.folder, "answers")
        self.around = environment(script(self.folder, PROGRAM), FOLDER=self.folder)

    def put(self, *signatures: str) -> None:
        with open(self.given, "w", encoding="utf8") as file:
            file.writelines(f"{signature} n{number}\n" for number, signature in enumerate(signatures))

    def words(self, python: str, *more: str) -> List[str]:
        return [python, *more, "trinorm", "census", self.given, "--command", "sig", "--out", self.out]

    def start(self, words: Sequence[str]) -> "subprocess.Popen[str]":
        run = subprocess.Popen(words, env=self.around, stderr=subprocess.PIPE, text=True, start_new_session=True)
        self.addCleanup(self.end, run)
        return run

    def begin(self, words: Sequence[str]) -> "subprocess.Popen[bytes]":
        """Starts a process that goes on. What it says is in a file: it would stop for ever at a pipe that is full."""
        with open(os.path.join(self.folder, "log"), "ab") as log:
            run = subprocess.Popen(words, env=self.around, stdout=subprocess.DEVNULL, stderr=log, start_new_session=True)
        self.addCleanup(self.end, run)
        return run

    @staticmethod
    def end(run: "subprocess.Popen[Any]") -> None:
        with contextlib.suppress(ProcessLookupError):
            os.killpg(run.pid, signal.SIGKILL)
        run.wait()
        if run.stderr is not None:
            run.stderr.close()

    def run_all(self, words: Sequence[str], timeout: float = 120) -> Tuple[int, str]:
        """The status, and what was said on standard error."""
        run = self.start(words)
        _, said = run.communicate(timeout=timeout)
        return run.returncode, said

    def lines(self) -> List[Dict[str, Any]]:
        """The whole lines of the output."""
        if not os.path.exists(self.out):
            return []
        with open(self.out, encoding="utf8") as file:
            return [json.loads(line) for line in file if line.endswith("\n")]

    def until(self, is_so: Callable[[], bool], seconds: float = 60) -> None:
        end = time.monotonic() + seconds
        while not is_so():
            self.assertLess(time.monotonic(), end)
            time.sleep(0.05)

    def processes(self) -> List[int]:
        """Those that ran the program, the last one first."""
        with open(os.path.join(self.folder, "processes"), encoding="utf8") as file:
            return [int(line) for line in file][::-1]

    def assert_each_once(self, count: int) -> None:
        self.assertEqual(sorted(line["name"] for line in self.lines()), sorted(f"n{number}" for number in range(count)))


@skip_without("python3-distributed (Dask)", python_with("distributed"))
class Dask(Engines):
    def setUp(self) -> None:
        super().setUp()
        self.python = needed("distributed")
        with socket.socket() as free:
            free.bind(("127.0.0.1", 0))
            port = free.getsockname()[1]
        self.address = f"tcp://127.0.0.1:{port}"
        self.scheduler = self.dask("scheduler", "--host", "127.0.0.1", "--port", str(port))
        self.workers = [self.dask("worker", self.address, "--nthreads", "1", "--local-directory", self.folder) for _ in range(2)]
        subprocess.run([self.python, "-c", f"from distributed import Client; Client('{self.address}').wait_for_workers(2)"],
                       env=self.around, stderr=subprocess.DEVNULL, timeout=120, check=True)

    def dask(self, kind: str, *words: str) -> "subprocess.Popen[bytes]":
        return self.begin([self.python, "-m", f"distributed.cli.dask_{kind}", "--no-dashboard", *words])

    def census(self, *more: str) -> List[str]:
        return [*self.words(self.python, "-m"), "--dask", self.address, *more]

    def test_a_census_and_on(self) -> None:
        self.put(*(f"slow{number}" for number in range(100)), *(f"s{number}" for number in range(100, 300)))
        status, said = self.run_all(self.census())
        self.assertEqual(status, 0, said)
        self.assertIn("300 answered, 0 refused, 0 failed", said)
        self.assert_each_once(300)
        self.assertEqual(len(set(self.processes())), 2)
        with open(self.out, "r+", encoding="utf8") as file:
            file.truncate(sum(map(len, file.readlines()[:100])) + 5)
        self.assertIn("100 done before; 200 answered", self.run_all(self.census())[1])
        self.assert_each_once(300)

    def test_a_killed_worker_loses_nothing(self) -> None:
        self.put(*(f"slow{number}" for number in range(200)))
        run = self.start(self.census())
        self.until(lambda: len(self.lines()) > 5)
        os.kill(self.processes()[0], signal.SIGKILL)
        said = run.communicate(timeout=120)[1]
        self.assertIn("200 answered, 0 refused, 0 failed", said)
        self.assert_each_once(200)

    def test_a_triangulation_that_kills_each_worker(self) -> None:
        self.put(*(f"s{number}" for number in range(30)), "killer", *(f"s{number}" for number in range(30, 60)))
        status, said = self.run_all(self.census(), 300)
        self.assertEqual(status, 1, said)
        self.assertIn("60 answered, 0 refused, 1 failed", said)
        self.assert_each_once(61)
        [failed] = [line for line in self.lines() if "failed" in line]
        self.assertEqual(failed["signature"], "killer")
        self.assertIn("KilledWorker", failed["failed"])

    def test_limits(self) -> None:
        self.put("s1", "slow", "s2")
        self.assertEqual(self.run_all(self.census("--timeout", "0.02"))[0], 1)
        failed = [line["failed"] for line in self.lines() if line["signature"] == "slow"]
        self.assertEqual(failed, ["sig: no result within 0.02 s"])

    def test_interrupts(self) -> None:
        """The last line says how to go on, and Dask's client has no errors of calls that were given up."""
        self.put(*(f"slow{number}" for number in range(1000)))
        for number in (signal.SIGINT, signal.SIGTERM) * 3:
            before, run = len(self.lines()), self.start(self.census())
            self.until(lambda: len(self.lines()) > before + 5)
            os.kill(run.pid, number)
            said = run.communicate(timeout=120)[1]
            self.assertEqual(run.returncode, 128 + number, said)
            self.assertRegex(said.splitlines()[-1], "^stopped: .*if it is started again with the same arguments, it resumes", said)
            self.assertNotIn("Traceback", said)

    def test_a_scheduler_that_ends(self) -> None:
        self.put(*(f"slow{number}" for number in range(400)))
        run = self.start([*self.census(), "--jobs", "4"])
        self.until(lambda: len(self.lines()) > 5)
        for one in (self.scheduler, *self.workers):
            os.killpg(one.pid, signal.SIGKILL)
        said = run.communicate(timeout=120)[1]
        self.assertEqual(run.returncode, 3, said)
        self.assertIn("the executor has stopped", said)
        self.assertIn("if it is started again with the same arguments, it resumes", said)
        self.assertEqual([line for line in self.lines() if "failed" in line], [])

    def test_a_scheduler_that_stops_for_a_while(self) -> None:
        """It is connected, but says nothing. After a minute there is a line, here sooner; when it goes on, so does the census."""
        self.put(*(f"slow{number}" for number in range(200)))
        soon = os.path.join(self.folder, "soon.py")
        with open(soon, "w", encoding="utf8") as file:
            file.write("import sys\nfrom trinorm import __main__, executors\nexecutors.LOOK = 0.2\nsys.exit(__main__.main(sys.argv[1:]))\n")
        run = self.start([self.python, soon, *self.census()[3:]])
        self.until(lambda: len(self.lines()) > 5)
        os.kill(self.scheduler.pid, signal.SIGSTOP)
        assert run.stderr is not None
        for line in run.stderr:
            if "no result for a minute: the executor does not answer. The run waits for it" in line:
                break
        os.kill(self.scheduler.pid, signal.SIGCONT)
        said = run.communicate(timeout=180)[1]
        self.assertEqual(run.returncode, 0, said)
        self.assertIn("200 answered, 0 refused, 0 failed", said)
        self.assert_each_once(200)

    def test_no_scheduler(self) -> None:
        self.put("s")
        status, said = self.run_all([*self.words(self.python, "-m"), "--dask", "nonsense://"])
        self.assertEqual(status, 3)
        self.assertIn("no Dask scheduler at nonsense://", said)


@skip_without("python3-distributed (Dask), or ip for the superuser,", python_with("distributed") and networks.are_there())
class Networks(Engines):
    """A scheduler and two workers, each in a network of its own, so that all they know of each other goes through links."""

    def setUp(self) -> None:
        super().setUp()
        self.python = needed("distributed")
        self.both = [networks.Network(number) for number in (1, 2)]
        for network in self.both:
            network.__enter__()
            self.addCleanup(network.__exit__)
        # that a machine is gone is known after 12 seconds, the least that there is, in place of 30
        self.around.update(DASK_DISTRIBUTED__COMM__TIMEOUTS__TCP="12s", DASK_DISTRIBUTED__SCHEDULER__WORKER_TTL="12s")
        [self.port] = slurm_node.free_ports(1)
        self.dask([], "scheduler", "--host", "0.0.0.0", "--port", str(self.port))
        for network in self.both:
            self.dask(network.words, "worker", f"tcp://{network.here}:{self.port}", "--host", network.there, "--nthreads", "1",
                      "--local-directory", self.folder)
        self.address = f"tcp://127.0.0.1:{self.port}"
        subprocess.run([self.python, "-c", f"from distributed import Client; Client('{self.address}').wait_for_workers(2)"],
                       env=self.around, stderr=subprocess.DEVNULL, timeout=120, check=True)

    def dask(self, before: Sequence[str], kind: str, *words: str) -> "subprocess.Popen[bytes]":
        return self.begin([*before, self.python, "-m", f"distributed.cli.dask_{kind}", "--no-dashboard", *words])

    def run_with(self, change: Callable[[], object], count: int = 300) -> None:
        """The lines of a census after whose first answers something is changed. Those of which machine are how many?"""
        self.put(*(f"slow{number}" for number in range(count)))
        run = self.start([*self.words(self.python, "-m"), "--dask", self.address])
        self.until(lambda: len(self.lines()) > 20 and len(set(self.processes())) == 2)
        change()
        said = run.communicate(timeout=180)[1]
        self.assertEqual(run.returncode, 0, said)
        self.assertIn(f"{count} answered, 0 refused, 0 failed", said)
        self.assert_each_once(count)

    def test_two_machines(self) -> None:
        self.run_with(lambda: None)

    def test_a_network_that_is_cut_loses_nothing(self) -> None:
        self.run_with(self.both[1].cut)

    def test_a_network_that_is_cut_and_mended_answers_nothing_twice(self) -> None:
        def cut_and_mend() -> None:
            self.both[1].cut()
            time.sleep(3)
            self.both[1].mend()
        self.run_with(cut_and_mend)


@skip_without("python3-mpi4py with mpiexec", python_with("mpi4py.futures") and shutil.which("mpiexec"))
class Mpi(Engines):
    def census(self, *more: str) -> List[str]:
        return ["mpiexec", "-n", "3", *self.words(needed("mpi4py.futures"), "-m", "mpi4py.futures", "-m"), "--mpi", *more]

    def test_a_census_and_on(self) -> None:
        self.put(*(f"s{number}" for number in range(300)))
        status, said = self.run_all(self.census())
        self.assertEqual(status, 0, said)
        self.assertIn("300 answered, 0 refused, 0 failed", said)
        self.assert_each_once(300)
        self.assertEqual(len(set(self.processes())), 2)
        self.assertIn("300 done before; 0 answered", self.run_all(self.census())[1])

    def test_a_killed_rank_ends_the_job_and_the_next_goes_on(self) -> None:
        self.put(*(f"slow{number}" for number in range(150)))
        run = self.start(self.census())
        self.until(lambda: len(self.lines()) > 20)
        os.kill(self.processes()[0], signal.SIGKILL)
        run.communicate(timeout=60)
        self.assertNotEqual(run.returncode, 0)
        before = len(self.lines())
        self.assertLess(before, 150)
        status, said = self.run_all(self.census())
        self.assertEqual(status, 0, said)
        self.assertIn(f"{before} done before; {150 - before} answered", said)
        self.assert_each_once(150)

    def test_not_by_mpiexec(self) -> None:
        self.put("s")
        python = needed("mpi4py.futures")
        for words in ([*self.words(python, "-m"), "--mpi"], ["mpiexec", "-n", "2", *self.words(python, "-m"), "--mpi"]):
            status, said = self.run_all(words)
            self.assertEqual(status, 3, said)
            self.assertIn("mpiexec -n 3 python3 -m mpi4py.futures -m trinorm", said)


@skip_without("slurmctld, slurmd, slurm-client and munge, for the superuser,", slurm_node.is_there())
class Slurm(Engines):
    """Each of the ways that the page names, on a cluster of one node."""

    def setUp(self) -> None:
        super().setUp()
        folder = tempfile.TemporaryDirectory()
        self.addCleanup(folder.cleanup)
        node = slurm_node.Node(folder.name)
        node.environment = {**self.around, **{name: node.environment[name] for name in ("SLURM_CONF", "PATH")}}
        node.__enter__()
        self.addCleanup(node.__exit__)
        self.node = node

    def submit(self, text: str, *words: str) -> str:
        """Runs a batch script to its end."""
        path = os.path.join(self.folder, "job")
        with open(path, "w", encoding="utf8") as file:
            file.write(f"#!/bin/sh\ncd {self.folder}\n{text}")
        done = self.node.run(["sbatch", "--wait", "-o", os.path.join(self.folder, "log"), *words, path])
        with open(os.path.join(self.folder, "log"), encoding="utf8") as file:
            said = file.read()
        self.assertEqual(done.returncode, 0, f"{done} {said}")
        return said

    def test_parts_of_a_file_in_an_array(self) -> None:
        self.put(*(f"s{number}" for number in range(100)))
        subprocess.run(["split", "-n", "l/4", "-d", self.given, os.path.join(self.folder, "part.")], check=True)
        self.submit("python3 -m trinorm census part.$(printf %02d $SLURM_ARRAY_TASK_ID) --command sig --jobs 1\n", "--array=0-3")
        with open(self.out, "wb") as file:
            subprocess.run("cat part.*.jsonl", shell=True, cwd=self.folder, stdout=file, check=True)
        self.assert_each_once(100)

    @skip_without("python3-mpi4py with mpiexec", python_with("mpi4py.futures") and shutil.which("mpiexec"))
    def test_mpi(self) -> None:
        self.put(*(f"slow{number}" for number in range(60)))
        words = " ".join([*self.words(needed("mpi4py.futures"), "-m", "mpi4py.futures", "-m"), "--mpi"])
        self.assertIn("60 answered, 0 refused, 0 failed", self.submit(f"mpiexec -n 3 {words}\n", "-n", "3"))
        self.assert_each_once(60)
        self.assertEqual(len(set(self.processes())), 2)

    @skip_without("python3-distributed (Dask)", python_with("distributed"))
    def test_dask(self) -> None:
        python = needed("distributed")
        self.put(*(f"slow{number}" for number in range(60)))
        said = self.submit(f"""{python} -m distributed.cli.dask_scheduler --host 127.0.0.1 --port 0 --no-dashboard --scheduler-file scheduler &
scheduler=$!
srun -n 2 {python} -m distributed.cli.dask_worker --scheduler-file scheduler --nthreads 1 --no-dashboard --local-directory . &
workers=$!
while [ ! -s scheduler ]; do sleep 0.2; done
{" ".join(self.words(python, "-m"))} --dask scheduler
status=$?
kill $workers $scheduler
exit $status
""", "-n", "2")
        self.assertIn("60 answered, 0 refused, 0 failed", said)
        self.assert_each_once(60)


class Missing(Engines):
    def test_what_to_install(self) -> None:
        """Without the optional modules a sentence says what to install."""
        self.put("s")
        for module, word, text in (("distributed", "--dask=tcp://localhost:1", "python3-distributed"), ("mpi4py", "--mpi", "python3-mpi4py")):
            hidden = os.path.join(self.folder, "hidden", module)
            os.makedirs(hidden, exist_ok=True)
            with open(os.path.join(hidden, "__init__.py"), "w", encoding="utf8") as file:
                file.write("raise ImportError('hidden')\n")
        self.around["PYTHONPATH"] = os.pathsep.join([os.path.join(self.folder, "hidden"), self.around["PYTHONPATH"]])
        for word, text in (("--dask=tcp://localhost:1", "python3-distributed"), ("--mpi", "python3-mpi4py")):
            status, said = self.run_all([*self.words("python3", "-m"), word])
            self.assertEqual(status, 3)
            self.assertIn(text, said)


if __name__ == "__main__":
    unittest.main()
