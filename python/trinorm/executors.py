"""A census by any executor of `concurrent.futures`, as Dask's, MPI's, or `workers.Workers`, on as many machines as it has.

An executor is asked for handfuls: `run(task, entries)` answers triangulations one after another, and gives back those that
it hasn't begun when its time is up. How a triangulation is answered, and how long it may take, is the task's.
"""
from __future__ import annotations

import asyncio
import collections
import contextlib
import dataclasses
import itertools
import os
import queue
import shutil
import sys
import threading
import time
from concurrent.futures import BrokenExecutor, CancelledError, Executor, Future, InvalidStateError
from typing import Any, Callable, Deque, Dict, Iterable, Iterator, List, NamedTuple, Optional, Protocol, Set, Tuple

from .program import Failed
from .server import Server
from .tasks import Entry, Task, as_json, head_of, line_of
from .workers import WorkerEnded

KINDS = ("answer", "refused", "failed")
# seconds after which a handful begins no more triangulations, and the most that it may have
SECONDS, MOST = 1.0, 2048
# the number of parts in which a handful is tried again with which a worker died
PARTS = 64
# seconds between two looks at an engine that answers nothing; how many looks without work there are before all that it has in
# hand is asked anew; and the seconds of silence after which it is asked anew even so, twice as many each time
LOOK, IDLE_LOOKS, SILENCE = 10.0, 3, 600.0


class Seen(NamedTuple):
    """How many workers an engine has, and whether none of them has anything to do."""
    workers: int
    is_idle: bool


class Watch(Protocol):
    """What is known of an engine that may lose what it was asked."""

    loses: bool  # whether what it has in hand may be asked anew

    def look(self) -> Optional[Seen]:
        """What it says of its workers; None if it says nothing soon."""


class Done(NamedTuple):
    """Lines of the output, each with its end, and how many there are of each kind: `answer`, `refused`, `failed`."""
    lines: str
    kinds: Dict[str, int]


class Ran(NamedTuple):
    """What of a handful was answered, the number of those that are left, and the seconds that it took."""
    done: Done
    left: int
    seconds: float


def done_of(lines: Iterable[Dict[str, object]]) -> Done:
    """The lines of the output as text, counted."""
    them = list(lines)
    kinds = collections.Counter(next(kind for kind in KINDS if kind in line) for line in them)
    return Done("".join(as_json(line) + "\n" for line in them), dict(kinds))


@contextlib.contextmanager
def by_server(task: Task) -> Iterator[Task]:
    """The task with one server for all runs, if such a program is next to the one that it names."""
    program = task.program if isinstance(task.program, str) else None
    if Server.find(program) is None:
        yield task
    else:
        with Server(program, own_group=False) as server:  # so that it ends with the group of this process
            yield dataclasses.replace(task, program=server)


def on_this_machine(task: Task) -> Task:
    """The task with its program, or, where there is none at that path, with the one that this machine has."""
    if isinstance(task.program, str) and shutil.which(task.program) is None:
        return dataclasses.replace(task, program=None)
    return task


def answered(entry: Entry, task: Task) -> Dict[str, object]:
    """The line of a triangulation. What goes wrong in Python, as where memory runs out, is a failed run too."""
    begun = time.monotonic()
    try:
        return line_of(entry, task)
    except Exception as fault:  # pylint: disable=broad-except
        return {**head_of(entry, task, time.monotonic() - begun), "failed": f"{type(fault).__name__}: {fault}"}


def run(task: Task, entries: List[Tuple[str, str]]) -> Ran:
    """Answers a handful, until its time is up. This is what an executor is asked."""
    begun = time.monotonic()
    lines = []
    with by_server(on_this_machine(task)) as served:
        for entry in entries:
            lines.append(answered(Entry(*entry), served))
            if time.monotonic() - begun > SECONDS:
                break
    return Ran(done_of(lines), len(entries) - len(lines), time.monotonic() - begun)


class Asked(NamedTuple):
    """A handful, and when it was submitted."""
    entries: List[Entry]
    begun: float


class Silence:
    """How long an engine has answered nothing, and whether it has lost what it was asked."""

    def __init__(self, watch: Optional[Watch]) -> None:
        self._watch, self._longest = watch, SILENCE
        self.ends()

    def ends(self) -> None:
        """Begins anew, with an answer."""
        self._begun, self._idle_looks, self._has_said = time.monotonic(), 0, False

    def seconds(self) -> Optional[float]:
        """How long to wait until the next look; None for an engine of this package, which loses nothing."""
        return None if self._watch is None else LOOK

    def is_too_long(self) -> bool:
        """Looks at the engine. True if all that it has in hand is to be asked anew."""
        if self._watch is None:
            return False
        seen = self._watch.look()
        if seen is None or seen.workers == 0 or not self._watch.loses:
            self._say(_what_is_waited_for(seen))
            return False
        self._idle_looks = self._idle_looks + 1 if seen.is_idle else 0
        is_late = time.monotonic() - self._begun > self._longest
        if not is_late and self._idle_looks < IDLE_LOOKS:
            return False
        self._longest *= 1 + is_late
        self.ends()
        return True

    def _say(self, what: str) -> None:
        """A line on standard error, once in a silence of a minute or more."""
        if not self._has_said and time.monotonic() - self._begun >= 6 * LOOK:
            print(f"trinorm: no result for a minute: {what}", file=sys.stderr, flush=True)
            self._has_said = True


def _what_is_waited_for(seen: Optional[Seen]) -> str:
    """What a user is told of an engine that is not asked anew."""
    if seen is None:
        return "the executor does not answer. The run waits for it"
    if seen.workers == 0:
        return "the executor has no worker. The run resumes when a worker connects"
    return "the executor has not stopped. The run waits for it"


class Handfuls:
    """What is left to do, what an executor has in hand, and how many triangulations a handful has: as many as take half
    of its time, but at most twice as many as the last."""

    def __init__(self, entries: Iterable[Entry], task: Task, executor: Executor, hands: int, watch: Optional[Watch] = None) -> None:
        self._silence = Silence(watch)
        # filled by the futures; one that nobody waits for any more, since another one of the same handful was earlier, is in no
        # list
        self._done: "queue.SimpleQueue[Future[Ran]]" = queue.SimpleQueue()
        self.task, self.executor, self.hands = task, executor, hands
        self.size = 1
        self.running: Dict[Future[Ran], Asked] = {}
        self._stream = iter(entries)
        # first come the parts of a handful with which a worker died, then what was given back, then what is new
        self._parts: Deque[List[Entry]] = collections.deque()
        self._back: Deque[Entry] = collections.deque()
        self._suspects: Deque[Entry] = collections.deque()

    def answers(self) -> Iterator[Done]:
        """The lines as they are done."""
        try:
            self._fill()
            while self.running:
                yield from self._settled(*self._next_done())
                self._fill()
            for entry in self._suspects:
                yield self._tried_alone(entry)
        finally:
            for future in self.running:
                future.cancel()

    def _fill(self) -> None:
        """Submits handfuls until all hands are full. Reading may be slow, so an answer that has come goes first."""
        while self._in_hand() < self.hands and not any(future.done() for future in self.running):
            handful = self._next()
            if not handful:
                break
            self._submit(Asked(handful, time.monotonic()))

    def _in_hand(self) -> int:
        """How many handfuls the executor has."""
        return len(set(map(id, self.running.values())))

    def _submit(self, asked: Asked) -> None:
        try:
            # plain pairs are pickled far quicker than entries
            future = self.executor.submit(run, self.task, [(entry.signature, entry.name) for entry in asked.entries])
        except (RuntimeError, OSError) as fault:
            raise Failed(f"the executor has stopped: {fault}") from None
        self.running[future] = asked
        future.add_done_callback(self._done.put)

    def _next_done(self) -> Tuple[Future[Ran], Asked]:
        """Waits for a handful. What an engine has lost is asked anew; the first answer counts, and later ones are dropped."""
        while True:
            try:
                future = self._done.get(timeout=self._silence.seconds())
            except queue.Empty:
                if self._silence.is_too_long():
                    for lost in {id(it): it for it in self.running.values()}.values():
                        self._submit(lost)
                continue
            if future in self.running:
                asked = self.running[future]
                self._silence.ends()
                for one in [it for it, same in self.running.items() if same is asked]:
                    del self.running[one]
                    if one is not future:
                        one.cancel()
                return future, asked

    def _next(self) -> List[Entry]:
        """The next handful; an empty one at the end."""
        if self._parts:
            return self._parts.popleft()
        if self._back:
            share = min(self.size, -(-len(self._back) // self.hands))
            return [self._back.popleft() for _ in range(share)]
        return self._read()

    def _read(self) -> List[Entry]:
        """New entries. A handful ends early if they come slowly, as through a pipe."""
        end = time.monotonic() + SECONDS / 10
        handful: List[Entry] = []
        while len(handful) < self.size and time.monotonic() < end:
            several = list(itertools.islice(self._stream, 1 if self.size < 64 else 64))
            if not several:
                break
            handful += several
        return handful

    def _settled(self, future: Future[Ran], asked: Asked) -> Iterator[Done]:
        """What came of a handful. If the engine gave it up, its parts are tried, down to single triangulations."""
        fault = _fault_of(future)
        if fault is None:
            yield self._taken(future.result(), asked)
        elif len(asked.entries) > 1:
            part = max(1, len(asked.entries) // PARTS)
            self._parts.extend(asked.entries[at:at + part] for at in range(0, len(asked.entries), part))
        elif isinstance(fault, WorkerEnded):
            yield self._failed(asked, str(fault))
        else:
            self._suspects.append(asked.entries[0])

    def _taken(self, ran: Ran, asked: Asked) -> Done:
        count = len(asked.entries) - ran.left
        self._back.extend(asked.entries[count:])
        self.size = max(1, min(MOST, 2 * self.size, int(SECONDS / 2 * count / max(ran.seconds, 1e-6))))
        return ran.done

    def _tried_alone(self, entry: Entry) -> Done:
        """What comes of a triangulation that was given up, while the engine has nothing else in hand: others may have been
        given up with the one that killed a worker."""
        self._submit(Asked([entry], time.monotonic()))
        future, asked = self._next_done()
        fault = _fault_of(future)
        return self._failed(asked, f"{type(fault).__name__}: {fault}") if fault is not None else future.result().done

    def _failed(self, asked: Asked, text: str) -> Done:
        return done_of([{**head_of(asked.entries[0], self.task, time.monotonic() - asked.begun), "failed": text}])


def _fault_of(future: Future[Ran]) -> Optional[BaseException]:
    """Why the engine gave a handful up, if it did. An engine that has ended, or can't have answered, is `Failed`."""
    try:
        fault = future.exception()
    except CancelledError as cancelled:
        raise Failed(f"the executor has stopped: {type(cancelled).__name__} {cancelled}".rstrip()) from None
    if isinstance(fault, (BrokenExecutor, CancelledError)):
        raise Failed(f"the executor has stopped: {fault}") from None
    if isinstance(fault, ImportError):
        raise Failed(f"a worker of the executor cannot import the package: {fault}; install it there, or set PYTHONPATH there")
    return fault


def answers(entries: Iterable[Entry], task: Task, executor: Executor, hands: int, watch: Optional[Watch] = None) -> Iterator[Done]:
    """The lines of the output as they are done.

    hands: the number of handfuls that are submitted at a time
    watch: what is known of an engine that may lose what it was asked
    """
    return Handfuls(entries, task, executor, hands, watch).answers()


class Engine(NamedTuple):
    """An executor, the number of handfuls that it takes at a time, two for each of its workers, and what is known of it if it may
    lose some."""
    executor: Executor
    hands: int
    watch: Optional[Watch] = None


class Unknown:
    """What is known of an executor of which nothing else is known: it is waited for, and after a minute there is a line."""

    loses = False

    def look(self) -> Seen:
        """That it works, since it doesn't say."""
        return Seen(1, False)


class DaskWatch:
    """What the scheduler of a Dask client says. The client asks it in a thread, since it waits for ever if the scheduler was
    stopped but is still connected."""

    loses = True

    def __init__(self, client: Any) -> None:
        self._client, self._is_asked = client, False
        self._came: "queue.SimpleQueue[Optional[Seen]]" = queue.SimpleQueue()

    def look(self) -> Optional[Seen]:
        """How many workers it has, and whether all are idle, as they are if it forgot all after a worker died. Of a scheduler that
        is gone the client tells by itself."""
        if not self._is_asked:
            threading.Thread(target=self._ask, daemon=True).start()
        self._is_asked = True
        try:
            seen = self._came.get(timeout=LOOK)
        except queue.Empty:
            return None
        self._is_asked = False
        return seen

    def _ask(self) -> None:
        try:
            workers = len(self._client.nthreads())
            self._came.put(Seen(workers, not any(self._client.processing().values())))
        except Exception:  # pylint: disable=broad-except
            self._came.put(None)


class DaskExecutor(Executor):
    """The workers of a Dask client. The executor that Dask has itself asks the scheduler before a call is given up, which waits for
    one that is gone, and writes a traceback to its log if an answer comes while the call is given up. Here it is dropped."""

    # seconds until an answer is fetched again after a connection was lost, and until calls that were given up are left to themselves
    again, patience = 1.0, 5.0

    def __init__(self, client: Any) -> None:
        self._client = client
        self._tasks: "Set[asyncio.Task[None]]" = set()

    def submit(self, function: Callable[..., Any], /, *given: Any, **_named: Any) -> "Future[Any]":
        """As of any executor."""
        if self._client.status == "closed":
            raise RuntimeError("the client is closed")
        future: Future[Any] = Future()
        self._client.loop.add_callback(self._ask, future, function, given)
        return future

    async def _ask(self, future: "Future[Any]", function: Callable[..., Any], given: Tuple[Any, ...]) -> None:
        """Asks in the thread of the client, in which no handler of a signal can raise, and gives what comes to a future."""
        task = asyncio.current_task()
        if task is not None:
            self._tasks.add(task)
            task.add_done_callback(self._tasks.discard)
        try:
            asked = self._client.submit(function, *given, pure=False)
        except Exception as fault:  # pylint: disable=broad-except
            _end(future, BrokenExecutor(str(fault)))
            return
        future.add_done_callback(lambda _: asked.release())
        await self._carry(asked, future)

    async def _carry(self, asked: Any, future: "Future[Any]") -> None:
        """Waits for what comes. A client that finds its scheduler no more cancels all calls."""
        while not future.done():
            try:
                result = await self._client.gather(asked, asynchronous=True)
            except (CancelledError, asyncio.CancelledError):
                future.cancel()
            except Exception as fault:  # pylint: disable=broad-except
                if asked.status == "error" or not isinstance(fault, (OSError, asyncio.TimeoutError)):
                    _end(future, fault)
                else:
                    await asyncio.sleep(self.again)
            else:
                _end(future, None, result)

    def shutdown(self, wait: bool = True, *, cancel_futures: bool = False) -> None:
        """Gives up the calls that are left, before the client ends its loop. What Dask itself has left there is dropped without a
        message then: nobody waits for it."""
        ended = threading.Event()
        with contextlib.suppress(RuntimeError):
            self._client.loop.add_callback(self._give_up, ended)
            ended.wait(self.patience)

    async def _give_up(self, ended: threading.Event) -> None:
        """Ends the tasks of all calls, in the thread of the client."""
        asyncio.get_running_loop().set_exception_handler(lambda _loop, _context: None)
        tasks = list(self._tasks)
        for task in tasks:
            task.cancel()
        if tasks:
            await asyncio.wait(tasks, timeout=self.patience)
        ended.set()


def _end(future: "Future[Any]", fault: Optional[BaseException], result: Any = None) -> None:
    """Ends a future by an exception or a result, unless nobody waits for it any more."""
    with contextlib.suppress(InvalidStateError):
        if fault is None:
            future.set_result(result)
        else:
            future.set_exception(fault)


@contextlib.contextmanager
def by_dask(address: str) -> Iterator[Engine]:
    """The workers of a Dask scheduler.

    address: its address, or the file that it wrote as `--scheduler-file`
    """
    try:
        from distributed import Client
    except ImportError:
        raise Failed("Dask is not installed in this Python; install `distributed` with pip, or Debian's python3-distributed") from None
    try:
        client = Client(scheduler_file=address) if os.path.isfile(address) else Client(address)
    except (OSError, ValueError, TypeError) as fault:
        raise Failed(f"there is no Dask scheduler at {address}: {fault}") from None
    with client:
        threads = sum(client.nthreads().values())
        # which workers come and go isn't known, so there is something in hand for more of them
        with DaskExecutor(client) as executor:
            yield Engine(executor, max(2 * threads, 16), DaskWatch(client))


@contextlib.contextmanager
def by_mpi() -> Iterator[Engine]:
    """The processes of this run of MPI, but the first, which has the census."""
    try:
        from mpi4py import MPI
        from mpi4py.futures import MPIPoolExecutor
    except ImportError:
        raise Failed("mpi4py is not installed in this Python; install `mpi4py` with pip, or Debian's python3-mpi4py") from None
    workers = MPI.COMM_WORLD.Get_size() - 1
    if workers < 1 or not _is_shared():
        raise Failed("--mpi needs at least two processes; start it by: mpiexec -n 3 python3 -m mpi4py.futures -m trinorm ..")
    with MPIPoolExecutor() as executor:
        yield Engine(executor, 2 * workers, Unknown())


def _is_shared() -> bool:
    """Whether mpi4py.futures started this run, so that the other processes wait for calls. It has no public word for it."""
    module = sys.modules.get("mpi4py.futures._lib") or sys.modules.get("mpi4py.futures._core")
    return getattr(module, "SharedPool", True) is not None


def hands_of(executor: Executor) -> int:
    """The number of handfuls for an executor of the user's: two for each worker that it says to have, or 16."""
    workers = getattr(executor, "_max_workers", None) or getattr(executor, "num_workers", None)
    return 2 * workers if isinstance(workers, int) else 16
