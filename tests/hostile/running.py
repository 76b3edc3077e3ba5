"""Runs the program behind the shim, in as many processes as there are processors."""
import multiprocessing
import os
import resource
import signal
import struct
import time
from typing import NamedTuple

KINDS = ("memory", "thread", "open", "read", "write")
LAYOUT = struct.Struct("=Q5Q5Q8Q8QQQQ256s")


class Counts(NamedTuple):
    """What the shim has counted of one run."""

    started: bool  # whether the shim saw the start of `main`
    requests: dict
    disturbed: dict
    reads: tuple  # calls that read, of the descriptors 0, 1, 2 and others
    writes: tuple
    bytes_read: tuple
    bytes_written: tuple
    unwatched: int  # calls that the shim doesn't disturb, though it might have to
    descriptor: int  # of the first disturbed call, or -1
    place: int  # how many bytes of standard input were read before the last disturbed call
    name: bytes  # of the file of that descriptor


class Answer(NamedTuple):
    """How one run ended: a status below 0 is a signal, SIGALRM that of a run that didn't end in time."""

    status: int
    output: bytes
    errors: bytes
    counts: Counts
    seconds: float


class Server:
    """A process that stays at the start of the program's `main` with these words, and makes a copy of
    itself for each run."""

    def __init__(self, place, words, read):
        ask, self.ask = os.pipe()
        self.answer, answer = os.pipe()
        environment = dict(place.environment, HOSTILE_SERVE="1", HOSTILE_INPUT=read)
        self.child = os.posix_spawn(
            place.program,
            [place.program, *words],
            environment,
            file_actions=[(os.POSIX_SPAWN_DUP2, ask, 100), (os.POSIX_SPAWN_DUP2, answer, 101)],
            setsigdef=[signal.SIGPIPE],
        )
        os.close(ask)
        os.close(answer)

    def run(self, plan, limit):
        """One run; returns its status, or None where the server isn't there."""
        try:
            os.write(self.ask, struct.pack("=96sQ", plan.encode(), int(limit)))
        except BrokenPipeError:
            return None
        status = os.read(self.answer, 4)
        return os.waitstatus_to_exitcode(*struct.unpack("=i", status)) if status else None

    def end(self):
        os.close(self.ask)
        os.close(self.answer)
        os.waitpid(self.child, 0)


class Place:
    """A process's own files, for one run after the other."""

    SERVERS = 8

    def __init__(self, program, shim, folder):
        self.program = program
        self.name = os.path.join(folder, f"run-{os.getpid()}")
        self.environment = {"LD_PRELOAD": shim}
        self.files = {}
        for name in ("report", "output", "errors"):
            path = f"{self.name}.{name}"
            self.files[name] = os.open(path, os.O_RDWR | os.O_CREAT | os.O_TRUNC)
            self.environment["HOSTILE_" + name.upper()] = path
        os.ftruncate(self.files["report"], 4096)
        self.servers = {}
        self.known = {}

    def run(self, words, read="/dev/null", plan="", limit=20.0):
        """One run: its words, the file that it reads, and what fails."""
        key = (*words, read)
        server = self.servers.pop(key, None) or Server(self, words, read)
        self.servers[key] = server
        if len(self.servers) > self.SERVERS:
            self.servers.pop(next(iter(self.servers))).end()
        start = time.monotonic()
        status = server.run(plan, limit)
        if status is None:
            raise RuntimeError(f"{self.program} doesn't start with the shim")
        return self.answer(status, time.monotonic() - start)

    def run_alone(self, words, read, streams, usual_signals=(signal.SIGPIPE,)):
        """One run in a process of its own, without a plan. `streams` are file actions, which come
        after those of the usual streams. Python ignores SIGPIPE, and so does the program unless it is
        one of the usual signals."""
        actions = [(os.POSIX_SPAWN_OPEN, 0, read, os.O_RDONLY, 0)]
        for number, name in ((1, "output"), (2, "errors")):
            os.ftruncate(self.files[name], 0)
            os.lseek(self.files[name], 0, os.SEEK_SET)
            actions.append((os.POSIX_SPAWN_DUP2, self.files[name], number))
        os.pwrite(self.files["report"], bytes(LAYOUT.size), 0)
        child = os.posix_spawn(
            self.program,
            [self.program, *words],
            self.environment,
            file_actions=actions + streams,
            setsigdef=usual_signals,
        )
        _, status = os.waitpid(child, 0)
        return self.answer(os.waitstatus_to_exitcode(status), 0)

    def answer(self, status, seconds):
        output, errors = (
            os.pread(file, os.fstat(file).st_size, 0)
            for file in (self.files["output"], self.files["errors"])
        )
        return Answer(status, output, errors, self.counts(), seconds)

    def counts(self):
        found = LAYOUT.unpack(os.pread(self.files["report"], LAYOUT.size, 0))
        requests = dict(zip(KINDS, found[1:6]))
        disturbed = dict(zip(KINDS, found[6:11]))
        calls = [tuple(found[at : at + 4]) for at in (11, 15, 19, 23)]
        name = found[30].split(b"\0")[0]
        return Counts(
            found[0] == 1, requests, disturbed, *calls, found[27], found[28] - 1, found[29], name
        )

    def undisturbed(self, words, text=b""):
        """The answer to these words and this text on standard input, kept for the next time."""
        key = (tuple(words), text)
        if key not in self.known:
            self.known[key] = self.run(words, self.file("input", text or b""))
        return self.known[key]

    def file(self, name, bytes_):
        """A file of this process's own with these bytes."""
        path = f"{self.name}.{name}"
        with open(path, "wb") as file:
            file.write(bytes_)
        return path


place = None


def settle(program, shim, folder):
    """Gives this process its place."""
    global place
    os.chdir(folder)
    resource.setrlimit(resource.RLIMIT_CORE, (0, 0))
    place = Place(program, shim, folder)
    return place


def each(work, tasks, program, shim, folder):
    """Does the work of each task in some process, and gives what it returns, in no order."""
    processes = int(os.environ.get("HOSTILE_PROCESSES", 2 * (os.cpu_count() or 1)))
    with multiprocessing.get_context("fork").Pool(
        processes, settle, (program, shim, folder)
    ) as pool:
        yield from pool.imap_unordered(work, tasks, chunksize=8)
