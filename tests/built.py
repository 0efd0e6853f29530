"""What tests/fuzz, tests/refuse and tests/devices share: the worked rows, runs of the built program with what they cost, services of it with their
clients, and sweeps, in which something happens at one place of each run. The services and clients are those of examples/tests/served.py and bench/serve too."""
import argparse
import collections
import concurrent.futures
import contextlib
import dataclasses
import mmap
import os
import pathlib
import re
import resource
import signal
import socket
import struct
import subprocess
import sys
import tempfile
import threading
import time

TOP = pathlib.Path(__file__).resolve().parent.parent
PROGRAM = TOP / "crates" / "dtraced" / "out" / "dtraced"
ROWS = TOP / "examples" / "rows"
MEMORY = b'{"error":16,"name":"Memory"}\n'
STATUS = b'{"cmd":"status"}\n'
# how long a run, a service or a reply may take by the clock, in seconds: none comes near it
PATIENCE = 60
# the address space of a run that opens no sockets, in bytes
SPACE = 6 << 30
STEP = re.compile(rb"(open|call|fire|close) ([0-9]+) ?(.*)", re.S)
# after so many that are off, a sweep is left
WRONG_MAX = 10


@dataclasses.dataclass(frozen=True)
class Ran:
    """What a run of the program wrote, its status (below 0: the signal that ended it), and its processor time in seconds."""
    out: bytes
    error: bytes
    status: int
    seconds: float

    @property
    def told(self):
        return self.out, self.error, self.status


@dataclasses.dataclass(frozen=True)
class Row:
    """A worked row: the program's words with its files, standard input, and what is wanted."""
    name: str
    words: tuple
    steps: bytes
    wanted: tuple

    @property
    def machine(self):
        """The machine file."""
        return next(word for word in self.words if word.endswith("machine.json"))


def bytes_of(path):
    return path.read_bytes() if path.is_file() else b""


def row_of(folder):
    """The worked row of a folder. A word that names a file of it, or of the folder above, is that file."""
    words = bytes_of(folder / "args").decode().split("\n")[:-1] or ["replay", "machine.json"]
    files = [[path for path in (folder / word, folder.parent / word) if path.is_file()] for word in words]
    status = int(bytes_of(folder / "status") or 0)
    wanted = bytes_of(folder / "answer"), bytes_of(folder / "error"), status
    return Row(folder.name, tuple(str(found[0]) if found else word for found, word in zip(files, words)), bytes_of(folder / "steps"), wanted)


def rows():
    """All worked rows, but for the one that stands for many machine files."""
    return [row_of(folder) for folder in sorted(ROWS.iterdir()) if folder.is_dir() and not (folder / "cuts").exists()]


def trail_words(row):
    """The words by which a row's steps write the trail of their first seat; nothing where the row has none."""
    seat = re.match(rb"(?:.*\n)*?open ([0-9]+) ", row.steps)
    return ("replay", row.machine, "--trail", seat[1].decode()) if row.words[0] == "replay" and seat and row.wanted[2] == 0 else None


def trail_of(program, row, folder):
    """The trail of a row's first seat in a file of the folder, and what a check tells of it; nothing where the row has none."""
    words = trail_words(row)
    if not words:
        return None
    text = run(program, *words, text=row.steps).out
    trail = pathlib.Path(folder) / "trail"
    trail.write_bytes(text)
    return trail, (b"agree %d\n" % text.count(b"\nreply "), b"", 0)


def session_steps(row):
    """The steps of a row that sessions at a service can play; nothing of another row."""
    steps = row.steps.split(b"\n")[:-1]
    if row.words[0] != "replay" or len(row.words) > 2 or row.wanted[2] != 0:
        return None
    return steps if all(re.match(rb"(open [0-9]+ |call [0-9]+ |fire [0-9]+$|close [0-9]+$)", step) for step in steps) else None


def run(program, *words, text=b"", **more):
    """Runs the program on these words with this standard input."""
    with tempfile.TemporaryFile() as given, tempfile.TemporaryFile() as out, tempfile.TemporaryFile() as error:
        given.write(text)
        given.seek(0)
        running = subprocess.Popen([str(program), *map(str, words)], stdin=given, stdout=out, stderr=error, **more)
        resource.prlimit(running.pid, resource.RLIMIT_AS, (SPACE, SPACE))
        status, used = ended(running)
        out.seek(0)
        error.seek(0)
        return Ran(out.read(), error.read(), status, used)


def ended(running):
    """The status of a program that runs, once it ends, and its processor time. One that takes too long is killed."""
    watch = threading.Timer(PATIENCE, running.kill)
    watch.start()
    _pid, status, used = os.wait4(running.pid, 0)
    watch.cancel()
    running.returncode = os.waitstatus_to_exitcode(status)
    return running.returncode, used.ru_utime + used.ru_stime


class Service:
    """A service of a machine file, in a folder of sockets. One that doesn't end in time is killed, so that nobody waits for it for ever."""

    def __init__(self, program, machine, folder, patience=PATIENCE, **more):
        self.folder, self.patience = folder, patience
        self.run = subprocess.Popen([str(program), "serve", str(machine), str(folder)], stdin=subprocess.PIPE, stdout=subprocess.PIPE,
                                    stderr=subprocess.PIPE, **more)
        self.watch = self.watched()
        self.begun = self.run.stdout.readline()

    def watched(self):
        """Begins to watch it."""
        watch = threading.Timer(self.patience, self.give_up)
        watch.start()
        return watch

    def give_up(self):
        """Kills it where it hasn't ended; whoever waits for its end sees that."""
        if self.run.returncode is None:
            os.kill(self.run.pid, signal.SIGKILL)

    def wait_again(self):
        """Gives it as long to end as it had at its start."""
        self.watch.cancel()
        self.watch = self.watched()

    def says(self, line):
        """The answer to a line of its standard input; nothing where it has ended."""
        with contextlib.suppress(BrokenPipeError):
            self.run.stdin.write(line + b"\n")
            self.run.stdin.flush()
        return self.run.stdout.readline()

    def socket_of(self, account):
        return self.folder / f"{account}.sock"

    def client(self, account="root"):
        return Client(self.socket_of(account))

    def spent(self):
        """The processor time of all its threads so far, in seconds."""
        # the number that `clock_getcpuclockid` gives the clock of a process
        return time.clock_gettime(~self.run.pid << 3 | 2)

    def resident(self):
        """How many bytes of memory it has."""
        pages = pathlib.Path(f"/proc/{self.run.pid}/statm").read_text(encoding="utf-8").split()[1]
        return int(pages) * os.sysconf("SC_PAGE_SIZE")

    def threads(self):
        """How many threads it has: one more for each connection."""
        status = pathlib.Path(f"/proc/{self.run.pid}/status").read_text(encoding="utf-8")
        return int(re.search(r"^Threads:\s*([0-9]+)$", status, re.M)[1])

    def wait_for_threads(self, count):
        """Waits until it has no more threads than these: all sessions have ended."""
        end = time.monotonic() + PATIENCE
        while self.threads() > count:
            assert time.monotonic() < end, f"{self.threads()} threads are left, of which {count} stay"
            time.sleep(0.001)

    def end(self, line=b"quit\n"):
        """Ends it, and tells what it wrote since, its error, its status and its processor time."""
        with contextlib.suppress(BrokenPipeError):
            self.run.stdin.write(line)
            self.run.stdin.close()
        status, used = ended(self.run)
        return Ran(self.run.stdout.read(), self.run.stderr.read(), status, used)


class Client:
    """A connection of an account's client."""

    def __init__(self, path):
        self.to = socket.socket(socket.AF_UNIX)
        self.to.settimeout(PATIENCE)
        self.to.connect(str(path))
        self.replies = self.to.makefile("rb")

    def send(self, data):
        """Sends bytes, as far as the other side takes them."""
        with contextlib.suppress(BrokenPipeError, ConnectionResetError):
            self.to.sendall(data)

    def reply(self):
        """The next reply; nothing where the connection has ended."""
        try:
            return self.replies.readline()
        except ConnectionResetError:
            return b""

    def ask(self, line):
        self.send(line)
        return self.reply()

    def end(self):
        """Says that no more lines come, waits for the end of the connection, and gives what was still written before it."""
        with contextlib.suppress(OSError):
            self.to.shutdown(socket.SHUT_WR)
        rest = b"".join(iter(self.reply, b""))
        self.close()
        return rest

    def close(self):
        self.replies.close()
        self.to.close()


class Player:
    """Plays a row's steps at a service."""

    def __init__(self, service, steps):
        self.service, self.steps = service, steps
        self.clients, self.accounts, self.found = {}, {}, []

    def connect(self, seat):
        self.clients[seat] = self.service.client(self.accounts[seat])

    def asked(self, seat, line):
        """The reply to a line."""
        return self.clients[seat].ask(line)

    def fired(self, cpu):
        self.service.says(b"step %s 1" % cpu)

    def closed(self, seat):
        self.clients.pop(seat).close()

    def play(self):
        """The replies, as a replay writes them."""
        self.do(self.steps)
        self.leave()
        return b"".join(self.found)

    def do(self, steps):
        """Plays these steps."""
        for step in steps:
            word, number, more = STEP.fullmatch(step).groups()
            if word == b"open":
                self.accounts[number] = more.decode()
                self.connect(number)
            elif word == b"call":
                self.found.append(number + b" " + self.asked(number, more + b"\n"))
            elif word == b"fire":
                self.fired(number)
            else:
                self.closed(number)

    def leave(self):
        """Ends all connections."""
        for seat in list(self.clients):
            self.closed(seat)


@contextlib.contextmanager
def serving(program, machine, **more):
    """A service of a machine file, which is gone afterwards."""
    with tempfile.TemporaryDirectory() as folder:
        service = Service(program, machine, pathlib.Path(folder), **more)
        try:
            yield service
        finally:
            service.watch.cancel()
            if service.run.returncode is None:
                service.run.kill()
                service.run.wait()
            for stream in (service.run.stdin, service.run.stdout, service.run.stderr):
                with contextlib.suppress(BrokenPipeError):
                    stream.close()


# sweeps


class Counts:
    """A file of numbers of 64 bits, which a program under a library of ours shares with its script."""

    def __init__(self, folder, count):
        self.path = pathlib.Path(folder) / "counts"
        self.path.write_bytes(bytes(8 * count))
        with open(self.path, "r+b") as file:
            self.shared = mmap.mmap(file.fileno(), 8 * count)

    def __getitem__(self, place):
        return struct.unpack_from("=Q", self.shared, 8 * place)[0]

    def __setitem__(self, place, number):
        struct.pack_into("=Q", self.shared, 8 * place, number)

    def environment(self, library):
        return {**os.environ, "LD_PRELOAD": str(library), "COUNTS": str(self.path)}


@dataclasses.dataclass(frozen=True)
class Attempt:
    """A run in which something was to happen at one place: whether the run came there, what it came to, and what was off."""
    met: bool
    how: str
    wrong: str = ""


def numbers(each, stride):
    """The places from 1 on: each up to `each`, and then each so many."""
    number = 0
    while True:
        number += 1 if number < each else stride
        yield number


def swept(attempt, places):
    """Makes an attempt at one place after the other until one doesn't come there, and tells what they came to, and what was off."""
    came, wrong = collections.Counter(), []
    for place in places:
        found = told(attempt, place)
        if found.wrong:
            wrong.append(f"at {place}: {found.wrong}")
        if not found.met or len(wrong) == WRONG_MAX:
            break
        came[found.how] += 1
    return came, wrong


def told(attempt, place):
    """An attempt; one that breaks off, as where a service is gone, is off."""
    try:
        return attempt(place)
    except (AssertionError, OSError, ValueError) as error:
        return Attempt(True, "off", f"it broke off by {error!r}")


def shortened(found):
    return re.sub(r"(.{200}).*", r"\1..", str(found))


def compiled(name, folder):
    """The library of a file of C beside this one."""
    library = pathlib.Path(folder) / f"{name}.so"
    subprocess.run(["gcc", "-O2", "-shared", "-fPIC", "-o", library, TOP / "tests" / f"{name}.c"], check=True)
    return library


def words_given(page, parts, all_help):
    """The words of a script that sweeps."""
    words = argparse.ArgumentParser(description=page, formatter_class=argparse.RawDescriptionHelpFormatter)
    words.add_argument("--all", action="store_true", help=all_help)
    words.add_argument("--part", choices=parts, help="one part alone")
    words.add_argument("program", nargs="?", default=PROGRAM)
    chosen = words.parse_args()
    if not os.access(chosen.program, os.X_OK):
        sys.exit("no proved program: run rt ci first")
    return chosen


def swept_jobs(sweep, jobs, what, wanted):
    """Does the jobs, each a part with a row or with none, by two processes; prints what each came to; and gives how many there were, and how many were off.
    Off is too what a part has to meet, by what is wanted of it, and never met."""
    totals, bad = collections.defaultdict(collections.Counter), 0
    with concurrent.futures.ProcessPoolExecutor(2) as pool:
        running = [(part, pool.submit(sweep, part, row)) for part, row in jobs]
        for part, future in running:
            found = future.result()
            if found:
                name, came, wrong = found
                print(f"{name}: {ways(came, what)}", *wrong, sep="\n  ", flush=True)
                totals[part] += came
                bad += len(wrong)
    for part in dict.fromkeys(part for part, _row in jobs):
        print(f"all of {part}: {ways(totals[part], what)}")
        unmet = [name for name in wanted[part] if not any(how.startswith(name) for how in totals[part])]
        bad += len(unmet)
        if unmet:
            print(f"{part} never met: {', '.join(unmet)}")
    return sum(came.total() for came in totals.values()), bad


def ways(came, what):
    """How often runs came to what."""
    return f"{sum(came.values())} {what} (" + ", ".join(f"{count} {way}" for way, count in sorted(came.items())) + ")"
