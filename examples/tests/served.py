"""A service over its sockets: the built program as `serve`, with clients of this script and with `send`."""
import contextlib
import json
import os
import pathlib
import re
import resource
import select
import shutil
import signal
import socket
import stat
import subprocess
import sys
import tempfile
import threading
import time

from running import FIRINGS_MAX, HISTORY_MAX, LINES_MAX, OK, PROGRAM, fired, judge, machine

sys.path.append(str(pathlib.Path(__file__).resolve().parents[2] / "tests"))
import built
from built import PATIENCE, STATUS

SEATS = 256
# how many bytes a trail of the longest history has at least: 16 for each firing
TRAIL_BYTES = 16 * HISTORY_MAX
# how many descriptors a service may have that is short of them
DESCRIPTORS = 40
NOBODY = 65_534
STATUS_REPLY = b'{"aggdrops":[0],"cause":null,"dyndrops":[0],"errors":[0],"exit":null,"ok":true,"phase":"inactive","seen":0,"specdrops":[0],"specfails":0}\n'
FULL = b'{"error":17,"name":"Full"}\n'
NO_PRIVILEGE = b'{"error":18,"name":"NoPrivilege"}\n'
QUOTA = b'{"error":15,"name":"Quota"}\n'
BAD_JSON = b'{"error":1,"name":"Json"}\n'
NO_REQUEST = b'{"error":2,"name":"Request"}\n'
# how deep a line may be nested
LEVELS = 127
# a stack that is large enough for all threads but those that read lines
SMALL_STACK = 64 * 1024
OPEN_STEP = re.compile(r"(open|call|fire|close) ([0-9]+) ?(.*)", re.S)


@contextlib.contextmanager
def serving(text, **more):
    """A service of a machine."""
    with tempfile.TemporaryDirectory() as name:
        path = pathlib.Path(name) / "machine.json"
        path.write_text(text, encoding="utf-8")
        with built.serving(PROGRAM, path, **more) as service:
            yield service


def played(service, steps):
    """The replies of a row's steps, by `send` for each session, and what came of each firing, by `step`."""
    clients, found, made = {}, [], []
    for step in steps:
        word, number, more = OPEN_STEP.fullmatch(step).groups()
        if word == "open":
            words = [PROGRAM, "send", service.socket_of(more)]
            clients[number] = subprocess.Popen(words, stdin=subprocess.PIPE, stdout=subprocess.PIPE)
        elif word == "call":
            clients[number].stdin.write(more.encode() + b"\n")
            clients[number].stdin.flush()
            found.append(f"{number} {clients[number].stdout.readline().decode()}")
        elif word == "fire":
            made.append(service.says(f"step {number} 1".encode()))
        else:
            end(clients.pop(number))
    for client in clients.values():
        end(client)
    return "".join(found), made


def makes(text, steps):
    """What a machine's service says to a row's firings: each makes the next one of its script, or none."""
    left = [len(script) for script in json.loads(text)["scripts"]]
    for step in steps:
        word, number, _more = OPEN_STEP.fullmatch(step).groups()
        if word == "fire":
            count = min(left[int(number)], 1)
            left[int(number)] -= count
            yield f"fired {number} {count}\n".encode()


def end(client):
    client.stdin.close()
    client.stdout.close()
    client.wait(PATIENCE)


def rows(_folder):
    """The worked rows that sessions on the first seats play."""
    count = 0
    for row in sorted(pathlib.Path("rows").iterdir()):
        if not (row / "steps").is_file() or any((row / it).exists() for it in ("args", "error")) or not (row / "answer").is_file():
            continue
        steps = (row / "steps").read_text(encoding="utf-8").split("\n")[:-1]
        if not all(re.match(r"(open [0-9]+ |call [0-9]+ |fire [0-9]+$|close [0-9]+$)", step) for step in steps):
            continue
        path = row / "machine.json" if (row / "machine.json").is_file() else row.parent / "machine.json"
        text = path.read_text(encoding="utf-8")
        with serving(text) as service:
            yield f"{row} by a service", played(service, steps), ((row / "answer").read_text(encoding="utf-8"), [*makes(text, steps)])
        count += 1
    # a row of other words is passed over: so it is looked that not all are
    yield "so many rows by a service", count >= 100, True


def all_seats(_folder):
    """As many connections at once as there are seats, and one too many."""
    with serving(machine([[]])) as service:
        clients = [service.client() for _ in range(SEATS)]
        yield "sessions on all seats", {client.ask(STATUS) for client in clients}, {STATUS_REPLY}
        late = service.client()
        yield "one too many is told", (late.reply(), late.reply()), (FULL, b"")
        words = [PROGRAM, "send", service.socket_of("root")]
        sent = subprocess.run(words, input=STATUS, stdout=subprocess.PIPE, stderr=subprocess.PIPE, check=False)
        yield "and by send", (sent.stdout, sent.stderr, sent.returncode), (FULL, b"", 0)
        sent = subprocess.run(words, input=STATUS + STATUS, stdout=subprocess.PIPE, stderr=subprocess.PIPE, check=False)
        yield "a second line has no reply", (sent.stdout, sent.stderr, sent.returncode), (FULL, b"fault\n", 1)
        late.close()
        clients.pop().close()
        yield "a seat that was given back", status_after_a_while(service), STATUS_REPLY
        for client in clients:
            client.close()


def seated(service):
    """A new client that was answered, once a seat is free: the end of a connection is seen by its thread. None: no seat became free."""
    end = time.monotonic() + PATIENCE
    while time.monotonic() < end:
        client = service.client()
        if client.ask(STATUS) == STATUS_REPLY:
            return client
        client.close()
        time.sleep(0.001)
    return None


def status_after_a_while(service):
    """The status line of a new session, once a seat is free."""
    client = seated(service)
    if not client:
        return FULL
    reply = client.ask(STATUS)
    client.close()
    return reply


def killed_in_a_line(service):
    """Whether a client in a process of its own was answered; then it is killed in the middle of a line."""
    told, tell = os.pipe()
    process = os.fork()
    if process == 0:
        try:
            client = seated(service)
            if client:
                client.send(STATUS[:10])
            os.write(tell, b"1" if client else b"0")
            signal.pause()
        finally:
            os._exit(1)
    # so that a client that ends without a word ends this read
    os.close(tell)
    answered = os.read(told, 1) == b"1"
    os.kill(process, signal.SIGKILL)
    os.waitpid(process, 0)
    os.close(told)
    return answered


def comes_and_goes(_folder):
    """A client that is killed in the middle of a line, and its seat opened again, a thousand times, while all other seats are taken."""
    with serving(machine([[]])) as service:
        others = [service.client() for _ in range(SEATS - 1)]
        yield "all other seats are taken", {client.ask(STATUS) for client in others}, {STATUS_REPLY}
        yield "each of a thousand clients that were killed was answered", sum(killed_in_a_line(service) for _ in range(1_000)), 1_000
        yield "a seat after them", status_after_a_while(service), STATUS_REPLY
        resident = service.resident()
        yield "others are served", {client.ask(STATUS) for client in others}, {STATUS_REPLY}
        for client in others:
            client.close()
        yield "less memory than a gigabyte", resident < 1 << 30, True


def gives_back(_folder):
    """The trail of a session that traces with the longest history is given back as the session ends, by processors that fired for it and have nothing to do."""
    tracing = [{"cmd": "option", "name": "histsize", "value": HISTORY_MAX}, {"cmd": "enable", "text": "read:entry{@calls = count()}"}, {"cmd": "go"}]
    with serving(machine([[fired(7)], [fired(8)]])) as service:
        client = service.client()
        yield "it traces", [client.ask(json.dumps(line).encode() + b"\n") for line in tracing], [OK.encode() + b"\n", b'{"count":1,"first":1,"ok":true}\n', OK.encode() + b"\n"]
        yield "both processors fire for it", [service.says(b"step %d 1" % cpu) for cpu in (0, 1)], [b"fired 0 1\n", b"fired 1 1\n"]
        resident = service.resident()
        client.close()
        # well before the service is killed for its length
        end = time.monotonic() + PATIENCE / 4
        while resident - service.resident() < TRAIL_BYTES / 2 and time.monotonic() < end:
            time.sleep(0.01)
        yield "most of its memory is given back", resident - service.resident() >= TRAIL_BYTES / 2, True


def gives_back_beside(_folder):
    """The same of many sessions beside a large machine, where the C library is told to ask the system for each large block: by itself it keeps them, once larger ones were freed."""
    with serving(machine([[fired(7)] * FIRINGS_MAX]), env={**os.environ, "MALLOC_MMAP_THRESHOLD_": "131072"}) as service:
        empty = service.resident()
        clients = [service.client() for _ in range(64)]
        yield "they are answered", {client.ask(STATUS) for client in clients}, {STATUS_REPLY}
        full = service.resident()
        for client in clients:
            client.close()
        end = time.monotonic() + PATIENCE / 4
        while service.resident() - empty > (full - empty) / 4 and time.monotonic() < end:
            time.sleep(0.01)
        yield "most of their memory is given back", service.resident() - empty <= (full - empty) / 4, True


def never_reads(_folder):
    """A client that floods and never reads costs another nothing."""
    with serving(machine([[fired(7)]])) as service:
        flood = service.client()
        flood.to.setblocking(False)
        sent = 0
        with contextlib.suppress(BlockingIOError):
            while sent < 1 << 26:
                sent += flood.to.send(b'{"cmd":"list","probe":""}\n' * 64)
        yield "a client that doesn't read is held back", sent < 1 << 26, True
        other = service.client()
        before = time.monotonic()
        found = [other.ask(STATUS) for _ in range(100)]
        yield "another is served beside it", set(found), {STATUS_REPLY}
        yield "and waits for nobody", time.monotonic() - before < 10, True
        yield "a processor fires beside it", service.says(b"step 0 1"), b"fired 0 1\n"
        flood.close()
        yield "another is served once it is gone", other.ask(STATUS), STATUS_REPLY
        other.close()
        yield "a write to a client that is gone doesn't end the service", service.end().told, (b"", b"", 0)


def spent_meanwhile(service):
    """The processor time that a service takes while this script takes half a second of it: a service that never waits takes about as much, whoever else is at work."""
    before, end = service.spent(), time.process_time() + 0.5
    while time.process_time() < end:
        pass
    return service.spent() - before


def stalls(_folder):
    """A client that stops in the middle of a line, beside another, and a service that has nothing to do."""
    with serving(machine([[]])) as service:
        stalled, other = service.client(), service.client()
        stalled.send(STATUS[:10])
        yield "another is served while half a line waits", [other.ask(STATUS) for _ in range(3)], [STATUS_REPLY] * 3
        yield "a service with nothing to do takes no processor time", spent_meanwhile(service) < 0.1, True
        yield "the line's other half", stalled.ask(STATUS[10:]), STATUS_REPLY
        stalled.close()
        other.close()


def cut_anywhere(_folder):
    """Lines that come a byte at a time, several in one piece, and a rest that is no line."""
    with serving(machine([[]])) as service:
        client = service.client()
        for byte in STATUS[:-1]:
            client.send(bytes([byte]))
        yield "a line a byte at a time", client.ask(b"\n"), STATUS_REPLY
        client.send(STATUS * 3)
        yield "three lines at once", [client.reply() for _ in range(3)], [STATUS_REPLY] * 3
        client.send(b'{"cmd":"status"}')
        client.to.shutdown(socket.SHUT_WR)
        yield "a rest is no line", client.reply(), b""
        client.close()
        client = service.client()
        client.send(b"x" * 65_537 + b"\n")
        yield "a long line", client.reply(), b'{"error":3,"name":"LineLong"}\n'
        client.close()


def session_ends(_folder):
    """A session ends with its `close`, and with the line that is over its quota."""
    with serving(machine([[]], names=("root", "ann", "joe"))) as service:
        client = service.client()
        client.send(b'{"cmd":"close"}\n' + STATUS)
        yield "close", (client.reply(), client.reply()), (OK.encode() + b"\n", b"")
        client.close()
        client = service.client("ann")
        feeder = threading.Thread(target=client.send, args=(STATUS * (LINES_MAX + 2),))
        feeder.start()
        found = [client.reply() for _ in range(LINES_MAX + 2)]
        feeder.join()
        yield "quota", (set(found[:LINES_MAX]), found[LINES_MAX:]), ({STATUS_REPLY}, [QUOTA, b""])
        client.close()
        client = service.client("joe")
        yield "no privilege", (client.reply(), client.reply()), (NO_PRIVILEGE, b"")
        client.close()


def commands(_folder):
    """The lines that command a service."""
    with serving(machine([[fired(7)] * 3, []])) as service:
        yield "ready", service.begun, b"ready\n"
        for line, answer in [("step 0 1", "fired 0 1"), ("step 0 0", "fired 0 0"), ("step 0 5", "fired 0 2"), ("step 0 1", "fired 0 0"),
                             ("step 1 4294967295", "fired 1 0"), ("step 2 1", "refused"), ("step 0", "refused"), ("step  0 1", "refused"),
                             ("step 0 1 ", "refused"), ("step 00 1", "refused"), ("step 0 4294967296", "refused"), ("", "refused"),
                             ("Quit", "refused"), ("quit ", "refused"), ("x" * 70_000, "refused")]:
            yield f"the command '{line[:20]}'", service.says(line.encode()), answer.encode() + b"\n"
        for name in ("root",):
            mode = os.stat(service.socket_of(name))
            yield "a socket is its owner's alone", (stat.S_ISSOCK(mode.st_mode), stat.S_IMODE(mode.st_mode)), (True, 0o600)
        client = service.client()
        yield "a session before the end", client.ask(STATUS) != b"", True
        yield "quit", service.end().told, (b"", b"", 0)
        yield "the sockets are gone", os.listdir(service.folder), []
        yield "and so is the session", client.reply(), b""
    with serving(machine([[]])) as service:
        yield "the end of the input", (service.end(b"step 0 1").told, os.listdir(service.folder)), ((b"", b"", 0), [])
    with serving(machine([[]])) as service:
        service.run.stdin.close()
        yield "input that is closed at once", (service.run.wait(PATIENCE), service.run.stdout.read(), os.listdir(service.folder)), (0, b"", [])
    with serving(machine([[]])) as service:
        service.run.stdout.close()
        service.run.stdin.write(b"step 0 1\n")
        service.run.stdin.flush()
        yield "output that is closed", (service.run.wait(PATIENCE), service.run.stderr.read(), os.listdir(service.folder)), (1, b"fault\n", [])


def long_steps(_folder):
    """Steps through a script of the longest, while a session traces: each firing is made, and seen, once."""
    with serving(machine([[fired(7)] * FIRINGS_MAX])) as service:
        client = service.client()
        for line in (b'{"cmd":"option","name":"histsize","value":%d}\n' % FIRINGS_MAX,
                     b'{"cmd":"enable","text":"syscall::read:entry{@c=count()}"}\n', b'{"cmd":"go"}\n'):
            client.ask(line)
        for count, made in ((40_000, 40_000), (FIRINGS_MAX, FIRINGS_MAX - 40_000), (1, 0)):
            yield f"a step of {count}", service.says(b"step 0 %d" % count), b"fired 0 %d\n" % made
        yield "what was seen", client.ask(b'{"cmd":"agg","name":"c"}\n'), \
            b'{"fn":"count","name":"c","ok":true,"rows":[{"key":[],"value":%d}]}\n' % FIRINGS_MAX


def no_threads(folder):
    """A service that may start too few threads, or just enough: by somebody who isn't root, for whom there is a limit."""
    sockets = folder / "sockets"
    sockets.mkdir()
    program, path = folder / "dtraced", folder / "machine.json"
    shutil.copy(PROGRAM, program)
    path.write_text(machine([[], []], names=("root", "ann")), encoding="utf-8")
    who = {}
    if os.geteuid() == 0:
        who = {"user": NOBODY}
        folder.chmod(0o755)
        os.chown(sockets, NOBODY, NOBODY)
    # the program's own thread, and then the hub's, two processors' and two sockets'
    for threads in range(1, 7):
        ran = subprocess.run([str(program), "serve", str(path), str(sockets)], stdin=subprocess.DEVNULL, stdout=subprocess.PIPE, stderr=subprocess.PIPE,
                             check=False, timeout=PATIENCE, preexec_fn=lambda most=threads: resource.setrlimit(resource.RLIMIT_NPROC, (most, most)), **who)
        told = (b"", b"fault\n", 1) if threads < 6 else (b"ready\n", b"", 0)
        yield f"{threads} threads at most", (ran.stdout, ran.stderr, ran.returncode, os.listdir(sockets)), (*told, [])


def no_descriptors(_folder):
    """More clients than a service has descriptors for: they wait, and so does it, until a session ends."""
    with serving(machine([[]])) as service:
        room = limited(service)
        clients = [service.client() for _ in range(room)]
        yield "sessions on all descriptors", (room > DESCRIPTORS // 2, {client.ask(STATUS) for client in clients}), (True, {STATUS_REPLY})
        late = [service.client() for _ in range(4)]
        for client in late:
            client.send(STATUS)
        yield "a service that can't accept takes no processor time", spent_meanwhile(service) < 0.1, True
        yield "its sessions are answered", {client.ask(STATUS) for client in clients}, {STATUS_REPLY}
        yield "nobody else is", replies(late, 0), [b""] * 4
        clients.pop().close()
        yield "who waits is answered once a session has ended", replies(late[:1]), [STATUS_REPLY]
        for client in clients:
            client.close()
        yield "and so are all others", replies(late[1:]), [STATUS_REPLY] * 3
        yield "and each that comes", [status_after_a_while(service) for _ in range(DESCRIPTORS)], [STATUS_REPLY] * DESCRIPTORS
        yield "its end", (service.end().told, os.listdir(service.folder)), ((b"", b"", 0), [])
        for client in late:
            client.close()


def limited(service):
    """How many descriptors a service may still open, once it may have no more than these."""
    resource.prlimit(service.run.pid, resource.RLIMIT_NOFILE, (DESCRIPTORS, DESCRIPTORS))
    return DESCRIPTORS - len(os.listdir(f"/proc/{service.run.pid}/fd"))


def replies(clients, seconds=PATIENCE):
    """The next reply to each of these clients, of those that come within so many seconds."""
    end = time.monotonic() + seconds
    return [client.reply() if select.select([client.to], [], [], max(0, end - time.monotonic()))[0] else b"" for client in clients]


def refused(folder):
    """Services that don't start, and one that ends at once."""
    path = folder / "machine.json"
    sockets = folder / "sockets"
    sockets.mkdir()

    def starts():
        ran = subprocess.run([PROGRAM, "serve", str(path), str(sockets)], stdin=subprocess.DEVNULL, stdout=subprocess.PIPE, stderr=subprocess.PIPE,
                             check=False, timeout=PATIENCE)
        return ran.stdout, ran.stderr, ran.returncode

    yield "no machine file", starts(), (b"", b"fault\n", 1)
    path.write_text(machine([[]], cpus=0), encoding="utf-8")
    yield "a machine that is refused", starts(), (b"", b"machine refused 3 at 0 0\n", 1)
    path.write_text(machine([[]], names=("root", "ann", "bob")), encoding="utf-8")
    yield "a service whose input is at its end", (starts(), os.listdir(sockets)), ((b"ready\n", b"", 0), [])
    (sockets / "ann.sock").write_text("mine", encoding="utf-8")
    yield "a path that is there", (starts(), sorted(os.listdir(sockets)), (sockets / "ann.sock").read_text(encoding="utf-8")), ((b"", b"fault\n", 1), ["ann.sock"], "mine")
    (sockets / ".new").mkdir()
    yield "the folder that sockets are made in is there", (starts(), sorted(os.listdir(sockets))), ((b"", b"fault\n", 1), [".new", "ann.sock"])
    sockets = folder / "missing"
    yield "no folder", starts(), (b"", b"fault\n", 1)
    # in a socket's path there is room for 102 bytes
    for length, told in ((102, (b"ready\n", b"", 0)), (103, (b"", b"fault\n", 1))):
        sockets = folder / ("x" * (length - len(f"{folder}//root.sock")))
        sockets.mkdir()
        yield f"a path of {length} bytes", (starts(), os.listdir(sockets)), (told, [])
    # else these would be paths of the root's
    sockets = ""
    yield "a folder without a name", starts(), (b"", b"fault\n", 1)
    ran = subprocess.run([PROGRAM, "send", str(folder / "nobody")], input=STATUS, stdout=subprocess.PIPE, stderr=subprocess.PIPE, check=False)
    yield "nobody at a path", (ran.stdout, ran.stderr, ran.returncode), (b"", b"fault\n", 1)


def closed_streams(_folder):
    """A client whose standard input or output is closed: its connection isn't taken for either."""
    with serving(machine([[]])) as service:
        words = [PROGRAM, "send", str(service.socket_of("root"))]
        ran = subprocess.run(words, stdout=subprocess.PIPE, stderr=subprocess.PIPE, check=False, timeout=PATIENCE, preexec_fn=lambda: os.close(0))
        yield "a client without an input", (ran.stdout, ran.stderr, ran.returncode), (b"", b"fault\n", 1)
        ran = subprocess.run(words, input=STATUS * 2, stderr=subprocess.PIPE, check=False, timeout=PATIENCE, preexec_fn=lambda: os.close(1))
        yield "a client without an output", (ran.stderr, ran.returncode), (b"fault\n", 1)


def unreadable_inputs(folder):
    """A service whose standard input is closed or set not to block: it says that it is ready, and ends with a fault."""
    path, sockets = pathlib.Path(folder) / "machine.json", pathlib.Path(folder) / "unread"
    path.write_text(machine([[]]), encoding="utf-8")
    sockets.mkdir()
    empty, other = os.pipe()
    os.set_blocking(empty, False)
    for input_is, more in [("closed", {"preexec_fn": lambda: os.close(0)}), ("set not to block", {"stdin": empty})]:
        ran = subprocess.run([PROGRAM, "serve", path, sockets], stdout=subprocess.PIPE, stderr=subprocess.PIPE, check=False, timeout=PATIENCE, **more)
        yield f"an input that is {input_is}", (ran.stdout, ran.stderr, ran.returncode, os.listdir(sockets)), (b"ready\n", b"fault\n", 1, [])
    os.close(empty)
    os.close(other)


def deep_lines(_folder):
    """The deepest line, where the system's own stacks would be too small to read it."""
    with serving(machine([[]]), preexec_fn=lambda: resource.setrlimit(resource.RLIMIT_STACK, (SMALL_STACK, SMALL_STACK))) as service:
        client = service.client()
        yield "a line of brackets alone", client.ask(b"[" * 65_536 + b"\n"), BAD_JSON
        yield "the deepest line that is JSON", client.ask(b"[" * LEVELS + b"]" * LEVELS + b"\n"), NO_REQUEST
        yield "the line after them", client.ask(STATUS), STATUS_REPLY
        client.close()
        yield "its end", service.end().told, (b"", b"", 0)


def others_paths(_folder):
    """A service removes the paths of its own sockets alone."""
    with serving(machine([[]], names=("root", "ann"))) as service:
        path = service.socket_of("root")
        os.remove(path)
        pathlib.Path(path).write_text("mine", encoding="utf-8")
        yield "what isn't a service's stays", (service.end().told, os.listdir(service.folder)), ((b"", b"", 0), ["root.sock"])


signal.signal(signal.SIGPIPE, signal.SIG_IGN)
judge(rows, all_seats, comes_and_goes, gives_back, gives_back_beside, never_reads, stalls, cut_anywhere, session_ends, commands, long_steps, no_threads, no_descriptors, refused,
      closed_streams, unreadable_inputs, deep_lines, others_paths)
