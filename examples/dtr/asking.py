"""What the scripts of this folder share: the built programs, services, and how a run of `dtr` is told."""
import contextlib
import json
import os
import pathlib
import socket
import subprocess
import sys
import tempfile
import threading

HERE = pathlib.Path(__file__).resolve().parent
DTRACED = sys.argv[1] if len(sys.argv) > 1 else str(HERE / "../../crates/dtraced/out/dtraced")
DTR = sys.argv[2] if len(sys.argv) > 2 else str(HERE / "../../crates/dtr/out/dtr")
MACHINE = HERE / "machine.json"
# how long a run may take by the clock, in seconds: none comes near it
PATIENCE = 120
# the environment, without what would make pages narrow
PLAIN = {name: value for name, value in os.environ.items() if name != "COLUMNS"}
ENABLED, DONE = json.dumps({"count": 1, "first": 1, "ok": True}), json.dumps({"ok": True})


def tell(name, words, before=(), **how):
    """Runs the program with these words, and others before it, and prints how it ended: the end of standard input is there at once, if nothing else is said."""
    how = {"stdin": subprocess.DEVNULL, "stdout": subprocess.PIPE, "env": PLAIN} | how
    ended = subprocess.run([*before, DTR, *map(str, words)], stderr=subprocess.PIPE, text=True, check=False, timeout=PATIENCE, **how)
    print(f"{name}: status {ended.returncode}\n{ended.stderr}{ended.stdout or ''}", end="")


def begun(words, **how):
    """The program, running with these words, whose standard input stays open; it has said how many probes matched. It is killed where it takes too long,
    so that what is read of it comes or ends."""
    how = {"stdin": subprocess.PIPE, "stdout": subprocess.PIPE, "env": PLAIN} | how
    client = subprocess.Popen([DTR, *map(str, words)], stderr=subprocess.PIPE, bufsize=0, **how)
    limit = threading.Timer(PATIENCE, client.kill)
    limit.daemon = True
    limit.start()
    print(client.stderr.readline().decode(), end="")
    return client


def ended(name, client, shown=b""):
    """Prints how a program ended that was begun, with what it wrote before (`shown`)."""
    said = client.stderr.read().decode()
    status = client.wait(PATIENCE)
    print(f"{name}: status {status}\n{said}{shown.decode()}", end="")


class Service:
    """A service of a machine, with its sockets in a folder of its own."""

    def __init__(self, folder, machine):
        self.folder = folder
        words = [DTRACED, "serve", str(machine), folder]
        self.process = subprocess.Popen(words, stdin=subprocess.PIPE, stdout=subprocess.PIPE, text=True)
        self.process.stdout.readline()

    def socket_of(self, account):
        return f"{self.folder}/{account}.sock"

    def step(self, cpu, count):
        """Lets a processor make so many firings, and waits until it has."""
        print(f"step {cpu} {count}", file=self.process.stdin, flush=True)
        self.process.stdout.readline()


@contextlib.contextmanager
def serving(machine=MACHINE):
    """A service, which is ended."""
    with tempfile.TemporaryDirectory() as folder:
        service = Service(folder, machine)
        try:
            yield service
        finally:
            if service.process.poll() is None:
                service.process.communicate("quit\n", timeout=PATIENCE)


def answering(path, replies):
    """A service of this script that gives these replies, one to each line, and then ends the connection. What it is asked comes into the list that is given back."""
    asked = []
    listener = socket.socket(socket.AF_UNIX)
    listener.bind(path)
    listener.listen(1)

    def serve():
        connection, _ = listener.accept()
        with connection, connection.makefile("rb") as lines:
            for reply in replies:
                asked.append(json.loads(lines.readline())["cmd"])
                connection.sendall(reply.encode("latin-1") + b"\n")
            # the line that gets no reply
            lines.readline()

    threading.Thread(target=serve, daemon=True).start()
    return asked
