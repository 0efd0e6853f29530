"""Files and streams that are slow, or that fail at once or in the middle."""
import fcntl
import os
import resource
import socket
import subprocess
import threading

from running import PROGRAM, call, judge, machine, text_of

FAULT = b"fault\n"
REPLY = b'0 {"aggdrops":[0],"cause":null,"dyndrops":[0],"errors":[0],"exit":null,"ok":true,"phase":"inactive","seen":0,"specdrops":[0],"specfails":0}\n'


TRAIL = b"account root\n"
SEEN = b'line {"cmd":"status"}\nreply ' + REPLY[2:]


def session(lines):
    """The input of a session that asks so many lines, what is answered, and its trail."""
    return text_of(["open 0 root", *[call(cmd="status")] * lines]), REPLY * lines, TRAIL + SEEN * lines


INPUT, OUTPUT, TOLD = session(500)


def told(*words, **streams):
    """What the program writes to standard output and to standard error, and its status. Where nobody reads, a write fails."""
    ran = subprocess.run([PROGRAM, *map(str, words)], **{"stdin": subprocess.DEVNULL, "stdout": subprocess.PIPE, "stderr": subprocess.PIPE, **streams},
                         restore_signals=False, check=False)
    return ran.stdout or b"", ran.stderr or b"", ran.returncode


def files(folder):
    """A machine and a trail."""
    path, trail = folder / "machine.json", folder / "trail"
    path.write_text(machine([[]]))
    trail.write_bytes(TRAIL)
    return path, trail


def folders(folder):
    """A folder in place of each file and of the input: it can be opened and can't be read."""
    path, trail = files(folder)
    for more in ((), ("--trail", 0)):
        place = os.open(folder, os.O_RDONLY)
        yield f"an input that is a folder {more}", told("replay", path, *more, stdin=place), (b"", FAULT, 1)
        os.close(place)
        yield f"a machine that is a folder {more}", told("replay", folder, *more), (b"", FAULT, 1)
    yield "a check on a machine that is a folder", told("check", folder, trail), (b"", FAULT, 1)
    yield "a check of a trail that is a folder", told("check", path, folder), (b"", FAULT, 1)


def input_of(content, fails):
    """A stream that gives these bytes, and then fails or ends."""
    ours, theirs = socket.socketpair()
    ours.sendall(content)
    if fails:
        # who closes with bytes left unread breaks the stream for the other, after what was sent
        theirs.send(b"x")
    ours.close()
    return theirs


def broken_inputs(folder):
    """Inputs that fail after so many bytes: nothing is written, whatever came before. Where they end there, they are answered."""
    path, _trail = files(folder)
    answers = {b"": [(b"", b"", 0)] * 2, INPUT: [(OUTPUT, b"", 0), (TOLD, b"", 0)], INPUT[:12]: [(b"", b"", 0), (TRAIL, b"", 0)],
               INPUT[:len(INPUT) // 2]: None, b"no step\n": [(b"", b"line 1: refused\n", 1)] * 2}
    for content, answer in answers.items():
        for place, words in enumerate((("replay", path), ("replay", path, "--trail", 0))):
            with input_of(content, True) as stream:
                yield f"an input that fails after {len(content)} bytes", told(*words, stdin=stream), (b"", FAULT, 1)
            if answer:
                with input_of(content, False) as stream:
                    yield f"an input that ends after {len(content)} bytes", told(*words, stdin=stream), answer[place]


def slow_streams(folder):
    """An input that comes byte by byte, and an output that is taken a hundred bytes at a time."""
    path, _trail = files(folder)
    text, wanted, _told = session(50)
    with subprocess.Popen([PROGRAM, "replay", path], stdin=subprocess.PIPE, stdout=subprocess.PIPE, bufsize=0) as program:
        def give():
            for byte in text:
                program.stdin.write(bytes([byte]))
            program.stdin.close()

        fcntl.fcntl(program.stdout, fcntl.F_SETPIPE_SZ, 4_096)
        giver = threading.Thread(target=give)
        giver.start()
        taken = b"".join(iter(lambda: program.stdout.read(100), b""))
        giver.join()
    yield "slow streams", (taken, program.returncode), (wanted, 0)


def taking(count, folder, *words):
    """What stands where so many bytes are taken, and what the program tells."""
    source, taken = folder / "input", folder / "taken"
    with open(source, "rb") as stream, open(taken, "wb") as output:
        limit = resource.getrlimit(resource.RLIMIT_FSIZE)[1]
        found = told(*words, stdin=stream, stdout=output, preexec_fn=lambda: resource.setrlimit(resource.RLIMIT_FSIZE, (count, limit)))
    return (taken.read_bytes(), *found)


def broken_outputs(folder):
    """Outputs that take so many bytes and then fail: those bytes stand there, and the fault is told. One that takes all is enough."""
    path, _trail = files(folder)
    (folder / "input").write_bytes(INPUT)
    forms = [(("replay", path), OUTPUT, 0), (("replay", path, "--trail", 0), TOLD, 0)]
    for name, text, line, status in (("agree", TOLD, b"agree 500\n", 0), ("differ", TOLD[:-2] + b"\n", b"differs at 500\n", 1),
                                     ("illegal", TRAIL + b"fired 0 0\n", b"illegal at 1\n", 1)):
        (folder / name).write_bytes(text)
        forms.append((("check", path, folder / name), line, status))
    for words, output, status in forms:
        for count in sorted({0, 1, 8, 4_096, 10_000, len(output) - 1}):
            if count < len(output):
                yield f"an output of {words} that takes {count} bytes", taking(count, folder, *words), (output[:count], b"", FAULT, 1)
        yield f"an output of {words} that takes all", taking(len(output), folder, *words), (output, b"", b"", status)
        reader, writer = os.pipe()
        os.close(reader)
        with open(folder / "input", "rb") as stream:
            yield f"{words} to nobody", told(*words, stdin=stream, stdout=writer), (b"", FAULT, 1)
        os.close(writer)


def silent_errors(folder):
    """Where standard error can't be written either, the status tells."""
    path, trail = files(folder)
    with open("/dev/full", "wb") as full:
        for words, status in (((), 2), (("replay", folder), 1), (("replay", folder, "--trail", 0), 1), (("check", path, folder), 1),
                              (("check", path, trail), 0)):
            written = b"agree 0\n" if status == 0 else b""
            yield f"a full standard error for {words}", told(*words, stderr=full), (written, b"", status)


judge(folders, broken_inputs, slow_streams, broken_outputs, silent_errors)
