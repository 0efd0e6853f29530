"""What the benches share: a machine on which one probe fires, and the processor time that its step lines take."""
import collections
import json
import os
import pathlib
import re
import resource
import subprocess
import sys
import time

CPUS = 4
FIRINGS = 16_384
PROGRAM = pathlib.Path(__file__).parent.parent / "crates" / "dtraced" / "out" / "dtraced"


def program():
    """The program to measure: the first word, or the proved one, as `rt run` leaves it."""
    return programs()[0]


def programs(default=PROGRAM):
    """The programs that the words name, or the proved one."""
    words = sys.argv[1:]
    return [word for before, word in zip(["", *words], words) if not word.startswith("-") and before != "--callgrind"] or [str(default)]


def machine(firings=FIRINGS):
    """The machine file: one probe fires, so often on each processor, and another never does."""
    script = [{"probe": 3, "pid": 100, "args": [place]} for place in range(firings)]
    return json.dumps({
        "cpus": CPUS,
        "accounts": [{"name": "root", "uid": 0, "privs": ["dtrace_kernel"]}],
        "processes": [{"pid": 100, "uid": 501, "execname": "sh"}],
        "probes": ["syscall::read:entry", "profile:::tick-1sec"],
        "scripts": [script] * CPUS,
    })


def call(seat=0, **line):
    """A step line that asks a line of the session on a seat."""
    return f"call {seat} " + json.dumps(line, separators=(",", ":"))


def time_so_far(pid):
    """The processor time of a running program, in seconds."""
    return int(pathlib.Path(f"/proc/{pid}/schedstat").read_text().split()[0]) / 1e9


def time_of(program, path, text):
    """The processor time that the program takes for the step lines alone: they are sent only when it waits for them."""
    with subprocess.Popen([program, "replay", path], stdin=subprocess.PIPE, stdout=subprocess.DEVNULL) as running:
        before = -1.0
        while before != time_so_far(running.pid):
            before = time_so_far(running.pid)
            time.sleep(0.1)
        running.stdin.write(text)
        running.stdin.close()
        _pid, status, used = os.wait4(running.pid, 0)
        running.returncode = os.waitstatus_to_exitcode(status)
    if running.returncode != 0:
        sys.exit("the program failed")
    return used.ru_utime + used.ru_stime - before


def cost_of(*words, stdin=os.devnull, stdout=subprocess.DEVNULL, space=resource.RLIM_INFINITY):
    """The processor time of a run of the program in seconds, and the most memory that it had, in kilobytes; but no less than this script had. Nothing where
    the program was given so much space, and ended with a fault."""
    with open(stdin, "rb") as given:
        running = subprocess.Popen([program(), *map(str, words)], stdin=given, stdout=stdout, stderr=subprocess.DEVNULL)
    resource.prlimit(running.pid, resource.RLIMIT_AS, (space, space))
    _pid, status, used = os.wait4(running.pid, 0)
    running.returncode = os.waitstatus_to_exitcode(status)
    if running.returncode == 1 and space != resource.RLIM_INFINITY:
        return None
    if running.returncode != 0:
        sys.exit("the program failed")
    return used.ru_utime + used.ru_stime, used.ru_maxrss


def counted(command, text=b"", kept=os.devnull):
    """The instructions of a whole run (by Debian's valgrind): the same in each run. What callgrind writes goes into the file that is named."""
    words = ["valgrind", "--tool=callgrind", f"--callgrind-out-file={kept}", *map(str, command)]
    done = subprocess.run(words, input=text, stdout=subprocess.DEVNULL, stderr=subprocess.PIPE)
    found = re.search(rb"Collected : (\d+)", done.stderr)
    if done.returncode != 0 or not found:
        sys.exit("valgrind or the program failed")
    return int(found.group(1))


def instructions_of(program, path, text, kept=os.devnull):
    """The instructions of a whole replay, the machine's reading too."""
    return counted([program, "replay", path], text, kept)


def kept_in():
    """The folder in which what callgrind writes is to stay, if the words name one: `--callgrind FOLDER`."""
    if "--callgrind" not in sys.argv:
        return None
    place = sys.argv.index("--callgrind")
    folder = pathlib.Path((sys.argv[place + 1:] or ["callgrind"])[0])
    folder.mkdir(parents=True, exist_ok=True)
    return folder


def by_function(path):
    """The instructions of each function in a file of callgrind's, without those of the functions that it calls."""
    names, found, calls, name = {}, collections.Counter(), False, ""
    for line in path.read_text(encoding="utf-8", errors="replace").split("\n"):
        if line.startswith("fn="):
            number, _blank, told = line.removeprefix("fn=").partition(" ")
            name = names.setdefault(number, told)
        elif line.startswith("cfn="):
            number, _blank, told = line.removeprefix("cfn=").partition(" ")
            names.setdefault(number, told)
        elif line.startswith("calls="):
            calls = True
        elif re.match(r"[-+*0-9]", line):
            found[re.sub(r"'\d+$", "", name)] += 0 if calls else int(line.split()[-1])
            calls = False
    return found


def told_by(spent, few=10):
    """In which functions instructions are spent, by their last names: those with fewer than so many are told together."""
    told = {name: round(cost) for name, cost in spent.items() if round(cost) >= few}
    names = [f"{cost} `{last_names(name)}`" for name, cost in sorted(told.items(), key=lambda it: -it[1])]
    others = round(sum(spent.values())) - sum(told.values())
    return ", ".join(names + [f"{others} others"])


def last_names(name):
    """A function's name with its type's, without its crate, its modules and what it is made for."""
    parts = re.sub(r"::<#[0-9a-f]+>$", "", name).split("::")
    return "::".join(parts[-2:] if len(parts) > 1 and parts[-2][:1].isupper() else parts[-1:])
