"""What the scripts of these tests share: the machine, the lines of a session, runs of the program, and how answers are judged.

Each script is run as `SCRIPT PROGRAM`. It prints a line for each answer that isn't as it should be, and last how many were and how many
weren't. What is wanted is reckoned by the script, or follows from what two runs of the program promise of each other.
"""
import json
import pathlib
import subprocess
import sys
import tempfile

PROGRAM = sys.argv[1]
LINES_MAX = 1_024
FIRINGS_MAX = 65_536
HISTORY_MAX = 1_048_576
OK = '{"ok":true}'
PRIVILEGES = {"root": (0, "dtrace_kernel"), "ann": (501, "dtrace_user"), "bob": (501, "dtrace_proc"), "joe": (502, "proc_owner")}


def run(*words, text=b""):
    """What the program writes, and its status."""
    ran = subprocess.run([PROGRAM, *map(str, words)], input=text, stdout=subprocess.PIPE, stderr=subprocess.STDOUT, check=False)
    return ran.stdout, ran.returncode


def call(seat=0, **line):
    return f"call {seat} " + json.dumps(line, separators=(",", ":"))


def text_of(steps):
    """The bytes of an input."""
    return "\n".join([*steps, ""]).encode()


def machine(scripts, names=("root",), probes=("syscall::read:entry", "profile:::tick-1sec"), **more):
    """A machine with these scripts, most of which fire the third probe, and accounts of these names; or with other keys in place of its own."""
    return json.dumps({
        "cpus": len(scripts),
        "accounts": [{"name": name, "uid": PRIVILEGES[name][0], "privs": [PRIVILEGES[name][1]]} for name in names],
        "processes": [{"pid": 100, "uid": 501, "execname": "sh"}, {"pid": 200, "uid": 0, "execname": "cron"}],
        "probes": probes,
        "scripts": scripts,
        **more,
    })


def fired(*args, pid=100, **more):
    return {"probe": 3, "pid": pid, "args": args, **more}


def near(limit, least=1):
    """Each power of two up to a limit with its neighbours, and the limit."""
    numbers = {power + by for power in (1 << n for n in range(limit.bit_length())) for by in (-1, 0, 1)} | {limit}
    return sorted(it for it in numbers if least <= it <= limit)


def sessions(path, name, rows):
    """Judges sessions on a machine file: each is a list of steps with their replies, where they have one."""
    steps, wanted = [], []
    for session in rows:
        steps += ["open 0 root", *(step for step, _reply in session), call(cmd="close")]
        wanted += [*(reply for _step, reply in session if reply), OK]
    found, status = run("replay", path, text=text_of(steps))
    found = found.decode().split("\n")[:-1]
    yield f"replies to {name}", (len(found), status), (len(wanted), 0)
    for place, (reply, answer) in enumerate(zip(found, wanted)):
        if reply != "0 " + answer:
            yield f"reply {place + 1} to {name}", reply, "0 " + answer


def enable(text):
    return call(cmd="enable", text=text)


def enabled(count, first=1):
    return f'{{"count":{count},"first":{first},"ok":true}}'


def go():
    return call(cmd="go"), OK


def option(name, value):
    return call(cmd="option", name=name, value=value), OK


def fires(count):
    return [("fire 0", None)] * count


def snap(data, drops=0, filled=False, cpu=0):
    return call(cmd="snap", cpu=cpu), f'{{"cpu":{cpu},"data":"{data}","drops":{drops},"filled":{json.dumps(filled)},"ok":true}}'


def table(function, rows, name=""):
    rows = json.dumps(rows, separators=(",", ":"))
    return call(cmd="agg", name=name), f'{{"fn":"{function}","name":"{name}","ok":true,"rows":{rows}}}'


def status(seen, cause="null", phase="active", aggdrops=0, dyndrops=0, specdrops=0, specfails=0):
    reply = (f'{{"aggdrops":[{aggdrops}],"cause":{cause},"dyndrops":[{dyndrops}],"errors":[0],"exit":null,"ok":true,"phase":"{phase}","seen":{seen},'
             f'"specdrops":[{specdrops}],"specfails":{specfails}}}')
    return call(cmd="status"), reply


def number(value):
    return f"{value % (1 << 64):016x}"


def judge(*parts):
    """Judges what each part finds in a folder of its own: rows of a name, an answer, and the answer that is wanted."""
    right = wrong = 0
    for part in parts:
        with tempfile.TemporaryDirectory() as name:
            for what, found, wanted in part(pathlib.Path(name)):
                right, wrong = right + (found == wanted), wrong + (found != wanted)
                if found != wanted:
                    print(f"{what}: {str(found)[:200]}; wanted {str(wanted)[:200]}")
    print(right, wrong)
