"""Trails: what `replay --trail` writes, `check` finds to agree; and what it finds of trails that were changed in one place.

Where a trail agrees, all before the change is in order, so the place that is named is the changed one.
"""
import json
import random

from running import FIRINGS_MAX, HISTORY_MAX, LINES_MAX, call, fired, judge, machine, run, text_of

CPUS = 4
SESSIONS = 1_800
CHANGED = 150


def items_of(trail):
    """A trail's first line, and its items: a firing alone, a line or a long line with its reply."""
    first, *lines = trail.decode().split("\n")[:-1]
    items = []
    for line in lines:
        if line.startswith("reply "):
            items[-1].append(line)
        else:
            items.append([line])
    return first, items


def text(first, items):
    return text_of([first, *(line for item in items for line in item)])


def checked(path, trail, content):
    trail.write_bytes(content)
    return run("check", path, trail)


def longest_trail(folder):
    """A session that asks as many lines as its quota allows and sees as many firings as a script may have; and changes at its end."""
    each = FIRINGS_MAX // CPUS
    path, trail = folder / "machine.json", folder / "trail"
    path.write_text(machine([[fired(place) for place in range(each)] for _cpu in range(CPUS)]))
    steps = ["open 0 root", call(cmd="option", name="histsize", value=FIRINGS_MAX), call(cmd="option", name="bufsize", value=4),
             call(cmd="enable", text="read:entry{@sizes = quantize(arg0)}"), call(cmd="go")]
    left = LINES_MAX + 1 - len(steps)
    every = FIRINGS_MAX // left
    fires = [f"fire {number % CPUS}" for number in range(FIRINGS_MAX)]
    for place in range(left):
        steps += fires[place * every:(place + 1) * every] + [call(cmd="trunc", name="sizes") if place % 2 else call(cmd="snap", cpu=3)]
    steps += fires[left * every:]
    told, status = run("replay", path, "--trail", 0, text=text_of(steps))
    counts = told.count(b"\nline "), told.count(b"\nreply "), told.count(b"\nfired ")
    yield "the longest trail", (status, counts), (0, (LINES_MAX, LINES_MAX, FIRINGS_MAX))
    yield "a check of the longest trail", checked(path, trail, told), (b"agree %d\n" % LINES_MAX, 0)
    last = LINES_MAX + FIRINGS_MAX
    for more in ("fired 0 0\n", "line {}\nreply {}\n", "long\nreply {}\n"):
        wanted = b"illegal at %d\n" % (last + 1), 1
        yield f"a check of the longest trail and {more!r}", checked(path, trail, told + more.encode()), wanted
    at = told.rindex(b"\nreply ")
    other = told[:at] + b"\nreply x" + told[told.index(b"\n", at + 1):]
    yield "a check of the longest trail with another last reply", checked(path, trail, other), (b"differs at %d\n" % LINES_MAX, 1)


def longest_history(folder):
    """A session that sees as many firings as the longest history has, and asks some lines between; and a firing more."""
    cpus = HISTORY_MAX // FIRINGS_MAX
    path, trail = folder / "machine.json", folder / "trail"
    path.write_text(machine([[fired(place) for place in range(FIRINGS_MAX)] for _cpu in range(cpus)]))
    steps = ["open 0 root", call(cmd="option", name="histsize", value=HISTORY_MAX), call(cmd="option", name="bufsize", value=4),
             call(cmd="enable", text="read:entry{@ = count()}"), call(cmd="go")]
    for cpu in range(cpus):
        steps += [f"fire {cpu}"] * FIRINGS_MAX + [call(cmd="agg", name="")]
    told, status = run("replay", path, "--trail", 0, text=text_of(steps))
    lines = len(steps) - HISTORY_MAX - 1
    yield "the trail of the longest history", (status, told.count(b"\nline "), told.count(b"\nfired ")), (0, lines, HISTORY_MAX)
    yield "a check of the trail of the longest history", checked(path, trail, told), (b"agree %d\n" % lines, 0)
    yield "a check of it and a firing", checked(path, trail, told + b"fired 0 0\n"), (b"illegal at %d\n" % (lines + HISTORY_MAX + 1), 1)


ASKED = [
    {"cmd": "enable", "text": "read:entry{trace(arg0)}"},
    {"cmd": "enable", "text": "read:entry/arg0 % 2/{@a[execname] = sum(arg0)} END{trace(1)}"},
    {"cmd": "enable", "text": "syscall:::entry{@q = quantize(arg0); exit(3)} profile:::{}"},
    {"cmd": "enable", "text": "BEGIN{trace(7)} read:entry{@l = lquantize(arg0, 0, 20, 5)}"},
    {"cmd": "enable", "text": "read:entry{self->n = self->n + arg0; trace(self->n)} END{trace(self->n)}"},
    {"cmd": "enable", "text": "BEGIN{self->s = speculation()} read:entry{speculate(1); trace(arg0)} read:entry/arg0 % 3 == 0/{commit(1); self->s = speculation()}"},
    {"cmd": "enable", "text": "read:entry/arg0 % 2/{self->s = speculation()} read:entry{speculate(self->s)} read:entry/arg0 % 5 == 0/{discard(self->s); self->s = 0}"},
    {"cmd": "enable", "text": "read:entry{self->s = 1; self->q = 8 / arg0; commit(self->s)} END{commit(1); commit(2)}"},
    {"cmd": "enable", "text": "read:entry{"},
    {"cmd": "option", "name": "dynvarsize", "value": 32},
    {"cmd": "option", "name": "nspec", "value": 2},
    {"cmd": "option", "name": "specsize", "value": 16},
    {"cmd": "option", "name": "bufsize", "value": 24},
    {"cmd": "option", "name": "bufpolicy", "value": "ring"},
    {"cmd": "option", "name": "bufpolicy", "value": "fill"},
    {"cmd": "option", "name": "histsize", "value": 3},
    {"cmd": "go"}, {"cmd": "go"}, {"cmd": "go"},
    {"cmd": "snap", "cpu": 0}, {"cmd": "snap", "cpu": 1}, {"cmd": "snap", "cpu": 2},
    {"cmd": "agg", "name": "a"}, {"cmd": "agg", "name": "q"}, {"cmd": "trunc", "name": "a"},
    {"cmd": "status"}, {"cmd": "describe", "epid": 1}, {"cmd": "list", "probe": "syscall:::"}, {"cmd": "stop"}, {"cmd": "close"}, {},
]


def random_steps(dice):
    """Steps on three seats: whole calls and fires, and their parts in any order."""
    steps = [f"open {seat} {dice.choice(['root', 'ann', 'bob', 'joe'])}" for seat in range(3)]
    for _step in range(dice.randrange(60)):
        seat, cpu = dice.randrange(3), dice.randrange(2)
        line = json.dumps(dice.choice(ASKED), separators=(",", ":"))
        steps.append(dice.choice([
            f"call {seat} {line}", f"call {seat} {line}", f"call {seat} {line}", f"fire {cpu}", f"fire {cpu}", f"fire {cpu}", f"ask {seat} {line}",
            f"publish {seat}", f"finish {seat}", f"look {cpu}", f"offer {cpu} {seat}", f"withdraw {seat}", f"close {seat}", f"open {seat} root"]))
    return text_of(steps)


def random_trails(folder):
    """What `replay --trail` writes of a session, `check` finds to agree, with as many lines as it has replies."""
    path, trail = folder / "machine.json", folder / "trail"
    changed = 0
    for seed in range(SESSIONS):
        dice = random.Random(seed)
        scripts = [[fired(dice.randrange(20), pid=dice.choice([100, 200]), tid=dice.randrange(3)) for _place in range(dice.randrange(30))] for _cpu in range(2)]
        path.write_text(machine(scripts, ["root", "ann", "bob", "joe"]))
        seat = dice.randrange(3)
        told, status = run("replay", path, "--trail", seat, text=random_steps(dice))
        if not told and status == 0:
            continue
        yield f"a check of the trail of random session {seed}", checked(path, trail, told), (b"agree %d\n" % told.count(b"\nreply "), 0)
        first, items = items_of(told)
        if changed < CHANGED and items:
            changed += 1
            for what, content, wanted in changes(dice, first, items):
                yield f"random session {seed} with {what}", checked(path, trail, content), (wanted, 1)


def changes(dice, first, items):
    """Texts that are the trail but for one place, or for two of which the earlier one counts, and what is found of them."""
    illegal = [("a firing of a processor that isn't there", "fired 2 0"), ("a firing after the script's end", "fired 1 30")]
    for what, line in illegal:
        at = dice.randrange(len(items) + 1)
        yield what, text(first, [*items[:at], [line], *items[at:]]), b"illegal at %d\n" % (at + 1)
    places = [place for place, item in enumerate(items) if item[0].startswith("fired ")]
    if places:
        at = dice.choice(places)
        yield "a firing twice", text(first, [*items[:at + 1], items[at], *items[at + 1:]]), b"illegal at %d\n" % (at + 2)
        yield "a firing before all", text(first, [items[at], *items]), b"illegal at 1\n"
    places = [place for place, item in enumerate(items) if len(item) == 2]
    if places:
        nth = dice.randrange(len(places))
        at = places[nth]
        line, reply = items[at]
        for what, other in (("a longer reply", reply + " "), ("a shorter reply", reply[:-1]), ("an empty reply", "reply "),
                            ("a reply in which a byte differs", reply[:-2] + "?" + reply[-1:])):
            wanted = b"differs at %d\n" % (nth + 1)
            yield what, text(first, [*items[:at], [line, other], *items[at + 1:]]), wanted
            yield what + " and then a firing that isn't there", text(first, [*items[:at], [line, other], ["fired 2 0"]]), wanted


def changed_commands(folder):
    """The session of the example that asks each command once: each reply changed in turn, and the account's name."""
    path, trail = "protocol/machine.json", folder / "trail"
    with open("protocol/steps", "rb") as steps:
        told, status = run("replay", path, "--trail", 0, text=steps.read())
    first, items = items_of(told)
    replies = [place for place, item in enumerate(items) if len(item) == 2]
    yield "the trail of the protocol", (status, checked(path, trail, told)), (0, (b"agree %d\n" % len(replies), 0))
    for nth, at in enumerate(replies, 1):
        line, reply = items[at]
        for other in (reply.replace("true", "false"), reply + "x", "reply {}"):
            content = text(first, [*items[:at], [line, other], *items[at + 1:]])
            yield f"reply {nth} of the protocol as {other[:30]}", checked(path, trail, content), (b"differs at %d\n" % nth, 1)
    for name in ("account nobody", "account ", "account root root", "Account root"):
        yield f"the trail of {name}", checked(path, trail, text(name, items)), (b"trail refused\n", 1)


def cut_trails(folder):
    """The trail of an example cut anywhere: it agrees where it is cut after an item, and else is no trail."""
    path, trail = "first-run/machine.json", folder / "trail"
    with open("first-run/trail", "rb") as file:
        told = file.read()
    first, items = items_of(told)
    ends = {len(text(first, items[:count])): sum(len(item) == 2 for item in items[:count]) for count in range(len(items) + 1)}
    for length in range(len(told) + 1):
        wanted = (b"agree %d\n" % ends[length], 0) if length in ends else (b"trail refused\n", 1)
        yield f"the first {length} bytes of a trail", checked(path, trail, told[:length]), wanted


def quota(folder):
    """Trails of as many lines as may be asked, and one more, which is out of place whatever its reply."""
    path, trail = "first-run/machine.json", folder / "trail"
    begun = [["line " + json.dumps({"cmd": "enable", "text": "read:entry{}"}), 'reply {"count":1,"first":1,"ok":true}'],
             ['line {"cmd":"go"}', 'reply {"ok":true}'], ["fired 0 0"]]
    more = [["line x", 'reply {"error":1,"name":"Json"}']] * (LINES_MAX - 2)
    yield "1,024 lines and a firing", checked(path, trail, text("account root", begun + more)), (b"agree %d\n" % LINES_MAX, 0)
    for item in (["line x", 'reply {"error":15,"name":"Quota"}'], ["long", 'reply {"error":15,"name":"Quota"}'], ["line x", "reply "]):
        found = checked(path, trail, text("account root", [*begun, *more, item]))
        yield f"1,024 lines, a firing and {item}", found, (b"illegal at %d\n" % (LINES_MAX + 2), 1)


READS = {"cmd": "enable", "text": "read:entry{}"}
GO = {"cmd": "go"}
HISTORY = {"cmd": "option", "name": "histsize", "value": 1}
LONG, JSON = 'reply {"error":3,"name":"LineLong"}', 'reply {"error":1,"name":"Json"}'
# what a session of an account does, one item after it, and what is found then
FURTHER = [
    ("a firing before the go", "root", [READS], ["fired 0 0"], "illegal at {item}"),
    ("a firing of a probe that isn't enabled", "root", [{"cmd": "enable", "text": "tick-1sec{}"}, GO], ["fired 0 0"], "illegal at {item}"),
    ("a firing of another's process", "ann", [READS, GO], ["fired 1 0"], "illegal at {item}"),
    ("a firing after the stop", "root", [READS, GO, {"cmd": "stop"}], ["fired 0 0"], "illegal at {item}"),
    ("a firing after the close", "root", [READS, GO, {"cmd": "close"}], ["fired 0 0"], "illegal at {item}"),
    ("a firing after the exit", "root", [{"cmd": "enable", "text": "read:entry{exit(1)}"}, GO, "fire 0"], ["fired 0 1"], "illegal at {item}"),
    ("a firing after the history", "root", [HISTORY, READS, GO, "fire 0"], ["fired 0 1"], "illegal at {item}"),
    ("a firing after a later one", "root", [READS, GO, "fire 0", "fire 0"], ["fired 0 0"], "illegal at {item}"),
    ("the last firing again", "root", [READS, GO, "fire 0", "fire 0"], ["fired 0 1"], "illegal at {item}"),
    ("a firing after the script", "root", [READS, GO, "fire 0"], ["fired 0 3"], "illegal at {item}"),
    ("a firing of a processor that isn't there", "root", [READS, GO, "fire 0"], ["fired 2 0"], "illegal at {item}"),
    ("a firing that skips two", "root", [READS, GO], ["fired 0 2"], "agree {replies}"),
    ("a long line", "root", [READS, GO], ["long", LONG], "agree {reply}"),
    ("a long line with another reply", "root", [READS, GO, "fire 0"], ["long", JSON], "differs at {reply}"),
    ("a short line told as long", "root", [READS, GO], ["line x", LONG], "differs at {reply}"),
]


def further_items(folder):
    """One item after a trail that agrees, of each kind, in and out of place."""
    path, trail = folder / "machine.json", folder / "trail"
    path.write_text(machine([[fired(0), fired(1), fired(2)], [fired(0, pid=200)]], ["root", "ann"]))
    for what, account, did, item, found in FURTHER:
        steps = [f"open 0 {account}", *(step if isinstance(step, str) else call(**step) for step in did)]
        told, status = run("replay", path, "--trail", 0, text=text_of(steps))
        first, items = items_of(told)
        replies = sum(len(it) == 2 for it in items)
        yield f"a trail before {what}", (status, len(items), checked(path, trail, told)), (0, len(did), (b"agree %d\n" % replies, 0))
        wanted = found.format(item=len(items) + 1, replies=replies, reply=replies + 1) + "\n"
        yield f"a trail and {what}", checked(path, trail, text(first, [*items, item])), (wanted.encode(), int(not found.startswith("agree")))


judge(longest_trail, longest_history, random_trails, changed_commands, cut_trails, further_items, quota)
