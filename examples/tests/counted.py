"""How many a machine or a consumer may have of each thing: each number where there are few, else each power of two with its neighbours, up to
the limit.

What an account may enable and is shown, what a clause records and what a table holds is reckoned here, by the pages' words.
"""
import json
import string

from running import (FIRINGS_MAX, HISTORY_MAX, OK, call, enable, enabled, fired, fires, go, judge, machine, near, number, option, run, sessions, snap, status, table,
                     text_of)

NO_MATCH = '{"clause":1,"error":5,"name":"NoMatch"}'
NO_EPID = '{"error":14,"name":"NoEpid"}'
LIMIT = '{"error":9,"name":"Limit"}'
REFUSED = '{"error":11,"name":"Option"}'
STOP = call(cmd="stop"), OK
PRIVS = ("dtrace_user", "dtrace_proc", "dtrace_kernel", "proc_owner")
UIDS = (0, 501, 502, (1 << 32) - 1)
OWN_PROBES = ("dtrace:::BEGIN", "dtrace:::END")
PROBES = ("syscall::read:entry", "profile:::tick-1sec", "fbt:genunix:kmem_alloc:entry", "pid100:a:f:entry", "pid200:a:f:entry")
PROCESSES = {100: 501, 200: 0}


def permits(account, uid):
    return account["uid"] == uid or "proc_owner" in account["privs"]


def may_enable(account, probe):
    """Whether an account that may trace may enable a probe."""
    provider, privs = probe.split(":")[0], account["privs"]
    if provider == "dtrace":
        return True
    if provider in ("syscall", "profile"):
        return "dtrace_user" in privs or "dtrace_kernel" in privs
    if provider.startswith("pid"):
        uid = PROCESSES[int(provider[3:])]
        return "dtrace_proc" in privs and permits(account, uid) or "dtrace_kernel" in privs and account["uid"] == uid
    return "dtrace_kernel" in privs


def is_shown(account, probe, firing):
    """Whether an account that has enabled a probe is shown a firing of it."""
    provider = probe.split(":")[0]
    if provider not in ("syscall", "profile") or "dtrace_kernel" in account["privs"]:
        return True
    return permits(account, PROCESSES[firing["pid"]]) and (provider == "syscall" or firing["mode"] == "user")


def firings():
    """Each probe in each process and mode in which it may fire."""
    return [{"probe": place, "pid": pid, "mode": mode} for place, probe in enumerate(PROBES, 3) for pid in PROCESSES for mode in ("user", "kernel")
            if not probe.startswith("pid") or probe.startswith(f"pid{pid}:")]


def account_of(place, count):
    """The account at a place of so many: each has other privileges, and a name of another length."""
    held = (5 * place + count) % 16
    return {"name": string.ascii_lowercase[place] * (1 + (2 * place + count) % 31), "uid": UIDS[place % 4],
            "privs": [priv for bit, priv in enumerate(PRIVS) if held >> bit & 1]}


def answers_to(seat, account):
    """What an account that may trace asks before the firings and after them, each with its reply."""
    probes = {place: probe for place, probe in enumerate(OWN_PROBES + PROBES, 1) if may_enable(account, probe)}
    epids = {place: epid for epid, place in enumerate(probes, 1)}
    shown = [firing["probe"] for firing in firings() if firing["probe"] in probes and is_shown(account, probes[firing["probe"]], firing)]
    listed = ",".join(f'{{"id":{place},"name":"{probe}"}}' for place, probe in probes.items())
    denied = '{"clause":1,"error":6,"name":"Privilege","what":"stack"}'
    stack = denied if "dtrace_kernel" not in account["privs"] else enabled(1, len(probes) + 1)
    before = [(call(seat, cmd="list", probe=""), f'{{"ok":true,"probes":[{listed}]}}'), (call(seat, cmd="enable", text="*{}"), enabled(len(probes))),
              (call(seat, cmd="enable", text="dtrace:::END{stack(1)}"), stack), (call(seat, cmd="go"), OK)]
    data = "".join(f"{epids[place]:08x}" for place in (1, *shown))
    reply = f'{{"aggdrops":[0],"cause":null,"dyndrops":[0],"errors":[0],"exit":null,"ok":true,"phase":"active","seen":{len(shown)},"specdrops":[0],"specfails":0}}'
    return before, [(call(seat, cmd="snap", cpu=0), snap(data)[1]), (call(seat, cmd="status"), reply)]


def accounts(folder):
    """Each number of accounts, all at once. Those that may not trace open nothing, and aren't answered."""
    path = folder / "machine.json"
    for count in range(17):
        rows = [account_of(place, count) for place in range(count)]
        path.write_text(machine([firings()], probes=PROBES, accounts=rows))
        answers = [answers_to(seat, account) for seat, account in enumerate(rows)]
        begin, end = ([(seat, *row) for seat, both in enumerate(answers) for row in both[part]] for part in (0, 1))
        steps = [f"open {seat} {account['name']}" for seat, account in enumerate(rows)]
        steps += [*(step for _seat, step, _reply in begin), *["fire 0"] * (len(firings()) + 1), *(step for _seat, step, _reply in end)]
        wanted = [f"{seat} {reply}" for seat, _step, reply in begin + end if set(rows[seat]["privs"]) - {"proc_owner"}]
        yield f"{count} accounts", run("replay", path, text=text_of(steps)), ("".join(reply + "\n" for reply in wanted).encode(), 0)


def text_data(text):
    """A text as it is recorded."""
    return text.encode().hex().ljust(64, "0")


def processes(folder):
    """Each number of processes, with a probe of its own in each, which fires once."""
    path = folder / "machine.json"
    account = {"name": "all", "uid": 7, "privs": PRIVS}
    for count in [0, *near(1_024)]:
        rows = [{"pid": 977 * place % 1_000_000, "uid": 4_198_405 * place % (1 << 32),
                 "execname": "".join(chr(32 + (place + at) % 95) for at in range(place % 32))} for place in range(count)]
        script = [[{"probe": place, "pid": row["pid"]} for place, row in enumerate(rows, 3)]]
        path.write_text(machine(script, accounts=[account], processes=rows, probes=[f"pid{row['pid']}::f:entry" for row in rows]))
        data = "".join(f"{epid:08x}" + number(row["pid"]) + number(row["uid"]) + text_data(row["execname"]) for epid, row in enumerate(rows, 1))
        steps = ["open 0 all", enable("pid*:::{trace(pid);trace(uid);trace(execname)}"), go()[0], *["fire 0"] * (count + 1), snap("")[0]]
        wanted = [enabled(count) if count else NO_MATCH, OK, snap(data)[1]]
        yield f"{count} processes", run("replay", path, text=text_of(steps)), (text_of(f"0 {reply}" for reply in wanted), 0)


def scripts(folder):
    """A script of each number of firings, which are all seen, and no more."""
    path = folder / "machine.json"
    for count in [0, *near(FIRINGS_MAX)]:
        path.write_text(machine([[]]).replace("[[]]", "[[" + ",".join(['{"probe":3,"pid":100}'] * count) + "]]"))
        rows = [{"key": [], "value": count}] if count else []
        ended = ('"history"', "stopped") if count == FIRINGS_MAX else ()
        begun = [option("histsize", FIRINGS_MAX), (enable("read:entry{@ = count()}"), enabled(1)), go()]
        yield from sessions(path, f"a script of {count} firings", [[*begun, *fires(count + 1), table("count", rows), status(count, *ended)]])


def probes(folder):
    """Machines of each number of probes, all of them listed, as many as may be enabled enabled at once, and each of these described."""
    path = folder / "machine.json"
    own = [(1, "dtrace:::BEGIN"), (2, "dtrace:::END")]
    for count in near(4_096):
        names = [(place, f"syscall::f{place}:entry") for place in range(3, count + 3)]
        path.write_text(machine([[]], probes=[name for _place, name in names]))
        listed = ",".join(f'{{"id":{place},"name":"{name}"}}' for place, name in own + names)
        rows = [[(call(cmd="list", probe=""), f'{{"ok":true,"probes":[{listed}]}}'), (enable("syscall:::{}"), enabled(count) if count <= 1_024 else LIMIT)]]
        described = [described_as(epid, place, name, [], 4) for epid, (place, name) in enumerate(names, 1)] if count <= 1_024 else []
        rows += [[(enable("syscall:::{}"), enabled(count)), *described[first:first + 1_000]] for first in range(0, len(described), 1_000)]
        yield from sessions(path, f"{count} probes", rows)


def described_as(epid, place, name, layout, size):
    layout = json.dumps(layout, separators=(",", ":"))
    return call(cmd="describe", epid=epid), f'{{"epid":{epid},"id":{place},"layout":{layout},"ok":true,"probe":"{name}","size":{size}}}'


def clause_of(place):
    """A clause for each place, with what its record has and how long it is."""
    if place % 10 == 9:
        return "read:entry{exit(0)}", [], 0
    texts, layout, size = [], [], 4
    for at in range(place % 10):
        frames = 1 + (place + at) % 8
        text, name, more = (("trace(arg0)", "number", 8), ("trace(execname)", "string", 32), (f"stack({frames})", f"stack{frames}", 8 * frames),
                            (f"ustack({frames})", f"ustack{frames}", 8 * frames))[(place // 10 + at) % 4]
        texts, layout, size = [*texts, text], [*layout, name], size + more
    return "read:entry{" + ";".join(texts) + "}", layout, size


def enables(count):
    """So many clauses, as few programs as may be."""
    for first in range(0, count, 64):
        rows = range(first, min(first + 64, count))
        yield enable("".join(clause_of(place)[0] for place in rows)), enabled(len(rows), first + 1)


def ecbs(folder):
    """Each number of ECBs, and one more than the limit: each described, and each but those that exit taken at one firing."""
    path = folder / "machine.json"
    path.write_text(machine([[fired(5, kstack=[1], ustack=[2])] * 40]))
    described = [described_as(epid, 3, "syscall::read:entry", *clause_of(epid - 1)[1:]) for epid in range(1, 1_025)]
    rows = []
    for count in near(1_024):
        none = [(call(cmd="describe", epid=epid), NO_EPID) for epid in (0, count + 1, 1 << 32, (1 << 64) - 1)]
        rows += [[*enables(count), *described[first:min(first + 512, count)], *none] for first in range(0, count, 512)]
        taken = [(enable("read:entry{}" * min(64, count - first)), enabled(min(64, count - first), first + 1)) for first in range(0, count, 64)]
        rows.append([*taken, go(), *fires(1), snap("".join(f"{epid:08x}" for epid in range(1, count + 1)))])
    rows.append([*enables(1_024), (enable("read:entry{}"), LIMIT), described[1_023], none[1]])
    yield from sessions(path, "ECBs of each number", rows)


VALUES = (5, -3, 1_000)
# each function with what it makes of these values
FUNCTIONS = [
    ("count", "count()", 3), ("sum", "sum(arg0)", 1_002), ("avg", "avg(arg0)", 334), ("min", "min(arg0)", -3), ("max", "max(arg0)", 1_000),
    ("quantize", "quantize(arg0)", [[-2, 1], [4, 1], [512, 1]]), ("lquantize", "lquantize(arg0, 0, 10, 5)", [[None, 1], [5, 1], [10, 1]]),
]


def aggregations(folder):
    """Each number of aggregations, with each function and each number of keys, and one more than the limit; each read."""
    path = folder / "machine.json"
    path.write_text(machine([[fired(value) for value in VALUES] * 64]))
    rows = []
    for count in range(1, 65):
        named, read = [], []
        for place in range(count):
            name, (function, used, value) = f"a{place}" + "x" * (place % 29), FUNCTIONS[(place + count) % 7]
            keys = [("7", 7), ("execname", "sh"), ('"a key"', "a key"), ("-1", -1)][place % 4:][:place % 5]
            text = "[" + ",".join(text for text, _key in keys) + "]" if keys else ""
            named.append((enable(f"read:entry{{@{name}{text} = {used}}}"), enabled(1, place + 1)))
            read.append(table(function, [{"key": [key for _text, key in keys], "value": value}], name))
        none = call(cmd="agg", name="b"), '{"error":13,"name":"NoAgg"}'
        more = [(enable("read:entry{@b = count()}"), LIMIT)] if count == 64 else []
        rows.append([*named, *more, go(), *fires(len(VALUES)), *read, none])
    yield from sessions(path, "aggregations of each number", rows)


def entries(folder):
    """Stores with room for each number of entries from a thousand on, and one entry more, which is dropped. Each table is read."""
    path = folder / "machine.json"
    path.write_text(machine([[fired(place) for place in range(FIRINGS_MAX)]]))
    most = (1 << 20) // 24
    for count in near(most, 1_023):
        begun = [option("aggsize", min(24 * count + 23, 1 << 20)), option("histsize", FIRINGS_MAX), (enable("read:entry{@[arg0] = count()}"), enabled(1)), go()]
        shown = table("count", [{"key": [place], "value": 1} for place in range(count)])
        yield from sessions(path, f"{count} entries", [[*begun, *fires(count + 1), shown, status(count + 1, aggdrops=1)]])


def wide_tables(folder):
    """A table of several full stores with different keys: four times as many rows as one store can have."""
    path = folder / "machine.json"
    each, cpus = (1 << 20) // 24, 4
    path.write_text(machine([[fired(cpu * each + place) for place in range(each)] for cpu in range(cpus)]))
    fires = [(f"fire {cpu}", None) for _place in range(each) for cpu in range(cpus)]
    rows = [{"key": [place], "value": 1} for place in range(cpus * each)]
    yield from sessions(path, "a table of four full stores", [[option("aggsize", 1 << 20), option("histsize", cpus * each),
                        (enable("read:entry{@[arg0] = count()}"), enabled(1)), go(), *fires, table("count", rows)]])


def refused(name, value):
    """A value as it is written, which an option doesn't take."""
    return call(cmd="option", name=name, value=0)[:-2] + value + "}", REFUSED


def options(folder):
    """Each option with values up to its limit, which it takes, and with others, which it doesn't; the last that it took counts."""
    path = folder / "machine.json"
    path.write_text(machine([[fired(place % 2) for place in range(8)]]))
    strange = ["-1", str(-1 << 63), "1.0", "1e3", str(1 << 64), "null", "true", '"1"', "[1]", '{"a":1}']
    both = "read:entry{trace(arg0);@[arg0] = count()}"
    for name, least, most, last, text, told in (
            ("bufsize", 1, 1 << 20, 12, both, snap(f"{1:08x}" + number(0), 2)), ("aggsize", 8, 1 << 20, 24, both, status(3, aggdrops=1)),
            ("histsize", 1, HISTORY_MAX, 2, both, status(2, '"history"', "stopped")),
            ("dynvarsize", 32, 1 << 20, 32, "read:entry{self->a = 1; self->b = 2}", status(3, dyndrops=3)),
            ("nspec", 1, 64, 2, "read:entry{self->a = speculation()}", status(3, specfails=1)),
            ("specsize", 4, 1 << 16, 16, "read:entry{self->a = speculation(); speculate(1); trace(arg0)}", status(3, specdrops=2, specfails=2))):
        taken = [*near(most, least), last]
        others = [*strange, *map(str, [*range(least), *near((1 << 64) - 1, most + 1)])]
        used = [(enable(text), enabled(1)), go(), *fires(3), told]
        late = [(step, '{"error":10,"name":"Busy"}') for step in (option(name, last)[0], refused(name, "0")[0])]
        yield from sessions(path, f"values of {name}", [[*(option(name, value) for value in taken), *(refused(name, value) for value in others), *used, *late]])
    taken = [option("bufpolicy", policy) for policy in ("switch", "fill", "ring")]
    others = [refused("bufpolicy", value) for value in ('"Switch"', '"switch "', '""', '"rings"', "0", "null", "false", '["fill"]')]
    others += [refused(name, "8") for name in ("", "buf", "bufsize ", "Bufsize", "size", "histsiz", "switch", "aggsizes", "dynvars", "nspecs", "specsiz")]
    yield from sessions(path, "policies and names of options", [taken + others])


judge(accounts, processes, scripts, probes, ecbs, aggregations, entries, wide_tables, options)
