"""Inputs by seed, for tests/fuzz: machines, programs, lines and steps that mostly are in order, and changes of their bytes that keep them near it."""
import copy
import json
import re

CPUS_MAX = 4
LINE_MAX = 65_536
NUMBERS = [0, 1, 2, 3, 4, 5, 7, 8, 9, 16, 31, 32, 33, 63, 64, 65, 127, 128, 255, 256, 512, 513, 1_023, 1_024, 1_025, 4_095, 4_096, 4_097, 65_535, 65_536, 65_537,
           (1 << 20) - 1, 1 << 20, (1 << 20) + 1, (1 << 31) - 1, 1 << 31, (1 << 32) - 1, 1 << 32, (1 << 63) - 1, 1 << 63, (1 << 64) - 1, 1 << 64]
WORDS = [word.encode() for word in (
    "cmd option enable go stop snap agg trunc status list describe close name value text cpu probe epid bufsize bufpolicy switch fill ring aggsize histsize dynvarsize nspec specsize "
    "cpus accounts processes probes scripts uid privs pid execname tid mode user kernel timestamp args kstack ustack dtrace_user dtrace_proc dtrace_kernel "
    "proc_owner root ann bob joe account line reply long fired open call fire ask publish finish withdraw look offer BEGIN END entry read:entry syscall::: fbt "
    "profile:::tick-1sec dtrace:::END pid100::: trace stack exit self self->n self->n=1 -> speculation() speculate(1) commit(1) discard(1) count() sum(arg0) avg(arg0) min(arg0) max(arg0) quantize(arg0) lquantize(arg0,0,10,5) "
    "arg0 arg9 arg10 probefunc panic() @a @ @a[execname] stop() raise null true false 1.0 -0 -1 1e9 1e999 010 08 0x 0xff 0x10000000000000000").split()] + [
    b" ", b"\t", b"\r", b"\r\n", b"\n", b"\n\n", b"\0", b"{", b"}", b"[", b"]", b"(", b")", b"{}", b"[]", b"{trace(arg0)}", b'"', b'""', b"'", b",", b":", b";", b"/",
    b"//", b"/*", b"*/", b"\\", b"\\\"", b"\\u0000", b"\\u0041", b"\\ud800", b"\\udc00", b"\\ud83d\\ude00", b"\\n", b"\\/", b"\\x", b"*", b"?", b"[!a-c]", b"[a-]",
    b"[]", b"[a", b"&&", b"||", b"^^", b"<<", b">>", b"==", b"!=", b"<=", b"%0", b"/0", b"-1", b"!", b"~", b"=", b"."]
# bytes that are no UTF-8, or hardly any
STRANGE = [b"\xff", b"\xc3", b"\xc0\x80", b"\xed\xa0\x80", b"\xf4\x90\x80\x80", b"\xe2\x82", b"\xef\xbb\xbf", b"\xc3\xa9", b"\xf0\x9f\x98\x80", b"\x7f", b"\x1b", b"\x01"]
OPENING = [b"[", b"{", b"(", b'{"a":', b'[{"":', b"!", b"-", b"/*", b"((", b"\\", b'"']


# changes of bytes


def span(dice, text, longest=40):
    """Two places in a text, mostly near each other."""
    at = dice.randrange(len(text) + 1)
    return at, min(len(text), at + dice.randrange(dice.choice([2, longest, len(text) + 1])))


def put_word(dice, text):
    at, end = span(dice, text, 8)
    return text[:at] + dice.choice(WORDS) + text[dice.choice([at, end]):]


def put_strange(dice, text):
    at, end = span(dice, text, 3)
    return text[:at] + dice.choice(STRANGE) + text[end:]


def put_number(dice, text):
    """A number in place of another."""
    found = list(re.finditer(rb"-?[0-9]+", text))
    if not found:
        return put_word(dice, text)
    at = dice.choice(found)
    return text[:at.start()] + dice.choice([b"", b"", b"", b"-"]) + str(dice.choice(NUMBERS)).encode() + text[at.end():]


def change_byte(dice, text):
    at = dice.randrange(len(text) + 1)
    return text[:at] + bytes([dice.randrange(256)]) + text[at + 1:]


def cut(dice, text):
    at = dice.randrange(len(text) + 1)
    return dice.choice([text[:at], text[:at], text[at:]])


def drop(dice, text):
    at, end = span(dice, text)
    return text[:at] + text[end:]


def double(dice, text):
    at, end = span(dice, text)
    return text[:end] + text[at:]


def exchange(dice, text):
    one, two, three, four = sorted([*span(dice, text), *span(dice, text)])
    return text[:one] + text[three:four] + text[two:three] + text[one:two] + text[four:]


def nest(dice, text):
    """Brackets that open, and perhaps close, at any depth."""
    at, depth = dice.randrange(len(text) + 1), dice.choice([1, 3, 20, 126, 127, 128, 129, 1_000, 20_000, LINE_MAX])
    opening = dice.choice(OPENING)
    closing = {b"[": b"]", b"{": b"}", b"(": b")", b'{"a":': b"}"}.get(opening, b"") if dice.random() < 0.5 else b""
    return text[:at] + (opening * depth)[:2 * LINE_MAX] + text[at:] + closing * depth


def lengthen(dice, text):
    """A part of it again and again, up to a length that is one of the limits."""
    at, end = span(dice, text, 12)
    part = text[at:end] or b" "
    wanted = dice.choice([31, 32, 63, 64, 65, 512, 4_096, LINE_MAX - len(text) - 1, LINE_MAX - len(text), LINE_MAX - len(text) + 1, LINE_MAX + 1])
    return text[:at] + (part * (max(wanted, 0) // len(part) + 1))[:max(wanted, 0)] + text[at:]


def exchange_lines(dice, text):
    """A line twice, not at all, or elsewhere."""
    lines = text.split(b"\n")
    line = lines.pop(dice.randrange(len(lines)))
    for _time in range(dice.choice([0, 1, 1, 2])):
        lines.insert(dice.randrange(len(lines) + 1), line)
    return b"\n".join(lines)


# each so often as it is to come
CHANGES = [*[put_word, put_number] * 6, *[exchange_lines] * 3, *[put_strange, change_byte, drop] * 2, cut, double, exchange, nest, lengthen]


def changed(dice, text, most=3):
    """A text after some changes."""
    for _time in range(dice.randint(1, most)):
        text = dice.choice(CHANGES)(dice, text)
    return text


# machines


PROBES = ["syscall::read:entry", "syscall::write:entry", "profile:::tick-1sec", "fbt:genunix:kmem_alloc:entry", "pid100:a:f:entry", "a:b\\c:[d]:e*"]
PROCESSES = [{"pid": 100, "uid": 501, "execname": "sh"}, {"pid": 200, "uid": 0, "execname": "cron"}, {"pid": 0, "uid": 4_294_967_295, "execname": 'a "\\ b'}]
ACCOUNTS = [{"name": "root", "uid": 0, "privs": ["dtrace_kernel"]}, {"name": "ann", "uid": 501, "privs": ["dtrace_user"]},
            {"name": "bob", "uid": 501, "privs": ["dtrace_proc", "dtrace_user"]}, {"name": "op-1", "uid": 7, "privs": ["dtrace_user", "proc_owner", "dtrace_kernel"]},
            {"name": "joe", "uid": 502, "privs": ["proc_owner"]}]
MAY_TRACE = [account["name"] for account in ACCOUNTS if account["privs"] != ["proc_owner"]]


def number_of(dice, least, most):
    """A number, small or at a limit."""
    value = dice.choice([dice.randrange(8), dice.choice(NUMBERS), -dice.choice(NUMBERS), dice.randint(least, most)])
    return min(max(value, least), most)


def firing(dice):
    place = dice.choice([0, 0, 0, 1, 2, 3, 4, 5])
    found = {"probe": place + 3, "pid": 100 if place == 4 else dice.choice(PROCESSES)["pid"]}
    if dice.random() < 0.8:
        found["args"] = [number_of(dice, -(1 << 63), (1 << 63) - 1) for _at in range(dice.randrange(11))]
    if dice.random() < 0.3:
        found["kstack"] = [number_of(dice, 0, (1 << 64) - 1) for _at in range(dice.randrange(9))]
        found["ustack"] = [number_of(dice, 0, (1 << 64) - 1) for _at in range(dice.randrange(9))]
    if dice.random() < 0.5:
        found |= {"mode": dice.choice(["user", "kernel"]), "tid": number_of(dice, 0, (1 << 32) - 1), "timestamp": number_of(dice, 0, (1 << 63) - 1)}
    return found


def machine(dice):
    """A machine on which some probes fire."""
    cpus = dice.randint(1, CPUS_MAX)
    scripts = [[firing(dice) for _place in range(dice.randrange(25))] for _cpu in range(cpus)]
    return {"cpus": cpus, "accounts": ACCOUNTS, "processes": PROCESSES, "probes": PROBES, "scripts": scripts}


VALUES = [None, True, "", "a", "root", 1.5, -1, [], {}, [[]], "pid100:a:f:entry", "dtrace:::BEGIN", "pid300:::x", "a:b:c", "dtrace_user", "kernel", *NUMBERS]


def changed_value(dice, value):
    """A value of JSON with another one somewhere in it, or with one less or one twice."""
    at = value
    while True:
        places = list(at) if isinstance(at, dict) else list(range(len(at)))
        if not places:
            return value
        place = dice.choice(places)
        if not isinstance(at[place], (dict, list)) or dice.random() < 0.2:
            break
        at = at[place]
    if dice.random() < 0.2:
        del at[place]
    elif isinstance(at, list) and dice.random() < 0.3:
        at.append(at[place])
    else:
        at[place] = copy.deepcopy(dice.choice(VALUES))
    return value


def changed_machine(dice, text):
    """A machine file of which the bytes were changed, or some values."""
    if dice.random() < 0.4:
        return changed(dice, text)
    value = json.loads(text)
    for _time in range(dice.choice([1, 1, 2])):
        value = changed_value(dice, value)
    return json.dumps(value).encode()


# trails


def changed_trail(dice, text):
    """A trail text of which the bytes were changed, or its lines, replies and firings alone."""
    if dice.random() < 0.3:
        return changed(dice, text, 2)
    for _time in range(dice.choice([0, 1, 1, 1, 2])):
        lines = text.split(b"\n")[:-1]
        places = [at for at, line in enumerate(lines) if not line.startswith((b"reply ", b"account "))]
        if not places:
            return text
        at = dice.choice(places)
        end = at + 1 if lines[at].startswith(b"fired ") else at + 2
        kind = dice.randrange(6)
        if kind == 0:
            lines[at:at] = [b"fired %d %d" % (dice.randrange(CPUS_MAX), dice.randrange(25))]
        elif kind == 1:
            lines[at:end] = []
        elif kind == 2:
            to = dice.choice(places)
            lines[to:to] = lines[at:end]
        elif kind == 3 and end == at + 2:
            lines[at + 1] = dice.choice([put_number(dice, lines[at + 1]), lines[dice.choice(places) + 1 - len(lines)], b"reply {}"])
        elif kind == 4:
            lines[at] = put_number(dice, lines[at])
        else:
            lines[at:at] = dice.choice([[b"line " + line(dice), b'reply {"ok":true}'], [b"long", b'reply {"error":3,"name":"LineLong"}'],
                                        [b'line {"cmd":"stop"}', b'reply {"ok":true}'], [b"line x", b'reply {"error":1,"name":"Json"}']])
        text = b"\n".join([*lines, b""])
    return text


# programs


DESCRIPTIONS = ["read:entry", "syscall:::entry", "syscall::read:entry", ":::", "::", "*", "*:entry", "BEGIN", "END", "dtrace:::END", "profile:::",
                "fbt:::entry", "pid100:::", "pid*:a:f:entry", "[a-r]ead:entry", "[!x]*:entry", "r?ad:entry", "\\read:entry", "tick-*", "a:::"]
FIELDS = ["arg0", "arg0", "arg1", "arg2", "arg9", "cpu", "pid", "tid", "uid", "timestamp", "id", "epid", "self->n", "self->m", "self->s"]
IDENTIFIERS = ["1", "1", "2", "self->s", "self->s", "0", "-1", "arg0"]
TEXTS = ["execname", "execname", "probeprov", "probemod", "probefunc", "probename", '"sh"', '"cron"', '""', '"' + "x" * 31 + '"']
OPERATORS = ["*", "/", "%", "+", "-", "<<", ">>", "<", "<=", ">", ">=", "==", "!=", "&", "^", "|", "&&", "^^", "||"]


def literal(dice):
    value = abs(number_of(dice, 0, (1 << 64) - 1))
    return dice.choice([str, str, hex, lambda it: f"0{it:o}"])(value)


def expression(dice, depth=3):
    """A numeric expression, in parentheses where it has operators."""
    kind = dice.randrange(6) if depth else dice.randrange(2)
    if kind == 0:
        return literal(dice)
    if kind == 1:
        return dice.choice(FIELDS)
    if kind == 2:
        return f"{dice.choice('!~-+')}({expression(dice, depth - 1)})"
    if kind == 3:
        return f"({dice.choice(TEXTS)} {dice.choice(['==', '!='])} {dice.choice(TEXTS)})"
    return f"({expression(dice, depth - 1)}{dice.choice(['', ' '])}{dice.choice(OPERATORS)} {expression(dice, depth - 1)})"


def key(dice):
    return dice.choice([dice.choice(TEXTS), expression(dice, 1)])


# how aggregations are mostly used: a name, its function, its keys
USES = [("", "count()", ""), ("c", "count()", "[execname]"), ("s", "sum({})", ""), ("s2", "sum({})", "[arg0,probefunc]"), ("v", "avg({})", ""), ("l", "min({})", "[cpu]"),
        ("m", "max({})", ""), ("q", "quantize({})", ""), ("q2", "quantize({})", "[pid]"), ("z", "lquantize({}, -10, 20, 5)", ""),
        ("z2", "lquantize({}, 0, 512)", "[execname]")]


def aggregated(dice):
    """An aggregation is mostly used in one way, by its name."""
    name, function, keys = dice.choice(USES)
    if dice.random() < 0.1:
        name, keys = dice.choice("acsvlmqz"), "[" + ",".join(key(dice) for _key in range(dice.randint(1, 5))) + "]"
    return f"@{name}{keys} = {function.format(expression(dice, 1))}"


def stacked(dice):
    return f"{dice.choice(['stack', *['ustack'] * 9])}({dice.randint(1, 8)})"


def tracked(dice):
    """A statement of variables and speculations."""
    kind = dice.randrange(6)
    if kind < 2:
        return f"self->{dice.choice('nnms')} = {expression(dice, 1)}"
    if kind == 2:
        return f"self->{dice.choice('sssn')} = speculation()"
    return f"{('speculate', 'commit', 'discard')[kind - 3]}({dice.choice(IDENTIFIERS)})"


def statement(dice):
    if dice.random() < 0.3:
        return tracked(dice)
    kind = dice.randrange(20)
    if kind < 5:
        return f"trace({expression(dice)})"
    if kind < 9:
        return f"trace({dice.choice(TEXTS)})"
    if kind < 12:
        return stacked(dice)
    if kind < 18:
        return aggregated(dice)
    return "" if kind < 19 else f"exit({expression(dice, 1)})"


def clause(dice):
    described = ",".join(dice.choice(DESCRIPTIONS) for _at in range(dice.choice([1, 1, 1, 2, 3]))) if dice.random() < 0.97 else "nothing:::"
    predicate = f"/{expression(dice, 2)}/" if dice.random() < 0.3 else ""
    return f"{described}{predicate}{{{';'.join(statement(dice) for _at in range(dice.randrange(5)))}}}"


def program(dice):
    """A program, now and then one that was changed."""
    text = dice.choice(["", " ", "\n", "/* */"]).join(clause(dice) for _at in range(dice.choice([1, 1, 1, 2, 3, 6])))
    return text if dice.random() < 0.8 else changed(dice, text.encode(), 2).decode(errors="replace")


# lines


def setting(dice):
    """An option with a value, mostly one that it takes and that is soon met."""
    small = dice.choice([4, 5, 8, 12, 16, 24, 40, 100, 1_000])
    return dice.choice([("bufsize", small), ("bufpolicy", dice.choice(["switch", "fill", "ring"])), ("aggsize", 8 * small), ("histsize", dice.choice([1, 2, 3, 10])),
                        ("dynvarsize", 32 * dice.choice([1, 2, 3])), ("nspec", dice.choice([1, 2, 3])), ("specsize", small),
                        (dice.choice(["bufsize", "aggsize", "histsize", "dynvarsize", "nspec", "specsize", "other"]), dice.choice([*NUMBERS, -1, 1.5, "ring", None, True]))])


# each so often as it is to come; a `close` ends a session, so it is rare
ASKED = ["option", "enable", "go", "stop", "trunc", "list", "describe", *["snap", "agg"] * 4, *["status"] * 2]
NAMES = ["", "c", "s", "s2", "v", "l", "m", "q", "q2", "z", "z2", "none"]


def command(dice):
    """What a line asks, without its bytes."""
    word = dice.choice(ASKED) if dice.random() < 0.98 else "close"
    fields = {"option": lambda: dict(zip(("name", "value"), setting(dice))), "enable": lambda: {"text": program(dice)},
              "snap": lambda: {"cpu": dice.randrange(CPUS_MAX + 1)}, "agg": lambda: {"name": dice.choice(NAMES)}, "trunc": lambda: {"name": dice.choice(NAMES)},
              "list": lambda: {"probe": dice.choice(["", *DESCRIPTIONS])}, "describe": lambda: {"epid": dice.choice([*range(8), *NUMBERS])}}
    return {"cmd": word, **fields.get(word, dict)()}


def written(dice, asked):
    """A command as JSON: with blanks or without, its keys in any order, one twice, its letters as they are or escaped."""
    rows = [(json.dumps(name), json.dumps(value)) for name, value in asked.items()]
    if dice.random() < 0.1:
        rows.append((json.dumps(dice.choice(["cmd", "x", "name"])), json.dumps(dice.choice(["go", 1, None, [], {"a": 1}]))))
    dice.shuffle(rows)
    if dice.random() < 0.1:
        rows = [(re.sub("[a-z]", lambda found: f"\\u{ord(found[0]):04x}" if dice.random() < 0.3 else found[0], name), value) for name, value in rows]
    comma, colon = dice.choice([(",", ":"), (",", ":"), (" , ", " : "), (",\t", ":\r")])
    return ("{" + comma.join(name + colon + value for name, value in rows) + "}").encode()


def line(dice):
    """The bytes of a line, without its newline."""
    text = written(dice, command(dice))
    chance = dice.random()
    if chance < 0.2:
        text = changed(dice, text, 2)
    elif chance < 0.21:
        text = dice.choice([b"[", b" ", b"x", b'"', b"\xff"]) * dice.choice([LINE_MAX - 1, LINE_MAX, LINE_MAX + 1])
    return text.replace(b"\n", b" ")


def begun(dice):
    """Lines of a session that mostly comes to trace."""
    asked = [{"cmd": "option", **dict(zip(("name", "value"), setting(dice)))} for _at in range(dice.randrange(3))]
    asked += [{"cmd": "enable", "text": program(dice)} for _at in range(dice.randint(1, 4))]
    return [written(dice, it) for it in [*asked, {"cmd": "enable", "text": "read:entry{@c[execname] = count(); trace(arg0)}"}, {"cmd": "go"}]]


# steps


SEATS = [0, 1, 255]


def step(dice, cpus):
    """A step line: whole calls and fires mostly, else their parts."""
    seat, cpu = dice.choice(SEATS), dice.randrange(cpus)
    if dice.random() < 0.8:
        return dice.choice([lambda: b"call %d %s" % (seat, line(dice)), lambda: b"fire %d" % cpu])()
    return dice.choice([lambda: b"ask %d %s" % (seat, line(dice)), lambda: b"publish %d" % seat, lambda: b"finish %d" % seat, lambda: b"withdraw %d" % seat,
                        lambda: b"close %d" % seat, lambda: b"look %d" % cpu, lambda: b"offer %d %d" % (cpu, seat), lambda: b"",
                        lambda: b"open %d %s" % (seat, dice.choice(ACCOUNTS)["name"].encode())])()


def steps(dice, cpus):
    """Steps of sessions on three seats."""
    found = [b"open %d %s" % (seat, dice.choice(MAY_TRACE).encode()) for seat in SEATS]
    starts = [[b"call %d %s" % (seat, text) for text in begun(dice)] for seat in SEATS]
    while any(starts):
        found.append(dice.choice([rest for rest in starts if rest]).pop(0))
    found += [step(dice, cpus) for _at in range(dice.randrange(80))]
    return b"".join(it + b"\n" for it in found)
