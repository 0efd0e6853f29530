"""Sizes and counts: each up to its limit, and ten times as much of what has none.

Most parts are sessions one after another on one seat, whose replies are reckoned here.
"""
import json

from running import (FIRINGS_MAX, HISTORY_MAX, OK, call, enable, enabled, fired, fires, go, judge, machine, near, number, option, run, sessions, snap, status, table,
                     text_of)

EDGES = sorted({sign * power + by for power in (1 << n for n in range(63)) for sign in (-1, 1) for by in (-1, 0, 1)} | {-1 << 63, (1 << 63) - 1})
STATUS = '{"aggdrops":[0],"cause":null,"dyndrops":[0],"errors":[0],"exit":null,"ok":true,"phase":"inactive","seen":0,"specdrops":[0],"specfails":0}'


def signed(value):
    return (value + (1 << 63)) % (1 << 64) - (1 << 63)


def begun(text, data):
    """Of a program of one clause at BEGIN: what it leaves."""
    return [(enable(text), enabled(1)), go(), snap(f"{1:08x}" + data)]


def sums(tokens):
    """An expression of so many tokens, and its value."""
    ones = (tokens + 1) // 2
    return ("" if tokens % 2 else "-") + "+".join(["1"] * ones), ones if tokens % 2 else ones - 2


def texts():
    """Programs of each size: bytes, tokens, clauses, descriptions, statements, keys, texts and names."""
    yield from ([(enable("read:entry{}" + " " * (size - 12)), enabled(1))] for size in near(65_000, 12))
    yield from ([(enable("/*" + "*" * size + "*/read:entry{}"), enabled(1))] for size in near(65_000))
    yield from (begun(f"BEGIN{{trace({sums(tokens)[0]})}}", number(sums(tokens)[1])) for tokens in range(1, 65))
    yield from ([(enable(f"BEGIN/{sums(tokens)[0]}/{{}}"), enabled(1))] for tokens in range(1, 65))
    yield from ([(enable("read:entry{}" * count), enabled(count))] for count in range(1, 65))
    yield from ([(enable("*{}" * count), enabled(4 * count))] for count in range(1, 65))
    yield from ([(enable(",".join(["read:entry"] * count) + "{}"), enabled(1))] for count in range(1, 17))
    yield from (begun("BEGIN{" + ";".join(f"trace({place})" for place in range(count)) + "}", "".join(map(number, range(count))))
                for count in range(1, 9))
    yield from ([(enable("BEGIN{@[" + ",".join(map(str, range(count))) + "] = count()}"), enabled(1)), go(),
                 table("count", [{"key": list(range(count)), "value": 1}])] for count in range(1, 5))
    yield from (begun(f'BEGIN{{trace("{"x" * size}")}}', ("78" * size).ljust(64, "0")) for size in range(32))
    yield from ([(enable(f"BEGIN{{@{'x' * size} = sum(5)}}"), enabled(1)), table("sum", [], "x" * size)] for size in range(32))


def consumers():
    """What one consumer has at the most: each number of ECBs, each described, and of aggregations; and one more."""
    described = [(call(cmd="describe", epid=epid), f'{{"epid":{epid},"id":3,"layout":[],"ok":true,"probe":"syscall::read:entry","size":4}}')
                 for epid in (1, 2, 3, 64, 65, 1_023, 1_024)]
    yield [*((enable("read:entry{}" * 64), enabled(64, 64 * place + 1)) for place in range(16)),
           (enable("read:entry{}"), '{"error":9,"name":"Limit"}'), *described, (call(cmd="describe", epid=1_025), '{"error":14,"name":"NoEpid"}')]
    named = [(enable(f"read:entry{{@a{place} = count()}}"), enabled(1, place + 1)) for place in range(64)]
    yield [*named, (enable("read:entry{@b = count()}"), '{"error":9,"name":"Limit"}'), *(table("count", [], f"a{place}") for place in range(64)),
           (call(cmd="agg", name="b"), '{"error":13,"name":"NoAgg"}')]


def literals():
    """Each number at an edge, as it is written in decimal, octal and hexadecimal."""
    numbers = [0, *near((1 << 64) - 1)]
    for form in ("{}", "0{:o}", "0x{:x}", "0X{:X}"):
        rows = [numbers[place:place + 8] for place in range(0, len(numbers), 8)]
        text = "".join("BEGIN{" + ";".join(f"trace({form.format(it)})" for it in row) + "}" for row in rows)
        data = "".join(f"{epid:08x}" + "".join(map(number, row)) for epid, row in enumerate(rows, 1))
        yield [(enable(text), enabled(len(rows))), go(), snap(data)]


def buffers():
    """Buffers of each size under each policy, filled by firings of twelve bytes each as far as 200 go, and one firing more."""
    place = 0
    for policy in ("switch", "fill", "ring"):
        for size in near(1 << 20):
            kept = min(size // 12, 200)
            more = 1 if kept < 200 else 0
            seen, place = range(place, place + kept + more), place + kept + more
            left = seen[len(seen) - kept:] if policy == "ring" else seen[:kept]
            drops = more if policy == "switch" or policy == "ring" and not kept else 0
            shown = snap("".join(f"{1:08x}" + number(it) for it in left), drops, policy == "fill" and more == 1)
            yield [option("bufpolicy", policy), option("bufsize", size), (enable("read:entry{trace(arg0)}"), enabled(1)), go(),
                   *fires(len(seen)), (call(cmd="stop"), OK), shown]


def every_option():
    """A session for each number of 16 bits, of which each option that takes numbers takes it."""
    for size in range(1, 1 << 16):
        yield [option("bufsize", size), option("histsize", size), option("aggsize", size + 7), option("dynvarsize", size + 31),
               option("specsize", max(size, 4)), (enable("read:entry{}"), enabled(1)), go()]


def stores():
    """Stores for each number of entries, and one entry more, which is dropped; last one of ten times as many."""
    place = 0
    for count in [*near(600), 6_000]:
        first, place = place, place + count + 1
        size = 24 * count + 23
        yield [option("aggsize", size), option("histsize", FIRINGS_MAX), (enable("read:entry{@[arg0] = count()}"), enabled(1)), go(), *fires(count + 1),
               table("count", [{"key": [it], "value": 1} for it in range(first, first + count)]), status(count + 1, aggdrops=1)]


def variables():
    """Rooms for each number of variables, and as many assignments to new ones as they take and one more at least; each kept one is read back."""
    names = [[f"self->v{clause}_{place}" for place in range(4)] for clause in range(64)]
    text = "".join("read:entry{" + "".join(f"{it} = 1; " for it in four) + f"@ = sum({' + '.join(four)})}}" for four in names)
    for count in near(1 << 15):
        firings = count // 256 + 1
        yield [option("dynvarsize", min(32 * count + 31, 1 << 20)), (enable(text), enabled(64)), go(), *fires(firings),
               table("sum", [{"key": [], "value": count}]), status(firings, dyndrops=256 * firings - count)]


def speculations():
    """Each number of speculations, and a draw more at least, which fails; a record in each, committed by END."""
    for count in near(64):
        draws = count // 8 + 1
        drawn = "".join("BEGIN{" + "; ".join(f"self->s{place} = speculation()" for place in range(8)) + "}" for _clause in range(draws))
        written = "".join(f"read:entry{{speculate({it}); trace({it})}}" for it in range(1, count + 1))
        ended = "".join("END{" + "; ".join(f"commit({8 * clause + place})" for place in range(1, 9)) + "}" for clause in range(draws))
        data = "".join(f"{draws + it:08x}" + number(it) for it in range(1, count + 1))
        yield [option("nspec", count), (enable(drawn), enabled(draws)), (enable(written), enabled(count, draws + 1)),
               (enable(ended), enabled(draws, draws + count + 1)), go(), *fires(1), (call(cmd="stop"), OK), snap(data),
               status(1, '"stop"', "stopped", specfails=8 * draws - count)]


def parts():
    """Parts of each size, filled by firings of 62 records of twelve bytes each, and a record more at least, which is dropped; committed as one record."""
    place = 0
    for size in near(1 << 16, 4):
        kept = size // 12
        firings = kept // 62 + 1
        records = [f"{2 + clause:08x}" + number(it) for it in range(place, place + firings) for clause in range(62)]
        place += firings
        yield [option("specsize", size), option("bufsize", 1 << 16),
               (enable("BEGIN{self->s = speculation()}" + "read:entry{speculate(1); trace(arg0)}" * 62 + "END{commit(1)}"), enabled(64)), go(),
               *fires(firings), (call(cmd="stop"), OK), snap("".join(records[:kept])),
               status(firings, '"stop"', "stopped", specdrops=len(records) - kept)]


def levels():
    """An `lquantize` of each number of levels, with a value below them, one in each, and one above."""
    place = 0
    for count in near(512):
        lower, place = place + 1, place + count + 2
        rows = [[None, 1], *([level, 1] for level in range(lower, lower + count + 1))]
        yield [(enable(f"read:entry{{@ = lquantize(arg0, {lower}, {lower + count})}}"), enabled(1)), go(), *fires(count + 2),
               table("lquantize", [{"key": [], "value": rows}])]


def lines():
    """Lines of each length, which are answered, and longer ones; and JSON of each depth."""
    asked = [call(cmd="status") + " " * (size - 16) for size in near(1 << 16, 16)]
    long = [asked[-1] + " " * more for more in (1, 2, 1 << 16, 9 << 16)]
    yield [*((line, STATUS) for line in asked), *((line, '{"error":3,"name":"LineLong"}') for line in long)]
    deep = [call(cmd="status")[:-1] + ',"x":' + "[" * depth + "]" * depth + "}" for depth in range(1, 140)]
    yield [(line, STATUS if depth <= 126 else '{"error":1,"name":"Json"}') for depth, line in enumerate(deep, 1)]


def sizes(folder):
    """Sessions on a machine whose firings have their places as arguments and as threads."""
    path = folder / "machine.json"
    path.write_text(machine([[fired(place, tid=place) for place in range(FIRINGS_MAX)]]))
    for part in (texts, consumers, literals, buffers, every_option, stores, variables, speculations, parts, levels, lines):
        yield from sessions(path, part.__name__, part())


def full_machine(cpus):
    """A machine of so many processors with full scripts."""
    scripts = ",".join(["[" + ",".join(['{"probe":3,"pid":100}'] * FIRINGS_MAX) + "]"] * cpus)
    return machine([[]]).replace('"cpus": 1', f'"cpus": {cpus}').replace("[[]]", f"[{scripts}]")


def histories(folder):
    """Histories of each length, and one firing more, which isn't seen. All are filled by firings of six processors, one after the other."""
    path = folder / "machine.json"
    path.write_text(full_machine(6))
    rows, place = [], 0
    for size in near(FIRINGS_MAX):
        rows.append(history_of(size, [at // FIRINGS_MAX for at in range(place, place + size + 1)], 6))
        place += size + 1
    yield from sessions(path, "histories", rows)


def long_histories(folder):
    """Histories longer than a script, each with one firing more, which isn't seen, up to the longest: by 17 processors, one after the other. And one
    that ends in the middle of the second of two scripts."""
    path = folder / "machine.json"
    path.write_text(full_machine(2))
    yield from sessions(path, "a history over two scripts", [history_of(65_537, [0] * 40_000 + [1] * 40_000, 2)])
    path.write_text(full_machine(17))
    for sizes in ([(1 << 17) - 1, (1 << 18) + 1, 1 << 19], [HISTORY_MAX]):
        rows, place = [], 0
        for size in sizes:
            rows.append(history_of(size, [at // FIRINGS_MAX for at in range(place, place + size + 1)], 17))
            place += size + 1
        yield from sessions(path, f"histories of {', '.join(map(str, sizes))}", rows)


def history_of(size, fired_on, cpus):
    """A session whose history has this many firings: these processors fire, one after the other."""
    zeros = json.dumps([0] * cpus, separators=(",", ":"))
    ended = f'{{"aggdrops":{zeros},"cause":"history","dyndrops":{zeros},"errors":{zeros},"exit":null,"ok":true,"phase":"stopped","seen":{size},"specdrops":{zeros},"specfails":0}}'
    return [option("histsize", size), (enable("read:entry{@ = count()}"), enabled(1)), go(), *((f"fire {cpu}", None) for cpu in fired_on),
            table("count", [{"key": [], "value": size}]), (call(cmd="status"), ended)]


def row_of(value):
    """The row of a `quantize` that counts a value."""
    power = 1 << min(abs(value).bit_length() - 1, 62) if value else 0
    return power if value > 0 else -power


def values(folder):
    """Each number at an edge as an argument: recorded, reckoned with, and given to each function."""
    path = folder / "machine.json"
    pairs = [(value, EDGES[7 * place % len(EDGES)]) for place, value in enumerate(EDGES)]
    path.write_text(machine([[fired(*pair) for pair in pairs]]))
    text = "read:entry{trace(arg0); trace(arg0 + arg1); trace(arg0 - arg1); trace(arg0 * arg1); trace(arg0 & arg1); trace(arg0 | arg1); trace(arg0 ^ arg1); trace(-arg0)}"
    data = "".join(f"{1:08x}" + "".join(map(number, (a, a + b, a - b, a * b, a & b, a | b, a ^ b, -a))) for a, b in pairs)
    yield from sessions(path, "values that are recorded", [[(enable(text), enabled(1)), go(), *fires(len(pairs)), snap(data)]])
    total = signed(sum(EDGES))
    average = abs(total) // len(EDGES) * (1 if total > 0 else -1)
    rows = [[row, sum(row_of(value) == row for value in EDGES)] for row in sorted(set(map(row_of, EDGES)))]
    wanted = {"count": len(EDGES), "sum": total, "avg": average, "min": EDGES[0], "max": EDGES[-1], "quantize": rows}
    for function, value in wanted.items():
        text = f"read:entry{{@ = {function}({'' if function == 'count' else 'arg0'})}}"
        yield from sessions(path, f"values that {function} is given", [[(enable(text), enabled(1)), go(), *fires(len(EDGES)),
                                                                          table(function, [{"key": [], "value": value}])]])


def frames(folder):
    """Stacks of each depth, of firings with each number of frames."""
    path = folder / "machine.json"
    pairs = [(depth, has) for depth in range(1, 9) for has in range(9)]
    path.write_text(machine([[fired(kstack=list(range(1, has + 1)), ustack=list(range(11, 19 - has))) for _depth, has in pairs]]))
    rows = []
    for depth, has in pairs:
        kept = [it if it <= has else 0 for it in range(1, depth + 1)] + [it if it < 19 - has else 0 for it in range(11, depth + 11)]
        rows.append([(enable(f"read:entry{{stack({depth}); ustack({depth})}}"), enabled(1)), go(), *fires(1), snap(f"{1:08x}" + "".join(map(number, kept)))])
    yield from sessions(path, "stacks of each depth", rows)


def arguments(folder):
    """Firings with each number of arguments; the others are 0."""
    path = folder / "machine.json"
    path.write_text(machine([[fired(*range(1, count + 1)) for count in range(11)]]))
    first, second = ("read:entry{" + ";".join(f"trace(arg{at})" for at in half) + "}" for half in (range(5), range(5, 10)))
    data = ""
    for count in range(11):
        given = [it if it <= count else 0 for it in range(1, 11)]
        data += f"{1:08x}" + "".join(map(number, given[:5])) + f"{2:08x}" + "".join(map(number, given[5:]))
    yield from sessions(path, "each number of arguments", [[(enable(first + second), enabled(2)), go(), *fires(11), snap(data)]])


def megabyte_snaps(folder):
    """A buffer of the largest size under each policy, filled but for sixteen bytes and read at once."""
    size, record = 1 << 20, 4 + 8 + 8
    count = size // record
    path = folder / "machine.json"
    path.write_text(machine([[fired(place) for place in range(count)]]))
    data = "".join(f"{1:08x}" + number(place) + number(3 * place) for place in range(count))
    for policy in ("switch", "fill", "ring"):
        yield from sessions(path, f"a snap of a megabyte under {policy}", [
            [option("bufsize", size), option("bufpolicy", policy), option("histsize", count),
             (enable("read:entry{trace(arg0);trace(arg0 * 3)}"), enabled(1)), go(), *fires(count), snap(data)]])


def descriptions(folder):
    """Fields of each size, in each place of a description; and one byte more."""
    path = folder / "machine.json"
    path.write_text(machine([[]], probes=[":".join(letter * 31 for letter in "abcd")]))
    found = '{"ok":true,"probes":[{"id":3,"name":"' + ":".join(letter * 31 for letter in "abcd") + '"}]}'
    rows = []
    for place, letter in enumerate("abcd"):
        for size in range(1, 65):
            fields = ["", "", "", "d*"]
            fields[place] = letter * min(size, 31) + "*" * (size - 31)
            answer = found if size >= 31 else '{"ok":true,"probes":[]}'
            rows.append((call(cmd="list", probe=":".join(fields)), answer if size < 64 else '{"at":0,"error":4,"name":"Program","why":"Probe"}'))
    yield from sessions(path, "fields of each size", [rows])


def seats(folder):
    """Sessions at once, which all see one firing: each number up to 65, and those around each further 64."""
    path = folder / "machine.json"
    path.write_text(machine([[fired(5)]]))
    for count in sorted({*range(1, 65), 65, 127, 128, 129, 191, 192, 193, 255, 256}):
        begin = [step for seat in range(count) for step in (f"open {seat} root", call(seat, cmd="enable", text="read:entry{trace(arg0)}"), call(seat, cmd="go"))]
        end = [call(seat, cmd="snap", cpu=0) for seat in range(count)]
        replies = [f"{seat} {reply}" for seat in range(count) for reply in (enabled(1), OK)]
        replies += [f"{seat} {snap(f'{1:08x}' + number(5))[1]}" for seat in range(count)]
        yield f"{count} sessions", run("replay", path, text=text_of([*begin, "fire 0", *end])), (text_of(replies), 0)
    opens = [f"open {seat} root" for seat in range(256)]
    lines = [f"call {seat} []" for seat in range(256)]
    replies = [f'{seat} {{"error":2,"name":"Request"}}' for seat in range(256)]
    yield "an open on each taken seat", run("replay", path, text=text_of([*opens, *lines, *opens, *lines])), (text_of(replies * 2), 0)
    yield "an open past the last seat", run("replay", path, text=text_of([*opens, "open 256 root"])), (b"line 257: refused\n", 1)


def processors(folder):
    """Each number of processors, each of which fires once and is read; and what is told of all of them at once."""
    path = folder / "machine.json"
    for count in range(1, 65):
        path.write_text(machine([[fired(place)] for place in range(count)]))
        shown = [snap(f"{1:08x}" + number(cpu), cpu=cpu) for cpu in range(count)]
        none = ",".join(["0"] * count)
        told = (call(cmd="status"), f'{{"aggdrops":[{none}],"cause":null,"dyndrops":[{none}],"errors":[{none}],"exit":null,"ok":true,"phase":"active","seen":{count},"specdrops":[{none}],"specfails":0}}')
        yield from sessions(path, f"{count} processors", [
            [(enable("read:entry{trace(arg0); @ = sum(arg0 + 1)}"), enabled(1)), go(), *((f"fire {cpu}", None) for cpu in range(count)), *shown,
             (call(cmd="snap", cpu=count), '{"error":12,"name":"NoCpu"}'), told,
             table("sum", [{"key": [], "value": count * (count + 1) // 2}]), (call(cmd="trunc", name=""), OK), table("sum", [])]])


def long_inputs(folder):
    """Ten full scripts, worked through for a session whose history ends earlier; and an input of ten megabytes of empty lines."""
    path = folder / "machine.json"
    path.write_text(full_machine(10))
    head = ["open 0 root", call(cmd="option", name="histsize", value=FIRINGS_MAX), enable("read:entry{@ = count()}"), call(cmd="go")]
    ended = table("count", [{"key": [], "value": FIRINGS_MAX}])
    steps = [*head, *(f"fire {place % 10}" for place in range(10 * FIRINGS_MAX)), ended[0]]
    wanted = text_of(f"0 {reply}" for reply in (OK, enabled(1), OK, ended[1]))
    yield "ten full scripts", run("replay", path, text=text_of(steps)), (wanted, 0)
    path.write_text(machine([[]]))
    yield "ten megabytes of empty lines", run("replay", path, text=b"\n" * 10_000_000 + b"x\n"), (b"line 10000001: refused\n", 1)


judge(sizes, histories, long_histories, values, frames, arguments, megabyte_snaps, descriptions, seats, processors, long_inputs)
