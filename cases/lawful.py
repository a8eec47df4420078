"""Which reports of jobs are lawful, and what a run with such a report puts: a twin of the rules in docs/FORMATS.md and
docs/DEFINITIONS.md, which shares nothing with the program. It knows these lines alone: `qdisc add`; filters on dst_ip with a length, a
pref, a handle and gact actions with an index; dels of filters and tables; actions that are added, changed and deleted; and `#`, which is
no command. Frames have 60 bytes.
"""
import ipaddress
import re

LAWFUL = "lawful"


class Bad(Exception):
    """No lawful report goes on with the line that is told."""


class State:
    def __init__(self):
        self.hooked, self.rows, self.actions = False, [], []
        self.tables_made = self.masks_made = self.actions_made = 0

    def copied(self):
        """Rows are never changed, and actions are."""
        other = State()
        vars(other).update(vars(self))
        other.rows, other.actions = list(self.rows), [dict(it) for it in self.actions]
        return other

    def action(self, test):
        return next((it for it in self.actions if test(it)), None)

    def named(self, index):
        return self.action(lambda it: it["index"] == int(index))

    def make(self, index, control, references):
        self.actions_made += 1
        its = {"index": int(index), "control": control, "serial": self.actions_made, "references": references, "binds": 0}
        self.actions.append(its)
        return its

    def serial_for(self, count, test, key):
        """The serial that a row has which passes the test, or the next one."""
        for row in self.rows:
            if test(row):
                return row[key]
        setattr(self, count, getattr(self, count) + 1)
        return getattr(self, count)

    def without(self, gone):
        for serial in [serial for row in self.rows if gone(row) for serial in row["actions"]]:
            its = self.action(lambda it, serial=serial: it["serial"] == serial)
            its["binds"], its["references"] = its["binds"] - 1, its["references"] - 1
        self.rows = [row for row in self.rows if not gone(row)]
        self.actions = [it for it in self.actions if it["references"]]

    def add_filter(self, hook, pref, handle, address, length, actions):
        table = [row for row in self.rows if (row["hook"], row["pref"]) == (hook, pref)]
        key = (int(ipaddress.ip_address(address)), int(length))
        if not self.hooked:
            return None, "NoHook"
        if any(row["handle"] == handle for row in table):
            return None, "HandleTaken"
        for row in table:
            if row["key"] == key:
                return None, f"Exists {row['handle']:#x}"
        serials = []
        for control, index in re.findall(r"action (\w+) index (\d+)", actions):
            its = self.named(index)
            if not its and control == "gact":
                return None, f"NoSuchAction gact {index}"
            its = its or self.make(index, control, 0)
            its["binds"], its["references"] = its["binds"] + 1, its["references"] + 1
            serials.append(its["serial"])
        here = lambda row: (row["hook"], row["pref"]) == (hook, pref)  # noqa: E731
        self.rows.append({
            "hook": hook, "pref": pref, "handle": handle, "key": key, "actions": serials,
            "mask": self.serial_for("masks_made", lambda row: here(row) and row["key"][1] == key[1], "mask"),
            "table": self.serial_for("tables_made", here, "table"),
        })
        return True, f"filter pref {pref} handle {handle:#x} actions {','.join(map(str, serials))}"

    def del_filters(self, hook, pref, handle):
        table = [row for row in self.rows if (row["hook"], row["pref"]) == (hook, pref)]
        if not self.hooked:
            return None, "NoHook"
        if not table:
            return None, "NoSuchTable"
        if handle and all(row["handle"] != handle for row in table):
            return None, "NoSuchFilter"
        self.without(lambda row: row in table and row["handle"] == (handle or row["handle"]))
        return True, "filter gone" if handle else "table gone"

    def edit_actions(self, verb, control, index):
        its = self.named(index)
        if verb == "del":
            if not its:
                return None, f"NoSuchAction gact {index}"
            if its["binds"]:
                return None, f"ActionBound {its['binds']}"
            self.actions.remove(its)
            return True, "action gone"
        if its and verb == "add":
            return None, "ActionExists"
        if its:
            its["control"] = control
            return True, "action changed"
        return True, f"action index {index} serial {self.make(index, control, 1)['serial']}"

    def apply(self, line):
        if line.startswith("qdisc"):
            was, self.hooked = self.hooked, True
            return (None, "HookExists") if was else (True, "hooked")
        found = re.match(r"filter add dev eth0 (\w+) protocol ip pref (\d+) handle (\d+) flower dst_ip ([\d.]+)/(\d+)(.*)", line)
        if found:
            return self.add_filter(found[1], int(found[2]), int(found[3]), *found.groups()[3:])
        found = re.match(r"filter del dev eth0 (\w+) pref (\d+)(?: handle (\d+) flower)?$", line)
        if found:
            return self.del_filters(found[1], int(found[2]), int(found[3] or 0))
        return self.edit_actions(*re.match(r"actions (\w+) action (\w+) index (\d+)", line).groups())


def walk(states, hook, address, floor, choose):
    """Verdict, points and serials that ran of a packet's walk, where `choose` picks each point: from the least to the greatest that the
    others allow, and one at which the visited thing stands, which is the head, a mask or an action."""
    points, ran, last = [], [], {}
    ceiling = len(states) - 1

    def visit(thing, stands):
        low = max(points[0] if points else floor, last.get(thing, 0))
        points.append(choose(low, ceiling, lambda it: stands(states[it]), thing[0]))
        last[thing] = points[-1]
        return states[points[-1]]

    heads = sorted({(row["pref"], row["mask"]) for row in visit(("head", 0), lambda _: True).rows if row["hook"] == hook})
    while heads:
        pref, mask = heads.pop(0)
        rows = visit(("mask", mask), lambda it, mask=mask: any(row["mask"] == mask for row in it.rows)).rows
        number = int(ipaddress.ip_address(address))
        met = [row for row in rows if row["mask"] == mask and number >> 32 - row["key"][1] == row["key"][0] >> 32 - row["key"][1]]
        for serial in met[0]["actions"] if met else []:
            test = lambda its, serial=serial: its["serial"] == serial  # noqa: E731
            ran.append(serial)
            control = visit(("action", serial), lambda it, test=test: it.action(test)).action(test)["control"]
            if control != "pipe":
                break
        if met and control == "continue":
            heads = [it for it in heads if it[0] != pref]
        elif met:
            return "drop" if control == "drop" else "pass", points, ran
    return "pass", points, ran


def report_lines(job, choices):
    """The lines of a report of the job, where `choices` picks among those that are lawful next."""
    states, seen, ran, totals = [State()], {}, {}, {"refused": 0, "pass": 0, "drop": 0}
    yield "clsact report 1\n"
    for number, (batches, hook, addresses) in enumerate(job["rounds"], 1):
        yield f"round {number}\n"
        before = len(states) - 1
        left = {control: [it for it in enumerate(lines, 1) if it[1] != "#"] for control, _, lines in batches}
        force = {control: force for control, force, _ in batches}
        while any(left.values()):
            options = []
            for control in [it for it in left if left[it]]:
                state = states[-1].copied()
                line, words = left[control][0]
                good, text = state.apply(words)
                edits = len(states) if good else len(states) - 1
                options.append((f"{'edit' if good else 'refused'} {edits} control {control} line {line} {text}\n", control, good, state))
            text, control, good, state = options[choices.event([it[0] for it in options])]
            left[control].pop(0)
            if good:
                states.append(state)
            else:
                totals["refused"] += 1
                left[control] = left[control] if force[control] else []
            yield text
        for place, address in enumerate(addresses, 1):
            worker, choose = choices.packet(job["workers"])
            verdict, points, serials = walk(states, hook, address, max(before, seen.get(worker, 0)), choose)
            seen[worker] = max(seen.get(worker, 0), *points)
            totals[verdict] += 1
            for serial in serials:
                ran[serial] = ran.get(serial, 0) + 1
            yield f"packet {place} worker {worker} {verdict} length 60 points {' '.join(map(str, points))}\n"
        yield f"end round {number}\n"
    for serial in range(1, states[-1].actions_made + 1):
        index = next(its["index"] for state in states for its in state.actions if its["serial"] == serial)
        count = ran.get(serial, 0)
        yield f"counter serial {serial} gact index {index} packets {count} bytes {60 * count}\n"
    yield (f"summary edits {len(states) - 1} refused {totals['refused']} packets {totals['pass'] + totals['drop']} "
           f"passed {totals['pass']} dropped {totals['drop']}\n")
    yield "end\n"


class AnyOf:
    """Picks by chance."""

    def __init__(self, chance):
        self.chance = chance

    def event(self, options):
        return self.chance.randrange(len(options))

    def packet(self, workers):
        def choose(low, high, stands, _):
            return self.chance.choice([it for it in range(low, high + 1) if stands(it)])

        return self.chance.randint(1, workers), choose


class AsTold:
    """Picks what the next line tells."""

    def __init__(self, lines):
        self.lines, self.place = lines, 0

    def event(self, options):
        line = self.lines[self.place] if self.place < len(self.lines) else ""
        return options.index(line) if line in options else 0

    def packet(self, workers):
        line = self.lines[self.place] if self.place < len(self.lines) else ""
        found = re.fullmatch(r"packet \d+ worker (\d+) .* points ((?:\d+ )*\d+)\n", line)
        if not found or not 1 <= int(found[1]) <= workers:
            raise Bad
        points = [int(it) for it in found[2].split()]

        def choose(low, high, stands, _):
            if not points or not low <= points[0] <= high or not stands(points[0]):
                raise Bad
            return points.pop(0)

        return int(found[1]), choose


def outputs(job, lines):
    """By name, the packets that a run with these lines puts, each by its number: where two rounds have one name, those of the later."""
    put, passed = {}, []
    for line in lines:
        words = line.split()
        if words[0] == "round":
            passed = []
        elif words[0] == "packet" and words[4] == "pass":
            passed.append(int(words[1]))
        elif words[:2] == ["end", "round"] and job["outs"][int(words[2]) - 1]:
            put[job["outs"][int(words[2]) - 1]] = int(words[2]), passed
    return put


def answer(job, lines):
    """What a recheck is to answer to these lines, of which only the last may have no end."""
    told = AsTold(lines)
    try:
        for line in report_lines(job, told):
            if told.place >= len(lines) or lines[told.place] != line:
                return f"unlawful {told.place + 1}"
            told.place += 1
    except Bad:
        return f"unlawful {told.place + 1}"
    return LAWFUL if told.place == len(lines) else f"unlawful {told.place + 1}"
