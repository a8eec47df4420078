"""Jobs by chance, for cases/lawful.py, and reports with something changed."""
import os
import re

from frames import capture
from sections import batch


def random_line(chance):
    """A line of a batch, of the grammar of cases/lawful.py."""
    hook, pref, handle = chance.choice(["ingress", "ingress", "egress"]), chance.choice([10, 20]), chance.randint(1, 4)
    control, index = chance.choice(["ok", "drop", "pipe", "continue"]), chance.randint(1, 3)
    actions = "".join(f" action {chance.choice(['gact', 'ok', 'drop', 'pipe', 'continue'])} index {chance.randint(1, 3)}"
                      for _ in range(chance.choice([1, 1, 2])))
    address = chance.choice(["10.0.0.1/32", "10.0.0.2/32", "10.0.0.0/24", "10.0.1.0/24"])
    return chance.choice([
        *[f"filter add dev eth0 {hook} protocol ip pref {pref} handle {handle} flower dst_ip {address}{actions}"] * 6,
        f"filter del dev eth0 {hook} pref {pref} handle {handle} flower",
        f"filter del dev eth0 {hook} pref {pref} handle {handle} flower",
        f"filter del dev eth0 {hook} pref {pref}",
        f"actions add action {control} index {index}",
        f"actions change action {control} index {index}",
        f"actions del action gact index {index}",
    ])


def random_job(chance):
    """A job for cases/lawful.py: of each round its batches, with control, `force` and lines, its hook and its packets; the names under which
    its captures are put, or None for a round without one; and the seconds of each capture's first packet."""
    rounds = []
    for number in range(chance.choice([1, 2, 2, 3])):
        controls = sorted(chance.sample([1, 2], chance.choice([0, 1, 2] if number else [1, 2])))
        batches = [(it, chance.random() < 0.8, [random_line(chance) for _ in range(chance.randint(1, 6))]) for it in controls]
        if not number:
            batches[0][2].insert(0, "qdisc add dev eth0 clsact")
        addresses = chance.choices(["10.0.0.1", "10.0.0.2", "10.0.1.1", "10.0.2.1"], k=chance.randint(0, 5))
        rounds.append((batches, chance.choice(["ingress", "ingress", "egress"]), addresses))
    return {"workers": chance.randint(1, 3), "controls": 2, "outs": ["out"] * len(rounds), "first": 1, "rounds": rounds}


def random_batch(chance, length):
    """The lines of a batch, some of which are no command."""
    return [random_line(chance) if chance.random() < 0.9 else "#" for _ in range(length)]


def random_run(chance, lines, packets):
    """A job to be run: its rounds have up to so many lines in a batch and up to so many packets, or no batch, no line, no capture, no
    packet. Mostly the first line of its first batch adds the qdisc; two rounds may name one OUT."""
    controls, rounds, outs = chance.randint(1, 4), [], []
    for number in range(chance.choice([1, 2, 2, 3, 4])):
        named = sorted(chance.sample(range(1, controls + 1), chance.randint(not number, controls)))
        batches = [(it, chance.random() < 0.7, random_batch(chance, chance.choice([0, lines // 3, lines, lines]))) for it in named]
        if not number and chance.random() < 0.95:
            batches[0][2].insert(0, "qdisc add dev eth0 clsact")
        outs.append(chance.choice([None, "out", "other", f"{number}.out", f"{number}.out"]))
        count = chance.choice([0, packets // 3, packets, packets]) if outs[-1] else 0
        addresses = chance.choices(["10.0.0.1", "10.0.0.2", "10.0.1.1", "10.0.2.1"], k=count)
        rounds.append((batches, chance.choice(["ingress", "ingress", "egress"]), addresses))
    return {"workers": chance.randint(1, 8), "controls": controls, "outs": outs, "first": 1, "rounds": rounds}


def packets_of(job, addresses):
    """The packets of a capture to these addresses, each with its seconds."""
    return list(enumerate([f"udp {it}" for it in addresses], job["first"]))


def put_job(job, room):
    """The files of the job."""
    files = {}
    lines = ["clsact job 1", f"workers {job['workers']}", f"controls {job['controls']}"]
    for number, (batches, hook, addresses) in enumerate(job["rounds"]):
        lines.append("round")
        for control, force, its in batches:
            files[f"{number}-{control}.tc"] = batch(its)
            lines.append(f"batch {control} {number}-{control}.tc" + " force" * force)
        if job["outs"][number]:
            files[f"{number}.pcap"] = capture(packets_of(job, addresses), False)
            lines.append(f"capture {hook} {number}.pcap {job['outs'][number]}")
    files["job"] = batch([*lines, "end"])
    for name, data in files.items():
        with open(os.path.join(room, name), "wb") as file:
            file.write(data)


def changed_lines(chance, lines):
    """The lines with a number changed in one of them, in packets' lines rather than in others; with other points and another verdict of
    a packet; or with an event behind the next line."""
    changed = list(lines)
    packets = [at for at, line in enumerate(lines) if line.startswith("packet")]
    events = [at for at, line in enumerate(lines[:-1]) if line.startswith(("edit", "refused"))]
    if chance.random() < 0.2:
        at = chance.choice(events)
        changed[at], changed[at + 1] = changed[at + 1], changed[at]
        return changed
    at = chance.choice(packets) if packets and chance.random() < 0.8 else chance.randrange(len(lines))
    if at in packets and chance.random() < 0.3:
        points = " ".join(str(chance.randint(1, 6)) for _ in range(chance.randint(1, 4)))
        front = changed[at].split(" points ")[0].replace("pass", chance.choice(["pass", "drop"]))
        changed[at] = f"{front} points {points}\n"
        return changed
    numbers = list(re.finditer(r"\d+", changed[at]))
    if not numbers:
        changed.pop(at)
        return changed
    found = chance.choice(numbers[1:] or numbers)
    number = max(0, int(found[0]) + chance.choice([-1, 1, 1]))
    changed[at] = changed[at][: found.start()] + str(number) + changed[at][found.end() :]
    return changed
