"""The rules of `qos run` written once more, slowly and plainly, for comparing the program with another way.

usage: model.py PROFILE PREFIX CAPTURE

It does what `qos run --profile PROFILE --out PREFIX CAPTURE` should do: it writes PREFIX.n.pcap for each port n, prints the
report and ends with its status. It knows nothing of reads that fail midway, of writes that fail and of memory, so nothing
is unwritten, and no record is without a slot yet. The rules are those of docs/DEFINITIONS.md and docs/PROFILE.md.
"""

import struct
import sys
from collections import Counter, namedtuple
from math import lcm

from model_meter import Meter
from model_profile import SECOND, Fault, read_profile

UNITS = {0xA1B23C4D: 1, 0xA1B2C3D4: 1000}
BAD_MAGIC, BAD_VERSION, BAD_LINK, CUT_HEADER, CUT_RECORD, HUGE_RECORD = range(1, 7)
MOST_CAPTURED, LAST_MOMENT = 262_144, 2**50
LAST_STAMP = (2**32 - 1) * SECOND + SECOND - 1
MOST_SHARE, MOST_PORTS = 2**48, 16
REASONS = ("unparsed", "unmatched", "oversize", "toolong", "noslot", "policed", "tailfull")


# ---- captures

def form_of(data):
    """The byte order of a capture and its unit in nanoseconds, or None where it begins with no magic."""
    for order in "<>":
        unit = UNITS.get(struct.unpack(order + "I", data[:4])[0])
        if unit:
            return order, unit
    return None


def header_fault(data):
    """The fault of a capture's header and where it is, or None."""
    if len(data) < 24:
        return CUT_HEADER, len(data)
    form = form_of(data)
    if form is None:
        return BAD_MAGIC, 0
    major, link = struct.unpack(form[0] + "4xH14xI", data[:24])
    return (BAD_VERSION, 0) if major != 2 else (BAD_LINK, 0) if link % 2**16 != 1 else None


def read(data):
    """The records (stamp, length on the line, bytes), the first head's stamp or 0, and the fault, or None in a whole capture."""
    fault = header_fault(data)
    if fault:
        return [], 0, fault
    (order, unit), records, origin, at = form_of(data), [], 0, 24
    while at < len(data):
        if len(data) < at + 16:
            return records, origin, (CUT_RECORD, at)
        seconds, fraction, captured, original = struct.unpack(order + "IIII", data[at : at + 16])
        if captured > MOST_CAPTURED:
            return records, origin, (HUGE_RECORD, at)
        stamp = seconds * SECOND + fraction * unit
        origin = stamp if at == 24 else origin
        if len(data) < at + 16 + captured:
            return records, origin, (CUT_RECORD, at)
        records.append((stamp, max(captured, original), data[at + 16 : at + 16 + captured]))
        at += 16 + captured
    return records, origin, None


# ---- frames and rules

# The bytes of a frame's link header and tags, its outer VLAN id, protocol, code point and IPv4 addresses.
Frame = namedtuple("Frame", "header vlan protocol code_point source destination", defaults=(0, 0, 0))
Place = namedtuple("Place", "port subport pipe queue colour meter")


def look(frame):
    """What a frame says; None where it is cut short or no such frame."""
    if len(frame) < 14:
        return None
    kind, header, vlan = frame[12:14], 14, None
    for _ in range(2):
        if kind in (b"\x81\x00", b"\x88\xa8"):
            if len(frame) < header + 4:
                return None
            if vlan is None:
                vlan = int.from_bytes(frame[header : header + 2], "big") % 4096
            kind, header = frame[header + 2 : header + 4], header + 4
    body = frame[header:]
    if kind == b"\x08\x00":
        if len(body) < 20 or body[0] >> 4 != 4 or body[0] % 16 < 5:
            return None
        addresses = (int.from_bytes(body[at : at + 4], "big") for at in (12, 16))
        return Frame(header, vlan, "ipv4", body[1] >> 2, *addresses)
    if kind == b"\x86\xdd":
        if len(body) < 40 or body[0] >> 4 != 6:
            return None
        return Frame(header, vlan, "ipv6", (int.from_bytes(body[:2], "big") >> 4) % 256 >> 2)
    if kind == b"\x88\x47":
        return Frame(header, vlan, "mpls") if len(body) >= 4 else None
    return Frame(header, vlan, "other")


def lies_in(prefix, protocol, address):
    return prefix == "any" or (protocol == "ipv4" and address >> (32 - prefix[1]) == prefix[0])


def place(profile, number, frame):
    """Where the first rule that matches puts a frame of an input, with its colour before a meter and its meter; or None."""
    by_frame = {"vlan": frame.vlan, "host": frame.destination % 4096 if frame.protocol == "ipv4" else None}
    for rule in profile.rules:
        pipe = by_frame.get(rule["pipe"], rule["pipe"])
        if (
            rule["input"] in ("any", number)
            and rule["vlan"] in ("any", "none" if frame.vlan is None else frame.vlan)
            and rule["proto"] in ("any", frame.protocol)
            and lies_in(rule["src"], frame.protocol, frame.source)
            and lies_in(rule["dst"], frame.protocol, frame.destination)
            and pipe is not None
            and pipe < len(profile.ports[rule["port"]]["subports"][rule["subport"]]["pipes"])
        ):
            traffic_class, queue, colour = profile.codes[frame.code_point] if rule["code"] == "dscp" else rule["code"]
            queue += 12 if traffic_class == 12 else traffic_class
            return Place(rule["port"], rule["subport"], pipe, queue, colour, rule["meter"])
    return None


def meters_of(profile):
    """The meters by name, each as it starts."""
    return {plan["name"]: Meter(plan) for plan in profile.meters}


def fate(profile, meters, record, moment):
    """Why a record is lost before it arrives at its port, or None, and its place where it has one. Its meter marks it."""
    _, wire, body = record
    if len(body) > profile.pool["slot bytes"]:
        return "toolong", None
    frame = look(body)
    if frame is None:
        return "unparsed", None
    spot = place(profile, 0, frame)
    if spot is None:
        return "unmatched", None
    if wire > profile.ports[spot.port]["mtu"]:
        return "oversize", spot
    if spot.meter is not None:
        _, is_dropped = meters[spot.meter].mark(moment, wire - frame.header, spot.colour)
        if is_dropped:
            return "policed", spot
    return None, spot


def receive(profile, meters, records, origin):
    """Each record with its moment, why it is lost before it arrives at its port, or None, and its place where it has one."""
    for record in records:
        moment = min(max(record[0] - origin, 0), LAST_MOMENT)
        yield record, moment, *fate(profile, meters, record, moment)


# ---- the scheduler

class Level:
    """A token bucket and the credits of thirteen classes: what a subport and a pipe both have."""

    def __init__(self, shaping):
        (self.size, self.gain, self.period), self.whole, self.renewal = shaping
        self.credits, self.stepped = self.size // 2, 0
        self.classes, self.due = list(self.whole), self.renewal

    def earn(self, time):
        periods = (time - self.stepped) // self.period
        self.credits = min(self.size, self.credits + periods * self.gain)
        self.stepped += periods * self.period

    def renew(self, time):
        if time >= self.due:
            self.classes, self.due = list(self.whole), time + self.renewal

    def allows(self, number, cost):
        return cost <= self.credits and cost <= self.classes[number]

    def pay(self, number, cost):
        self.credits -= cost
        self.classes[number] -= cost


class Pipe:
    def __init__(self, plan, sizes):
        self.level, self.weight, self.sizes = Level(plan["shaping"]), plan["weight"], sizes
        self.factors = [lcm(*plan["weights"]) // weight for weight in plan["weights"]]
        self.tokens, self.share, self.seen = [0] * 4, 0, None
        self.queues = [[] for _ in range(16)]

    def waits(self):
        return any(self.queues)

    def pick(self):
        """The best effort queue with the fewest tokens, which are taken from each that has a packet; None where none has."""
        filled = [n for n in range(4) if self.queues[12 + n]]
        if not filled:
            return None
        best = min(filled, key=lambda n: (self.tokens[n], n))
        fewest = self.tokens[best]
        for n in filled:
            self.tokens[n] -= fewest
        return best


class Subport:
    def __init__(self, plan, most_cost):
        self.level, self.pipes = Level(plan["shaping"]), [Pipe(pipe, plan["queue sizes"]) for pipe in plan["pipes"]]
        self.cursor, self.count = 0, 0
        self.is_shared = plan["oversubscription"] == "yes"
        shares = [pipe.level.whole[12] * self.level.renewal // pipe.level.renewal for pipe in self.pipes]
        self.least, self.most = most_cost, min(max(most_cost, *shares), MOST_SHARE)
        self.watermark, self.is_oversubscribed = self.most, sum(shares) > self.level.whole[12]

    def renew(self, time):
        level = self.level
        if time < level.due:
            return
        if self.is_shared and self.is_oversubscribed:
            used = [whole - left for whole, left in zip(level.whole, level.classes)]
            if used[12] + self.least > level.whole[12] - sum(used[:12]):
                self.watermark = max(self.least, self.watermark - self.watermark // 128)
            else:
                self.watermark = min(self.most, self.watermark + self.watermark // 128 + 1)
        level.renew(time)
        self.count += 1

    def next_pipe(self):
        places = [(self.cursor + far) % len(self.pipes) for far in range(len(self.pipes))]
        return next((place for place in places if self.pipes[place].waits()), None)


class Port:
    """A port of a profile; times are byte times of its line."""

    def __init__(self, plan):
        self.overhead, self.burst, self.quantum = plan["frame overhead"], plan["burst"], plan["quantum"]
        self.subports = [Subport(subport, plan["mtu"] + self.overhead) for subport in plan["subports"]]
        self.cursor, self.time, self.clock, self.went, self.waiting = 0, 0, 0, False, 0
        self.sends, self.arrived, self.dropped, self.dequeues = [], 0, 0, 0

    def send(self, subport, pipe, queue):
        """Sends the packet at the front of a queue where all credits allow it, and answers whether they do."""
        record, number = pipe.queues[queue][0], min(queue, 12)
        cost = record[1] + self.overhead
        shared = subport.is_shared and number == 12
        if not (subport.level.allows(number, cost) and pipe.level.allows(number, cost) and (not shared or cost <= pipe.share)):
            return False
        pipe.queues[queue].pop(0)
        subport.level.pay(number, cost)
        pipe.level.pay(number, cost)
        pipe.share -= cost if shared else 0
        self.sends.append((self.time, record))
        self.time += cost
        self.waiting -= 1
        return True

    def visit(self, subport, pipe, room):
        """A visit of a pipe; answers the room that is left."""
        subport.level.earn(self.time)
        pipe.level.earn(self.time)
        subport.renew(self.time)
        pipe.level.renew(self.time)
        if subport.is_shared and pipe.seen != subport.count:
            pipe.share, pipe.seen = subport.watermark * pipe.weight, subport.count
        for queue in range(12):
            while room and pipe.queues[queue] and self.send(subport, pipe, queue):
                room -= 1
        while room and (best := pipe.pick()) is not None:
            cost = pipe.queues[12 + best][0][1] + self.overhead
            if not self.send(subport, pipe, 12 + best):
                break
            room -= 1
            pipe.tokens[best] = pipe.tokens[best] + cost * pipe.factors[best] if pipe.queues[12 + best] else 0
        return room

    def turn(self, subport, room):
        """Visits of a subport's pipes until the room is used up or too many in a row sent nothing; answers the room that is left."""
        misses = 0
        while room and misses < sum(pipe.waits() for pipe in subport.pipes):
            place, before = subport.next_pipe(), room
            room = self.visit(subport, subport.pipes[place], room)
            misses = misses + 1 if room == before else 0
            subport.cursor = place if room == 0 else (place + 1) % len(subport.pipes)
        return room

    def dequeue(self, now):
        self.clock, self.time, room = now, max(self.time, now), self.burst
        self.dequeues += 1
        first = self.cursor
        for far in range(len(self.subports)):
            place = (first + far) % len(self.subports)
            room = self.turn(self.subports[place], room)
            if room == 0:
                self.cursor = (place + 1) % len(self.subports)
                break
        self.went = room < self.burst

    def advance(self, aim):
        step = max(self.quantum, (aim - self.clock) // 1024 + 1)
        while self.waiting and self.clock < aim:
            moment = max(self.clock, self.time) if self.went else self.clock + step
            if moment > aim:
                break
            self.dequeue(moment)
        self.clock = max(self.clock, aim)

    def arrive(self, now, spot, record):
        self.advance(now)
        self.arrived += 1
        owner = self.subports[spot.subport].pipes[spot.pipe]
        if len(owner.queues[spot.queue]) < owner.sizes[spot.queue]:
            owner.queues[spot.queue].append(record)
            self.waiting += 1
        else:
            self.dropped += 1
        if self.time <= self.clock:
            self.dequeue(self.clock)


# ---- the run

class Run:
    """All records through a profile, with each port's drain: the ports, the meters, and how many records are lost, by reason."""

    def __init__(self, profile, records, origin):
        self.ports = [Port(plan) for plan in profile.ports]
        self.meters = meters_of(profile)
        self.lost = Counter()
        for record, moment, reason, spot in receive(profile, self.meters, records, origin):
            if reason:
                self.lost[reason] += 1
            else:
                self.ports[spot.port].arrive(moment * profile.ports[spot.port]["line rate"] // SECOND, spot, record)
        for port, plan in zip(self.ports, profile.ports):
            port.advance(port.clock + plan["drain"])
        self.lost["tailfull"] = sum(port.dropped for port in self.ports)


def output(port, plan, origin):
    """The bytes of a port's capture."""
    parts = [struct.pack("<IHHiIII", 0xA1B23C4D, 2, 4, 0, 0, 262_144, 1)]
    for time, (_, wire, body) in port.sends:
        stamp = min(origin + time * SECOND // plan["line rate"], LAST_STAMP)
        parts.append(struct.pack("<IIII", *divmod(stamp, SECOND), len(body), wire) + body)
    return b"".join(parts)


# ---- the report

def line(head, **numbers):
    return " ".join([head, *(f"{name} {number}" for name, number in numbers.items())])


def input_line(run, records):
    """What became of the records of the only input."""
    sent, left = sum(len(port.sends) for port in run.ports), sum(port.waiting for port in run.ports)
    reasons = {reason: run.lost[reason] for reason in REASONS}
    return line("input 0", read=len(records), sent=sent, left=left, **reasons, unwritten=0)


def port_line(number, port):
    numbers = {"arrived": port.arrived, "sent": len(port.sends), "left": port.waiting, "tailfull": port.dropped}
    return line(f"port {number}", **numbers, unwritten=0, dequeues=port.dequeues, time=port.time)


def report(profile, run, records, stopped):
    """The report's lines but for the last, the status."""
    lines = [f"note line {number} skipped" for number in profile.skipped]
    lines += [input_line(run, records)] + [f"input 0 {stopped}"] * bool(stopped)
    lines += [port_line(number, port) for number, port in enumerate(run.ports)]
    return lines + [line(f"meter {meter.name}", **meter.counts) for meter in run.meters.values()]


# ---- the command

def are_misused(words):
    """Whether words are no profile, prefix and capture: none looks like an option, and no output is a file that is read."""
    if len(words) != 3 or any(not word or word.startswith("-") for word in words):
        return True
    outputs = [f"{words[1]}.{number}.pcap" for number in range(MOST_PORTS)]
    return words[0] in outputs or words[2] in outputs


def load(name):
    """A file's bytes, or None where it can't be opened."""
    try:
        with open(name, "rb") as file:
            return file.read()
    except OSError:
        return None


def schedule(profile, data):
    """The status, the report's lines and the outputs of a capture's bytes, which are None where it can't be opened."""
    records, origin, fault = ([], 0, None) if data is None else read(data)
    stopped = "not opened" if data is None else "fault {} at {}".format(*fault) if fault else ""
    run = Run(profile, records, origin)
    outputs = [output(port, plan, origin) for port, plan in zip(run.ports, profile.ports)]
    return 4 if data is None else 6 if fault else 0, report(profile, run, records, stopped), outputs


def answer(words):
    """The status, the report's lines, and the bytes of each port's output."""
    if are_misused(words):
        return 2, ["usage"], []
    text = load(words[0])
    if text is None:
        return 4, ["profile read fault"], []
    try:
        profile = read_profile(text)
    except Fault as fault:
        return 3, [f"profile line {fault.line} fault {fault.kind}"], []
    return schedule(profile, load(words[2]))


def main():
    status, lines, outputs = answer(sys.argv[1:])
    for number, data in enumerate(outputs):
        with open(f"{sys.argv[2]}.{number}.pcap", "wb") as file:
            file.write(data)
    print(*lines, f"status {status}", sep="\n")
    sys.exit(status)


if __name__ == "__main__":
    main()
