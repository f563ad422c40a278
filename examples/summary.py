"""Says of each traffic class, and of those subscribers who lost most, what came of a run, beside the run's own report.

usage: summary.py CAPTURE PREFIX PROFILE

CAPTURE is what went in, PREFIX.0.pcap and so on are what came out with PROFILE. A packet that came out is known by its bytes
and length: where several are the same, the first that came out is taken for the first that came to a port. Only Python's
standard library is used.
"""

import os
import sys
from collections import defaultdict, deque

sys.path.insert(0, os.path.join(os.path.dirname(os.path.abspath(__file__)), "..", "bench"))
from model import meters_of, read, receive
from model_profile import read_profile

MOST_SHOWN = 5


def load(path):
    with open(path, "rb") as file:
        return file.read()


def class_of(spot):
    """The class of a place, with its name."""
    name = "class 0 (first)" if spot.queue == 0 else f"class {spot.queue}"
    return spot.queue, name if spot.queue < 12 else f"best effort, queue {spot.queue - 12}"


class Group:
    """The packets of one class or of one subscriber."""

    def __init__(self):
        self.came, self.bytes, self.policed, self.delays, self.lost_bytes = 0, 0, 0, [], 0

    def lost(self):
        return self.came - len(self.delays)

    def add(self, record, is_policed, left):
        self.came += 1
        self.bytes += record[1]
        self.policed += is_policed
        if left is None:
            self.lost_bytes += record[1]
        else:
            self.delays.append(max(0, left - record[0]))


def grouped(profile, records, origin, outputs):
    """The packets that have a place, by class and by subscriber."""
    stamps = defaultdict(deque)
    for output in outputs:
        for stamp, wire, body in read(load(output))[0]:
            stamps[wire, body].append(stamp)
    classes, subscribers = defaultdict(Group), defaultdict(Group)
    for record, _, reason, spot in receive(profile, meters_of(profile), records, origin):
        if spot is None or reason == "oversize":
            continue
        queue = stamps[record[1:]] if reason is None else ()
        left = queue.popleft() if queue else None
        for group in (classes[class_of(spot)], subscribers[spot[:3]]):
            group.add(record, reason == "policed", left)
    return classes, subscribers


def milliseconds(nanoseconds):
    return f"{nanoseconds / 1e6:.2f} ms"


def print_classes(classes):
    heads = ("came in", "policed", "full or left", "went out", "half within", "longest wait")
    print(f"{'':22}" + "".join(f"{head:>14}" for head in heads))
    for key in sorted(classes):
        group, delays = classes[key], sorted(classes[key].delays)
        waits = [milliseconds(delays[len(delays) // 2]), milliseconds(delays[-1])] if delays else ["-", "-"]
        counts = (group.came, group.policed, group.lost() - group.policed, len(delays))
        print(f"{key[1]:22}" + "".join(f"{count:>14,}" for count in counts) + "".join(f"{wait:>14}" for wait in waits))


def print_most(subscribers):
    losers = sorted((key for key in subscribers if subscribers[key].lost()), key=lambda key: (-subscribers[key].lost(), key))
    if not losers:
        print("No subscriber lost a packet.")
        return
    print(f"{len(losers):,} of {len(subscribers):,} subscribers lost packets; most of all:")
    for key in losers[:MOST_SHOWN]:
        group = subscribers[key]
        policed = f", {group.policed:,} of them policed" if group.policed else ""
        print("  port {} subport {} pipe {}: ".format(*key) + f"{group.lost():,} of {group.came:,} packets{policed}"
              f" ({group.lost_bytes:,} of {group.bytes:,} bytes)")


def main():
    capture, prefix, text = sys.argv[1:]
    profile = read_profile(load(text))
    records, origin, _ = read(load(capture))
    classes, subscribers = grouped(profile, records, origin, [f"{prefix}.{n}.pcap" for n in range(len(profile.ports))])
    print_classes(classes)
    print()
    print_most(subscribers)


if __name__ == "__main__":
    main()
