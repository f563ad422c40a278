"""How fast the program is: captures of many packets, the best of some runs, in turn with plain copies.

usage: bench.py PROGRAM [PACKETS]

Packets have 64, 594 and 1,518 bytes, seven, four and one of twelve, or 64 alone, and go to one subscriber or to many. The
captures and what is written lie in bench/out/; 1,000,000 packets of mixed sizes have 378 MB. `dd` copies by reading and writing
in pieces of 256 KiB; `cp` of newer systems leaves the copy to the kernel, which looks at no packet. Of the first row this claims
that the program takes at most two and a half times as long as `cp`; it ends with 1 where that fails. Only Python's standard
library is used.
"""

import os
import random
import struct
import subprocess
import sys
import time

HEADER = struct.pack("<IHHiIII", 0xA1B23C4D, 2, 4, 0, 0, 262144, 1)
START = 1_700_000_000 * 10**9
MIXED, SMALL = [64] * 7 + [594] * 4 + [1518], [64]
HERE = os.path.dirname(os.path.abspath(__file__))
GATEWAY = os.path.join(HERE, "..", "examples", "gateway.profile")

# A line of 10 Gbit/s with one subscriber, whose bucket earns as much. The longest gaps below make packets come at about seven
# tenths of it, so that each is sent.
ONE_PIPE = """\
[port 0]
line rate = 1250000000
subports = 1
[subport profile 0]
tb rate = 1250000000
tb size = 2000000
tc 0-12 rate = 1250000000
tc period = 10
[pipe profile 0]
tb rate = 1250000000
tb size = 2000000
tc 0-12 rate = 1250000000
tc period = 10
[subport 0 0]
profile = 0
pipes = 1
queue sizes = 64 64 64 64 64 64 64 64 64 64 64 64 64
pipe 0 = 0
[rule 0]
port = 0
subport = 0
pipe = 0
code = dscp
"""

# What is claimed of the first row: how many times as long as `cp`.
MOST_TIMES = 2.5


def read_gateway():
    with open(GATEWAY, encoding="ascii") as file:
        return file.read()


def wide_gateway():
    """The gateway with 4,096 subscribers of the first plan."""
    lines = read_gateway().splitlines()
    changed = {"pipes": "pipes = 4096", "pipe 0-127": "pipe 0-4095 = 0", "pipe 128-255": "", "dst": "dst = 10.0.0.0/20"}
    return "\n".join(changed.get(line.split("=")[0].strip(), line) for line in lines) + "\n"


# Name, profile, subscribers with packets, sizes, longest gap in nanoseconds, runs, and whether each packet must be sent.
ROWS = [
    ("one pipe, mixed sizes", ONE_PIPE, [0], MIXED, 880, 9, True),
    ("one pipe, 64 bytes", ONE_PIPE, [0], SMALL, 200, 3, True),
    ("256 pipes, mixed sizes", read_gateway(), list(range(256)), MIXED, 17_000, 3, False),
    ("4,096 pipes, 64 of them with packets", wide_gateway(), list(range(0, 4096, 64)), MIXED, 17_000, 3, False),
]


def frame(length, host):
    """A frame to a subscriber, with zero bytes behind its header."""
    ip = struct.pack(">BBHHHBBH", 0x45, 0, length - 14, 0, 0, 64, 17, 0) + bytes([192, 0, 2, 1, 10, 0, host >> 8, host & 255])
    return (bytes.fromhex("020000000002 020000000001 0800") + ip).ljust(length, b"\0")


def make(path, packets, hosts, sizes, longest_gap):
    """Writes a capture of so many packets, always the same ones, and answers its size."""
    source = random.Random(1)
    frames = {(length, host): frame(length, host) for length in set(sizes) for host in hosts}
    stamp = START
    with open(path, "wb", buffering=1 << 20) as out:
        out.write(HEADER)
        for _ in range(packets):
            stamp += int(source.random() * (longest_gap + 1))
            length, host = sizes[int(source.random() * len(sizes))], hosts[int(source.random() * len(hosts))]
            seconds, fraction = divmod(stamp, 10**9)
            out.write(struct.pack("<IIII", seconds, fraction, length, length))
            out.write(frames[length, host])
    return os.path.getsize(path)


def timed(words):
    """Runs a command and answers its seconds and its peak memory in bytes, which is never told as less than Python's own."""
    begin = time.perf_counter()
    child = subprocess.Popen(words, stdout=subprocess.DEVNULL)
    _, status, usage = os.wait4(child.pid, 0)
    seconds = time.perf_counter() - begin
    child.returncode = os.waitstatus_to_exitcode(status)
    if child.returncode != 0:
        sys.exit(f"status {child.returncode}: {' '.join(words)}")
    return seconds, usage.ru_maxrss * 1024


def measure(commands, runs, packets):
    """Runs each command so many times, in turn and each time to a new file, prints the best of each, and answers the seconds of
    each and how much each wrote."""
    seconds, memories, written = ({name: [] for name in commands} for _ in range(3))
    for _ in range(runs):
        for name, (words, out) in commands.items():
            if os.path.exists(out):
                os.remove(out)
            run = timed(words)
            seconds[name].append(run[0])
            memories[name].append(run[1])
            written[name].append(os.path.getsize(out))
            os.remove(out)
    best = {name: min(runs_of) for name, runs_of in seconds.items()}
    for name in commands:
        all_runs = " ".join(f"{one:.2f}" for one in seconds[name])
        print(f"  {name:4} {best[name]:.2f} s (runs: {all_runs})  {packets / best[name]:,.0f} packets/s  {min(memories[name]):,} bytes of peak memory")
    return best, {name: min(sizes) for name, sizes in written.items()}


def compare(program, folder, packets, row):
    """Runs the program and two copies over the capture of a row, and answers how many times as long as `cp` the program took."""
    name, text, hosts, sizes, longest_gap, runs, whole = row
    capture, profile, prefix, copy_of = (os.path.join(folder, it) for it in ("capture.pcap", "profile", "written", "copy.pcap"))
    size = make(capture, packets, hosts, sizes, longest_gap)
    with open(profile, "w", encoding="ascii") as file:
        file.write(text)
    print(f"{name}: {packets:,} packets, {size:,} bytes; best of {runs}, wall time, files in the page cache")
    commands = {
        "qos": ([program, "run", "--profile", profile, "--out", prefix, capture], prefix + ".0.pcap"),
        "dd": (["dd", f"if={capture}", f"of={copy_of}", "bs=256K", "status=none"], copy_of),
        "cp": (["cp", capture, copy_of], copy_of),
    }
    best, written = measure(commands, runs, packets)
    if whole and written["qos"] != size:
        sys.exit(f"{written['qos']} bytes were written, and not {size}: not each packet was sent")
    os.remove(capture)
    times = {name: best["qos"] / best[name] for name in ("dd", "cp")}
    print(f"  {times['dd']:.2f} times as long as dd, {times['cp']:.2f} times as long as cp; {written['qos']:,} bytes were written")
    return times["cp"]


def main():
    program = os.path.abspath(sys.argv[1])
    packets = int(sys.argv[2]) if len(sys.argv) > 2 else 1_000_000
    folder = os.path.join(HERE, "out")
    os.makedirs(folder, exist_ok=True)
    times = [compare(program, folder, packets, row) for row in ROWS][0]
    holds = times <= MOST_TIMES
    print(f"{'holds' if holds else 'FAILS'}: {ROWS[0][0]}: {times:.2f} times as long as cp, at most {MOST_TIMES}")
    sys.exit(0 if holds else 1)


if __name__ == "__main__":
    main()
