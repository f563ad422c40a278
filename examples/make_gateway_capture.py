"""Makes examples/gateway.pcap: 20 ms of what a gateway sends down to 256 subscribers, headers alone, always the same.

usage: make_gateway_capture.py OUT

The subscribers are 10.0.0.0 to 10.0.0.255. All have some web traffic; every fourth has a call, every sixteenth watches
video, five download faster than either plan allows, two fetch updates as lower effort, and one sends far too much as
voice. As with `tcpdump -s 54`, 54 bytes of each frame are kept.
Lengths are without the frame's checksum. Only Python's standard library is used.
"""

import random
import struct
import sys

SPAN = 20_000_000
START = 1_700_000_000 * 10**9
KEPT = 54
SERVER = bytes([192, 0, 2, 1])
EF, AF41, AF31, CS6, CS1, DEFAULT = 46, 34, 26, 48, 8, 0


def steady(source, host, code_point, length, rate):
    """A flow of so many bytes per second, with a little jitter: (moment, host, code point, length)."""
    gap = length * 10**9 // rate
    moment = source.randrange(gap)
    while moment < SPAN:
        yield min(SPAN, moment + source.randrange(gap // 4)), host, code_point, length
        moment += gap


def frames():
    source = random.Random(20)
    flows = []
    for host in range(0, 256, 4):
        flows += steady(source, host, EF, 214, 10_700)
    for host in range(2, 256, 16):
        flows += steady(source, host, AF41, 1358, 625_000)
    for host in (5, 37, 101, 166, 230):
        flows += steady(source, host, DEFAULT, 1514, 10_000_000)
    for host in (37, 230):
        flows += steady(source, host, CS1, 1514, 4_000_000)
    flows += steady(source, 13, EF, 214, 1_000_000)
    flows += steady(source, 1, CS6, 90, 30_000)
    for _ in range(240):
        length = source.choice([60] * 7 + [590] * 4 + [1514])
        flows.append((source.randrange(SPAN), source.randrange(256), source.choice([DEFAULT] * 9 + [AF31]), length))
    return sorted(flows)


def frame(number, host, code_point, length):
    """The first bytes of a frame; its identification is its number, so that each frame is one of its kind."""
    ethernet = bytes.fromhex("020000000002 020000000001 0800")
    ip = struct.pack(">BBHHHBBH", 0x45, code_point << 2, length - 14, number % 2**16, 0, 64, 17, 0)
    udp = struct.pack(">HHHH", 4000, 5000, length - 34, 0)
    return (ethernet + ip + SERVER + bytes([10, 0, 0, host]) + udp).ljust(KEPT, b"\0")


def main():
    with open(sys.argv[1], "wb") as out:
        out.write(struct.pack("<IHHiIII", 0xA1B23C4D, 2, 4, 0, 0, KEPT, 1))
        for number, (moment, host, code_point, length) in enumerate(frames()):
            seconds, nanoseconds = divmod(START + moment, 10**9)
            out.write(struct.pack("<IIII", seconds, nanoseconds, KEPT, length))
            out.write(frame(number, host, code_point, length))


if __name__ == "__main__":
    main()
