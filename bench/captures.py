#!/usr/bin/env python3
"""Makes captures of calls over UDP, and prints what a message takes from the capture to the verdict: processor time, and memory at its greatest.

  bench/captures.py                           captures of 10,000, 100,000 and 1,000,000 messages, the last of 750 MB
  bench/captures.py 10000 50000               of so many messages
  READERS='to-log from-capture from-tshark' bench/captures.py 10000   by these readers, side by side; to-log reads in its own process
  RECIPES=OTHER/recipes READERS=from-tshark bench/captures.py         by the recipes of another checkout

SIPTRACE names another program than the one of ./siptrace. Files are written to a folder of TMPDIR, and removed.
"""
import os
import struct
import subprocess
import sys
import tempfile
from pathlib import Path

sys.dont_write_bytecode = True
import judge

TOP = Path(__file__).resolve().parent.parent
# The recipes that are measured.
RECIPES = Path(os.environ.get("RECIPES", TOP / "recipes"))
ELEMENT, OTHER = b"\xc0\x00\x02\x01", b"\xc6\x33\x64\x02"  # 192.0.2.1 and 198.51.100.2
# The addresses and the kind of an Ethernet frame of IPv4.
ETHERNET = b"\x02\0\0\0\0\x01\x02\0\0\0\0\x02\x08\0"
# When the first packet was seen, in milliseconds.
BEGIN = 1_700_000_000_000
# How many entries a log may have.
MOST_ENTRIES = 1_000_000


def write_capture(path, count):
    """Writes a pcap of `count` messages: Ethernet, IPv4, UDP, from port 5060 to 5060."""
    with open(path, "wb", buffering=1 << 20) as out:
        # The head of a pcap: its number, format 2.4, no zone, no accuracy, the most bytes of a packet, and Ethernet.
        out.write(struct.pack("<IHHiIII", 0xA1B2C3D4, 2, 4, 0, 0, 262144, 1))
        for number, (letter, moment, text) in enumerate(judge.calls(count)):
            data = text.encode()
            source, target = (ELEMENT, OTHER) if letter == "S" else (OTHER, ELEMENT)
            # The headers of IPv4 (20 bytes, not to be cut into fragments, 64 hops, UDP) and of UDP (the ports, the length, no checksum).
            ip = struct.pack(">BBHHHBBH", 0x45, 0, 28 + len(data), number & 0xFFFF, 0x4000, 64, 17, 0) + source + target
            frame = ETHERNET + ip + struct.pack(">HHHH", 5060, 5060, 8 + len(data), 0) + data
            seconds, milliseconds = divmod(BEGIN + moment, 1000)
            # The moment in seconds and microseconds, and twice the length of the frame.
            out.write(struct.pack("<IIII", seconds, 1000 * milliseconds, len(frame), len(frame)) + frame)


def piped(commands):
    """Runs a pipeline. Answers what its last command said, and of each command the processor time in seconds and the memory in MB, with those of its own
    children."""
    started, given = [], subprocess.DEVNULL
    for command in commands:
        # Each command is run by a program that measures it, and reads what the one before writes.
        one = subprocess.Popen(["/usr/bin/env", "python3", "-c", MEASURED, *map(str, command)], stdin=given, stdout=subprocess.PIPE, stderr=subprocess.PIPE)
        if given is not subprocess.DEVNULL:
            given.close()
        given = one.stdout
        started.append(one)
    said = started[-1].communicate()
    errors = [one.stderr.read() for one in started[:-1]] + [said[1]]
    # The last two words on standard error are the seconds and the megabytes.
    numbers = [tuple(map(float, error.split()[-2:])) for error in errors]
    return said[0].decode().strip(), numbers


# A program that runs a command, and writes at the end what the command took.
MEASURED = """
import resource, subprocess, sys
ran = subprocess.run(sys.argv[1:])
used = resource.getrusage(resource.RUSAGE_CHILDREN)
print(used.ru_utime + used.ru_stime, used.ru_maxrss / 1024, file=sys.stderr)
sys.exit(ran.returncode)
"""


def measure(path, count, reader, program):
    """Makes a log of the capture with this reader, has it judged, and prints what each step takes of each message."""
    making = [RECIPES / "to-log", "192.0.2.1:5060"]
    # `numbers` has the seconds and the megabytes of each step; to-log reads a capture by itself, in one step less.
    said, numbers = piped([[*making, "--capture", path], [program]] if reader == "to-log" else [[RECIPES / reader, path], making, [program]])
    # A call of five messages has two transactions: the INVITE's, and that of the ACK to its 200.
    if said != "legal entries %d transactions %d" % (count, count // 5 * 2):
        sys.exit("%s: %s" % (reader, said))
    numbers = [(0, 0)] * (reader == "to-log") + numbers
    times = [1e6 * time / count for time, _ in numbers]
    print("%9d  %-13s %7.1f %7.1f %7.1f %7.1f   %6.0f %6.0f %6.0f" % (count, reader, *times, sum(times), *(memory for _, memory in numbers)), flush=True)


def main():
    # Whole calls, of five messages each.
    counts = [int(word) // 5 * 5 for word in sys.argv[1:]] or [10_000, 100_000, 1_000_000]
    program = os.environ.get("SIPTRACE") or TOP / "siptrace"
    # The program is run once, so that it is there when it is measured.
    subprocess.run([program], input=(TOP / "crates/siptrace/stdin").read_bytes(), stdout=subprocess.DEVNULL)
    print("%9s  %-13s %31s   %20s" % ("", "", "microseconds a message by", "MB of"))
    print("%9s  %-13s %7s %7s %7s %7s   %6s %6s %6s" % ("messages", "reader", "reader", "to-log", "verdict", "all", "reader", "to-log", "verdict"))
    with tempfile.TemporaryDirectory() as folder:
        for count in counts:
            path = os.path.join(folder, "calls.pcap")
            write_capture(path, count)
            for reader in os.environ.get("READERS", "to-log from-capture").split():
                measure(path, count, reader, program)


main()
