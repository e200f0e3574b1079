"""What memory a survey of a stream takes that forgets: what bench/judge.sh prints under the word stream. Its words are the program sipsurvey, and
numbers of entries.

Calls without an end are written into `sipsurvey --forget 60000`, at 1,000 entries a second by their moments, from a day of 2026 on. After so many
entries the most memory that it took until then is printed. A survey without --forget, which reads 1,000,000 entries, stands beside it."""

import itertools
import subprocess
import sys
import time

from judge import SDP, merged, request, response

# The moment of the first entry.
FIRST = 1_795_000_000_000
# How many milliseconds lie between two calls.
STEP = 5
# After how many milliseconds the survey forgets what is over.
AGE = "60000"
# After how many entries the memory is measured.
MEASURED = [250_000, 500_000, 1_000_000, 4_000_000]
# How many entries one log may have. A stream may have more.
LOG_HOLDS = 1_000_000
# Where the number of the call stands in its messages.
PLACE = "<number>"
# The header of the logs.
HEADER = "sip-trace 1\nt1 500 t2 4000 t4 5000 tolerance 50\n"
# The entries of a call: the letter, how long after its begin, and the message.
CALL = [
    (0, "S", request("INVITE", PLACE, body=SDP)),
    (20, "R", response(100, "INVITE", PLACE)),
    (120, "R", response(180, "INVITE", PLACE)),
    (2000, "R", response(200, "INVITE", PLACE, body=SDP)),
    (2010, "S", request("ACK", PLACE, end="ack")),
]


def call(number):
    """The entries of one call, with its number in them."""
    return [(moment, letter, text.replace(PLACE, str(number))) for moment, letter, text in CALL]


def stream():
    """The entries of calls, one of which begins every 5 milliseconds."""
    for letter, moment, text in merged(map(call, itertools.count(1)), STEP):
        yield f"{letter} {FIRST + moment} {len(text)}\n{text}\n".encode()


def most_memory(process):
    """The most memory that a process took until now, in MB."""
    with open(f"/proc/{process.pid}/status", encoding="ascii") as status:
        # VmHWM is the most that the process has held, in kB.
        return next(int(line.split()[1]) for line in status if line.startswith("VmHWM:")) / 1000


def print_memory(command, measured):
    """The most memory after this many entries, what the program wrote at last, and how many entries a second it took."""
    began = time.monotonic()
    with subprocess.Popen(command, stdin=subprocess.PIPE, stdout=subprocess.PIPE) as process:
        process.stdin.write(HEADER.encode())
        # Some numbers of entries are marks at which the memory is told.
        for number, entry in zip(range(1, measured[-1] + 1), stream()):
            process.stdin.write(entry)
            if number in measured:
                process.stdin.flush()
                print(f"{number:>9} {most_memory(process):>7.1f} MB", flush=True)
        process.stdin.close()
        last = process.stdout.read().decode().splitlines()[-1]
    seconds = time.monotonic() - began
    print(f"{last}; {seconds:.0f} s, of which most is the making of the entries\n", flush=True)


def main():
    program, *numbers = sys.argv[1:]
    measured = [int(number) for number in numbers] or MEASURED
    print(f"sipsurvey --forget {AGE}")
    print_memory([program, "--forget", AGE], measured)
    # Without --forget a survey reads no more entries than a log holds.
    print("sipsurvey")
    print_memory([program], [it for it in measured if it <= LOG_HOLDS])


main()
