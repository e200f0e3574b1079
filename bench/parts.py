"""What the parts of a log take beside the whole: what bench/judge.sh counts and times under the word parts. Its words are the program sipsurvey, and how
many entries of calls are timed. A survey that forgets is counted too, and timed where a log has more entries than another one reads.

Four parts run at once, each on a processor of its own. Beside them stand one part alone, four surveys of the whole at once, and a loop that needs no memory:
they tell what of the time is the machine's."""

import os
import statistics
import subprocess
import sys
import tempfile
import time
from pathlib import Path

from judge import COUNTED, calls, write_log
from survey import instructions

# Into how many parts a log is cut.
PARTS = 4
# How many entries a log has that is timed.
TIMED = 1_000_000
# How often each run is timed: the least time counts.
ROUNDS = 5
# The most entries of a log that is surveyed by a survey that forgets nothing, and the words for one that forgets.
MOST, FORGETS = 1_000_000, ["--forget", "60000"]
# A program that only counts, which shows what four processes at once lose to one another.
LOOP = [sys.executable, "-c", "sum(range(20_000_000))"]


def part(survey, number, log, parts=PARTS):
    """The command that surveys this part of the log, by a program with its words."""
    return [*survey, "--part", f"{number}/{parts}", log]


def print_counted(program, folder):
    """Prints what an entry of calls takes: the difference of a long log and a short one."""
    surveys = {}
    for name, survey in {"": [program], ", forgets": [program, *FORGETS]}.items():
        surveys[f"the whole{name}"] = lambda log, survey=survey: [*survey, log]
        for number, parts in [*((number, PARTS) for number in range(1, PARTS + 1)), (1, 16), (1, 1)]:
            surveys[f"part {number} of {parts}{name}"] = lambda log, survey=survey, number=number, parts=parts: part(survey, number, log, parts)
    got = dict.fromkeys(surveys, 0)
    # What the longer log takes is added, and what the shorter one takes is subtracted.
    for size, sign in zip(COUNTED, (-1, 1)):
        write_log(folder / "log", calls, size)
        for name, survey in surveys.items():
            got[name] += sign * instructions(survey(folder / "log"))[0] / (COUNTED[1] - COUNTED[0])
    for name, count in got.items():
        whole = got["the whole, forgets" if name.endswith("forgets") else "the whole"]
        print(f"{name:<24} {count:>8.0f} instructions an entry {whole / count:>6.2f}", flush=True)


def at_once(commands):
    """Runs the commands at once, each on a processor of its own. Answers the seconds until the last has ended, and the processor seconds of each."""
    began = time.monotonic()
    # The first processors that this process may use, one for each command.
    processes = [subprocess.Popen(command, stdin=subprocess.DEVNULL, stdout=subprocess.DEVNULL, preexec_fn=lambda cpu=cpu: os.sched_setaffinity(0, {cpu}))
                 for cpu, command in zip(sorted(os.sched_getaffinity(0)), commands)]
    used = []
    for process in processes:
        _, status, usage = os.wait4(process.pid, 0)
        process.returncode = os.waitstatus_to_exitcode(status)
        used.append(usage.ru_utime + usage.ru_stime)
    return time.monotonic() - began, used


def print_timed(program, folder, entries):
    """Times the whole log and its parts, each alone and four at once, in rounds, and prints the fewest seconds and the middle ones."""
    log = folder / "log"
    write_log(log, calls, entries)
    # It is read once, so that it is in memory.
    with log.open("rb") as file:
        while file.read(1 << 20):
            pass
    # What is run at once, by its name: the whole log, a part of it, four of them, and a loop that tells how the machine does meanwhile.
    survey = [program] if entries <= MOST else [program, *FORGETS]
    whole, numbers = [*survey, log], range(1, PARTS + 1)
    runs = {"the whole": [whole], "a part": [part(survey, 1, log)], "four parts at once": [part(survey, number, log) for number in numbers],
            "four wholes at once": [whole] * PARTS, "a loop": [LOOP], "four loops at once": [LOOP] * PARTS}
    got = {name: [] for name in runs}
    for _ in range(ROUNDS):
        # The kinds take turns, so that what else the machine does weighs on all of them alike.
        for name, commands in runs.items():
            got[name].append(at_once(commands))
    print(f"{'seconds, ' + str(entries) + ' entries':<24} {'by the clock, middle':>22} {'fewest, most':>14} {'of a processor, middle':>24} {'fewest, most':>14}")
    for name, told in got.items():
        clock, used = [seconds for seconds, _ in told], [seconds for _, each in told for seconds in each]
        print(f"{name:<24} {statistics.median(clock):>22.3f} {min(clock):>7.3f}{max(clock):>7.3f} {statistics.median(used):>24.3f} {min(used):>7.3f}{max(used):>7.3f}", flush=True)


def main():
    program, *sizes = sys.argv[1:]
    with tempfile.TemporaryDirectory() as folder:
        print_counted(program, Path(folder))
        print_timed(program, Path(folder), int(sizes[0]) if sizes else TIMED)


if __name__ == "__main__":
    main()
