#!/usr/bin/env python3
"""Prints what recipes/watch needs at a rate of messages: calls over UDP come as they would, one in a hundred of which is never acknowledged.

  bench/watch.py [RATE..]                  messages a second, each for 20 seconds; else 500, 1000, 2000
  SECONDS=600 bench/watch.py 500           for so long
  BAD=1000 OPTIONS='--no-evidence' bench/watch.py 2000    with one in a thousand, and with these options of the watch

For each rate: the share of one processor; how many breaches were told of those that were due; half, 99 of 100 and all of them so many milliseconds after the line of their
entry was written, after its moment, and with their evidence; troubles that were told and were none; messages that came too late to be judged; how many processes of sipsurvey there were; the memory of the
watch and of what it started, at a third of the time, at two thirds and at the end; the load of the machine; and how late it woke a process that sleeps for 10 ms at a time.
SIPTRACE and SIPSURVEY name other programs than ./siptrace and ./sipsurvey, RECIPES another folder than recipes, QUIET the seconds of --quiet (100).
"""
import heapq
import json
import os
import resource
import subprocess
import sys
import tempfile
import threading
import time
from pathlib import Path

sys.dont_write_bytecode = True
import judge

# The recipe that is timed.
WATCH = Path(os.environ.get("RECIPES", Path(__file__).resolve().parent.parent / "recipes")) / "watch"
# How many seconds a run lasts, the seconds of --quiet, and one in how many calls is bad.
SECONDS, QUIET, BAD = int(os.environ.get("SECONDS", 20)), os.environ.get("QUIET", "100"), int(os.environ.get("BAD", 100))
# Further words for the recipe.
OPTIONS = os.environ.get("OPTIONS", "").split()


def call(number):
    """The messages of a call: milliseconds, whether the element sends it, and its text. One in a hundred is refused and never acknowledged."""
    ends = [(0, True, judge.request("INVITE", number, body=judge.SDP)), (20, False, judge.response(100, "INVITE", number)), (200, False, judge.response(180, "INVITE", number))]
    if number % BAD == 0:
        return ends + [(900, False, judge.response(486, "INVITE", number))]
    return ends + [(900, False, judge.response(200, "INVITE", number, body=judge.SDP)), (910, True, judge.request("ACK", number, "ack", ";tag=a6c85cf"))]


def lines(rate):
    """Seconds from the beginning, and the line without its moment, of all messages."""
    # A call has five messages (a bad one four), so that one begins each `step` seconds; `due` has the messages still to come.
    step, due = 5 / rate, []
    for number in range(int(SECONDS * rate / 5)):
        # The messages of earlier calls that come before this one begins.
        while due and due[0][0] <= number * step:
            yield heapq.heappop(due)
        for moment, is_sent, text in call(number):
            ends = b"192.0.2.1:5060 192.0.2.2:5060 " if is_sent else b"192.0.2.2:5060 192.0.2.1:5060 "
            heapq.heappush(due, (number * step + moment / 1000, ends + text.encode().hex().encode() + b"\n"))
    while due:
        yield heapq.heappop(due)


def memory(number):
    """The MB of a process and of those that it started, with what they share counted once for each."""
    children = Path("/proc/%d/task/%d/children" % (number, number)).read_text().split()
    # VmRSS is what a process holds in memory, in kB.
    return sum(int(line.split()[1]) for one in (number, *children) for line in status_of(one) if line.startswith("VmRSS")) // 1024


def status_of(number):
    """The lines of the status of a process, or none where it has ended."""
    try:
        return Path("/proc/%s/status" % number).read_text().splitlines()
    except OSError:
        return []


def half_and_all(delays):
    """In milliseconds: the delay that half of them reach at most, the delay of all but one in a hundred, and the longest."""
    delays = sorted(delays) or [0]
    return "%.0f, %.0f, %.0f (%d over 100)" % (*(1000 * delays[min(len(delays) - 1, int(len(delays) * part))] for part in (0.5, 0.99, 1)), sum(one > 0.1 for one in delays))


# A process that sleeps again and again and tells how late it is woken.
BEAT = """import sys, time
most, late, before, end = 0, 0, time.time(), time.time() + float(sys.argv[1])
while before < end:
    time.sleep(0.01)
    now = time.time()
    most, late, before = max(most, now - before - 0.01), late + (now - before > 0.11), now
print("%.0f %d" % (1000 * most, late))
"""


class Feeding:
    """A watch that is fed, and the lines that it says, with the moment at which each was heard."""

    def __init__(self, rate, counts):
        self.rate, self.said, self.written, self.sizes = rate, [], {}, []  # when the first line of each millisecond was written
        self.watch = subprocess.Popen([sys.executable, WATCH, "192.0.2.1:5060", "--cold", "0", "--quiet", QUIET, "--counts", counts, *OPTIONS],
                                      stdin=subprocess.PIPE, stdout=subprocess.PIPE)
        self.hearer = threading.Thread(target=self.hear)
        self.hearer.start()

    def hear(self):
        """Notes each line that the watch writes, with the time at which it came."""
        for line in self.watch.stdout:
            self.said.append((time.time(), json.loads(line)))

    def feed(self):
        """Writes the lines at their moments, and reads the memory of the watch three times."""
        # The watch has a second to begin.
        time.sleep(1)
        begun, waiting = time.time(), []
        for moment, line in lines(self.rate):
            wait = begun + moment - time.time()
            if wait > 0:
                self.flush(waiting)
                time.sleep(wait)
            self.watch.stdin.write(b"%.6f " % (begun + moment) + line)
            # The moments of the lines that were written and not sent yet.
            waiting.append(int((begun + moment) * 1000))
            # The memory is read after each third of the time; the last reading comes after all lines.
            if len(self.sizes) < 2 and moment > (len(self.sizes) + 1) * SECONDS / 3:
                self.sizes.append(memory(self.watch.pid))
        self.flush(waiting)
        time.sleep(1)
        self.sizes.append(memory(self.watch.pid))
        self.watch.stdin.close()
        self.hearer.join()
        self.watch.wait()

    def flush(self, waiting):
        """Sends what was written to the watch, and notes when."""
        self.watch.stdin.flush()
        now = time.time()
        for moment in waiting:
            self.written.setdefault(moment, now)
        waiting.clear()


def moment_of(one):
    """The moment of a trouble, in milliseconds."""
    return round(float(one["at"]) * 1000)


def measure(rate, counts):
    """Feeds a watch this many messages a second, and prints how late it told the troubles and what it used."""
    # `before` and `used` are what child processes took that had ended before the measurement, and after it; the beat is a process that tells how late it is
    # woken.
    before = resource.getrusage(resource.RUSAGE_CHILDREN)
    beat = subprocess.Popen([sys.executable, "-c", BEAT, str(SECONDS)], stdout=subprocess.PIPE)
    fed = Feeding(rate, counts)
    fed.feed()
    most, stops = beat.communicate()[0].decode().split()
    used = resource.getrusage(resource.RUSAGE_CHILDREN)
    share = (used.ru_utime + used.ru_stime - before.ru_utime - before.ru_stime) / SECONDS
    # The watch writes its counts as lines NAME VALUE.
    counted = dict(line.rsplit(None, 1) for line in Path(counts).read_text().splitlines()[1:])
    late = counted.get('siptrace_watch{what="late messages"}', "0")
    # `due` has the branches of the transactions that break, every BAD-th; `told` has the breaches that were told, each with the moment it was heard.
    due = {"z9hG4bK776as%d" % number for number in range(0, int(SECONDS * rate / 5), BAD)}
    told = [(heard, one) for heard, one in fed.said if one["word"] == "breach"]
    # The moment in the log of each breach, by its number, which its evidence names again.
    moments = {one["trouble"]: moment_of(one) for _, one in told}
    # How many seconds late each breach was heard: after its entry was written, and after the moment of its entry.
    after_entry = [heard - fed.written.get(moment_of(one), moment_of(one) / 1000) for heard, one in told]
    after_moment = [heard - moment_of(one) / 1000 for heard, one in told]
    evidence = [heard - moments[one["trouble"]] / 1000 for heard, one in fed.said if one["word"] == "evidence" and one["kind"] == "never came"]
    # `wrong` counts what is neither a breach nor evidence, or is of a branch that is not to break.
    wrong = sum(one["word"] not in ("breach", "evidence") or one.get("branch", next(iter(due))) not in due for _, one in fed.said)
    print("%6d a second for %d s: %3.0f %% of a processor; %d of %d breaches; half, 99 of 100 and all of them told so many ms after their entry was written: %s; "
          "after its moment: %s; with evidence %d: %s; %d wrong; %s messages came late; processes %s; %s MB; load %s; a process that sleeps 10 ms at a time woke %s ms late at most, and %s times more than 100" % (
              rate, SECONDS, 100 * share, len(told), len(due), half_and_all(after_entry), half_and_all(after_moment), len(evidence), half_and_all(evidence),
              wrong, late, counted['siptrace_watch{what="processes"}'], ", ".join(map(str, fed.sizes)), Path("/proc/loadavg").read_text().split()[0], most, stops), flush=True)


def main():
    with tempfile.TemporaryDirectory() as folder:
        for rate in [int(word) for word in sys.argv[1:]] or [500, 1000, 2000]:
            measure(rate, os.path.join(folder, "counts"))


main()
