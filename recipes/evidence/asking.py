"""The program as one asks it: short logs in, verdicts out.

A question is a log of one transaction: its history, which is what it did up to some moment, and entries after the history. The log is possible where
the program finds no breach in it.

"""
import hashlib
import os
import re
import shutil
import subprocess
import sys
import time

from sip_lines import die, entry, program

LAST = 9_999_999_999_999  # the last moment that a log can tell
MOST_WRITTEN = 1 << 30  # how many bytes of input are written in one call
LENGTHS = (200, 32_000)  # in milliseconds: times of RFC 3261 by which moments may lie apart, beside those of the header
NUMBERS_OF_ENTRIES = ("request", "last", "final")  # what the listing of states names by the number of an entry


def is_script(name):
    """Whether the program is a script, by its first two bytes."""
    with open(name, "rb") as file:
        return file.read(2) == b"#!"


def program_of(script):
    """The program that a script becomes. It is looked up while it waits for its input."""
    waiting = subprocess.Popen([script], stdin=subprocess.PIPE, stdout=subprocess.DEVNULL)
    found = script
    while waiting.poll() is None and not os.path.basename(found).startswith("siptrace-"):
        time.sleep(0.005)
        try:
            found = os.readlink("/proc/%d/exe" % waiting.pid)
        except OSError:  # the process has ended
            break
    waiting.stdin.close()
    if waiting.wait() == 70:
        sys.exit(70)  # the script has said why it found no program
    return found


def real_program():
    """The program itself: the one that SIPTRACE names, or else the one that the script ./siptrace finds."""
    name = shutil.which(program())
    if name is None:
        die("cannot run %s" % program(), 70)
    return name if os.environ.get("SIPTRACE") or not is_script(name) else program_of(name)


def sum_of(name):
    """The sum of the bytes of a program."""
    with open(name, "rb") as file:
        return hashlib.sha256(file.read()).hexdigest()


def is_possible(words):
    """Whether these words of a verdict find no breach. Where the program is undecided it has found none."""
    return words[0] in ("legal", "undecided")


class Judge:
    """The program, which is asked about logs that are held in memory. Each log is asked about once."""

    def __init__(self, name=None):
        self.name = name or real_program()
        self.file = open(os.memfd_create("log"), "r+b", buffering=0)
        self.answers, self.asked, self.undecided = {}, 0, 0

    def put(self, log):
        """Makes these bytes the standard input of the program that is run next."""
        self.file.seek(0)
        self.file.truncate()
        for begin in range(0, len(log), MOST_WRITTEN):
            self.file.write(log[begin:begin + MOST_WRITTEN])
        self.file.seek(0)

    def run(self, log, *words):
        """What the program says, with this standard input and these words, and its status."""
        self.asked += 1
        self.put(log)
        ours, theirs = os.pipe()
        try:
            pid = os.posix_spawn(self.name, ["siptrace", *words], os.environ,
                                 file_actions=[(os.POSIX_SPAWN_DUP2, self.file.fileno(), 0), (os.POSIX_SPAWN_DUP2, theirs, 1)])
        except OSError as error:
            die("cannot run %s: %s" % (self.name, error.strerror), 70)
        os.close(theirs)
        with open(ours, "rb") as reader:
            text = reader.read().decode("latin-1")
        status = os.waitstatus_to_exitcode(os.waitpid(pid, 0)[1])
        if status not in (0, 1, 2, 3):
            sys.exit(status if status > 0 else 70)  # the program has said why on standard error
        return text.rstrip("\n"), status

    def verdict(self, log):
        """The words of the verdict on a short log."""
        if log not in self.answers:
            words = self.run(log)[0].split()
            self.answers[log] = words
            # How many answers were undecided, which the evidence tells.
            self.undecided += words[0] == "undecided"
        return self.answers[log]

    def listing(self, log, number):
        """The lines of the states after an entry."""
        return self.run(log, "states", "/dev/stdin", str(number))[0].splitlines()

    def is_possible(self, times, entries):
        """Whether a log of these entries is legal or undecided."""
        return is_possible(self.verdict(log_of(times, entries)))


def log_of(times, entries):
    """A log of these entries, each (letter, moment, bytes). A log with restarts is of format 2."""
    if any(one[0] == "Z" for one in entries):
        times = times._replace(format=2)
    return times.header() + b"".join(entry(*one) for one in entries)


class History:
    """What one transaction did up to some moment. Each entry (letter, moment, bytes) is of that transaction, or a restart."""

    def __init__(self, judge, times, role, method, entries):
        self.judge, self.times, self.role, self.method, self.entries = judge, times, role, method, entries
        self.prefix = log_of(times, entries)
        self.last = entries[-1][1] if entries else 0
        self.kept = {}  # answers that were found, each of them once

    def allows(self, *more):
        """Whether the history with these entries after it is possible."""
        if any(one[0] == "Z" for one in more):
            return self.judge.is_possible(self.times, [*self.entries, *more])
        # The header and the history are the same for each question.
        return is_possible(self.judge.verdict(self.prefix + b"".join(entry(*one) for one in more)))

    def can_wait(self, moment):
        """Whether nothing has to be sent up to this moment."""
        return self.allows(("M", moment, b""))

    def states(self):
        """The states after the last entry of the history, as the program lists them."""
        if "states" not in self.kept:
            # A transaction has a line with its number, role and method, and below it a line for each state, two blanks to the right.
            found, is_mine = [], False
            for line in self.judge.listing(self.prefix, len(self.entries)) if self.entries else []:
                if line.startswith("  "):
                    found += [line.strip()] if is_mine else []
                else:
                    is_mine = line.split()[2:4] == [self.role, self.method.decode("latin-1")]
            self.kept["states"] = found
        return self.kept["states"]

    def numbers_of_states(self):
        """The moments, the intervals and the deadlines that the states name."""
        moments, intervals, deadlines = {self.last}, set(), set()
        for state in self.states():
            for name, value in re.findall(r"(\w+)=(\d+)(?= |$)", state):
                if name not in NUMBERS_OF_ENTRIES:
                    # Of a state `interval` is a length, and any other number a moment, unless it names an entry.
                    (intervals if name == "interval" else moments).add(int(value))
            deadlines |= {int(deadline) for deadline in re.findall(r"owes=\d+/(\d+)/", state)}
        return moments, intervals, deadlines

    def points(self):
        """The moments from the last entry on at which an answer may change, ascending. They are guesses, and the program is asked about each."""
        if "points" not in self.kept:
            moments, intervals, deadlines = self.numbers_of_states()
            lengths = {0, *LENGTHS, 64 * self.times.t1, self.times.t4} | intervals
            # From `opens` on a timer may fire that was set at one of the moments for one of the lengths, and from `closes` on it is too late, as it is for
            # a debt.
            opens = {moment + max(0, length - self.times.early) for moment in moments for length in lengths}
            closes = {moment + length + self.times.late + 1 for moment in moments for length in lengths} | {deadline + 1 for deadline in deadlines}
            self.kept["points"] = sorted(moment for moment in {self.last} | opens | closes if self.last <= moment <= LAST)
        return self.kept["points"]

    def last_wait(self):
        """The last moment up to which the transaction can be silent, or None where it can be silent for ever."""
        if "last_wait" not in self.kept:
            self.kept["last_wait"] = None if self.can_wait(LAST) else last_true(self.can_wait, self.points(), LAST)
        return self.kept["last_wait"]

    def is_over_by(self, moment):
        """Whether the transaction cannot have been silent up to this moment."""
        return self.last_wait() is not None and self.last_wait() < moment

    def end(self):
        """The last moment that is asked about. After the last moment of silence there is nothing to ask."""
        return LAST if self.last_wait() is None else self.last_wait()

    def windows(self, is_right, last=None, samples=0):
        """The windows [a, b] of moments, from the last entry to `last`, at which `is_right` answers yes."""
        last = self.end() if last is None else last
        points = [moment for moment in self.points() if moment <= last] or ([self.last] if self.last <= last else [])
        return windows_of(is_right, points, last, samples)

    def windows_of_send(self, letter, data, samples=0):
        """The windows in which a message may be sent."""
        return self.windows(lambda moment: self.allows((letter, moment, data)), samples=samples)


def last_true(is_right, points, beyond):
    """The last moment of a yes that turns to a no for good: it is yes at points[0], and no at `beyond`."""
    # The points are halved between the last yes and the first no, and then the moments between these two.
    low, high = 0, len(points)
    while high - low > 1:  # yes at points[low]; no at points[high], unless that lies beyond
        middle = (low + high) // 2
        low, high = (middle, high) if is_right(points[middle]) else (low, middle)
    return edge(is_right, points[low], points[high] if high < len(points) else beyond)


def edge(is_right, one, other):
    """The last moment with the answer of `one`, where `other` has another answer. The moment just before `other` is asked first, since it is likely."""
    answer = is_right(one)
    if is_right(other - 1) == answer:
        return other - 1
    while other - one > 1:
        middle = (one + other) // 2
        one, other = (middle, other) if is_right(middle) == answer else (one, middle)
    return one


def windows_of(is_right, points, last, samples=0):
    """The windows of yes from points[0] to `last`. Each point is asked, both sides of each edge, and moments between some of the points."""
    # The middle of each of the first `samples` gaps.
    between = [one + (other - one) // 2 for one, other in list(zip(points, points[1:] + [last]))[:samples] if other - one > 2]
    points = sorted({*points, *between, last}) if points else []
    windows, start = [], None
    for place, moment in enumerate(points):
        if is_right(moment) and start is None:
            start = edge(is_right, points[place - 1], moment) + 1 if place else moment
        elif not is_right(moment) and start is not None:
            windows.append((start, edge(is_right, points[place - 1], moment)))
            start = None
    return windows + ([(start, last)] if start is not None else [])
