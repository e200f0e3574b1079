"""The judge, which is asked about small logs; and such logs, which are read and written. All of this is the checker's own and has nothing of recipes/."""
import os
import re
from typing import NamedTuple

LAST = 9_999_999_999_999  # the last moment that a log can tell
MOST_KEPT = 20_000  # how many answers are kept, so that no log is asked about twice
# The letters of entries without a message.
SILENT = ("M", "Z")

# The first two lines of a log, and the line of rules.
HEADER = re.compile(rb"sip-trace (?:1\nt1 (\d+) t2 (\d+) t4 (\d+) tolerance (\d+)|2\nt1 (\d+) t2 (\d+) t4 (\d+) early (\d+) late (\d+))\n")
RULES = re.compile(rb"rules (3261|6026)\n")


class Times(NamedTuple):
    """What the header of a log says. Its rules are 0 where it has no line of rules."""
    t1: int
    t2: int
    t4: int
    early: int
    late: int
    rules: int = 0


class Entry(NamedTuple):
    """An entry of a log: its letter, its moment and the bytes of its message."""
    letter: str
    moment: int
    data: bytes


def mark(moment):
    """A mark at this moment."""
    return Entry("M", moment, b"")


def read_log(text):
    """The times and the entries of a log that can be read."""
    header = HEADER.match(text)
    numbers = [int(number) for number in header.groups() if number]
    rules = RULES.match(text, header.end())
    place, entries = (rules or header).end(), []
    while place < len(text):
        end = text.index(b"\n", place)
        words = text[place:end].split()
        # A mark and a restart have two words. With -1 the next entry begins at the next line.
        length = int(words[2]) if len(words) == 3 else -1
        entries.append(Entry(words[0].decode(), int(words[1]), text[end + 1:end + 1 + max(0, length)]))
        place = end + 1 + length + 1
    # A header of format 1 has one tolerance, which is both how early and how late: the fourth number and the last.
    return Times(*numbers[:4], numbers[-1], int(rules[1]) if rules else 0), entries


def write_log(times, entries, format_number=2):
    """A log of these entries. A log of format 1 has the same verdict in format 2, so that format 2 is written."""
    if format_number == 1:
        lines = [b"sip-trace 1\nt1 %d t2 %d t4 %d tolerance %d\n" % times[:4]]
    else:
        lines = [b"sip-trace 2\nt1 %d t2 %d t4 %d early %d late %d\n" % times[:5]]
    if times.rules:
        lines.append(b"rules %d\n" % times.rules)
    for letter, moment, data in entries:
        lines.append(b"%s %d\n" % (letter.encode(), moment) if letter in SILENT else b"%s %d %d\n%s\n" % (letter.encode(), moment, len(data), data))
    return b"".join(lines)


class Judge:
    """The program, which is asked over its standard input. It is asked about each log once."""

    def __init__(self, program):
        self.program, self.file, self.owner = str(program), -1, 0
        self.answers, self.asked = {}, 0

    def say(self, log, *words):
        """What the program writes about a log on its standard input."""
        if self.owner != os.getpid():  # another process has an input of its own
            self.file, self.owner = os.memfd_create("log"), os.getpid()
        self.asked += 1
        # The log goes in by a file in memory, and what the program writes comes out of a pipe.
        os.lseek(self.file, 0, os.SEEK_SET)
        os.truncate(self.file, 0)
        os.write(self.file, log)
        os.lseek(self.file, 0, os.SEEK_SET)
        ours, theirs = os.pipe()
        process = os.posix_spawn(self.program, ["siptrace", *words], os.environ,
                                 file_actions=[(os.POSIX_SPAWN_DUP2, self.file, 0), (os.POSIX_SPAWN_DUP2, theirs, 1)])
        os.close(theirs)
        with open(ours, "rb") as reader:
            text = reader.read().decode("latin-1")
        status = os.waitstatus_to_exitcode(os.waitpid(process, 0)[1])
        if status not in (0, 1, 2, 3):
            raise SystemExit(f"the program ended with {status} at a question of the checker")
        return text

    def verdict(self, log):
        """The words of the verdict on a log."""
        if log not in self.answers:
            if len(self.answers) > MOST_KEPT:
                self.answers.clear()
            self.answers[log] = self.say(log).split()
        return self.answers[log]

    def is_possible(self, times, entries):
        """Whether the program finds no breach in these entries: where it is undecided it has found none."""
        words = self.verdict(write_log(times, entries))
        if words[0] not in ("legal", "undecided", "breach"):
            raise ValueError(f"a question that is no log of messages: {' '.join(words)}")
        return words[0] != "breach"

    def listing(self, times, entries):
        """Each transaction that the last entry concerns: its number, role and method, and the lines of its states."""
        found = []
        for line in self.say(write_log(times, entries), "states", "/dev/stdin", str(len(entries))).splitlines():
            words = line.split()
            if words[0] == "transaction":
                found.append((int(words[1]), words[2], words[3], []))
            elif line.startswith("  "):
                found[-1][3].append(line.strip())
        return found
