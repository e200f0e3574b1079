"""A process of `sipsurvey` that gets the entries of an element as they come, and what it finds in them."""
import os
import subprocess
from array import array
from collections import deque

from sip_lines import die, entry, surveyor

# How many bytes are read at once. A pipe holds no more.
PIECE = 1 << 16
MOST_UNWRITTEN = 1 << 20  # how many bytes may wait for the program before no more input is read
ON_THE_WAY = 1 << 18  # how many bytes may be in the pipe, and in the program, which reads 128 KiB at once


class Running:
    """A process of sipsurvey. Entries are written as the program takes them, and findings are read as they come: neither waits for the other."""

    def __init__(self, times, forget, kept, newest):
        """It forgets what is over for `forget` milliseconds. It gets the entries `kept` first, and then those with numbers after `newest`."""
        try:
            self.process = subprocess.Popen([surveyor(), "--forget", str(forget)], stdin=subprocess.PIPE, stdout=subprocess.PIPE, bufsize=0, start_new_session=True)
        except OSError as error:
            die("cannot run %s: %s" % (surveyor(), error.strerror), 70)
        self.entrance, self.exit = self.process.stdin.fileno(), self.process.stdout.fileno()
        os.set_blocking(self.entrance, False)
        os.set_blocking(self.exit, False)
        self.unwritten, self.unread, self.end = bytearray(times.header()), b"", None  # the last of these is the last line that the program wrote
        self.is_closing, self.is_over = False, False
        # The entries that the program may not have read yet, each after the byte at which it ends; how many there were before these; and at which byte the last ends.
        self.unpassed, self.passed, self.size = deque(), 0, len(self.unwritten)
        # The program counts its own entries. These are the numbers of those that it got first, and by how much the number of each later one is ahead.
        self.numbers, self.ahead = array("Q", (one.number for one in kept)), newest - len(kept)
        for one in kept:
            self.put(one)

    def put(self, one):
        """Appends an entry."""
        text = entry(*one[1:])
        self.unwritten += text
        self.size += len(text)
        self.unpassed.append((self.size, one))

    def entry_at(self, place):
        """The entry that the program counts so, where something was found just now."""
        if place <= self.passed:
            die("sipsurvey tells of entry %d so late that nobody knows it any more: does something hold its lines back?" % place, 70)
        return self.unpassed[place - 1 - self.passed][1]

    def number_at(self, place):
        """The number of the entry that the program counts so."""
        return self.numbers[place - 1] if place <= len(self.numbers) else place + self.ahead

    def pass_on(self):
        """Lets the entries go that the program has read for sure. What it had found by the last wait has been read."""
        read = self.size - len(self.unwritten) - ON_THE_WAY
        while self.unpassed and self.unpassed[0][0] <= read:
            self.unpassed.popleft()
            self.passed += 1

    def has_passed(self, number):
        """Whether the program has read each entry up to this number for sure."""
        return not self.unpassed or self.unpassed[0][1].number > number

    def write(self):
        """Writes as much as the program takes now. After the last entry it closes the program's input."""
        try:
            while self.unwritten:
                del self.unwritten[:os.write(self.entrance, self.unwritten[:PIECE])]
        except BlockingIOError:
            return
        except BrokenPipeError:  # the program has ended, which its output tells
            self.drop()
        if self.is_closing and not self.process.stdin.closed:
            self.process.stdin.close()

    def drop(self):
        """Drops what the program did not take. Its entries count as unread."""
        self.size -= len(self.unwritten)
        self.unwritten.clear()

    def close(self):
        """Notes that no entry comes any more."""
        self.is_closing = True

    def findings(self):
        """The words of each finding that the program has written."""
        try:
            piece = os.read(self.exit, PIECE)
        except BlockingIOError:
            return
        *lines, self.unread = (self.unread + piece).split(b"\n")
        for line in lines:
            words = line.decode("latin-1").split()
            if words[:1] in (["end"], ["log"]):
                self.end = words
            else:
                yield words
        if not piece:
            self.is_over = True
            self.drop()
            self.write()
            self.process.stdout.close()
            self.process.wait()

    def has_failed(self):
        """Whether the program ended otherwise than with the end of the log that it got."""
        return self.is_over and not (self.is_closing and self.end is not None and self.end[0] == "end")
