"""The messages of a capture: UDP is read here, and from the first packet on that has anything else tshark reads, by from-tshark."""
import os
import shutil
import subprocess
import sys
from itertools import chain

from capture_file import Damaged, Unread, Window, format_of
from capture_network import Datagrams
from capture_notes import Notes
from sip_lines import die, nanoseconds, read_lines, say

# The recipe that reads what tshark tells of a capture.
FROM_TSHARK = os.path.join(os.path.dirname(os.path.realpath(__file__)), "from-tshark")


class Reading:
    """A capture that is read, and what is noticed while it is. `idle` is called each time before more must be waited for."""

    def __init__(self, name, idle=lambda: None):
        self.name, self.notes, self.damage, self.is_whole = name, Notes(), "", True
        self.window, self.format = Window(name, sys.stdin.buffer, idle), None
        self.unread = None  # how many packets were read when tshark had to read on

    def datagrams(self):
        """The UDP datagrams that are read here: packet, moment in nanoseconds, ends and payload. After them `unread` is known."""
        try:
            self.format = format_of(self.window)
            yield from Datagrams(self.notes, bool(shutil.which("tshark"))).among(self.format.frames())
        except Damaged as error:
            self.damage, self.is_whole = "the capture is damaged or cut: %s" % error, False
        except Unread as unread:
            self.unread = unread.read

    def messages(self, by_tshark=True):
        """The messages that were seen (element_log.py), also those that tshark reads where it is asked for. The capture is a file then."""
        for number, moment, ends, payload in self.datagrams():
            yield number, moment, ends.source, ends.target, payload, number, None
        if self.unread is not None and by_tshark:
            tshark = self.tshark(stdout=subprocess.PIPE)
            for number, moment, source, target, data, place in read_lines(tshark.stdout):
                yield number, nanoseconds(moment), source, target, data, place, moment
            self.is_whole &= not tshark.wait()
            self.notes = Notes()  # from-tshark told the notes of the whole capture

    def tshark(self, *words, **streams):
        """Runs from-tshark, which prints the lines after those that were read here. It reads the file from its beginning."""
        if not os.path.isfile(self.name):
            die("%s is no file, and tshark has to read it from its beginning: give it to from-capture, and its lines to to-log" % self.name)
        return subprocess.Popen([sys.executable, FROM_TSHARK, self.name, "--skip", str(self.unread), *words], **streams)

    def rest_by_tshark(self):
        """Has from-tshark read the rest of a capture that is no file and print its lines. Answers its status."""
        reader = subprocess.Popen([sys.executable, FROM_TSHARK, "-", "--after", str(self.unread), "-l"], stdin=subprocess.PIPE)
        for piece in chain([self.format.preamble if self.format else b""], self.window.rest()):
            reader.stdin.write(piece)
            reader.stdin.flush()
        reader.stdin.close()
        return reader.wait()

    def tell(self):
        """Says what was noticed of the part that was read here. Answers whether nothing is missing."""
        if self.damage:
            say(self.damage)
        return self.notes.tell() and self.is_whole
