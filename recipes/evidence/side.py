"""What a log does not keep of its entries: the time of day, the ends, and the place in the source, as `to-log --side` wrote them beside it."""
import os
from datetime import datetime, timezone

from sip_lines import die


class Side:
    """The side file of a log: lines NUMBER MOMENT SECONDS FROM TO PLACE, in the order of the entries. A line is found by halves."""

    def __init__(self, name, is_asked_for):
        self.name = name
        try:
            self.file = open(name, "rb")
        except OSError as error:
            if is_asked_for:
                die("cannot read %s: %s" % (name, error.strerror), 4)
            self.file = None

    def line_after(self, place):
        """The words of the first line that begins at this place of the file or later."""
        # From the byte before the place on, the rest of that line is passed over: a line that begins at the place is the next one.
        self.file.seek(max(0, place - 1))
        if place:
            self.file.readline()
        return self.file.readline().split()

    def line_of(self, number):
        """The words of the first line whose number is not below this one: the lines are in the order of their numbers, and so they are searched by halves."""
        low, high = 0, self.file.seek(0, os.SEEK_END)
        while low < high:
            middle = (low + high) // 2
            words = self.line_after(middle)
            low, high = (middle + 1, high) if words and int(words[0]) < number else (low, middle)
        return self.line_after(low)

    def of(self, number, moment):
        """What is known of an entry from the side file. A file with another moment for the entry is that of another log."""
        if self.file is None:
            return {}
        try:
            words = self.line_of(number)
            if not words or int(words[0]) != number:
                return {}
            if len(words) != 6 or int(words[1]) != moment:
                raise ValueError
            time = datetime.fromtimestamp(float(words[2]), timezone.utc).strftime("%Y-%m-%d %H:%M:%S.%f")[:-3]
        except (ValueError, OverflowError, OSError):
            die("%s is not the side file of this log: see entry %d" % (self.name, number))
        told = {"time": time, "from": words[3].decode("latin-1"), "to": words[4].decode("latin-1")}
        return told if words[5] == b"-" else {**told, "place": words[5].decode("latin-1")}
