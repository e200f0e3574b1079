"""The lines of a watch as they come, and what they tell of the time. All moments are nanoseconds."""
import fcntl
import os
import time
from collections import deque

from sip_lines import SECOND

PIECE, PIPE = 1 << 18, 1 << 20  # how many bytes are read at once, and how many may wait to be read
PASS = SECOND // 2  # after a pass that took longer, nobody knows that nothing came
# How long the longest delay of a line is remembered.
REMEMBERED = 30 * SECOND
# The longest delay of a line that counts.
MOST_LAG = 10 * SECOND
STEP = SECOND // 100  # the clock differs by so much where it was set, and not where it was not
GONE_BACK = 10  # after so many lines in a row that lie further back than the most lag, their clock was set


class Clock:
    """The clock of this machine, which tells whether it was set."""

    def __init__(self):
        self.ahead = self.ahead_of_steady()

    @staticmethod
    def ahead_of_steady():
        """By how much the clock is ahead of a clock that nobody sets; None where this process was held up while it asked."""
        before, now, after = time.monotonic_ns(), time.time_ns(), time.monotonic_ns()
        return now - before if after - before < STEP // 10 else None

    def was_set_by(self):
        """By how much the clock was set since the last call, or 0."""
        ahead = self.ahead_of_steady()
        if ahead is None or self.ahead is None:
            self.ahead = self.ahead or ahead
            return 0
        step, self.ahead = ahead - self.ahead, ahead
        return step if abs(step) > STEP else 0


class Input:
    """The lines of a file with this descriptor, and the moment up to which they have come."""

    def __init__(self, number, lag, still, is_stored):
        self.number, self.lag, self.still, self.is_stored = number, lag, still, is_stored
        self.rest, self.lines, self.is_ended = b"", 0, False
        if not is_stored:
            try:
                fcntl.fcntl(number, fcntl.F_SETPIPE_SZ, PIPE)
            except OSError:  # the input is no pipe
                pass
        self.begin()

    def begin(self):
        """Begins with no knowledge of the time."""
        now = time.time_ns()
        self.heard = self.settled = 0  # the newest moment of a line; the newest moment of the lines that came a lag ago
        self.came = deque()  # when lines came, and the newest moment that was heard by then
        self.begun = self.still_since = self.last_pass = self.delays_since = now
        self.delay = self.delay_before = 0  # the most by which lines came after their moments, lately and before that
        self.back = 0  # how many lines in a row lie far back

    def read(self):
        """The lines that have come, each with its number. A last line that is cut off is left out."""
        piece = os.read(self.number, PIECE)
        self.is_ended = not piece
        *lines, self.rest = (self.rest + piece).split(b"\n")
        for line in lines:
            self.lines += 1
            yield self.lines, line

    def hear(self, moment, now):
        """Hears the moment of a line. Answers whether the clock that gives the moments was set back."""
        if not self.is_stored:
            moment = min(moment, now)
            # A line from before the watch began tells nothing of how late lines come.
            if moment > self.begun:
                self.delay = max(self.delay, min(now - moment, MOST_LAG))
        # One line that lies far back is late. Many in a row tell that their clock was set.
        self.back = self.back + 1 if moment < self.heard - MOST_LAG else 0
        self.heard = max(self.heard, moment)
        return self.back == GONE_BACK

    def has_come(self, now):
        """Notes, after the lines of a pass, when they came."""
        self.still_since = now
        self.came.append((now, self.heard))

    def passed(self, now):
        """Looks at the clock at each pass of the loop."""
        # The watch itself was held up, and so cannot know that no line came.
        if now - self.last_pass > PASS:
            self.still_since = now
        self.last_pass = now
        if now - self.delays_since > REMEMBERED:
            self.delay_before, self.delay, self.delays_since = self.delay, 0, now

    def late(self):
        """The most by which lines come after their moments."""
        return max(self.delay, self.delay_before)

    def known(self, now):
        """The moment up to which all lines have come, as far as can be known. A line waits for older ones until a line has come that is newer by the lag, or
        until the lag is over. Where nothing comes the clock tells the time, less as much as a line may be late."""
        if self.is_stored:
            return self.heard - self.lag
        while self.came and self.came[0][0] <= now - self.lag:
            self.settled = self.came.popleft()[1]
        # Where no line came for as long as `still` says, all lines have come up to so long ago, less as much as lines were late.
        by_clock = now - self.still - self.late() if now - self.still_since > self.still else 0
        return max(self.heard - self.lag, self.settled, by_clock)

    def next_known(self, now):
        """Answers in how many nanoseconds the first line that has come is sure to be the next one, or None where no line has come."""
        return max(0, self.came[0][0] + self.lag - now) if self.came else None
