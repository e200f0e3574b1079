"""A breach as the checker reads it by itself: the transaction that the verdict names, its history, and the questions that the checker asks the judge of it."""
from judge import LAST, Entry, mark, read_log
from messages import is_response, keys_of, method_of, code_of

LENGTHS = (0, 200, 32_000)  # in milliseconds: timers of RFC 3261 section 17, beside those that the header tells


class Case:
    """A log in breach: entries are numbered from 1, and `own` has the numbers of those that concern the transaction, restarts among them."""

    def __init__(self, judge, log, chance):
        self.judge, self.chance = judge, chance
        self.times, self.entries = read_log(log)
        self.verdict = judge.verdict(log)
        self.at, self.number = int(self.verdict[1]), int(self.verdict[3])
        self.key = self.key_of(self.number)
        self.role, self.branch, self.sent_by, self.method = self.key
        # `before` are its own entries before the breach. `letters` is how each of them stands in the history, which is empty for one that is left out.
        self.own = self.numbers_of_own()
        self.before = [number for number in self.own if number < self.at]
        self.letters = self.letters_of_history()
        self.history = [Entry(self.letters[number], *self.entry(number)[1:]) for number in self.before if self.letters[number]]
        self.moment = self.entry(self.at).moment
        # From here on the transaction may be silent.
        self.start = self.history[-1].moment if self.history else 0

    def entry(self, number):
        """The entry with this number."""
        return self.entries[number - 1]

    def key_of(self, number):
        """The transaction with this number: transactions are counted as the log first names them."""
        keys = {}
        for letter, _, data in self.entries[:self.at]:
            for key in keys_of(letter, data):
                # A key that is new gets the next number.
                if keys.setdefault(key, len(keys) + 1) == number:
                    return key
        raise ValueError(f"the log has no transaction {number} by the checker's reading")

    def numbers_of_own(self):
        """The numbers of the entries that concern the transaction, and of the restarts after its first."""
        own = []
        for number, (letter, _, data) in enumerate(self.entries, 1):
            try:
                concerns = letter == "Z" and own or self.key in keys_of(letter, data)
            except (IndexError, TypeError, ValueError, AttributeError):  # a malformed message after the breach concerns no transaction
                concerns = False
            if concerns:
                own.append(number)
        return own

    def is_cancel(self, number):
        """Whether the entry is a sent CANCEL."""
        letter, _, data = self.entry(number)
        return letter in "SF" and method_of(data) == b"CANCEL"

    def letters_of_history(self):
        """The letter with which each entry before the breach stands in a history. A CANCEL that an INVITE's client sends is a step of two transactions. In
        the INVITE's history the first CANCEL stands as one that the transport refused: this ends the CANCEL's own transaction and changes nothing for the
        INVITE's. Later CANCELs are left out. Where a CANCEL is the breach of its INVITE all CANCELs are left out, since none before it can have been a
        step: it is right from the first response on."""
        letters, has_cancel = {}, self.at in self.own and self.is_cancel(self.at)
        for number in self.before:
            letters[number] = self.entry(number).letter
            if self.key[0] == "client" and self.key[3] == b"INVITE" and letters[number] in "SF" and self.is_cancel(number):
                letters[number] = "" if has_cancel else "F"
                has_cancel = True
        return letters

    # What follows are questions that are asked of the judge.

    def is_possible(self, entries, times=None):
        """Whether a log of these entries is legal or undecided."""
        return self.judge.is_possible(times or self.times, entries)

    def allows(self, *more):
        """Whether the history and these entries after it are no breach."""
        return self.is_possible([*self.history, *more])

    def can_be_silent_to(self, moment):
        """Whether nothing has to be sent up to this moment."""
        return self.allows(mark(moment))

    def last_silence(self):
        """The last moment up to which the transaction can be silent after its history, or None where it can be silent for ever. Whether it can is a yes that
        turns to a no only once, so that the moment is found by halves."""
        if not hasattr(self, "found_silence"):
            # After a yes the next moment is twice as late and a second more, so that a first no is found soon; from there on the rest is halved.
            low, high = self.start, LAST
            if self.can_be_silent_to(high):
                self.found_silence = None
            else:
                while high - low > 1:
                    middle = min((low + high) // 2, 2 * low + 1000)
                    low, high = (middle, high) if self.can_be_silent_to(middle) else (low, middle)
                self.found_silence = low
        return self.found_silence

    def end(self):
        """The last moment at which the transaction can still do something of its own accord."""
        return LAST if self.last_silence() is None else self.last_silence()

    def settles(self, letter, moment, data):
        """Whether a message at a moment takes the history past its last moment of silence."""
        # Without it the transaction cannot be silent to the moment after its last one of silence.
        return self.allows(Entry(letter, moment, data), mark(self.end() + 1))

    # What follows finds moments at which to ask.

    def edges(self):
        """Moments at which the answer may change, by the timers and the entries. They are guesses, and the judge is only asked about them."""
        times = self.times
        # The lengths of timers: LENGTHS, T4, T2, 64 times T1, and T1 doubled up to seven times. Each is taken with its tolerances too, and 1 ms beyond.
        lengths = {*LENGTHS, times.t4, times.t2, 64 * times.t1, *(times.t1 * 2 ** n for n in range(8))}
        bases = {entry.moment for entry in self.history[-12:]} | {0}
        return sorted({base + length + side for base in bases for length in lengths for side in (0, -times.early, times.late, times.late + 1, -times.early - 1)})

    def net(self, windows, count):
        """About `count` moments from the last entry of the history to the last moment of silence, and the edges of these windows and the moments beside."""
        start, end, chance = self.start, self.end(), self.chance
        # The edges of the windows with the moments beside them; half of `count` are edges of timers, a quarter lie anywhere, and a quarter within two seconds.
        near = [moment + side for window in windows for moment in window if moment is not None for side in (-1, 0, 1)]
        edges = self.edges()
        # No timer is set for longer than this from the last entry on.
        far = min(end, start + 130 * self.times.t1 + 35_000)
        some = [*chance.sample(edges, min(len(edges), count // 2)), *(chance.randint(start, far) for _ in range(count // 4 + 1)),
                *(start + chance.randint(0, 2000) for _ in range(count // 4 + 1)), start, far]
        return sorted({moment for moment in near + some if start <= moment <= end})

    # What follows finds entries of the transaction.

    def breach_entry(self):
        """The entry of the breach, where it is one of the transaction's own messages, and else None."""
        return self.entry(self.at) if self.at in self.own and self.entry(self.at).letter in "SRF" else None

    def is_own_send(self):
        """Whether the breach is an entry that the transaction sent."""
        return self.breach_entry() is not None and self.breach_entry().letter in "SF"

    def last_entry(self):
        """The number of the entry that shows the breach after the history."""
        return self.entry(self.at) if self.at in self.own else mark(self.moment)

    def later_sends(self, last):
        """The numbers of the transaction's own sends from the breach to a moment. A restart of the element ends them: no send after it can be what was due."""
        later = [number for number in self.own if number >= self.at and self.entry(number).moment <= last]
        end = next((place for place, number in enumerate(later) if self.entry(number).letter == "Z"), len(later))
        return [number for number in later[:end] if self.entry(number).letter in "SF"]

    def requests(self):
        """The requests of the transaction other than ACK and CANCEL, in order."""
        return [entry.data for entry in self.history if entry.data and not is_response(entry.data) and method_of(entry.data) == self.method]

    def refusals(self):
        """Each response from 300 to 699 that a client received."""
        return list(dict.fromkeys(entry.data for entry in self.history if entry.letter == "R" and is_response(entry.data) and code_of(entry.data) >= 300))
