"""The claims of the evidence of a log that is malformed, undecided or unreadable are asked again: whose the message is, which fault it has and where, and
what takes the fault away; how the states grew, and with which tolerance the branch is decided; where a log cannot be read."""
import re
from collections import Counter

from judge import Entry, read_log, write_log
from messages import head_lines, keys_of, top_via

# The kind of a trouble by the first word of the verdict.
KINDS = {"malformed": "malformed", "undecided": "undecided", "log": "log fault"}
MOST_ASKED = 300  # the longest line, in bytes, of which each front is asked about


class FaultClaims:
    """The evidence of a log without a breach, held against the judge."""

    def __init__(self, judge, log, told, chance):
        self.judge, self.log, self.told, self.chance = judge, log, told, chance
        self.words = judge.verdict(log)
        self.kind = told.get("word")
        self.asked, self.wrong = Counter(), []

    def holds(self, what, truth, detail=""):
        """Counts a claim of this kind, and notes it as wrong unless it is true."""
        self.asked[what] += 1
        if not truth:
            self.wrong.append(f"{self.kind}: {what} {detail}".rstrip())
        return truth

    def all(self):
        """Checks all that is told of the verdict, by its kind, and of the log that shows it again."""
        if self.holds("word of the verdict", self.kind == KINDS.get(self.words[0]) and self.told["verdict"].split() == self.words, self.told["verdict"]):
            {"malformed": self.malformed, "undecided": self.undecided, "log fault": self.unreadable}[self.kind]()
            self.repeat()

    def repeat(self):
        """Checks the small log that shows the verdict again."""
        if self.told.get("repeat"):
            verdict = self.judge.verdict(self.told["repeat"]["log"].encode("latin-1"))
            self.holds("the small log's verdict", verdict == self.told["repeat"]["verdict"].split() and verdict[0] == self.words[0], " ".join(verdict))

    # What follows asks about a message that is malformed.

    def malformed(self):
        """Checks what is told of a malformed message."""
        told = self.told
        # The verdict has the number and the name of the fault, and its unit, perhaps a line.
        number, name = self.words[-2:]
        unit, line = self.words[2], int(self.words[3]) if self.words[2] == "line" else None
        self.times, entries = read_log(self.log)
        at = int(self.words[1])
        self.entry = one = entries[at - 1]
        self.fault = self.words[2:]
        # The entry, and whose message it is, are those of the log.
        self.holds("malformed entry", told["entry"] == {"number": at, "letter": one.letter, "moment": one.moment, "bytes": one.data.decode("latin-1")})
        self.holds("whose it is", told["whose"] == ("received" if one.letter == "R" else "sent"), told["whose"])
        self.holds("number and name of the fault", (str(told["fault"]["number"]), told["fault"]["name"]) == (number, name))
        self.holds("place of the fault", (told["unit"], told["line"]) == (unit, line))
        self.holds("the fault of the message alone", self.fault_of(one.data) == self.fault)
        # The lines that are shown are those of the head.
        self.lines = head_lines(one.data)
        for place, text in told["lines"]:
            self.holds("a line that is shown", text.encode("latin-1") == self.lines[place], place)
        self.front(line, told["front"])
        # A change that is told to take the fault away does so.
        if told["mended"]:
            mended = told["mended"]["bytes"].encode("latin-1")
            self.holds("the change takes the fault away", self.fault_of(mended) != self.fault and mended != one.data, told["mended"]["what"])

    def fault_of(self, data):
        """The fault of a message that stands alone in a log, and None where its log is legal or a breach."""
        words = self.judge.verdict(write_log(self.times, [Entry(self.entry.letter, self.entry.moment, data)]))
        return words[2:] if words[0] == "malformed" else []

    def front(self, line, length):
        """Checks that this is the longest front of the line with which no fault is found in the line: longer ones have one."""
        if line is None:
            self.holds("no line has no front", length is None)
            return
        # The line itself, and what comes after the head.
        text, rest = self.lines[line], self.entry.data[len(b"\r\n".join(self.lines)):]

        def lacks(size):
            """Whether the fault is another one with this many bytes of the line."""
            return self.fault_of(b"\r\n".join([*self.lines[:line], text[:size], *self.lines[line + 1:]]) + rest)[:2] != self.fault[:2]

        if length is not None:
            self.holds("the front lacks the fault", 0 < length < len(text) and lacks(length), length)
        # Fault 6 is that a field stands twice, of which no front of its line tells. The next longer front is asked about, and up to eight others.
        if self.fault[-2] != "6" and len(text) <= MOST_ASKED:
            longer = range((length or 0) + 1, len(text))
            for size in {*longer[:1], *self.chance.sample(longer, min(8, len(longer)))}:
                self.holds("a longer front has the fault", not lacks(size), size)

    # What follows asks about a log that is undecided.

    def undecided(self):
        """Checks what is told of a transaction that is undecided."""
        told = self.told
        at, number = int(self.words[1]), int(self.words[3])
        times, entries = read_log(self.log)
        keys = list(dict.fromkeys(key for letter, _, data in entries[:at] for key in keys_of(letter, data)))
        key = keys[number - 1]
        # The entries that concern it, and the restarts.
        own = [place for place, (letter, _, data) in enumerate(entries[:at], 1) if letter == "Z" or key in keys_of(letter, data)]
        self.holds("undecided entry", told["entry"] == {"number": at, "letter": entries[at - 1].letter, "moment": entries[at - 1].moment})
        self.holds("undecided transaction", (told["transaction"]["number"], told["transaction"]["role"], told["transaction"]["method"]) == (number, key[0], key[3].decode()))
        self.holds("its own entries", told["entries"] == own)
        for place, count in told["growth"]:
            states = next((states for one, _, _, states in self.judge.listing(times, entries[:place]) if one == number), [])
            self.holds("states after an entry", count == len(states), place)
        # The last entry of the growth is its last one before the verdict; `states` are those after it.
        self.holds("states before it", told["states"] == len(states) and told["growth"][-1][0] == own[-2])
        self.holds("most that a state owes", told["most_debts"] == max(state.count("owes=") for state in states))
        if told["decided"]:
            self.decided(times, [(place, one) for place, one in enumerate(entries, 1) if one.letter == "Z" or one.data and top_via(one.data)[3].lower() == key[1]])

    def decided(self, times, branch):
        """Checks the tolerance with which the branch is decided, and what is said of the branch then."""
        told = self.told["decided"]
        # No side gets more than the header has.
        most = {side: min(told["tolerance"], getattr(times, side)) for side in ("early", "late")}
        words = self.judge.verdict(write_log(times._replace(**most), [one for _, one in branch]))
        self.holds("decided with a tolerance", words[0] == told["word"] != "undecided", " ".join(words))
        if told.get("entry"):
            self.holds("entry with that tolerance", branch[int(words[1]) - 1][0] == told["entry"], " ".join(words))

    # What follows asks about a log that cannot be read.

    def unreadable(self):
        """Checks what is told of an entry that cannot be read."""
        told = self.told
        at, number, name = self.words[2:]
        self.holds("entry that cannot be read", told["entry"]["number"] == int(at))
        self.holds("number and name of the fault", (str(told["fault"]["number"]), told["fault"]["name"]) == (number, name))
        self.holds("where it begins", told["there"].encode("latin-1") == self.log[told["at_byte"]:][:100])
        if int(at):
            # The log cut off there has no fault, and is legal with one entry less, or has a breach before.
            front = self.judge.verdict(self.log[:told["at_byte"]])
            self.holds("all before it can be read", front[0] != "log" and (front[0] != "legal" or front[2] == str(int(at) - 1)), " ".join(front))
            self.holds("it begins where an entry begins", re.match(rb"[^\n]*", self.log[told["at_byte"]:]) is not None and
                       (told["at_byte"] == 0 or self.log[told["at_byte"] - 1:told["at_byte"]] == b"\n"))
        else:
            self.holds("the header begins the log", told["at_byte"] == 0)
