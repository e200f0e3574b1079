"""The evidence of a log that is malformed, undecided or unreadable: whose the message is, where in the line the fault is, what takes it away; all is asked."""
import re

from sip_lines import cseq, is_response, keys_of, method_of

from .asking import log_of
from .messages import HEAD_END, latin, lines_and_rest, name_of, with_lines, with_top_via
from .rules import fault_told

MOST_ASKED = 300  # the longest line, in bytes, whose places are asked about
MOST_LINES = 12  # the most lines of a head that are shown
MOST_THERE = 100  # the most bytes that are shown of a log that cannot be read
STAGES = {1: 1, 2: 2, 3: 3, 4: 4, 5: 4, 6: 5, 7: 5, 8: 6, 9: 7, 10: 7, 11: 7, 12: 8}  # by the number of a reason, when its fault is looked for
# A line for each field that a message must have, by its name.
NEEDED = {b"via": b"Via: SIP/2.0/UDP made.invalid;branch=z9hG4bKmade", b"from": b"From: <sip:made@example.invalid>;tag=made",
          b"to": b"To: <sip:made@example.invalid>", b"call-id": b"Call-ID: made", b"cseq": b"CSeq: 1 %s"}
# The shorter tolerances that are asked about where too many states are possible, in milliseconds.
TOLERANCES = (5000, 2000, 1000, 500, 200, 100, 50, 20, 10, 5, 2, 1, 0)
MOST_STATES = 1024  # how many states the program follows
GROWTH = 6  # of how many entries the numbers of states are told


class Faulty:
    """A message with a fault, about which the program is asked alone in a log, and with changes."""

    def __init__(self, judge, times, one, unit, number):
        self.judge, self.times, self.one, self.number = judge, times, one, number
        self.line = int(unit.split()[1]) if unit.startswith("line") else None
        self.lines, self.rest = lines_and_rest(one.data)
        self.stage = STAGES[number], self.line or 0

    def stage_of(self, data):
        """How far the program gets with these bytes in place of the message: the stage of the first fault, and its line. None where there is no fault."""
        words = self.judge.verdict(log_of(self.times, [(self.one.letter, self.one.moment, data)]))
        if words[0] != "malformed":
            return None
        unit, number = (words[2], words[4]) if words[2] == "line" else (words[2], words[3])
        return STAGES[int(number)], int(words[3]) if unit == "line" else 0

    def is_mended(self, data, is_all):
        """Whether these bytes have neither the fault nor one before it; with `is_all` no fault at all."""
        stage = self.stage_of(data) if data else self.stage
        return stage is None or not is_all and stage > self.stage

    def with_line(self, text):
        """The message with this text in place of the line of the fault, or without the line."""
        lines = self.lines[:self.line] + ([] if text is None else [text]) + self.lines[self.line + 1:]
        return b"\r\n".join(lines) + self.rest

    def front(self):
        """The length of the longest front of the line that takes the fault away in place of the line, or None where none does."""
        if self.line is None or self.number == 6:
            return None
        text = self.lines[self.line]
        return next((end for end in range(min(len(text), MOST_ASKED) - 1, 0, -1) if self.is_mended(self.with_line(text[:end]), False)), None)

    def mended(self):
        """A small change that takes the fault away: one after which no fault is left, or else one that leaves only a later fault."""
        for is_all in (True, False):
            for what, data, *at in CHANGES[self.number](self):
                if self.is_mended(data, is_all):
                    return {"what": what, "bytes": latin(data), **({"at": at[0]} if at else {})}
        return None

    def with_line_ends(self):
        """The message with whole line ends, and with an empty line at its end."""
        # The first CR without LF, or LF without CR.
        first = re.search(rb"\r(?!\n)|(?<!\r)\n", self.one.data)
        if first:
            head, end, body = self.one.data.partition(HEAD_END)
            yield "with CR LF at the end of each line of its head", re.sub(rb"\r\n|\r|\n", b"\r\n", head) + end + body, first.start() + 1
        yield "with an empty line after its last byte", self.one.data + HEAD_END

    def with_bytes_changed(self):
        """The message without one byte of the faulty line, at each place in turn, and without the line."""
        text = self.lines[self.line]
        begin = text.find(b":") + 1 if self.number == 5 else 0  # with a changed name it would be another field
        for place in range(begin, min(len(text), MOST_ASKED)):
            yield "without %s at place %d of the line" % (byte_told(text[place]), place + 1), self.with_line(text[:place] + text[place + 1:]), place + 1
        if self.line:
            yield "without this line", self.with_line(None)

    def without_line(self):
        """The message without the faulty line."""
        yield "without this line", self.with_line(None)

    def with_what_lacks(self):
        """The message with the fields that it lacks."""
        has = {name_of(line) for line in self.lines[1:]}
        # A response does not tell its method, but in CSeq, which it may lack.
        method = b"OPTIONS" if is_response(self.one.data) else method_of(self.one.data)
        lacking = [line % method if b"%s" in line else line for name, line in NEEDED.items() if name not in has]
        what = "with %s, which it lacks" % " and ".join("a " + latin(line.partition(b":")[0]) for line in lacking)
        yield what, b"\r\n".join([self.lines[0], *lacking, *self.lines[1:]]) + self.rest

    def with_its_method(self):
        """The message with the method of its request line in its CSeq."""
        right = b"CSeq: %s %s" % (cseq(self.one.data)[0], method_of(self.one.data))
        yield "with %s" % latin(right), with_lines(self.one.data, b"cseq", [right])

    def with_its_length(self):
        """The message with the length of what stands after its head."""
        size = len(self.rest) - len(HEAD_END)
        yield "with Content-Length: %d, which is how many bytes stand after its head" % size, with_lines(self.one.data, b"content-length", [b"Content-Length: %d" % size])

    def with_cookie(self):
        """The message with a branch that begins with the cookie."""
        yield "with z9hG4bK before its branch", with_top_via(self.one.data, rb"(;\s*branch\s*=\s*)", rb"\1z9hG4bK")
        yield "with a branch that begins with z9hG4bK", with_top_via(self.one.data, rb"(?=[,]|$)", rb";branch=z9hG4bKmade")


# What is changed of a message, by the number of its reason.
CHANGES = {1: Faulty.with_line_ends, 2: Faulty.with_line_ends, 3: Faulty.with_bytes_changed, 4: Faulty.with_bytes_changed, 5: Faulty.with_bytes_changed,
           6: Faulty.without_line, 7: Faulty.with_what_lacks, 8: Faulty.with_its_method, 9: Faulty.with_its_length, 10: Faulty.with_its_length,
           11: Faulty.with_its_length, 12: Faulty.with_cookie}


def byte_told(byte):
    """A byte in words: by its sign, its name or its number."""
    # The bytes 33 to 126 are signs that one can see.
    return "the %s" % {32: "blank", 9: "tab"}[byte] if byte in (32, 9) else "%s" % chr(byte) if 33 <= byte <= 126 else "the byte 0x%02x" % byte


def malformed(judge, index, at, unit, number):
    """The evidence of a malformed message, but for the row of its entry."""
    one = index.entry(at)
    faulty = Faulty(judge, index.times, one, unit, number)
    lines = list(enumerate(map(latin, faulty.lines)))
    if faulty.line is not None:
        # Of a fault of a line this one is shown; of one of two lines (6 and 8) also the first line of its name and the start line.
        lines = [line for line in lines if line[0] == faulty.line or number in (6, 8) and line[0] in (0, first_of_name(faulty))]
    # Of a branch without its cookie the start line and Via are shown.
    elif number == 12:
        lines = [line for line in lines if line[0] == 0 or name_of(faulty.lines[line[0]]) == b"via"]
    return {"entry": {"number": at, "letter": one.letter, "moment": one.moment, "bytes": latin(one.data)}, "whose": "received" if one.letter == "R" else "sent",
            "fault": fault_told(number), "unit": unit.split()[0], "line": faulty.line, "lines": [list(line) for line in lines[:MOST_LINES]],
            "front": faulty.front(), "mended": faulty.mended()}


def first_of_name(faulty):
    """The first line that has the name of the line of the fault."""
    name = name_of(faulty.lines[faulty.line])
    return next(n for n, line in enumerate(faulty.lines) if n and name_of(line) == name)


def log_fault(index, name, at, number):
    """The evidence of an entry that cannot be read."""
    place = 0
    if at:
        # Where it begins in the file: at a place that the index has, or where the index ends.
        place = index.places[at - 1] if at <= len(index.places) else index.place
    with open(name, "rb") as file:
        file.seek(place)
        there = file.read(MOST_THERE)
    return {"entry": {"number": at}, "fault": fault_told(number), "at_byte": place, "there": latin(there)}


def undecided(judge, found, at, transaction):
    """The evidence of a transaction with more states than the program follows: how their number grew, and with which tolerance the branch is decided."""
    own = [one for one in found.entries if one.number <= at and (one.letter == "Z" or found.key in keys_of(one.letter, one.data))]
    before = own[:-1]
    growth, debts = [], 0
    # The last entries before the verdict, each with the states after it.
    for count in range(max(1, len(before) - GROWTH + 1), len(before) + 1):
        states = states_of(judge.listing(log_of(found.times, [one[1:] for one in before[:count]]), count), found.key)
        growth.append([before[count - 1].number, len(states)])
        debts = max([state.count("owes=") for state in states], default=0)
    one = found.entry(at)
    return {"entry": {"number": at, "letter": one.letter, "moment": one.moment}, "transaction": transaction, "times": found.times._asdict(),
            "most_states": MOST_STATES, "entries": [one.number for one in own], "states": growth[-1][1] if growth else 0, "most_debts": debts, "growth": growth, "decided": decided(judge, found)}


def states_of(listing, key):
    """The lines of a listing that are of this transaction."""
    found, is_mine = [], False
    for line in listing:
        if line.startswith("  "):
            found += [line] if is_mine else []
        else:
            is_mine = line.split()[2:4] == [key[0], latin(key[3])]
    return found


def decided(judge, found):
    """The greatest of the asked tolerances at which the branch is decided. They are smaller than that of the log."""
    for tolerance in TOLERANCES:
        if tolerance < max(found.times.early, found.times.late):
            times = found.times._replace(early=min(tolerance, found.times.early), late=min(tolerance, found.times.late), format=2)
            words = judge.verdict(log_of(times, [one[1:] for one in found.entries]))
            if words[0] != "undecided":
                return {"tolerance": tolerance, "word": words[0], "entry": found.entries[int(words[1]) - 1].number if words[0] in ("breach", "malformed") else None}
    return None
