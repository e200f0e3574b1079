"""Finds the transaction of a verdict in a log of any size, in one pass over the bytes.

Of a message the pass looks at the start line, the top Via and the CSeq alone. What it finds is asked of the program: the entries that it gives must be in
breach where the log is.
"""
import mmap
import re
from array import array
from bisect import bisect_right
from itertools import islice
from typing import NamedTuple

from sip_lines import COOKIE, HEADER, MOST_ENTRIES, RULES, Log, branch_of, die, keys_of

# The first form is that of nearly all entries: the line of the entry, a start line, and as the first field a Via that is plain up to its branch. The second
# has such a Via after other lines, none of which is folded. An entry of neither form is read by `keys_of`.
LINE = rb"([SRF]) (\d+) (\d+)\n(?:SIP/2\.0 |([^ /\r\n]+) )[^\n]*\n"
PLAIN = (rb'SIP/2\.0/[A-Za-z]+ ([^\s;:,"\[\]]+)(?::(\d{1,5}))?(?:;(?![Bb][Rr])[^\s;,"]*)*;branch=([^\s;,"]+)(?=[;\r])')
VIA_FIRST = re.compile(LINE + rb"(?:Via|v): " + PLAIN)
VIA_LATER = re.compile(LINE + rb"(?:(?![Vv][Ii][Aa][ \t]*:|[Vv][ \t]*:|[ \t\r])[^\r\n]*\r\n)*(?:Via|v): " + PLAIN)
# The method of a message in its CSeq, and the line of an entry.
CSEQ = re.compile(rb"\nCSeq: \d+ ([!-~]+)\r\n(?![ \t])")
ENTRY_LINE = re.compile(rb"([SRFMZ]) (\d{1,13})(?: (\d{1,5}))?\n")
BATCH = 50_000  # how many entries are read between two looks at the program
AHEAD = 128  # how many T1 after the breach entries are read
NO_BRANCH, OF_ALL = 0, 1  # the sums of a mark, and of a restart, which is every branch's


class Entry(NamedTuple):
    """An entry of a log, with its number."""

    number: int
    letter: str
    moment: int
    data: bytes


def keys_or_none(letter, data):
    """The keys that `keys_of` tells. A malformed message has none, as one after the breach may be."""
    try:
        return keys_of(letter, data)
    except (AttributeError, IndexError, ValueError):
        return []


def text_of_key(key):
    """A key as one text: role, branch, method, and for a server its sent-by."""
    role, branch, sent_by, method = key
    return b" ".join([role.encode(), branch, method, *([sent_by] if role == "server" else [])])


def key_in(text):
    """The key that such a text spells: role, branch, sent-by and method."""
    role, branch, method, *sent_by = text.split(b" ")
    return role.decode(), branch, b"".join(sent_by), method


def mapped(name):
    """The bytes of a file, which are read again and again."""
    try:
        with open(name, "rb") as file:
            return mmap.mmap(file.fileno(), 0, access=mmap.ACCESS_READ)
    except (OSError, ValueError):
        die("cannot read %s twice: give a file" % name, 4)


def sum_of_branch(branch):
    """A number of the branch that is never 0 or 1, which have another meaning."""
    # With the second bit set it is neither 0 nor 1.
    return hash(branch) | 2


class Index:
    """Where each entry of a log begins, of which branch it is, and the keys in the order in which they first appear."""

    def __init__(self, name, malformed=frozenset()):
        """`malformed` has the numbers of the entries with malformed messages, which concern no transaction."""
        self.times, self.malformed = Log(name).times, malformed
        self.text = mapped(name)
        self.places, self.moments, self.branches, self.keys = array("Q"), array("Q"), array("q"), {}
        self.place = self.header_end()

    def header_end(self):
        """Where the header ends."""
        end = HEADER.match(self.text).end()
        rules = RULES.match(self.text, end)
        return rules.end() if rules else end

    def read(self, most=BATCH):
        """Reads up to `most` entries more. Answers whether there may be others. All that a large log costs is this loop, so that it calls little."""
        text, size, place, keys = self.text, len(self.text), self.place, self.keys
        # Methods that the loop calls for each entry are looked up once: where a first or a later Via stands in a line, and where the method stands in CSeq.
        first, later, cseq_in = VIA_FIRST.match, VIA_LATER.match, CSEQ.search
        add_place, add_moment, add_branch = self.places.append, self.moments.append, self.branches.append
        malformed = self.malformed
        for _ in range(min(most, MOST_ENTRIES - len(self.places))):
            # `found` is None for an entry that is not plain; such an entry is read by `odd_entry`.
            found = first(text, place) or later(text, place)
            if malformed and len(self.places) + 1 in malformed:
                found = None
            if found:
                letter, moment, length, method, host, port, branch = found.groups()
                # The message begins after the line's LF, which follows the length, and ends at `stop`, where an LF of its own stands.
                stop = found.end(3) + 1 + int(length)
                # A client sends requests, which have a method in their first line, and receives responses; a server does the other.
                is_client = (letter == b"R") is (method is None)
                if method is None:
                    cseq = cseq_in(text, found.end(), stop)
                    method = cseq[1] if cseq else b""
                # The ACK of a final response of 300 to 699 belongs to the transaction of its INVITE.
                elif method == b"ACK":
                    method = b"INVITE"
                branch = branch.lower()
                if is_client:
                    key = b"client " + branch + b" " + method
                else:
                    key = b"server %b %b %b:%d" % (branch, method, host.lower(), int(port or 5060))
                # A new key gets the next number; a message without the cookie, and one at the end of a log that is cut, is read by `odd_entry`.
                if method == b"CANCEL" or not method:  # a CANCEL that was sent has two keys
                    found = None
                elif key not in keys:
                    if stop < size and branch.startswith(COOKIE):
                        keys[key] = len(keys) + 1
                    else:
                        found = None
                of_branch = hash(branch) | 2  # what sum_of_branch answers, without a call
            if not found:
                of_branch, moment, stop = self.odd_entry(place)
            if stop >= size:
                return False
            add_place(place)
            add_moment(int(moment))
            add_branch(of_branch)
            self.place = place = stop + 1
        return place < size and len(self.places) < MOST_ENTRIES

    def odd_entry(self, place):
        """The branch, the moment and the end of an entry that is not plain. An entry that cannot be read ends where the log does."""
        found = ENTRY_LINE.match(self.text, place)
        letter, moment, length = found.groups() if found else (b"", 0, None)
        # A mark and a restart have no length, and each message has one.
        if not found or (letter in b"MZ") is (length is not None):
            return NO_BRANCH, 0, len(self.text)
        if length is None:
            # A restart is of all branches, and a mark of none.
            return OF_ALL if letter == b"Z" else NO_BRANCH, moment, found.end() - 1
        # The message ends so many bytes after the line, and a LF comes after it.
        stop = found.end() + int(length)
        data = self.text[found.end():stop]
        keys = [] if len(self.places) + 1 in self.malformed else keys_or_none(letter.decode(), data)
        for key in keys:  # keys are numbered as the program numbers them
            self.keys.setdefault(text_of_key(key), len(self.keys) + 1)
        return sum_of_branch(branch_of(data) or b"\n%d" % place), moment, stop

    def key_of(self, number):
        """Role, branch, sent-by and method of the transaction with this number, or None where there is none."""
        # A dictionary keeps the order in which its keys were put in.
        text = next(islice(self.keys, number - 1, None), None)
        return None if text is None else key_in(text)

    def number_of(self, key):
        """The number of the transaction with this key."""
        return self.keys[text_of_key(key)]

    def entry(self, number):
        """The entry with this number."""
        place = self.places[number - 1]
        end = self.text.find(b"\n", place)
        # A mark and a restart have two words, and a message has its length as the third.
        words = self.text[place:end].split()
        data = self.text[end + 1:end + 1 + int(words[2])] if len(words) == 3 else b""
        return Entry(number, words[0].decode(), int(words[1]), data)

    def of_branch(self, branch, last):
        """The entries of a branch up to entry `last`, with each restart among them."""
        # Two branches may have one sum, so that the branch itself is looked at too.
        wanted = sum_of_branch(branch), OF_ALL
        mine = [self.entry(number) for number, one in enumerate(islice(self.branches, last), 1) if one in wanted]
        return [one for one in mine if one.letter == "Z" or branch_of(one.data) == branch]

    def mentions(self, text, after, most, reach):
        """The numbers of up to `most` entries in which a text stands, among the `reach` entries after entry `after`."""
        number, found = after, []
        # `limit` is where the last of these entries ends, and `number` is that of the entry that begins at `place` or before it.
        last = min(after + reach, len(self.places))
        limit = self.places[last] if last < len(self.places) else self.place
        place = self.places[after] if after < len(self.places) else limit
        while len(found) < most and (place := self.text.find(text, place, limit)) >= 0:
            # The entry in which the text stands is the last one that begins no later.
            while number < len(self.places) and self.places[number] <= place:
                number += 1
            found.append(number)
            place = self.places[number] if number < len(self.places) else limit
        return found


class Found:
    """A transaction that is in breach at entry `at` of a log: its key, and the entries of its branch up to AHEAD times T1 after that."""

    def __init__(self, index, at, key, entries=None):
        self.index, self.times, self.at, self.key = index, index.times, at, key
        self.at_moment = index.moments[at - 1]
        limit = self.at_moment + AHEAD * index.times.t1
        # The log is read on until an entry lies past the limit, or it ends.
        while index.moments[-1] <= limit and index.read():
            pass
        self.end = bisect_right(index.moments, limit)  # the number of the last entry that is looked at
        self.last = index.moments[self.end - 1]
        self.entries = index.of_branch(key[1], self.end) if entries is None else [one for one in entries if one.number <= self.end]
        self.entry, self.mentions = index.entry, index.mentions


def index_beside(name, is_done):
    """The index of a log, as far as it was read while the program judged the log, and a batch of entries at least."""
    index = Index(name)
    while index.read() and not is_done():
        pass
    return index


def index_up_to(index, at):
    """Reads the index on to entry `at`. Answers whether the log has that entry."""
    while len(index.places) < at and index.read():
        pass
    return len(index.places) >= at
