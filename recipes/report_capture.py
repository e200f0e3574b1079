"""The messages of a capture for a report: which elements there are, and the log of each.

The capture is read as often as its messages are wanted; where tshark has to read it, its lines are kept in a file. What is noticed on the way is told to
the reader of the report: packets that were seen twice, a capture that began late, sends that were refused.
"""
import json
import os
import re
import subprocess
import sys
from bisect import bisect_left
from collections import Counter, deque
from decimal import Decimal
from typing import NamedTuple

from capture_messages import Reading
from element_log import make, seen_in_lines
from sip_lines import MILLISECOND, Element, Log, die, entry, keys_of, looks_like_sip, nanoseconds

# The folder of the recipes.
HERE = os.path.dirname(os.path.realpath(__file__))
TWICE = MILLISECOND  # within this time a message with the same bytes and ends is a packet that was seen twice
MOST_TWICE = 0.05  # the share of all messages from which on packets are taken to have been seen twice
MOST_CALLS = 400  # how many messages of a call are shown
MOST_PARTS = 64  # into how many parts the log of an element is cut


class Seen(NamedTuple):
    """A message of the capture. Its moment is in nanoseconds."""
    moment: int
    source: str
    target: str
    data: bytes
    place: int


class Flow:
    """The messages from one end to another: how many there are, and the earliest of their moments."""
    __slots__ = "count", "first"

    def __init__(self, moment):
        self.count, self.first = 0, moment


def address_of(end):
    """The address without the port."""
    return end.rpartition(":")[0]


class Capture:
    """A capture and the counts of its messages."""

    def __init__(self, name, folder, progress):
        self.name, self.lines, self.notes_file = name, "", os.path.join(folder, "notes")
        reading = self.count_messages(Reading(name), progress)
        if reading.unread is not None:
            self.lines = os.path.join(folder, "lines")
            self.read_by_tshark()
            self.count_messages(None, progress)
        self.damage, self.notes = reading.damage, reading.notes.as_data() if reading.unread is None else self.notes_of_tshark()
        self.last = self.notes["last"] and nanoseconds(Decimal(self.notes["last"]))
        self.ends, self.sent = Counter(), Counter()
        for (source, target), flow in self.flows.items():
            self.sent[source] += flow.count
            self.ends[source] += flow.count
            self.ends[target] += flow.count

    def count_messages(self, reading, progress):
        """Counts the messages of each flow, and those that were seen twice. Where a reading is given, only the messages before tshark's are counted."""
        # `recent` has the hashes of the messages seen within TWICE, and `moments` when each of them was seen, the oldest first.
        self.flows, self.count, self.twice = {}, 0, 0
        flows, recent, moments = self.flows, set(), deque()
        for _, moment, source, target, data, *_ in reading.messages(False) if reading else self.messages():
            if not looks_like_sip(data):
                continue
            flow = flows.get((source, target)) or flows.setdefault((source, target), Flow(moment))
            flow.count += 1
            flow.first = min(flow.first, moment)
            while moments and moment - moments[0][0] > TWICE:
                recent.discard(moments.popleft()[1])
            key = hash((source, target, data))
            self.twice += key in recent
            recent.add(key)
            moments.append((moment, key))
            self.count += 1
            progress(self.count)
        return reading

    def read_by_tshark(self):
        """Has the capture read by from-capture, and keeps its lines."""
        with open(self.lines, "wb") as lines:
            ran = subprocess.run([sys.executable, os.path.join(HERE, "from-capture"), self.name, "--notes", self.notes_file], stdout=lines, stderr=subprocess.PIPE)
        if ran.returncode not in (0, 1):
            die("the capture could not be read: %s" % ran.stderr.decode(errors="replace").strip(), ran.returncode)

    def notes_of_tshark(self):
        """What tshark's reader has noted of the capture."""
        with open(self.notes_file) as file:
            return json.load(file)

    def messages(self):
        """The messages that were seen (element_log.py)."""
        if not self.lines:
            yield from Reading(self.name).messages()
            return
        with open(self.lines, "rb") as file:
            yield from seen_in_lines(file)

    def is_seen_twice(self):
        """Whether so many messages were seen twice that the capture shows each packet twice."""
        return self.twice > MOST_TWICE * self.count

    def elements(self):
        """The elements, those first that sent and received most messages. An element is an address, or each port of an address that speaks to itself. Last come
        the elements that sent nothing."""
        # An address that sends to itself has several elements, which its ports tell apart.
        to_itself = {address_of(source) for source, target in self.flows if address_of(source) == address_of(target)}
        found, silent = Counter(), Counter()
        speaking = {address_of(end) for end in self.sent} | set(self.sent)
        for end, count in self.ends.items():
            name = end if address_of(end) in to_itself else address_of(end)
            (found if name in speaking else silent)[name] += count
        return found, silent

    def flows_of(self, element):
        """How many entries each flow gives in the log of an element, and the flow's first moment."""
        return [(flow.count * len(element.letters(*ends)), flow.first) for ends, flow in self.flows.items() if element.letters(*ends)]

    def calls(self, names):
        """The messages of the calls with these Call-IDs, by Call-ID."""
        found = {name: [] for name in names if name}
        if not found:
            return found
        # A field on a line of its own, with its name in full or in its compact form, and one of the Call-IDs as its value.
        pattern = re.compile(rb"\n(?:Call-ID|i)[ \t]*:[ \t]*(%s)[ \t]*\r?\n" % b"|".join(map(re.escape, found)), re.I)
        for _, moment, source, target, data, place, _ in self.messages():
            of = pattern.search(data)
            if of and of[1] in found and len(found[of[1]]) < MOST_CALLS and looks_like_sip(data):
                found[of[1]].append(Seen(moment, source, target, data, int(place)))
        return found


def write_log(capture, name, path, making, told):
    """Writes the log of an element, and its side file. `told` hears where the element took refusals by ICMP for errors. Answers the count of entries."""
    making = making._replace(side=path + ".side", end=capture.last, once=MILLISECOND if capture.is_seen_twice() else None,
                             out_of_order="a packet stands more than a second after a later one: put the capture in order first, as Wireshark's reordercap does")
    with open(path, "wb", buffering=1 << 16) as log:
        count = make(capture.messages(), Element([name]), log, making, Counter())
    refused = refused_sends(capture.notes["refusals"], path, Element([name]))
    if refused:
        with_letters(path, refused)
        told.append("%d sends were refused by ICMP, and the element sent nothing more in their transactions: they stand in its log as F, an error of its transport." %
                    len(refused))
    return count


def refused_sends(refusals, path, element):
    """The entries that ICMP says were refused, and after which their transaction sent nothing more: the element took the refusals for errors of its transport.
    An element that went on took no notice."""
    # A refusal is known by both ends and the length of what was refused.
    ends = {(source, target, length) for _, source, target, length in refusals if element.has(source)}
    if not ends:
        return set()
    # `sends` has the sent messages by ends and length, and `last` the last entry that each transaction sent.
    sends, last = {}, {}
    with open(path + ".side") as side:
        for number, letter, _, data in Log(path):
            if not data:
                continue
            _, _, _, source, target, place = side.readline().split()
            key = keys_of(letter, data)[:1]
            if letter == "S" and key:
                last[key[0]] = number
                if (source, target, len(data)) in ends:
                    sends.setdefault((source, target, len(data)), []).append((int(place), number, key[0]))
    found = set()
    # A refusal belongs to the last such message before it, and counts where its transaction sent nothing after that.
    for packet, *of in refusals:
        alike = sends.get(tuple(of), [])
        at = bisect_left(alike, (packet,)) - 1  # the last such message before the refusal
        if at >= 0 and last[alike[at][2]] == alike[at][1]:
            found.add(alike[at][1])
    return found


def with_letters(path, refused):
    """Writes a log anew in which these entries are refused sends."""
    log = Log(path)
    with open(path + ".new", "wb") as new:
        new.write(log.header)
        for number, letter, moment, data in log:
            new.write(entry("F" if number in refused else letter, moment, data))
    os.replace(path + ".new", path)
