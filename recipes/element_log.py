"""The log of one element, made of messages that others saw.

A message that was seen is (number, moment, source, target, bytes, place, seconds): its number among those of its source; its moment in nanoseconds, a whole
number, or a Decimal where the source is finer; its ends; its place in the source, as the number of its packet; and its moment as the source spells it, or None
for nine digits. A restart of the element has RESTART as its target and no bytes.
"""
import heapq
from collections import deque
from itertools import chain
from typing import NamedTuple, Optional

from sip_lines import (MILLISECOND, MOST_BYTES, MOST_ENTRIES, RESTART, SECOND, Times, branch_of, code_of, cseq, die, entry, is_response, looks_like_sip, mark,
                       method_of, nanoseconds, part_of, read_lines, say, seconds_of)

# What is told of messages that were moved by --skew.
MOVED = "received messages moved after a send that they crossed"
PATIENCE = SECOND  # how far a message may stand after a later one


class Making(NamedTuple):
    """How a log is made. Moments and spans are in nanoseconds, but for `tail`, in milliseconds of the log. `to-log --help` tells what each is for."""
    times: Times
    has_restarts: bool = False
    restarts: tuple = ()
    start: Optional[int] = None
    end: Optional[int] = None
    tail: Optional[int] = None
    cold: Optional[int] = None
    once: Optional[int] = None
    skew: Optional[int] = None
    side: str = ""
    part: Optional[tuple] = None  # K of N: only the messages of the branches of part K, of N parts
    out_of_order: str = ""  # what is said where a message stands after a later one by more than PATIENCE


class Message(NamedTuple):
    """A message of an element: its moment, its letter, its bytes, and whence and whither it went."""

    moment: int
    letter: str
    data: bytes
    source: str
    target: str
    place: str = ""
    seconds: object = None


def restart(moment):
    """What stands for a restart among the messages."""
    return Message(moment, "Z", b"", "", "")


def seen_in_lines(file, idle=lambda: None):
    """The messages that lines tell. `idle` is called each time before more has to be waited for."""
    for number, moment, source, target, data, place in read_lines(file, idle):
        yield number, nanoseconds(moment), source, target, data, place, moment


def messages_of(element, seen, has_restarts, told):
    """The element's own messages and restarts, in the order in which they were seen."""
    for number, moment, source, target, data, place, seconds in seen:
        # The arms are of a restart of the element, of what is none of its messages, of what is no SIP, of what no log can hold, and of its messages. One that
        # it sent to itself has two letters, and so comes twice.
        letters = element.letters(source, target)
        if target == RESTART and element.has(source):
            if not has_restarts:
                die("line %d tells a restart: ask for them with --restarts, since a log with restarts is of another format" % number)
            yield restart(moment)
        elif not letters:
            told["restarts of others" if target == RESTART else "messages of others"] += 1
        elif not looks_like_sip(data):
            told["payloads whose first line is not of SIP" if data.strip(b"\r\n\0") else "empty payloads and keep-alives"] += 1
        elif len(data) > MOST_BYTES:
            die("line %d has %d bytes, and a log at most %d" % (number, len(data), MOST_BYTES))
        else:
            for letter in letters:
                yield Message(moment, letter, data, source, target, place, seconds)


def in_order(messages, out_of_order):
    """The messages by their moments. Those with one moment stay as they came. Most stand in order and wait in a queue, and only the late ones
    in a heap. Where one stands after a later one by more than PATIENCE, the script ends with the words of `out_of_order`."""
    queue, heap, late = deque(), [], 0
    # `given` is the moment of the last message that was handed on, and up to `patient` no later one is waited for.
    newest = given = patient = float("-inf")
    for message in messages:
        moment = message.moment
        if moment >= newest:
            newest, patient = moment, moment - PATIENCE
            queue.append(message)
        # What is later than this one went out already.
        elif moment < given:
            die(out_of_order)
        else:
            late += 1
            heapq.heappush(heap, (moment, late, message))
        # The first of both, the queue and the heap, is handed on while it is old enough.
        while queue[0].moment <= patient or heap and heap[0][0] <= patient:
            first = heapq.heappop(heap)[2] if heap and heap[0][0] < queue[0].moment else queue.popleft()
            given = first.moment
            yield first
    yield from heapq.merge(queue, (message for _, _, message in sorted(heap)), key=lambda message: message.moment)
    if late:
        say("%d messages stood after a later one and were put in order" % late)


def of_part(messages, part, count):
    """The messages of the branches of one part, of `count` parts."""
    return (message for message in messages if message.letter == "Z" or part_of(branch_of(message.data), count) == part)


def once_each(messages, span, told):
    """The messages without copies: a copy has the bytes and the ends of a message that came at most `span` before."""
    # `recent` has the messages of the last `span`, the oldest first, and `seen` the moment of each by its letter, bytes and ends.
    seen, recent = {}, deque()
    for message in messages:
        while recent and message.moment - recent[0][0] > span:
            moment, old = recent.popleft()
            if seen[old] == moment:
                del seen[old]
        # The letter, the bytes and both ends.
        same = message[1:5]
        if same in seen:
            told["copies"] += 1
        else:
            seen[same] = message.moment
            recent.append((message.moment, same))
            yield message


def with_restarts(messages, moments):
    """The messages with restarts at these moments. A restart at the moment of a message comes before it."""
    return heapq.merge(map(restart, sorted(moments)), messages, key=lambda message: message.moment)


def transaction_of(message):
    """Role, branch and method of a message: enough to leave out, or to move, the messages of one transaction together."""
    responding = is_response(message.data)
    method = cseq(message.data)[1] if responding else method_of(message.data)
    role = "client" if (message.letter == "S") != responding else "server"
    return role, branch_of(message.data), b"INVITE" if method == b"ACK" else method


def crossed(received, sent):
    """Whether the element may have sent `sent` before it read `received`, and so not because of it."""
    if sent.letter != "S" or transaction_of(received) != transaction_of(sent):
        return False
    if is_response(received.data):  # and `sent` is the request that it answers, or a repeat of that
        return not is_response(sent.data) and method_of(sent.data) == cseq(received.data)[1]
    # an ACK, and a repeat of the response that it acknowledges
    return method_of(received.data) == b"ACK" and is_response(sent.data) and code_of(sent.data) >= "300"


def placed(number, message, later, skew):
    """Where a message belongs, and its moment there: a received one after the last send within `skew` and up to a restart that it crossed, with the moment
    of that send; any other one where it stands."""
    place, moment, seconds = number, message.moment, message.seconds
    if message.letter == "R":
        for other_number, other in later:
            if other.letter == "Z":
                break
            if other.moment - message.moment <= skew and crossed(message, other):
                # Its place is after that send, and before what comes next.
                place, moment, seconds = other_number + 0.5, other.moment, other.seconds
    return place, number, message._replace(moment=moment, seconds=seconds)


def behind_what_crossed(messages, skew, told):
    """The messages, in which each received one stands after the last send within `skew` that it crossed."""
    waiting, ready = deque(), []

    def settle():
        """Takes the message that has waited longest, at the moment at which the element can have sent or received it."""
        number, message = waiting.popleft()
        one = placed(number, message, waiting, skew)
        told[MOVED] += one[0] != number
        heapq.heappush(ready, one)

    for number, message in enumerate(messages):
        waiting.append((number, message))
        # What has waited for longer than `skew` can have been crossed by nothing that still comes.
        while message.moment - waiting[0][1].moment > skew:
            settle()
        # What is ready goes out once nothing that waits can come before it.
        while ready and ready[0][0] < waiting[0][0]:
            yield heapq.heappop(ready)[2]
    while waiting:
        settle()
    while ready:
        yield heapq.heappop(ready)[2]


def begun_before(message, start, cold):
    """Whether the transaction that has this first message may be older than the capture."""
    return message.moment - start < cold or is_response(message.data) or method_of(message.data) == b"ACK"


def young(messages, start, cold, told):
    """The messages without the transactions that may be older than the capture."""
    is_old = {}
    for message in messages:
        if message.letter != "Z" and is_old.setdefault(transaction_of(message), begun_before(message, start, cold)):
            told["messages of transactions that may be older than the capture"] += 1
        else:
            yield message




def side_file(name):
    """The file beside the log that has, for each entry, what the log does not keep."""
    try:
        return open(name, "w", encoding="ascii", errors="backslashreplace")
    except OSError as error:
        die("cannot write %s: %s" % (name, error.strerror), 4)


def write(out, messages, start, making):
    """Writes the log, and the side file where one is named. Answers the number of its entries."""
    side = side_file(making.side) if making.side else None
    out.write(making.times.header())
    # `count` and `moment` are those of the newest entry.
    count = moment = 0
    for message in messages:
        moment, count = int((message.moment - start) // MILLISECOND), count + 1
        out.write(entry(message.letter, moment, message.data))
        if side and message.data:
            # The side file has the seconds as the lines spell them, where they came in lines.
            seconds = seconds_of(message.moment) if message.seconds is None else message.seconds
            side.write("%d %d %s %s %s %s\n" % (count, moment, seconds, message.source, message.target, message.place or "-"))
        if count == MOST_ENTRIES + 1:
            say("this log has more than %d entries: cut it with split-by-branch, or use by-branch" % MOST_ENTRIES)
    # A mark at the end tells how long the element lived on.
    if making.tail is not None:
        moment += making.tail
    if making.end is not None:
        moment = max(moment, int((making.end - start) // MILLISECOND))
    if making.tail is not None or making.end is not None:
        out.write(mark(moment))
    out.flush()
    if side:
        side.close()
    return count


def make(seen, element, out, making, told):
    """Makes the log of an element from what was seen. Answers the number of its entries, or None where nothing was seen of the element and the log is no part.
    `told` counts what is left out or moved."""
    # Each step takes the messages of the one before: those of the part, restarts between them, each once, and from the start on.
    messages = messages_of(element, seen, making.has_restarts, told)
    messages = in_order(of_part(messages, *making.part) if making.part else messages, making.out_of_order)
    messages = with_restarts(messages, making.restarts) if making.restarts else messages
    if making.once is not None:
        messages = once_each(messages, making.once, told)
    first = next(messages, None)
    # A part in which nothing is of the element is a log without entries; a whole log of nothing is none.
    if first is None:
        return write(out, (), making.start, making) if making.part else None
    start = first.moment if making.start is None else making.start
    if first.moment < start:
        die("a message came before --start")
    messages = chain([first], messages)
    if making.skew is not None:
        messages = behind_what_crossed(messages, making.skew, told)
    if making.cold is not None:
        messages = young(messages, start, making.cold, told)
    return write(out, messages, start, making)
