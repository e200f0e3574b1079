"""What the recipes share: the lines that from-* print, the parts of a SIP message, the log of one element, and the program.

A line is a message that someone saw, `MOMENT FROM TO HEX` with single blanks: the moment in seconds with any fraction, ADDRESS:PORT
twice (an IPv6 address stands without brackets: the last colon counts), and the bytes. A fifth word may tell the place in the source, for
instance the number of the packet. `MOMENT ADDRESS:PORT restart` tells that the element with this address was started anew.
"""
import gzip
import hashlib
import os
import re
import select
import shutil
import subprocess
import sys
from binascii import hexlify, unhexlify
from decimal import Decimal, InvalidOperation
from typing import NamedTuple

from help_page import shown

# The limits of a log: its entries, the bytes of a message, and a tolerance in milliseconds.
MOST_ENTRIES = 1_000_000
MOST_BYTES = 65_535
MOST_TOLERANCE = 10_000
# How a branch begins that is unique (RFC 3261 section 8.1.1.7), in lower case.
COOKIE = b"z9hg4bk"
# The letters of entries.
LETTERS = ("S", "R", "F", "M", "Z")
SILENT = ("M", "Z")  # the letters of entries without a message
# What stands in place of the target in a line that tells a restart.
RESTART = "restart"
MOST_KNOWN = 1 << 16  # how many pairs of ends are kept
PIECE = 1 << 16  # how many bytes are read or written at once
SECOND, MILLISECOND = 10**9, 10**6  # how many nanoseconds they have

ORDINARY_START = re.compile(rb"(?:SIP/2\.0 [1-6]|[A-Z]+ [^\s]+ SIP/2\.0\r)[^\n]*\n")  # the first line of most messages; START_LINE takes all
# The start line of a message, a later one within a payload, a Content-Length, a quoted string, and a fold.
START_LINE = re.compile(rb"\A(?:SIP/\d[^\r\n]*|[^\s]+ [^\r\n]*SIP/\d+\.\d+[ \t]*)[\r\n]", re.I)
LATER_START = re.compile(rb"\r\n(?=SIP/2\.0 \d{3} |[^\s]+ [^\s]+ SIP/2\.0\r\n)", re.I)
LENGTH = re.compile(rb"\r\n(?:content-length|l)[ \t]*:[ \t]*(\d+)", re.I)
QUOTED = re.compile(rb'"(?:[^"\\]|\\.)*"', re.S)
FOLD = re.compile(rb"\r?\n[ \t]+")
# A head whose first Via is plain up to its branch: no fold, no quote, and no blank but the one before the host.
PLAIN_BRANCH = re.compile(rb'[^\n]*\n(?:(?!v(?:ia)?[ \t]*[:\r]|[ \t\r])[^\r\n]*\r\n)*v(?:ia)?: [^\s;,"]+ [^\s;,"]+(?:;(?!branch)[^\s;,"]*)*;branch=([^\s;,"]+)'
                          rb'(?:[;,]|\r\n(?![ \t]))', re.I)


def die(text, status=1):
    """Ends the script, and tells what is wrong after the script's name."""
    print("%s: %s" % (os.path.basename(sys.argv[0]), text), file=sys.stderr)
    sys.exit(status)


def say(text):
    """Tells the user something beside the output."""
    print("%s: %s" % (os.path.basename(sys.argv[0]), text), file=sys.stderr)


def words_of(usage, page, are_right):
    """The words after the script's name, where they are right. Else the script ends with its usage and its page: these are its answer where the words ask for
    help, and an error where they are wrong."""
    words = sys.argv[1:]
    text = "usage: %s %s\n\n%s" % (os.path.basename(sys.argv[0]), usage, shown(page))
    if words[:1] in (["-h"], ["--help"]):
        print(text, flush=True)
        sys.exit()
    if not are_right(words):
        sys.exit(text)
    return words


def opened(name):
    """The file of this name, to be read as bytes: `-` is the standard input, and a file that is gzipped is unpacked."""
    try:
        if name == "-":
            return sys.stdin.buffer
        file = open(name, "rb")
        # So begins what gzip has packed.
        packed = file.peek(2)[:2] == b"\x1f\x8b"
        return gzip.open(file) if packed else file
    except OSError as error:
        die("cannot read %s: %s" % (name, error.strerror), 4)


def output():
    """The standard output for bytes. Who writes there flushes where no more input waits, and at the end."""
    return open(sys.stdout.fileno(), "wb", buffering=PIECE, closefd=False)


def waits(number):
    """Whether reading from the file with this descriptor would wait."""
    return not select.select([number], [], [], 0)[0]


def lines_as_they_come(file, idle):
    """The lines of a file as bytes. `idle` is called each time before more has to be waited for."""
    # `begun` has the pieces of a line whose end has not come yet. A line goes from `begin` up to `end` in the newest piece.
    number, begun = file.fileno(), []
    while True:
        if waits(number):
            idle()
        piece = os.read(number, PIECE)
        if not piece:
            break
        begin, end = 0, piece.find(b"\n")
        while end >= 0:
            line = piece[begin:end]
            yield b"".join([*begun, line]) if begun else line
            begun, begin = [], end + 1
            end = piece.find(b"\n", begin)
        if begin < len(piece):
            begun.append(piece[begin:])
    if begun:
        yield b"".join(begun)


def nanoseconds(seconds):
    """A moment or a span of seconds in nanoseconds: a whole number, or a Decimal where it is finer."""
    scaled = seconds * SECOND
    whole = int(scaled)
    return whole if whole == scaled else scaled


def seconds_of(moment):
    """A moment in nanoseconds as seconds with nine digits after the point."""
    return "%d.%09d" % divmod(moment, SECOND)


def write_line(out, moment, source, target, data, place):
    """Writes a line of a message: its moment, where it came from and went, its bytes, and its place in the capture."""
    out.write(b"%s %s %s %s %d\n" % (moment.encode(), source.encode(), target.encode(), hexlify(data), place))


def print_line(moment, source, target, data, *place):
    """Prints a line of a message, with its place in the capture if it is known."""
    print(moment, source, target, data.hex(), *place, flush=True)


def read_lines(file, idle=lambda: None):
    """The number, moment, ends, bytes and place of each line. A line that tells a restart has the element and RESTART as its ends, and no bytes. A line without
    a place has an empty one. `idle` is called each time before more has to be waited for."""
    for number, line in enumerate(lines_as_they_come(file, idle), 1):
        try:
            moment, source, target, *rest = line.split(None, 3)
            moment, source, target = Decimal(moment.decode()), source.decode(), target.decode()
            data, place = message_and_place(rest[0]) if rest else (b"", "")
            # A line of a restart has three words.
            if rest and target == RESTART or not moment.is_finite():
                raise ValueError
        except (ValueError, InvalidOperation):
            die("line %d is not MOMENT FROM TO HEX%s" % (number, ": why-no-log tells what a file is" if number == 1 else ""))
        yield number, moment, source, target, data, place


def message_and_place(words):
    """The bytes and the place that a line has after its ends."""
    hexadecimal, _, after = words.partition(b" ")
    place = after.strip().decode()
    # A place is one word.
    if " " in place:
        raise ValueError
    return unhexlify(hexadecimal.strip()), place


class Element:
    """One element by its addresses: ADDRESS:PORT, or an ADDRESS for all its ports."""

    def __init__(self, names):
        # An address of IPv6 may be named with brackets, and lines have none.
        self.names = {name.replace("[", "").replace("]", "") for name in names}
        self.known = {}

    def has(self, end):
        """Whether the end is one of the element, by its port or by its address alone."""
        return end in self.names or end.rpartition(":")[0] in self.names

    def letters(self, source, target):
        """S for a message that the element sent, R for one that it received, and both for one that it sent to itself."""
        letters = self.known.get((source, target))
        if letters is None:
            if len(self.known) == MOST_KNOWN:
                self.known.clear()
            # The letters of a pair of ends are worked out once, and looked up from then on.
            letters = self.known[source, target] = "S" * self.has(source) + "R" * self.has(target)
        return letters


def looks_like_sip(data):
    """Whether the first line is that of a SIP message of any version, well formed or not."""
    return bool(ORDINARY_START.match(data) or START_LINE.match(data))


def is_response(data):
    """Whether the message is a response."""
    return data[:4].upper() == b"SIP/"


def first_line(data):
    """The first line of the message as text."""
    return data.split(b"\n", 1)[0].rstrip(b"\r").decode("latin-1")


def method_of(request):
    """The method of the request."""
    return request.split(b" ", 1)[0]


def code_of(response):
    """The code of a response as a text, empty where its first line has none."""
    return "".join(first_line(response).split()[1:2])


def fields(data, *names):
    """The values of the fields with one of these names, which are in lower case, without the values' folds."""
    # The head up to the first empty line, whose lines may also end in LF alone, with a blank for each fold.
    head = FOLD.sub(b" ", re.split(rb"\r?\n\r?\n", data, maxsplit=1)[0])
    parted = (line.partition(b":") for line in head.split(b"\n")[1:])
    return [value.strip() for name, _, value in parted if name.strip().lower() in names]


def field(data, *names):
    """The value of the first field of these names, or nothing."""
    return next(iter(fields(data, *names)), b"")


def call_id(data):
    """The Call-ID of the message."""
    return field(data, b"call-id", b"i")


def cseq(data):
    """The number and the method of the CSeq, as texts."""
    words = field(data, b"cseq").split()
    return (words[0], words[1]) if len(words) == 2 else (b"", b"")


def top_via(data):
    """The first element of the first Via, without the texts in quotes."""
    # Commas within quotes part nothing.
    return QUOTED.sub(b'""', field(data, b"via", b"v")).split(b",")[0]


def spelled_branch(data):
    """The branch of the top Via, empty where there is none."""
    plain = PLAIN_BRANCH.match(data)
    if plain:
        return plain[1]
    for parameter in top_via(data).split(b";")[1:]:
        name, _, value = parameter.partition(b"=")
        if name.strip().lower() == b"branch":
            return value.strip()
    return b""


def branch_of(data):
    """The branch of the top Via in lower case, the form in which branches are compared."""
    return spelled_branch(data).lower()


def part_of(branch, count):
    """The part to which the messages with a branch go, of `count` parts. It is the same on each machine."""
    return int.from_bytes(hashlib.blake2b(branch, digest_size=8).digest(), "big") % count


def sent_by_of(data):
    """Host and port of the top Via, by which a server tells its clients apart."""
    # `SIP/2.0/UDP host:port` without `SIP/2.0/` is the transport, and after a blank host and port. An address of IPv6 stands in brackets.
    words = top_via(data).split(b";")[0].split(b"/", 2)[-1].split(None, 1)
    found = re.fullmatch(rb"(\[[^]]*\]|[^:]*?)\s*(?::\s*(\d{1,5}))?\s*", words[1] if len(words) == 2 else b"")
    host, port = found.groups() if found else (words[-1] if words else b"", None)  # of a malformed Via all that stands in its place
    return host.lower() + b":%d" % int(port or 5060)


def keys_of(letter, data):
    """The transactions that a message concerns: role, branch, sent-by and method. None where the branch lacks the cookie."""
    branch = branch_of(data)
    if not branch.startswith(COOKIE):
        return []
    responding = is_response(data)
    method = cseq(data)[1] if responding else method_of(data)
    method = b"INVITE" if method == b"ACK" and not responding else method
    # Who sends a response, or receives a request, is the server.
    if (letter in "SF") == responding:
        return [("server", branch, sent_by_of(data), method)]
    key = ("client", branch, b"", method)
    # A CANCEL that a client sends concerns the transaction of its INVITE too.
    is_cancel = letter in "SF" and method == b"CANCEL"
    return [key, key[:3] + (b"INVITE",)] if is_cancel else [key]


class Cutter:
    """The bytes of a stream in their order, and the messages into which they are cut at Content-Length."""

    def __init__(self):
        self.bytes = b""
        self.skipped = 0

    def messages(self):
        """The messages that are whole now. What stands between them is skipped: keep-alives, and the rest of a message that began before."""
        while True:
            self.bytes = self.bytes.lstrip(b"\r\n\0")
            if b"\r\n" in self.bytes and not looks_like_sip(self.bytes):
                if not self.find_later_start():
                    return
            end = self.bytes.find(b"\r\n\r\n")
            if end < 0:
                return
            # A message without a Content-Length has no body here.
            length = LENGTH.search(self.bytes, 0, end + 2)
            total = end + 4 + (int(length[1]) if length else 0)
            if len(self.bytes) < total:
                return
            yield self.bytes[:total]
            self.bytes = self.bytes[total:]

    def find_later_start(self):
        """Drops the bytes before the next line that can begin a message; where there is no such line yet, all bytes but the last ones that may become one."""
        start = LATER_START.search(self.bytes)
        kept = self.bytes[start.end():] if start else self.bytes[-MOST_BYTES:]
        self.skipped += len(self.bytes) - len(kept)
        self.bytes = kept
        return start


class Times(NamedTuple):
    """What the header of a log says."""
    t1: int
    t2: int
    t4: int
    early: int
    late: int
    rules: int = 0  # 3261 or 6026; 0 where there is no line of rules
    format: int = 1

    def header(self):
        """The header as bytes. With two tolerances it is of format 2; a log of format 1 has the same verdict with it."""
        if self.format == 2 or self.early != self.late:
            lines = "sip-trace 2\nt1 %d t2 %d t4 %d early %d late %d\n" % self[:5]
        else:
            lines = "sip-trace 1\nt1 %d t2 %d t4 %d tolerance %d\n" % self[:4]
        return (lines + ("rules %d\n" % self.rules if self.rules else "")).encode()

    def tolerance(self):
        """The tolerance in words."""
        return "tolerance %d" % self.late if self.early == self.late else "early %d, late %d" % (self.early, self.late)


# The first two lines of a log, and the line of rules.
HEADER = re.compile(rb"sip-trace (?:1\nt1 (\d+) t2 (\d+) t4 (\d+) tolerance (\d+)|2\nt1 (\d+) t2 (\d+) t4 (\d+) early (\d+) late (\d+))\n")
RULES = re.compile(rb"rules (3261|6026)\n")


class Log:
    """A log that is read entry by entry. Its name is one that `opened` takes."""

    def __init__(self, name):
        self.file = opened(name)
        # The first two lines.
        found = HEADER.fullmatch(self.file.readline() + self.file.readline())
        if not found:
            die("this is no log: see recipes/why-no-log", 2)
        # Format 1 has four numbers, and format 2 has five.
        numbers = [int(number) for number in found.groups() if number]
        self.line = self.file.readline()  # the line that is read next
        rules = RULES.fullmatch(self.line)
        if rules:
            self.line = self.file.readline()
        # a log of format 1 has one tolerance, for early and for late
        self.times = Times(*numbers[:4], numbers[-1], int(rules[1]) if rules else 0, len(numbers) - 3)
        self.header = self.times.header()
        self.last = 0

    def __iter__(self):
        """Number, letter, moment and bytes of each entry; a mark and a restart have no bytes. At the end `last` is the last moment."""
        number = 0
        while self.line:
            number, words = number + 1, self.line.split()
            letter = words[0].decode("latin-1") if words else ""
            # An entry with a message has a third word, its length. The message and a line feed follow the line.
            has_message = letter not in SILENT
            if letter not in LETTERS or len(words) != 2 + has_message or letter == "Z" and self.times.format == 1:
                die("entry %d cannot be read: see `siptrace check`" % number, 2)
            data = b""
            if has_message:
                data = self.file.read(int(words[2]) + 1)
                if len(data) != int(words[2]) + 1 or data[-1:] != b"\n":
                    die("entry %d is cut or has another length: see `siptrace check`" % number, 2)
            self.last = int(words[1])
            yield number, letter, self.last, data[:-1]
            self.line = self.file.readline()


def entry(letter, moment, data):
    """The text of an entry of a log."""
    if letter in SILENT:
        return b"%s %d\n" % (letter.encode(), moment)
    return b"".join((b"%s %d %d\n" % (letter.encode(), moment, len(data)), data, b"\n"))


def mark(moment):
    """A mark at this moment, as an entry."""
    return entry("M", moment, b"")


def program(name="siptrace"):
    """The path of a program: the one that SIPTRACE names (or SIPSURVEY), else the one on the path, else that of the checkout around the recipes."""
    beside = os.path.join(os.path.dirname(os.path.realpath(__file__)), os.pardir, name)
    found = os.environ.get(name.upper()) or shutil.which(name) or (os.path.isfile(beside) and os.access(beside, os.X_OK) and os.path.abspath(beside))
    if not found:
        die("there is no %s: put it on the path, or name it in %s" % (name, name.upper()), 70)
    return found


def surveyor():
    """The program `sipsurvey`, which tells all that is in trouble in a log."""
    return program("sipsurvey")


def ask(*words, log=b""):
    """What the program says, with these words and this standard input, and its status."""
    try:
        ran = subprocess.run([program(), *words], input=log, capture_output=True)
    except OSError as error:
        die("cannot run %s: %s" % (program(), error.strerror), 70)
    if ran.returncode not in (0, 1, 2, 3):
        die(ran.stderr.decode("latin-1").strip(), ran.returncode)
    return ran.stdout.decode("latin-1").rstrip("\n"), ran.returncode


def add_times(parser):
    """Adds the options that tell the header of a log."""
    for name, value, what in (("t1", 500, "T1"), ("t2", 4000, "T2"), ("t4", 5000, "T4"), ("tolerance", 50, "how much sooner or later timers may fire")):
        parser.add_argument("--" + name, type=int, default=value, metavar="MS", help="%s in milliseconds (%d)" % (what, value))
    parser.add_argument("--early", type=int, metavar="MS", help="how much sooner alone, in place of the tolerance: 0 for a clock that is late and never early")
    parser.add_argument("--late", type=int, metavar="MS", help="how much later alone")
    parser.add_argument("--rules", type=int, choices=(3261, 6026), default=0, help="3261 for an element that was built by RFC 3261 without RFC 6026")
    parser.add_argument("--restarts", action="store_true", help="lines MOMENT ADDRESS:PORT restart tell when the element was started anew. A log with restarts is "
                        "of format 2, and so is one with --early or --late")


def times_of(words):
    """The times that the options for the header tell."""
    early = words.tolerance if words.early is None else words.early
    late = words.tolerance if words.late is None else words.late
    is_2 = words.restarts or words.early is not None or words.late is not None
    return Times(words.t1, words.t2, words.t4, early, late, words.rules, 2 if is_2 else 1)


def ends_quietly_without_reader(run):
    """Runs `run`, and ends in silence where the program that reads the output went away, as siptrace does once it has its verdict."""
    try:
        run()
        sys.stdout.flush()
    except BrokenPipeError:
        os.dup2(os.open(os.devnull, os.O_WRONLY), sys.stdout.fileno())
    except KeyboardInterrupt:
        sys.exit(130)
