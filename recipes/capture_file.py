"""The frames of a capture in the formats pcap and pcapng, packed by gzip or not, as they come.

A frame is (number, moment, link, data, begin, end, is_cut): its number as Wireshark counts, its moment in nanoseconds, the type of its link
(https://www.tcpdump.org/linktypes.html), the bytes among which stand, from `begin` to `end`, those that were captured of it, and whether more were sent.
No more than one piece of the file and one frame is kept. Every length is checked, and what is damaged or cut ends the frames with `Damaged`.
"""
import gzip
import io
import select
import struct
import zlib

from sip_lines import SECOND, die

# How many bytes are read at once.
PIECE = 1 << 20
MOST_FRAME = 1 << 18  # the longest frame that tcpdump and Wireshark write
# The longest block of pcapng that is read, and the most interfaces.
MOST_BLOCK = 1 << 24
MOST_INTERFACES = 1 << 16
MICROSECONDS, NANOSECONDS = 10**6, 10**9  # how many there are in a second
# How a file of pcap begins: its byte order, and how many of its units of time are in a second.
PCAP = {b"\xd4\xc3\xb2\xa1": ("<", MICROSECONDS), b"\xa1\xb2\xc3\xd4": (">", MICROSECONDS),
        b"\x4d\x3c\xb2\xa1": ("<", NANOSECONDS), b"\xa1\xb2\x3c\x4d": (">", NANOSECONDS)}
# How a file of pcapng begins.
PCAPNG = b"\x0a\x0d\x0d\x0a"
LINK = 0x3FFFFFF  # the bits above these tell of frame check sequences
# The kinds of blocks of pcapng that are read.
SECTION, INTERFACE, OLD_PACKET, SIMPLE_PACKET, PACKET = 0x0A0D0D0A, 1, 2, 3, 6
# The byte order of a section, by its mark.
BYTE_ORDER = {b"\x4d\x3c\x2b\x1a": "<", b"\x1a\x2b\x3c\x4d": ">"}
TIME_RESOLUTION, TIME_OFFSET = 9, 14  # the options of an interface that are read


class Damaged(Exception):
    """The capture is cut or damaged from here on. The text says how."""


class Unread(Exception):
    """After `read` frames something comes that is not read here. The text says what it is."""

    def __init__(self, what, read=None):
        super().__init__(what)
        self.read = read


class Window:
    """The bytes that were read of a capture and not taken yet: those of `data` from `at` on. `idle` is called each time before more must be waited for."""

    def __init__(self, name, stdin, idle):
        self.data, self.at, self.name, self.idle = b"", 0, name, idle
        try:
            self.file = stdin if name == "-" else open(name, "rb")
            self.number = self.file.fileno()
            # So begins what gzip has packed.
            if self.file.peek(2)[:2] == b"\x1f\x8b":
                self.file = io.BufferedReader(gzip.GzipFile(fileobj=self.file), PIECE)
        except OSError as error:
            die("cannot read %s: %s" % (name, error.strerror), 4)

    def piece(self):
        """Reads the next bytes of the file; there are none at its end."""
        if not select.select([self.number], [], [], 0)[0]:
            self.idle()
        try:
            return self.file.read1(PIECE)
        except (EOFError, zlib.error, gzip.BadGzipFile):
            raise Damaged("the packed file is cut or damaged")
        except OSError as error:
            die("cannot read %s: %s" % (self.name, error.strerror), 4)

    def has(self, length):
        """Whether this many bytes are there. Reads on where they are not there yet."""
        while len(self.data) - self.at < length:
            piece = self.piece()
            if not piece:
                return False
            self.data, self.at = self.data[self.at:] + piece, 0
        return True

    def rest(self):
        """All bytes that were not taken, piece by piece."""
        yield self.data[self.at:]
        self.data, self.at = b"", 0
        while piece := self.piece():
            yield piece


class Pcap:
    """A capture of the format pcap."""

    def __init__(self, window):
        self.window = window
        self.order, self.units = PCAP[window.data[:4]]
        if not window.has(24):
            raise Damaged("it ends within its header")
        self.preamble = window.data[:24]  # what must stand before a copy of the rest
        # The last four of the 24 bytes of the header tell the type of the link.
        self.link = struct.unpack(self.order + "I", window.data[20:24])[0] & LINK
        self.header = struct.Struct(self.order + "IIII")
        window.at = 24

    def frames(self):
        """The packets of a pcap file, each as the numbers that say where it lies."""
        # `window` is the part of the file that was read, and `at` the place of the next packet in its bytes.
        window, read, link, scale, number = self.window, self.header.unpack_from, self.link, SECOND // self.units, 0
        # Where the next frame is there as a whole, all whole frames of the window are handed on.
        while window.has(16 + self.length_of_next(number)):
            data, at = window.data, window.at
            length = len(data)
            while at + 16 <= length:
                # The head of a frame: its second, the fraction of it, and how many of its bytes were kept and how many were sent.
                seconds, fraction, kept, sent = read(data, at)
                begin, end = at + 16, at + 16 + kept
                # The rest of this frame has to be read first, or its length is wrong: the outer loop tells which.
                if end > length or kept > MOST_FRAME:
                    break
                number, window.at = number + 1, at
                yield number, seconds * SECOND + fraction * scale, link, data, begin, end, kept < sent
                at = end
            window.at = at
        if window.has(1):
            raise Damaged("it ends within packet %d" % (number + 1))

    def length_of_next(self, number):
        """How many bytes of the next frame were captured; 0 where its header is not there."""
        if not self.window.has(16):
            return 0
        kept = self.header.unpack_from(self.window.data, self.window.at)[2]
        if kept > MOST_FRAME:
            raise Damaged("packet %d would have %d bytes" % (number + 1, kept))
        return kept


class Interface:
    """What a block of a pcapng says of an interface."""

    def __init__(self, order, block):
        # The link stands after 8 bytes of kind and length, and the options begin at 16, each with a code, a length and a value. The block ends with its
        # length once more, in 4 bytes.
        self.link, = struct.unpack_from(order + "H", block, 8)
        self.units, self.offset, at = MICROSECONDS, 0, 16
        while at + 4 <= len(block) - 4:
            code, length = struct.unpack_from(order + "HH", block, at)
            value = block[at + 4:min(at + 4 + length, len(block) - 4)]
            if code == TIME_RESOLUTION and len(value) == 1:
                # The upper bit says whether the others are an exponent of 2 or of 10.
                self.units = 2 ** (value[0] & 0x7F) if value[0] & 0x80 else 10 ** value[0]
            elif code == TIME_OFFSET and len(value) == 8:
                self.offset, = struct.unpack(order + "q", value)
            # A value is filled up to a multiple of 4 bytes.
            at += 4 + length + -length % 4

    def moment_of(self, ticks):
        """The moment of this many ticks of the interface, in nanoseconds."""
        return ticks * SECOND // self.units + self.offset * SECOND


class Pcapng:
    """A capture of the format pcapng."""

    def __init__(self, window):
        self.window, self.order = window, "<"
        self.preamble, self.interfaces = b"", []

    def block(self, number):
        """The type and the length of the next block, all of which has been read then. At the end of the file there is no type."""
        window = self.window
        # A block has at least its kind, and its length twice.
        if not window.has(12):
            if window.has(1):
                raise Damaged("it ends after packet %d within a block" % number)
            return None, 0
        # A section tells its own order of bytes, which holds up to the next one.
        if window.data[window.at:window.at + 4] == PCAPNG:
            self.order = BYTE_ORDER.get(window.data[window.at + 8:window.at + 12])
            if not self.order:
                raise Damaged("after packet %d a section has no byte order" % number)
        kind, length = struct.unpack_from(self.order + "II", window.data, window.at)
        if not 12 <= length <= MOST_BLOCK or length % 4:
            raise Damaged("after packet %d a block would have %d bytes" % (number, length))
        if not window.has(length):
            raise Damaged("it ends after packet %d within a block" % number)
        return kind, length

    def frames(self):
        """The packets of a pcapng file, each as the numbers that say where it lies."""
        window, number = self.window, 0
        while True:
            kind, length = self.block(number)
            if kind is None:
                return
            begin = window.at
            if kind == PACKET:
                number += 1
                yield self.packet(number, length)
            elif kind in (OLD_PACKET, SIMPLE_PACKET):
                raise Unread("packets in blocks of an old kind", number)
            elif kind in (SECTION, INTERFACE):
                self.describe(kind, window.data[begin:begin + length])
            window.at += length

    def describe(self, kind, block):
        """Takes a block that tells of a section or of an interface."""
        if kind == SECTION:
            self.preamble, self.interfaces = b"", []
        elif len(block) < 20 or len(self.interfaces) == MOST_INTERFACES:
            raise Damaged("the description of an interface cannot be read")
        else:
            self.interfaces.append(Interface(self.order, block))
        # The section and its interfaces must stand before a copy of the rest.
        self.preamble += block

    def packet(self, number, length):
        """The packet of a block: its number, moment, link, where it lies, and whether it was cut."""
        data, at = self.window.data, self.window.at
        # A block of a packet has 28 bytes before the packet, and its length once more after it.
        if length < 32:
            raise Damaged("packet %d has a block of %d bytes" % (number, length))
        # Its interface, the two halves of its moment, and how many of its bytes were kept and how many were sent.
        index, high, low, kept, sent = struct.unpack_from(self.order + "IIIII", data, at + 8)
        if index >= len(self.interfaces) or kept > length - 32:
            raise Damaged("packet %d names an interface or a length that is not there" % number)
        interface = self.interfaces[index]
        return number, interface.moment_of(high << 32 | low), interface.link, data, at + 28, at + 28 + kept, kept < sent


def format_of(window):
    """The capture that is read through this window, as the class of its format."""
    if not window.has(4):
        raise Damaged("it ends within its header")
    begin = window.data[:4]
    if begin in PCAP:
        return Pcap(window)
    if begin == PCAPNG:
        return Pcapng(window)
    raise Unread("a file of another format", 0)
