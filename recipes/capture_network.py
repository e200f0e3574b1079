"""The UDP datagrams among a capture's frames: Ethernet with VLANs, Linux cooked, raw IP and loopback; IPv4 and IPv6; fragments put together.

A datagram is (number, moment, ends, payload), with the number and the moment, in nanoseconds, of the frame that made it whole. What tshark has to read (TCP with data,
tunnels, other links) ends the reading with `Unread`, or is counted and left out where there is no tshark. `notes` hears of what is missing.
"""
import socket
import struct
from typing import NamedTuple, Optional

from capture_file import Unread
from capture_notes import CUT, LACKS_FRAGMENTS, TLS, TLS_RECORDS, WRONG_LENGTH
from sip_lines import looks_like_sip

# The kinds of Ethernet frames of IP, and of those with a VLAN's tag.
IPV4, IPV6 = 0x0800, 0x86DD
VLANS = (0x8100, 0x88A8, 0x9100)
CARRIERS = {0x8864: "PPPoE", 0x8847: "MPLS", 0x8848: "MPLS"}  # kinds of Ethernet frames that have IP inside
FAMILIES = {2: IPV4, 10: IPV6, 24: IPV6, 28: IPV6, 30: IPV6}  # kinds of a loopback device, by system
# The protocols inside IP that are told apart.
ICMP, TCP, UDP, ICMPV6 = 1, 6, 17, 58
TUNNELS = {4: "tunnels", 41: "tunnels", 47: "tunnels"}  # protocols inside IP: IPv4 and IPv6, and GRE
TUNNEL_PORTS = (1701, 2152, 3544, 4789, 6081, 8472, 37008)  # ports of L2TP, GTP, Teredo, VXLAN, Geneve, VXLAN and TZSP
# The headers of IPv6 that may stand before that of a protocol.
HOP_BY_HOP, ROUTING, FRAGMENT, AUTHENTICATION, DESTINATION = 0, 43, 44, 51, 60
EXTENSIONS = (HOP_BY_HOP, ROUTING, FRAGMENT, AUTHENTICATION, DESTINATION)
# The types of ICMP that say that something was not reached.
UNREACHABLE = {ICMP: 3, ICMPV6: 1}
# The fields of headers that are read.
IPV4_HEADER = struct.Struct(">BxHHHBBxx4s4s")
IPV6_HEADER = struct.Struct(">IHBB16s16s")
UDP_HEADER = struct.Struct(">4sHxx")
# How many flows are told apart, how many datagrams wait for fragments, and how long a datagram may be.
MOST_FLOWS, MOST_WAITING, MOST_DATAGRAM = 1 << 16, 1 << 10, 65_535


class Ends:
    """The ends of datagrams: where they came from, and where they went to."""
    __slots__ = "address", "source", "target", "words", "is_tunnel", "ttl"

    def __init__(self, address, source, target, is_tunnel):
        self.address, self.source, self.target, self.is_tunnel = address, source, target, is_tunnel
        self.words = ("%s %s" % (source, target)).encode()  # the ends as they stand in a line
        self.ttl = None  # the TTL with which the last SIP message came between these ends


def ends_of(source, target, ports):
    """The two ends of a packet with its ports, and whether it is of a tunnel."""
    family = socket.AF_INET if len(source) == 4 else socket.AF_INET6
    numbers = struct.unpack(">HH", ports)
    address = socket.inet_ntop(family, source)
    names = "%s:%d" % (address, numbers[0]), "%s:%d" % (socket.inet_ntop(family, target), numbers[1])
    return Ends(address, *names, any(number in TUNNEL_PORTS for number in numbers))


class Packet(NamedTuple):
    """A packet of IP."""
    source: bytes
    target: bytes
    ttl: int
    protocol: int
    data: bytes
    fragment: Optional[tuple] = None  # identification, offset, and whether more follow; None for a whole packet


# What a frame carries, by the type of its link: the kind, as Ethernet numbers it, and the place where it begins.

def carried(frame, kind_at, at):
    """The kind of packet that a frame carries, and where it begins, after any VLAN tags."""
    kind = int.from_bytes(frame[kind_at:kind_at + 2], "big")
    while kind in VLANS:
        kind, at = int.from_bytes(frame[at + 2:at + 4], "big"), at + 4
    return kind, at


def on_ethernet(frame):
    """What an Ethernet frame carries, and where."""
    return carried(frame, 12, 14)


def on_cooked(frame):
    """What a frame of Linux' cooked captures carries, and where."""
    return carried(frame, 14, 16)


def on_cooked_2(frame):
    """What a frame of Linux' cooked captures of version 2 carries, and where."""
    return carried(frame, 0, 20)


def on_loopback(frame):
    """The kind of what a loopback frame carries. Its family stands in the byte order of the machine that captured, or in that of the network."""
    # Read in the wrong order the number is a great one.
    return FAMILIES.get(min(int.from_bytes(frame[:4], order) for order in ("little", "big")), 0), 4


def on_raw(frame):
    """What a frame without a head of its own carries: IPv4 or IPv6, by its first byte."""
    # The upper half of the first byte is the version, 4 or 6.
    return (IPV6 if frame[:1] >= b"\x60" else IPV4), 0


# What reads a frame, by the type of its link.
LINKS = {0: on_loopback, 1: on_ethernet, 12: on_raw, 14: on_raw, 101: on_raw, 108: on_loopback, 113: on_cooked, 228: on_raw, 229: on_raw, 276: on_cooked_2}


# How an ordinary frame begins, by the type of its link: the kind; of IPv4 without options the first byte, length, flags and offset, TTL and protocol, and
# the addresses with the ports; and the length of UDP. Beside it the kind of IPv4, and how far IPv4 begins within the frame.

def ordinary(before, kind):
    """How the headers of an ordinary frame are read: their layout, the bytes by which its kind is IPv4, and how long the link's own header is. In the
    layout 26 bytes of IPv4 and UDP come after that."""
    beginning = struct.Struct(">" + before + "BxHxxHBBxx12sH")
    return beginning, kind, beginning.size - 26


# How ordinary frames are read, by the number of their link. Ethernet has its kind after 12 bytes, Linux cooked after 14, and the second format of that
# first, with 18 bytes after it; a loopback device has 4 bytes for it, and raw IP nothing.
ORDINARY = {1: ordinary("12x2s", b"\x08\0"), 113: ordinary("14x2s", b"\x08\0"), 276: ordinary("2s18x", b"\x08\0"), 0: ordinary("4s", b"\2\0\0\0"),
            12: ordinary("0s", b""), 101: ordinary("0s", b""), 228: ordinary("0s", b"")}
NONE = ordinary("0s", None)  # links of any other type have no ordinary frame


# What follows is of packets of IP.

def ipv4(data, at):
    """The packet of IPv4 that begins at this place, or None where there is none."""
    if len(data) < at + IPV4_HEADER.size:
        return None
    first, total, identification, flags, ttl, protocol, source, target = IPV4_HEADER.unpack_from(data, at)
    # The lower half of the first byte is the length of the header in units of 4 bytes, and the upper one the version.
    length = 4 * (first & 15)
    if first >> 4 != 4 or length < IPV4_HEADER.size:
        return None
    end = at + total if total else len(data)  # the total is 0 where the network card is to cut the packet
    # The lower 13 bits are the place of the fragment in units of 8 bytes, and one bit says whether more come.
    offset, more = 8 * (flags & 0x1FFF), bool(flags & 0x2000)
    return Packet(source, target, ttl, protocol, data[at + length:end], (identification, offset, more) if offset or more else None)


def ipv6(data, at):
    """The packet of IPv6 that begins at this place, or None where there is none."""
    if len(data) < at + IPV6_HEADER.size:
        return None
    first, length, protocol, ttl, source, target = IPV6_HEADER.unpack_from(data, at)
    if first >> 28 != 6:
        return None
    begin = at + IPV6_HEADER.size
    end = begin + length if length else len(data)  # the length is 0 where the network card is to cut the packet
    return behind_extensions(Packet(source, target, ttl, protocol, data[begin:end]))


def behind_extensions(packet):
    """The packet of IPv6 after its extension headers, up to a header that tells of a fragment."""
    protocol, data, at, fragment = packet.protocol, packet.data, 0, None
    while protocol in EXTENSIONS and not fragment:
        if len(data) < at + 8:
            return None
        # The second byte says how long a header is: an authentication header in units of 4 bytes, less 2; any other one in units of 8, less 1.
        length = 4 * (data[at + 1] + 2) if protocol == AUTHENTICATION else 8 if protocol == FRAGMENT else 8 * (data[at + 1] + 1)
        if protocol == FRAGMENT:
            # The upper 13 bits of `place` are the offset in units of 8 bytes, so that with the others cleared they are bytes; the last bit says whether
            # more follow. A fragment that has neither is the whole packet.
            place, identification = struct.unpack_from(">HI", data, at + 2)
            fragment = (identification, place & 0xFFF8, bool(place & 1)) if place & 0xFFF9 else None
        protocol, at = data[at], at + length
    return packet._replace(protocol=protocol, data=data[at:], fragment=fragment)


def packet_in(kind, data, at):
    """The packet of this kind that the bytes have from here on, if it is one of IP."""
    return ipv4(data, at) if kind == IPV4 else ipv6(data, at) if kind == IPV6 else None


class Pieces:
    """The fragments of one datagram that came so far."""

    def __init__(self):
        self.at, self.length, self.total, self.is_begun = {}, 0, None, False

    def add(self, offset, more, data):
        """Takes a fragment. Answers the datagram where it is whole then, and else None."""
        # `at` has the fragments by their places, and `length` how many bytes these have; `total` is how many the datagram has, once its last one came.
        self.is_begun |= not offset
        if offset not in self.at:
            self.at[offset] = data
            self.length += len(data)
        if not more:
            self.total = offset + len(data)
        if self.total is None or self.length < self.total:
            return None
        pieces = sorted(self.at.items())
        whole = b"".join(data for _, data in pieces)
        # Each fragment stands at its own place in the whole.
        if all(whole.startswith(data, offset) for offset, data in pieces) and len(whole) == self.total:
            return whole
        self.at, self.length, self.total = {}, 0, None  # fragments overlap: no piece is joined twice
        return None


class Fragments:
    """The datagrams that came in fragments and are not whole yet."""

    def __init__(self, notes):
        self.notes, self.waiting = notes, {}

    def take(self, packet):
        """Takes a packet that is a fragment. Answers the whole packet with its last one."""
        identification, offset, more = packet.fragment
        key = packet.source, packet.target, packet.protocol, identification
        # The datagram that waits longest is given up.
        if key not in self.waiting and len(self.waiting) == MOST_WAITING:
            self.forget(next(iter(self.waiting)))
        # No datagram is as long as that.
        if offset + len(packet.data) > MOST_DATAGRAM:
            return None
        whole = self.waiting.setdefault(key, Pieces()).add(offset, more, packet.data)
        if whole is None:
            return None
        del self.waiting[key]
        packet = packet._replace(data=whole, fragment=None)
        return packet if len(packet.source) == 4 else behind_extensions(packet)

    def forget(self, key):
        """Gives up a datagram that is not whole. It is told as missing where its first fragment came."""
        self.notes.missing[LACKS_FRAGMENTS] += self.waiting.pop(key).is_begun

    def end(self):
        """Gives up all datagrams that are not whole."""
        for key in list(self.waiting):
            self.forget(key)


class Datagrams:
    """The UDP datagrams of frames. With `has_tshark`, the first packet that tshark has to read ends them."""

    def __init__(self, notes, has_tshark):
        self.notes, self.has_tshark = notes, has_tshark
        self.fragments, self.flows, self.secret = Fragments(notes), {}, set()

    def among(self, frames):
        """The datagrams of these frames. An ordinary frame is read at once, and any other one step by step."""
        # `beginning` unpacks the headers of an ordinary frame of this link at once; `offset` says how long the link's own header is.
        flows, number, moment, last_link, beginning, ordinary_kind, offset = self.flows, 0, None, None, None, b"", 0
        try:
            for number, moment, link, data, begin, end, is_cut in frames:
                if link != last_link:
                    last_link, (beginning, ordinary_kind, offset) = link, ORDINARY.get(link, NONE)
                # An ordinary frame is of IPv4 without options (0x45), of UDP, no fragment (0x3FFF) and whole.
                if end - begin >= beginning.size:
                    kind, first, total, fragment, ttl, protocol, key, length = beginning.unpack_from(data, begin)
                    at = begin + offset
                    if (kind == ordinary_kind and first == 0x45 and protocol == UDP and not fragment & 0x3FFF and 8 < length <= total - 20 and at + total <= end
                            and not is_cut):
                        # The payload stands after 20 bytes of IPv4 and 8 of UDP. `key` are the bytes of a frame that have the addresses and the ports, by
                        # which `flows` has the ends.
                        ends, payload = flows.get(key) or self.flow(key, key[:4], key[4:8], key[8:]), data[at + 28:at + 20 + length]
                        if ttl != ends.ttl:
                            # A message that came with another TTL may be one that was seen twice.
                            self.hear_ttl(ends, ttl, payload)
                        if not ends.is_tunnel or self.is_no_tunnel(payload):
                            yield number, moment, ends, payload
                        continue
                # Any other frame is read header by header.
                one = self.datagram(number, link, data[begin:end], is_cut)
                if one:
                    yield number, moment, *one
        except Unread as unread:
            # The frame in hand was not read.
            unread.read = number - 1 if unread.read is None else unread.read
            raise
        finally:
            self.notes.last = moment
        self.fragments.end()

    def hear_ttl(self, ends, ttl, payload):
        """Hears that a message between these ends came with another TTL than the message before."""
        if self.notes.sender(ends.address, ttl, payload):
            ends.ttl = ttl

    def other_link(self, link):
        """Notes that packets of this link can be read by tshark alone."""
        self.needs_tshark("links of type %d" % link)
        return 0, 0

    def flow(self, key, source, target, ports):
        """The ends of a flow, which are kept for its next datagram."""
        if len(self.flows) >= MOST_FLOWS:
            self.flows.clear()
        ends = self.flows[key] = ends_of(source, target, ports)
        return ends

    def needs_tshark(self, what):
        """Hears of something that tshark has to read."""
        if self.has_tshark:
            raise Unread(what)
        self.notes.missing["packets of %s are left out: they are read by tshark (Debian's package of that name), which is not there" % what] += 1

    def is_no_tunnel(self, payload):
        """Whether a payload on a port of tunnels is SIP, and no tunnel."""
        is_sip = looks_like_sip(payload)
        if not is_sip:
            self.needs_tshark("tunnels")
        return is_sip

    def datagram(self, number, link, frame, is_cut):
        """The ends and the payload of a frame of any kind; None where it is no datagram, or one that is not whole yet."""
        kind, at = LINKS[link](frame) if link in LINKS else self.other_link(link)
        packet = packet_in(kind, frame, at)
        # A fragment stands for the whole packet where it is the last one that was missing.
        if packet and packet.fragment:
            packet = self.fragments.take(packet)
        if packet and packet.protocol == UDP:
            return self.udp(packet, is_cut)
        if packet and packet.protocol == TCP:
            self.tcp(packet)
        # A packet of ICMP whose first byte says that something was not reached.
        elif packet and packet.protocol in UNREACHABLE and packet.data[:1] == bytes([UNREACHABLE[packet.protocol]]):
            self.notes.refused += 1
            self.refusal(number, packet)
        elif kind in CARRIERS or packet and packet.protocol in TUNNELS:
            self.needs_tshark(CARRIERS.get(kind, "tunnels"))
        return None

    def udp(self, packet, is_cut):
        """What a UDP packet carries, with its ends, or None where it is cut or no SIP."""
        if len(packet.data) < UDP_HEADER.size:
            return None
        ports, length = UDP_HEADER.unpack_from(packet.data)
        # The length of UDP counts its header of 8 bytes; 0 stands where the network card is to cut the packet.
        payload = packet.data[8:length] if length else packet.data[8:]
        # Only what would have been SIP is told as missing.
        if is_cut or length > len(packet.data):
            self.notes.missing[CUT if is_cut else WRONG_LENGTH] += looks_like_sip(payload)
            return None
        ends = self.flow(packet.source + packet.target + ports, packet.source, packet.target, ports)
        if not payload or ends.is_tunnel and not self.is_no_tunnel(payload):
            return None
        self.hear_ttl(ends, packet.ttl, payload)
        return ends, payload

    def tcp(self, packet):
        """Looks at a segment of TCP. Where it has data tshark has to read it, unless it is of TLS, whose messages nobody can read without the keys."""
        # The first four bytes of the header are the ports, and the upper half of byte 12 its length in units of 4 bytes.
        header = packet.data[:20]
        data = packet.data[4 * (header[12] >> 4):] if len(header) == 20 else b""
        if not data:
            return
        # Both directions of a connection are one stream, each end being an address with its port.
        stream = frozenset(((packet.source, header[:2]), (packet.target, header[2:4])))
        if stream not in self.secret and data[:2] in TLS_RECORDS and len(self.secret) < MOST_FLOWS:
            self.secret.add(stream)
            self.notes.missing[TLS] += 1
        if stream not in self.secret:
            self.needs_tshark("TCP")

    def refusal(self, number, packet):
        """Finds which datagram a packet of ICMP says was refused."""
        # The refused packet stands after the 8 bytes of the ICMP header, as much of it as the refusal has.
        refused = packet_in(IPV4 if packet.protocol == ICMP else IPV6, packet.data, 8)
        if refused and refused.protocol == UDP and len(refused.data) >= UDP_HEADER.size:
            ports, length = UDP_HEADER.unpack_from(refused.data)
            ends = ends_of(refused.source, refused.target, ports)
            self.notes.refusal(number, ends.source, ends.target, length - UDP_HEADER.size)
