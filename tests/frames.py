"""Frames and captures made by hand for the tests, by the standards and by nothing of the recipes."""
import struct

# A message, a long one, and the addresses of two elements.
TEXT = b"OPTIONS sip:b@example.com SIP/2.0\r\nVia: SIP/2.0/UDP a;branch=z9hG4bK1\r\n\r\n"
LONG = TEXT[:-2] + b"Subject: " + b"x" * 3000 + b"\r\n\r\n"
# 10.0.0.1 and 10.0.0.2 of IPv4, ::1 and 2001:db8::2 of IPv6: who sends, and to whom.
FOUR, SIX = (b"\x0a\x00\x00\x01", b"\x0a\x00\x00\x02"), (bytes(15) + b"\x01", b"\x20\x01\x0d\xb8" + bytes(11) + b"\x02")


def udp(data, source=5060, target=5062):
    """A UDP datagram with this data."""
    # The two ports, the length of the whole datagram, and no checksum, which a reader does not look at.
    return struct.pack(">HHHH", source, target, 8 + len(data), 0) + data


def ipv4(data, protocol=17, flags=0, identification=7, ends=FOUR, options=b"", ttl=64):
    """An IPv4 packet with this data."""
    # The version 4 with the length of the header in units of 4 bytes, no kind of service, the length of the whole packet, the number of its datagram, the
    # flags with the place of the fragment in units of 8 bytes (0x2000 says that more come), how many hops it may still go, the protocol (17 is UDP),
    # and no checksum; then the two addresses.
    return struct.pack(">BBHHHBBH", 0x45 + len(options) // 4, 0, 20 + len(options) + len(data), identification, flags, ttl, protocol, 0) + b"".join(ends) + options + data


def ipv6(data, following=17, ends=SIX):
    """An IPv6 packet with this data."""
    # The version 6, the length of what comes after the header, what that is (17 is UDP), and how many hops it may still go; then the two addresses.
    return struct.pack(">IHBB", 6 << 28, len(data), following, 64) + b"".join(ends) + data


def ethernet(data, kind=0x0800, tags=()):
    """An Ethernet frame with this data, with tags of VLANs if there are any."""
    # Two addresses of zeros, each tag with the number 5 of its VLAN, and the kind of what is carried: 0x0800 is IPv4, 0x86DD is IPv6.
    return bytes(12) + b"".join(struct.pack(">HH", tag, 5) for tag in tags) + struct.pack(">H", kind) + data


def pcap(frames, link=1, order="<", magic=0xA1B2C3D4, fraction=250000):
    """A capture whose frame N comes at second N."""
    # The magic number, format 2.4, no zone and no accuracy of the times, the most bytes of a packet that are kept, and the kind of link (1 is Ethernet).
    text = struct.pack(order + "IHHiIII", magic, 2, 4, 0, 0, 262144, link)
    # Each packet has before it its second and the fraction of it, of the bytes how many are kept and how many there were.
    return text + b"".join(struct.pack(order + "IIII", n, fraction, len(frame), len(frame)) + frame for n, frame in enumerate(frames, 1))


def block(order, kind, data):
    """A block of a pcapng file."""
    # A block is filled up to a multiple of 4 bytes. Its length stands before what it holds and after it, and counts its kind and both lengths too.
    data += bytes(-len(data) % 4)
    return struct.pack(order + "II", kind, 12 + len(data)) + data + struct.pack(order + "I", 12 + len(data))


def pcapng(frames, order="<", options=b"", ticks=1_000_000, link=1):
    """A pcapng file with these frames, one each second."""
    # The head of a section: the magic number by which the order of bytes is told, format 1.0, and no length of the section.
    text = block(order, 0x0A0D0D0A, struct.pack(order + "IHHq", 0x1A2B3C4D, 1, 0, -1))
    # An interface: the kind of its link, and the most bytes of a packet that are kept; then its options.
    text += block(order, 1, struct.pack(order + "HHI", link, 0, 262144) + options)
    for n, frame in enumerate(frames, 1):
        # Frame N comes a quarter of a second after second N; `ticks` are in a second.
        moment = n * ticks + ticks // 4
        # A block of another kind, which a reader has to pass over, and then the packet (kind 6): its interface, its moment in two halves, and its two lengths.
        text += block(order, 5, b"statistics")
        text += block(order, 6, struct.pack(order + "IIIII", 0, moment >> 32, moment & 0xFFFFFFFF, len(frame), len(frame)) + frame)
    return text


def option(order, code, value):
    """An option of a block."""
    # A value is filled up to a multiple of 4 bytes, which its length does not count.
    return struct.pack(order + "HH", code, len(value)) + value + bytes(-len(value) % 4)


def fragments4(data, size=1400, **words):
    """The IPv4 fragments of a datagram, each in its frame."""
    whole = udp(data)
    # Each but the last says that more come (0x2000). `size` has to be a multiple of 8.
    return [ethernet(ipv4(whole[at:at + size], flags=(0x2000 if at + size < len(whole) else 0) | at // 8, **words)) for at in range(0, len(whole), size)]


def fragments6(data, size=1400):
    """The IPv6 fragments of a datagram, each in its frame."""
    whole = udp(data)
    # Before each piece stands a header of fragments (its kind is 44): UDP comes after it, then a zero, the place with a 1 in its last bit where more come,
    # and the number 9 of the datagram.
    return [ethernet(ipv6(struct.pack(">BBHI", 17, 0, at | (at + size < len(whole)), 9) + whole[at:at + size], 44), 0x86DD) for at in range(0, len(whole), size)]


def tcp(data, at=1):
    """A TCP segment with this data, in its frame."""
    # The two ports, the number of the first byte, nothing acknowledged, a header of 20 bytes (5 units of 4), the flag ACK, a window, no checksum; it is
    # protocol 6.
    return ethernet(ipv4(struct.pack(">HHIIBBHHH", 5060, 5062, at, 0, 0x50, 0x10, 999, 0, 0) + data, protocol=6))


def capture_of(messages, port=5060):
    """A pcap of messages over UDP between addresses of IPv4: (milliseconds, source, target, bytes). Bytes of None are a refusal by ICMP of the message before."""
    text, before = struct.pack("<IHHiIII", 0xA1B2C3D4, 2, 4, 0, 0, 262144, 1), b""
    for moment, source, target, data in messages:
        ends = tuple(bytes(map(int, address.split("."))) for address in (source, target))
        # A refusal has type 3 and code 3 (port unreachable), and after its 8 bytes the packet that was refused.
        packet = ipv4(b"\3\3" + bytes(6) + before, protocol=1, ends=ends) if data is None else ipv4(udp(data, port, port), ends=ends)
        before, frame = packet, ethernet(packet)
        # The milliseconds count from a moment in November 2023, in seconds since 1970.
        seconds, milliseconds = divmod(1_700_000_000_000 + moment, 1000)
        text += struct.pack("<IIII", seconds, 1000 * milliseconds, len(frame), len(frame)) + frame
    return text
