"""What a user has to know of a capture before he believes a breach: what is missing in it, and which senders stand beside it."""
import json
from collections import Counter

from sip_lines import die, looks_like_sip, say, seconds_of

BESIDE = {64, 128, 255}  # the TTLs with which systems send; each hop makes them one less
MOST_KEPT = 1 << 16  # how many senders have their TTLs kept
MOST_REFUSALS = 1 << 16  # how many refusals are kept one by one

TLS_RECORDS = (b"\x14\x03", b"\x15\x03", b"\x16\x03", b"\x17\x03")  # how a record of TLS begins, by its kind

# What is told of packets, each with its count before it.
CUT = "UDP packets were cut when they were captured, and are left out: capture with -s 0"
LACKS_FRAGMENTS = "datagrams lack fragments, as with a capture filter by port: capture `udp or tcp or ip6` or all"
HOLES = "streams have a hole, and what stands after it is left out"
BEGAN_WITHIN = "streams began within a message, whose rest is left out"
TLS = "streams of TLS are left out: from-tshark-tls reads them where you have their keys"
WRONG_LENGTH = "UDP packets have a length that does not fit, and are left out"


class Notes:
    """What is noted while a capture is read: what is missing in it, which datagrams were refused, and with which TTLs messages came."""

    def __init__(self):
        self.missing, self.refused, self.ttls, self.known = Counter(), 0, {}, set()
        self.refusals, self.last = [], None  # the last packet's moment, in nanoseconds

    def sender(self, address, ttl, data):
        """Hears with which TTL a payload came from an address. Answers whether the TTL is kept, as only that of a SIP message is."""
        if (address, ttl) not in self.known and looks_like_sip(data) and len(self.known) < MOST_KEPT:
            self.known.add((address, ttl))
            self.ttls.setdefault(address, set()).add(ttl)
        return (address, ttl) in self.known

    def refusal(self, number, source, target, length):
        """Hears from packet `number` that a datagram between these ends, with this many bytes, was refused."""
        if len(self.refusals) < MOST_REFUSALS:
            self.refusals.append((number, source, target, length))

    def beside(self):
        """The addresses whose messages came over no hop, and how many other addresses there are."""
        beside = sorted(address for address, ttls in self.ttls.items() if ttls & BESIDE)
        return beside, len(self.ttls) - len(beside)

    def tell(self):
        """Says on standard error what is known of the capture. Answers whether nothing is missing."""
        beside, far = self.beside()
        if far:
            say("by their TTL these sent beside the capture: %s; %d others sent over hops, and a log of them would show the network's delays as theirs" %
                (" ".join(beside[:20]) or "none", far))
        if self.refused:
            say("%d refusals by ICMP: an element that takes one for an error of its transport ends the transaction; its log has F in place of S there" %
                self.refused)
        for what, count in self.missing.items():
            if count:
                say("%d %s" % (count, what))
        return not any(self.missing.values())

    def as_data(self):
        """What is known of the capture, as data for JSON."""
        beside, far = self.beside()
        return {"last": None if self.last is None else seconds_of(self.last), "beside": beside, "far": sorted(set(self.ttls) - set(beside)),
                "refused": self.refused, "refusals": self.refusals, "missing": {what: count for what, count in self.missing.items() if count}}

    def write(self, name):
        """Writes what is known of the capture as JSON."""
        try:
            with open(name, "w") as file:
                json.dump(self.as_data(), file)
        except OSError as error:
            die("cannot write %s: %s" % (name, error.strerror), 4)
