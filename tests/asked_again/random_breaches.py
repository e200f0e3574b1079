"""Random logs in breach, made by a seed: each of the six transactions of docs/standard/MACHINES.md, over UDP and over reliable transports, in both formats of
a log and by both rules, at the edges of windows, with CANCELs, ACKs, repeats, restarts and sends that the transport refused.

One transaction is led on by random entries, which the program judges: what it allows mostly stays, and what it does not is the breach. The moments are guessed
from the timers of RFC 3261 table 4, so that many lie at an edge; a wrong guess only makes another log. Others' entries stand among those of the transaction, and
later ones follow the breach."""
import random

from judge import Entry, Times, mark, write_log

# The transactions of a log: of each role, for INVITE and another method, and by both rules.
TRANSACTIONS = [(role, method, rules) for rules in (0, 3261) for role in ("client", "server") for method in ("INVITE", "OPTIONS")]
# How many moments are drawn to find one at which a message may be sent again.
MOST_TRIES = 12
WAYS = ("silence", "repeat", "repeat", "bytes", "ACK", "any")  # the ways in which a transaction is led to its breach
# The reason phrase of each response, by its code.
PHRASES = {100: "Trying", 180: "Ringing", 183: "Progress", 200: "OK", 299: "Well", 302: "Moved", 486: "Busy Here", 487: "Terminated", 603: "Decline"}


class Spelling:
    """How the messages of a transaction are spelled: one of the many ways that the grammar allows, and the same for all messages of the transaction."""

    def __init__(self, chance, number):
        # What is likelier stands more than once.
        # The top Via: its transport, its branch (also with another case in the cookie), its host, and what may stand after the branch.
        self.transport = chance.choice(["UDP"] * 5 + ["TCP", "TLS", "SCTP"])
        self.branch = chance.choice(["z9hG4bK", "z9hG4bK", "Z9hg4BK"]) + f"r{number}"
        self.host = chance.choice(["a.example.com", "192.0.2.1", "[2001:db8::1]", "b.example.com:5062"])
        self.after = chance.choice(["", "", ";rport", ';x="a b"', ";received=192.0.2.7"])
        # The number of CSeq (also with a zero before it), the names of the fields (also compact ones and in capitals), and a fold after the name of Via.
        self.number = chance.choice(["1", "1", "01", "7042"])
        self.via, self.sender, self.to, self.call, self.length = chance.choice(
            [("Via", "From", "To", "Call-ID", "Content-Length")] * 3 + [("v", "f", "t", "i", "l"), ("VIA", "FROM", "TO", "CALL-ID", "Content-length")])
        self.fold = chance.choice(["", "", "", "\r\n "])
        # Fields besides, the display name in From, the Request-URI, the Call-ID, and a Via below the top one.
        self.extra = chance.choice([[], [], ["Route: <sip:p.example.com;lr>"], ["Subject: one, two"], ["Route: <sip:p.example.com;lr>", "Route: <sip:q.example.com;lr>"]])
        self.name = chance.choice(["", '"Bob, \\"B\\"" ', "Bob "])
        self.user = chance.choice(["sip:bob@example.com", "sip:example.com", "sips:bob@example.com;x=y"])
        self.call_id = f"c{number}@{self.host.split(':')[0].strip('[]') or 'a'}"
        self.second_via = chance.choice([[], [], ["Via: SIP/2.0/UDP c.example.com;branch=z9hG4bKbelow"]])

    def via_lines(self, branch=None):
        """The topmost Via, as this transaction writes it."""
        return [f"{self.via}:{self.fold or ' '}SIP/2.0/{self.transport} {self.host};branch={branch or self.branch}{self.after}"]

    def head(self, first, vias, to_tag, method, more=()):
        """The bytes of a message with this first line."""
        tag = f";tag={to_tag}" if to_tag else ""
        lines = [first, *vias, f"{self.sender}: {self.name}<sip:bob@example.com>;tag=f", f"{self.to}: <sip:al@example.com>{tag}", f"{self.call}: {self.call_id}",
                 f"CSeq: {self.number} {method}", *more, f"{self.length}: 0", "", ""]
        return "\r\n".join(lines).encode()

    def request(self, method, to_tag="", branch=None, more=()):
        """A request of the transaction."""
        # An ACK and a CANCEL are of one hop, and have one Via.
        vias = self.via_lines(branch) + (self.second_via if method not in ("ACK", "CANCEL") else [])
        return self.head(f"{method} {self.user} SIP/2.0", vias, to_tag, method, [*self.extra, *more])

    def response(self, method, code, tag):
        """A response of the transaction."""
        # A 100 has no tag in To.
        return self.head(f"SIP/2.0 {code} {PHRASES[code]}", self.via_lines() + self.second_via, tag if code > 100 else "", method)


def spoiled_ack(chance, spelling, tag):
    """An ACK that is wrong in one part, or in two."""
    ack = spelling.request("ACK", tag)
    # Another Request-URI, another tag in From, no tag in To, another number, Call-ID or Route, blanks in the top Via, a parameter more in it.
    changes = [(spelling.user.encode(), b"sip:other@example.com"), (b";tag=f", b";tag=g"), (f";tag={tag}".encode(), b""), (b"CSeq: ", b"CSeq: 9"),
               (spelling.call_id.encode(), b"other@call"), (b"Route: <sip:p", b"Route: <sip:z"), (b"SIP/2.0/", b"SIP / 2.0 / "), (b"branch=", b"rport;branch=")]
    for old, new in chance.sample(changes, chance.choice([1, 1, 2])):
        ack = ack.replace(old, new, 1)
    return ack


class Walk:
    """A transaction that is led on entry by entry, and what it may do next."""

    def __init__(self, judge, chance, number):
        self.judge, self.chance = judge, chance
        # Logs take the eight transactions by turns. Most have the times of RFC 3261 and a tolerance of 50.
        self.role, self.method, rules = TRANSACTIONS[number % len(TRANSACTIONS)]
        self.spelling = Spelling(chance, number)
        t1 = chance.choice([500] * 6 + [1, 100, 1000, 2000])
        # Where the two tolerances differ the log has to be of format 2.
        early, late = chance.choice([(50, 50)] * 4 + [(0, 0), (10, 10), (500, 500), (0, 100), (100, 0), (1, 300), (3000, 3000)])
        self.times = Times(t1, chance.choice([4000, 4000, 4000, 1000, t1]), chance.choice([5000, 5000, 1, 2500]), early, late,
                           rules or chance.choice([0, 0, 6026]))
        self.format = chance.choice([1, 2]) if early == late else 2
        self.entries = []

    def moment(self):
        """A moment from now on: now, soon, or near the edge of a timer that an earlier entry may have set."""
        now = self.entries[-1].moment if self.entries else 0
        if not self.entries or self.chance.random() < 0.25:
            return now + self.chance.choice([0, 0, 1, 2, 3, 10, 40, 150])
        times = self.times
        # What a timer may be set for: nothing, the 200 ms of a server, T4, timer D, 64 times T1, T2, and T1 doubled up to six times.
        lengths = [0, 200, times.t4, 32_000, 64 * times.t1, times.t2] + [times.t1 * 2 ** n for n in range(7)]
        base = self.chance.choice(self.entries[-6:]).moment
        length = self.chance.choice(lengths)
        edge = base + self.chance.choice([max(0, length - times.early), length + times.late, length])
        moment = edge + self.chance.choice([-1, 0, 0, 1, 1, 2, 30])
        # A moment in the past, or far away, is none.
        return moment if now <= moment <= now + 40_000 else now + self.chance.choice([0, 1, 20])

    def tag(self):
        """A tag, mostly the same one."""
        return self.chance.choice(["t", "t", "t", "u"])

    def client_entry(self):
        """An entry that a client may send or receive, right or wrong."""
        spelling, method, chance = self.spelling, self.method, self.chance
        first = spelling.request(method)
        # What it may send, where what is likelier stands more than once, and what may come.
        sends = [first] * 6
        comes = [spelling.response(method, code, self.tag()) for code in (100, 180, 183, 200, 299, 302, 486, 486, 603)]
        if method == "INVITE":
            sends += [spelling.request("ACK", self.tag())] * 5 + [spoiled_ack(chance, spelling, self.tag()) for _ in range(3)] + [spelling.request("CANCEL")] * 3
        # A client begins with a send, mostly of its request, which the transport may refuse. Later six of ten entries are sends.
        if not any(entry.letter in "SF" for entry in self.entries):
            return chance.choice("SSSSF"), chance.choice([first] * 9 + sends)
        return (chance.choice("SSSSSSF"), chance.choice(sends)) if chance.random() < 0.6 else ("R", chance.choice(comes))

    def server_entry(self):
        """An entry that a server may receive or send, right or wrong."""
        spelling, method, chance = self.spelling, self.method, self.chance
        first = spelling.request(method)
        sends = [spelling.response(method, code, self.tag()) for code in (100, 180, 183, 200, 200, 299, 302, 486, 487)]
        # Mostly one of its last two messages again.
        sends += self.said()[-2:] * 6
        comes = [first] * 4 + ([spelling.request("ACK", self.tag())] * 2 if method == "INVITE" else [])
        # A server begins with its request, but for one of twenty.
        if not any(entry.letter == "R" for entry in self.entries):
            return ("R", first) if chance.random() < 0.95 else ("S", chance.choice(sends))
        return (chance.choice("SSSSSSF"), chance.choice(sends)) if chance.random() < 0.6 else ("R", chance.choice(comes))

    def entry(self):
        """A random entry from now on, of the client or of the server."""
        moment, chance = self.moment(), self.chance
        if self.entries and chance.random() < 0.15:
            return mark(moment)
        if self.format == 2 and chance.random() < 0.04:
            return Entry("Z", moment, b"")
        letter, data = self.client_entry() if self.role == "client" else self.server_entry()
        return Entry(letter, moment, data)

    def said(self):
        """The messages that the transaction sent before."""
        return [entry.data for entry in self.entries if entry.letter in "SF"]

    def legal_repeat(self):
        """The message that the transaction sent last, at a moment at which it may be sent again; None where no such moment was found."""
        for _ in range(MOST_TRIES if self.said() else 0):
            one = Entry("S", self.moment(), self.said()[-1])
            if self.verdict([*self.entries, one]) == "legal":
                return one
        return None

    def wrong_entry(self, way):
        """An entry that may be the breach, of one of the ways in WAYS."""
        chance, now = self.chance, self.entries[-1].moment if self.entries else 0
        if way == "silence":
            return mark(self.moment() + chance.choice([0, 0, 60, 700, 40_000]))
        if way == "ACK" and self.role == "client" and self.method == "INVITE":
            return Entry(chance.choice("SSSSF"), now + chance.choice([0, 1, 5, 60]), spoiled_ack(chance, self.spelling, self.tag()))
        repeat = self.legal_repeat() if way in ("repeat", "bytes") else None
        if repeat and way == "bytes":
            # One field more, or a blank at the end of the first line.
            return repeat._replace(data=repeat.data.replace(b"\r\n", chance.choice([b"\r\nX: y\r\n", b" \r\n"]), 1))
        if repeat:
            # A repeat that is right is moved by some milliseconds, so that it may be wrong.
            moved = repeat.moment + chance.choice([-1, -2, -30, -100, -1000, 1, 2, 40, 101])
            return repeat._replace(letter=chance.choice("SSSSF"), moment=max(now, moved))
        return self.entry()

    def verdict(self, entries):
        """The verdict on these entries."""
        return self.judge.verdict(write_log(self.times, entries, self.format))[0]

    def lead(self, steps):
        """Leads the transaction on by this many legal entries."""
        for _ in range(MOST_TRIES * steps):
            one = self.entry()
            if self.verdict([*self.entries, one]) == "legal":
                self.entries.append(one)
                steps -= 1
            if not steps:
                return

    def breach(self):
        """Leads the transaction to a breach, and answers whether there is one."""
        # It is led on by some legal entries. For an ACK that is wrong a 486 comes before it.
        way = self.chance.choice(WAYS)
        self.lead(self.chance.choice([1, 2, 2, 3, 3, 4, 5, 6, 8, 12, 20]))
        if way == "ACK" and self.role == "client" and self.method == "INVITE":
            refusal = Entry("R", self.entries[-1].moment + 1 if self.entries else 0, self.spelling.response("INVITE", 486, self.tag()))
            self.entries += [refusal] if self.verdict([*self.entries, refusal]) == "legal" else []
        for _ in range(MOST_TRIES):
            one = self.wrong_entry(way)
            # A breach by the first entry of all, as by a response without a request, is taken one time of ten.
            if self.verdict([*self.entries, one]) == "breach" and (self.entries or self.chance.random() < 0.1):
                self.entries.append(one)
                return True
        return False

    def after(self):
        """The entries after the breach: the repeat or ACK that was tried, too late, and a mark."""
        last = self.entries[-1]
        for _ in range(self.chance.choice([0, 0, 1, 2, 3])):
            one = self.entry()
            if one.letter != "Z":
                self.entries.append(one)
        if last.letter == "M" and self.chance.random() < 0.5:  # the repeat or the ACK that was due comes after all
            letter, data = self.client_entry() if self.role == "client" else self.server_entry()
            self.entries.append(Entry(letter, self.entries[-1].moment + self.chance.choice([1, 10, 700]), data))
        if self.chance.random() < 0.5:
            self.entries.append(mark(self.entries[-1].moment + self.chance.choice([0, 1000, 40_000])))

    def among_others(self):
        """Puts entries of other transactions between its own: of the same call, with an ACK of another branch, and of other calls."""
        chance, spelling = self.chance, self.spelling
        for number in range(chance.choice([0, 0, 0, 1, 2, 3])):
            moment = chance.choice(self.entries).moment + chance.choice([0, 1, 30])
            data = chance.choice([spelling.request("ACK", self.tag(), f"z9hG4bKack{number}"), spelling.request("BYE", "t", f"z9hG4bKbye{number}")])
            # A BYE is taken as received; an ACK of another branch is sent by a client, and received by a server.
            letter = "R" if self.role == "server" or data.startswith(b"BYE") else "S"
            place = next((n for n, entry in enumerate(self.entries) if entry.moment > moment), len(self.entries))
            self.entries.insert(place, Entry(letter, moment, data))


def random_breach(judge, seed, number):
    """The log of one random breach, and the words of its verdict."""
    chance = random.Random(f"{seed} {number}")
    while True:
        walk = Walk(judge, chance, number)
        if not walk.breach():
            continue
        walk.after()
        walk.among_others()
        log = write_log(walk.times, walk.entries, walk.format)
        words = judge.verdict(log)
        if words[0] == "breach":
            return log, words
