"""Random logs of several transactions, made by a seed, with what is known of each entry: clients and servers of INVITE and of other methods, over UDP and
TCP, with repeats, refusals, CANCELs, restarts, sends that the transport refused, and malformed messages. Each transaction is told as it should go, at the edges
of its windows; then entries of it are left out, moved, said twice or damaged, so that many logs have several troubles."""
import random
from typing import NamedTuple

from notation import message

# The letters of entries without a message.
SILENT = ("M", "Z")


class Entry(NamedTuple):
    """An entry of a log, with what the test knows of it."""
    letter: str
    moment: int
    data: bytes = b""
    keys: tuple = ()  # the transactions that the entry concerns, its own one first
    branch: str = ""
    is_malformed: bool = False

    def bytes(self):
        """The bytes of the entry, as a log has them."""
        line = b"%s %d" % (self.letter.encode(), self.moment)
        return line + b"\n" if self.letter in SILENT else b"%s %d\n%s\n" % (line, len(self.data), self.data)

    def mark(self):
        """The entry of a mark at the moment of this one."""
        return Entry("M", self.moment)


class Log(NamedTuple):
    """A log: its header, its entries, and what stands after them."""
    header: bytes
    entries: list
    tail: bytes = b""  # bytes that stand after the entries and are no entry

    def bytes(self):
        """The bytes of the log."""
        return self.header + b"".join(entry.bytes() for entry in self.entries) + self.tail

    def part(self, stays):
        """The log in which a mark stands for each entry that does not stay, as `stays` says. A restart stays."""
        return self._replace(entries=[one if one.letter == "Z" or stays(one) else one.mark() for one in self.entries], tail=b"")


class Story:
    """One transaction as it should go: its entries, from a moment on."""

    def __init__(self, chance, late, early, branch, start):
        self.chance, self.late, self.early = chance, late, early
        self.branch, self.start = branch, start
        # One story of four goes over a reliable transport, and one of three has another host in its Via.
        self.transport = chance.choice(["UDP", "UDP", "UDP", "TCP"])
        self.host = chance.choice(["a", "a", "b"])
        self.entries = []
        self.stays = False  # whether no entry of the transaction is left out or moved

    def wait(self, length):
        """A length of a timer, mostly as the tolerance has it, and at its edges."""
        # One wait of 25 is too short by 1 ms, or too long by 1 or by 200 more than the tolerance has it.
        wrong = self.chance.choice([-self.early - 1, self.late + 1, self.late + 200])
        right = self.chance.choice([0, -self.early, self.late, self.chance.randint(-self.early, self.late)])
        return max(0, length + (wrong if self.chance.random() < 0.04 else right))

    def add(self, letter, moment, method, code=None):
        """Adds an entry with a message of this dialog, and with the transactions that it concerns."""
        data = message(method, self.branch, code)
        data = data.replace(b"/UDP ", b"/%s " % self.transport.encode()).replace(b" a.example", b" %s.example" % self.host.encode())
        own = "INVITE" if method == "ACK" else method
        # A response that is sent and a request that is received are of a server, whose key has the host of its Via; the other two are of a client. An
        # ACK is of the INVITE's transaction, and a CANCEL of a client also concerns the INVITE that it cancels.
        if (letter in "SF") == bool(code):
            keys = (("server", self.branch, self.host, own),)
        else:
            keys = (("client", self.branch, "", own),)
            if method == "CANCEL" and not code:
                keys += (("client", self.branch, "", "INVITE"),)
        self.entries.append(Entry(letter, moment, data, keys, self.branch))

    def repeated(self, method, start, end, most):
        """Adds a request with its repeats until a moment. Two of them are at most `most` apart."""
        # The first interval is T1, and each is twice the one before, up to `most`: by timer E that is T2, 4000, and by timer A there is no bound.
        moment, interval = start, 500
        while moment < end:
            self.add("S", moment, method)
            if self.transport == "TCP":
                return
            moment += self.wait(interval)
            interval = min(2 * interval, most)

    def plain_client(self):
        """Adds the entries of a client of another method than INVITE."""
        chance, method = self.chance, self.chance.choice(["OPTIONS", "REGISTER"])
        # Before the first repeat, after one or more, or after timer F (64 times T1 are 32,000, less the 50 of the tolerance).
        answer = self.start + chance.choice([5, 300, 700, 2000, 5000, 40_000])
        self.repeated(method, self.start, min(answer, self.start + 31_950), 4000)
        self.add("R", answer, method, chance.choice([200, 404]))
        # The response may come a second time.
        if chance.random() < 0.2:
            self.add("R", answer + 30, method, 200)

    def invite_client(self):
        """A client's INVITE with what follows it."""
        chance = self.chance
        answer = self.start + chance.choice([5, 300, 700, 2000, 40_000])
        # Timer A doubles without a bound, and timer B may end it all 64 times T1 later, less 50.
        self.repeated("INVITE", self.start, min(answer, self.start + 31_950), 1 << 20)
        self.add("R", answer, "INVITE", chance.choice([100, 180]))
        # The final response to the INVITE, after its provisional one.
        final = answer + chance.choice([10, 1000])
        code = chance.choice([200, 486, 486])
        # Or the INVITE is cancelled: the CANCEL is repeated until its 200 comes, and with it the 487.
        if chance.random() < 0.4:
            cancelled = answer + chance.choice([0, 20])
            final, code = cancelled + chance.choice([30, 600, 1700]), 487
            self.repeated("CANCEL", cancelled, final, 4000)
            self.add("R", final, "CANCEL", 200)
        # The final response comes once or twice. Each time the client sends an ACK, unless it is a 2xx, whose ACK is no part of the transaction.
        for moment in [final, final + 400][: chance.choice([1, 1, 2])]:
            self.add("R", moment, "INVITE", code)
            if code != 200:
                self.add("S", moment + self.wait(0), "ACK")

    def plain_server(self):
        """A request that a server takes, with its responses."""
        chance, method = self.chance, self.chance.choice(["OPTIONS", "BYE"])
        self.add("R", self.start, method)
        answer = self.start + chance.choice([5, 300, 3000])
        self.add("S", answer, method, chance.choice([200, 404]))
        # The code stands after `SIP/2.0 `.
        code = int(self.entries[-1].data[8:11])
        for again in range(chance.choice([0, 0, 1, 2])):
            self.add("R", answer + 500 * (again + 1), method)
            self.add("S", answer + 500 * (again + 1) + self.wait(0), method, code)

    def invite_server(self):
        """An INVITE that a server takes, with its responses and its ACK."""
        chance = self.chance
        self.add("R", self.start, "INVITE")
        # A server of an INVITE has 200 ms for its first response.
        self.add("S", self.start + chance.choice([0, 100, 200, 200 + self.late]), "INVITE", chance.choice([100, 180]))
        final = self.start + chance.choice([300, 1500])
        if chance.random() < 0.5:
            self.add("S", final, "INVITE", 200)
            return
        # By timer G the 486 is sent again until its ACK came, but over TCP.
        moment, interval, acked = final, 500, final + chance.choice([40, 700, 2200])
        while moment < acked:
            self.add("S", moment, "INVITE", 486)
            if self.transport == "TCP":
                break
            moment += self.wait(interval)
            interval = min(2 * interval, 4000)
        self.add("R", acked, "ACK")

    def wide_server(self):
        """Adds a server in more states than are followed, where the tolerance is 10 seconds."""
        self.transport, self.stays = "UDP", self.chance.random() < 0.7
        # Each of `count` requests after a provisional response may be answered by it; a send pays one of what is owed or is new, so that the states multiply.
        request, ringing, progress = (("R", "OPTIONS"), ("S", "OPTIONS", 180), ("S", "OPTIONS", 181))
        count = self.chance.choice([20, 33, 40])
        for letter, *rest in [request, ringing, *[request] * count, progress, *[request] * count, *[ringing, progress] * 30]:
            self.add(letter, self.start, *rest)

    def spoil(self):
        """The entries of the story, with some of them left out, moved, said twice, refused or damaged."""
        chance, done = self.chance, []
        # Of 100 entries 5 are left out, 3 are moved, 3 are said twice, 2 are refused where they are sends and damaged where not, and 2 more are damaged.
        for one in self.entries if not self.stays else ():
            way = chance.random()
            if way < 0.05:
                continue
            if way < 0.08:
                one = one._replace(moment=one.moment + chance.choice([1, 60, 600]))
            elif way < 0.11:
                done.append(one)
            elif way < 0.13 and one.letter == "S":
                one = one._replace(letter="F")
            elif way < 0.15:
                one = damaged(chance, one)
            done.append(one)
        return self.entries if self.stays else done


def damaged(chance, one):
    """The entry with a message that is malformed, so that it concerns no transaction."""
    # No message at all, one without Call-ID, one with a LF where a CRLF has to stand, and one whose CSeq has no number.
    data = chance.choice([b"x", one.data.replace(b"Call-ID: c1@a\r\n", b""), one.data.replace(b"\r\nFrom", b"\nFrom"), one.data.replace(b"CSeq: 1 ", b"CSeq: x ")])
    if one.letter == "S" and not data.startswith(b"SIP") and chance.random() < 0.3:
        # A request that is sent may have a branch without the cookie instead.
        data = one.data.replace(b"z9hG4bK", b"z9hG4bJ") if not one.data.startswith(b"SIP") else data
    return one._replace(data=data, keys=(), is_malformed=True)


def random_log(seed, number):
    """The random log with this number, by the seed."""
    chance = random.Random(f"{seed} {number}")
    # Every fiftieth log is of a wide transaction, whose tolerances are the greatest.
    is_wide = number % 50 == 0
    early, late = (10_000, 10_000) if is_wide else chance.choice([(50, 50)] * 4 + [(0, 0), (0, 100), (100, 0), (10, 10)])
    of_two = early != late or chance.random() < 0.4
    # Where the tolerances differ the log is of format 2; else it is of either.
    tolerance = f"early {early} late {late}" if of_two else f"tolerance {early}"
    rules = chance.choice(["", "", "rules 6026\n", "rules 3261\n"])
    header = f"sip-trace {2 if of_two else 1}\nt1 500 t2 4000 t4 5000 {tolerance}\n{rules}".encode()
    entries, branches = [], [f"b{place}" for place in range(chance.choice([1, 2, 3, 4]))]
    # Each story is of a transaction of some kind, and is then spoiled at some place.
    for place in range(chance.choice([1, 2, 3, 4, 5])):
        story = Story(chance, late, early, chance.choice(branches), chance.choice([0, 0, 100, 549, 2000, 33_000]))
        kinds = [story.plain_client, story.invite_client, story.plain_server, story.invite_server]
        (story.wide_server if is_wide and not place else chance.choice(kinds))()
        entries += story.spoil()
    # Marks and restarts among the entries, and a mark at the end.
    last = max((one.moment for one in entries), default=0)
    entries += [Entry("M", chance.randint(0, last + 700)) for _ in range(chance.choice([0, 1, 2]))]
    if of_two and chance.random() < 0.3:
        entries.append(Entry("Z", chance.randint(0, last)))
    entries.append(Entry("M", last + chance.choice([0, 0, 51, 700, 40_000])))
    entries.sort(key=lambda one: one.moment)
    # One log of ten may end with a mark that comes too early, and one with a line that is cut off.
    return Log(header, entries, chance.choice([*[b""] * 8, b"M 0\n" if entries[-1].moment else b"", b"M 1"]))
