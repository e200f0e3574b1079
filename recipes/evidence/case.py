"""A breach as the program is asked about it: the history of its transaction, the entry after which no run is left, and the messages that may matter."""
from sip_lines import cseq, is_response, method_of

from .asking import LAST, History
from .finding import keys_or_none
from .messages import ack_for, cancel_for, code, is_request, latin, response_to, short

# How many messages are tried as what was due.
MOST_CANDIDATES = 8


def mark(moment):
    """A mark at the moment, as an entry."""
    return "M", moment, b""


def restart(moment):
    """A restart at the moment, as an entry."""
    return "Z", moment, b""


def told(windows):
    """Windows as they are written: a window up to the last moment of a log is one without an end."""
    return [[first, None if last == LAST else last] for first, last in windows]


class Candidate:
    """A message about which the program is asked: what it is in words, its bytes, its letter, and the entry whose bytes it has or which it answers."""

    def __init__(self, what, data, letter="S", of=None):
        self.what, self.data, self.letter, self.of = what, data, letter, of

    def at(self, moment):
        """The entry with its message sent at this moment."""
        return self.letter, moment, self.data

    def told(self, **more):
        """The entry as data, with what else is told of it."""
        return {"what": self.what, "letter": self.letter, "bytes": latin(self.data), "of": self.of, **more}


def sent_as(one):
    """The message of an entry, as one about which the program is asked."""
    return Candidate("entry %d's %s" % (one.number, short(one.data)), one.data, one.letter, one.number)


def each_once(entries):
    """The first entry of each message. The message that stands last in the entries comes first."""
    first = {}
    for one in entries:
        first.setdefault(one.data, one)
    # The messages, each at its last place, from the last one on.
    newest = dict.fromkeys(one.data for one in reversed(entries))
    return [first[data] for data in newest]


class Case:
    """The breach of transaction `number` at entry `at` of a log."""

    def __init__(self, judge, found, at, number):
        self.judge, self.found, self.times, self.at, self.number = judge, found, found.times, at, number
        self.role, self.branch, self.sent_by, self.method = found.key
        self.is_invite = self.method == b"INVITE"
        # `own` are the entries of the transaction and the restarts, from its first message on; `stop` is the breach itself, or a mark of its moment.
        own = [one for one in found.entries if one.letter == "Z" or found.key in keys_or_none(one.letter, one.data)]
        begin = next((place for place, one in enumerate(own) if one.data), len(own))
        own = own[begin:]  # a restart before the first message of the transaction changes nothing
        self.before = [one for one in own if one.number < at]
        self.after = [one for one in own if one.number > at]
        self.breach = next((one for one in own if one.number == at), None)
        self.moment = found.at_moment
        self.is_send = self.breach is not None and self.breach.letter in ("S", "F")
        # `letters` is how each entry stands in the history, empty where it is left out; `kept` are answers that were found.
        self.letters = {one.number: one.letter for one in self.before}
        self.history = self.asked_about()
        self.stop = self.breach[1:] if self.breach is not None else mark(self.moment)
        self.kept = {}

    def asked_about(self):
        """The history before the breach. A CANCEL is a step of two transactions: in a history of its INVITE's the first CANCEL stands as a send that was
        refused, which ends the CANCEL's own transaction and changes nothing for the INVITE's. Later CANCELs are left out, and all where the breach is one."""
        if self.role == "client" and self.is_invite:
            cancels = [one for one in self.before if one.letter in ("S", "F") and is_request(one.data, b"CANCEL")]
            for one in cancels:
                self.letters[one.number] = ""
            if cancels and not (self.is_send and is_request(self.breach.data, b"CANCEL")):
                self.letters[cancels[0].number] = "F"
        return History(self.judge, self.times, self.role, self.method, [self.as_asked(one) for one in self.asked()])

    def asked(self):
        """The entries of the history, without those that are left out."""
        return [one for one in self.before if self.letters[one.number]]

    def as_asked(self, one):
        """The entry with the letter by which it was asked for."""
        return self.letters.get(one.number, one.letter), one.moment, one.data

    def is_shown(self):
        """Whether the program says that the history is possible, and that it is a breach with `stop` after it, which shows the breach."""
        history = self.history
        # An empty history is possible.
        return (not history.entries or history.can_wait(history.last)) and not history.allows(self.stop)

    def own_from_breach(self):
        """The transaction's entries, from that of the breach on."""
        return ([self.breach] if self.breach is not None else []) + self.after

    def sends_from_breach(self):
        """The breach, if it is a send, and the sends after it."""
        return ([self.breach] if self.is_send else []) + [one for one in self.after if one.letter in ("S", "F")]

    def first_request(self):
        """The first request of the transaction, if there is one."""
        return next((one for one in self.before if one.data and is_request(one.data, self.method)), None)

    def sent(self):
        """Each message that the transaction sent, by the first entry that has it, the newest first."""
        return each_once([one for one in self.before if one.letter in ("S", "F")])

    def refusals(self):
        """Each response from 300 to 699 that a client received, the newest first."""
        return each_once([one for one in self.before if one.letter == "R" and is_response(one.data) and code(one.data) >= 300])

    def candidates(self):
        """The messages that the transaction may have to send: what it sent before, the ACKs of what it received, a new response."""
        if "candidates" not in self.kept:
            self.kept["candidates"] = list(self.of_client() if self.role == "client" else self.of_server())
        return self.kept["candidates"]

    def of_client(self):
        """What a client might send next: the ACK of a refusal, its request again, or a CANCEL."""
        invite = self.first_request() if self.is_invite else None
        # An ACK belongs to an INVITE that the client sent.
        if invite is not None and invite.letter != "R":
            for one in self.refusals()[:MOST_CANDIDATES]:
                yield Candidate("the ACK of entry %d's %s" % (one.number, short(one.data)), ack_for(invite.data, one.data), of=one.number)
        for one in [one for one in self.sent() if is_request(one.data, self.method)][:MOST_CANDIDATES]:
            yield Candidate("entry %d's %s again" % (one.number, latin(method_of(one.data))), one.data, of=one.number)
        if invite is not None:
            yield Candidate("a CANCEL", cancel_for(invite.data))

    def of_server(self):
        """What a server could have sent in place: a response that it sent before, or another one, or a first one."""
        responses = [one for one in self.sent() if is_response(one.data)]
        for one in responses[:MOST_CANDIDATES]:
            yield Candidate("entry %d's %s again" % (one.number, short(one.data)), one.data, of=one.number)
        asked = self.first_request()
        if asked is not None:
            for kind, made in (("1xx", 183), ("2xx", 299), ("3xx to 6xx", 699)):
                yield Candidate("%s %s" % ("another" if responses else "a first", kind), response_to(asked.data, made))

    def could_come(self):
        """The messages that the transaction may have received, of which a trace may lack one."""
        asked = self.first_request()
        if asked is None:
            return
        if self.role == "server":
            yield Candidate("entry %d's %s again" % (asked.number, latin(self.method)), asked.data, "R", asked.number)
            # An ACK comes for a response of 300 to 699 that the server has sent.
            finals = [one.data for one in self.sent() if is_response(one.data) and code(one.data) >= 300]
            if self.is_invite and finals:
                yield Candidate("an ACK", ack_for(asked.data, finals[0]), "R")
            return
        if self.is_invite:
            for one in self.refusals()[:2]:
                yield Candidate("entry %d's %s again" % (one.number, short(one.data)), one.data, "R", one.number)
        # These have words and a tag that hardly any log has, so that each is a new message.
        for kind, made in (("a provisional response", 183), ("a 2xx", 299), ("a 3xx to 6xx", 699)):
            yield Candidate(kind, response_to(asked.data, made), "R")

    def act_of(self, data):
        """The name of a send in the table of rules."""
        if self.role == "client":
            method = method_of(data)
            return "ack" if method == b"ACK" else "cancel" if method == b"CANCEL" else "request again"
        if not self.was_asked():
            return "no request"
        responses = [one.data for one in self.sent() if is_response(one.data)]
        # A response with the same code and method counts as the same, though its bytes differ.
        alike = [other for other in responses if (code(other), cseq(other)[1]) == (code(data), cseq(data)[1])]
        return "response again" if data in responses or alike else "another response" if responses else "first response"

    def was_asked(self):
        """Whether a request other than ACK came in before the breach."""
        return any(one.letter == "R" and not is_response(one.data) and not is_request(one.data, b"ACK") for one in self.before)
