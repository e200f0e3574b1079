"""What would excuse a breach: each question changes the log or its header and asks the program again. A yes has to be settled before the evidence is sent."""
from sip_lines import MOST_TOLERANCE, is_response

from .asking import is_possible, log_of
from .case import mark, restart
from .messages import latin, request_for

SKEW = 3  # in milliseconds: so close to each other two entries may stand the wrong way round
COPY = 50  # milliseconds within which a copy of a message may be the trace's
# The longer T1 that are asked about, in milliseconds.
LATER_T1 = (1000, 2000)
# How many sends may have come before the log began.
EARLIER_SENDS = range(1, 6)
GAPS = 6  # in how many places of the history a message may be missing


class Excuses:
    """The questions of one breach, with their answers."""

    def __init__(self, case, facts):
        self.case, self.facts, self.kind = case, facts, facts["kind"]
        self.history = case.history.entries
        self.rows = []

    def words(self, entries, times=None):
        """The verdict on these entries and a mark, with which the log reaches the breach."""
        # No entry may be before the one before it.
        closing = mark(max(self.case.moment, entries[-1][1]))
        return self.case.judge.verdict(log_of(times or self.case.times, [*entries, closing]))

    def to_the_end(self, times=None, without=None):
        """Whether all entries of the branch are possible, up to the last moment that was read."""
        entries = [one[1:] for one in self.case.found.entries if one.number != without]
        closing = mark(max([self.case.found.last] + [one[1] for one in entries[-1:]]))
        return is_possible(self.case.judge.verdict(log_of(times or self.case.times, [*entries, closing])))

    def add(self, question, short_form, words, change, end=None):
        """Notes the answer to a question. `end` asks whether the answer holds up to the last moment that was read."""
        helps = is_possible(words)
        self.rows.append({"question": question, "short": short_form, "helps": helps, "to_the_end": end() if end and helps else None,
                          "is_undecided": words[0] == "undecided", "change": change})

    def header(self, question, short_form, **change):
        """Asks whether the log is legal with a changed header."""
        times = self.case.times._replace(**change)
        self.add(question, short_form, self.words([*self.history, self.case.stop], times), change, lambda: self.to_the_end(times))

    def times(self):
        """Asks whether other times or other rules in the header excuse the breach."""
        times = self.case.times
        for t1 in LATER_T1:
            if t1 > times.t1:
                self.header("Is its T1 %d ms? The header of the log says %d." % (t1, times.t1), "T1 of %d" % t1, t1=t1)
        if self.case.is_invite and times.rules == 3261:
            self.header("Was it built by RFC 6026? The header of the log says rules 3261.", "rules 6026", rules=6026)
        elif self.case.is_invite:
            self.header("Was it built before RFC 6026, by RFC 3261 alone (rules 3261)?", "rules 3261", rules=3261)

    def tolerance(self):
        """Asks for the least tolerance on the side of the breach. What never came has none: only a longer log could tell when it came."""
        case = self.case
        if self.kind in ("never came", "not begun"):
            return None
        # A send that is wrong in another way is asked about with both tolerances.
        sides = {"too early": ["early"], "too late": ["late"]}.get(self.kind, ["early", "late"])
        last = self.facts["sent"]["entry"] if self.kind == "too late" else 0  # where it came after the entry of the breach, it is asked about up to there
        rest = [one for one in case.own_from_breach() if case.at < one.number <= last]
        entries = [*self.history, case.stop, *[one[1:] for one in rest]]

        def with_tolerance(value):
            """The times with at least this tolerance."""
            return case.times._replace(format=2, **{side: max(value, getattr(case.times, side)) for side in sides})

        def words(value):
            """The words that ask whether the log is legal with this tolerance."""
            return self.words(entries, with_tolerance(value))

        least = least_with(lambda value: is_possible(words(value)), min(getattr(case.times, side) for side in sides), self.facts.get("by"))
        value = MOST_TOLERANCE if least is None else least
        change = {"tolerance": value, "sides": sides, **({"entries": [one.number for one in rest]} if rest else {})}
        answer = words(value)
        question = "May its timers be off by %d ms (%s)?%s" % (
            value, ", ".join("%s %d in place of %d" % (side, value, getattr(case.times, side)) for side in sides if value > getattr(case.times, side)),
            " The program is undecided there, and finds no breach." if answer[0] == "undecided" else "")
        self.add(question, "a tolerance of up to %d" % value, answer, change, lambda: self.to_the_end(with_tolerance(value)))
        return least

    def is_silent(self):
        """Whether the transaction may be over by the moment of the breach."""
        return self.case.history.is_over_by(self.case.moment)

    def lacking(self):
        """Asks whether a message that came in, and that the trace lacks, would excuse the breach."""
        case = self.case
        if self.kind == "not begun":
            made = request_for(case.breach.data)
            self.add("Did its request come before the log began, or does the log lack it?", "a request that the log lacks",
                     self.words([("R", case.moment, made), case.stop]), {"insert": [["R", case.moment, latin(made)]]})
            return
        gaps = list(self.gaps())
        for one in case.could_come():
            if one.what == "a 2xx" and self.rows[-1]["helps"] and "a provisional" in self.rows[-1]["question"]:
                continue  # a 2xx excuses what a provisional response does
            self.lacks(one, gaps)

    def gaps(self):
        """The places of the history, with moments, at which a message that came in may be missing. The last places come first."""
        moments = [moment for _, moment, _ in self.history]
        last = self.case.history.last_wait() if self.is_silent() else self.case.moment
        for place in range(len(moments), max(0, len(moments) - GAPS), -1):
            # In each place the message comes with the next entry, and where that is later also with the one before.
            until = moments[place] if place < len(moments) else last
            yield place, until
            if moments[place - 1] < until:
                yield place, moments[place - 1]

    def lacks(self, one, gaps):
        """Whether this message would excuse the breach, had it come in at one of these places."""
        for place, moment in gaps:
            words = self.words([*self.history[:place], one.at(moment), *self.history[place:], self.case.stop])
            if is_possible(words):
                after = self.case.asked()[place - 1].number
                self.add("Does the log lack a message: %s, received at %d, after entry %d?" % (one.what, moment, after), "%s received at %d" % (one.what, moment), words,
                         {"insert": [["R", moment, latin(one.data)]], "after": after})
                return
        # It helps at no place: the question tells from when to when it was tried.
        first, last = gaps[-1][1], gaps[0][1]
        self.add("Does the log lack a message: %s, received from %d to %d?" % (one.what, first, last), "%s received from %d to %d" % (one.what, first, last), words,
                 {"insert": [["R", last, latin(one.data)]]})

    def refused(self):
        """Asks whether the transport refused the last request: it is an F then, and no S."""
        case = self.case
        if case.role != "client" or any(one.letter == "R" for one in case.before):
            return  # a request that was answered was not refused
        asked = case.asked()
        place = max((n for n, one in enumerate(asked) if case.letters[one.number] == "S" and not is_response(one.data)), default=None)
        if place is not None:
            number = asked[place].number
            changed = [*self.history[:place], ("F", *self.history[place][1:]), *self.history[place + 1:]]
            self.add("Did the transport refuse entry %d? A capture does not show that." % number, "entry %d refused by the transport" % number,
                     self.words([*changed, case.stop]), {"letter": {str(number): "F"}})

    def swapped(self):
        """Asks whether neighbours within SKEW ms were noted the wrong way round, one of them being sent and the other received."""
        case = self.case
        own = [one for one in case.before + case.own_from_breach()[:3] if case.letters.get(one.number, one.letter)]
        # The last five pairs of neighbours are asked about.
        for one, other in list(zip(own, own[1:]))[-5:]:
            if "Z" in (one.letter, other.letter) or (one.letter == "R") == (other.letter == "R") or other.moment - one.moment > SKEW:
                continue
            # The entries up to that of the breach, or up to the later one of both.
            order = [entry for entry in own if entry.number <= max(case.at, other.number)]
            # The received one, where it stands first, waited to be read until the other was sent. The sent one, where it stands first, was noted late.
            moment = other.moment if one.letter == "R" else one.moment
            place = order.index(one)
            order[place:place + 2] = [other._replace(moment=moment), one._replace(moment=moment)]
            self.add("Did entry %d come before entry %d? They are %d ms apart." % (other.number, one.number, other.moment - one.moment),
                     "entry %d before entry %d" % (other.number, one.number), self.words([case.as_asked(entry) for entry in order]),
                     {"order": [[entry.number, entry.moment] for entry in order]})

    def copied(self):
        """Asks whether the trace saw a packet twice."""
        case = self.case
        if not case.is_send:
            return
        # Entries before it with the same letter and bytes, at most COPY ms ago.
        alike = [one for one in case.before if one.letter == case.breach.letter and one.data == case.breach.data and case.moment - one.moment <= COPY]
        for twin in alike[:1]:
            self.add("Was a packet seen twice? Entry %d has the bytes of entry %d, %d ms later." % (case.at, twin.number, case.moment - twin.moment),
                     "entry %d seen twice" % case.at, self.words([*self.history, mark(case.moment)]), {"drop": case.at}, lambda: self.to_the_end(without=case.at))

    def late_start(self):
        """Asks whether sends of the same request from before the log excuse a client: the first entry of the log was a repeat then."""
        case = self.case
        first = case.before[0] if case.before else None
        if first is None or case.role != "client" or first.letter != "S" or first.moment > 64 * case.times.t1:
            return
        # `gaps` are the waits from send to send. With `count` sends before it the first entry moves by `shift`.
        gaps = [case.times.t1 * 2 ** n if case.is_invite else min(case.times.t1 * 2 ** n, case.times.t2) for n in range(max(EARLIER_SENDS))]
        for count in EARLIER_SENDS:
            # The sends before come at the waits of timer A or E, and the log's first entry after the next wait.
            moments = [sum(gaps[:n]) for n in range(count)]
            shift = sum(gaps[:count]) - first.moment
            entries = [("S", moment, first.data) for moment in moments] + [(letter, moment + shift, data) for letter, moment, data in [*self.history, case.stop]]
            words = case.judge.verdict(log_of(case.times, entries))
            if is_possible(words):
                self.add("Did the log begin late? Entry %d would be send %d of that request." % (first.number, count + 1), "a late start of the log", words,
                         {"earlier": [moment - shift - first.moment for moment in moments]})
                return
        # None of the counts helps.
        self.add("Did the log begin late?", "a late start of the log", ["breach"], {"earlier": []})

    def restarted(self):
        """Asks whether the element was started anew before the breach."""
        case = self.case
        if case.before:
            moment = case.history.last_wait() if self.is_silent() else case.moment
            self.add("Was the element started anew between %d and %d?" % (case.history.last, moment), "a restart",
                     self.words([*self.history, restart(moment), case.stop]), {"insert": [["Z", moment, ""]]})


def least_with(helps, low, by):
    """The least tolerance above `low` that helps, and None where none does. The program is first asked about the one by which the breach was off."""
    high = MOST_TOLERANCE
    # The breach was off by `by`: with so much more tolerance it mostly goes away, and with 1 less it does not.
    if by is not None and low + by <= high and helps(low + by):
        high = low + by
        if high - 1 <= low or not helps(high - 1):
            return high
        high -= 1
    elif low >= high or not helps(high):
        return None
    while high - low > 1:
        middle = (low + high) // 2
        low, high = (low, middle) if helps(middle) else (middle, high)
    return high


def excuses_of(case, facts):
    """The answers to all questions, and the least tolerance with which there is no breach."""
    asked = Excuses(case, facts)
    # The questions stand in this order in the evidence.
    asked.times()
    least = asked.tolerance()
    asked.lacking()
    if facts["kind"] != "not begun":
        asked.refused()
        asked.late_start()
    asked.swapped()
    asked.copied()
    asked.restarted()
    return {"excuses": asked.rows, "least_tolerance": least}
