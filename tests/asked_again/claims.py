"""Every claim of the evidence of one breach is asked of the judge again: the verdict and whose it is, how long the transaction could be silent, what was due
and when, the kind of the breach and its size, and what would put it right. recipes/schema/evidence.json says what form the evidence has and what each
claim means.

A sentence tells each claim that contradicts the judge. Each kind has a meaning of its own here, which is held against the kind that was told."""
import re
from collections import Counter

from case import Case
from excuses import Excuses
from judge import LAST, Entry, mark, read_log
from messages import (PARTS_OF_ACK, ack_of, cancel_of, code_of, is_response, is_same_kind, keys_of, method_of, over_udp, response_to, right_ack, solid, top_via,
                      value, with_branch, with_part_of, wrong_parts)

# The kinds of a breach.
NEVER, EARLY, LATE, BYTES, ACK, STRAY, NONE = "never came", "too early", "too late", "not the same bytes", "not the ACK", "not begun", "not allowed"
KINDS = (NEVER, EARLY, LATE, BYTES, ACK, STRAY, NONE)
MOST_LATER = 3  # how many sends after the breach may be the one that was due

# The timers and sections that may be named of each transaction, by its role and whether its method is INVITE.
# A timer is one letter, as A of an INVITE's client. (RFC 3261 table 4, and M and L of RFC 6026.)
TIMERS = {("client", True): "ABDM", ("client", False): "EFK", ("server", True): "GHIL", ("server", False): "J"}
SECTIONS = {("client", True): ("3261 section 17.1.1", "3261 section 9.1", "3261 section 13.2.2.4", "6026 section 7.2"), ("client", False): ("3261 section 17.1.2",),
            ("server", True): ("3261 section 17.2", "6026 section 7.1", "3261 section 13.3.1.4"), ("server", False): ("3261 section 17.2",)}


def latin(text):
    """The text as bytes, one byte for each sign."""
    return text.encode("latin-1")


class Claims:
    """The evidence of a breach, held against the judge. `told` is the evidence as it was read from its JSON, and `case` the same breach as the checker
    reads it by itself. `wrong` has the sentences that contradict it, `asked` how many claims of each sort were asked."""

    def __init__(self, judge, log, told, chance, density):
        self.judge, self.case = judge, Case(judge, log, chance)
        self.told, self.density = told, density
        self.kind = told.get("kind")
        self.asked, self.wrong = Counter(), []

    def holds(self, what, truth, detail=""):
        """Counts a claim of this kind, and notes it as wrong unless it is true."""
        self.asked[what] += 1
        if not truth:
            self.wrong.append(f"{self.kind}: {what} {detail}".rstrip())
        return truth

    def all(self):
        """Checks each claim of the evidence."""
        if not self.holds("the kind is one of the seven", self.kind in KINDS, self.kind):
            return
        self.of_verdict()
        self.of_transaction()
        self.of_history()
        self.of_silence()
        self.of_kind()
        self.of_rule()
        self.of_rows()
        self.of_repeat()
        {NEVER: self.never_came, LATE: self.too_late, EARLY: self.wrong_moment, BYTES: self.not_the_bytes, ACK: self.not_the_ack, STRAY: self.stray,
         NONE: self.not_allowed}[self.kind]()
        Excuses(self).all()

    # What follows asks whose breach it is.

    def of_verdict(self):
        """Checks what is told of the verdict: its word, its entry and the times."""
        case, told = self.case, self.told
        self.holds("verdict", told["verdict"].split() == case.verdict and told["word"] == "breach" and told["status"] == 1, told["verdict"])
        entry = case.entry(case.at)
        # `is_own` says whether the entry of the verdict concerns the transaction, or only shows its silence.
        wanted = {"number": case.at, "letter": entry.letter, "moment": entry.moment, "is_own": case.at in case.own}
        self.holds("entry of the verdict", told["entry"] == wanted and told["moment"] == entry.moment, str(told["entry"]))
        times = told["times"]
        self.holds("times of the header", all(times[name] == getattr(case.times, name) for name in case.times._fields), str(times))

    def of_transaction(self):
        """Checks what is told of the transaction against its first message."""
        case, own = self.case, self.told["transaction"]
        first = next(case.entry(number).data for number in case.own if case.entry(number).data)
        _, transport, _, branch = top_via(first)
        wanted = {"number": case.number, "role": case.role, "method": case.method.decode(), "branch": branch.decode("latin-1"), "sent_by": case.sent_by.decode("latin-1"),
                  "call_id": value(first, b"call-id").decode("latin-1"), "transport": transport.decode()}
        for name, text in wanted.items():
            self.holds("transaction's " + name, own[name] == text, f"{own[name]}, and not {text}")
        self.holds("transaction's cseq", latin(own["cseq"]).split() == value(first, b"cseq").split(), own["cseq"])
        # The judge lists the transactions of an entry: its last one with a message before the breach has to name this one by its number.
        number = next((number for number in reversed(case.before) if case.entry(number).data), None)
        if number is not None:
            listed = [one[:3] for one in self.judge.listing(case.times, case.entries[:number])]
            self.holds("the judge counts that transaction so", (case.number, case.role, case.method.decode()) in listed, str(listed))

    def of_history(self):
        """Checks the history: that it is possible, and that the breach shows only after it."""
        case, told = self.case, self.told
        history = list(told["history"])
        while history and history[0][1] == "Z":  # a restart before the transaction began changes nothing
            del history[0]
        self.holds("history", history == [[number, case.letters[number]] for number in case.before], str(told["history"]))
        self.holds("history is possible", not case.history or case.is_possible(case.history))
        self.holds("the breach shows after its history", not case.allows(case.last_entry()))
        # A state is listed as its phase and then its parts.
        self.holds("phases are those of the states", told["phases"] == list(dict.fromkeys(state.split()[0] for state in told["states"])))
        listed = self.judge.listing(case.times, case.history) if case.history else []
        states = next((states for _, role, method, states in listed if (role, method) == (case.role, case.method.decode())), [])
        self.holds("the states that the judge lists", told["states"] == states, f"{told['states']}, and not {states}")

    def of_silence(self):
        """Checks how long the element was allowed to be silent."""
        if "last_wait" not in self.told:
            self.holds("what did not begin has no silence", self.kind == STRAY)
            return
        case, last = self.case, self.told["last_wait"]
        self.holds("last moment of silence", last == case.last_silence(), f"{last}, and by halves {case.last_silence()}")
        if last is None:
            self.holds("silence for ever", case.can_be_silent_to(LAST))
        else:
            self.holds("silence up to its last moment", case.can_be_silent_to(last), last)
            self.holds("no silence after its last moment", not case.can_be_silent_to(last + 1), last)

    # What follows asks about windows.

    def windows(self, what, windows, is_right, count=None):
        """Asks about each window at both of its ends and just outside, and about a net of moments between the windows and beside them."""
        case = self.case
        end, start = case.end(), case.start
        # A window without an end goes on to the last moment of silence.
        spans = [(first, end if last is None else last) for first, last in windows]
        self.holds(what + ": a window without an end", all(last is not None or case.last_silence() is None for _, last in windows))
        for first, last in spans:
            self.holds(what + ": first moment", is_right(first), first)
            self.holds(what + ": last moment", is_right(last), last)
            self.holds(what + ": before the first moment", first <= start or not is_right(first - 1), first)
            self.holds(what + ": after the last moment", last >= end or not is_right(last + 1), last)
        # Where no window is told three times as many moments are asked about, since none of them may be right.
        for moment in case.net(spans, count or (self.density if spans else 3 * self.density)):
            is_in = any(first <= moment <= last for first, last in spans)
            self.holds(what + (": within" if is_in else ": outside"), is_right(moment) == is_in, moment)

    def sends(self, letter, data):
        """Whether this message may be sent, by its moment."""
        return lambda moment: self.case.allows(Entry(letter, moment, data))

    def settling(self, letter, data):
        """Whether this message settles what was due, by its moment."""
        return lambda moment: self.case.settles(letter, moment, data)

    # What follows asks of which kind the breach is, by the meaning of each kind.

    def of_kind(self):
        """Checks that the kind is the right one: a stray response comes first, then a silence that was too long, and last what was sent."""
        case = self.case
        if self.is_stray():
            wanted = (STRAY,)
        # The silence ended before the breach showed.
        elif case.end() < case.moment:
            wanted = (LATE,) if self.came_late() else (NEVER, LATE)
        else:
            wanted = self.kinds_of_a_send()
        self.holds("kind by its meaning", self.kind in wanted, f"and not {' or '.join(wanted)}")

    def is_stray(self):
        """Whether the breach is a response before which no request came that it could answer."""
        case = self.case
        entry = case.breach_entry()
        return case.is_own_send() and is_response(entry.data) and not any(one.letter == "R" and not is_response(one.data) for one in case.history)

    def came_late(self):
        """Whether one of the next sends of the transaction would have settled what was due, had it come in time."""
        case = self.case
        # Had the message come at some moment up to the end of the silence, nothing would have been missing.
        for number in case.later_sends(self.told["last_moment"])[:MOST_LATER]:
            letter, _, data = case.entry(number)
            if any(case.settles(letter, moment, data) for moment in case.net([], 12) + [case.end()]):
                return True
        return False

    def kinds_of_a_send(self):
        """The kinds that a wrong send may be of, by what the judge allows in its place."""
        case = self.case
        if not case.is_own_send():
            return ("the breach of a message that the element did not send",)
        letter, moment, data = case.breach_entry()
        # There is a moment at which this very message was allowed: it was early or late.
        windows = [(first, case.end() if last is None else last) for first, last in self.told.get("sent", {}).get("windows", [])]
        if any(self.sends(letter, data)(one) for one in case.net(windows, self.density)):
            return (EARLY, LATE)
        # An ACK that is right once its wrong parts are put right is the wrong ACK.
        is_ack = case.role == "client" and method_of(data) == b"ACK" and bool(case.refusals())
        if is_ack and self.acks_of(data, moment):
            return (ACK,)
        # A message of the same kind that was sent before, and is allowed now, shows that the bytes are wrong.
        others = {one.data for one in case.history if one.letter in "SF" and one.data != data and is_same_kind(one.data, data)}
        if any(case.allows(Entry(letter, moment, other)) for other in others):
            return (BYTES,)
        # Else it was not allowed. An earlier message or another ACK may still have been allowed at another moment, so that these kinds may be told too.
        return (NONE, *([BYTES] if others else []), *([ACK] if is_ack else []))

    def acks_of(self, data, moment):
        """The refusals of which this ACK, once its wrong parts are put right, would be allowed at this moment."""
        case, found = self.case, []
        for response in case.refusals() if case.requests() else []:
            right = right_ack(data, case.requests()[0], response)
            if right != data and case.allows(Entry("S", moment, right)):
                found.append(response)
        return found

    def of_rule(self):
        """Checks that the words of the rule name timers and sections of this transaction."""
        case, rule = self.case, self.told["rule"]
        # A rule may name the timers and the sections of this kind of transaction. After a restart, or for a general rule, another section may stand.
        figure = case.role, case.method == b"INVITE"
        is_restart = any(one.letter == "Z" for one in case.history)
        self.holds("timer of the rule", not rule["timer"] or all(letter in TIMERS[figure] for letter in rule["timer"]), rule["timer"])
        self.holds("section of the rule", any(section in rule["section"] for section in SECTIONS[figure]) or is_restart or rule["section"].endswith("section 17"), rule["section"])
        self.holds("meaning of the rule", len(rule["meaning"]) > 20 and rule["meaning"].endswith("."), rule["meaning"])

    # What follows asks about the pieces of the log that the evidence shows.

    def of_rows(self):
        """Checks the rows of the ladder against the entries."""
        case, before = self.case, None
        # `first_with` has the number of the first own entry with these bytes.
        first_with = {}
        for number, entry in enumerate(case.entries, 1):
            if entry.data and (number in case.own):
                first_with.setdefault(entry.data, number)
        for row in self.told["rows"]:
            entry = case.entry(row["number"])
            self.holds("row's letter and moment", (row["letter"], row["moment"]) == (entry.letter, entry.moment), row["number"])
            self.holds("row's time since the one above", row["since"] == (None if before is None else entry.moment - before), row["number"])
            line = entry.data.split(b"\r\n")[0].decode("latin-1") if row["number"] in case.own else ""
            self.holds("row's first line", row["line"] == line, row["line"])
            # An own entry whose bytes came before names the first entry that has them.
            again = first_with.get(entry.data) if row["number"] in case.own else None
            self.holds("row's entry with the same bytes", row["again"] == (again if again != row["number"] else None), row["number"])
            before = entry.moment

    def of_repeat(self):
        """Checks the small log that shows the breach again."""
        case, repeat = self.case, self.told["repeat"]
        log = latin(repeat["log"])
        verdict = self.judge.verdict(log)
        self.holds("the small log's verdict", repeat["verdict"].split() == verdict and verdict[0] == "breach", " ".join(verdict))
        times, entries = read_log(log)
        self.holds("the small log has the header", times == case.times)
        self.holds("the small log ends at the breach", len(entries) == len(repeat["numbers"]) == int(verdict[1]) and repeat["numbers"][-1] == case.at, verdict[1])
        for number, entry in zip(repeat["numbers"], entries):
            own = case.entry(number)
            # The entries are those of the log; a breach that shows at another's entry has a mark at its moment.
            self.holds("an entry of the small log", entry == own or (number == case.at and entry == mark(own.moment)), number)
        keys = list(dict.fromkeys(key for entry in entries for key in keys_of(entry.letter, entry.data)))
        self.holds("the small log's transaction", keys[int(verdict[3]) - 1] == case.key)

    def of_message(self, one):
        """Whether a message of the evidence is what its words say of it."""
        case, what, data = self.case, one["what"], latin(one["bytes"])
        # The words of a message: the ACK of an entry, an entry's message again, a new response of a class, or a CANCEL.
        named = re.match(r"the ACK of entry (\d+)'s|entry (\d+)'s|(?:a first|another|a new) ([123])xx|a (CANCEL)", what)
        if not self.holds("words that name a message", bool(named), what):
            return
        ack, again, code, cancel = named.groups()
        if ack:
            response = case.entry(int(ack))
            self.holds("an ACK of that entry", method_of(data) == b"ACK" and wrong_parts(data, case.requests()[0], response.data) == [] and one.get("of") == int(ack), what)
        elif again:
            self.holds("a message with the bytes of that entry", case.entry(int(again)).data == data and one.get("of") == int(again), what)
        else:
            # `3xx` stands for 3xx to 6xx.
            self.holds("a message of that kind", str(code_of(data))[0] in ("3456" if code == "3" else code) if code else method_of(data) == cancel.encode(), what)

    # What follows asks about a silence that was too long.

    def deadline(self):
        """Checks the deadline that was missed, and the messages that were due by it."""
        case, told = self.case, self.told
        self.holds("deadline is the last moment of silence", told["deadline"] == case.last_silence() and told["deadline"] < case.moment, told["deadline"])
        owed = self.owed_by(told["deadline"])
        for one in told["due"] + told["together"]:
            self.of_message(one)
            if one["what"].startswith("the ACK of"):
                self.holds("the response of an ACK that was due", case.entry(one["of"]).data in owed, one["what"])
        self.holds("each message that was due once", len({one["bytes"] for one in told["due"]}) == len(told["due"]), ", ".join(one["what"] for one in told["due"]))
        # Each message that alone settles it is asked about at the moments of its windows.
        for one in told["due"]:
            self.windows("due", one["windows"], self.settling(one["letter"], latin(one["bytes"])), self.density // 3)
            self.holds("due has a window", bool(one["windows"]))
        self.due_together()
        self.all_due()
        self.holds("something was due", bool(told["due"] or told["together"]))

    def all_due(self):
        """Checks that the evidence tells each message that alone would have settled what was due, of those that the transaction sent and of the ACKs."""
        case, told = self.case, self.told
        # Each message that was sent before, and the ACK of each refusal, is either named as due or settles nothing at any of these moments.
        named = [latin(one["bytes"]) for one in told["due"]]
        moments = [case.start, case.end()] + [moment for moment in case.net([], 4)]
        for other in {one.data for one in case.history if one.letter in "SF" and method_of(one.data) == case.method}:
            self.holds("what it sent before and was due is told", other in named or not any(case.settles("S", moment, other) for moment in moments))
        for response in case.refusals() if case.requests() else []:
            is_told = any(method_of(one) == b"ACK" and not wrong_parts(one, case.requests()[0], response) for one in named)
            ack = ack_of(case.requests()[0], response)
            self.holds("an ACK that was due is told", is_told or not any(case.settles("S", moment, ack) for moment in moments))

    def owed_by(self, deadline):
        """The messages for which a state of the listing owes something that must be sent by this moment. Over a reliable transport timer D ends at once,
        and all that is owed must be sent before."""
        # A state lists a debt as owes=MESSAGE/DEADLINE/must, where the message is told by the number of an entry of the history.
        found = [(number, until, "reliable=yes" in state) for state in self.told["states"] for number, until in re.findall(r"owes=(\d+)/(\d+)/must", state)]
        return {self.case.history[int(number) - 1].data for number, until, is_reliable in found if is_reliable or int(until) <= deadline}

    def due_together(self):
        """Checks that the messages that were due together settle it together, and that each of them is needed."""
        case, told = self.case, self.told
        until = case.end()
        together = [Entry(one["letter"], until, latin(one["bytes"])) for one in told["together"]]
        if not together:
            return
        self.holds("all together settle it", case.allows(*together, mark(until + 1)))
        for number in range(len(together)):
            # Without one of them the silence is too long still.
            self.holds("each of those together is needed", not case.allows(*together[:number], *together[number + 1:], mark(until + 1)))
        for one in told["together"]:
            self.windows("one of those together", one["windows"], self.sends(one["letter"], latin(one["bytes"])), self.density // 3)

    def never_came(self):
        """Checks that none of the later sends would have settled what was due."""
        case, told = self.case, self.told
        self.deadline()
        wanted = [latin(one["bytes"]) for one in told["due"]]
        for place, number in enumerate(case.later_sends(told["last_moment"])):
            letter, _, data = case.entry(number)
            # A send that is none of the first few is only asked about where it has the bytes of what was due.
            if data in wanted or place < MOST_LATER:
                self.holds("no later send would have settled it", not any(case.settles(letter, moment, data) for moment in case.net([], 6) + [case.end()]), number)
        for row in told.get("near") or []:
            self.near(row)
        if told.get("instead"):
            self.instead(told["instead"])

    def instead(self, told):
        """Checks what was sent in place of what was due, and in what it differs from it."""
        case = self.case
        self.holds("what came instead is the entry of the breach", told.get("entry", case.at) == case.at and case.is_own_send())
        if "line" in told and "bytes" in told:
            self.first_difference(told, case.entry(case.at).data, latin(told["bytes"]))
        for part in told.get("parts", []):
            if isinstance(part, dict):
                self.holds("both values of a part", solid(latin(part["has"])) != solid(latin(part["should"])), part["part"])
                self.holds("the part as it is", self.stands_in(part["has"], case.entry(case.at).data), part["has"])

    def near(self, row):
        """Checks a later message of the same call, and what it lacks to be what was due."""
        case = self.case
        letter, moment, data = case.entry(row["entry"])
        self.holds("near entry", (row["letter"], row["moment"]) == (letter, moment) and row["branch"] == top_via(data)[3].decode("latin-1"))
        self.holds("near entry in words", row["what"] in self.first_line(row["entry"]), row["what"])
        self.holds("near entry is another transaction's", case.key not in keys_of(letter, data))
        # The evidence says of this message only that it is of the same call. Then it must not be, put right, what was due.
        if "would_be" not in row:
            is_ack = letter == "S" and not is_response(data) and method_of(data) == b"ACK" and bool(case.requests())
            rights = [right_ack(data, case.requests()[0], response) for response in case.refusals()] if is_ack else []
            self.holds("near entry is nothing that was due", not any(case.settles("S", min(moment, case.end()), right) for right in rights), row["entry"])
            return
        # What the message would be, had it been right and in time.
        would_be, until = row["would_be"], case.end()
        when, right = moment - would_be["late_by"], latin(would_be["bytes"])
        self.holds("near entry put right settles it", when <= until and case.settles("S", when, right), row["entry"])
        self.holds("near entry as it is does not", not case.settles("S", when, data), row["entry"])
        self.holds("near entry's delay is the least", would_be["late_by"] == max(0, moment - until), would_be["late_by"])
        self.parts(would_be["parts"], data, right, lambda back: case.settles("S", when, back))

    def too_late(self):
        """Checks a message that came after its deadline."""
        case, told = self.case, self.told
        if "deadline" not in told:
            self.wrong_moment()
            return
        self.deadline()
        sent = told["sent"]
        letter, moment, data = case.entry(sent["entry"])
        self.of_message(sent)
        self.holds("late entry", (sent["letter"], sent["moment"], latin(sent["bytes"])) == (letter, moment, data) and moment > case.end())
        if "group" in told:
            self.group(told["group"], sent)
        else:
            self.windows("late", sent["windows"], self.settling(letter, data))
        # It is late by the time since the end of its last window.
        last = sent["windows"][-1][1]
        self.holds("size", told["by"] == moment - last and told["by"] > 0, told["by"])

    def group(self, numbers, sent):
        """Checks several late sends that together would have settled what was due in time."""
        case = self.case
        until = case.end()
        entries = [case.entry(number) for number in numbers]
        self.holds("late ones together settle it", numbers[-1] == sent["entry"] and all(one.moment > until for one in entries)
                   and case.allows(*[Entry(one.letter, until, one.data) for one in entries], mark(until + 1)))
        self.windows("last of the late ones", sent["windows"], self.sends(sent["letter"], latin(sent["bytes"])))

    # What follows asks about a send that was wrong.

    def sent(self):
        """Checks the entry of the breach as the evidence tells it, with its windows."""
        case, sent = self.case, self.told["sent"]
        letter, moment, data = case.breach_entry()
        self.holds("sent entry", (sent["entry"], sent["letter"], sent["moment"], latin(sent["bytes"])) == (case.at, letter, moment, data))
        self.of_message(sent)
        self.windows("sent", sent["windows"], self.sends(letter, data))
        return letter, moment, data

    def wrong_moment(self):
        """Checks by how much a message missed its nearest window."""
        told = self.told
        _, moment, _ = self.sent()
        windows = told["sent"]["windows"]
        if self.holds("has a window", bool(windows)):
            # How long it is to the next window, and how long since the last one. The nearer one tells the kind and the size.
            early = min((first - moment for first, _ in windows if first > moment), default=None)
            late = min((moment - last for _, last in windows if last is not None and last < moment), default=None)
            nearest = min(size for size in (early, late) if size is not None)
            self.holds("size", told["by"] == (early if self.kind == EARLY else late) == nearest, told["by"])

    def not_the_bytes(self):
        """Checks a message that would be right with an earlier entry's bytes."""
        case, told = self.case, self.told
        letter, moment, data = self.sent()
        repair = told["repair"]
        right = latin(repair["bytes"])
        self.holds("at no moment", not told["sent"]["windows"])
        self.holds("what it should be is an earlier entry", case.entry(repair["of"]).data == right and repair["of"] < case.at, repair["of"])
        self.first_difference(repair, data, right)
        if "and_windows" in told:
            self.windows("earlier bytes", told["and_windows"], self.sends(letter, right), self.density // 2)
            self.holds("earlier bytes are not allowed then", not case.allows(Entry(letter, moment, right)))
        else:
            self.holds("earlier bytes are allowed then", case.allows(Entry(letter, moment, right)))

    def first_difference(self, told, data, right):
        """Checks which line of the two messages differs first, and both texts of it."""
        lines, others = data.split(b"\r\n"), right.split(b"\r\n")
        number = told["line"] - 1
        self.holds("first line that differs", lines[:number] == others[:number] and lines[number:number + 1] != others[number:number + 1], told["line"])
        if number < min(len(lines), len(others)):
            self.holds("both texts of that line", (latin(told["has"]), latin(told["should"])) == (lines[number], others[number]))

    def not_the_ack(self):
        """Checks an ACK that belongs to no response that is owed one."""
        case, told = self.case, self.told
        _, moment, data = self.sent()
        self.holds("at no moment", not told["sent"]["windows"])
        if "repair" not in told:
            self.nearly_the_ack(moment, data)
            return
        right = latin(told["repair"]["bytes"])
        self.holds("the response of the ACK in words", self.first_line(told["of"]).endswith(told["of_what"]), told["of_what"])
        self.holds("the ACK put right is allowed", case.allows(Entry("S", moment, right)))
        self.holds("the response of the ACK", case.entry(told["of"]).data in self.acks_of(data, moment), told["of"])
        wanted = wrong_parts(data, case.requests()[0], case.entry(told["of"]).data)
        self.holds("parts of the ACK by 17.1.1.3", sorted(wanted) == sorted(part["part"] for part in told["repair"]["parts"]), ", ".join(wanted))
        self.parts(told["repair"]["parts"], data, right, lambda back: case.allows(Entry("S", moment, back)))

    def first_line(self, number):
        """The first line of the entry's message."""
        return self.case.entry(number).data.split(b"\r\n")[0].decode("latin-1")

    def nearly_the_ack(self, moment, data):
        """Checks that no ACK was allowed at this moment, that a right one was allowed at others, and in which parts the ACK that was sent differs from it. Whether
        each part is needed cannot be asked at this moment, since even the right ACK is not allowed then."""
        case, told = self.case, self.told
        self.holds("no ACK is right then", not self.acks_of(data, moment))
        right = latin(told["right"]["bytes"])
        self.windows("the right ACK", told["and_windows"], self.sends("S", right), self.density // 2)
        self.holds("the right ACK has a window", bool(told["and_windows"]))
        self.holds("the response of the ACK in words", self.first_line(told["of"]).endswith(told["of_what"]), told["of_what"])
        wanted = wrong_parts(data, case.requests()[0], case.entry(told["of"]).data)
        self.holds("parts of the ACK by 17.1.1.3", sorted(wanted) == sorted(part["part"] for part in told["right"]["parts"]), ", ".join(wanted))

    def parts(self, parts, data, right, is_right):
        """Checks the parts of an ACK that have to change: each change is needed, both values stand in the messages, and nothing else was changed."""
        self.holds("parts are named", bool(parts) and all(part["part"] in PARTS_OF_ACK for part in parts))
        for part in parts:
            name = part["part"]
            back = with_part_of(right, data, name)
            self.holds("each part is needed", not is_right(back), name)
            self.holds("both values of a part", solid(latin(part["has"])) != solid(latin(part["should"])), name)
            self.holds("the part as it is", self.stands_in(part["has"], data), f"{name} {part['has']}")
            self.holds("the part as it should be", self.stands_in(part["should"], right), f"{name} {part['should']}")

    @staticmethod
    def stands_in(text, data):
        """Whether the pieces of the text stand in the message."""
        pieces = [solid(latin(piece)) for piece in text.split(", ")]
        return text == "none" or all(piece in solid(data) for piece in pieces)

    def stray(self):
        """Checks a response to which no request came, and the response to one that came."""
        case, told = self.case, self.told
        self.holds("no request came before", self.is_stray())
        if told.get("righted"):
            request, entry = case.entry(told["righted"]["request"]), case.entry(case.at)
            right = Entry(entry.letter, case.moment, latin(told["righted"]["bytes"]))
            self.holds("put right it answers that request", request.letter == "R" and case.is_possible([request, right]))
            self.holds("as it is it does not", not case.is_possible([request, entry]))

    def not_allowed(self):
        """Checks a message that was allowed at no moment, and what was allowed in its place."""
        case, told = self.case, self.told
        letter, moment, data = self.sent()
        self.holds("at no moment", not told["sent"]["windows"])
        self.holds("silence then", told["could_be_silent"] == case.can_be_silent_to(moment))
        for one in told["allowed_then"]:
            self.of_message(one)
            self.holds("allowed then", case.allows(Entry(one["letter"], moment, latin(one["bytes"]))), one["what"])
            self.holds("allowed then and another message", latin(one["bytes"]) != data or one["letter"] != letter, one["what"])
        self.all_allowed_then(moment, data)
        self.without(told["without"])
        # With a branch of its own an ACK would be that of a 2xx, which is no part of the transaction.
        is_own = case.role == "client" and method_of(data) == b"ACK" and case.allows(Entry(letter, moment, with_branch(data, b"z9hG4bKanother")))
        self.holds("with a branch of its own", bool(told["own_branch"]) == is_own)
        # Over UDP throughout, the messages would be possible up to the breach.
        entries = [*case.history, case.breach_entry()]
        is_over_udp = any(one.data and top_via(one.data)[1].upper() != b"UDP" for one in entries) and case.is_possible(
            [one._replace(data=over_udp(one.data)) for one in entries])
        self.holds("over UDP", bool(told["over_udp"]) == is_over_udp)
        self.over_from(told["may_be_over_from"])

    def all_allowed_then(self, moment, data):
        """Checks that the evidence tells each message that could be sent then: of those that the transaction sent, new responses, ACKs, and a CANCEL."""
        case = self.case
        named = [latin(one["bytes"]) for one in self.told["allowed_then"]]
        if not case.requests():
            return

        def may_send(other):
            """Whether another message may be sent at this moment."""
            return other != data and case.allows(Entry("S", moment, other))

        for other in {one.data for one in case.history if one.letter in "SF" and method_of(one.data) == case.method}:
            self.holds("what it sent before and may send again is told", other in named or not may_send(other))
        request = case.requests()[0]
        # A server could send a new response: a provisional one, a 2xx, or one of 3xx to 6xx. Codes that no log has make it a new one.
        for code in (184, 298, 698) if case.role == "server" else ():
            is_told = any(code_of(one) // 100 in ((code // 100,) if code < 300 else (3, 4, 5, 6)) for one in named)
            self.holds("a response that may be sent is told", is_told or not may_send(response_to(request, code)), code)
        if case.role == "client" and case.method == b"INVITE":
            has_cancel = any(method_of(one) == b"CANCEL" for one in named)
            self.holds("a CANCEL that may be sent is told", method_of(data) == b"CANCEL" or has_cancel == case.allows(Entry("S", moment, cancel_of(request))))
            for response in case.refusals():
                is_told = any(method_of(one) == b"ACK" and not wrong_parts(one, request, response) for one in named)
                self.holds("an ACK that may be sent is told", is_told or not may_send(ack_of(request, response)))

    def without(self, number):
        """Checks the entry without which the send would have been allowed."""
        case = self.case
        # The entries of the history by their numbers.
        kept = [one for one in case.before if case.letters[one]]

        def is_right(left_out):
            """Whether the log is right once this entry alone is left out."""
            return case.is_possible([Entry(case.letters[one], *case.entry(one)[1:]) for one in kept if one != left_out] + [case.breach_entry()])

        if number is None:
            # Of the entries after the first only the last four are asked about.
            self.holds("no entry took it away", not any(is_right(one) for one in kept[1:][-4:]))
        else:
            self.holds("without that entry", number in kept and is_right(number), number)
            self.holds("no newer entry took it away", not any(is_right(one) for one in kept if one > number), number)

    def over_from(self, first):
        """The moment from which the transaction may be over: a message that comes after it calls for nothing, or begins the transaction anew."""
        case = self.case
        if not case.requests() or case.role == "client" and case.method != b"INVITE":
            self.holds("no end that can be asked about", first is None)
            return
        probe, after = self.probe_of_end(case.requests()[0])

        def is_over(moment):
            """Whether the transaction may be over by this moment."""
            return case.allows(*[Entry(letter, moment, data) for letter, data in probe], mark(moment + after))

        if first is None:
            self.holds("it is over at no moment, or at all", is_over(case.start) or not is_over(LAST - after))
            return
        self.holds("it may be over", is_over(first), first)
        self.holds("it may not be over before", first <= case.start or not is_over(first - 1), first)
        for moment in case.net([(first, None)], self.density // 3):
            if moment > first:
                self.holds("it may be over later", is_over(moment), moment)

    def probe_of_end(self, request):
        """Messages that are possible only where a transaction is over, and how long after them a mark stands."""
        if self.case.role == "client":
            # A refusal that a client receives calls for an ACK within the tolerance, unless the transaction is over.
            return [("R", response_to(request, 698))], self.case.times.late + 1
        # A server that is over takes its request as a new one, and may answer it by a new provisional response.
        return [("R", request), ("S", response_to(request, 184))], 0
