"""What would excuse a breach is asked again: each question of the evidence changes the log or its header, and the judge says whether the breach is gone."""
import re

from judge import Entry, mark, write_log
from messages import is_response, method_of, top_via
from texts import numbers_in

MOST_PLACES = 4  # how many places of a history are tried for a message that may have come sooner
SKEW, COPY = 3, 50  # in milliseconds: neighbours this close may have changed places, and a copy of a packet comes within the other


class Excuses:
    """The excuses of the evidence of a breach, held against the judge by its claims."""

    def __init__(self, claims):
        self.claims, self.case, self.told = claims, claims.case, claims.told

    def all(self):
        """Checks each excuse, by the change that it asks about, and that none is left out."""
        for row in self.told["excuses"]:
            change = row["change"]
            # What the question is about is the part that its change names.
            asked = next(name for name in ("t1", "rules", "tolerance", "insert", "letter", "order", "drop", "earlier") if name in change)
            getattr(self, "ask_" + asked)(row, change)
            self.question_names(row, change)
            self.to_the_end(row, change)
        self.all_are_asked()

    def question_names(self, row, change):
        """Checks that the question names the numbers of its change, and no numbers that are neither of the log nor of the evidence."""
        wanted = [change[name] for name in ("t1", "rules", "tolerance", "drop") if name in change]
        wanted += [int(number) for number in change.get("letter", {})] + [moment for letter, moment, _ in change.get("insert", []) if self.told["kind"] != "not begun"]
        # The numbers of the question, but those of RFCs and of classes of responses, as 2xx.
        said = set(re.findall(r"\d+", re.sub(r"RFC \d+|\b\dxx\b", "", row["question"])))
        holds = self.claims.holds
        holds("a question names its numbers", all(re.search(rf"\b{number}\b", row["question"]) for number in wanted), row["question"])
        # A late start names which send of the request the first entry would be.
        holds("no question names other numbers", said <= self.numbers_known() | {str(len(change.get("earlier", [])) + 1)} | numbers_in(change), row["question"])

    def numbers_known(self):
        """The numbers of the evidence beside those of its questions, and the differences of the moments of the transaction's entries."""
        if not hasattr(self, "known"):
            moments = [self.case.entry(number).moment for number in self.case.own]
            differences = {str(abs(one - other)) for one in moments for other in moments if abs(one - other) <= COPY}
            self.known = differences | numbers_in({name: value for name, value in self.told.items() if name not in ("sentence", "excuses")})
        return self.known

    def says(self, what, row, is_excuse, detail=""):
        """Checks that the row says whether the change is an excuse."""
        self.claims.holds("excuse by " + what, is_excuse == row["helps"], f"{row['question']} {detail}")
        self.claims.holds("excuse that is undecided", not row["is_undecided"] or row["helps"], row["question"])

    def is_gone(self, entries, times=None):
        """Whether there is no breach in these entries and a mark with which the log reaches the moment of the breach."""
        return self.case.is_possible([*entries, mark(max(self.case.moment, entries[-1].moment))], times)

    def times_with(self, change):
        """The times of the header, with this change."""
        times = self.case.times
        if "tolerance" in change:
            # A tolerance is never made smaller than the header has it.
            return times._replace(**{side: max(change["tolerance"], getattr(times, side)) for side in change["sides"]})
        return times._replace(**{name: change[name] for name in ("t1", "rules") if name in change})

    def of_branch(self):
        """The numbers of all entries of the branch, with the restarts among them, up to the moment to which the evidence was read."""
        case, branch = self.case, self.case.branch
        for number, (letter, moment, data) in enumerate(case.entries, 1):
            if moment <= self.told["last_moment"] and (letter == "Z" or data and top_via(data)[3].lower() == branch):
                yield number

    def to_the_end(self, row, change):
        """Checks that the whole branch is possible with the change, where the evidence says so."""
        if row["to_the_end"] is None:
            return
        case = self.case
        entries = [case.entry(number) for number in self.of_branch() if number != change.get("drop")]
        words = case.judge.verdict(write_log(self.times_with(change), [*entries, mark(self.told["last_moment"])]))
        self.claims.holds("excuse to the end of the log", row["to_the_end"] == (words[0] in ("legal", "undecided")), f"{row['question']} {' '.join(words)}")

    def with_breach(self):
        """The entries up to the breach."""
        return [*self.case.history, self.case.last_entry()]

    def ask_t1(self, row, change):
        """Asks about another T1."""
        self.says("T1", row, self.is_gone(self.with_breach(), self.times_with(change)))

    def ask_rules(self, row, change):
        """Asks about the other rules."""
        self.says("rules", row, self.is_gone(self.with_breach(), self.times_with(change)))

    def ask_tolerance(self, row, change):
        """Asks about the tolerance, and whether one less is no excuse."""
        case = self.case
        entries = self.with_breach() + [case.entry(number) for number in change.get("entries", [])]

        def is_gone(tolerance):
            """Whether the breach is gone with this tolerance."""
            return self.is_gone(entries, self.times_with({**change, "tolerance": tolerance}))

        self.says("tolerance", row, is_gone(change["tolerance"]), change["tolerance"])
        if row["helps"]:
            self.claims.holds("one less of tolerance is no excuse", not is_gone(change["tolerance"] - 1), change["tolerance"])
            low = min(getattr(case.times, side) for side in change["sides"])
            for _ in range(3):
                less = case.chance.randint(low, change["tolerance"] - 1)
                self.claims.holds("a smaller tolerance is no excuse", not is_gone(less), less)
            self.claims.holds("least tolerance", self.told["least_tolerance"] == change["tolerance"])

    def ask_insert(self, row, change):
        """Asks again whether the messages that are put in excuse the breach."""
        more = [Entry(letter, moment, data.encode("latin-1")) for letter, moment, data in change["insert"]]
        history = [] if self.told["kind"] == "not begun" else list(self.case.history)
        after = self.place_after(change.get("after"))
        # The messages are put in after this many entries.
        history, rest = history[:after], history[after:]
        self.says("a message that the log lacks", row, self.is_gone([*history, *more, *rest, self.case.last_entry()]))
        if more[0].letter == "Z":
            self.restarts_between(row, more[0].moment)
        # The question says that no message of this kind, come between two moments, would excuse the breach.
        elif not row["helps"] and (tried := re.search(r" received from (\d+) to \d+\?", row["question"])):
            self.not_sooner_either(row, more[0], int(tried[1]))

    def place_after(self, number):
        """How many entries of the history come up to this entry; all of them where no entry is named."""
        if number is None:
            return len(self.case.history)
        return len([one for one in self.case.before if self.case.letters[one] and one <= number])

    def restarts_between(self, row, last):
        """Checks that a restart may come at any moment between those that the question names."""
        start = self.case.start
        for moment in {start, self.case.chance.randint(start, max(start, last))}:
            gone = self.is_gone([*self.case.history, Entry("Z", moment, b""), self.case.last_entry()])
            self.claims.holds("a restart at each moment between", gone == row["helps"], f"{row['question']} {moment}")

    def not_sooner_either(self, row, message, first):
        """Checks a message that came by a moment and may have come sooner, but after `first`: after each entry of the history, at its moment or just before
        the next one."""
        history = self.case.history
        for place in self.case.chance.sample(range(1, len(history) + 1), min(MOST_PLACES, len(history))):
            following = history[place].moment if place < len(history) else message.moment
            for moment in {history[place - 1].moment, following}:
                # Of the places at `first` not all were tried.
                if moment <= first:
                    continue
                sooner = [*history[:place], message._replace(moment=moment), *history[place:], self.case.last_entry()]
                self.claims.holds("a message that came sooner excuses it no more", not self.is_gone(sooner), f"{row['question']} {moment}")

    def ask_letter(self, row, change):
        """Asks about a send that the transport refused."""
        case = self.case
        # The change names by its number each entry that gets the letter F.
        entries = [Entry(change["letter"].get(str(number), case.letters[number]), *case.entry(number)[1:]) for number in case.before if case.letters[number]]
        self.says("a refusal of the transport", row, self.is_gone([*entries, case.last_entry()]))

    def ask_order(self, row, change):
        """Asks about neighbours that were noted the wrong way round."""
        case = self.case
        entries = [Entry(case.letters.get(number) or case.entry(number).letter, moment, case.entry(number).data) for number, moment in change["order"]]
        self.says("another order", row, self.is_gone(entries))
        kept = sorted(number for number, _ in change["order"])
        turned = [number for number, _ in change["order"]]
        # Two places that follow one another have each other's entry, and no moment moved by more than SKEW.
        places = [place for place, (one, other) in enumerate(zip(kept, turned)) if one != other]
        near = all(abs(moment - case.entry(number).moment) <= SKEW for number, moment in change["order"])
        self.claims.holds("neighbours alone changed places", len(places) == 2 and places[1] == places[0] + 1 and near)

    def ask_drop(self, row, change):
        """Asks about a packet that was captured twice."""
        case = self.case
        self.says("a packet seen twice", row, case.can_be_silent_to(case.moment))
        twins = [one for one in case.history if one.data == case.entry(case.at).data and case.moment - one.moment <= COPY]
        self.claims.holds("a copy is of the same bytes and near", change["drop"] == case.at and bool(twins))

    def ask_earlier(self, row, change):
        """Asks about sends of the first request before the log began."""
        case = self.case
        if not change["earlier"]:
            self.claims.holds("a late start with no send before", not row["helps"])
            self.no_start_is_late()
            return
        first = next(one for one in case.history if one.data)
        # The earlier sends have moments before the log, below zero. All is moved so that the first of them is at 0.
        shift = -change["earlier"][0] - first.moment
        earlier = [Entry("S", first.moment + moment + shift, first.data) for moment in change["earlier"]]
        rest = [one._replace(moment=one.moment + shift) for one in self.with_breach()]
        self.says("a late start", row, earlier[-1].moment <= rest[0].moment and case.is_possible(earlier + rest))

    def no_start_is_late(self):
        """Checks that none of one to five sends of the first request before the log excuses the breach, each repeated as timer A or E says."""
        case = self.case
        first = next((one for one in case.history if one.data), None)
        if first is None or self.told["kind"] == "not begun":
            return
        gaps = [case.times.t1 * 2 ** n if case.method == b"INVITE" else min(case.times.t1 * 2 ** n, case.times.t2) for n in range(5)]
        for count in range(1, 6):
            # The sends before, at the intervals of the timer, and as the last of these moments that of the log's first entry.
            moments = [sum(gaps[:n]) for n in range(count + 1)]
            earlier = [Entry("S", moment, first.data) for moment in moments[:-1]]
            rest = [one._replace(moment=one.moment - first.moment + moments[-1]) for one in self.with_breach()]
            self.claims.holds("no start is late", not case.is_possible(earlier + rest), count)

    def all_are_asked(self):
        """Checks that the evidence asks every question that the breach calls for."""
        case, told, holds = self.case, self.told, self.claims.holds
        # `changes` are what was asked about, each as what would be changed in the log.
        changes = [row["change"] for row in told["excuses"]]
        # A T1 that is not greater than that of the header cannot be asked about.
        for t1 in (1000, 2000):
            holds("T1 is asked about", t1 <= case.times.t1 or any(change.get("t1") == t1 for change in changes), t1)
        if case.method == b"INVITE" and case.times.rules != 3261:
            holds("the rules of RFC 3261 are asked about", any(change.get("rules") == 3261 for change in changes))
        has_tolerance = any("tolerance" in change for change in changes)
        if told["kind"] in ("never came", "not begun"):
            holds("what never came has no tolerance", not has_tolerance and told["least_tolerance"] is None)
        else:
            holds("the tolerance is asked about", has_tolerance)
        if case.is_own_send() and any(one.data == case.entry(case.at).data and case.moment - one.moment <= COPY and one.letter == case.entry(case.at).letter for one in case.history):
            holds("a packet seen twice is asked about", any("drop" in change for change in changes))
        # A client whose first entry is its own request may have sent it before the log began.
        first = next((one for one in case.history if one.data), None)
        if case.role == "client" and first is not None and first.letter == "S" and not is_response(first.data) and method_of(first.data) == case.method \
                and first.moment <= 64 * case.times.t1:
            holds("a late start is asked about", any("earlier" in change for change in changes))
