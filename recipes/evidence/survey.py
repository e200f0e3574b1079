"""Each transaction of a log that is in trouble, and not only the first: what `sipsurvey` says of the log, with the entries of each transaction."""
import subprocess
import tempfile
from collections import defaultdict
from itertools import islice
from operator import le
from typing import NamedTuple

from sip_lines import call_id, cseq, die, first_line, is_response, method_of, spelled_branch, surveyor

from .asking import Judge, log_of
from .case import Case, mark
from .faults import MOST_STATES
from .finding import OF_ALL, Entry, Found, Index, keys_or_none, sum_of_branch
from .kinds import kind_of
from .messages import is_request, latin
from .rules import fault_told
from .sentences import of_breach, of_malformed, of_undecided

# The number of the form in which the evidence of a survey is told as data.
FORMAT = 1


class Trouble(NamedTuple):
    """A transaction in trouble; or a message that is malformed, which has no key."""
    word: str
    at: int  # the entry of the whole log at which the trouble shows
    key: tuple
    first: Entry
    fault: int = 0

    @property
    def role(self):
        """The role of the transaction in trouble; of a message with a fault, that which its first entry tells."""
        is_client = (self.first.letter in ("S", "F")) != is_response(self.first.data)
        return self.key[0] if self.key else "client" if is_client else "server"

    @property
    def method(self):
        """The method of the transaction in trouble."""
        data = self.first.data
        return latin(self.key[3] if self.key else cseq(data)[1] if is_response(data) else method_of(data))

    @property
    def branch(self):
        """The branch as the first message spells it."""
        return latin(spelled_branch(self.first.data))

    @property
    def call(self):
        """The Call-ID of the first message."""
        return latin(call_id(self.first.data))


def read_whole(index):
    """The index, read to the end of the log."""
    while index.read():
        pass
    return index


class Surveying:
    """`sipsurvey` on a log, which runs beside whatever else is done with the log."""

    def __init__(self, name):
        self.text = tempfile.TemporaryFile()
        self.process = subprocess.Popen([surveyor(), name], stdout=self.text, stderr=subprocess.PIPE)

    def findings(self):
        """The words of each finding, as sipsurvey writes them."""
        said = self.process.communicate()[1].decode("latin-1").strip()
        if said:
            die(said, 4)
        self.text.seek(0)
        # The last line has the sums of the survey, and is no finding.
        *lines, _ = self.text.read().decode("latin-1").splitlines()
        return [line.split() for line in lines]


class Survey:
    """A log in which all that is in trouble is looked for."""

    def __init__(self, name):
        survey = Surveying(name)
        self.judge, self.index = Judge(), read_whole(Index(name))
        self.check_order()
        found = survey.findings()
        # Malformed entries are left out of the index that is asked.
        self.malformed = {int(words[1]) for words in found if words[0] == "malformed"}
        if self.malformed:
            self.index = read_whole(Index(name, self.malformed))
        self.times, self.count = self.index.times, len(self.index.places)
        self.last = self.index.moments[-1] if self.count else 0
        self.restarts = [number for number, one in enumerate(self.index.branches, 1) if one == OF_ALL]
        # 0 and OF_ALL are the sums of a mark and of a restart.
        self.branches = len(set(self.index.branches) - {0, OF_ALL})
        self.found = defaultdict(list)  # the findings, by the sum of their branch
        for words in found:
            self.add(words, int(words[1]))

    def check_order(self):
        """Ends the script where the log cannot be read to its end."""
        index = self.index
        # The first entry whose moment is before that of the one before it. Place n of the pairs is that of the entries n + 1 and n + 2.
        fault = next((n + 2 for n, is_right in enumerate(map(le, index.moments, islice(index.moments, 1, None))) if not is_right), None)
        if fault is None and index.place < len(index.text):
            fault = len(index.places) + 1
        if fault is not None:
            die("entry %d cannot be read: see `siptrace check`" % fault, 2)

    def add(self, words, at):
        """Notes the words of a finding at an entry, by the branch."""
        if words[0] == "malformed":
            first = self.index.entry(at)
            branch = self.index.branches[at - 1]
            self.found[branch].append(Trouble(words[0], at, (), first, int(words[4 if words[2] == "line" else 3])))
        else:
            # After the number of the transaction stand its role, its method, its branch, its first entry and its last one.
            role, method, _, number, _ = words[4:]
            first = self.index.entry(int(number))
            key = next(key for key in keys_or_none(first.letter, first.data) if (key[0], key[3]) == (role, method.encode("latin-1")))
            self.found[sum_of_branch(key[1])].append(Trouble(words[0], at, key, first))

    def troubled(self):
        """The entries of each branch in which something was found, in the order of the branches' first entries."""
        numbers = {branch: [] for branch in self.found}
        for number, branch in enumerate(self.index.branches, 1):
            if branch in numbers:
                numbers[branch].append(number)
        return [self.entries_of(own) for own in sorted(numbers.values())]

    def entries_of(self, numbers):
        """The entries of a branch with these numbers, with the restarts after the first of them."""
        return [self.index.entry(number) for number in sorted([*numbers, *(number for number in self.restarts if number > numbers[0])])]

    def log_of(self, entries, moment=None):
        """The log of these entries of a branch. A mark closes it, at this moment or at the last one of the whole log."""
        return log_of(self.times, [*(one[1:] for one in entries), mark(max(self.last if moment is None else moment, entries[-1].moment))])

    def troubles(self, entries):
        """What was found in the entries of one branch, each transaction once."""
        return self.found[self.index.branches[entries[0].number - 1]]

    def heard(self, entries):
        """These entries without those that are malformed, which concern no transaction."""
        return [one for one in entries if one.number not in self.malformed]

    def evidence(self, trouble, entries):
        """The kind, the size and the sentence of a trouble."""
        if trouble.word == "malformed":
            one = trouble.first
            return None, None, of_malformed({"entry": one._asdict(), "whose": "received" if one.letter == "R" else "sent", "fault": fault_told(trouble.fault)})
        number = self.index.number_of(trouble.key)
        if trouble.word == "undecided":
            return None, None, of_undecided({"entry": {"number": trouble.at}, "transaction": {"number": number}, "most_states": MOST_STATES})
        case = Case(self.judge, Found(self.index, trouble.at, trouble.key, self.heard(entries)), trouble.at, number)
        if not case.is_shown():
            return None, None, "Its transaction alone does not show the breach."
        facts = kind_of(case)
        return facts["kind"], facts.get("by"), of_breach(facts)


def key_of_number(entries, number):
    """The key of the transaction with this number in the log of these entries. Keys are numbered as the program numbers them."""
    numbers = {}
    for one in entries:
        for key in keys_or_none(one.letter, one.data) if one.data else []:
            if numbers.setdefault(key, len(numbers) + 1) == number:
                return key
    die("siptrace numbers the transactions of this log otherwise than this script")


def without(entries, key):
    """The entries of a branch without one of its transactions. A CANCEL is a step of the INVITE's transaction too: the first CANCEL stays there as a send
    that the transport refused, which ends the CANCEL's own transaction."""
    kept, has_cancelled = [], False
    for one in entries:
        is_of = bool(one.data) and keys_or_none(one.letter, one.data)[:1] == [key]
        if is_of and key[0] == "client" and is_request(one.data, b"CANCEL") and not has_cancelled:
            kept.append(one._replace(letter="F"))
            has_cancelled = True
        elif not is_of:
            kept.append(one)
    return kept


def line_of(trouble, evidence, index):
    """A trouble as data, in the form of recipes/schema/trouble.json."""
    kind, by, sentence = evidence
    return {"format": FORMAT, "word": trouble.word, "entry": trouble.at, "moment": index.moments[trouble.at - 1], "role": trouble.role, "method": trouble.method,
            "branch": trouble.branch, "call_id": trouble.call, "first_entry": trouble.first.number, "first_moment": trouble.first.moment,
            "first_line": first_line(trouble.first.data), "kind": kind, "by": by, "sentence": sentence}
