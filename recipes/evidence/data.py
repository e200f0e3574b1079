"""The evidence for the verdict on a log, as data. `recipes/schema/evidence.json` tells its form; each writer has it from here."""
import os
import re
import subprocess

from sip_lines import HEADER, call_id, cseq, die, first_line, spelled_branch

from .asking import Judge, log_of, sum_of
from .case import Case, mark
from .excuses import excuses_of
from .faults import log_fault, malformed, undecided
from .finding import Entry, Found, index_beside, index_up_to
from .kinds import kind_of, was_restarted
from .messages import latin, transport_of
from .rules import rule_for
from .sentences import of_breach, of_log_fault, of_malformed, of_undecided

# The number of the form in which the evidence is told as data.
FORMAT = 1
MOST_HEADER = 200  # the longest header, in bytes


def checked(judge, name):
    """The program's answer to the log in a file, its status, and the index of the log, which is made meanwhile. A file without a header has no index."""
    asked = subprocess.Popen([judge.name, "check", name], stdout=subprocess.PIPE)
    judge.asked += 1
    index = index_beside(name, lambda: asked.poll() is not None) if has_header(name) else None
    verdict = asked.communicate()[0].decode("latin-1").strip()
    if asked.returncode not in (0, 1, 2, 3):
        raise SystemExit(asked.returncode if asked.returncode > 0 else 70)  # the program has said why on standard error
    return verdict, asked.returncode, index


def has_header(name):
    """Whether this is a file, which can be read twice, and begins as a log does."""
    if not os.path.isfile(name):
        return False
    try:
        with open(name, "rb") as file:
            return HEADER.match(file.read(MOST_HEADER)) is not None
    except OSError:
        return False


def evidence_of(name, side):
    """All evidence for the verdict on the log with this name."""
    judge = Judge()
    verdict, status, index = checked(judge, name)
    told = {"format": FORMAT, "word": verdict.split(" ")[0], "verdict": verdict, "status": status, "log": name,
            "program": {"name": os.path.basename(judge.name), "sha256": sum_of(judge.name)}}
    for form, tell in FORMS:
        found = form.fullmatch(verdict)
        if found:
            if index is None and not verdict.startswith(("legal ", "log fault 0 ")):
                die("cannot read %s twice: give a file" % name, 4)
            told |= tell(judge, index, name, side, *found.groups())
    return {**told, "questions": judge.asked}


def tell_breach(judge, index, name, side, at, number):
    """The evidence of a breach, by the numbers of the verdict's line."""
    return breach(judge, index, int(at), int(number), side)


def tell_malformed(judge, index, name, side, at, unit, number):
    """The evidence of a message with a fault, by the numbers of the verdict's line."""
    facts = malformed(judge, index_at(index, int(at)), int(at), unit, int(number))
    one = index.entry(int(at))
    return {**facts, "rows": [row_of(one, None, None, side, first_line(one.data))], "repeat": repeat_of(judge, index.times, [one]), "sentence": of_malformed(facts)}


def tell_undecided(judge, index, name, side, at, number):
    """The evidence of an undecided transaction, by the numbers of the verdict's line."""
    found = found_in(index, int(at), int(number))
    facts = undecided(judge, found, int(at), transaction_told(Case(judge, found, int(at), int(number))))
    return {**facts, "sentence": of_undecided(facts)}


def tell_log_fault(judge, index, name, side, at, number):
    """The evidence of a log that cannot be read on, by the numbers of the verdict's line."""
    if index is not None:
        index_up_to(index, int(at))
    facts = {"word": "log fault", **log_fault(index, name, int(at), int(number))}
    return {**facts, "sentence": of_log_fault(facts)}


def tell_legal(judge, index, name, side, entries, transactions):
    """What is told of a legal log."""
    return {"sentence": "Nothing is wrong in these %s entries." % entries}


# The forms of the program's last line, each with what tells it.
FORMS = [(re.compile(form), tell) for form, tell in (
    (r"breach (\d+) transaction (\d+)", tell_breach), (r"malformed (\d+) (head|body|line \d+) (\d+) \w+", tell_malformed),
    (r"undecided (\d+) transaction (\d+)", tell_undecided), (r"log fault (\d+) (\d+) \w+", tell_log_fault),
    (r"legal entries (\d+) transactions (\d+)", tell_legal))]


def index_at(index, at):
    """The index of the log, which has to reach this entry."""
    return index if index_up_to(index, at) else die("the log has no entry %d: it was changed meanwhile" % at)


def found_in(index, at, number):
    """The transaction with this number, as the log has it up to this entry."""
    key = index_at(index, at).key_of(number)
    return Found(index, at, key) if key else die("siptrace numbers the transactions of this log otherwise than this script")


def breach(judge, index, at, number, side):
    """The evidence of a breach."""
    found = found_in(index, at, number)
    case = Case(judge, found, at, number)
    if not case.is_shown():
        die("the branch of transaction %d alone does not show the breach: siptrace numbers the transactions otherwise than this script" % number)
    facts = kind_of(case)
    one = found.entry(at)
    facts |= {"entry": {"number": at, "letter": one.letter, "moment": one.moment, "is_own": case.breach is not None}, "times": case.times._asdict(),
              "last_moment": found.last, "transaction": transaction_told(case), **excuses_of(case, facts)}
    timer, section, meaning = rule_for(case.role, case.is_invite, facts["act"], facts["phases"], facts.get("over_udp"), was_restarted(case, facts))
    facts |= {"rule": {"timer": timer, "section": section, "meaning": meaning}, "rows": rows_of(case, facts, side),
              "repeat": repeat_of(judge, case.times, branch_up_to_breach(case)), "undecided": judge.undecided}
    return {**facts, "sentence": of_breach(facts)}


def transaction_told(case):
    """What tells a transaction: its number and key, and the call of its first message."""
    first = next((one for one in case.before if one.data), case.breach)
    return {"number": case.number, "role": case.role, "method": latin(case.method), "branch": latin(spelled_branch(first.data)), "sent_by": latin(case.sent_by),
            "call_id": latin(call_id(first.data)), "cseq": latin(b" ".join(cseq(first.data))), "transport": transport_of(first.data)}


def row_of(one, before, again, side, line):
    """An entry as a row of the ladder: with the entry before it, and the one that it repeats, if there is one."""
    return {"number": one.number, "letter": one.letter, "moment": one.moment, "since": None if before is None else one.moment - before.moment, "line": line,
            "again": again, **side.of(one.number, one.moment)}


def rows_of(case, facts, side):
    """The rows of the transaction's entries, up to that of the breach, or up to the one that came too late."""
    entries = list(case.before) + [case.breach or case.found.entry(case.at)]
    # Of a message that came too late the rows go on to its entry.
    late = facts["sent"]["entry"] if facts["kind"] == "too late" else case.at
    entries += [one for one in case.after if case.at < one.number <= late]
    own = {one.number for one in case.before + case.own_from_breach()}
    first, rows, before = {}, [], None
    for one in entries:
        is_message = one.number in own and one.data
        # The first entry of the transaction that has these bytes.
        again = first.setdefault(one.data, one.number) if is_message else one.number
        rows.append(row_of(one, before, None if again == one.number else again, side, first_line(one.data) if is_message else ""))
        before = one
    return rows


def branch_up_to_breach(case):
    """The entries of the branch, and a mark where the breach shows at an entry of another one."""
    entries = [one for one in case.found.entries if one.number <= case.at]
    if not entries or entries[-1].number != case.at:
        entries.append(Entry(case.at, *mark(case.moment)))
    return entries


def repeat_of(judge, times, entries):
    """A log of these entries, and the program's answer to it: with them the verdict can be shown again."""
    log = log_of(times, [one[1:] for one in entries])
    return {"log": latin(log), "verdict": " ".join(judge.verdict(log)), "numbers": [one.number for one in entries]}
