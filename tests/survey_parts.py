"""What the survey of a random log must be, by verdicts alone: siptrace judges for each transaction a log in which a mark stands for each entry of another
transaction, and for each malformed message a log in which it is the only message. And what any survey says beside its verdicts, as the log tells it."""
import os
import re
import select
import signal
from collections import defaultdict

from random_logs import SILENT, random_log
from reading import read_log, read_message

PATIENCE = 60  # seconds for which a program may be silent
ENVIRONMENT = dict(os.environb)  # posix_spawn would decode and encode os.environ at each call
# A CANCEL, wherever it stands in a message, but not as a part of a longer word.
CANCEL = re.compile(rb"(?<![\w-])CANCEL")


class Program:
    """A program that is run on logs that are held in memory."""

    def __init__(self, path):
        self.path, self.file = os.fspath(path), open(os.memfd_create("log"), "r+b", buffering=0)

    def says(self, log, *words):
        """The lines that it writes, and its status."""
        # The log replaces the one before in memory, and the program reads it from its beginning on.
        os.ftruncate(self.file.fileno(), 0)
        os.pwrite(self.file.fileno(), log, 0)
        os.lseek(self.file.fileno(), 0, os.SEEK_SET)
        ours, theirs = os.pipe()
        actions = [(os.POSIX_SPAWN_DUP2, self.file.fileno(), 0), (os.POSIX_SPAWN_DUP2, theirs, 1)]
        pid = os.posix_spawn(self.path, [self.path, *words], ENVIRONMENT, file_actions=actions)
        os.close(theirs)
        if not select.select([ours], [], [], PATIENCE)[0]:
            os.kill(pid, signal.SIGKILL)  # the program is silent
        with open(ours, "rb") as reader:
            text = reader.read().decode("latin-1")
        return text.splitlines(), os.waitstatus_to_exitcode(os.waitpid(pid, 0)[1])


def status_of_survey(lines):
    """The status that belongs to the lines of a survey."""
    # A fault of the log is 2; else no finding is 0, findings that are all undecided are 3, and any other finding is 1.
    words = {line.split(" ", 1)[0] for line in lines[:-1]}
    return 2 if lines[-1].startswith("log fault") else 0 if not words else 3 if words == {"undecided"} else 1


def verdict_in(line):
    """The verdict that a line of a survey tells: that of its finding, of a fault of the log, or of the counts where nothing is found."""
    words = line.split(" ")
    if words[0] == "end":
        return f"legal {' '.join(words[1:5])}"
    return " ".join(words[:4]) if words[0] in ("breach", "undecided") else line


def words_of(log, key, at):
    """What a line says of a transaction that is in trouble at this entry: role, method, branch, first and last entry."""
    # The last entry is the last that concerns it, or a later restart, which concerns all. The branch is spelled as in the first.
    own = [number for number, one in enumerate(log.entries[:at], 1) if key in one.keys]
    restarts = [number for number, one in enumerate(log.entries[:at], 1) if one.letter == "Z"]
    first = log.entries[own[0] - 1]
    return f"{key[0]} {key[3]} {read_message(first.letter, first.data)[1]} {own[0]} {max(own + restarts)}"


def numbers_of(log):
    """The number of each transaction, in the order of their first entries."""
    numbers = {}
    for one in log.entries:
        for key in one.keys:
            numbers.setdefault(key, len(numbers) + 1)
    return numbers


def as_read(text, lines):
    """The lines of a survey as a reading of the log has them: only the verdict of each finding, and a fault of the log, are those of these lines."""
    found = [verdict_in(line).split(" ") for line in lines if not line.startswith(("end", "log"))]
    fault = [line for line in lines[-1:] if line.startswith("log")]
    # Nothing is read of the entry that has the fault.
    log = read_log(text, {int(words[1]) for words in found if words[0] == "malformed"}, int(fault[0].split(" ")[2]) - 1 if fault else None)
    keys = list(numbers_of(log))
    for words in found:
        if words[0] != "malformed":
            words.append(words_of(log, keys[int(words[3]) - 1], int(words[1])))
    return [*map(" ".join, found), *(fault or [f"end entries {len(log.entries)} transactions {len(keys)} findings {len(found)}"])]


def groups_of(log):
    """The groups of transactions that can be cut apart: each transaction by itself, but two together that one entry concerns."""
    groups = {}
    for one in log.entries:
        # The groups of all transactions that the entry concerns become one.
        joined = frozenset().union(one.keys, *(groups.get(key, ()) for key in one.keys))
        groups.update(dict.fromkeys(joined, joined))
    return set(groups.values())


class Expected:
    """What verdicts tell of a random log: the entry at which each transaction is in trouble, and the word for its trouble."""

    def __init__(self, judge, log):
        self.judge, self.log, self.numbers = judge, log, numbers_of(log)
        self.troubles = {}  # by transaction: entry and word, or None where it has none
        self.unknown = {}  # transactions of which no verdict tells, each with the first entry at which it can be in trouble
        for group in groups_of(log):
            self.look(group)

    def verdict(self, log):
        """The first line that the program writes for the log."""
        lines, status = self.judge.says(log.bytes())
        return lines[0] if lines else f"nothing, status {status}"

    def look(self, group):
        """Asks the verdict of the log of a group."""
        # Of messages only those of this group stay; others are marks.
        part = self.log.part(lambda one: bool(one.keys) and group.issuperset(one.keys))
        words = self.verdict(part).split()
        # The number in the verdict is one among the transactions of the part, and tells which transaction it is.
        found = next(key for key, number in numbers_of(part).items() if number == int(words[3])) if words[0] in ("breach", "undecided") else None
        for key in group:
            self.troubles[key] = (int(words[1]), words[0]) if key == found else None
        if found and len(group) > 1:
            self.look_behind(group, found, int(words[1]))

    def look_behind(self, group, found, at):
        """Looks for the second trouble of a group: of a CANCEL and its INVITE the verdict tells only the first. The CANCEL's own transaction is
        that of a method other than INVITE."""
        for key in group - {found}:
            # The verdict has told of the INVITE. The CANCEL's entries are judged as those of a method CANCEX, which concerns no INVITE.
            if key[3] == "CANCEL":
                own = [one._replace(data=CANCEL.sub(b"CANCEX", one.data), keys=one.keys[:1]) if one.keys[:1] == (key,) else one.mark() if one.letter != "Z" else one
                       for one in self.log.entries]
                words = self.verdict(self.log._replace(entries=own, tail=b"")).split()
                self.troubles[key] = (int(words[1]), words[0]) if words[0] in ("breach", "undecided") else None
            else:
                self.unknown[key] = at

    def faults(self):
        """The line of each malformed message."""
        for number, one in enumerate(self.log.entries, 1):
            if one.is_malformed:
                # A restart stays too, and says nothing of a message that is malformed.
                yield number, self.verdict(self.log.part(lambda it, one=one: it is one))

    def end(self, findings):
        """The last line of the survey: as the log ends, or with the counts."""
        if self.log.tail:
            # The fault of the log is that of marks alone with what stands after them.
            silent = self.log.part(lambda one: False)._replace(tail=self.log.tail)
            return self.verdict(silent)
        return f"end entries {len(self.log.entries)} transactions {len(self.numbers)} findings {findings}"

    def lines(self, said):
        """The lines of the survey. Where no verdict tells of a transaction, the line that the survey says is taken, if it can be right."""
        # At one entry a fault stands first, then breaches and then what is undecided, by the numbers of their transactions.
        found = [((number, 0, 0), line) for number, line in self.faults()]
        for key, at in self.unknown.items():
            told = [line.split() for line in said if line.split()[2:4] == ["transaction", str(self.numbers[key])]]
            # One line may tell of it, and none before the first trouble of its group.
            self.troubles[key] = (int(told[0][1]), told[0][0]) if len(told) == 1 and int(told[0][1]) >= at else None
        for key, trouble in self.troubles.items():
            if trouble:
                entry, word = trouble
                found.append(((entry, 1 if word == "breach" else 2, self.numbers[key]), f"{word} {entry} transaction {self.numbers[key]} {words_of(self.log, key, entry)}"))
        return [line for _, line in sorted(found)] + [self.end(len(found))]


def by_branch(log, lines):
    """The lines of a survey by the branch that they name, with the key of a transaction in place of its number."""
    keys = {number: key for key, number in numbers_of(log).items()}
    found = defaultdict(list)
    for line in lines[:-1]:
        word, entry, rest = line.split(" ", 2)
        # What stands after the number: of a fault its reason, and of a transaction its number first, in whose place its key comes.
        key = None if word == "malformed" else keys[int(rest.split()[1])]
        branch = log.entries[int(entry) - 1].branch if key is None else key[1]
        # In a part the numbers are others, so that the lines of one entry may stand in another order.
        found[branch].append((int(entry), word, rest if key is None else (key, rest.split(" ", 2)[2])))
    return {branch: sorted(it, key=str) for branch, it in found.items()}


def fnv1a(text):
    """FNV-1a of 32 bits."""
    # The numbers 2166136261 and 16777619 are those by which FNV-1a is defined.
    total = 2166136261
    for byte in text:
        total = (total ^ byte) * 16777619 % 2**32
    return total


def share_of(key, count):
    """The part, of so many, into which a transaction falls."""
    # The branch counts in small letters, and parts are numbered from 1 on.
    return fnv1a(b"z9hg4bk" + key[1].lower().encode("latin-1")) % count + 1


def shares_faults(surveyor, told, log, lines, count):
    """The faults of the surveys of the parts of a log, beside that of the whole: each finding of a transaction has to be told by its part, under its number
    among the transactions of the part, and each malformed message by one part."""
    keys, wanted, malformed = sorted(numbers_of(log), key=numbers_of(log).get), defaultdict(list), []
    # `ranks` has the number of each transaction among those of its part.
    ranks = {key: [share_of(it, count) for it in keys[:at + 1]].count(share_of(key, count)) for at, key in enumerate(keys)}
    for line in lines[:-1]:
        word, entry, rest = line.split(" ", 2)
        if word != "malformed":
            key = keys[int(rest.split()[1]) - 1]
            wanted[share_of(key, count)].append(f"{word} {entry} transaction {ranks[key]} {rest.split(' ', 2)[2]}")
    for number in range(1, count + 1):
        part, status = surveyor.says(log.bytes(), "--part", f"{number}/{count}")
        malformed += [line for line in part if line.startswith("malformed")]
        # A part ends as the log does where that has a fault. Else it tells all entries, its own transactions, and its own findings.
        end = lines[-1] if log.tail else f"end entries {len(log.entries)} transactions {[share_of(it, count) for it in keys].count(number)} findings {len(part) - 1}"
        if [line for line in part if not line.startswith("malformed")] != [*wanted[number], end] or status != status_of_survey(part):
            yield f"{told}: part {number}/{count} wanted {wanted[number]} and {end}\n  says {part}, status {status}"
    if sorted(malformed) != sorted(line for line in lines if line.startswith("malformed")):
        yield f"{told}: of {count} parts these tell of malformed messages: {malformed}"


def faults_of(judge, surveyor, number, log):
    """The faults of a log's survey, and how many findings it has."""
    lines, status = surveyor.says(log.bytes())
    told = f"random log {number}"
    if not lines:
        return [f"{told}: nothing is said, status {status}"], []
    # `wanted` are the lines that follow from the verdicts of the branches, each judged alone.
    expected = Expected(judge, log)
    wanted, faults = expected.lines(lines), []
    if lines != wanted or status != status_of_survey(wanted):
        faults.append(f"{told}: wanted {wanted}\n  says {lines}, status {status}")
    # The first finding is the verdict of the whole.
    verdict = judge.says(log.bytes())[0][0]
    if verdict_in(lines[0]) != verdict:
        faults.append(f"{told}: the verdict is {verdict}, and the survey begins with {lines[0]}")
    # The log of each branch alone has the findings of this branch, and of no other.
    whole = by_branch(log, lines)
    for branch in {one.branch for one in log.entries if one.letter not in SILENT}:
        part = log.part(lambda one, branch=branch: one.branch == branch)
        found = by_branch(part, surveyor.says(part.bytes())[0])
        if found != ({branch: whole[branch]} if branch in whole else {}):
            faults.append(f"{told}: the log of branch {branch} has {found}, and the whole {whole.get(branch)}")
    # The log is surveyed in 2 to 5 parts, by its number.
    faults += shares_faults(surveyor, told, log, lines, number % 4 + 2)
    return faults, lines


def check_random(job):
    """Checks the random logs with these numbers: what does not hold, and how often each word was found."""
    siptrace, sipsurvey, seed, numbers = job
    judge, surveyor = Program(siptrace), Program(sipsurvey)
    told, faults = defaultdict(int), []
    for number in numbers:
        wrong, lines = faults_of(judge, surveyor, number, random_log(seed, number))
        faults += wrong
        for line in lines:
            told[line.split()[0]] += 1
        told["logs"] += 1
        told["logs with several troubles"] += len(lines) > 2
    return faults, dict(told)
