"""The survey of a log, put together from those of its parts, which `sipsurvey --part K/N` wrote."""
import subprocess

from sip_lines import die, surveyor

RANKS = {"malformed": 0, "breach": 1, "undecided": 2}  # findings of one entry stand in this order
FOUND, UNDECIDED, STOPPED, NO_ANSWER = 1, 3, 2, 4  # statuses of a survey
# Into how many parts a log may be cut.
MOST_PARTS = 100_000


def survey_of_part(name, part):
    """What sipsurvey writes of a part of a log, and its status."""
    try:
        ran = subprocess.run([surveyor(), "--part", part, name], capture_output=True)
    except OSError as error:
        die("cannot run %s: %s" % (surveyor(), error.strerror), 70)
    return (ran.stdout or ran.stderr).decode("latin-1").splitlines(), ran.returncode


def place(words, number):
    """Where a finding of a part stands among those of the whole: by its entry, by its word, and by the first entry of its transaction. The words after the
    finding's number tell the transaction: role, method, branch, its first entry and its last one."""
    method, first = (words[5], int(words[7])) if words[0] != "malformed" else ("", 0)
    return int(words[1]), RANKS[words[0]], first, method != "CANCEL", number  # the CANCEL that an element sends comes before its INVITE, where both begin


class Parts:
    """The parts of one log. Each line of a part is added as it comes."""

    def __init__(self):
        self.count, self.findings, self.ends, self.wrong = None, [], {}, None

    def add(self, part, line):
        """Adds a line of part K/N."""
        number, _, count = part.partition("/")
        words = line.split()
        self.count = self.count or count
        if not (number.isdigit() and count.isdigit() and 0 < int(number) <= int(count) <= MOST_PARTS) or self.count != count:
            self.wrong = self.wrong or "%s is no part K/N of the same N" % part
        elif words[:1] in (["end"], ["log"]):
            if int(number) in self.ends:
                self.wrong = self.wrong or "part %s is there twice" % part
            self.ends[int(number)] = words
        elif words and words[0] in RANKS and len(words) >= (5 if words[0] == "malformed" else 9):
            self.findings.append((place(words, int(number)), len(self.findings), line))
        else:
            self.wrong = self.wrong or "part %s: %s" % (part, line)

    def fault(self):
        """Why there is no survey of the whole, or None: a part is wrong, is missing, or did not come to its end."""
        if self.count is None:
            return "there is no line"
        missing = [] if self.wrong else [number for number in range(1, int(self.count) + 1) if number not in self.ends]
        if self.wrong or missing:
            return self.wrong or "part %d/%s has no last line" % (missing[0], self.count)
        # The parts must end alike: with as many entries, or at the same fault.
        lasts = {tuple(words[:3] if words[0] == "end" else words) for words in self.ends.values()}
        return None if len(lasts) == 1 else "the parts end otherwise: %s" % " and ".join(" ".join(words) for words in sorted(lasts))

    def lines(self):
        """The findings of the whole in their order, and its last line."""
        yield from (line for _, _, line in sorted(self.findings))
        last = next(iter(self.ends.values()))
        if last[0] == "end":
            last = [*last[:3], "transactions", str(sum(int(words[4]) for words in self.ends.values())), "findings", str(len(self.findings))]
        yield " ".join(last)

    def status(self):
        """The status that the survey of the whole log would end with."""
        words = {place[1] for place, _, _ in self.findings}
        return STOPPED if next(iter(self.ends.values()))[0] == "log" else 0 if not words else UNDECIDED if words == {RANKS["undecided"]} else FOUND


def tell(parts, prefix=""):
    """Prints the survey of the whole, or why there is none. Answers its status."""
    fault = parts.fault()
    if fault:
        print(prefix + "no answer: " + fault, flush=True)
        return NO_ANSWER
    for line in parts.lines():
        print(prefix + line)
    return parts.status()


def worst(statuses):
    """The status to end with, of several: no answer comes before a log that stops, and that before what was found."""
    order = [0, UNDECIDED, FOUND, STOPPED, NO_ANSWER]
    return max(statuses, key=order.index, default=0)
