"""siptrace as a library: verdicts and surveys by libsiptrace.so, through ctypes.

  siptrace.py LIBRARY FILE..            judges the log in each file, and writes a line for each, as the program siptrace does
  siptrace.py LIBRARY --survey FILE..   surveys the log in each file, and writes the lines that the program sipsurvey writes,
                                        without the words for a transaction after its number"""

import ctypes
import os
import sys

# The numbers of library/siptrace.h: of a status, a kind, a unit and an end, and then the names of its reasons.
ANSWERED, NO_MEMORY, NO_ROOM = range(3)
LEGAL, MALFORMED, BREACH, UNDECIDED, LOG_FAULT = range(1, 6)
HEAD, LINE, BODY = range(1, 4)
END_OF_LOG, END_AT_FAULT = range(1, 3)
# The names of the reasons of a message and of a log, in the order of their numbers.
MESSAGE_REASONS = "NoHeadEnd BareLineEnd StartLine FieldLine Value Repeated Missing MethodMismatch NoLength ShortBody LongBody NoCookie"
LOG_REASONS = "Header EntryLine Truncated Order Limit"
REASONS = dict([*enumerate(MESSAGE_REASONS.split(), 1), *enumerate(LOG_REASONS.split(), 20)])


class Verdict(ctypes.Structure):
    """`struct siptrace_verdict` of siptrace.h."""

    _fields_ = [
        ("kind", ctypes.c_uint32),
        *((name, ctypes.c_uint64) for name in "entries transactions entry transaction".split()),
        *((name, ctypes.c_uint32) for name in "reason unit".split()),
        ("line", ctypes.c_size_t),
    ]

    def __str__(self):
        """The verdict as `siptrace` writes it."""
        told = f"{self.reason} {REASONS.get(self.reason)}"
        if self.kind == LEGAL:
            return f"legal entries {self.entries} transactions {self.transactions}"
        if self.kind == MALFORMED:
            unit = {HEAD: "head", LINE: f"line {self.line}", BODY: "body"}[self.unit]
            return f"malformed {self.entry} {unit} {told}"
        if self.kind == LOG_FAULT:
            return f"log fault {self.entry} {told}"
        word = "breach" if self.kind == BREACH else "undecided"
        return f"{word} {self.entry} transaction {self.transaction}"


class Summary(ctypes.Structure):
    """`struct siptrace_summary` of siptrace.h."""

    _fields_ = [
        ("findings", ctypes.c_size_t),
        ("end", ctypes.c_uint32),
        *((name, ctypes.c_uint64) for name in "entries transactions entry".split()),
        ("reason", ctypes.c_uint32),
    ]

    def __str__(self):
        """The last line of a survey, as `sipsurvey` writes it."""
        if self.end == END_OF_LOG:
            return f"end entries {self.entries} transactions {self.transactions} findings {self.findings}"
        return f"log fault {self.entry} {self.reason} {REASONS.get(self.reason)}"


class Seed(ctypes.Structure):
    """`struct siptrace_seed` of siptrace.h."""

    _fields_ = [("bytes", ctypes.c_uint8 * 16)]


class Siptrace:
    """The library at this path, with a random seed."""

    def __init__(self, path):
        self.library = ctypes.CDLL(path)
        self.library.siptrace_judge.argtypes = [ctypes.c_char_p, ctypes.c_size_t, ctypes.POINTER(Seed), ctypes.POINTER(Verdict)]
        self.library.siptrace_judge.restype = ctypes.c_uint32
        room = [ctypes.POINTER(Verdict), ctypes.c_size_t, ctypes.POINTER(Summary)]
        self.library.siptrace_survey.argtypes = [ctypes.c_char_p, ctypes.c_size_t, ctypes.POINTER(Seed), *room]
        self.library.siptrace_survey.restype = ctypes.c_uint32
        self.seed = Seed.from_buffer_copy(os.urandom(ctypes.sizeof(Seed)))

    def judge(self, log):
        """The verdict on the log of these bytes. Raises MemoryError where memory is wanting."""
        verdict = Verdict()
        # A c_char_p made of bytes is not null, and points to as many bytes as the log has.
        if self.library.siptrace_judge(log, len(log), self.seed, verdict) != ANSWERED:
            raise MemoryError
        return verdict

    def survey(self, log):
        """The findings of the log of these bytes, and the summary of the survey. Raises MemoryError where memory is wanting."""
        summary = Summary()
        # Few logs have many findings: where this room is too small, the call says how much is wanted.
        room, status = 4, NO_ROOM
        while status == NO_ROOM:
            findings = (Verdict * room)()
            status = self.library.siptrace_survey(log, len(log), self.seed, findings, room, summary)
            room = summary.findings
        if status != ANSWERED:
            raise MemoryError
        return findings[: summary.findings], summary


def main():
    siptrace = Siptrace(sys.argv[1])
    # With --survey each log is surveyed, and else judged.
    is_survey = sys.argv[2:3] == ["--survey"]
    for path in sys.argv[2 + is_survey :]:
        with open(path, "rb") as file:
            log = file.read()
        if is_survey:
            findings, summary = siptrace.survey(log)
            print(*findings, summary, sep="\n")
        else:
            print(siptrace.judge(log))


if __name__ == "__main__":
    main()
