"""What a survey takes beside a verdict: what bench/judge.sh counts and times under the word survey. Its words are the programs siptrace and sipsurvey.

On logs without trouble both read the same entries. Then 50,000 and 100,000 clients fall silent at one moment, beside the same log that ends a millisecond
earlier."""

import subprocess
import sys
import tempfile
from pathlib import Path

from judge import COUNTED, COUNTED_WIDE, KINDS, check_legal, measured, name_of, small, wide, write_entries, write_log

# What counts the instructions of a program.
VALGRIND = ["valgrind", "--tool=callgrind", "--callgrind-out-file=/dev/null"]
# How many transactions a log has that all fall silent at one moment: twice as many should take twice the seconds.
CLIENTS = (50_000, 100_000)
# How many entries a log has that is timed.
TIMED = 100_000
# How often each run is timed: the least time counts.
ROUNDS = 5


def instructions(command):
    """How many instructions a command takes, and what the command writes."""
    run = subprocess.run([*VALGRIND, *command], capture_output=True, text=True)
    total = next(line.split()[-1] for line in run.stderr.splitlines() if "Collected" in line)
    return int(total), run.stdout.encode()


def commands(programs, log):
    """The command that writes the verdict, and the command that writes the survey."""
    siptrace, sipsurvey = programs
    return [siptrace, "check", log], [sipsurvey, log]


def check_survey(kind, entries, verdict, survey):
    """Ends the script unless the log is legal and its survey finds nothing."""
    check_legal(kind, entries, verdict)
    # `legal entries N transactions M` becomes `end entries N transactions M findings 0`.
    if survey != verdict.replace(b"legal", b"end").rstrip() + b" findings 0\n":
        sys.exit(f"{name_of(kind)}: {survey[:200]!r}")


def print_counted(programs, folder):
    """Counts what an entry takes of a verdict and of a survey, and prints both beside each other."""
    print(f"{'instructions, an entry':<24} {'verdict':>9} {'survey':>9} {'times':>6}")
    for kind in KINDS:
        log, got = folder / "log", []
        for size in COUNTED_WIDE if kind is wide else COUNTED:
            count = write_log(log, kind, size)
            (before, verdict), (after, survey) = map(instructions, commands(programs, log))
            check_survey(kind, count, verdict, survey)
            got.append((count, before, after))
        # What the longer log takes more, by its further entries: of the verdict, and of the survey.
        (few, *less), (many, *more) = got
        verdict, survey = [(b - a) / (many - few) for a, b in zip(less, more)]
        print(f"{name_of(kind):<24} {verdict:>9.0f} {survey:>9.0f} {survey / verdict:>6.3f}", flush=True)


def seconds_of(commands):
    """The fewest processor seconds of each command, and what each writes. The commands are run in turn."""
    least, texts = [float("inf")] * len(commands), [b""] * len(commands)
    for _ in range(ROUNDS):
        for at, command in enumerate(commands):
            texts[at], seconds, _, _ = measured(command)
            least[at] = min(least[at], seconds)
    return least, texts


def print_timed(programs, folder):
    """Prints how long the verdict and the survey of a log of each kind take."""
    print(f"{'seconds':<24} {'verdict':>9} {'survey':>9} {'times':>6}")
    for kind in KINDS:
        log = folder / "log"
        count = write_log(log, kind, TIMED // 10 if kind is wide else TIMED)
        (verdict, survey), texts = seconds_of(commands(programs, log))
        check_survey(kind, count, *texts)
        print(f"{name_of(kind):<24} {verdict:>9.3f} {survey:>9.3f} {survey / verdict:>6.3f}", flush=True)


def print_silent(programs, folder, clients):
    """Prints what a survey takes of so many clients whose request has to be sent again by 550."""
    logs = [folder / "in time", folder / "late"]
    for log, moment in zip(logs, (550, 551)):
        requests = (("S", 0, small("OPTIONS sip:b@example.com SIP/2.0", "OPTIONS", number)) for number in range(clients))
        write_entries(log, [*requests, ("M", moment, "")])
    # By 550 all may be silent, and at 551 all are late at once.
    verdict, *surveys = [commands(programs, logs[0])[0], *(commands(programs, log)[1] for log in logs)]
    (judged, legal, silent), (_, text, found) = seconds_of([verdict, *surveys])
    if not text.startswith(b"end ") or not found.startswith(f"breach {clients + 1} transaction 1 client OPTIONS ".encode()):
        sys.exit(f"{text!r} {found!r}")
    print(f"{clients} clients: verdict {judged:.3f} s, survey {legal:.3f} s; all silent at one moment: {silent:.3f} s, {silent / legal:.2f} times")


def main():
    with tempfile.TemporaryDirectory() as folder:
        print_counted(sys.argv[1:], Path(folder))
        print_timed(sys.argv[1:], Path(folder))
        for clients in CLIENTS:
            print_silent(sys.argv[1:], Path(folder), clients)


if __name__ == "__main__":
    main()
