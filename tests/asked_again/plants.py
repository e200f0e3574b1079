"""Planted faults, each of which the checker must tell: wrong answers of the program, given by a stub that stands between, and faults of the module itself,
whose source is copied with one text replaced. A fault is told where the checker contradicts the evidence, or where `explain` itself says that
the answers do not agree."""
import json
import shutil
import subprocess
import tempfile
from concurrent.futures import ProcessPoolExecutor
from pathlib import Path
from typing import NamedTuple

from running import run

# The folder of this script.
HERE = Path(__file__).resolve().parent

# Logs in breach, in the words of tests/log.
LOGS = {
    "early": "S 0 INVITE a; S 440 INVITE a",
    "late": "R 0 INVITE a; S 10 INVITE a 486; S 600 INVITE a 486; M 700",
    "between": "R 0 INVITE a; S 10 INVITE a 486; R 100 INVITE a; S 200 INVITE a 486; M 300",
    "never": "S 0 INVITE a; R 200 INVITE a 180; R 1000 INVITE a 486; S 1010 ACK b; M 2000",
    "two": "S 0 INVITE a; R 100 INVITE a 486; R 110 INVITE a 486 s/tag=2/tag=3/; M 2000",
    "two late": "R 0 OPTIONS a; S 10 OPTIONS a 200; R 500,501 OPTIONS a; S 600,601 OPTIONS a 200; M 700",
    "ack": "S 0 INVITE a; R 100 INVITE a 486; S 120 ACK a s/tag=2/tag=3/; M 200",
    "bytes": "S 0 OPTIONS a; S 500 OPTIONS a s/c1@a/c2@a/",
    "none": "S 0 INVITE a; R 200 INVITE a 100; S 500 INVITE a",
    "over": "R 0 OPTIONS a; S 10 OPTIONS a 200; M 32000; S 32050 OPTIONS a 180",
    "rules": "R 0 INVITE a; S 0 INVITE a 200; R 500 INVITE a; S 510 INVITE a 180",
    "states": "R 0 INVITE a; S 0 INVITE a 486; R 480 INVITE a; S 490 INVITE a 486; S 600 INVITE a 180",
    "stray": "R 0 OPTIONS a; S 10 OPTIONS b 200",
    "swapped": "S 0 INVITE a; R 499 INVITE a 100; S 501 INVITE a",
}


class Answer(NamedTuple):
    """A way in which the stub answers falsely, the log with which it is tried, and the number that the stub is given: one at this place of the log's
    evidence, with so much added to it."""
    what: str
    way: str
    log: str
    place: tuple = ()
    more: int = 0

    def number(self, told):
        """The number that is told at this place, and as much more as is planted."""
        # Each step is a name or a number within what the step before leads to.
        for step in self.place:
            told = told[step]
        # A way that needs no number gets 0.
        return told + self.more if self.place else 0


# The wrong answers of the stub: what each is, the way in which it answers, the log, and the place in the evidence of the number that it is given.
ANSWERS = [
    Answer("a verdict turned at the first moment of a window", "turned", "early", ("sent", "windows", 0, 0)),
    Answer("a verdict turned at the last moment of silence", "turned", "never", ("deadline",)),
    Answer("the end of a window one later", "later", "late", ("sent", "windows", -1, 1)),
    Answer("the begin of a window one earlier", "earlier", "early", ("sent", "windows", 0, 0), -1),
    Answer("the end of a silence one earlier", "earlier", "two", ("deadline",)),
    Answer("a silence that never ends", "silent", "never", ("moment",)),
    Answer("an excuse by a tolerance that is too small", "tolerant", "early", ("least_tolerance",), -3),
    Answer("an excuse by the rules that is none", "rules", "rules"),
    Answer("a listing with another deadline", "deadline", "never", ("deadline",)),
    Answer("a listing that lacks a state", "fewer", "states"),
    Answer("a verdict on the log that names another entry", "entry", "none"),
    Answer("a verdict on the log that names another transaction", "key", "none"),
]
# Ways of a false answer to one question, each with the log whose evidence asks it.
KTH = [("legal", "none"), ("breach", "early"), ("legal", "never"), ("breach", "ack"), ("legal", "late"), ("breach", "two late")]
QUESTIONS = (3, 8, 14)  # these questions of each of these logs are answered falsely, one at a time
# How many moments are asked about beside the edges of windows.
DENSITY = 12


class Fault(NamedTuple):
    """A fault of the module: the file, a text that stands in it once, what stands there in place of it, and the logs with which it is tried."""
    what: str
    file: str
    old: str
    new: str
    logs: tuple


# The faults that are planted: what each is, the file, its text and what stands in its place, and the logs at which it must be seen.
FAULTS = [
    # Windows and sizes that are told wrong.
    Fault("a window that begins one later", "evidence/asking.py", "edge(is_right, points[place - 1], moment) + 1 if place", "edge(is_right, points[place - 1], moment) + 2 if place", ("early",)),
    Fault("a window that ends one later", "evidence/asking.py", "windows.append((start, edge(is_right, points[place - 1], moment)))",
          "windows.append((start, 1 + edge(is_right, points[place - 1], moment)))", ("between",)),
    Fault("a last moment of silence one earlier", "evidence/asking.py", "return edge(is_right, points[low], points[high]", "return -1 + edge(is_right, points[low], points[high]", ("never",)),
    Fault("a size from the first window on", "evidence/kinds.py", 'return {"by": one.moment - windows[-1][1], "sent"', 'return {"by": one.moment - windows[0][0], "sent"', ("late",)),
    Fault("early and late turned about", "evidence/kinds.py", 'return {"kind": "too early", "by": early}', 'return {"kind": "too late", "by": early}', ("early",)),
    # Parts of an ACK, and what is told as due.
    Fault("all parts of an ACK named", "evidence/kinds.py", "parts = rest if is_right(rest) else parts", "parts = parts", ("ack",)),
    Fault("parts of an ACK that were not put right", "evidence/kinds.py", '"bytes": latin(with_parts(ack, parts, right))}', '"bytes": latin(with_parts(ack, parts[1:], right))}', ("ack",)),
    Fault("messages told as due together of which one is enough", "evidence/kinds.py", "due = due_alone(case)\n", "due = []\n", ("never", "late", "two late")),
    Fault("what came late told as what never came", "evidence/kinds.py", "late = came_late(case) or", "late = None and", ("late",)),
    Fault("the ACK and the bytes not looked at", "evidence/kinds.py", "(ack_put_right(case) or bytes_put_right(case) or allowed_at_no_moment(case))", "allowed_at_no_moment(case)", ("ack", "bytes")),
    Fault("another entry that took the send away", "evidence/kinds.py", "return asked[place].number", "return asked[0].number", ("none",)),
    # What may be sent later, and what is told to excuse.
    Fault("an end one later", "evidence/kinds.py", "return history.windows(is_over, LAST - wait)[-1][0]", "return history.windows(is_over, LAST - wait)[-1][0] + 1", ("over",)),
    Fault("what is not allowed told as allowed", "evidence/kinds.py", "if one.data != data and history.allows(one.at(moment))]", "if one.data != data]", ("over",)),
    Fault("the least tolerance one too great", "evidence/excuses.py", "return high\n        high -= 1", "return high + 1\n        high -= 1", ("early",)),
    Fault("no excuse told as one", "evidence/excuses.py", "helps = is_possible(words)\n", "helps = words[0] != 'legal'\n", ("early",)),
    # Sentences and texts that do not say what the data says.
    Fault("another sentence than the data", "evidence/text.py", 'told["sentence"], *writer(told)]', 'told["sentence"].replace("1", "2"), *writer(told)]', ("early",)),
    Fault("another number in the sentence", "evidence/sentences.py", 'return "%s; it was allowed %s." % (sent_at(sent), spans(sent["windows"]))',
          'return "%s; it was allowed %s." % (sent_at(sent), spans([[first - 7, last] for first, last in sent["windows"]]))', ("early",)),
    Fault("another moment in the text", "evidence/text.py", 'yield "%s was allowed %s." % (one["what"][0].upper() + one["what"][1:], spans(one["windows"]))',
          'yield "%s was allowed %s." % (one["what"][0].upper() + one["what"][1:], spans([[first - 7, last] for first, last in one["windows"]]))', ("never",)),
]


class Plants:
    """What all plants share: the genuine program and its explanations, the stub, and the logs."""

    def __init__(self, program, explain, check, work):
        self.program, self.explain, self.check, self.work = program, explain, check, Path(work)
        self.variables = {"SIPTRACE": program, "PYTHONPYCACHEPREFIX": str(self.work / "compiled")}
        self.stub = self.work / "siptrace-stub"
        self.logs = {name: log_of(words) for name, words in LOGS.items()}

    def build_stub(self):
        """Builds the stub, and answers whether there is a compiler."""
        compiler = shutil.which("cc")
        if compiler:
            subprocess.run([compiler, "-std=c11", "-D_DEFAULT_SOURCE", "-O1", "-o", self.stub, HERE / "stub.c"], check=True)
        return bool(compiler)

    def evidence(self, log, explain=None, **variables):
        """What `explain --json` writes of one of the logs; None where it writes none."""
        with tempfile.TemporaryDirectory() as folder:
            path = Path(folder) / "log"
            path.write_bytes(self.logs[log])
            said, _, _ = run(explain or self.explain, "--json", path, **{**self.variables, **variables})
        try:
            told = json.loads(said)
        except ValueError:
            return None
        # What differs from run to run is left out.
        return {name: value for name, value in told.items() if name not in ("log", "program", "questions")}

    def faults_told(self, what, log, explain=None, **variables):
        """What the checker tells of an explanation with a fault."""
        # A job as tests/evidence has it: name, log, moments, program, script, variables.
        outcome = self.check((what, self.logs[log], DENSITY, self.program, explain or self.explain, {**self.variables, **variables}))
        return outcome.wrong

    def stub_variables(self, way, number):
        """The variables by which the stub knows what to answer."""
        return {"SIPTRACE": str(self.stub), "STUB_PROGRAM": self.program, "STUB_WAY": way, "STUB_NUMBER": str(number)}

    def answer(self, answer):
        """Whether a wrong answer is told, and by what sentence."""
        number = answer.number(self.evidence(answer.log))
        return answer.what, self.faults_told(answer.what, answer.log, **self.stub_variables(answer.way, number))

    def question(self, way, log, number):
        """Whether a question that is answered falsely is told, where the false answer changes what is said; None where it changes nothing."""
        what = f"question {number} of the log '{log}' answered by {way}"
        with tempfile.TemporaryDirectory() as folder:
            variables = self.stub_variables(way, number)
            said = self.evidence(log, STUB_COUNT=f"{folder}/first", **variables)
            if said == self.evidence(log):
                return what, None
            return what, self.faults_told(what, log, STUB_COUNT=f"{folder}/second", **variables)

    def genuine(self, log):
        """What the checker tells of a log without a fault, which has to be nothing."""
        wrong = self.faults_told(log, log)
        if wrong:
            print(f"A FAULT IS TOLD where there is none, in the log '{log}': {wrong[0]}")
        return wrong

    def fault(self, fault):
        """Whether a fault of the module is told."""
        with tempfile.TemporaryDirectory(dir=self.work) as folder:
            recipes = Path(folder) / "recipes"
            shutil.copytree(self.explain.parent, recipes, ignore=shutil.ignore_patterns("__pycache__", "examples"))
            path = recipes / fault.file
            text = path.read_text()
            # The text must stand there once, or else the plant no longer fits the source.
            if text.count(fault.old) != 1:
                return fault.what, ["BAD PLANT: its text stands %d times in %s" % (text.count(fault.old), fault.file)]
            path.write_text(text.replace(fault.old, fault.new))
            for log in fault.logs:
                wrong = self.faults_told(fault.what, log, recipes / self.explain.name)
                if wrong:
                    return fault.what, wrong
        return fault.what, []


def log_of(words):
    """The log that these words make."""
    return subprocess.run([HERE.parent / "log", *words.split("; ")], stdout=subprocess.PIPE, check=True).stdout


def is_told(wrong):
    """Whether the checker told a fault in words, and did not end with a traceback."""
    return bool(wrong) and not any("Traceback" in text or "the checker stopped" in text or text.startswith("BAD PLANT") for text in wrong)


def are_told(program, explain, check, chance=None, most=None):
    """Tries the plants, or `most` of them by chance; tells of each how the checker told it, and answers whether it told all."""
    with tempfile.TemporaryDirectory() as work, ProcessPoolExecutor() as pool:
        plants = Plants(program, explain, check, work)
        # Each thing to do has the logs that it needs, what tries it, and what that takes.
        todo = [(fault.logs, plants.fault, fault) for fault in FAULTS]
        if plants.build_stub():
            todo += [((answer.log,), plants.answer, answer) for answer in ANSWERS]
            todo += [((log,), plants.question, way, log, number) for way, log in KTH for number in QUESTIONS]
        else:
            print("not tried, for want of cc: the wrong answers of the program")
        todo = chance.sample(todo, most) if most else todo
        # Beside the plants each log is tried without a fault: then none may be told.
        genuine = [pool.submit(plants.genuine, log) for log in sorted({log for logs, *_ in todo for log in logs})]
        waiting = [pool.submit(*one) for _, *one in todo]
        false_alarms = sum(bool(one.result()) for one in genuine)
        found = [tell(*one.result()) for one in waiting]
    print(f"{found.count('told')} planted faults told, {found.count('missed')} missed, {found.count('idle')} wrong answers that changed nothing")
    return not false_alarms and "missed" not in found


def tell(what, wrong):
    """Prints how a plant was told, or that it was not."""
    if wrong is None:
        return "idle"
    if is_told(wrong):
        print(f"told: {what}: {wrong[0].splitlines()[0]}")
        return "told"
    print(f"NOT TOLD: {what}" + "".join(f"\n  {text}" for text in wrong[:3]))
    return "missed"
