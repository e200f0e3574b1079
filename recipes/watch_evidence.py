"""Looks for the evidence of what a watch tells, in processes of their own, so that no finding waits for it. Run as a program, this file is such a process: it
reads a line of JSON for each trouble, and writes one."""
import json
import os
import subprocess
import sys
from collections import deque

AT_ONCE = 2  # how many processes there are
MOST_WAITING = 1_000  # how many troubles may wait for their evidence
# What is told of a trouble whose evidence was not looked for.
NOT_LOOKED_FOR = "Not looked for: too many troubles came at once."
# How much less the processes that look for evidence take of the processor.
NICE = 10


class Looking:
    """The processes that look for the evidence of troubles, and the troubles that wait for one."""

    def __init__(self):
        self.waiting, self.workers, self.count = deque(), {}, 0  # troubles that wait; processes, by the descriptors of their outputs; how many began

    def ask(self, question):
        """Asks for the evidence of a log, {"trouble", "log", "word", "role", "method"}. Answers whether it will be looked for."""
        if len(self.waiting) >= MOST_WAITING:
            return False
        self.waiting.append(question)
        self.hand_out()
        return True

    def hand_out(self):
        """Gives the waiting troubles to idle processes, and begins another process where all are busy."""
        idle = [worker for worker in self.workers.values() if worker.question is None]
        if self.waiting and not idle and len(self.workers) < AT_ONCE:
            idle = [Worker()]
            self.workers[idle[0].exit] = idle[0]
        for worker, _ in zip(idle, list(self.waiting)):
            worker.ask(self.waiting.popleft())

    def answer(self, number):
        """The answer of the process with this output, with its question. It is empty where the process has ended, and None where it has not answered yet."""
        worker = self.workers[number]
        line, is_over = worker.read()
        if line is None and not is_over:
            return None
        question, worker.question = worker.question, None
        if is_over:
            worker.process.wait()
            del self.workers[number]
        self.hand_out()
        return question and (question, json.loads(line) if line else {})

    def is_busy(self):
        """Whether a question is waiting or is being answered."""
        return bool(self.waiting) or any(worker.question for worker in self.workers.values())

    def close(self):
        """Ends all processes."""
        for worker in self.workers.values():
            worker.process.kill()
            worker.process.wait()


class Worker:
    """One of the processes that look for evidence."""

    def __init__(self):
        self.process = subprocess.Popen([sys.executable, os.path.realpath(__file__)], stdin=subprocess.PIPE, stdout=subprocess.PIPE, start_new_session=True)
        self.exit, self.text, self.question = self.process.stdout.fileno(), b"", None

    def ask(self, question):
        """Sends the question to the process."""
        self.question = question
        try:
            self.process.stdin.write(json.dumps(question).encode() + b"\n")
            self.process.stdin.flush()
        except BrokenPipeError:  # the process has ended, which its output tells
            pass

    def read(self):
        """The answer of the process, where it is whole, and whether the process has ended."""
        piece = os.read(self.exit, 1 << 16)
        self.text += piece
        if not self.text.endswith(b"\n"):
            return None, not piece
        line, self.text = self.text, b""
        return line, False


def evidence(question):
    """Kind, size, sentence and text of the verdict on a log, where this is the verdict in question."""
    from evidence.data import evidence_of
    from evidence.side import Side
    from evidence.text import text_of
    # `told` is the evidence of the kept log, which has to show the same trouble of the same transaction.
    told = evidence_of(question["log"], Side(question["log"] + ".side", False))
    transaction = told.get("transaction", {})
    if told["word"] != question["word"] or transaction and (transaction["role"], transaction["method"]) != (question["role"], question["method"]):
        return {"kind": None, "by": None, "sentence": "The kept log of its branch alone does not show it.", "text": None}
    return {"kind": told.get("kind"), "by": told.get("by"), "sentence": told["sentence"], "text": "\n".join(text_of(told)) + "\n"}


def main():
    from evidence.asking import real_program
    os.nice(NICE)
    os.environ["SIPTRACE"] = real_program()  # so that the program is looked for once
    # Each line of the standard input is a question, and its answer is a line of JSON.
    for line in sys.stdin.buffer:
        try:
            answer = evidence(json.loads(line))
        except SystemExit:  # the script has said why
            answer = {}
        print(json.dumps(answer), flush=True)


if __name__ == "__main__":
    main()
