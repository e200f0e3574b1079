#!/usr/bin/env python3
"""How a program has the judge beside it, as it can be done in any language (../README.md, `A judge inside a program`): a process of sipsurvey is fed the entries
as they come, and tells each trouble when its entry passes."""
import subprocess
import threading

# The header of the log.
HEADER = b"sip-trace 1\nt1 500 t2 4000 t4 5000 tolerance 50\n"


class Survey:
    """A survey that goes on while entries come. `tell` gets the words of each line, in a thread of its own: ["breach", "5", "transaction", "1", "client",
    "INVITE", "z9hG4bKa", "2", "4"]. Role, method, branch, first and last entry stand after the number. `words` are those of sipsurvey: with ("--forget", "60000")
    it forgets what is over, and the log may be as long as it will."""

    def __init__(self, tell, header=HEADER, program="sipsurvey", words=()):
        self.process = subprocess.Popen([program, *words], stdin=subprocess.PIPE, stdout=subprocess.PIPE)
        self.thread = threading.Thread(target=lambda: [tell(line.decode().split()) for line in self.process.stdout])
        self.thread.start()
        self.process.stdin.write(header)

    def entry(self, letter, moment, message=None):
        """Writes an entry: S, R or F with a message; Z; or M, a mark, by which no message came up to the moment. Moments are milliseconds and never fall."""
        line = b"%s %d" % (letter.encode(), moment)
        self.process.stdin.write(line + b"\n" if message is None else b"%s %d\n%s\n" % (line, len(message), message))
        self.process.stdin.flush()

    def end(self):
        """Ends the log. The last line is told before the status is answered, which is 0 where nothing was found."""
        self.process.stdin.close()
        self.thread.join()
        return self.process.wait()
