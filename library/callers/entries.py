"""A judge that takes entries one by one: a process, judge_entries, that is asked over a pipe.

  entries.py JUDGE_ENTRIES      shows how: a request that is not repeated in time"""

import subprocess
import sys

# The request that the example hands over.
REQUEST = b"""OPTIONS sip:bob@biloxi.example.com SIP/2.0\r
Via: SIP/2.0/UDP client.atlanta.example.com;branch=z9hG4bK74bf9\r
From: <sip:alice@atlanta.example.com>;tag=9fxced76sl\r
To: <sip:bob@biloxi.example.com>\r
Call-ID: 2xTb9vxSit55XU7p8@atlanta.example.com\r
CSeq: 1 OPTIONS\r
Content-Length: 0\r
\r
"""


class Judge:
    """A judge of an element with these times, in milliseconds. `program` is the path of judge_entries."""

    def __init__(self, program, t1=500, t2=4000, t4=5000, early=50, late=50):
        self.process = subprocess.Popen([program], stdin=subprocess.PIPE, stdout=subprocess.PIPE)
        self.header = f"sip-trace 2\nt1 {t1} t2 {t2} t4 {t4} early {early} late {late}\n".encode()

    def ask(self, entry):
        """The line that answers an entry, as it stands in a log. After a verdict it is the verdict, and no more entries are taken."""
        self.process.stdin.write(self.header + entry)
        self.process.stdin.flush()
        self.header = b""
        return self.process.stdout.readline().decode().rstrip("\n")

    def message(self, letter, moment, text):
        """The answer to a message that was sent (S), received (R) or refused by the transport (F) at a moment in milliseconds."""
        return self.ask(b"%s %d %d\n%s\n" % (letter.encode(), moment, len(text), text))

    def mark(self, moment):
        """The answer to a mark: the log has reached the moment, so that all that was due before it has been done or is missing."""
        return self.ask(b"M %d\n" % moment)

    def end(self):
        """The verdict on the entries, or None where it was told before."""
        self.process.stdin.close()
        said = self.process.stdout.read().decode().rstrip("\n")
        self.process.stdout.close()
        self.process.wait()
        return said or None


def main():
    judge = Judge(sys.argv[1])
    print(judge.message("S", 0, REQUEST))
    print(judge.mark(550))
    # Timer E fires T1 after the request, and 50 ms later at the latest (RFC 3261, section 17.1.2.2): the request had to be sent again.
    print(judge.mark(551))
    judge.end()


if __name__ == "__main__":
    main()
