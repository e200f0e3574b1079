"""The notation of small logs, in which each word is an entry. The times are those of RFC 3261 table 4, and the tolerance is 50 ms.

  'S 0 REGISTER b'            the request REGISTER with the branch z9hG4bKb, sent at moment 0; with F its send was refused
  'R 700 REGISTER b 200'      the response 200 to it, received at moment 700. Responses have a tag in To, and an
                              ACK has the same one
  'M 6000'                    the log has reached moment 6000
  'Z 6000'                    the element was started anew
  ': M 0\\n'                   this text, in which \\n is a line feed

Moments are a list: 490,540 and 2..41 stand for an entry at each of them, and 10*31 for 31 entries at 10. A branch 1..600 gives each entry its
own one. A request or a response may end with a change of its text in the words of sed, 'S 0 REGISTER b s/UDP/TCP/'. 'S 0 =folded' is a whole
message that tests/worked/messages has by this name, which a change may follow too; 'messages session' says before it of which set.

The first word may say something else than 'tolerance 50': 'tolerance 100', or 'early 0 late 100', or the line of all times, which begins with
t1, or the whole header, which begins with sip-trace. Where it tells early and late the log is of format 2, which a restart needs. 'rules 3261' or
'rules 6026' may stand after it.

'by moment' puts the entries before it into the order of their moments, and those of one moment stay as they stand. 'cut 48' leaves the first 48
bytes of the log. {x*60000} in a change or a text stands for x 60,000 times, and { owes=2/#*1..3} for ' owes=2/1 owes=2/2 owes=2/3'; #+10 stands
there for 11, 12 and 13.
"""
import functools
import os
import re
import subprocess
from pathlib import Path

# The times of a log, and the folder of messages that logs name.
TIMES = "t1 500 t2 4000 t4 5000"
MESSAGES = Path(__file__).resolve().parent / "worked/messages"
# How the notation spells repeats and the numbers in them, escapes and moments.
NUMBER = re.compile(r"#(?:\+(\d+))?")
REPEATED = re.compile(r"\{([^{}]*)\*(\d+)(?:\.\.(\d+))?\}")
ESCAPE = re.compile(r"\\([\\nrt]|x[0-9a-fA-F]{2})")
MOMENTS = re.compile(r"\d+(?:(?:\.\.|\*)\d+)?(?:,\d+(?:(?:\.\.|\*)\d+)?)*")
# The escapes of one letter, and what each stands for.
SIGNS = {"\\": "\\", "n": "\n", "r": "\r", "t": "\t"}


def message(method, branch, code):
    """The request with this method and branch, or the response to it with this code. Each line ends in CRLF."""
    first = f"SIP/2.0 {code} Reply" if code else f"{method} sip:example.com SIP/2.0"
    tag = ";tag=2" if code or method == "ACK" else ""
    lines = [first, f"Via: SIP/2.0/UDP a.example.com;branch=z9hG4bK{branch}", "From: <sip:bob@example.com>;tag=1",
             f"To: <sip:bob@example.com>{tag}", "Call-ID: c1@a", f"CSeq: 1 {method}", "Content-Length: 0", ""]
    return "".join(line + "\r\n" for line in lines).encode()


@functools.cache
def named_messages():
    """The messages of the file by their sets and names. Each line of theirs ends in CRLF."""
    if not MESSAGES.exists():
        raise ValueError(f"{MESSAGES} is not there")
    # Each message stands below a line `== SET: NAME`. The parts are the set, the name and the text, and then those of the next one.
    pieces = re.split(r"^== (\S+): (\S+)\n", MESSAGES.read_text(), flags=re.M)[1:]
    sets = zip(pieces[::3], pieces[1::3])
    return dict(zip(sets, (text.replace("\n", "\r\n").encode() for text in pieces[2::3])))


def expanded(text):
    """The text with each part in braces as often as it says there."""
    def parts(found):
        """The part, this many times, each with its number."""
        part, first, last = found[1], int(found[2]), found[3]
        if last is None:
            return part * first
        return "".join(NUMBER.sub(lambda one: str(number + int(one[1] or 0)), part) for number in range(first, int(last) + 1))
    return REPEATED.sub(parts, text)


@functools.cache
def sed(text, change):
    """The text, changed by sed."""
    # With -z the whole message is one line for sed, so that a change can take line ends away or put some in.
    command = ["sed", "-z", "-e", change]
    said = subprocess.run(command, input=text, capture_output=True, env={**os.environ, "LC_ALL": "C"})
    if said.returncode:
        raise ValueError(said.stderr.decode().strip())
    return said.stdout


def changed(text, change):
    """The text after a change in the words of sed."""
    return expanded(sed(text, change).decode("latin-1")).encode("latin-1") if change else text


def unescaped(text):
    """The bytes that a text with escapes stands for."""
    return expanded(ESCAPE.sub(lambda found: SIGNS.get(found[1]) or chr(int(found[1][1:], 16)), text)).encode("latin-1")


def moments_of(word):
    """The moments that a list names."""
    if not MOMENTS.fullmatch(word):
        raise ValueError(f"{word!r} is no list of moments")
    moments = []
    for one in word.split(","):
        first, _, last = one.partition("..")
        moment, _, times = one.partition("*")
        if last:
            moments += range(int(first), int(last) + 1)
        else:
            moments += [int(moment)] * int(times or 1)
    return moments


def header_of(first):
    """The header that the first word says, or None where the word says something else."""
    if first.startswith("sip-trace"):
        return unescaped(first)
    if not first.startswith(("t1 ", "tolerance ", "early ")):
        return None
    line = first if first.startswith("t1 ") else f"{TIMES} {first}"
    return f"sip-trace {2 if ' early ' in line else 1}\n{line}\n".encode()


class Log:
    """A log that grows: its header, the entries after it as pairs of a moment and bytes, and the set that its messages are of, where a word names one."""

    def __init__(self, words):
        header = header_of(words[0]) if words else None
        self.header = header if header is not None else header_of("tolerance 50")
        self.entries = []
        self.set = None
        for word in words[header is not None:]:
            self.add(word)

    def add(self, word):
        """Adds what one word of a row says: an entry, some messages, the rules, or an order."""
        letter, _, rest = word.partition(" ")
        # A text of its own, the rules, messages of another set, the order by moments, and a cut.
        if letter == ":":
            self.entries.append((None, unescaped(rest)))
        elif letter == "rules":
            self.add_rules(f"{word}\n".encode())
        elif letter == "messages":
            self.set = rest
        elif word == "by moment":
            self.order()
        elif letter == "cut":
            # What is left is kept as one text, also where the cut is within the header or an entry.
            self.header, self.entries = self.bytes()[: int(rest)], []
        # A mark or a restart, at one or more moments; and messages that were sent, received or refused.
        elif letter in ("M", "Z"):
            self.entries += [(moment, f"{letter} {moment}\n".encode()) for moment in moments_of(rest)]
        elif letter in ("S", "R", "F"):
            moments, _, rest = rest.partition(" ")
            self.add_messages(letter, moments_of(moments), rest)
        else:
            raise ValueError(f"no entry begins as {word!r} does")

    def order(self):
        """Puts the entries in the order of their moments."""
        if any(moment is None for moment, _ in self.entries):
            raise ValueError("a text has no moment to be put in order by")
        self.entries.sort(key=lambda entry: entry[0])

    def add_rules(self, line):
        """Adds the line of rules to the header. After an entry the line is one more text of the log."""
        if self.entries:
            self.entries.append((None, line))
        else:
            self.header += line

    def add_messages(self, letter, moments, rest):
        """Adds an entry for each of these moments."""
        for moment, text in zip(moments, self.texts(rest, len(moments))):
            self.entries.append((moment, b"%s %d %d\n%s\n" % (letter.encode(), moment, len(text), text)))

    def texts(self, rest, count):
        """The messages that these words tell, for this many entries."""
        # The words are `=NAME CHANGE`, or `METHOD BRANCH CODE CHANGE`, of which code and change may be missing.
        first, _, rest = rest.partition(" ")
        if first.startswith("="):
            return [changed(self.named(first[1:]), rest)] * count
        branch, _, rest = rest.partition(" ")
        if not branch:
            raise ValueError(f"a message {first!r} has no branch")
        code = re.match(r"\d*", rest)[0]
        change = rest[len(code):].strip()
        if ".." not in branch:
            return [changed(message(first, branch, code), change)] * count
        # A branch 1..600 gives the first entry the branch z9hG4bK1, the second z9hG4bK2, and so on.
        branches = moments_of(branch)
        if len(branches) != count:
            raise ValueError(f"{count} entries have the branches {branch}")
        return [changed(message(first, one, code), change) for one in branches]

    def named(self, name):
        """The message with this name, of the set that the row uses."""
        if (self.set, name) not in named_messages():
            raise ValueError(f"the set {self.set} of tests/worked/messages has no message {name}")
        return named_messages()[self.set, name]

    def bytes(self):
        """The bytes of the log."""
        return self.header + b"".join(entry for _, entry in self.entries)


def log_of(words):
    """The bytes of the log of these words."""
    return Log(words).bytes()
