"""Hostile messages and wide transactions: what bench/judge.sh counts under the word shapes. Its word is the program."""

import re
import subprocess
import sys
import tempfile
from pathlib import Path

from judge import write_entries

# The lengths of a message. What a byte takes is told by the difference to the first length.
SIZES = (1024, 4096, 65535)
# The two numbers of entries between which the instructions of a message are counted.
ENTRIES = (20, 60)
# The fields that each message must have, with their values.
FIELDS = {
    "Via": "SIP/2.0/UDP a.example.com;branch=z9hG4bK1", "From": "<sip:bob@example.com>;tag=1", "To": "<sip:bob@example.com>", "Call-ID": "c1@a",
    "CSeq": "1 OPTIONS",
}
# How lines of the shapes begin: within a quoted string, a host, a parameter and a URI.
STRING = 'Via: SIP/2.0/UDP a;x="'
HOST = "Via: SIP/2.0/UDP "
PARAM = "Via: SIP/2.0/UDP a"
URI = "From: <"
# For each shape: its name; a line of a message, as the text before the unit, the unit, and the text after it; and what is wrong with the line.
# Within a parameter of Via, between parameters and at the end of a line.
SHAPES = [
    ("token", PARAM + ";x=", "a-1.", "", None),
    ("blanks", PARAM, " \t", ";x", None),
    ("folds before a comma", PARAM, "\r\n ", ", SIP/2.0/UDP a", None),
    ("folds at a line's end", "s: a", "\r\n ", "", None),
    ("folds in a line", "s: a", "\r\n ", "b", None),
    # Within a string that is closed, and within one that is not (the fault is Value).
    ("quoted letters", STRING, "abcd", '"', None),
    ("quoted blanks", STRING, " \t", '"', None),
    ("quoted folds", STRING, "\r\n ", '"', None),
    ("quoted pairs", STRING, '\\"', '"', None),
    ("unclosed letters", STRING, "abcd", "", "Value"),
    ("unclosed folds", STRING, "\r\n ", "a", "Value"),
    ("unclosed pairs", STRING, '\\"', "", "Value"),
    # Before the address of From.
    ("a quoted display name", 'From: "', "abcd", '" <sip:a@b>', None),
    ("display words", "From: a", " a", " <sip:a@b>", None),
    # Within a host: labels, IPv6 addresses and what looks like them.
    ("short labels", HOST, "1.", "a", None),
    ("ordinary labels", HOST, "example.", "a", None),
    ("one label", HOST + "a", "-1", "a", None),
    ("dots", HOST + "a", ".", "a", "Value"),
    ("IPv6 groups", HOST + "[", "2001:", "a]", None),
    ("IPv6 groups, IPv4", HOST + "[", "2001:", "a:1.2.3.4]", None),
    ("IPv6 pairs of colons", HOST + "[", "1::", "a]", "Value"),
    ("IPv6 colons", HOST + "[", ":", "a]", "Value"),
    ("brackets", HOST + "[", "]", "a]", "Value"),
    # Within a URI: its parameters, its user, its port and its headers.
    ("parameters of a URI", URI + "sip:bob:pw@b.c:5060", ";transport=udp", ">", None),
    ("short parameters", URI + "sip:b", ";a", ">", None),
    ("semicolons", URI + "sip:b", ";", "a>", "Value"),
    ("semicolons in a user", URI + "sip:b", ";", "a@b>", None),
    ("escapes in a user", URI + "sip:", "%41", "a@b>", None),
    ("escapes in a parameter", URI + "sip:b;", "%41", "a>", None),
    ("escapes, the last cut", URI + "sip:b;", "%41", "%4>", "Value"),
    ("at signs", URI + "sip:b", "@", "a>", "Value"),
    ("colons", URI + "sip:b", ":", "a>", "Value"),
    ("colons in a user", URI + "sip:b", ":", "a@b>", "Value"),
    ("question marks", URI + "sip:b", "?", "a>", "Value"),
    ("headers of a URI", URI + "sip:b?x=1", "&a=", ">", None),
    ("labels in a URI", URI + "sip:u@", "a.", "a:5060>", None),
    ("escapes in an other URI", URI + "x:", "%41", ">", None),
    ("a long scheme", URI + "x", "+.-1", ":b>", None),
    # In the start line and among parameters.
    ("a long request line", "OPTIONS sip:b", ";a", " SIP/2.0", None),
    ("parameters of a Via", PARAM, ";a", "", None),
    ("parameters of From", URI + "sip:a@b>", ";a", "", None),
    ("groups of a value", PARAM + ";x=a", ":a", "", None),
    ("no groups of a value", PARAM + ";x=a", ":a", "g", "Value"),
    # Values of parameters with colons and brackets.
    ("values with colons", PARAM, ";x=::1", "", None),
    ("values in brackets", PARAM, ";x=[::1]", "", None),
    # Lists of values, and many lines.
    ("commas", PARAM, ",", "", "Value"),
    ("commas of a Route", "Route: a", ",", "", None),
    ("Via elements", PARAM, ", SIP/2.0/UDP a", "", None),
    ("Via fields", "s: a", "\r\nv:SIP/2.0/UDP a", "", None),
    ("tiny lines", "s: a", "\r\na:", "", None),
    ("tiny known lines", "s: a", "\r\ns:", "", None),
    ("repeated lines", "s: a", "\r\nt:sip:a", "", "Repeated"),
    # Numbers, and what is no value.
    ("zeros of CSeq", "CSeq: 0", "0", "1 OPTIONS", None),
    ("digits of Content-Length", "l: 0", "9", "", "ShortBody"),
    ("a Call-ID", "Call-ID: a", "a", "@a", None),
    ("bytes of another field", "s: a", "\xff", "", None),
    ("one name", "a", "a", ": a", None),
    ("line ends without LF", "s: a", "\r", "", "BareLineEnd"),
]
# How many of each of three responses a server owes, of which it then sends the last two as often; and in how many states it stands then: (n + 1) * (m + 1),
# where n and m are how often it owed these two, since each send may have paid a debt or not.
SERVERS = [
    (62, 0, 0, 1), (61, 0, 1, 2), (48, 7, 7, 64), (0, 31, 31, 1024), (1, 0, 0, 1), (100, 0, 0, 1), (10000, 0, 0, 1), (0, 0, 1, 2), (99, 0, 1, 2),
    (9999, 0, 1, 2),
]
# How many ACKs an INVITE client owes.
CLIENTS = (1, 100, 10000)


def message(start, line="", method="OPTIONS", tag=""):
    """A message with this line in place of the field of its name, or after a Via that it has."""
    name = line.partition(":")[0]
    fields = {**FIELDS, "CSeq": f"1 {method}", "To": FIELDS["To"] + tag}
    # A line of another name, as `s` or `Route`, stands besides.
    lines = [f"{it}: {value}" for it, value in fields.items() if it != name or it == "Via"]
    return "\r\n".join([start, *lines, *([line] if line else []), "", ""])


def shaped(front, unit, end, size):
    """A message with a line of this shape, as long as `size` or a little shorter."""

    def with_units(count):
        """A message whose line has the unit as often as this."""
        line = front + count * unit + end
        return message(line) if line.startswith("OPTIONS ") else message("OPTIONS sip:example.com SIP/2.0", line)

    # As many units as fit between the message without one and the size.
    return with_units(max(0, size - len(with_units(0))) // len(unit))


def counted(program, log):
    """The verdict on a log, and how many instructions it takes."""
    run = subprocess.run(["valgrind", "--tool=callgrind", "--callgrind-out-file=/dev/null", program, "check", log], capture_output=True)
    # Valgrind ends with `Collected : N`.
    return run.stdout.decode(), int(re.search(rb"Collected : (\d+)", run.stderr)[1])


def expect(name, text, wanted):
    """Ends the script unless the text is as wanted."""
    if not re.fullmatch(wanted + r"\n", text):
        sys.exit(f"{name}: {text}")


def print_shapes(program, log):
    """Counts instructions for a byte of each shape of message, in growing messages, and prints them."""
    print(f"{'instructions a byte':<24} {'read as':<12}" + "".join(f" {f'{size:,} bytes':>13}" for size in SIZES[1:]))
    for name, front, unit, end, fault in SHAPES:
        costs = []
        for size in SIZES:
            text = shaped(front, unit, end, size)
            write_entries(log, [("S", 0, text)])
            verdict, cost = counted(program, log)
            expect(name, verdict, rf"malformed 1 (head|body|line \d+) \d+ {fault}" if fault else "legal entries 1 transactions 1")
            costs.append((len(text), cost))
        (least, base), *others = costs
        told = "".join(f" {(cost - base) / (length - least):>13.1f}" for length, cost in others)
        print(f"{name:<24} {fault or 'a message':<12}{told}", flush=True)


def print_repeated(program, log, name, begun, again, states):
    """Prints what each of the entries `again` takes, after the entries `begun` that lead to this many states."""
    costs = []
    for count in ENTRIES:
        write_entries(log, begun + count * again)
        # The log is legal. It has to stand in as many states as are told.
        verdict, cost = counted(program, log)
        expect(name, verdict, r"legal entries \d+ transactions 1")
        # The difference of both counts is what the further entries took.
        costs.append(cost)
    listed = subprocess.run([program, "states", log, str(len(begun))], capture_output=True, text=True).stdout
    expect(name, listed.partition("\n")[0] + "\n", rf".* states {states}")
    print(f"{name:<36} {states:>6} {(costs[1] - costs[0]) / (ENTRIES[1] - ENTRIES[0]) / len(again):>13.0f}", flush=True)


def server(first, second, third):
    """A server that owes this many of three responses, and may have paid the last two."""
    ask = ("R", 0, message("OPTIONS sip:example.com SIP/2.0"))
    sent = [("S", 0, message(f"SIP/2.0 {code} Reply")) for code in (181, 182, 183)]
    # Each response is sent, and then asked for again as often as it is owed.
    owed = [it for reply, count in zip(sent, (first, second, third)) for it in [reply, *count * [ask]]]
    return [ask, *owed, *(second + 1) * [sent[1]], *(third + 1) * [sent[2]]], [sent[2]]


def client(owed):
    """An INVITE client that owes this many ACKs, the last of them to a response of its own tag."""
    # `last` is the response of the tag 3, which the ACK pays. The three lists begin the client, repeat what changes nothing, and pay a debt and owe it
    # again.
    invite, ack = (message(f"{method} sip:example.com SIP/2.0", "", method, tag) for method, tag in (("INVITE", ""), ("ACK", ";tag=3")))
    ringing, busy, last = (("R", 0, message(f"SIP/2.0 {code} Reply", "", "INVITE", f";tag={tag}")) for code, tag in ((180, 2), (486, 2), (486, 3)))
    return [("S", 0, invite), *(owed - 1) * [busy], last], [ringing], [("S", 0, ack), last]


def main():
    program = sys.argv[1]
    with tempfile.TemporaryDirectory() as folder:
        log = Path(folder) / "log"
        print_shapes(program, log)
        print(f"\n{'instructions an entry':<36} {'states':>6}")
        for first, second, third, states in SERVERS:
            begun, sent = server(first, second, third)
            print_repeated(program, log, f"a server that owes {first + second + third}, a send", begun, sent, states)
        for owed in CLIENTS:
            begun, stray, acked = client(owed)
            print_repeated(program, log, f"a client that owes {owed}, a 180", begun, stray, 1)
            print_repeated(program, log, f"a client that owes {owed}, ACK and 486", begun, acked, 1)


if __name__ == "__main__":
    main()
