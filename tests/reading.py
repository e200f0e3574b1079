"""Reads a log by itself, and tells which transactions each of its entries concerns: no program has a part in it. What is malformed it has to be told."""
import re

from random_logs import SILENT, Entry, Log

# A line end after which the line goes on, and a text in quotes.
FOLD = re.compile(r"\r\n[ \t]+")
QUOTED = re.compile(r'"(?:\\.|[^"\\])*"')
# The value of the first Via, the host and the port before its parameters, its branch, and the method of CSeq.
VIA = re.compile(r"\r\n(?:via|v)[ \t]*:([^\r]*)", re.I)
SENT_BY = re.compile(r"\s*SIP\s*/\s*2\.0\s*/\s*\S+\s+(\[.*\]|[^:;\s]+)\s*(?::\s*(\d+))?", re.I)
BRANCH = re.compile(r";\s*branch\s*=\s*([^;\s]*)", re.I)
CSEQ = re.compile(r"\r\ncseq[ \t]*:\s*\d+\s+(\S+)", re.I)


def read_message(letter, data):
    """The transactions that a message concerns, its own one first, and its branch as it is spelled."""
    head = FOLD.sub(" ", data.decode("latin-1").partition("\r\n\r\n")[0])
    # A comma or a semicolon in quotes ends nothing, so texts in quotes are taken out.
    via = QUOTED.sub("", VIA.search(head)[1]).partition(",")[0]
    branch = found[1] if (found := BRANCH.search(via)) else ""
    if not branch.lower().startswith("z9hg4bk"):
        return (), branch
    is_request = not head.startswith("SIP/")
    method = head.partition(" ")[0] if is_request else CSEQ.search(head)[1]
    # A request that is sent or refused is of a client, and so is a response that is received. A server's transaction has the host and the port.
    is_client = (letter in "SF") == is_request
    host, port = SENT_BY.match(via).groups()
    start = ("client", branch.lower(), "") if is_client else ("server", branch.lower(), f"{host.lower()}:{int(port or 5060)}")
    # An ACK is of its INVITE, and a client's CANCEL is also of the INVITE that it is to cancel.
    own = (*start, "INVITE" if is_request and method == "ACK" else method)
    return ((own, (*start, "INVITE")) if is_client and is_request and method == "CANCEL" else (own,)), branch


def read_log(text, malformed=(), most=None):
    """The log of these bytes, up to so many entries. Those with the numbers of `malformed` concern no transaction."""
    # The header has two lines, and one more where it names rules.
    at = re.match(rb".*\n.*\n(?:rules .*\n)?", text).end()
    header, entries = text[:at], []
    while at < len(text) and len(entries) != most:
        end = text.index(b"\n", at)
        line, at = text[at:end].decode().split(" "), end + 1
        letter, moment, data, keys = line[0], int(line[1]), b"", ()
        if letter not in SILENT:
            # After the message stands one line feed.
            data, at = text[at:at + int(line[2])], at + int(line[2]) + 1
            keys = () if len(entries) + 1 in malformed else read_message(letter, data)[0]
        entries.append(Entry(letter, moment, data, keys))
    return Log(header, entries)
