"""What the checker reads in a SIP message: its kind, its transaction, and the parts of an ACK (RFC 3261 sections 17.1.1.3, 17.1.3 and 17.2.3). All of
this is the checker's own and has nothing of recipes/."""
import re

# How a branch begins that is unique, in lower case.
COOKIE = b"z9hg4bk"
# The names of fields, by their compact forms.
LONG_NAMES = {b"v": b"via", b"f": b"from", b"t": b"to", b"i": b"call-id", b"l": b"content-length"}
# A quoted string, and the first element of a list.
QUOTED = re.compile(rb'"(?:[^"\\]|\\.)*"', re.S)
FIRST_ELEMENT = re.compile(rb'(?:[^",]|"(?:[^"\\]|\\.)*")*', re.S)
# What an ACK has from its INVITE, or from the response (RFC 3261 section 17.1.1.3).
PARTS_OF_ACK = ("Request-URI", "Call-ID", "From", "To", "CSeq number", "Route", "Via")


def head_lines(data):
    """The lines of the head, the first one too, each with its folds."""
    # A line that begins with a blank or a tab goes on with the one before. The head ends at the first empty line.
    return re.split(rb"\r\n(?![ \t])", data.partition(b"\r\n\r\n")[0])


def name_of(line):
    """The name of a field's line, in lower case and its long form."""
    name = line.partition(b":")[0].strip().lower()
    return LONG_NAMES.get(name, name)


def lines_named(data, name):
    """The lines of the head that have this name."""
    return [line for line in head_lines(data)[1:] if name_of(line) == name]


def values(data, name):
    """The values of the fields with this name, without their folds."""
    return [re.sub(rb"\r\n[ \t]+", b" ", line.partition(b":")[2]).strip() for line in lines_named(data, name)]


def value(data, name):
    """The first value of the fields with this name, or nothing."""
    return next(iter(values(data, name)), b"")


def is_response(data):
    """Whether the message is a response."""
    return data[:8].upper().startswith(b"SIP/2.0 ")


def code_of(data):
    """The code of the response."""
    # The code stands after `SIP/2.0 `.
    return int(data[8:11])


def method_of(data):
    """The method of a request, or that of the CSeq of a response."""
    return value(data, b"cseq").split()[1] if is_response(data) else data.split(b" ", 1)[0]


def top_via(data):
    """The first element of the first Via, and its transport, host with port, and branch as it is spelled."""
    whole = FIRST_ELEMENT.match(value(data, b"via"))[0].strip()
    # What is quoted is emptied, so that no `;` within it parts anything. `protocol` has the name, the version, the transport, and host with port.
    bare = QUOTED.sub(b'""', whole)
    first, *parameters = [part.strip() for part in bare.split(b";")]
    protocol = re.fullmatch(rb"(.*?)\s*/\s*(.*?)\s*/\s*(\S+)\s+(.*)", first, re.S)
    named = [parameter.partition(b"=") for parameter in parameters]
    branch = next((text.strip() for name, _, text in named if name.strip().lower() == b"branch"), b"")
    return whole, protocol[3], protocol[4], branch


def sent_by(text):
    """Host and port in the form in which two are compared."""
    # An address of IPv6 in square brackets, or a host up to the colon; then a port, which is 5060 where none is told.
    found = re.fullmatch(rb"(\[[^]]*\]|[^:\s]*)\s*(?::\s*(\d+))?", text.strip())
    return found[1].lower() + b":%d" % int(found[2] or 5060)


def keys_of(letter, data):
    """The transactions that an entry concerns, its own first: role, branch, sent-by and method. A CANCEL that is sent concerns that of its INVITE too."""
    if not data:
        return []
    _, _, host, branch = top_via(data)
    branch = branch.lower()
    if not branch.startswith(COOKIE):
        return []
    method, answers = method_of(data), is_response(data)
    if method == b"ACK" and not answers:
        method = b"INVITE"
    # Who receives a response, or sends a request, is the client. A client's transactions are not told apart by host and port.
    if (letter == "R") == answers:
        own = ("client", branch, b"", method)
        return [own, ("client", branch, b"", b"INVITE")] if method == b"CANCEL" and not answers else [own]
    return [("server", branch, sent_by(host), method)]


def solid(text):
    """A text without its blanks. An ACK is compared with its INVITE in this form."""
    return re.sub(rb"[ \t\r\n]", b"", text)


def part_of_ack(data, part):
    """What a request has in a part of section 17.1.1.3, in the form in which it is compared."""
    if part == "Request-URI":
        return data.split(b" ", 2)[1]
    if part == "CSeq number":
        # The number of CSeq without zeros before it.
        return b"%d" % int(value(data, b"cseq").split()[0])
    return solid(b",".join(values(data, part.lower().encode())))


def wanted_of_ack(invite, response, part):
    """What the ACK of this response to this INVITE has to have in a part."""
    if part == "To":
        return part_of_ack(response, part)
    if part == "Via":
        return solid(top_via(invite)[0])
    return part_of_ack(invite, part)


def wrong_parts(ack, invite, response):
    """The parts in which a request is not the ACK of this response to this INVITE."""
    return [part for part in PARTS_OF_ACK if part_of_ack(ack, part) != wanted_of_ack(invite, response, part)]


def with_lines(data, name, lines):
    """A message in which these lines stand in place of the fields of one name, after its start line."""
    # The end of the head and the body stay as they are.
    first, *others = head_lines(data)
    return b"\r\n".join([first, *lines, *(line for line in others if name_of(line) != name)]) + data[data.index(b"\r\n\r\n"):]


def with_part_of(data, other, part):
    """A request with one part of 17.1.1.3 as another request has it."""
    if part == "Request-URI":
        method, _, rest = data.split(b" ", 2)
        return b" ".join([method, other.split(b" ", 2)[1], rest])
    # The other parts are fields of their own names.
    name = b"cseq" if part == "CSeq number" else part.lower().encode()
    return with_lines(data, name, lines_named(other, name))


def right_ack(ack, invite, response):
    """The ACK with each wrong part put right, for this response to this INVITE."""
    right = ack
    for part in wrong_parts(ack, invite, response):
        if part == "Via":
            right = with_lines(right, b"via", [b"Via: " + top_via(invite)[0]])
        elif part == "CSeq number":
            right = with_lines(right, b"cseq", [b"CSeq: " + value(invite, b"cseq").split()[0] + b" ACK"])
        else:
            right = with_part_of(right, response if part == "To" else invite, part)
    return right


def cancel_of(invite):
    """The CANCEL of an INVITE (RFC 3261 section 9.1)."""
    # Request-URI, top Via, From, To, Call-ID, Route and the number of CSeq are those of the INVITE.
    kept = [line for line in head_lines(invite)[1:] if name_of(line) in (b"from", b"to", b"call-id", b"route")]
    lines = [b"CANCEL " + invite.split(b" ", 2)[1] + b" SIP/2.0", b"Via: " + top_via(invite)[0], *kept,
             b"CSeq: " + value(invite, b"cseq").split()[0] + b" CANCEL", b"Content-Length: 0", b"", b""]
    return b"\r\n".join(lines)


def ack_of(invite, response):
    """The ACK of a refusal of an INVITE (RFC 3261 section 17.1.1.3)."""
    # An ACK has what a CANCEL has, but for the method and for To, which is that of the response.
    ack = cancel_of(invite).replace(b"CANCEL ", b"ACK ", 1)
    return with_lines(with_lines(ack, b"cseq", [b"CSeq: " + value(invite, b"cseq").split()[0] + b" ACK"]), b"to", lines_named(response, b"to"))


def response_to(request, code):
    """A new response to a request, which has the request's fields."""
    return b"\r\n".join([b"SIP/2.0 %d Asked again" % code, *head_lines(request)[1:], b"", b""])


def over_udp(data):
    """A message whose top Via has UDP as its transport."""
    return re.sub(rb"(?i)(\n(?:v|via)[ \t]*:\s*SIP\s*/\s*2\.0\s*/\s*)[^\s]+", rb"\1UDP", data, count=1)


def with_branch(data, branch):
    """A message with another branch in its top Via."""
    return re.sub(rb"(?i)(;\s*branch\s*=\s*)[^;,\s]+", rb"\1" + branch, data, count=1)


def is_same_kind(one, other):
    """Whether two messages are requests of one method, or responses with one code to one method."""
    if is_response(one) != is_response(other) or method_of(one) != method_of(other):
        return False
    return not is_response(one) or code_of(one) == code_of(other)
