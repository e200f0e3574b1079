"""Messages that are put right or made from others, for the program to be asked about. Nothing is decided here: where a message is made wrongly the program
answers no, and no claim comes of it."""
import re

from sip_lines import code_of, cseq, field, first_line, is_response, method_of

# The compact names of fields (RFC 3261 section 7.3.3).
COMPACT = {b"v": b"via", b"f": b"from", b"t": b"to", b"i": b"call-id", b"l": b"content-length"}
ACK_PARTS = ("Request-URI", "Call-ID", "From", "To", "CSeq number", "Route", "Via")  # RFC 3261 section 17.1.1.3
# What stands after the head of a message.
HEAD_END = b"\r\n\r\n"


def latin(data):
    """The bytes as text, one sign for each byte."""
    return data.decode("latin-1")


def lines_and_rest(data):
    """The lines of the head, each with its folds, and what is left from the empty line on."""
    head, end, body = data.partition(HEAD_END)
    # A line that begins with a blank or a tab goes on with the one before.
    return re.split(rb"\r\n(?![ \t])", head), end + body


def name_of(line):
    """The name of a line's field, in full and in lower case."""
    name = line.partition(b":")[0].strip().lower()
    return COMPACT.get(name, name)


def lines_of(data, name):
    """The lines of the fields with this name, as they are spelled."""
    return [line for line in lines_and_rest(data)[0][1:] if name_of(line) == name]


def values_of(data, name):
    """The values of the fields with this name in one line, as a reader wants them."""
    return latin(re.sub(rb"\s+", b" ", b", ".join(line.partition(b":")[2].strip() for line in lines_of(data, name))))


def with_lines(data, name, lines):
    """A message in which these lines are the fields of a name, where the message's own stood, or after its start line."""
    old, rest = lines_and_rest(data)
    # Line 0 is the start line.
    places = [n for n, line in enumerate(old) if n and name_of(line) == name]
    kept = [line for n, line in enumerate(old) if n not in places]
    place = places[0] if places else 1
    return b"\r\n".join(kept[:place] + lines + kept[place:]) + rest


def with_top_via(data, pattern, text):
    """A message in whose top Via the first text that fits a pattern is replaced."""
    lines = lines_of(data, b"via")
    return with_lines(data, b"via", [re.sub(pattern, text, lines[0], count=1, flags=re.I), *lines[1:]]) if lines else data


def over_udp(data):
    """The message with UDP as the transport of its top Via."""
    # The name of the field, the colon, SIP and its version, and then the transport.
    return with_top_via(data, rb"^([^:]*:\s*[^/]*/[^/]*/\s*)\S+", rb"\1UDP")


def with_branch(data, branch):
    """The message with this branch in its top Via."""
    return with_top_via(data, rb"(;\s*branch\s*=\s*)[^;,\s]+", rb"\1" + branch)


def transport_of(data):
    """The transport of the top Via."""
    # After SIP and its version.
    found = re.match(rb"[^/]*/[^/]*/\s*([^\s;,]+)", field(data, b"via", b"v"))
    return latin(found[1]) if found else ""


def first_element(line):
    """The line of a field with its first element alone, up to the first comma outside of quotes."""
    return re.match(rb'(?:[^",]|"(?:[^"\\]|\\.)*")*', line, re.S)[0].rstrip()


def top_via_line(data):
    """The topmost Via alone, if there is one."""
    return [first_element(line) for line in lines_of(data, b"via")[:1]]


def request(method, uri, *lines):
    """A request with these lines and no body."""
    return b"\r\n".join([method + b" " + uri + b" SIP/2.0", *lines, b"Max-Forwards: 70", b"Content-Length: 0", b"", b""])


def uri_of(data):
    """The Request-URI of the request."""
    return data.split(b" ", 2)[1]


def request_with(invite, method, to_lines):
    """A request that goes over the branch of an INVITE: the ACK of a refusal, or a CANCEL."""
    return request(method, uri_of(invite), *top_via_line(invite), *lines_of(invite, b"route"), *lines_of(invite, b"from"), *to_lines,
                   *lines_of(invite, b"call-id"), b"CSeq: " + cseq(invite)[0] + b" " + method)


def ack_for(invite, response):
    """The ACK for this response to the INVITE."""
    return request_with(invite, b"ACK", lines_of(response, b"to"))


def cancel_for(invite):
    """The CANCEL of the INVITE."""
    return request_with(invite, b"CANCEL", lines_of(invite, b"to"))


def response_to(asked, code):
    """A new response to a request."""
    # A response has a tag in To.
    to_lines = [line if b"tag=" in line else line + b";tag=made" for line in lines_of(asked, b"to")]
    return b"\r\n".join([b"SIP/2.0 %d Made" % code, *lines_of(asked, b"via"), *lines_of(asked, b"from"), *to_lines, *lines_of(asked, b"call-id"),
                         *lines_of(asked, b"cseq"), b"Content-Length: 0", b"", b""])


def request_for(response):
    """A request to which this response may be the answer."""
    # The request is made without the tag in To, as one outside of a dialog is.
    to_lines = [line.partition(b";tag=")[0] for line in lines_of(response, b"to")]
    return request(cseq(response)[1], b"sip:made@example.invalid", *lines_of(response, b"via"), *lines_of(response, b"from"), *to_lines,
                   *lines_of(response, b"call-id"), *lines_of(response, b"cseq"))


def part_of_ack(message, part):
    """The text that a request has in a part of section 17.1.1.3."""
    if part == "Request-URI":
        return latin(uri_of(message))
    if part == "CSeq number":
        return latin(cseq(message)[0])
    return values_of(message, part.lower().encode()) or "none"


def compared_part(message, part):
    """A part of section 17.1.1.3 in the form in which it is compared: numbers as numbers, and From, To, Via and Route without their blanks."""
    text = part_of_ack(message, part)
    if part == "CSeq number":
        # Zeros before a number do not count.
        return text.lstrip("0")
    return text if part in ("Request-URI", "Call-ID") else re.sub(r"[ \t\r\n]", "", text)


def with_part(ack, part, right):
    """An ACK in which one part is that of another message."""
    if part == "Request-URI":
        method, _, rest = ack.split(b" ", 2)
        return b" ".join([method, uri_of(right), rest])
    if part == "CSeq number":
        return with_lines(ack, b"cseq", [b"CSeq: " + cseq(right)[0] + b" " + cseq(ack)[1]])
    name = part.lower().encode()
    return with_lines(ack, name, lines_of(right, name))


def with_parts(ack, parts, right):
    """The ACK with these parts of the right one."""
    for part in parts:
        ack = with_part(ack, part, right)
    return ack


def first_difference(one, other):
    """The first line, counted from 1, in which two messages differ, and what each has there."""
    lines, others = one.split(b"\r\n"), other.split(b"\r\n")
    for number in range(max(len(lines), len(others))):
        has, should = (latin(each[number]) if number < len(each) else "(the message has ended)" for each in (lines, others))
        if has != should:
            return {"line": number + 1, "has": has, "should": should}
    return {"line": len(lines), "has": "", "should": ""}


def code(data):
    """The code of the response, as a number."""
    return int(code_of(data))


def is_request(data, *methods):
    """Whether the message is a request with one of these methods."""
    return not is_response(data) and method_of(data) in methods


def is_same_kind(one, other):
    """Whether two messages are requests of one method, or responses of one code to one method."""
    if is_response(one) != is_response(other):
        return False
    if is_response(one):
        return (code_of(one), cseq(one)[1]) == (code_of(other), cseq(other)[1])
    return method_of(one) == method_of(other)


def short(data):
    """A message in a few words: code and phrase of a response, method and URI of a request."""
    words = first_line(data).split()
    return " ".join(words[1:]) if is_response(data) else " ".join(words[:2])
