"""The evidence as a text, made of the data alone: each number in it stands in the data."""
import base64
import gzip
import shlex
import textwrap

from .rules import phase_in_words
from .sentences import listed, spans

# How wide the text is, and how many lines, rows, states and near messages it shows at most.
WIDTH = 118
MOST_LINES = 40
MOST_ROWS = 9  # how many entries are shown: the first ones and the last ones
FIRST_ROWS = 3
MOST_STATES = 3
MOST_NEAR = 3
NO_CLOCK = 1000  # milliseconds: a tolerance above that is no clock's
# How an entry is drawn, by its letter.
ARROWS = {"S": "--->", "F": "--x ", "R": "<---", "M": "    ", "Z": "    "}


def printable(text):
    """A text with which no message can steer a terminal: what is not plain ASCII is shown by its number."""
    return "".join(sign if " " <= sign <= "~" else "\\x%02x" % ord(sign) if ord(sign) < 256 else "\\u%04x" % ord(sign) for sign in text)


def runs(numbers):
    """Numbers of entries in words, those in a row as a span: entries 1 to 4 and 6."""
    spans_of = []
    for number in numbers:
        # A number that comes right after the last span makes that longer.
        if spans_of and spans_of[-1][1] + 1 == number:
            spans_of[-1][1] = number
        else:
            spans_of.append([number, number])
    words = listed(("%d" % first if first == last else "%d to %d" % (first, last) for first, last in spans_of), "and")
    return "entry " + words if len(numbers) == 1 else "entries " + words


def text_of(told):
    """The lines of the text that tells the evidence."""
    writer = {"breach": breach, "malformed": malformed, "undecided": undecided, "log fault": log_fault}.get(told["word"])
    if writer is None:
        return [printable(told["verdict"])]
    lines = [told["verdict"], told["sentence"], *writer(told)]
    shown = [part for line in lines for part in wrapped(line)]
    return shown + repeated(told, MOST_LINES - len(shown))


# What follows tells a breach.

def breach(told):
    """The lines on a breach, from what is wrong to what has to be settled."""
    yield from ("  " + line for line in details(told))
    rule = told["rule"]
    yield "Rule (%s%s): %s" % (rule["section"], ", timer %s" % rule["timer"] if rule["timer"] else "", rule["meaning"])
    yield from transaction(told)
    yield from ladder(told)
    yield from standing(told)
    yield from nearby(told)
    yield from settled(told)


def details(told):
    """The lines on what is wrong in the message that was sent, and on when it was allowed or what was allowed in its place."""
    sent, seen = told.get("sent", {}), []
    # What is told already, by the sentence or by a line above, is not told twice.
    for one in told.get("due", []) + told.get("together", []):
        if one["bytes"] == sent.get("bytes") and one["windows"] == sent.get("windows") or one in seen:
            continue  # the sentence tells this, or the line above
        seen.append(one)
        yield "%s was allowed %s." % (one["what"][0].upper() + one["what"][1:], spans(one["windows"]))
    # What each other part of the evidence has is told by a line of its own: what would be right in place of what was sent.
    if told.get("instead"):
        yield from difference(told["instead"], "Entry %d is not %s:" % (told["instead"]["entry"], told["instead"]["wanted"]))
    if "repair" in told:
        yield from difference(told["repair"], "It differs from entry %d" % told["repair"]["of"] if "line" in told["repair"] else "With %s put right it would be. It" % (
            listed((part["part"] for part in told["repair"]["parts"]), "and")))
    if "right" in told:
        yield from difference(told["right"], "It")
    if "righted" in told:
        yield from difference(told["righted"], "With the %s of entry %d, a request of the same call, it would be allowed. It" % (
            listed((part["part"] for part in told["righted"]["parts"]), "and"), told["righted"]["request"]))
    if told["kind"] == "not allowed":
        yield from instead_of(told)


def difference(found, subject):
    """The lines on what a message has and what it should have."""
    if "line" in found:
        yield "%s first in line %d. It has" % (subject, found["line"])
        yield "    " + found["has"]
        yield "in place of"
        yield "    " + found["should"]
    else:
        yield "%s has" % subject
        yield from ("    %s: %s" % (part["part"], part["has"]) for part in found["parts"])
        yield "in place of"
        yield from ("    %s: %s" % (part["part"], part["should"]) for part in found["parts"])


def instead_of(told):
    """The lines on what was allowed in place of a message that is allowed at no moment, and on what took it away."""
    moment = told["sent"]["moment"]
    # First what was allowed at the moment of the send; then each change with which the send itself would have been allowed.
    allowed = [one["what"] for one in told["allowed_then"]]
    if allowed:
        yield "At %d it was allowed to send %s%s." % (moment, listed(allowed), ", or to be silent" if told["could_be_silent"] else "")
    else:
        yield "At %d only silence was allowed." % moment if told["could_be_silent"] else "At %d nothing that was asked about was allowed." % moment
    if told["without"] is not None:
        yield "Without entry %d it would have been allowed." % told["without"]
    if told["own_branch"]:
        yield "With a branch of its own it would have been allowed."
    if told["over_udp"]:
        yield "Over UDP it would have been allowed; its transport is %s." % told["transaction"]["transport"]
    if told["may_be_over_from"] is not None:
        yield "The transaction may be over from %d on." % told["may_be_over_from"]


def transaction(told):
    """The lines on whose transaction it is: its number, key and call, and the times of the element."""
    own, times = told["transaction"], told["times"]
    alike = times["early"] == times["late"]
    yield "Transaction %d: %s, %s, branch %s%s" % (own["number"], own["role"], own["method"], own["branch"], ", from " + own["sent_by"] if own["sent_by"] else "")
    yield "  Call-ID %s, CSeq %s, %s; T1 %d, %s%s" % (
        own["call_id"], own["cseq"], own["transport"], times["t1"], "tolerance %d" % times["late"] if alike else "early %d, late %d" % (times["early"], times["late"]),
        ", rules of RFC 3261 without RFC 6026" if times["rules"] == 3261 else "")


class Row(str):
    """A line that stays one line, however long it is."""


def ladder(told):
    """The lines of the entries, in the form in which one reads a call."""
    rows, late = told["rows"], told["sent"]["entry"] if told.get("kind") == "too late" else None
    dates = {one["time"].split()[0] for one in rows if "time" in one}
    has_date = len(dates) == 1
    date = "; %s, UTC, # packet" % dates.pop() if has_date else "; UTC, # packet" if dates else ""
    yield Row("    entry   moment   since  (milliseconds; ---> sent, --x its transport refused, <--- received, ! in question%s)" % date)
    # Of many rows the first FIRST_ROWS are shown and so many of the last ones that they are MOST_ROWS together; one line tells which are left out between
    # them.
    cut = len(rows) > MOST_ROWS + 1
    for place, one in enumerate(rows):
        if cut and place == FIRST_ROWS:
            yield "          .. entries %d to %d of the log .." % (one["number"], rows[FIRST_ROWS - MOST_ROWS - 1]["number"])
        if not cut or place < FIRST_ROWS or place >= len(rows) + FIRST_ROWS - MOST_ROWS:
            yield Row(printable(row(one, one["number"] in (told["entry"]["number"], late), has_date)))


def row(one, is_breach, has_date):
    """The line of an entry. It has the time alone where the heading has the date."""
    if one["line"]:
        what = one["line"].removesuffix(" SIP/2.0") if one["again"] is None else "entry %d again" % one["again"]
    else:
        what = "the element is started anew" if one["letter"] == "Z" else "silence; the log has come to this moment"
    seen = ""
    if "time" in one:
        # Beside the time and the ends there is room for 38 characters of the message, and else for 64.
        what = "%-38s" % what[:38]
        seen = " %s %s > %s%s" % (one["time"].split()[1] if has_date else one["time"], one["from"], one["to"], " #" + one["place"] if "place" in one else "")
    return "  %7d %8d %7s %s%s %s%s" % (one["number"], one["moment"], "" if one["since"] is None else "+%d" % one["since"],
                                       ARROWS[one["letter"]] if one["line"] else "    ", "!" if is_breach else " ", what[:64], seen)


def standing(told):
    """The lines on the phases in which the transaction stood before the breach, and how long it could be silent."""
    role = told["transaction"]["role"]
    phases = told["phases"][:MOST_STATES]
    if phases:
        yield "After entry %d it stood in %s." % (told["history"][-1][0], listed("%s (%s)" % (phase, phase_in_words(role, phase)) for phase in phases))
    if told.get("last_wait") is not None and "deadline" not in told:
        yield "It was allowed to be silent up to %d." % told["last_wait"]


def nearby(told):
    """The lines on messages of the same call that the log has in other transactions."""
    near = told.get("near")
    if near:
        yield "What else the log has of this call on this side, in other transactions:"
    for one in (near or [])[:MOST_NEAR]:
        yield "  %7d %8d         %s  %s  branch %s" % (one["entry"], one["moment"], ARROWS[one["letter"]], one["what"], one["branch"])
        if "would_be" in one and one is near[0]:
            would = one["would_be"]
            yield "      It would be %s%s with %s." % (would["what"], ", sent %d ms sooner and" % would["late_by"] if would["late_by"] else ",", listed(
                ("%s %s in place of %s" % (part["part"], part["should"], part["has"]) for part in would["parts"]), "and"))


def settled(told):
    """The lines on what would excuse the breach, and on what was asked and would not."""
    # The questions whose yes excuses the breach, each with what weakens that, and then the others in short.
    helping = [one for one in told["excuses"] if one["helps"]]
    if helping:
        yield "Settle these questions before you send this text. If the answer to one of them is yes, it is no breach:"
    for one in helping:
        yield "  - %s%s%s" % (one["question"], " No clock is." if one["change"].get("tolerance", 0) > NO_CLOCK else "",
                              " Later on its branch is not legal all the same." if one["to_the_end"] is False else "")
    rest = [one["short"] for one in told["excuses"] if not one["helps"]]
    if rest:
        yield "These were asked too and excuse nothing: %s." % ", ".join(rest)
    if told["kind"] == "never came":
        yield "No tolerance is suggested: what was due had not come by %d, the last moment that was read." % told["last_moment"]
    if told["undecided"]:
        yield "Of the answers %d were `undecided`, and count as allowed." % told["undecided"]


# What follows tells the other verdicts.

def malformed(told):
    """The lines on a message that has a fault."""
    if told["whose"] == "received":
        yield "The element did not write this message. The fault is its sender's, and says nothing against this element."
    else:
        yield "The element sent it. The fault is the element's own, where the log has the message as it was sent."
    yield {"line": "Line %s of its head:" % told["line"], "head": "Its head:", "body": "Its head (the fault is in what stands after it):"}[told["unit"]]
    for number, text in told["lines"]:
        yield "  %3d  %s" % (number, text.replace("\r\n", "\\r\\n"))
    if told["front"] is not None:
        text = next(text for number, text in told["lines"] if number == told["line"])
        yield "Up to place %d the line could stand. What comes then is wrong: %s" % (told["front"], text[told["front"]:])
    if told["mended"]:
        yield "The fault is gone %s." % told["mended"]["what"]
    yield from ladder(told)


def undecided(told):
    """The lines on a transaction that could stand in too many states."""
    yield from transaction(told)
    yield "It has %s." % runs(told["entries"])
    yield "How many states it could stand in grew so: %s." % ", ".join("%d after entry %d" % (states, number) for number, states in told["growth"])
    yield "One of them owes up to %d messages that may still be sent: they differ in which of these were sent, and when." % told["most_debts"]
    decided = told["decided"]
    if decided is None:
        yield "No smaller tolerance that was asked about decides it."
    else:
        yield "With a tolerance of %d it is decided: the branch is %s." % (decided["tolerance"], "legal" if decided["entry"] is None else "%s at entry %d" % (
            decided["word"].replace("breach", "in breach"), decided["entry"]))


def log_fault(told):
    """The lines on a log that cannot be read on."""
    yield "At byte %d the file has:" % told["at_byte"]
    yield "    " + repr(told["there"])


# What follows tells how the verdict is shown again.

def repeated(told, room):
    """The lines on how the verdict is shown again: by lines that have the log of the branch, where the text has room for it."""
    program = "The program that judged, siptrace, has the SHA-256 %s." % told["program"]["sha256"]
    again = told.get("repeat")
    if again is None:
        return wrapped("To repeat it: siptrace check %s. %s" % (shlex.quote(told["log"]), program))
    about = "the log of this %s alone, %s here" % ("branch" if told["word"] == "breach" else "message", runs(again["numbers"]))
    verdict = "Its verdict is: " + again["verdict"]
    # The log of the branch is packed at its smallest, without a time, and written in lines of base64.
    packed = textwrap.wrap(base64.b64encode(gzip.compress(again["log"].encode("latin-1"), 9, mtime=0)).decode(), WIDTH)
    lines = wrapped("To repeat it, run the lines below. They have %s, and print it where the last command is left out. %s" % (about, program)) + [verdict, "base64 -d <<. | gunzip | siptrace", *packed, "."]
    # Where the text has no room for these lines, the log has to be sent beside it.
    if len(lines) <= room:
        return lines
    if "file" in again:
        return wrapped("To repeat it: siptrace check %s, which has %s. %s" % (shlex.quote(again["file"]), about, program)) + [verdict]
    return wrapped("To repeat it, send with this text %s: the option --keep FILE writes it. %s" % (about, program)) + [verdict]


def wrapped(line):
    """A line as lines of the text's width."""
    if isinstance(line, Row):
        return [line]
    line = printable(line)
    # Further lines stand four blanks to the right of the first one.
    indent = " " * (4 + len(line) - len(line.lstrip()))
    return textwrap.wrap(line, WIDTH, subsequent_indent=indent, break_long_words=False, break_on_hyphens=False) or [""]
