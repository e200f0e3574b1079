"""The verdict in a sentence, with the kind and the size of a breach. It is made of the data alone."""
from collections import Counter

# The kinds of a breach, each as the title of its text.
TITLES = {"too early": "TOO EARLY", "too late": "TOO LATE", "never came": "NEVER CAME", "not the same bytes": "NOT THE SAME BYTES",
          "not the ACK": "NOT THE ACK OF THAT RESPONSE", "not begun": "A RESPONSE TO WHAT THE LOG DOES NOT BEGIN", "not allowed": "ALLOWED AT NO MOMENT"}
# How many windows a sentence tells.
MOST_WINDOWS = 3


def span(window):
    """A window in words. Its last moment may be open."""
    first, last = window
    return "from %d on" % first if last is None else "at %d" % first if first == last else "from %d to %d" % (first, last)


def spans(windows):
    """Windows in words: the first ones, and the last one where there are many."""
    shown = windows if len(windows) <= MOST_WINDOWS else windows[:MOST_WINDOWS - 1]
    rest = [] if len(shown) == len(windows) else ["at more moments, the last of them %s" % span(windows[-1])]
    return ", and ".join([span(window) for window in shown] + rest)


def listed(texts, word="or"):
    """Texts with commas between them, and the word before the last one."""
    texts = list(texts)
    return (" %s " % word).join([", ".join(texts[:-1]), texts[-1]] if len(texts) > 1 else texts)


def counted(texts):
    """The texts, each once. A text that stands there twice or more says so."""
    return [text if count == 1 else text + (", twice" if count == 2 else ", more than twice") for text, count in Counter(texts).items()]


def sent_at(sent):
    """What was sent, and when."""
    return "%s was %s at %d" % (sent["what"], "refused by the transport" if sent["letter"] == "F" else "sent", sent["moment"])


def of_breach(facts):
    """The sentence of a breach: its kind and size, and what was wrong."""
    kind, sent = facts["kind"], facts.get("sent")
    title = TITLES[kind] + (" BY %d ms" % facts["by"] if "by" in facts else "")
    return "%s: %s" % (title, {"too early": moved, "too late": moved, "never came": never_came, "not the same bytes": other_bytes, "not the ACK": no_ack,
                               "not begun": not_begun, "not allowed": not_allowed}[kind](facts, sent))


def moved(facts, sent):
    """Of a message that came too early or too late: when it was allowed."""
    return "%s; it was allowed %s." % (sent_at(sent), spans(sent["windows"]))


def never_came(facts, _):
    """Of a silence: what had to be sent by when."""
    if facts["due"]:
        return "by %d the element had to send %s. It did not." % (facts["deadline"], listed(one["what"] for one in facts["due"]))
    if facts["together"]:
        return "by %d the element had to send all of these: %s. It did not." % (facts["deadline"], listed(counted(one["what"] for one in facts["together"]), "and"))
    return "the element could be silent up to %d and no longer, and nothing that was asked about takes it further." % facts["deadline"]


def other_bytes(facts, sent):
    """Of a message that should repeat an entry and has other bytes: which entry, and when that was allowed."""
    when = "allowed then" if "and_windows" not in facts else "allowed %s, and so not at that moment either" % spans(facts["and_windows"])
    return "%s at %d is not entry %d byte for byte, which was %s." % (sent["what"], sent["moment"], facts["repair"]["of"], when)


def no_ack(facts, sent):
    """Of an ACK that does not belong to a response: which response, and when its ACK was allowed."""
    when = "allowed then" if "repair" in facts else "allowed %s" % spans(facts["and_windows"])
    return "%s at %d is not the ACK of entry %d's %s, which was %s." % (sent["what"], sent["moment"], facts["of"], facts["of_what"], when)


def not_begun(facts, sent):
    """Of a response to no request of the log."""
    return "%s was sent at %d, and no request that it may answer came before it in this log." % (sent["what"], sent["moment"])


def not_allowed(facts, sent):
    """Of a message that is allowed at no moment."""
    return "%s, and that is allowed at no moment after entry %d." % (sent_at(sent), facts["history"][-1][0]) if facts["history"] else "%s." % sent_at(sent)


def of_malformed(facts):
    """The sentence of a message with a fault."""
    entry, fault = facts["entry"], facts["fault"]
    return "MALFORMED: entry %d, a message that the element %s at %d: %s." % (entry["number"], facts["whose"], entry["moment"], fault["meaning"])


def of_undecided(facts):
    """The sentence of a transaction that could stand in too many states."""
    return "UNDECIDED: after entry %d transaction %d could stand in more than %d states, and siptrace follows no more. No breach was found up to there." % (
        facts["entry"]["number"], facts["transaction"]["number"], facts["most_states"])


def of_log_fault(facts):
    """The sentence of a log that cannot be read on."""
    entry = facts["entry"]["number"]
    return "NO LOG: %s: %s." % ("entry %d" % entry if entry else "the header", facts["fault"]["meaning"])
