"""What RFC 3261 and RFC 6026 say of each thing that a transaction may have done wrong: the timer, the section, and its meaning in a sentence. Words
alone: nothing is judged by them, and no moment is told from them."""

# How a rule begins that is cited, and the rules that several breaches cite.
RFC_3261, RFC_6026 = "RFC 3261 section ", "RFC 6026 section "
OVER = "A transaction that is over sends nothing again."
ACK_AT_ONCE = ("Each 3xx to 6xx to an INVITE gets its ACK at once, with the Request-URI, Call-ID, From, CSeq number, Route and top Via of the INVITE and the To "
               "of that response. Another one is sent only when the response comes again.")
NO_ACK_YET = "An ACK answers a final response, and none had come."
TWO_HUNDRED = "Under RFC 3261 alone a 2xx ends the transaction: after it only the user sends, and only a 2xx."
RESPONSE_BELONGS = "A response belongs to a request that was received: it has that request's top Via, and its method in the CSeq."

# By role, whether the method is INVITE, what was done or due, and the phase where the words differ by it: the timer, the section, and the meaning.
RULES = {
    ("client", True, "request again"): ("A", RFC_3261 + "17.1.1.2", "Over UDP an INVITE without a response is sent again, byte for byte, after T1, and then each "
                                        "time after twice as long, until 64*T1 have passed (timer B). Any response ends this."),
    ("client", True, "request again", "proceeding"): ("A", RFC_3261 + "17.1.1.2", "Once a provisional response has come, an INVITE is not sent again."),
    ("client", True, "request again", "completed"): ("D", RFC_3261 + "17.1.1.2", "After a 3xx to 6xx an INVITE is not sent again. Each such response gets its ACK."),
    ("client", True, "request again", "accepted"): ("M", RFC_6026 + "7.2", "After a 2xx an INVITE is not sent again."),
    ("client", True, "request again", "ended"): ("B", RFC_3261 + "17.1.1.2", OVER),
    ("client", True, "ack"): ("", RFC_3261 + "17.1.1.3", ACK_AT_ONCE),
    ("client", True, "ack", "accepted"): ("", RFC_3261 + "13.2.2.4", "The ACK of a 2xx is no part of the INVITE's transaction: it has a branch of its own."),
    ("client", True, "ack", "calling"): ("", RFC_3261 + "17.1.1.2", NO_ACK_YET),
    ("client", True, "ack", "proceeding"): ("", RFC_3261 + "17.1.1.2", NO_ACK_YET),
    ("client", True, "cancel"): ("", RFC_3261 + "9.1", "A CANCEL is not sent before a provisional response to its INVITE has come."),
    ("client", False, "request again"): ("E", RFC_3261 + "17.1.2.2", "Over UDP a request without a final response is sent again, byte for byte, after T1, and then each "
                                         "time after twice as long, at most T2, until 64*T1 have passed (timer F). Once a provisional response has come, after T2."),
    ("client", False, "request again", "completed"): ("K", RFC_3261 + "17.1.2.2", "After the final response a request is not sent again."),
    ("client", False, "request again", "ended"): ("F", RFC_3261 + "17.1.2.2", OVER),
    ("server", True, "first response"): ("", RFC_3261 + "17.2.1", "An INVITE to which the user has sent no response within 200 ms gets a 100 then."),
    ("server", True, "response again"): ("G", RFC_3261 + "17.2.1", "Over UDP a 3xx to 6xx to an INVITE is sent again, byte for byte, after T1, and then each time after "
                                         "twice as long, at most T2, until the ACK comes or 64*T1 have passed (timer H)."),
    ("server", True, "response again", "proceeding"): ("", RFC_3261 + "17.2.1", "When the INVITE comes again, the last provisional response is sent again, at once."),
    ("server", True, "response again", "confirmed"): ("I", RFC_3261 + "17.2.1", "Once the ACK has come, the final response is not sent again."),
    ("server", True, "response again", "passed"): ("", RFC_3261 + "17.2.1", TWO_HUNDRED),
    ("server", True, "another response"): ("", RFC_3261 + "17.2.1", "The final response to an INVITE is the last one. After it no other response is sent."),
    ("server", True, "another response", "accepted"): ("L", RFC_6026 + "7.1", "After a 2xx to an INVITE nothing but a 2xx is sent, for 64*T1."),
    ("server", True, "another response", "passed"): ("", RFC_3261 + "17.2.1", TWO_HUNDRED),
    ("server", False, "first response"): ("", RFC_3261 + "17.2.2", "The user decides whether and when a request is answered."),
    ("server", False, "response again"): ("J", RFC_3261 + "17.2.2", "When a request comes again, its last response is sent again, at once and byte for byte, and only then. "
                                          "After the final one this goes on for 64*T1 over UDP."),
    ("server", False, "another response"): ("J", RFC_3261 + "17.2.2", "The final response is the last one. After it no other response is sent."),
    ("server", True, "no request"): ("", RFC_3261 + "17.2", RESPONSE_BELONGS),
    ("server", False, "no request"): ("", RFC_3261 + "17.2", RESPONSE_BELONGS),
}
# What is told where no row of the rules fits: of a message that the transaction does not name, of a reliable transport, and of a restart.
NOT_NAMED = ("", RFC_3261 + "17", "A transaction sends only what its state machine names.")
RELIABLE = ("", RFC_3261 + "17", "Over TCP, TLS and any other reliable transport no timer sends a message again.")
RESTARTED = ("", "no RFC, but the Z of the log", "What an element had begun is forgotten when it is started anew: nothing more is sent in that transaction.")

# The phases of the listing in words, by role where the words differ by it.
PHASES = {
    "idle": "it has not begun, or is over and forgotten",
    "calling": "it waits for a first response",
    "trying": "it waits for a first response",
    "proceeding": "a provisional response has come, and no final one",
    "accepted": "a 2xx has been exchanged",
    "completed": "the final response has been exchanged",
    "confirmed": "the ACK has come",
    "passed": "a 2xx has been sent, which ended it under RFC 3261",
    "ended": "it is over",
    ("server", "trying"): "no response has been sent yet",
    ("server", "proceeding"): "the final response has not been sent yet",
}

# The faults of a message and of a log in words, by the number of the reason.
FAULTS = {
    1: ("NoHeadEnd", "it has no empty line after its head: the message was cut, or its lines end in LF alone and not in CRLF"),
    2: ("BareLineEnd", "its head has a CR without LF, or an LF without CR"),
    3: ("StartLine", "its first line is neither a request line nor a status line of SIP/2.0"),
    4: ("FieldLine", "this line is no field: it has no name with a colon"),
    5: ("Value", "the value of this field does not have the form that its name asks for"),
    6: ("Repeated", "this field stands twice, and may stand once"),
    7: ("Missing", "it lacks one of Via, From, To, Call-ID and CSeq"),
    8: ("MethodMismatch", "the method in the CSeq is not that of the request"),
    9: ("NoLength", "it is of TCP or TLS, and has no Content-Length"),
    10: ("ShortBody", "its body is shorter than its Content-Length says: it was cut, or the number is wrong"),
    11: ("LongBody", "its body is longer than its Content-Length says, and it is of TCP or TLS"),
    12: ("NoCookie", "it is a request that was sent, and the branch of its top Via does not begin with z9hG4bK (RFC 3261 section 8.1.1.7)"),
    20: ("Header", "the first two lines are not the header of a log; recipes/why-no-log tells what they are"),
    21: ("EntryLine", "no line of an entry stands there, or the message before it has another length than its line says"),
    22: ("Truncated", "the log ends within it"),
    23: ("Order", "its moment is before that of the entry before it"),
    24: ("Limit", "a number is outside of its limits, or the log has more than 1,000,000 entries"),
}


def rule_for(role, is_invite, act, phases, is_for_udp, was_restarted):
    """The rule that a breach is of: its timer, its section and its meaning."""
    if was_restarted:
        return RESTARTED
    if is_for_udp:
        return RELIABLE
    for phase in phases:
        if (role, is_invite, act, phase) in RULES:
            return RULES[role, is_invite, act, phase]
    return RULES.get((role, is_invite, act), NOT_NAMED)


def phase_in_words(role, phase):
    """What a phase of this role means."""
    return PHASES.get((role, phase)) or PHASES.get(phase, phase)


def fault_told(number):
    """A fault by its number: its name and its meaning."""
    name, meaning = FAULTS[number]
    return {"number": number, "name": name, "meaning": meaning}
