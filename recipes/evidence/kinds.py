"""The kind of a breach, its size, what was due, and what would put it right. All of it is asked of the program."""
import re
from itertools import groupby

from sip_lines import call_id, cseq, die, is_response, spelled_branch

from .asking import LAST, log_of
from .case import MOST_CANDIDATES, Candidate, mark, sent_as, told
from .finding import keys_or_none
from .messages import (ACK_PARTS, ack_for, compared_part, first_difference, is_request, is_same_kind, latin, lines_of, over_udp, part_of_ack, response_to, short,
                       transport_of, values_of, with_branch, with_lines, with_parts)

SAMPLES = 12  # at how many moments between the guessed ones a send is asked about
REACH = 50_000  # among how many entries others of the same call are looked for
# How many messages near the breach are told.
MOST_NEAR = 4


def kind_of(case):
    """The kind of a breach and all that belongs to it, but for what would excuse it."""
    states = case.history.states()
    facts = {"history": [[one.number, case.letters[one.number]] for one in case.before], "moment": case.moment, "states": states,
             "phases": list(dict.fromkeys(state.split()[0] for state in states))}
    # A response without a request comes first, then a silence that was too long, and last a send that was wrong.
    if case.is_send and case.act_of(case.breach.data) == "no request":
        return {**facts, **not_begun(case)}
    facts["last_wait"] = case.history.last_wait()
    if case.history.is_over_by(case.moment):
        return {**facts, **silence(case)}
    return {**facts, **(wrong_send(case) if case.is_send else disagree())}


def disagree():
    """Ends the program where two answers contradict each other."""
    die("the answers of siptrace to several short logs do not agree with each other")


# What follows is of a response without a request.

def not_begun(case):
    """The kind of a response to no request of the log, and the request of the same call that it may mean."""
    facts = {"kind": "not begun", "sent": sent_as(case.breach).told(entry=case.at, moment=case.moment), "act": "no request"}
    for one in requests_of_call(case):
        # The response may have a wrong Via, a wrong CSeq, or both.
        for names in ((b"via",), (b"cseq",), (b"via", b"cseq")):
            righted = righted_for(case, one, names)
            if righted:
                return {**facts, "righted": righted}
    return facts


def requests_of_call(case):
    """The last requests before the breach that have the Call-ID and the CSeq number of its response."""
    data, find = case.breach.data, case.found
    call = call_id(data)
    # The entries within REACH before the breach in which the Call-ID stands.
    numbers = find.mentions(call, max(0, case.at - REACH), REACH, REACH) if call else []
    before = [find.entry(number) for number in numbers if number < case.at]
    asked = [one for one in before if one.letter == "R" and not is_request(one.data, b"ACK") and not is_response(one.data)
             and call_id(one.data) == call and cseq(one.data)[0] == cseq(data)[0]]
    # The last three, the newest first.
    return asked[:-4:-1]


def righted_for(case, one, names):
    """The response with these fields of a request, where the program takes it as the right answer to that request at its moment; else None."""
    righted = case.breach.data
    for name in names:
        righted = with_lines(righted, name, lines_of(one.data, name))
    if not case.judge.is_possible(case.times, [one[1:], (case.breach.letter, max(case.moment, one.moment), righted)]):
        return None
    parts = [{"part": latin(lines_of(one.data, name)[0].partition(b":")[0].strip()), "has": values_of(case.breach.data, name), "should": values_of(one.data, name)}
             for name in names]
    return {"request": one.number, "bytes": latin(righted), "parts": parts}


# What follows is of a silence.

def silence(case):
    """The kind of a silence: what had to be sent did not come, or came too late."""
    due = due_alone(case)
    together = [] if due else due_together(case)
    facts = {"deadline": case.history.last_wait(), "due": due, "together": together}
    # `wanted` is what was due. Where it came after all it is too late, and else it never came.
    wanted = [Candidate(one["what"], one["bytes"].encode("latin-1")) for one in due + together]
    late = came_late(case) or group_came_late(case, len(together))
    if late:
        return {**facts, "kind": "too late", "act": case.act_of(late["sent"]["bytes"].encode("latin-1")), **late}
    facts |= {"kind": "never came", "act": case.act_of(wanted[0].data) if wanted else "", "near": near(case)}
    facts["instead"] = compared(case.breach, wanted) if case.is_send else None
    return facts


def settles(case, candidate, moment):
    """Whether this send at this moment takes the history past its last moment of silence."""
    return case.history.allows(candidate.at(moment), mark(case.history.last_wait() + 1))


def due_alone(case):
    """Each message that alone would have settled what was due, with its windows."""
    found = {}
    # What a state owes is tried first, so that it is told by the entry for which it is owed.
    owed = [asked.data for _, asked in owed_messages(case, case.history.last_wait())]
    for one in sorted(case.candidates(), key=lambda one: not (one.of and case.found.entry(one.of).data in owed)):
        # Messages with the same bytes are asked about once.
        windows = case.history.windows(lambda moment: settles(case, one, moment)) if one.data not in found else []
        if windows:
            found[one.data] = one.told(windows=told(windows))
    return list(found.values())


def owed_messages(case, until=LAST):
    """The messages that the states must send by a moment: for each the place of its state, and the entry whose bytes it repeats or which it acknowledges."""
    asked = case.asked()
    for place, state in enumerate(case.history.states()):
        for number, deadline in re.findall(r"owes=(\d+)/(\d+)/must", state):
            if int(deadline) <= until:
                yield place, asked[int(number) - 1]


def settle_together(case, candidates):
    """Whether all these sends together take the history past its last moment of silence."""
    until = case.history.last_wait()
    return case.history.allows(*[one.at(until) for one in candidates], mark(until + 1))


def due_together(case):
    """The fewest owed messages of a state that together settle what was due, where none does alone: all are tried, and then one after another is left out."""
    for pool in owed_by_states(case):
        if settle_together(case, pool):
            for one in list(pool):
                rest = [other for other in pool if other is not one]
                if settle_together(case, rest):
                    pool = rest
            return [one.told(windows=told(case.history.windows_of_send(one.letter, one.data))) for one in pool]
    return []


def owed_by_states(case):
    """The messages that each state must send by then, in the order of the listing, where they are several; then all of them together."""
    for until in (case.history.last_wait(), LAST):
        for _, owed in groupby(owed_messages(case, until), key=lambda one: one[0]):
            pool = [made for made in (candidate_for(case, one) for _, one in owed) if made]
            if len(pool) > 1:
                yield pool


def candidate_for(case, owed):
    """The message that is owed for an entry: for a client the ACK of its response, for a server its bytes again."""
    for one in case.candidates():
        # The entry that the candidate repeats or acknowledges.
        of = next((other for other in case.before if other.number == one.of), None)
        if of is not None and of.data == owed.data and is_request(one.data, b"ACK") is (case.role == "client"):
            return Candidate(one.what, one.data, "S", one.of)
    return None


def came_late(case):
    """The next send of the transaction that would have settled what was due, had it come in time."""
    for one in case.sends_from_breach()[:4]:
        message = sent_as(one)
        windows = case.history.windows(lambda moment: settles(case, message, moment))
        # A window up to the moment of the send would make it right.
        if windows and windows[-1][1] >= one.moment:
            disagree()
        if windows:
            return {"by": one.moment - windows[-1][1], "sent": message.told(entry=one.number, moment=one.moment, windows=told(windows))}
    return None


def group_came_late(case, count):
    """The next sends that together would have settled what was due, had all of them come in time."""
    group = []
    for one in case.sends_from_breach() if count else []:
        # Only sends that had a window can be of the group.
        if case.history.windows_of_send(one.letter, one.data):
            group.append(one)
        if len(group) == count:
            if not settle_together(case, [sent_as(each) for each in group]):
                return None
            windows = case.history.windows_of_send(one.letter, one.data)
            if windows[-1][1] >= one.moment:
                disagree()
            return {"by": one.moment - windows[-1][1], "group": [each.number for each in group],
                    "sent": sent_as(one).told(entry=one.number, moment=one.moment, windows=told(windows))}
    return None


def compared(one, wanted):
    """In what an entry differs from the wanted message of its kind."""
    for message in wanted:
        if is_same_kind(one.data, message.data):
            # ACKs are compared by their parts, and other messages line by line.
            if is_request(message.data, b"ACK"):
                parts = differing_parts(one.data, message.data)
                return {"entry": one.number, "wanted": message.what, "parts": parts} if parts else None
            return {"entry": one.number, "wanted": message.what, **first_difference(one.data, message.data)}
    return None


def near(case):
    """The next entries of the same call in other transactions of the same role, and what each lacks to be what was due."""
    first, last = case.before[0], case.before[-1]
    call, found = call_id(first.data), []
    for number in case.found.mentions(call, last.number, 3 * MOST_NEAR, REACH) if call else []:
        one = case.found.entry(number)
        # A mark, or a message that is malformed.
        if not one.data or case.judge.verdict(log_of(case.times, [one[1:]]))[0] == "malformed":
            continue
        # It is of the same call and role, and of another transaction.
        keys = keys_or_none(one.letter, one.data)
        if call_id(one.data) == call and any(key[0] == case.role for key in keys) and case.found.key not in keys:
            row = {"entry": number, "letter": one.letter, "moment": one.moment, "what": short(one.data), "branch": latin(spelled_branch(one.data))}
            found.append({**row, **would_be_ack(case, one)})
    return found[:MOST_NEAR]


def would_be_ack(case, one):
    """What must change in an ACK with another branch for it to be an ACK that was due."""
    invite = case.first_request()
    if one.letter == "S" and is_request(one.data, b"ACK") and case.role == "client" and invite is not None:
        # It is asked about at its own moment, or at the last one at which it would have been in time.
        moment = min(one.moment, case.history.last_wait())
        for refusal in case.refusals():
            parts = parts_to_right(case, one.data, invite.data, refusal.data, moment, mark(case.history.last_wait() + 1))
            if parts:
                return {"would_be": {"what": "the ACK of entry %d's %s" % (refusal.number, short(refusal.data)), "late_by": one.moment - moment, **parts}}
    return {}


# What follows is of an ACK of no response that was received.

def differing_parts(ack, right):
    """The parts in which an ACK is not the right one."""
    return [part_told(ack, right, part) for part in ACK_PARTS if compared_part(ack, part) != compared_part(right, part)]


def part_told(ack, right, part):
    """A part of an ACK, as it is and as it should be."""
    return {"part": part, "has": part_of_ack(ack, part), "should": part_of_ack(right, part)}


def parts_to_right(case, ack, invite, response, moment, *after):
    """The fewest parts of section 17.1.1.3 that must change so that the program takes a message for the ACK of this response, or None where no change helps."""
    right = ack_for(invite, response)

    def is_right(parts):
        """Whether the ACK with these parts of the right one is allowed."""
        return case.history.allows(("S", moment, with_parts(ack, parts, right)), *after)

    # It is right as it is, or not even with all parts put right.
    if is_right(()) or not is_right(ACK_PARTS):
        return None
    parts = list(ACK_PARTS)
    for part in ACK_PARTS:
        rest = [other for other in parts if other != part]
        parts = rest if is_right(rest) else parts
    return {"parts": [part_told(ack, right, part) for part in parts], "bytes": latin(with_parts(ack, parts, right))}


def ack_put_right(case):
    """What must change in an ACK that is allowed at no moment, and the response whose ACK it should be."""
    invite, ack = case.first_request(), case.breach.data
    if not (case.role == "client" and case.is_invite and is_request(ack, b"ACK") and invite is not None):
        return None
    for refusal in case.refusals():
        of = {"kind": "not the ACK", "of": refusal.number, "of_what": short(refusal.data)}
        parts = parts_to_right(case, ack, invite.data, refusal.data, case.moment)
        if parts:
            return {**of, "repair": parts}
        # No ACK is allowed at this moment: the right one may be at another.
        right = ack_for(invite.data, refusal.data)
        differs = differing_parts(ack, right)
        windows = case.history.windows_of_send("S", right) if differs else []
        if windows:
            return {**of, "right": {"bytes": latin(right), "parts": differs}, "and_windows": told(windows)}
    return None


# What follows is of a send that is allowed at another moment, with other bytes, or at no moment.

def wrong_send(case):
    """The kind of a send that is not allowed at its moment, where silence would have been."""
    one, message = case.breach, sent_as(case.breach)
    windows = case.history.windows_of_send(one.letter, one.data, SAMPLES)
    facts = {"sent": message.told(entry=one.number, moment=one.moment, windows=told(windows)), "act": case.act_of(one.data)}
    if windows:
        return {**facts, **nearest(windows, one.moment)}
    # It is allowed at no moment: as another ACK, with other bytes, or not at all.
    return {**facts, **(ack_put_right(case) or bytes_put_right(case) or allowed_at_no_moment(case))}


def nearest(windows, moment):
    """By how much a moment lies after the window before it, or before the next one, whichever is less."""
    # A tie counts as too late.
    late = min((moment - last for _, last in windows if last < moment), default=None)
    early = min((first - moment for first, _ in windows if first > moment), default=None)
    if any(first <= moment <= last for first, last in windows):
        disagree()
    if early is None or late is not None and late <= early:
        return {"kind": "too late", "by": late}
    return {"kind": "too early", "by": early}


def bytes_put_right(case):
    """The message of the same kind that the transaction sent before, and that was allowed at the moment of the breach, or else at another moment."""
    one, later = case.breach, None
    for other in case.sent():
        if is_same_kind(other.data, one.data) and other.data != one.data:
            repair = {"of": other.number, **first_difference(one.data, other.data), "bytes": latin(other.data)}
            if case.history.allows((one.letter, one.moment, other.data)):
                return {"kind": "not the same bytes", "repair": repair}
            windows = case.history.windows_of_send(one.letter, other.data) if later is None else []
            if windows:
                later = {"kind": "not the same bytes", "repair": repair, "and_windows": told(windows)}
    return later


def allowed_at_no_moment(case):
    """The kind of a send that is allowed at no moment: what was allowed in its place, and what took the send away."""
    letter, moment, data = case.breach[1:]
    history = case.history
    then = [one for one in case.candidates() if one.data != data and history.allows(one.at(moment))]
    is_ack = case.role == "client" and is_request(data, b"ACK")
    return {"kind": "not allowed", "allowed_then": [one.told() for one in then], "could_be_silent": history.can_wait(moment), "may_be_over_from": over_from(case),
            "without": taken_away_by(case), "over_udp": is_allowed_over_udp(case),
            "own_branch": is_ack and history.allows((letter, moment, with_branch(data, b"z9hG4bKmade")))}


def taken_away_by(case):
    """The newest of the last entries without which the send would have been allowed at its moment."""
    asked = case.asked()
    # The first entry is never left out, as nothing would be left of the transaction.
    for place in range(len(asked) - 1, max(0, len(asked) - 1 - MOST_CANDIDATES), -1):
        rest = [case.as_asked(one) for one in asked[:place] + asked[place + 1:]]
        if case.judge.is_possible(case.times, [*rest, case.stop]):
            return asked[place].number
    return None


def is_allowed_over_udp(case):
    """Whether the send would be allowed if all messages were over UDP: over a reliable transport no timer sends anything again."""
    entries = [*case.history.entries, case.stop]
    if all(transport_of(data).upper() == "UDP" for _, _, data in entries if data):
        return False
    return case.judge.is_possible(case.times, [(letter, moment, over_udp(data) if data else data) for letter, moment, data in entries])


def over_from(case):
    """The first moment at which the transaction may be over, where one can ask that: a message that comes then calls for nothing, or begins it anew."""
    history, asked = case.history, case.first_request()
    if asked is None or case.role == "client" and not case.is_invite:
        return None
    # A client that is not over has to acknowledge a new final response within `late`, so that silence after that is a breach. A server that is not over owes
    # its final response, and a 183 is none; one that is over takes the request for a new one, to which a 183 may be sent.
    if case.role == "client":
        probe, wait = [("R", response_to(asked.data, 698))], case.times.late + 1
    else:
        probe, wait = [("R", asked.data), ("S", response_to(asked.data, 183))], 0

    def is_over(moment):
        """Whether the transaction may be over by this moment."""
        return history.allows(*[(letter, moment, data) for letter, data in probe], mark(moment + wait))

    if is_over(history.last) or not is_over(LAST - wait):
        return None
    return history.windows(is_over, LAST - wait)[-1][0]


def was_restarted(case, facts):
    """Whether a restart took the send away."""
    return any(one.number == facts.get("without") and one.letter == "Z" for one in case.before)
