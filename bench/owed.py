"""Hostile logs in which an element owes much: what bench/judge.sh times under the word owed. Its words are the program, then names of headers, the word long
for lengths eight times as long, and names of logs.

Each log stands in three lengths, each twice the one before. Where a length takes more than 2.3 times what the one before took, the log does not grow in line, and
the last line of all names it. A run ends after SECONDS of processor time, and is told as over.
"""

import sys
import tempfile
from itertools import product
from pathlib import Path

from judge import measured, name_of, write_entries

# After how many seconds a run is ended.
SECONDS = 20
# A time below this many seconds is too short to be compared with the next one.
LEAST = 0.04
# A log grows in line where twice its length takes at most this many times as long.
IN_LINE = 2.3
# The start lines of the requests that the logs have.
INVITE = "INVITE sip:b SIP/2.0"
OTHER = "OPTIONS sip:b SIP/2.0"
# Tos with this tag and eight digits after it have one hash, since the digits are multiplied by zero. Anyone can compute such a text.
ONE_HASH = "am8jb.pi2SWT"
# In how many states a set stands, and how often each of two responses is owed that lead it there. Of n equal debts 0 to n may be paid, so that n + 1
# states stand, and with m of the other response (n + 1) * (m + 1).
SETS = {1: (0, 0), 2: (1, 0), 100: (99, 0), 1024: (31, 31)}


def text(start, method="INVITE", branch=1, tag=""):
    """A message as short as it may be, some 100 bytes."""
    to = f"<sip:b>;tag={tag}" if tag else "<sip:b>"
    # The names of fields are the compact ones, and no blank stands after a colon.
    return f"{start}\r\nv:SIP/2.0/UDP a;branch=z9hG4bK{branch}\r\nf:<sip:a>;tag=1\r\nt:{to}\r\ni:1\r\nCSeq:1 {method}\r\n\r\n"


def reply(code, tag="", branch=1, method="INVITE"):
    """The text of a response with this code."""
    return text(f"SIP/2.0 {code} r", method, branch, tag)


# The entry with which the INVITE comes. An entry is its letter, its moment and the text of its message.
ASK = ("R", 0, text(INVITE))


def widened(states, branch=1):
    """An INVITE server that stands in this many states: it owes two responses, and may have paid each of their debts, or repeated what it last sent."""
    ask = ("R", 0, text(INVITE, branch=branch))
    entries = [ask]
    sent = [("S", 0, reply(code, "w", branch)) for code in (181, 182)]
    for response, owed in zip(sent, SETS[states]):
        if owed:
            # Each INVITE that comes after a response is to be answered by it again: the response is owed as often. 181 and 182 are the two responses.
            entries += [response, *owed * [ask]]
    for response, owed in zip(sent, SETS[states]):
        # Each send pays one debt, or is a repeat of its own.
        entries += owed * [response]
    return entries


def owing(count):
    """A server that owes this many different 180s: each is sent, and then asked for again."""
    return [it for number in range(count) for it in (("S", 0, reply(180, f"o{number}")), ASK)]


def plain(count, moment=0):
    """Requests of a client of another key, with their responses."""
    for number in range(count // 2):
        yield "S", moment, text(OTHER, "OPTIONS", f"p{number}")
        yield "R", moment, reply(200, "p", f"p{number}", "OPTIONS")


def fresh_after_debts(count, states):
    """So many 180s that are owed, then the states, then as many fresh 180s."""
    yield from [ASK, *owing(count), *widened(states)[1:]]
    for number in range(count):
        yield "S", 0, reply(180, f"f{number}")


def repeats_and_sends(count, _):
    """A refusal that is asked for again and again at one moment, and then sent as often."""
    yield from [ASK, ("S", 0, reply(486, "x"))]
    yield from count * [ASK]
    yield from count * [("S", 0, reply(486, "x"))]


def repeats(count, states):
    """Repeats of the INVITE to this many states."""
    yield from [*widened(states), *count * [ASK]]


def repeats_apart(count, states):
    """Repeats of the INVITE to this many states, each a millisecond after the one before."""
    yield from widened(states)
    for number in range(count):
        yield "R", number, ASK[2]


def fresh_and_repeats(count, states):
    """A fresh 180 before each repeat."""
    yield from [*widened(states), *owing(count)]


def equal_then_plain(count, states):
    """So many equal debts, then the states, then 80 messages of another key."""
    yield from [ASK, ("S", 0, reply(180, "e")), *count * [ASK], *widened(states)[1:], *plain(80)]


def wide_sets_and_plain(count, states):
    """100 transactions in this many states, then messages of another key."""
    for number in range(100):
        yield from widened(states, f"e{number}")
    yield from plain(count)


def refused(count, tags, order, between=False):
    """A client whose INVITE is refused so often, with these tags, and its ACKs in this order. Where `between` says so, an OPTIONS is sent after each
    refusal."""
    yield "S", 0, text(INVITE)
    for number in range(count):
        yield "R", 0, reply(486, tags(number))
        if between:
            yield "S", 0, text(OTHER, "OPTIONS", f"b{number}")
    for number in order(range(count)):
        yield "S", 0, text("ACK sip:b SIP/2.0", "ACK", 1, tags(number))


def states_in_other_orders(count, _):
    """A server of which many states owe the same in other orders, since two responses and the INVITE come in turn; then so many fresh responses."""
    yield ASK
    for _ in range(12):
        yield from [("S", 0, reply(181, "w")), ("S", 0, reply(182, "w")), ASK]
    for number in range(count):
        yield "S", 0, reply(180, f"f{number}")


def acks_of_pairs(count, _):
    """Refusals of which each two have one To, and different texts; their ACKs, newest first."""
    yield "S", 0, text(INVITE)
    for number in range(count):
        yield "R", 0, reply(486 + number % 2, f"t{number // 2}")
    for number in reversed(range(count)):
        yield "S", 0, text("ACK sip:b SIP/2.0", "ACK", 1, f"t{number // 2}")


def acks_with_others_between(count, _):
    """Refusals between which another transaction's messages are kept; their ACKs, newest first."""
    yield from refused(count, lambda it: f"t{it}", reversed, True)


def acks_of_one_to(count, _):
    """Refusals that differ and have one To, and as many ACKs."""
    yield "S", 0, text(INVITE)
    for number in range(count):
        yield "R", 0, reply(f"486 {number}", "t")
    yield from count * [("S", 0, text("ACK sip:b SIP/2.0", "ACK", 1, "t"))]


def in_turn(count, tos, tag="t"):
    """Refusals that differ, whose Tos come in turn, so many of them, and the ACKs of the last To first, then those of the one before it, and so on. The tags
    begin with this text."""
    yield "S", 0, text(INVITE)
    for number in range(count):
        yield "R", 0, reply(f"486 {number}", f"{tag}{number % tos}")
    for to in reversed(range(tos)):
        yield from len(range(to, count, tos)) * [("S", 0, text("ACK sip:b SIP/2.0", "ACK", 1, f"{tag}{to}"))]


def acks_in_turn(count, _):
    """Refusals that differ, whose two Tos come in turn, and the ACKs of one To before those of the other."""
    yield from in_turn(count, 2)


def acks_of_16_in_turn(count, _):
    """Refusals that differ, whose 16 Tos come in turn, and the ACKs of one To after those of another."""
    yield from in_turn(count, 16)


def acks_of_100_in_turn(count, _):
    """Refusals that differ, whose hundred Tos come in turn, and the ACKs of one To after those of another."""
    yield from in_turn(count, 100)


def acks_mixed(count, _):
    """The ACKs of refusals in a mixed order."""
    # A prime that divides no count of these logs, so that each refusal has its ACK once.
    step = 7919
    yield from refused(count, lambda it: f"t{it}", lambda them: (it * step % len(them) for it in them))


def acks_but_the_first(count, _):
    """The ACKs of refusals in their order, but that of the first, which comes last."""
    yield from refused(count, lambda it: f"t{it}", lambda them: [*them[1:], 0])


def acks_past_two(count, _):
    """A refusal that comes again and again, each time with its ACK, and two others whose ACKs come last: three are owed at most."""
    def ack(tag):
        return "S", 0, text("ACK sip:b SIP/2.0", "ACK", 1, tag)
    yield from [("S", 0, text(INVITE)), ("R", 0, reply(486, "a")), ("R", 0, reply(486, "b"))]
    yield from count * [("R", 0, reply(486, "c")), ack("c")]
    yield from (ack("a"), ack("b"))


def acks_of_two_in_turn(count, _):
    """Two refusals that come again and again, in turn, and the ACKs of the second before those of the first."""
    yield "S", 0, text(INVITE)
    for number in range(count):
        yield "R", 0, reply(486, f"t{number % 2}")
    for number in range(count):
        yield "S", 0, text("ACK sip:b SIP/2.0", "ACK", 1, "t1" if number < count // 2 else "t0")


def acks_of_other_calls(count, _):
    """Refusals that differ in their To and their Call-ID; their ACKs, newest first."""
    yield "S", 0, text(INVITE)
    for number in range(count):
        yield "R", 0, reply(486, f"t{number}").replace("\r\ni:1\r\n", f"\r\ni:{number}\r\n")
    for number in reversed(range(count)):
        yield "S", 0, text("ACK sip:b SIP/2.0", "ACK", 1, f"t{number}")


def acks_between(count, _):
    """Refusals that differ in their To, and after each of them another one twice, of which one gets its ACK: the ACK is kept among what is owed."""
    yield "S", 0, text(INVITE)
    for number in range(count):
        yield "R", 0, reply(486, f"t{number}")
        yield from 2 * [("R", 0, reply(486, "a"))]
        yield "S", 0, text("ACK sip:b SIP/2.0", "ACK", 1, "a")


def acks_in_another_order(count, _):
    """Refusals that differ and have one To, after one with another To. They come again, the newest first, and then as many ACKs."""
    yield "S", 0, text(INVITE)
    yield "R", 0, reply(486, "a")
    for number in (*range(count), *reversed(range(count))):
        yield "R", 0, reply(f"486 {number}", "t")
    yield from 2 * count * [("S", 0, text("ACK sip:b SIP/2.0", "ACK", 1, "t"))]


def acks_beside_equal_ones(count, _):
    """Refusals that differ, whose two Tos come in turn, and between them refusals with the first To, each as often as 17 times in a row; then as many of three
    Tos in turn, and ACKs of the first To. What is owed of each message stands apart."""
    yield "S", 0, text(INVITE)
    for number in range(count):
        yield "R", 0, reply(f"486 {number}", f"t{number % 2}")
        yield "R", 0, reply(f"486 {number // 17}", "t0")
    for number in range(count):
        yield "R", 0, reply(486, f"t{number % 3}")
    yield from count * [("S", 0, text("ACK sip:b SIP/2.0", "ACK", 1, "t0"))]


def acks_of_two_in_another_order(count, _):
    """Refusals that differ, whose two Tos come in turn. They come again, the newest first, and then the ACKs of one To."""
    yield "S", 0, text(INVITE)
    for number in (*range(count), *reversed(range(count))):
        yield "R", 0, reply(f"486 {number}", f"t{number % 2}")
    yield from count * [("S", 0, text("ACK sip:b SIP/2.0", "ACK", 1, "t0"))]


def acks_of_many_in_another_order(count, _):
    """Refusals that differ, of which each twenty have one To. They come again, in a mixed order, and then the ACKs, of one To after those of another."""
    tos = max(1, count // 20)
    yield "S", 0, text(INVITE)
    for number in (*range(count), *(it * 7919 % count for it in range(count))):
        yield "R", 0, reply(f"486 {number}", f"t{number % tos}")
    for to in reversed(range(tos)):
        yield from 2 * len(range(to, count, tos)) * [("S", 0, text("ACK sip:b SIP/2.0", "ACK", 1, f"t{to}"))]


def acks_of_long_tos(count, _):
    """Refusals whose Tos are long and differ in their ends alone; their ACKs, newest first."""
    yield from refused(count, lambda it: 300 * "t" + str(it), reversed)


def acks_of_one_hash(count, _):
    """Refusals with a To each, where all Tos have one hash; their ACKs, newest first."""
    yield from refused(count, lambda it: f"{ONE_HASH}{it:08}", reversed)


def acks_of_two_of_one_hash(count, _):
    """Refusals that differ, whose two Tos come in turn and have one hash, and the ACKs of one To before those of the other."""
    yield from in_turn(count, 2, f"{ONE_HASH}{0:07}")


def equal_debts(count, states):
    """So many equal debts, and then the states, with nothing after them: it takes memory, and little time."""
    yield from [ASK, ("S", 0, reply(180, "e")), *count * [ASK], *widened(states)[1:]]


def debts_paid_by_all(count, states):
    """So many 180s that are owed by all, the states, a refusal, and each of the 180s once more."""
    yield from fresh_after_debts(count, states)
    yield "S", 0, reply(486, "x")
    for number in range(count):
        yield "S", 0, reply(180, f"o{number}")


def debt_and_payment(count, states):
    """A server of another method that stands in 128 states when it sends its final response; then, at each moment, the request again and the response again."""
    ask, final = ("R", 0, text(OTHER, "OPTIONS")), reply(200, "x", 1, "OPTIONS")
    sent = [("S", 0, reply(183, f"s{number}", 1, "OPTIONS")) for number in range(7)]
    yield ask
    for response in sent:
        yield from (response, ask)
    yield from sent
    yield "S", 0, final
    for moment in range(count):
        yield "R", moment, ask[2]
        yield "S", moment, final


def hundreds_then_past(count, states):
    """So many different 100s to the states, and what is owed is past then."""
    yield from widened(states)
    for number in range(count):
        yield "S", 0, reply(100, f"h{number}")
        yield ASK
    # The tolerance is 10,000, so that all that is owed at 0 is past.
    yield "M", 30000, ""


def two_that_meet(count, _):
    """Two states that parted before this many debts, and meet again and again."""
    yield from [ASK, ("S", 0, reply(180, "k")), ASK, ("S", 0, reply(180, "k"))]
    yield from owing(count)
    yield from count * [("S", 0, reply(180, "o0"))]


def meets_by_other_places(count, _):
    """So many equal debts, then states that come to owe the same by other responses, and a send after which two of them are the same, again and again."""
    yield from [ASK, ("S", 0, reply(180, "d")), *count * [ASK]]
    # A letter is a 180 that is sent, and R the INVITE that comes again.
    yield from (ASK if it == "R" else ("S", 0, reply(180, it)) for it in "aRRacRcaR")
    yield from count * [("S", 0, reply(180, "a"))]


def must_and_may(count, _):
    """Two states, of which one answers the INVITE that comes again by a 180, which must be sent, and the other by a 100, which may be."""
    yield from [ASK, ("S", 0, reply(100, "h")), ASK, ("S", 0, reply(180, "p")), ("S", 0, reply(100, "h")), *count * [ASK]]


def finished_servers(count, states):
    """Servers a minute apart, each of which stands in the states and refuses its INVITE. The refusal is sent again, and acknowledged when all that is owed
    is past: one state is left. It takes memory where the room of the others stays."""
    for number in range(count):
        begun, refusal = 60000 * number, reply(486, "x", f"n{number}")
        for letter, moment, it in [*widened(states, f"n{number}"), ("S", 0, refusal), ("S", 10000, refusal)]:
            yield letter, begun + moment, it
        yield "R", begun + 15000, text("ACK sip:b SIP/2.0", "ACK", f"n{number}", "x")


# The logs: what makes each, the least count, and the sets for which it is made.
LOGS = [
    # Responses that are sent and asked for again.
    (fresh_after_debts, 500, (2, 100, 1024)),
    (repeats_and_sends, 125, (1,)),
    (repeats, 1000, (2, 100, 1024)),
    (repeats_apart, 1000, (2, 100, 1024)),
    (fresh_and_repeats, 250, (2, 100, 1024)),
    (equal_then_plain, 6000, (2, 100, 1024)),
    (wide_sets_and_plain, 1000, (2, 100, 1024)),
    (states_in_other_orders, 500, (464,)),
    # ACKs of an INVITE client, for responses with few Tos or with many.
    (acks_of_pairs, 4000, (1,)),
    (acks_with_others_between, 4000, (1,)),
    (acks_of_one_to, 4000, (1,)),
    (acks_in_turn, 4000, (1,)),
    (acks_of_16_in_turn, 4000, (1,)),
    (acks_of_100_in_turn, 4000, (1,)),
    (acks_mixed, 4000, (1,)),
    (acks_but_the_first, 4000, (1,)),
    (acks_past_two, 4000, (1,)),
    (acks_of_two_in_turn, 2000, (1,)),
    (acks_of_other_calls, 4000, (1,)),
    (acks_between, 2000, (1,)),
    (acks_in_another_order, 2000, (1,)),
    (acks_beside_equal_ones, 2000, (1,)),
    (acks_of_two_in_another_order, 2000, (1,)),
    (acks_of_many_in_another_order, 2000, (1,)),
    (acks_of_long_tos, 4000, (1,)),
    (acks_of_one_hash, 4000, (1,)),
    (acks_of_two_of_one_hash, 4000, (1,)),
    # Debts that are equal, paid by all states at once, or past.
    (equal_debts, 25000, (1, 1024)),
    (debts_paid_by_all, 500, (2, 100, 1024)),
    (debt_and_payment, 1500, (128,)),
    (hundreds_then_past, 250, (2, 100, 1024)),
    (two_that_meet, 2000, (2,)),
    (meets_by_other_places, 1000, (2,)),
    (must_and_may, 4000, (2,)),
    # Sets that were wide, and are not any more.
    (finished_servers, 25, (1024,)),
]


# The times that each header has.
TIMES = "t1 500 t2 4000 t4 5000"
# The headers, by their names: the rules of RFC 6026 with one tolerance, those of RFC 3261, two tolerances of which one is 0, and two for restarts.
HEADERS = {
    "6026": f"sip-trace 1\n{TIMES} tolerance 10000\n", "3261": f"sip-trace 1\n{TIMES} tolerance 10000\nrules 3261\n",
    "early": f"sip-trace 2\n{TIMES} early 0 late 10000\n", "restarts": f"sip-trace 2\n{TIMES} early 10000 late 10000\n",
}


def with_restarts(entries):
    """The entries between a restart and as many restarts as they are, at the moment of the last one."""
    count, moment = 0, 0
    yield "Z", 0, ""
    for letter, moment, text in entries:
        count += 1
        yield letter, moment, text
    yield from count * [("Z", moment, "")]


def timed(program, log):
    """The verdict, the least processor seconds of some runs, and the most megabytes; or none, where a run is over."""
    # A run ends where it takes more seconds of a processor than SECONDS.
    command = ["prlimit", f"--cpu={SECONDS}", program, "check", log]
    verdict, seconds, peak, _ = measured(command)
    if not verdict:
        return None
    # A short run is repeated, since its time varies by more than it should.
    for _ in range(2 if seconds < 1 else 0):
        seconds = min(seconds, measured(command)[1])
    return verdict.decode(errors="replace"), seconds, peak / 1000


# The logs whose states or moments grow with them: they stand in their own lengths alone, since a longer one would be undecided, or take minutes.
AS_LONG_AS_THEY_ARE = (repeats_and_sends, repeats_apart, debt_and_payment)


def columns_of(program, log, make, header, states, least):
    """The columns of a log in three lengths, from `least` on, and a line for each length that takes more than in line."""
    told, steep, before = [], [], None
    name = name_of(make)
    for count in (least, 2 * least, 4 * least):
        made = make(count, states)
        entries = write_entries(log, with_restarts(made) if header == "restarts" else made, HEADERS[header])
        run = timed(program, log)
        if not run:
            return [*told, f"{entries:>9} {'over':>8} {'':>6} {'':>8}"], [*steep, f"{name} over {states}, {header}: more than {SECONDS} seconds for {entries} entries"]
        verdict, seconds, peak = run
        if not verdict.startswith("legal "):
            sys.exit(f"{name}: {verdict}")
        # The quotient of two times is told where the shorter one is long enough to be measured.
        times = f"{seconds / before:.2f}" if before and before >= LEAST else ""
        told.append(f"{entries:>9} {seconds:>8.3f} {times:>6} {peak:>8.1f}")
        if times and float(times) > IN_LINE:
            steep.append(f"{name} over {states}, {header}: {times} times for twice the log, at {entries} entries")
        before = seconds
    return told, steep


def main():
    program, *words = sys.argv[1:]
    headers = [it for it in words if it in HEADERS] or ["6026"]
    names = [it for it in words if it not in HEADERS and it != "long"]
    longer = 8 if "long" in words else 1
    # A line for each log whose time more than doubles where its length doubles.
    steep = []
    print(f"{'log':<25} {'header':>8} {'states':>6}   " + "".join(f"{'entries':>9} {'seconds':>8} {'times':>6} {'peak MB':>8}   " for _ in range(3)))
    with tempfile.TemporaryDirectory() as folder:
        # `make` writes a log of so many entries over so many states, `least` is the shortest length, and `sets` has the numbers of states.
        for make, least, sets in LOGS:
            if names and name_of(make) not in names:
                continue
            for header, states in product(headers, sets):
                told, more = columns_of(program, Path(folder) / "log", make, header, states, least * (1 if make in AS_LONG_AS_THEY_ARE else longer))
                steep += more
                print(f"{name_of(make):<25} {header:>8} {states:>6}   " + "   ".join(told), flush=True)
    print("\n".join(f"does not grow in line: {it}" for it in steep) or "all grow in line")


if __name__ == "__main__":
    main()
