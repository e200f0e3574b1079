"""The logs of bench/judge.sh, what their entries are counted to cost, and its clock. Its words are the program, and then numbers of entries,
or `growth`, or `beside PROGRAM [ENTRIES]`, as bench/judge.sh tells them."""

import heapq
import os
import random
import re
import shutil
import subprocess
import sys
import tempfile
import time
from pathlib import Path

# What callgrind simulates: first-level caches of 32 KB, a last-level cache of 4 MB, lines of 64 bytes.
CALLGRIND = (
    "valgrind --tool=callgrind --dump-instr=yes --compress-pos=no --compress-strings=no --cache-sim=yes --branch-sim=yes "
    "--I1=32768,8,64 --D1=32768,8,64 --LL=4194304,16,64"
).split()
# The length of a line of the caches, in bytes.
LINE = 64
# The body of an INVITE and of its 200, in SDP.
SDP = (
    "v=0\r\no=alice 2890844526 2890844526 IN IP4 pc33.atlanta.example.com\r\ns=-\r\n"
    "c=IN IP4 192.0.2.101\r\nt=0 0\r\nm=audio 49172 RTP/AVP 0\r\na=rtpmap:0 PCMU/8000\r\n"
)
# The fields that each message has beside those that SIP asks for.
OTHERS = (
    "Max-Forwards: 70\r\nUser-Agent: Example Phone 2.1 (build 20261122)\r\n"
    "Allow: INVITE, ACK, CANCEL, OPTIONS, BYE, REFER, NOTIFY\r\nSupported: replaces, timer\r\n"
)
# The two ends of the calls, as From and To have them.
ALICE = "\"Alice\" <sip:alice@atlanta.example.com>;tag=19283017"
BOB = "Bob <sip:bob@biloxi.example.com>"


def message(start, method, number, end="", tag="", body="", others=OTHERS):
    """A message of the call or registration with this number, whose branch ends so."""
    return (
        f"{start}\r\nVia: SIP/2.0/UDP pc33.atlanta.example.com:5060;branch=z9hG4bK776as{number}{end};rport\r\n"
        f"From: {ALICE}\r\nTo: {BOB}{tag}\r\n"
        f"Call-ID: a84b4c76e66710{number}@pc33.atlanta.example.com\r\nCSeq: 314159 {method}\r\n"
        f"Contact: <sip:alice@pc33.atlanta.example.com:5060>\r\n{others}Content-Length: {len(body)}\r\n\r\n{body}"
    )


def request(method, number, end="", tag="", body="", others=OTHERS):
    """The text of a request of this method, as message() makes it."""
    return message(f"{method} sip:bob@biloxi.example.com SIP/2.0", method, number, end, tag, body, others)


def response(code, method, number, body="", end="", others=OTHERS):
    """The text of a response with this code, as message() makes it."""
    return message(f"SIP/2.0 {code} Reply", method, number, end, ";tag=a6c85cf", body, others)


def small(start, method, number):
    """The text of a message with the fewest fields there may be."""
    return (
        f"{start}\r\nVia: SIP/2.0/UDP a.example.com;branch=z9hG4bK{number}\r\nFrom: <sip:a@example.com>;tag=1\r\n"
        f"To: <sip:b@example.com>\r\nCall-ID: {number}@a\r\nCSeq: 1 {method}\r\n\r\n"
    )


def merged(transactions, step):
    """The entries of transactions in the order of their moments. A transaction begins each `step` milliseconds."""
    # `open_ones` is a heap of entries that are still to come: each by its moment and then by its transaction and place, which are not yielded.
    open_ones = []
    for number, entries in enumerate(transactions):
        start = step * number
        while open_ones and open_ones[0][0] <= start:
            yield heapq.heappop(open_ones)[2:]
        for place, (moment, letter, text) in enumerate(entries):
            # Those of one moment come in the order of their transactions, and within a transaction as they stand.
            heapq.heappush(open_ones, (start + moment, (number, place), letter, start + moment, text))
    while open_ones:
        yield heapq.heappop(open_ones)[2:]


# What follows are the logs that elements write. Each function gives about so many entries.


def calls(entries):
    """The log of a client over UDP with some 500 calls at once: INVITE, 100, 180, 200, and the ACK with its own branch."""

    def call(number):
        """The messages of the call with this number, with their moments and directions."""
        # The bodies have one to sixteen codecs more, so that the messages differ in length.
        sdp = SDP + "".join(f"a=rtpmap:{it} CODEC{it}/8000\r\n" for it in range(96, 97 + number % 16))
        return [
            (0, "S", request("INVITE", number, body=sdp)),
            (20, "R", response(100, "INVITE", number)),
            (200, "R", response(180, "INVITE", number)),
            (4900, "R", response(200, "INVITE", number, body=sdp)),
            (4910, "S", request("ACK", number, "ack", ";tag=a6c85cf")),
        ]

    return merged((call(number) for number in range(entries // 5)), 10)


def registers(entries):
    """The log of a client: REGISTER, 401, REGISTER with another branch, 200."""
    challenge = OTHERS + 'WWW-Authenticate: Digest realm="atlanta.example.com", nonce="84a4cc6f3082121f32b42a2187831a9e"\r\n'

    def registration(number):
        """A REGISTER that is challenged by a 401, and the REGISTER with credentials."""
        return [
            (0, "S", request("REGISTER", number)),
            (20, "R", response(401, "REGISTER", number, others=challenge)),
            (30, "S", request("REGISTER", number, "b", others=challenge.replace("WWW-Authenticate", "Authorization"))),
            (50, "R", response(200, "REGISTER", number, end="b")),
        ]

    return merged((registration(number) for number in range(entries // 4)), 10)


def options(entries):
    """The log of a client: OPTIONS and 200, as short as they may be."""

    def ping(number):
        """A small OPTIONS and its 200."""
        return [(0, "S", small("OPTIONS sip:b@example.com SIP/2.0", "OPTIONS", number)), (20, "R", small("SIP/2.0 200 OK", "OPTIONS", number))]

    return merged((ping(number) for number in range(entries // 2)), 10)


def turned(entries):
    """The same entries at the other end, where what one element sent was received."""
    for letter, moment, text in entries:
        yield {"S": "R", "R": "S"}[letter], moment, text


def served_registers(entries):
    """The registrations of `registers`, at the server."""
    return turned(registers(entries))


def served_options(entries):
    """The OPTIONS of `options`, at the server."""
    return turned(options(entries))


def proxy(entries):
    """The log of a proxy with both sides of each INVITE; one INVITE of eight is refused with 486."""

    def call(number):
        """The messages of the call with this number, on both sides of a proxy."""
        own = f"\r\nVia: SIP/2.0/UDP proxy.example.com;branch=z9hG4bKp{number}"
        record = "\r\nRecord-Route: <sip:proxy.example.com;lr>"

        def out(text, own=own):
            """The text as the proxy sends it: with its own Via on top, and with its Record-Route."""
            return text.replace("\r\nVia:", f"{record}{own}\r\nVia:", 1)

        def back(text):
            """The text as the proxy sends it back: without its own Via, and with its Record-Route."""
            return text.replace("\r\nVia:", f"{record}\r\nVia:", 1)

        invite, trying, ringing = request("INVITE", number, body=SDP), response(100, "INVITE", number), response(180, "INVITE", number)
        begun = [(0, "R", invite), (1, "S", trying), (2, "S", out(invite)), (20, "R", out(trying)), (200, "R", out(ringing)), (201, "S", back(ringing))]
        if number % 8 == 0:
            busy, ack = response(486, "INVITE", number), request("ACK", number, tag=";tag=a6c85cf")
            # The ACK of a refusal goes from hop to hop: the proxy sends its own, with its Via alone, and receives that of its caller.
            hop = re.sub("\r\nVia:[^\r]*", own, ack, count=1)
            return begun + [(900, "R", out(busy)), (901, "S", hop), (902, "S", busy), (920, "R", ack)]
        answer, ack = response(200, "INVITE", number, body=SDP), request("ACK", number, "ack", ";tag=a6c85cf")
        # The ACK of a 2xx goes on through the proxy, with a branch of its own.
        sent = out(ack, own.replace("bKp", "bKq"))
        return begun + [(900, "R", out(answer)), (901, "S", back(answer)), (920, "R", ack), (921, "S", sent)]

    return merged((call(number) for number in range(entries // 10)), 10)


def keys(entries):
    """Requests to a server, which answers all of them after the last one came, in random order."""
    numbers = list(range(entries // 2))
    for number in numbers:
        yield "R", number, request("OPTIONS", number)
    # The same order at each run.
    random.Random(1).shuffle(numbers)
    for place, number in enumerate(numbers):
        yield "S", entries // 2 + place, response(200, "OPTIONS", number)


def mixed(entries):
    """Repeats, refusals, CANCELs, folds and compact names."""

    def folded(text):
        """The text with two of its fields folded."""
        return text.replace(";branch=", "\r\n ;branch=", 1).replace("Supported: replaces, ", "Supported: replaces,\r\n\t")

    def compact(text):
        """The text with the compact forms of field names."""
        names = [("Via", "v"), ("From", "f"), ("To", "t"), ("Call-ID", "i"), ("Contact", "m"), ("Content-Length", "l"), ("Supported", "k")]
        for name, short in names:
            text = text.replace(f"\r\n{name}:", f"\r\n{short}:")
        return text

    def call(number):
        """The messages of the call with this number: spelled in one of four ways, some repeated, cancelled or refused."""
        # `form` spells each message of the call. Each entry has its moment within the call, its direction and its message.
        form = [str, str, folded, compact][number % 4]
        invite = form(request("INVITE", number, body=SDP))
        ack = form(request("ACK", number, tag=";tag=a6c85cf"))
        busy, ringing = form(response(486, "INVITE", number)), form(response(180, "INVITE", number))
        if number % 5 == 0:  # a call that is repeated on both sides
            return [(0, "S", invite), (500, "S", invite), (1500, "S", invite), (1520, "R", ringing), (2000, "R", busy), (2010, "S", ack), (2500, "R", busy), (2510, "S", ack)]
        if number % 5 == 1:  # a call that is cancelled
            cancel, over = form(request("CANCEL", number)), form(response(487, "INVITE", number))
            return [(0, "S", invite), (20, "R", ringing), (900, "S", cancel), (920, "R", form(response(200, "CANCEL", number))), (930, "R", over), (940, "S", ack)]
        if number % 5 == 2:  # a server that repeats its response
            return [(0, "R", invite), (10, "S", ringing), (500, "R", invite), (510, "S", ringing), (900, "S", busy), (1400, "S", busy), (1420, "R", ack)]
        if number % 5 == 3:  # a request that is repeated, and its response
            bye = form(request("BYE", number, tag=";tag=a6c85cf"))
            over = form(response(200, "BYE", number))
            return [(0, "R", bye), (5, "S", over), (500, "R", bye), (505, "S", over)]
        refresh, fine = form(request("REGISTER", number)), form(response(200, "REGISTER", number))
        return [(0, "S", refresh), (500, "S", refresh), (600, "R", fine)]

    # Five calls in a row have 8, 6, 7, 4 and 3 entries, which are 28.
    return merged((call(number) for number in range(entries * 5 // 28)), 20)


def widening(number):
    """What leads a server to 1,024 states: two responses, each asked for 31 times and sent 31 times, within the tolerance."""
    invite = request("INVITE", number, body=SDP)
    ringing, progress = response(180, "INVITE", number), response(183, "INVITE", number)
    texts = [("R", invite), ("S", ringing)] + 31 * [("R", invite)] + [("S", progress)] + 31 * [("R", invite)]
    return texts + 31 * [("S", ringing)] + 31 * [("S", progress)]


def wide(entries):
    """Servers that stand in 1,024 states, with up to 62 debts, when they answer. Each has 128 entries: 127 that widen it, and its 200."""
    for number in range(max(1, entries // 128)):
        # A server begins each 200 ms, and its entries come a millisecond apart.
        for place, (letter, text) in enumerate(widening(number) + [("S", response(200, "INVITE", number))]):
            yield letter, 200 * number + place, text


# What follows are the logs that take the most time or memory.


def marks(entries):
    """A call that rings, with a mark every millisecond."""
    yield "R", 0, request("INVITE", 0, body=SDP)
    yield "S", 0, response(180, "INVITE", 0)
    for moment in range(entries - 2):
        yield "M", moment, ""


def idle_keys(entries):
    """Requests that a server never answers, up to a thousand of them, and then a mark every millisecond."""
    count = min(1000, entries // 10)
    for number in range(count):
        yield "R", 0, request("OPTIONS", number)
    for moment in range(entries - count):
        yield "M", moment, ""


def one_long_key(entries):
    """A call that rings, with a 180 every second."""
    yield "R", 0, request("INVITE", 0, body=SDP)
    for number in range(entries - 1):
        yield "S", 1000 * number, response(180, "INVITE", 0)


def tagged(code, number):
    """A response with a number as the tag of its To."""
    return message(f"SIP/2.0 {code} Reply", "INVITE", 0, tag=f";tag={number}")


def other_messages(entries):
    """A call that rings, with another 180 every second."""
    yield "R", 0, request("INVITE", 0, body=SDP)
    for number in range(entries - 1):
        yield "S", 1000 * number, tagged(180, number)


def many_live_keys(entries):
    """Requests that a server has not answered yet, one every millisecond."""
    for number in range(entries):
        yield "R", number, request("OPTIONS", number)


def at_one_moment(entries):
    """OPTIONS and 200, all of them at one moment."""
    for number in range(entries // 2):
        yield "S", 0, small("OPTIONS sip:b@example.com SIP/2.0", "OPTIONS", number)
        yield "R", 0, small("SIP/2.0 200 OK", "OPTIONS", number)


def wide_and_over(entries):
    """The servers of `wide`, each of which begins once the one before is over."""
    for number in range(max(1, entries // 128)):
        # A minute later the one before is over, with its tolerance of 10 seconds.
        for place, (letter, text) in enumerate(widening(number) + [("S", response(200, "INVITE", number))]):
            yield letter, 60000 * number + place, text


def many_due_keys(entries):
    """Requests of a client that all go out in the first 400 ms, and are all due to be sent again."""
    for number in range(entries):
        yield "S", 400 * number // entries, request("OPTIONS", number)


def repeats_at_once(entries):
    """A server whose final response is asked for again and again at one moment, and then sent as often."""
    ask, reply = request("OPTIONS", 0), response(200, "OPTIONS", 0)
    yield "R", 0, ask
    yield "S", 0, reply
    for number in range(entries - 2):
        yield ("R", 10, ask) if number < (entries - 2) // 2 else ("S", 10, reply)


def many_owed(entries):
    """A server that sends one 180 after another, and has each repeated: all of them are owed at the end."""
    yield "R", 0, request("INVITE", 0, body=SDP)
    for number in range(entries // 2):
        yield "S", 0, tagged(180, number)
        yield "R", 0, request("INVITE", 0, body=SDP)


def acks_first_first(entries):
    """An INVITE that many refuse, each with a tag of its own, and the ACKs in the order of the responses."""
    yield "S", 0, request("INVITE", 0, body=SDP)
    for number in range(entries // 2):
        yield "R", 10, tagged(486, number)
    for number in range(entries // 2):
        yield "S", 10, request("ACK", 0, tag=f";tag={number}")


def acks_last_first(entries):
    """An INVITE that many refuse, each with a tag of its own, and the ACKs in the reverse order of the responses."""
    yield "S", 0, request("INVITE", 0, body=SDP)
    for number in range(entries // 2):
        yield "R", 10, tagged(486, number)
    for number in reversed(range(entries // 2)):
        yield "S", 10, request("ACK", 0, tag=f";tag={number}")


def repeats_when_wide(entries):
    """Repeats of the INVITE to a server that stands in 1,024 states."""
    for place, (letter, text) in enumerate(widening(0) + max(0, entries - 127) * [("R", request("INVITE", 0, body=SDP))]):
        yield letter, place, text


def restarts_after_many(entries):
    """OPTIONS and 200, and then as many restarts as there are transactions, all of which are over."""
    yield from options(entries * 2 // 3)
    for moment in range(entries // 3):
        yield "Z", 10 * entries + moment, ""


def restarts_after_a_million(entries):
    """CANCELs that the transport refused, each of which leaves two transactions that are over, and then restarts: 900,000 entries have a million
    transactions and 400,000 restarts."""
    # With 900,000 entries 500,000 are CANCELs.
    count = entries * 5 // 9
    for number in range(count):
        yield "F", 10 * number, small("CANCEL sip:b@example.com SIP/2.0", "CANCEL", number)
    for moment in range(entries - count):
        yield "Z", 10 * count + moment, ""


def restarts_between(entries):
    """A restart after each OPTIONS that is sent."""
    for number in range(entries // 2):
        yield "S", 10 * number, small("OPTIONS sip:b@example.com SIP/2.0", "OPTIONS", number)
        yield "Z", 10 * number + 5, ""


def many_fields(entries):
    """Messages of thousands of short fields."""
    fields = "".join("a:\r\n" for _ in range(12000))
    for number in range(entries):
        yield "S", number, request("OPTIONS", number, others=fields)


# The kinds with their goals in instructions for an entry, and whether each goal was met; and the two numbers of entries whose difference is counted. A goal
# is what a hand-tuned checker in plain Rust takes for the same answers, with some room; that of a server is a tenth above that of its client.
KINDS = {
    calls: (5500, False), registers: (5500, False), served_registers: (6050, False), options: (4000, False), served_options: (4400, False),
    proxy: (6000, False), keys: (5500, False), mixed: (8000, False), wide: (120000, True),
}
# A server is to take at most a tenth more than its client: that was met.
CLIENTS, AT_A_SERVER = {served_registers: registers, served_options: options}, 1.1
# A goal that was met is lost where an entry takes more instructions than the goal by this factor.
LOST = 1.03
# The most processor time of a log, in shares of what the program of 27 November 2026 takes for it; and the most memory, in MB, of a log of 1,000,000 entries.
SHARES, SHARE, SHARE_OF_SHOW = {calls: 0.45, proxy: 0.45, keys: 0.45}, 0.55, 0.6
PEAKS = {calls: 60, many_live_keys: 320}
# The two lengths of a log, in entries, between which the instructions are counted; a log of wide sets has shorter ones.
COUNTED = (2000, 6000)
COUNTED_WIDE = (128, 256)
# The worst cases, each with the share of the entries of the kinds that it takes.
WORST = {
    marks: 1, idle_keys: 1, one_long_key: 1, other_messages: 1, many_live_keys: 1, many_due_keys: 1, repeats_at_once: 1,
    many_owed: 1 / 10, acks_first_first: 1 / 50, acks_last_first: 1 / 50, repeats_when_wide: 1 / 200, many_fields: 1 / 500,
    at_one_moment: 1, wide_and_over: 1 / 10, restarts_after_many: 1, restarts_after_a_million: 1, restarts_between: 1,
}
# The logs for which time and memory may grow no faster than the entries, and the numbers of entries that are put side by side.
GROWING = (
    calls, registers, options, at_one_moment, keys, many_live_keys, restarts_after_many, restarts_after_a_million, restarts_between,
)
SIZES = (10_000, 100_000, 1_000_000)
# A long tolerance lets much be owed at once.
LONG = (wide, wide_and_over, many_owed, repeats_when_wide)
# Restarts stand in logs of format 2.
RESTARTS = (restarts_after_many, restarts_after_a_million, restarts_between)


def name_of(kind):
    """The name of a kind of log, as it is printed."""
    return kind.__name__.replace("_", " ")


def write_entries(path, entries, header="sip-trace 1\nt1 500 t2 4000 t4 5000 tolerance 50\n"):
    """Writes a header and the entries to the file, and returns how many there are."""
    count = 0
    with path.open("w", newline="", encoding="latin-1") as file:
        file.write(header)
        for letter, moment, text in entries:
            file.write(f"{letter} {moment} {len(text)}\n{text}\n" if text else f"{letter} {moment}\n")
            count += 1
    return count


def write_log(path, kind, entries):
    """Writes a log of this kind, with the header that it needs, and returns how many entries it has."""
    header = "sip-trace 2\nt1 500 t2 4000 t4 5000 early 50 late 50\n"
    if kind not in RESTARTS:
        header = f"sip-trace 1\nt1 500 t2 4000 t4 5000 tolerance {10000 if kind in LONG else 50}\n"
    return write_entries(path, kind(entries), header)


def check_legal(kind, entries, text):
    """Ends the script unless the verdict is that the log is legal with as many entries."""
    if not text.startswith(f"legal entries {entries} ".encode()):
        sys.exit(f"{name_of(kind)}: {text.decode()}")


def counted(program, log, out):
    """What callgrind counts of a run: all events by their names, and how often each instruction ran."""
    run = subprocess.run([*CALLGRIND, f"--callgrind-out-file={out}", program, "check", log], stdout=subprocess.PIPE, stderr=subprocess.DEVNULL, check=True)
    # A line of the counts that begins with 0x is an instruction: its address, its line, and how often it ran.
    events, totals, runs, is_call = [], {}, {}, False
    with out.open() as lines:
        for line in lines:
            if line.startswith("0x"):
                # The line after a call has what the called function cost.
                if not is_call:
                    address, _, instructions = line.split(maxsplit=3)[:3]
                    place = int(address, 16)
                    runs[place] = runs.get(place, 0) + int(instructions)
                is_call = False
            elif line.startswith("calls="):
                is_call = True
            elif line.startswith("events:"):
                events = line.split()[1:]
            elif line.startswith("totals:"):
                totals = dict(zip(events, map(int, line.split()[1:])))
    return run.stdout, totals, runs


def print_counted(program, folder):
    """Counts each kind of log by valgrind, and prints what an entry takes, beside the goal."""
    print(f"{'counted, an entry':<18} {'bytes':>6} {'instructions':>12} {'goal':>7} {'branches':>9} {'I1 misses':>9} {'D1 misses':>9} "
          f"{'LL misses':>9} {'code KB':>8}")
    lost, takes = [], {}
    for kind, (goal, was_met) in KINDS.items():
        got, sizes = [], []
        for entries in COUNTED_WIDE if kind is wide else COUNTED:
            log = folder / "log"
            count = write_log(log, kind, entries)
            text, totals, runs = counted(program, log, folder / "counts")
            check_legal(kind, count, text)
            got.append((count, totals, runs))
            sizes.append(log.stat().st_size)
        # What the longer log takes more is what its further entries take, so that the beginning and the end of the program do not count.
        (few, before, runs_before), (many, after, runs) = got
        entries = many - few

        def each(*events):
            """How much more of these events was counted, for each entry."""
            return sum(after.get(it, 0) - before.get(it, 0) for it in events) / entries

        # `often` are the lines of code that ran for at least every tenth entry, and `code` is how many kilobytes they are.
        often = {place // LINE for place, count in runs.items() if count - runs_before.get(place, 0) >= entries / 10}
        code = len(often) * LINE / 1024
        told = told_goal(each("Ir"), goal)
        print(f"{name_of(kind):<18} {(sizes[1] - sizes[0]) / entries:>6.0f} {each('Ir'):>12.0f} {goal:>7} {each('Bcm', 'Bim'):>9.1f} {each('I1mr'):>9.1f} "
              f"{each('D1mr', 'D1mw'):>9.1f} {each('ILmr', 'DLmr', 'DLmw'):>9.1f} {code:>8.1f}   {told}", flush=True)
        takes[kind] = each("Ir")
        if was_met and each("Ir") > LOST * goal:
            lost.append(f"{name_of(kind)}: {each('Ir'):.0f} instructions an entry, and its goal of {goal} was met before")
    for server, client in CLIENTS.items():
        times = takes[server] / takes[client]
        print(f"{name_of(server)}: {times:.3f} times its client, of {AT_A_SERVER}: {told_goal(times, AT_A_SERVER)}")
        if times > LOST * AT_A_SERVER:
            lost.append(f"{name_of(server)}: {times:.3f} times its client, and its goal of {AT_A_SERVER} was met before")
    if lost:
        sys.exit("\n".join(f"a goal is lost: {it}" for it in lost))


def peak_of(pid):
    """The most memory that a process has held so far, in kB."""
    try:
        lines = Path(f"/proc/{pid}/status").read_text().splitlines()
    except OSError:
        return 0
    return max((int(line.split()[1]) for line in lines if line.startswith("VmHWM:")), default=0)


def measured(command):
    """The text that a command writes, its processor seconds, the most memory that it held, and its page faults."""
    with tempfile.TemporaryFile() as out:
        process = subprocess.Popen(command, stdout=out, stderr=subprocess.STDOUT)
        # The kernel tells the most that a process has held while it still runs.
        peak, ended = 0, 0
        while not ended:
            # What the process held a millisecond before its end counts as its most.
            peak = max(peak, peak_of(process.pid))
            time.sleep(0.001)
            ended, status, usage = os.wait4(process.pid, os.WNOHANG)
        process.returncode = os.waitstatus_to_exitcode(status)
        out.seek(0)
        # A verdict has fewer bytes than these, and of a longer text the beginning is enough.
        return out.read(100), usage.ru_utime + usage.ru_stime, peak, usage.ru_minflt


def print_timed(program, folder, verb, kinds, size):
    """Times the program on a log of each kind, beside `cat` of the same log."""
    print(f"{verb:<18} {'entries':>8} {'MB':>7}   {'seconds':>8} {'entries/s':>10} {'MB/s':>7} {'peak MB':>8} {'faults/entry':>12}   "
          f"{'cat: MB/s':>9} {'peak MB':>8}")
    log = folder / "log"
    for kind, share in kinds.items():
        # `cat` of the same log tells what the machine takes to read it.
        entries = write_log(log, kind, int(size * share))
        megabytes = log.stat().st_size / 1e6
        text, seconds, peak, faults = measured([program, verb, log])
        if verb == "check":
            check_legal(kind, entries, text)
        _, others, cat_peak, _ = measured(["cat", log])
        print(f"{name_of(kind):<18} {entries:>8} {megabytes:>7.2f}   {seconds:>8.3f} {entries / max(seconds, 1e-3):>10.0f} "
              f"{megabytes / max(seconds, 1e-3):>7.2f} {peak / 1e3:>8.1f} {faults / entries:>12.3f}   "
              f"{megabytes / max(others, 1e-3):>9.1f} {cat_peak / 1e3:>8.1f}", flush=True)


def print_growth(program, folder):
    """Prints, for logs of one kind in several lengths side by side, the time that an entry takes, and the most memory that is held."""
    print(f"{'growth':<18}" + "".join(f" {f'{size:,} entries: us':>24} {'peak MB':>8}" for size in SIZES))
    log = folder / "log"
    for kind in GROWING:
        line = f"{name_of(kind):<18}"
        for size in SIZES:
            entries = write_log(log, kind, size)
            text, seconds, peak, _ = measured([program, "check", log])
            check_legal(kind, entries, text)
            line += f" {seconds / entries * 1e6:>24.2f} {peak / 1e3:>8.1f}"
        print(line, flush=True)


def told_goal(value, goal):
    """Whether the value meets its goal, in words."""
    return "met" if value <= goal else f"{value / goal:.2f} times its goal"


def print_beside(program, other, folder, size):
    """Prints, for logs of the kinds, each judged by two programs in turn, the fewest processor seconds of five runs, and the most memory. The goals are
    shares of the program of 27 November 2026."""
    print(f"{'beside':<18} {'entries':>8}   {'seconds':>8} {'peak MB':>8}   {'other':>8} {'peak MB':>8}   {'times':>6} {'goal':>5}")
    log = folder / "log"
    for kind in [*KINDS, many_live_keys]:
        # A wide transaction takes more time for each entry, so that its log is a tenth as long.
        entries = write_log(log, kind, size // 10 if kind is wide else size)
        for verb in ["check", "show"] if kind is calls else ["check"]:
            # `runs` has the seconds and the memory of the runs of each program.
            runs = {it: [] for it in (program, other)}
            for _ in range(5):
                for it, told in runs.items():
                    # A verdict that is not legal ends the measurement.
                    text, seconds, peak, _ = measured([it, verb, log])
                    if verb == "check":
                        check_legal(kind, entries, text)
                    told.append((seconds, peak))
            # The fewest seconds and the most memory of the runs, of the program and of the other.
            (own, own_peak), (others, others_peak) = ((min(it[0] for it in told), max(it[1] for it in told)) for told in runs.values())
            goal = SHARE_OF_SHOW if verb == "show" else SHARES.get(kind, SHARE)
            told = told_goal(own / others, goal)
            if verb == "check" and entries == 1_000_000 and kind in PEAKS:
                told += f"; peak, of {PEAKS[kind]} MB: {told_goal(own_peak / 1e3, PEAKS[kind])}"
            name = name_of(kind) if verb == "check" else f"{verb} of {name_of(kind)}"
            print(f"{name:<18} {entries:>8}   {own:>8.3f} {own_peak / 1e3:>8.1f}   {others:>8.3f} {others_peak / 1e3:>8.1f}   {own / others:>6.2f} {goal:>5}   {told}",
                  flush=True)


def main():
    program, *words = sys.argv[1:]
    with tempfile.TemporaryDirectory() as name:
        folder = Path(name)
        # `beside` compares two programs, `growth` prints how the time grows with the log, and otherwise the goals are measured.
        if words[:1] == ["beside"]:
            print_beside(program, words[1], folder, int(words[2]) if words[2:] else 1_000_000)
            return
        if words == ["growth"]:
            print_growth(program, folder)
            return
        if shutil.which("valgrind"):
            print_counted(program, folder)
        else:
            print("not counted: there is no valgrind, which is a package of this name")
        # Each other word is a number of entries.
        for size in map(int, words or ["10000", "100000"]):
            print()
            print_timed(program, folder, "check", {kind: 1 / 10 if kind is wide else 1 for kind in KINDS}, size)
            print_timed(program, folder, "check", WORST, size)
            print_timed(program, folder, "show", {calls: 1}, size)


if __name__ == "__main__":
    main()
