"""What the text of an explanation may say is what its evidence says: each number and window of the text stands in the evidence, and the size is its size."""
import base64
import gzip
import json
import re

# What is looked for in a text: numbers; names with numbers that are no claims; windows from one moment to another, or from one on; sizes; and the log that
# is packed.
NUMBER = re.compile(r"\d+")
NAME = re.compile(r"\bRFC (?:3261|6026)\b|\b1,024 states\b")
SPAN = re.compile(r"from (\d+) to (\d+)")
OPEN = re.compile(r"from (\d+) on\b")
SIZE = re.compile(r"(?:too early|too late) by (\d+) ms", re.I)
PACKED = re.compile(r"^base64 -d <<\. \| gunzip \| siptrace\n((?:[A-Za-z0-9+/=]+\n)+)\.$", re.M)
# A character that a terminal could obey, which is any but a line feed, printable ASCII and what comes after the C1 controls; and the most lines of a text.
UNSAFE = re.compile(r"[^\n\x20-\x7e\xa0-\U0010ffff]")
MOST_LINES = 40

# Phrases of the text with a number, each with the names of the evidence under which this number stands.
PHRASES = [(re.compile(pattern), names) for pattern, names in [
    (r"[Bb]y (\d+) the element had to send", ("deadline",)), (r"send nothing up to (\d+)", ("last_wait",)), (r"may be over from (\d+) on", ("may_be_over_from",)),
    (r"Without entry (\d+) it would", ("without",)), (r"At (\d+) it (?:was allowed to|could) send", ("sent", "moment")), (r"was (?:sent|refused by the transport) at (\d+)[;,]", ("sent", "moment")),
    (r"is not entry (\d+) byte for byte", ("repair", "of")), (r"first in line (\d+)", ("repair", "line")), (r"is not the ACK of entry (\d+)'s", ("of",)),
    (r"Transaction (\d+): ", ("transaction", "number")), (r"Of the answers (\d+) were", ("undecided",))]]


def numbers_in(told):
    """All numbers of the evidence, with those that stand in its names and messages."""
    return set(NUMBER.findall(json.dumps(told, ensure_ascii=False)))


def without_sentence(told):
    """The evidence without the sentence that is made of it."""
    return {name: value for name, value in told.items() if name != "sentence"}


def windows_in(told):
    """All pairs of the evidence that may be windows."""
    found = set()
    for one in told.values() if isinstance(told, dict) else told if isinstance(told, list) else ():
        if isinstance(one, list) and len(one) == 2 and isinstance(one[0], int):
            # A list of two, of which the first is a number, may be a window; the second is None where it has no end.
            found.add(tuple(one))
        found |= windows_in(one)
    return found


def value_at(told, names):
    """The value at the end of these names, or None where one of them is missing."""
    for name in names:
        told = told.get(name) if isinstance(told, dict) else None
    return told


def faults_of_text(text, told, is_short):
    """What a text says that its evidence does not, a line for each."""
    # `packed` is the small log that the text has for a repeat of the breach, whose digits tell nothing.
    told, sentence = without_sentence(told), told["sentence"]
    lines, packed = text.count("\n"), PACKED.search(text)
    if packed:
        text = text.replace(packed[0], "")
    # Each number of the text, but those of names, has to stand in the JSON.
    known = numbers_in(told)
    if told["word"] == "malformed":  # only a piece of a malformed line is shown, which may begin within a number
        known |= {number[place:] for number in known for place in range(len(number))}
    faults = [f"a number that its JSON has not: {number}" for number in sorted(set(NUMBER.findall(NAME.sub("", text))) - known)]
    faults += faults_of_packed(packed, told)
    flat = " ".join(text.split())
    texts = " ".join(json.dumps(told, ensure_ascii=False).split())
    # So has each window, from one moment to another, or from one on.
    windows = windows_in(told)
    faults += [f"a window that its JSON has not: {first} to {last}" for first, last in SPAN.findall(flat)
               if (int(first), int(last)) not in windows and f"from {first} to {last}" not in texts]
    faults += [f"a window that its JSON has not: from {first} on" for first in OPEN.findall(flat)
               if (int(first), None) not in windows and f"from {first} on" not in texts and told.get("may_be_over_from") != int(first)]
    # Sizes, and the numbers that stand with certain words, are those of their place in the JSON.
    faults += [f"another size than its JSON: {size}" for size in SIZE.findall(flat) if told.get("by") != int(size)]
    for pattern, names in PHRASES:
        wanted = value_at(told, names)
        faults += [f"another {' '.join(names)} than its JSON: {number}" for number in pattern.findall(flat) if wanted is not None and int(number) != wanted]
    # The text begins with the verdict, has the sentence of the JSON, and no byte that a terminal takes for a command.
    if text.split("\n", 1)[0] != told["verdict"]:
        faults.append("its first line is not the verdict")
    if " ".join(sentence.split()) not in flat:
        faults.append("the sentence of its JSON is not in it")
    faults += [f"a byte that may steer a terminal: {byte!r}" for byte in sorted(set(UNSAFE.findall(text)))]
    if is_short and lines > MOST_LINES:
        faults.append(f"{lines} lines")
    return faults


def faults_of_packed(packed, told):
    """Checks that the lines that repeat the breach are the small log of the evidence."""
    if packed is None:
        return []
    unpacked = gzip.decompress(base64.b64decode(packed[1]))
    return [] if unpacked == told["repeat"]["log"].encode("latin-1") else ["the lines that repeat the breach are another log than that of its JSON"]
