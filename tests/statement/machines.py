"""Compares docs/standard/MACHINES.md with the definitions of the machines, in the words of docs/standard/MACHINE_WORDS.md. A row of `Receives` or
`Sends` that leads to a phase is put together of the words of its parts. Any other clause has words as a whole. The section of a machine has to say
what the words tell, and to have no line of a table besides. Where a definition is not of the form that is read here, its text has no words."""

import re
from collections import Counter

from statement.files import STANDARD, flat, text_of

# How a definition spells a row of a machine: an argument, a row, and what it leads to; and the lines of a page that are no rows.
# An argument is a word, or stands in round brackets, which may hold others, but no deeper ones.
ARGUMENT = r"(\((?:[^()]|\([^()]*\))*\)|\S+)"
# `Receives p PHASE KIND e y = ..`, or the same of `Sends`: where the transaction stands, what happens, and where that leads.
CLAUSE = re.compile(rf"((Receives|Sends) p {ARGUMENT} {ARGUMENT} e y) = (.*)")
# `(y ≡ (PHASE, CHANGE))`: the phase that the row leads to, and what changes of what is owed.
LEADS = re.compile(r"\(y ≡ \((.+), (\w+(?: [\w.]+)*)\)\)")
# The heads of the two kinds of tables, and the line of dashes below a head.
HEAD = re.compile(r"\| No\. \| In \| What happens \| Leads to \||\| In \| It \| When \(`timer_window`, `sends_by`\) \||\|(---\|)+")
# What the words of a definition give where a page says nothing of it.
NOTHING = "(nothing)"


class Words:
    """The words for the pieces of definitions, by blocks: one for all machines, and one for each file. A word that is used by no machine is none."""

    def __init__(self):
        # A block stands below a heading with its name. A line of it is PIECE ⇒ WORDS.
        blocks = re.findall(r"^## (\w+)\n.*?^```text\n(.*?)^```$", text_of(STANDARD / "MACHINE_WORDS.md"), re.M | re.S)
        self.blocks = {name: dict(line.split(" ⇒ ") for line in block.splitlines()) for name, block in blocks}
        self.unused = {(name, piece) for name, pieces in self.blocks.items() for piece in pieces}

    def of(self, machine, piece):
        """The words of a piece in a machine, or in the one that it corrects, or in all. A piece without words has some that no page has."""
        # A machine by RFC 3261 alone has the words of the one that it corrects.
        for name in (machine, machine.removesuffix("3261"), "all"):
            if piece in self.blocks.get(name, {}):
                self.unused.discard((name, piece))
                return self.blocks[name][piece]
        return f"no words for {piece}"


def pieces_of(item):
    """The parts of a definition: its clauses, the fields of a figure, or a type as a whole. A clause after one that takes all of it is marked."""
    text = flat(item.text)
    # A type is one piece. Of any other definition the clauses begin with its name, and what comes before the second of these is its type.
    clauses = [text] if text.startswith("pub data") else re.split(rf" (?={item.name} )", text)[2:]
    if figure := re.fullmatch(r"\w+ = record { (.*) }", clauses[0]):
        return figure[1].split("; ")
    heads = [it.partition(" = ")[0] for it in clauses]
    # A name in small letters takes anything, so that a clause that fits an earlier one is never reached.
    taken = [re.sub(r"\b[a-z]\w*", ".+", re.escape(it)) for it in heads]
    return [f"never: {it}" if any(re.fullmatch(some, heads[at]) for some in taken[:at]) else it for at, it in enumerate(clauses)]


def inside(text):
    """The text without the parentheses around it."""
    return text[1:-1] if text.startswith("(") and text.endswith(")") else text


def texts_of(told, piece):
    """What the words tell of one piece: a text for each way in which a row leads on, and of any other piece its words."""
    clause = CLAUSE.fullmatch(piece)
    if not clause:
        return [told(piece)]
    # The ways in which a row leads on stand with ⊎ between them, and each in brackets where there are several.
    turns = clause[5].split(" ⊎ ")
    return [text_of_turn(told, clause, inside(it) if len(turns) > 1 else it) for it in turns]


def text_of_turn(told, clause, turn):
    """What the words tell of one way in which a row leads on: where it stands, what happens, and where it leads."""
    head, name, phase, kind = clause[1], clause[2], inside(clause[3]), inside(clause[4])
    # Conditions come first, and where the row leads stands last.
    *conditions, last = turn.split(" × ")
    leads = LEADS.fullmatch(last if conditions else f"({last})")
    if not leads:
        return told(f"{head} = {turn}")
    happens = told(" × ".join([f"{name} {kind}", *conditions]))
    # The words of the phase and those of the change; `(nothing)` is left out.
    to = ["the same phase" if leads[1] == phase else told(leads[1]), told(leads[2])]
    return f"| {told(f'in {phase}')} | {happens} | {'; '.join(it for it in to if it != NOTHING)} |"


def differences(section, file, words):
    """Where a section of the page and what the words tell of its machine differ."""
    heading, prose, name = section.partition(" (")[0], flat(section), file.path.name
    lines = [line for line in section.split("\n") if "|" in line and not HEAD.fullmatch(line)]
    # The pieces of all definitions of the file, and the imports that give a machine's rows another name.
    pieces = [it for item in file.items for it in pieces_of(item)] + [it[0] for it in file.uses if it[3]]
    texts = [text for it in pieces for text in texts_of(lambda piece: words.of(file.path.stem, piece), it) if text != NOTHING]
    own = Counter(it for it in texts if it.startswith("|"))
    # The rows of the page without their numbers.
    told = Counter(re.sub(r"^\| \d* ?(?=\| )", "", it) for it in lines)
    # Rows that the page lacks, and other words that do not stand in its text.
    missing = [*(own - told), *(it for it in texts if it not in own and it not in prose)]
    yield from [f"{heading}: the page does not say what {name} says: {it}" for it in missing]
    yield from [f"{heading}: {name} does not say what the page says: {it}" for it in told - own]
    numbers = [*dict.fromkeys(re.findall(r"^\| (\d+) \|", section, re.M))]
    if numbers != [str(it) for it in range(1, len(numbers) + 1)]:
        yield f"{heading}: the rows are not numbered one after another: {numbers}"


def differing(files):
    """Where the page and the definitions of the machines differ. A file with a figure is a machine."""
    words = Words()
    sections = re.split(r"^## ", text_of(STANDARD / "MACHINES.md"), flags=re.M)
    for file in [it for it in files if re.search(r"^abbrev pub \w+ : Figure ", it.text, re.M)]:
        # The section of a machine has its file in brackets in the heading.
        own = [it for it in sections if re.search(rf"\(.*\b{file.path.stem}\b", it.partition("\n")[0])]
        yield from differences(own[0], file, words) if len(own) == 1 else [f"docs/standard/MACHINES.md: not one section for {file.path.name}"]
    yield from [f"docs/standard/MACHINE_WORDS.md: no definition of {name} has {piece}" for name, piece in sorted(words.unused)]
