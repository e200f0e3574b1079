"""The crate sip_standard, which is what one must believe: its files in the order of its lists, what each of them defines, and what in it cannot be
read for sure. The crate is proved alone, so that what does not stand in it is not needed."""

import re
from collections import Counter

from statement.files import STANDARD, TOP, flat, text_of, without_comments

# The folder of the crate.
CRATE = TOP / "crates/sip_standard"
# An import of sip_standard, and the head of a definition.
# `use PATH.{NAMES}` or `use PATH as NAME`, of std, of sip_standard or of Prim.
USE = re.compile(r"use ((?:Rattle\.(?:std|sip_standard)|Prim)\.[\w.]+?)(?:\.\{([^{}.]+)\}| as (\w+))")
# Perhaps a fixity with the name of an operator; then the kind of the definition, its name, and the rest of the line.
HEAD = re.compile(r"(?:infix[lr]? \d+ (◌\w+◌)\n)?(?:abbrev pub|pub record|pub data) (\S+) .*")
# What is not read in a line of specs/, and what leads out of the crate in a line of code.
# What is left of a comment that does not begin after a blank, or has brackets; a quotation; and a path that does not stand in an import.
UNREAD = {"a mark that is not read": r"--|\{-|[«»]", "a path that is not read": r"^(?!use ).*\b(Rattle|package)\."}
# Another crate, a mark that takes other files or leaves code out, what is included, and an import of all names.
OUTSIDE = re.compile(r"Rattle\.(?!std\.|sip_standard\.)\w+|package\.|#!?\[\s*(?:path|cfg|cfg_attr)\b|\binclude!|^use .*\*", re.M)


class Item:
    """A definition: its lines without comments and strings, and the names that it gives, its own and those of its constructors."""

    def __init__(self, name, lines):
        self.name, self.text = name, "\n".join(lines)
        # A constructor stands two blanks to the right, with its type after a colon; several names may have one type.
        constructors = re.findall(r"^  (\S.*?) : ", self.text, re.M) if lines[0].startswith("pub data") else []
        self.names = {name, *flat(" ".join(constructors)).split()}

    def pieces(self):
        """The names by which another definition may need this one."""
        # An operator, as ◌≡◌, stands in a text without the circles.
        return {it for name in self.names for it in [name, *name.split("◌")] if it}


class File:
    """A file of specs/: its definitions, the lines that import, and what is not read for sure. Definitions stand between empty lines, each with its
    comment, its fixity and its clauses."""

    def __init__(self, path):
        self.path, self.text = path.relative_to(TOP / "crates"), text_of(path)
        self.items, self.uses, self.faults = [], [], []
        at = 1
        for block in self.text.rstrip("\n").split("\n\n"):
            self.read(at, block)
            # The next block begins after the lines of this one and the empty line.
            at += block.count("\n") + 2
        self.names = [it.name for it in self.items]

    def read(self, at, block):
        """Reads what stands between two empty lines, of which the first is this one: imports, or one definition."""
        bare = [without_comments(line, r"(?<!\S)--.*").rstrip() for line in block.split("\n")]
        found = [what for line in bare for what, mark in UNREAD.items() if re.search(mark, line)]
        # A letter that cannot be seen could make two names look the same.
        found += [f"a letter U+{ord(it):04X}" for it in block if not it.isprintable() and it != "\n"]
        lines = [line for line in bare if line]
        uses, head = [USE.fullmatch(line) for line in lines], HEAD.match("\n".join(lines))
        if all(uses):
            self.uses += uses
        # One definition: a fixity is that of its own name, and each further line belongs to it.
        elif head and head[1] in (None, head[2]) and all(continues(head[2], line) for line in lines[1 + bool(head[1]) :]):
            self.items.append(Item(head[2], lines[bool(head[1]) :]))
        else:
            found.append("neither a definition nor imports")
        self.faults += [f"crates/{self.path}:{at}: {what}" for what in found]

    def renamed(self):
        """The names that the file gives to what it imports."""
        return [it for use in self.uses for it in re.findall(r" as ([^\s,}]+)", use[0])]


def continues(name, line):
    """Whether a line belongs to a definition of this name: it is indented, or a clause."""
    # A clause of an operator begins with an argument in brackets, and has the sign of the operator in it.
    return line.startswith(("  ", f"{name} ")) or "◌" in name and line.startswith("(") and name.strip("◌") in line.split()


def specs():
    """The files of specs/ in the order in which one reads them, by the list of the crate."""
    return [File(CRATE / f"specs/{name}.antt") for name in re.findall(r"^pub mod (\w+)$", text_of(CRATE / "specs/Lib.antt"), re.M)]


def code():
    """The files of src/ with their texts and with the types and traits of each, in the order of the crate's list."""
    for name in ["lib", *re.findall(r"^(?:pub )?mod (\w+);", text_of(CRATE / "src/lib.rt"), re.M)]:
        text = text_of(CRATE / f"src/{name}.rt")
        yield CRATE.relative_to(TOP / "crates") / f"src/{name}.rt", text, re.findall(r"^pub (?:struct|enum|trait) (\w+)", text, re.M)


def mentioned(text):
    """The names that stand in a text without comments."""
    return {piece for word in set(re.findall(r"[^\s(){},;@\"⟦⟧]+", text)) for piece in [word, *re.split(r"[.λ]", word)]}


def faults(files):
    """What is not read for sure, has the name of something else, stands in no list, leads out of the crate, or is not needed."""
    yield from [it for file in files for it in file.faults]
    names = Counter(name for file in files for item in file.items for name in item.names)
    for file in files:
        # A name that an import gives must not be one that a definition has.
        yield from [f"crates/{file.path}: something under the name {it}, which others have" for it in file.renamed() if names[it]]
        yield from [f"crates/{file.path}: {it} is defined twice" for it, times in Counter(file.names).items() if times > 1]
    # What lies in the folders, and what the lists name.
    stand = {path.relative_to(TOP / "crates") for folder in ("specs", "src") for path in (CRATE / folder).rglob("*.*t") if path.name != "Lib.antt"}
    listed = {file.path for file in files} | {path for path, *_ in code()}
    yield from [f"crates/{path} stands in one of folder and list alone" for path in sorted(stand ^ listed)]
    for path, text, _ in code():
        yield from [f"crates/{path}: {found[0]} is not followed" for found in OUTSIDE.finditer(re.sub(r"//.*", "", text))]
    yield from unneeded(files)


def unneeded(files):
    """The definitions that no other one mentions, and no code but in an import."""
    own = [(file, item, mentioned(item.text)) for file in files for item in file.items]
    # What the code mentions, but for its imports of definitions.
    by_code = [mentioned(without_comments(re.sub(r"^ghost use .*;$", "", text, flags=re.M))) for _, text, _ in code()]
    times = Counter(name for some in [*(it for *_, it in own), *by_code] for name in some)
    for file, item, some in own:
        # Each of its names stands in no text, or in its own alone.
        if all(times[it] <= (it in some) for it in item.pieces()):
            yield f"crates/{file.path}: nothing needs {item.name}"


def page(files):
    """The text of the whole crate, its contracts last. Of the imports only those stand that give a name, or tell definitions of one name apart."""
    # The names that several files define.
    doubles = {name for name, times in Counter(name for file in files for name in file.names).items() if times > 1}
    texts = {path: re.sub(r"(?m)^(ghost )?use .*;\n", "", text) for path, text, _ in code() if path.name != "lib.rt"}
    contracts = {path: texts.pop(path) for path in [*texts] if path.stem in ("judges", "program")}
    for file in files:
        left_out = [it[0] for it in file.uses if " as " not in it[0] and not doubles & {*re.findall(r"[^\s{},]+", it[0])}]
        # Of an import that stays the words after `use ` are shown, in square brackets.
        kept = [line for line in file.text.split("\n") if line not in left_out]
        texts[file.path] = "\n".join(f"[{line[4:]}]" if USE.fullmatch(line) else line for line in kept)
    return "\n\n".join(f"[crates/{path}]\n\n" + re.sub(r"\n{3,}", "\n\n", text).strip() for path, text in (texts | contracts).items())


def table(files):
    """A row of the table for each file: what it defines, and how many lines it has without imports and empty lines; and a row of the sums."""
    rows = [(file.path, file.names, file.text) for file in files] + [(path, types, text) for path, text, types in code() if types]
    # The lines but imports and empty ones.
    rows = [(path, names, len(re.findall(r"^(?!(?:ghost |pub )?use ).*\S", text, re.M))) for path, names, text in rows]
    # Of the definitions and then of the code: how many names, and how many lines.
    sums = [sum(it) for end in (".antt", ".rt") for it in zip(*[(len(names), lines) for path, names, lines in rows if path.suffix == end])]
    yield from ["| File of `crates/` | What it defines | Lines |", "|---|---|---|"]
    yield from [f"| `{path}` | {', '.join(f'`{it}`' for it in names)} | {lines} |" for path, names, lines in rows]
    yield from ["", "Together {} definitions in {} lines, and {} types and traits of the code in {} lines.".format(*sums)]


def untold(files):
    """The definitions that no section of docs/standard names whose heading names their file; the types that no page names; and the files that a
    heading names and that there are not."""
    whole = "".join(text_of(path) for path in sorted(STANDARD.glob("*.md")))
    sections = [it.partition("\n") for it in re.split(r"^#+ ", whole, flags=re.M)]
    for file in files:
        # The text of the sections whose heading has the file in brackets; what stands in backticks there is named.
        own = "".join(text for heading, _, text in sections if re.search(rf"\(.*\b{file.path.stem}\b", heading))
        told = re.findall(r"`([^`\n]+)`", re.sub(r"``.*?``", "", own))
        yield from [f"docs/standard: no section for crates/{file.path} names {it}" for it in file.names if it.strip("◌") not in told]
    yield from [f"docs/standard: no page names {it} of crates/{path}" for path, _, types in code() for it in types if f"`{it}`" not in whole]
    for name in [name for heading, *_ in sections for name in re.findall(r"`((?!sip_)\w+)`", heading)]:
        if not any(TOP.glob(f"crates/sip_*/specs/{name}.antt")):
            yield f"docs/standard: a heading names {name}, and there is no file {name}.antt"
