"""What is compared of functions: the contracts of those that have the traits of sip_standard, word for word; the public laws of all crates; and the
trusted lines of the programs. A law is a function that does nothing: its body is `{}`, and its contract is the law."""

import re

from statement.files import THEOREM, TOP, changes, code_of, flat, text_of

# Each trait with its file, and the crate whose functions have its contracts.
TRAITS = [("Judges", "judges", "sip_verdict"), ("Program", "program", "sip_program")]
# A function, up to the line in which its body begins: how public it is, its name, its clauses, and that line.
FUNCTION = re.compile(r"^(pub(?:\([\w ]+\))? )?(?:const |unsafe )*fn (\w+)((?:(?![{}]|\S.*\{).*\n)*)(.*)", re.M)


def contract(text):
    """A signature with its clauses in one line, without the commas and blanks that depend on how it is cut into lines."""
    # A blank after an opening bracket, and a blank with or without a comma before a closing one.
    return re.sub(r",? (?=\))|(?<=\() ", "", flat(text))


def contracts_of(files, name):
    """The contract of each function of this name in the files of a crate, with the path under which the crate hands it on."""
    # A function at the margin, up to the line `{` with which its body begins.
    function = re.compile(rf"^(?:pub )?((?:pub\([\w ]+\) )?(?:const |unsafe )*fn {name}\b.*?)^\{{$", re.M | re.S)
    return [(contract(it), file.name_of(files, name)) for file in files for it in function.findall(file.text)]


def other_contracts():
    """The functions that have other words than the traits ask, or of which a crate does not hand on exactly one."""
    for trait, file, crate in TRAITS:
        # A function of a trait stands four blanks to the right and ends with a semicolon.
        asked = re.findall(r"^    (fn (\w+)\b.*?);$", text_of(TOP / f"crates/sip_standard/src/{file}.rt"), re.M | re.S)
        files = code_of(crate)
        for wanted, name in asked:
            own = contracts_of(files, name)
            if len(own) != 1 or not own[0][1]:
                yield f"{crate}: not one function {name} that its lib.rt hands on"
            elif own[0][0] != contract(wanted):
                yield f"{crate}: {name} has another contract than `{trait}` asks: {own[0][0]}"
        if not asked:
            yield f"{trait}: no contract is read"


def laws():
    """The rows of the table of public laws, each with the number of its clauses; and what hides a law, or stands among the laws and is none."""
    rows, faults, files = [], [], code_of()
    for file in files:
        for mark, name, asked, body in FUNCTION.findall(file.bare):
            # A function whose body is `{}` does nothing, so that its clauses are laws. `mark` says how public it is.
            clauses = re.findall(r"^ +ensures\b", asked, re.M) if body == "{}" else []
            path = file.name_of(files, name) if clauses and mark == "pub " else None
            if path:
                rows.append(f"| `{file.path}` | `{path}` | {len(clauses)} |")
            elif clauses:
                faults.append(f"crates/{file.path}: the law {name} is not public")
            elif file.path.name == "laws.rt":
                faults.append(f"crates/{file.path}: {name} stands among laws and is none")
    return ["| File of `crates/` | Public law | Clauses |", "|---|---|---|", *sorted(rows)], faults


def trusted_lines():
    """The files of the programs, each with its trusted lines: from the first such line on of a function its name, and else all lines but brackets."""
    for file in code_of("sip_platform", "siptrace", "sipsurvey"):
        yield str(file.path)
        # What stands before are imports and types.
        first = re.search(r"^(?:pub use|impl|fn main)\b", file.bare, re.M)
        for line in file.bare[first.start() if first else 0 :].split("\n"):
            function = re.match(r" *(?:pub )?(fn \w+)", line)
            # Lines of brackets alone, heads of `impl`, and `fn main` are not listed.
            if re.search(r"\w", line) and not re.match(r"impl\b.*\{$|fn main\b", line):
                yield function[1] if function else line.strip()


def unlisted():
    """How the trusted lines differ from those that docs/THEOREM.md lists."""
    # The words in backticks in the first column of the table in this section.
    section = text_of(THEOREM).partition("\n## What is left trusted of the programs themselves\n")[2].partition("\n## ")[0]
    cells = " ".join(re.findall(r"^\| (.*?) \|", section, re.M))
    return changes(re.findall(r"`([^`]+)`", cells), [*trusted_lines()])
