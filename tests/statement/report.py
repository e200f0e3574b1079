"""What tests/trusted compares and says."""

import sys

from statement import functions, machines, standard
from statement.files import THEOREM, changes, text_of


def carried(page, mark, lines):
    """The page with these lines after its mark, and how they differ from those that stood there."""
    # The lines stand between the mark and the next `to here`.
    before, begin, rest = page.partition(f"<!-- tests/trusted --write writes {mark}from here -->\n")
    kept, end, after = rest.partition("<!-- to here -->\n")
    if not end:
        sys.exit(f"{THEOREM}: no place for {mark or 'the definitions'}")
    return "".join([before, begin, *(f"{it}\n" for it in lines), end, after]), changes(kept.splitlines(), lines)


def main(arguments):
    # `files` are the definitions that the theorem is made of; a line of them that is not read stops all.
    files = standard.specs()
    faults = list(standard.faults(files))
    if faults:
        sys.exit("\n".join([*faults, f"{len(faults)} lines of sip_standard are not as they should be"]))
    if arguments == ["--page"]:
        return print(standard.page(files))
    # `laws` are the lines of the public laws, and `hidden` names those that are not public.
    laws, hidden = functions.laws()
    rows = list(standard.table(files))
    page, other_rows = carried(text_of(THEOREM), "", rows)
    page, other_laws = carried(page, "the laws ", laws)
    if arguments == ["--write"]:
        THEOREM.write_text(page)
        other_rows, other_laws = [], []
    # Each kind of a difference, with the lines that tell of it.
    told = {
        "contracts that are not those of `Judges` and `Program`": functions.other_contracts(),
        "what docs/standard does not name, or names and is not there": standard.untold(files),
        "what docs/standard/MACHINES.md and the machines do not both say": machines.differing(files),
        "other trusted lines than docs/THEOREM.md lists": functions.unlisted(),
        "laws that are not public": hidden,
        "docs/THEOREM.md says something else, which tests/trusted --write writes": other_rows + other_laws,
    }
    told = {what: [*lines] for what, lines in told.items()}
    print(*[line for lines in told.values() for line in lines], f"{rows[-1]} {len(laws) - 2} public laws.", sep="\n")
    if any(told.values()):
        sys.exit("; ".join(f"{what}: {len(some)}" for what, some in told.items() if some))
