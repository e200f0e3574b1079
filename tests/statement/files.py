"""The files of the crates: as they stand, or with the texts that are tried in their place."""

import re
from difflib import ndiff
from pathlib import Path

# The folder of the checkout, that of the pages of the standard, and the page of the theorem.
TOP = Path(__file__).resolve().parent.parent.parent
STANDARD, THEOREM = TOP / "docs/standard", TOP / "docs/THEOREM.md"
# Texts that stand for those of the checkout, by their paths, so that tests/trusted-sabotage tries what is said of them.
INSTEAD = {}


def text_of(path):
    """The text of the file, or what stands in place of it."""
    return INSTEAD.get(str(path.relative_to(TOP))) or path.read_text()


def flat(text):
    """The text with one blank in place of each run of blanks."""
    return " ".join(text.split())


def without_comments(text, comment=r"//.*"):
    """A text of code without its comments and without what stands in its strings, its lines without blanks at their ends."""
    # A string is looked for first, so that signs of a comment within it begin none.
    bare = re.sub(rf'"(?:[^"\\]|\\.)*"|{comment}', lambda found: '""' if found[0].startswith('"') else "", text)
    return re.sub(r"[ \t]+$", "", bare, flags=re.M)


def changes(told, own):
    """How the lines that a page tells differ from those that stand."""
    return [line for line in ndiff(told, own) if line.startswith(("+ ", "- "))]


class Code:
    """A file of code: its path below crates/, and its text with and without comments."""

    def __init__(self, path):
        self.path, self.text = path.relative_to(TOP / "crates"), text_of(path)
        self.crate, self.bare = self.path.parts[0], without_comments(self.text)

    def name_of(self, files, function):
        """The path under which the crate hands a function of this file on, or None where it does not."""
        lib = next(it.bare for it in files if str(it.path) == f"{self.crate}/src/lib.rt")
        # The path below src/, as the code names it.
        module = "::".join(self.path.with_suffix("").parts[2:])
        # Either the module is public, or the root file passes the function on by `pub use`, alone or in braces.
        if re.search(rf"^pub mod {module};$", lib, re.M):
            return f"{self.crate}::{module}::{function}"
        if re.search(rf"^pub use (crate::)?{module}::(\{{[^}}]*\b{function}\b[^}}]*\}}|{function});$", lib, re.M):
            return f"{self.crate}::{function}"
        return None


def code_of(*crates):
    """The files of code of some crates, or of all."""
    return [Code(path) for crate in crates or ["*"] for path in sorted(TOP.glob(f"crates/{crate}/src/**/*.rt"))]
