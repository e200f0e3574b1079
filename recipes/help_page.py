"""What a recipe says of itself with --help: fitted to the width of the terminal, and to how the recipe is called.

Debian's package has a recipe NAME as the command siptrace-NAME. Called so, a recipe calls the others so too, and tells the whole path of a file that it
names beside them.
"""
import argparse
import os
import re
import shutil
import sys
import textwrap
from itertools import groupby

# The folder of the recipes.
FOLDER = os.path.dirname(os.path.realpath(__file__))
# How the name of a recipe begins where the package is installed.
PREFIX = "siptrace-"
# How wide a page is at most.
MOST_COLUMNS = 100
# The files beside the recipes that pages name, and a part of a page that they name.
FILE = re.compile(r"(?<![\w./-])(schema/\w+\.json|siptrace\.lua|from-siptrace-db\.sql)")
SECTION = re.compile(r"README\.md, `[^`]*`")


def names():
    """The names of all recipes."""
    return [name for name in sorted(os.listdir(FOLDER)) if "." not in name and os.access(os.path.join(FOLDER, name), os.X_OK) and os.path.isfile(os.path.join(FOLDER, name))]


def as_called(text):
    """The text with the names of commands and files as they are called here. A name of one word, as `report` is, is replaced only where a command begins."""
    if not os.path.basename(sys.argv[0]).startswith(PREFIX):
        return text
    of_one_word = [name for name in names() if "-" not in name]
    longer = [*(name for name in names() if "-" in name), "from-*"]
    # A name with a hyphen is replaced wherever it stands as a word of its own, and one of one word after blanks at a line's beginning, `| ` or a backtick.
    text = re.sub(r"(?<![\w./-])(%s)(?![\w-]|\.\w)" % "|".join(map(re.escape, longer)), PREFIX + r"\1", text)
    text = re.sub(r"(?m)(^  +|\| |`)(%s)(?=[\s`])" % "|".join(of_one_word), r"\1" + PREFIX + r"\2", text)
    text = SECTION.sub("the manual page siptrace-recipes(7)", text)
    return FILE.sub(lambda found: os.path.join(FOLDER, found[1]), text)


def shown(page):
    """A page whose paragraphs fill the lines of the terminal. Lines that are indented stand as they are."""
    width = min(shutil.get_terminal_size().columns, MOST_COLUMNS)
    parts = []
    for kind, lines in groupby(as_called(page).strip("\n").split("\n"), kind_of):
        lines = "\n".join(lines)
        parts.append(textwrap.fill(lines, width, break_long_words=False, break_on_hyphens=False) if kind == "text" else lines)
    return "\n".join(parts)


def kind_of(line):
    """The kind of a line of help: empty, kept as it is, or text that is wrapped."""
    return "empty" if not line else "as it is" if line.startswith(" ") else "text"


class Formatter(argparse.RawDescriptionHelpFormatter):
    """Leaves the lines of a page as they are, and calls recipes in the texts of options as they are called here."""

    def _get_help_string(self, action):
        """The help of an option, with the name by which the script was called."""
        return as_called(action.help) if action.help else action.help


def parser_of(page):
    """The parser of a recipe's words, which shows its page."""
    return argparse.ArgumentParser(description=shown(page), formatter_class=Formatter)
