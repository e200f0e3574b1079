"""What tests/pairs, tests/rows and tests/surveys share: the programs, the reading of their answers, the headings of docs/standard, and the count of checks."""
import importlib.machinery
import importlib.util
import os
import re
import subprocess
import sys
from pathlib import Path

# The folder of the checkout, and that of the pages of the standard.
TOP = Path(__file__).resolve().parent.parent
PAGES = TOP / "docs/standard"
# The status of the program by the first words of what it says last.
STATUSES = {"legal": 0, "end": 0, "transaction": 0, "no transaction": 0, "malformed": 1, "breach": 1, "log": 2, "no entry": 2, "undecided": 3}


class Count:
    """The count of checks that hold, and a text for each check that does not."""

    def __init__(self):
        self.passed = self.failed = 0

    def check(self, holds, text):
        """Counts whether something holds, and prints the text where it does not."""
        if holds:
            self.passed += 1
        else:
            self.failed += 1
            print(text)

    def end(self):
        """Prints the counts, and ends the script."""
        print(f"{self.passed} passed, {self.failed} failed")
        # A script that checked nothing has failed too.
        sys.exit(self.failed > 0 or self.passed == 0)


def find_program(name="siptrace"):
    """The program that the variable SIPTRACE, or SIPSURVEY, names; without it the one that ./siptrace, or ./sipsurvey, runs, and builds at its first use."""
    if name.upper() in os.environ:
        return os.environ[name.upper()]
    return TOP / "built" / subprocess.run([TOP / "build", name], stdout=subprocess.PIPE, text=True, check=True).stdout.strip()


def script(name):
    """A script of tests/ as a module."""
    loader = importlib.machinery.SourceFileLoader(name, f"{TOP}/tests/{name}")
    module = importlib.util.module_from_spec(importlib.util.spec_from_loader(name, loader))
    loader.exec_module(module)
    return module


def status_of(said):
    """The status with which the program ends after this line."""
    # `no transaction` and `no entry` are told by two words, every other line by its first.
    words = said.split(" ")
    return STATUSES.get(words[0], STATUSES.get(" ".join(words[:2])))


def sections_of(page):
    """The text below each heading of a page, by the words of the heading before any bracket."""
    # The parts are what stands before the first heading, and then each heading and its text by turns.
    pieces = re.split(r"^#+ (.*)$", page.read_text(), flags=re.M)
    return {heading.partition(" (")[0]: text for heading, text in zip(pieces[1::2], pieces[2::2])}


def sections_of_pages():
    """The sections of each page of docs/standard."""
    return {page.name: sections_of(page) for page in sorted(PAGES.glob("*.md"))}
