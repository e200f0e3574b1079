"""The wrong bodies that tests/edits and tests/seen try: what each edit changes, the functions whose bodies hold all of that, and the crates.

An edit is a file crates/NAME/edits/WHAT_IT_DOES.edit. It breaks the code in one place: a line `file: PATH`, and pairs of lines `old: TEXT` and
`new: TEXT`, where each old text stands in the file once. A line `by: FUNCTION` names a function whose goal has to refuse it, and a line
`seen by: ..` what turns where the program runs with it. What stands in crates/NAME/harmless/ changes a body and nothing that it does. What stands
in crates/NAME/allowed/ is wrong and no contract refuses it, since it lies in the platform, or has no memory where a contract lets it have none: the
prover is not asked, and a test alone sees it."""

import functools
import os
import re
import shutil
import subprocess
import sys

TOP = os.path.dirname(os.path.dirname(os.path.realpath(__file__)))
PARTS = ("src", "specs", "proofs")
FOLDERS = ("must-fail", "edits")
HARMLESS, ALLOWED = "harmless", "allowed"


def stop(why):
    print(f"{os.path.basename(sys.argv[0])}: {why}", file=sys.stderr)
    sys.exit(2)


def read(file):
    with open(file, encoding="utf-8") as it:
        return it.read()


def write(file, text):
    with open(file, "w", encoding="utf-8") as it:
        it.write(text)


def run(words, folder):
    how = {"stdin": subprocess.DEVNULL, "stdout": subprocess.PIPE, "stderr": subprocess.STDOUT, "errors": "replace"}
    return subprocess.run(words, cwd=folder, **how)


# What follows finds the functions of a crate.


def blank(text):
    """Returns the text with blanks in place of what stands in comments, strings and characters, so that its braces can be counted."""
    skipped = r'//[^\n]*|/\*.*?\*/|b?"(?:\\.|[^"\\])*"|b?\'(?:\\[^\']+|[^\\\'\n])\''
    return re.sub(skipped, lambda it: re.sub(r"[^\n]", " ", it[0]), text, flags=re.S)


def close_of(plain, at):
    """Returns the place after the brace that closes the one at this place."""
    depth = 0
    for it in re.finditer(r"[{}]", plain[at:]):
        depth += 1 if it[0] == "{" else -1
        if not depth:
            return at + it.end()
    return len(plain)


def impl_of(head):
    """Returns how a check writes an impl: its type, its trait, and what the trait is given, as in FailureFromBroken. The type is Any where the impl is for
    every type that keeps some bounds, as in AnyMachine."""
    given = re.match(r"\s*<([^{]*?)>\s+(?=\w)", head)
    head = head[given.end() :] if given else head
    head = re.split(r"\bwhere\b", head)[0]
    trait, is_of_trait, kind = head.partition(" for ")
    first = lambda it: re.sub(r"<.*", "", it, flags=re.S).strip().split("::")[-1].split(" ")[-1]
    if not is_of_trait:
        return first(trait)
    at = re.match(r"\s*&(?:\s*'\w+)?(\s*mut\b)?\s*(\[?)(.*?)\]?\s*$", kind, flags=re.S)
    before = ("Ref" + ("Mut" if at[1] else "") + ("Slice" if at[2] else "")) if at else ""
    of = first(at[3] if at else kind)
    of = ("" if before else "Any") if given and re.search(rf"\b{re.escape(of)}\s*:", given[1]) else of[:1].upper() + of[1:]
    return before + of + first(trait) + "".join(re.findall(r"(?<!')\b[A-Z]\w*", trait.partition("<")[2]))


class Function:
    """A function of the crate: where it and its body lie, and how a check names it and the closures in it."""

    def __init__(self, path, name, impl, before, start, body, end, line, is_const):
        self.path, self.name, self.start, self.body, self.end, self.is_const = path, name, start, body, end, is_const
        self.says = f"{path}:{line} {name}"
        tail = (f"{impl}::" if impl else "") + name
        self.named = before + tail
        self.names = re.compile(rf"{re.escape(before)}({re.escape(tail)}(\+\S*)?|fn::{re.escape(tail)}::\S+)")


def module_of(path):
    """Returns the module that a source is, as a check writes it before a name in it."""
    parts = path.removeprefix("src/").removesuffix(".rt").split("/")
    return "".join(f"{it}::" for it in (parts[:-1] if parts[-1] in ("lib", "main", "mod") else parts))


def functions(path, text, types):
    """Lists the functions of a source that have a body. What is done for a type of the crate stands in the module of the type."""
    plain = blank(text)
    impls = []
    for it in re.finditer(r"(?m)^[ \t]*(?:unsafe )?(?:(impl)\b|(?:pub(?:\([a-z]+\))? )?trait\b)([^{;]*)\{", plain):
        impls.append((it.end(), close_of(plain, it.end() - 1), impl_of(it[2]) if it[1] else re.match(r"\s*(\w*)", it[2])[1]))
    found = []
    for it in re.finditer(r"\bfn\s+(\w+)", plain):
        brace, at = None, it.end()
        # The semicolon in the type of an array ends nothing.
        while brace := re.compile(r"\{|;(?! *\w+ *\])").search(plain, at):
            # The braces of a clause stand after its word, and perhaps its name.
            if brace[0] == ";" or not re.search(r"\b(requires|ensures|decreases|ghost)\b\*?[ \w]*$", plain[at : brace.start()]):
                break
            at = close_of(plain, brace.start())
        if brace and brace[0] == "{":
            impl = next((impl for start, end, impl in reversed(impls) if start <= it.start() < end), "")
            words = plain[plain.rfind("\n", 0, it.start()) + 1 : it.start()]
            end, line = close_of(plain, brace.start()), text.count("\n", 0, it.start()) + 1
            before = types.get(impl, module_of(path))
            found.append(Function(path, it[1], impl, before, it.start(), brace.start(), end, line, "const" in words.split()))
    return found


def found_in(texts):
    """Lists the functions of these sources, which are all of a crate by their paths."""
    types = {}
    for path, text in texts.items():
        for it in re.finditer(r"(?m)^(?:pub(?:\([a-z]+\))? )?(?:struct|enum|trait) (\w+)", text):
            types[it[1]] = module_of(path)
    return [it for path, text in texts.items() for it in functions(path, text, types)]


class Edit:
    """An edit: what it changes, and for each change the function whose body holds it, if one does. Its function is the one whose body holds all of it; or
    the one whose contract does, where nothing cites that contract, as that of a law."""

    def __init__(self, crate, file, found):
        self.file, self.label = file, f"{crate.name}/{os.path.basename(file)}"
        self.is_harmless = os.path.basename(os.path.dirname(file)) == HARMLESS
        self.pairs, self.by, self.seen, self.holders, self.function = [], [], [], [], None
        path = old = None
        for line in read(file).split("\n"):
            word, _, rest = line.partition(": ")
            if word == "file":
                path = rest.strip()
            elif word == "old":
                old = rest
            elif line.startswith("new:"):
                self.pairs.append((path, old, line[len("new:") :].removeprefix(" ")))
                old = None
            elif word == "by":
                self.by.append(rest.strip())
            elif word == "seen by":
                self.seen.append(rest.strip())
        self.why = self.apply(crate, {})
        if not self.why:
            self.holders = [self.holder(crate, found, *pair) for pair in self.pairs]
            self.function = self.holders[0] if len(set(self.holders)) == 1 else None
        if not self.why and not self.function and not self.is_harmless:
            holders = {self.holder(crate, found, *pair, is_whole=True) for pair in self.pairs}
            law = holders.pop()
            self.function = law if law and not holders and self.by in ([], [law.named]) and not crate.cites(law) else None
        if self.function:
            self.by = [self.function.named]
        by_hand = self.function and f"{crate.folder}/proofs/{self.function.named.replace('::', '/')}"
        if self.is_harmless and not self.why and (not by_hand or os.path.isdir(by_hand)):
            self.why = "a harmless edit changes the body of one function, which has no proof by hand"

    def apply(self, crate, texts):
        """Changes the texts, by their path in the crate, or says why it cannot and changes none."""
        changed = dict(texts)
        for path, old, new in self.pairs:
            if not path or not old or os.path.normpath(path) != path or not path.startswith(tuple(f"{it}/" for it in PARTS)):
                return "a 'new:' line has no 'file:' line with a file below src/, specs/ or proofs/ before it, or no 'old:' line"
            if path not in changed:
                if not os.path.isfile(f"{crate.folder}/{path}"):
                    return f"there is no file {path}"
                changed[path] = read(f"{crate.folder}/{path}")
            if changed[path].count(old) != 1:
                return f"an 'old:' text is in {path} {changed[path].count(old)} times, and not once"
            changed[path] = changed[path].replace(old, new)
        texts.update(changed)
        return "" if self.pairs else "it has no 'old:' and 'new:' pair"

    def holder(self, crate, found, path, old, new, is_whole=False):
        """Returns the function whose body holds this change, or which holds it in its contract or its body."""
        text = read(f"{crate.folder}/{path}")
        # A pair may change what the pair before it put there.
        if text.count(old) != 1:
            return None
        # What both texts begin and end with stays as it is: an old text may name the function whose body it changes.
        start = text.find(old) + len(os.path.commonprefix([old, new]))
        end = max(start, text.find(old) + len(old) - len(os.path.commonprefix([old[::-1], new[::-1]])))
        holds = [it for it in found if it.path == path and (it.start if is_whole else it.body) < start and end < it.end]
        holds = min(holds, key=lambda it: it.end - it.body, default=None)
        # The value of a const fn may stand in a type or in a constant, so that its edit changes more than a body.
        return None if not holds or holds.is_const else holds

    def bodies(self, crate):
        """Returns the body that each function gets, with its braces, or None where the edit changes something else too."""
        bodies = {}
        for function in set(self.holders) if None not in self.holders else ():
            text, longer = read(f"{crate.folder}/{function.path}"), 0
            for (_, old, new), holder in zip(self.pairs, self.holders):
                if holder is function:
                    text, longer = text.replace(old, new), longer + len(new) - len(old)
            bodies[function] = text[function.body : function.end + longer]
        return bodies


# What follows is of the crates.


class Kit:
    """Where the toolchain's parts lie."""

    def __init__(self):
        rt = shutil.which("rt") or stop("rt, the Rattle kit, is not on the path")
        self.top = os.path.dirname(os.path.dirname(os.path.realpath(rt)))
        self.rattle = f"{self.top}/bin/rattle"

    def library(self, name):
        return f"{self.top}/rlibs/{name}.rlib"


class Crate:
    def __init__(self, name, lines):
        self.name, self.folder = name, f"{TOP}/crates/{name}"
        self.uses = lines[name]
        self.below = []
        for it in self.uses:
            if it in lines:
                self.below += [low for low in Crate(it, lines).below + [it] if low not in self.below]

    @functools.cached_property
    def texts(self):
        """The files of the crate by their paths, without comments, and the sources without what passes names on."""
        found = {}
        for path in (f"{at}/{it}" for part in PARTS for at, _, names in os.walk(f"{self.folder}/{part}") for it in names):
            text = read(path) if path.endswith((".rt", ".antt")) else ""
            text = re.sub(r"(?m)^(pub )?use [^;]*;", "", blank(text)) if path.endswith(".rt") else re.sub(r"--.*", "", text)
            found[os.path.relpath(path, self.folder)] = text
        return found

    def cites(self, function):
        """Returns whether the crate names the function anywhere but where it is declared and in its own proofs."""
        own, word = f"proofs/{function.named.replace('::', '/')}/", re.compile(rf"\b{function.name}\b")
        return any(len(word.findall(text)) > (path == function.path) for path, text in self.texts.items() if not path.startswith(own))

    def root(self):
        return "src/main.rt" if os.path.isfile(f"{self.folder}/src/main.rt") else "src/lib.rt"

    def edits(self, folders=(*FOLDERS, HARMLESS)):
        paths = [os.path.relpath(f"{at}/{it}", self.folder) for at, _, names in os.walk(f"{self.folder}/src") for it in sorted(names) if it.endswith(".rt")]
        found = found_in({it: read(f"{self.folder}/{it}") for it in paths})
        folders = [f"{self.folder}/{it}" for it in folders if os.path.isdir(f"{self.folder}/{it}")]
        return [Edit(self, f"{at}/{name}", found) for at in folders for name in sorted(os.listdir(at)) if name.endswith(".edit")]

    def build(self):
        """Proves and builds what has changed in this crate and below it. Returns the first crate that is not proved as it stands, or None."""
        proves = lambda it: not run(["rt", "check" if it == self.name else "lib"], f"{TOP}/crates/{it}").returncode
        return next((it for it in [*self.below, self.name] if not proves(it)), None)

    def words(self, kit, library):
        """Returns the words of a check of this crate over the libraries below it, whose folders `library` tells."""
        words = ["--crate-name", self.name, self.root(), "--links", f"{self.name}=", "--jobs", "1"]
        for it in ["std", *self.uses]:
            words += ["--extern", f"{it}={library(it)}/{it}.rlib" if it in self.below else f"{it}={kit.library(it)}"]
        for it in [os.path.dirname(kit.library("std")), *map(library, self.below)]:
            words += ["-L", f"dependency={it}"]
        return [*words, "--antt-project", f"{kit.top}/rattle/logic/antt-project.json", "--logic-built", f"{kit.top}/logic_built"]


def crates_of(names):
    """Returns the crates of these names, or all that crates.txt lists."""
    lines = {}
    for line in read(f"{TOP}/crates.txt").split("\n"):
        name, _, uses = line.partition("#")[0].partition(":")
        if name.strip():
            lines[name.split()[0]] = uses.split()
    for name in names:
        if name not in lines:
            stop(f"crates.txt has no crate {name}")
    return [Crate(it, lines) for it in names or lines]
