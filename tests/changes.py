"""What changed in a crate since a commit: what a crate above it can see of that, which functions it touches, and which wrong bodies have to be tried again.

A crate above sees the public items of the sources, with their types and contracts, the methods of traits, what is outside of all functions, and of specs/
and proofs/ each file that one of these names, or the crate above, or another such file. It sees no comment, no body, but that of a const fn and of a
trait's own function, no function that is private to the crate, and no proof of a function.

A check of a function reads of its own crate what stands outside of all functions in the sources, each contract, the function with its own proofs, and of
specs/ and proofs/ each file that one of these names, or another such file, and each that nothing names. It reads no other function's body or own proof, but
one that such a file names by more than its theorem, or whose head has a `dyn`, a result of an `impl` type or a cycle of calls. Of the crates below it reads
what is seen of them by all of that."""

import contextlib
import functools
import io
import os
import re
import subprocess
import tarfile

from wrong_bodies import PARTS, TOP, blank, close_of, found_in, read

# A text that stays as it is, or else blanks and comments.
IN_SOURCE = re.compile(r'(b?"(?:\\.|[^"\\])*"|b?\'(?:\\[^\']+|[^\\\'\n])\')|(?:\s|//[^\n]*|/\*.*?\*/)+', re.S)
# A comment that is a line of its own.
IN_PROOF = re.compile(r"(?m)^[ \t]*--(?!.*-\}).*")
IMPORT = re.compile(r"(?m)^[ \t]*(?:ghost )?use ([^;]*);")
MODULE = re.compile(r"(?m)^[ \t]*mod \w+;")
OF_TRAIT = re.compile(r"(?m)^[ \t]*(?:unsafe )?(?:pub(?:\([a-z]+\))? )?(impl(?=\b[^{;]*\bfor\b)|trait|macro_rules)\b[^{;]*\{")
# A function with such a head may show its body: what it answers, what a `dyn` may be, or one proof with others.
IS_OPEN = re.compile(r"\bdyn\b|->[^{]*\bimpl\b|#\[cycle\b")
# A module of a crate, or names in it, in a proof or in an attribute.
NAMED = re.compile(r"(?:\bRattle\.(\w+)|\b(\w+)(?=\.(?:specs|proofs)\b))((?:\.[\w+'-]+)*)\.?(?:\{([^{}]*)\})?")


def code(path, text):
    """Returns the text without its empty lines, and without its comments, but for those of specs/ and proofs/ that end a line. How far a line is indented
    counts there, and in a contract."""
    if path.endswith(".rt"):
        text = IN_SOURCE.sub(lambda it: it[1] or ("\n" + it[0].rpartition("\n")[2] if "\n" in it[0] else " "), text)
        return text.strip()
    return "\n".join(it.rstrip() for it in IN_PROOF.sub("", text).split("\n") if it.strip())


def head_of(plain, function):
    """Returns where the function begins, with its attributes."""
    return max(plain.rfind(it, 0, function.start) for it in "{};") + 1


def without(text, cuts):
    """Returns the text without what lies between these pairs of places."""
    kept, at = [], 0
    for start, end in sorted(cuts):
        if start >= at:
            kept.append(text[at:start])
        at = max(at, end)
    return "".join([*kept, text[at:]])


class Source:
    """A file of src/: its functions and their contracts by their names, what of it a crate above sees, and what stands outside of its functions."""

    def __init__(self, path, text, found):
        plain = blank(text)
        blocks = [(it.start(), close_of(plain, it.end() - 1), it[1]) for it in OF_TRAIT.finditer(plain)]
        whole, hidden = [], []
        self.functions, self.heads = {}, {}
        for it in found:
            head = head_of(plain, it)
            self.functions[it.named] = self.functions.get(it.named, "") + code(path, text[head : it.end])
            self.heads[it.named] = self.heads.get(it.named, "") + code(path, text[head : it.body])
            block = next((word for start, end, word in blocks if start <= it.start < end), None)
            if not it.is_const and block not in ("trait", "macro_rules") and not IS_OPEN.search(plain[head : it.body]):
                is_public = block or re.search(r"\bpub\b(?!\s*\()", plain[head : it.start])
                hidden.append((it.body if is_public else head, it.end))
                whole.append((head, it.end))
        self.outside = code(path, without(text, whole))
        self.seen = shown_of(code(path, without(text, hidden)))


def shown_of(text):
    """Returns the text without private modules and imports, and of these imports those alone that bring what the rest names."""
    rest = re.sub(r"\n\s*\n", "\n", IMPORT.sub("", MODULE.sub("", text))).strip()
    brought = [(it[1].partition("{")[0], name) for it in IMPORT.finditer(text) for name in names_of(it[1])]
    imports = sorted(f"{head}{{{name}}}" for head, name in brought if name == "*" or has(rest, name.split(" as ")[-1]))
    return "\n".join([rest, *imports] if rest else [])


def names_of(imported):
    """Returns the names that an import brings, each perhaps with another one for it after 'as'."""
    names = re.split(r"[{},]", imported.partition("{")[2]) if "{" in imported else [re.split(r"::|\.", imported)[-1]]
    return [it.strip() for it in names if it.strip()]


def has(text, name):
    """Returns whether the text has the name, or all parts of an operator."""
    parts = [it for it in name.split("◌") if it]
    return all(re.search(rf"(?<!\w){it}(?!\w)", text) if re.fullmatch(r"\w+", it) else it in text for it in parts)


@functools.cache
def modules_in(text):
    """Returns the modules that the text names, or names in them, each after its crate."""
    found = NAMED.findall(text.replace("::", "."))
    return {(crate or word, f"{module}.{it.partition(' as ')[0].strip()}") for crate, word, module, names in found for it in names.split(",")}


class State:
    """A crate as its files of src/, specs/ and proofs/ are: each function with its own proof, each contract, what stands outside of functions, and what is
    seen by a crate above that has these texts, all by their names or paths."""

    def __init__(self, name, texts, above=()):
        sources = {path: it for path, it in texts.items() if path.endswith(".rt")}
        found = found_in(sources)
        sources = {path: Source(path, text, [it for it in found if it.path == path]) for path, text in sources.items()}
        self.name, self.functions, self.heads = name, {}, {}
        for source in sources.values():
            for named, it in source.functions.items():
                self.functions[named] = self.functions.get(named, "") + it
                self.heads[f"fn {named}"] = self.heads.get(f"fn {named}", "") + source.heads[named]
        self.outside = {path: sources[path].outside if path in sources else code(path, text) for path, text in texts.items()}
        for path in sorted(texts):
            own = path.removeprefix("proofs/").rpartition("/")[0].replace("/", "::")
            if path.startswith("proofs/") and own in self.functions:
                self.functions[own] += f"\n{path} {self.outside.pop(path)}"
        self.parts, self.named_by = {**self.outside, **self.functions}, functools.cache(self.named_by)
        named = self.named_in([*self.parts.values(), *self.heads.values()])
        self.read_by_all = {**self.heads, **{path: it for path, it in self.outside.items() if path in sources or path not in named}}
        self.shown = {path: it.seen for path, it in sources.items() if it.seen}
        self.seen = self.seen_by(above)

    def seen_by(self, above):
        """Returns what a crate above sees that has these texts."""
        return {**self.shown, **self.reached([*above, *self.shown.values()])}

    def read_by(self, functions):
        """Returns what a check of these functions reads of their crate."""
        texts = {**self.read_by_all, **{it: self.functions[it] for it in functions}}
        return {**texts, **self.reached(texts.values())}

    def reached(self, texts):
        """Returns the parts that these texts name, or that a part names that is named."""
        found, more = set(), self.named_in(texts)
        while more:
            found |= more
            more = self.named_in(self.parts[it] for it in more) - found
        return {it: self.parts[it] for it in found}

    def named_in(self, texts):
        return {it for text in texts for it in self.named_by(text)}

    def named_by(self, text):
        return {it for crate, module in modules_in(text) if crate in (self.name, "crate") for it in self.named(module)}

    def named(self, module):
        """Returns the file that has this module, or a name in it, or the list that passes it on; or the function whose module it is, but for its theorem; or
        all, where it is a library."""
        names = [it for it in module.split(".") if it]
        if len(names) < 2:
            return {*self.parts}
        for count in range(len(names), 1, -1):
            path, function = "/".join(names[:count]) + ".antt", "::".join(names[1:count])
            if path in self.outside:
                return {path}
            if names[0] == "proofs" and function in self.functions:
                return {function} if names[count : count + 1] not in (["Met"], ["Statement"]) else set()
        # A module of a crate below that this one passes on has a line in its list, which names that crate.
        passed_on = re.search(rf"(?m)^pub use Rattle\..*\.{re.escape(names[1])}$", self.outside.get(f"{names[0]}/Lib.antt", ""))
        return {f"{names[0]}/Lib.antt"} if passed_on else set()


class Change:
    """What changed in a crate from one state to the other: the paths of what is seen from above, the functions, and what stands outside of functions."""

    def __init__(self, crate, old, new):
        differ = lambda part: {it for it in {**getattr(old, part), **getattr(new, part)} if getattr(old, part).get(it) != getattr(new, part).get(it)}
        self.crate, self.seen, self.functions, self.outside = crate, sorted(differ("seen")), differ("functions"), differ("outside")

    def touches(self, edit):
        """Returns whether the edit changes what changed here, or names the goal of a function that did."""
        if self.functions & {*edit.by, *(it.named for it in (*edit.holders, edit.function) if it)}:
            return True
        return any(path in self.outside for (path, _, _), holder in zip(edit.pairs, edit.holders) if not holder)


# What follows reads the states of the repository.


def git(*words):
    return subprocess.run(["git", "-C", TOP, *words], stdout=subprocess.PIPE, check=True).stdout


def changed_files(base):
    """Lists the files that are not as in this commit, or that it lacks."""
    listed = git("diff", "--name-only", "-z", base) + git("ls-files", "--others", "--exclude-standard", "-z")
    return [it for it in listed.decode().split("\0") if it]


def texts_in(folder):
    """Returns the texts of a crate as they are, by their paths in it."""
    paths = [f"{at}/{it}" for part in PARTS for at, _, names in os.walk(f"{folder}/{part}") for it in names if it.endswith((".rt", ".antt"))]
    return {os.path.relpath(it, folder): read(it) for it in paths}


def texts_at(base, name):
    """Returns the texts of a crate as they were in this commit."""
    listed = git("ls-tree", "-r", "-z", "--name-only", base, "--", f"crates/{name}/").decode().split("\0")
    paths = [it for it in listed if re.match(rf"crates/{name}/({'|'.join(PARTS)})/.*\.(rt|antt)$", it)]
    with tarfile.open(fileobj=io.BytesIO(git("archive", base, "--", *paths))) if paths else contextlib.nullcontext() as archive:
        return {it.removeprefix(f"crates/{name}/"): archive.extractfile(it).read().decode() for it in paths}


def states_of(crates):
    """Returns the states of these crates as they are, by their names."""
    return {it.name: State(it.name, texts_in(it.folder)) for it in crates}


def read_by(crate, functions, states):
    """Returns what a check of these functions of a crate reads, by crate: of its own, and what is seen of those below it, of which the highest come last."""
    read_of = {crate.name: states[crate.name].read_by(functions)}
    for low in reversed(crate.below):
        read_of[low] = states[low].seen_by([text for it in read_of.values() for text in it.values()])
    return read_of


def changes_since(base, crates):
    """Returns what changed in each of these crates, in their order, where a file did that is not for readers alone."""
    names = {it.split("/")[1] for it in changed_files(base) if it.startswith("crates/") and not it.endswith("README.md")}
    texts = {it.name: texts_in(it.folder) for it in crates}
    found = []
    for crate in crates:
        if crate.name in names:
            above = [text for it in crates if crate.name in it.below for text in texts[it.name].values()]
            found.append(Change(crate, State(crate.name, texts_at(base, crate.name), above), State(crate.name, texts[crate.name], above)))
    return found
