"""Reads the definitions in crates/*/specs and the lemmas in crates/*/proofs, for `reference`, `theorem` and
verify/prover/lemma. It tells which there are, their text, the definitions on which they rest, and the path by which a
crate above names them.

A definition rests on another one if its text, without comments, names that or one of its cases.
"""
import glob
import re
import sys

START = re.compile(r"((?:abbrev|unfoldable) (?:pub )?|(?:pub )?(?:record|data) |pub )([^\s:({]+)")


class Definition:
    """A definition or a lemma: its name, its comment, its lines, the modules around it, and the heading above it. It is
    a lemma if it has no keyword."""

    def __init__(self, found, line, comment, blocks, group):
        self.name, self.comment, self.blocks, self.group = found[2], comment, blocks, group
        self.indent, self.code = len(line) - len(line.lstrip()), [line]
        self.is_public, self.is_lemma = "pub" in found[1], found[1] == "pub "
        self.has_cases = bool(re.search(r"\bdata ", found[1]))

    def first_lines(self):
        """Returns its first line, with the deeper lines below it.

        That is the statement of a lemma, the type of a function, or all of a record and of cases.
        """
        for at, line in enumerate(self.code):
            if at and len(line) - len(line.lstrip()) <= self.indent or line.strip().startswith("unfolding "):
                return self.code[:at]
        return self.code

    def statement(self):
        """Returns its statement, on one line, with the arguments of the modules around it."""
        said = " ".join(" ".join(re.sub(r"(^| )--.*", "", line) for line in self.first_lines()).split())
        start = START.match(said)
        lines = [[line.strip() for line in block if not line.strip().startswith("--")] for block in self.blocks]
        around = map(" ".join, lines)
        given = [re.sub(r"^module \S+ ?| ?where$|^mutual$", "", header) for header in around]
        kind = re.sub(r"\b(pub|abbrev|unfoldable) ?", "", start[1])
        return kind + " ".join(filter(None, [self.name, *given, said[start.end():].strip()]))


class File:
    """A file of definitions or lemmas: its crate and name, the comment at its top, and its definitions by their names.

    For each name that it imports or hands on it has the library and the name there.
    """

    def __init__(self, path, text=None):
        _, self.crate, self.kind, name = path.split("/")
        self.name = name[:-5]
        self.library = f"{self.crate}.{self.kind}.{self.name}"
        if text is None:
            with open(path, encoding="utf-8") as opened:
                text = opened.read()
        self.uses = imports(r"^(?:pub )?use Rattle\.([\w.]+)\.\{([^}]*)\}$", text)
        self.hands_on = imports(r"^pub use Rattle\.([\w.]+)\.\{([^}]*)\}$", text)
        lines = text.split("\n")
        top = next((at for at, line in enumerate(lines) if not line.startswith("--")), len(lines))
        self.comment = [line[2:].strip() for line in lines[:top]]
        self.definitions = {}
        self.read(lines[top:])
        # The cases of a `data`, by the definition that has them.
        self.cases = {}
        for definition in self.definitions.values():
            for line in definition.code[1:] if definition.has_cases else []:
                for case in (re.match(r"\s+([^:()]*) :", line) or ["", ""])[1].split():
                    self.cases[case] = definition.name

    def read(self, lines):
        """Takes the definitions out of lines. A comment belongs to the definition after it. If it interrupts a
        definition, it is a part of that definition."""
        comment, blocks, group, current, at = [], [], None, None, 0
        while at < len(lines):
            line, bare = lines[at], lines[at].strip()
            indent = len(line) - len(line.lstrip())
            is_within = current is not None and indent > current.indent
            found = START.match(bare)
            at += 1
            if not bare:
                comment = []
            elif bare.startswith("-- ----"):
                group, comment = bare[7:].strip(), []
            elif bare.startswith("--"):
                comment.append(line)
                if is_within:
                    current.code += comment
                    comment = []
            elif is_within or current is not None and indent == current.indent and (
                    bare.split()[0] == current.name or bare[0] in "})"):
                current.code += comment + [line]
                comment = []
            else:
                blocks = [block for block in blocks if len(block[0]) - len(block[0].lstrip()) < indent]
                current = None
                if re.match(r"(module|mutual)\b", bare):
                    start = at - 1
                    while bare != "mutual" and not lines[at - 1].endswith("where"):
                        at += 1
                    blocks = blocks + [comment + lines[start:at]]
                elif found and not re.match(r"pub (mod|use|ruleset)\b", bare):
                    current = Definition(found, line, comment, blocks, group)
                    self.definitions[current.name] = current
                comment = []

    def named(self, word):
        """Returns the name of the definition of this file to which the word belongs."""
        return word if word in self.definitions else self.cases.get(word)

    def words(self, name):
        """Gives the names in a definition: each word that this file has or imports, by the library and the name
        there."""
        for word in sorted(words_of("\n".join(self.definitions[name].code))):
            if word in self.uses or self.named(word):
                yield self.uses.get(word, (self.library, word))


def shown(definition, before=(), comment=(), is_stated=False):
    """Returns the lines of a definition as the sources have them, or the statement of a lemma.

    The first lines of the modules around it come first, without the modules that were shown with the one before.
    """
    modules = [line for block in definition.blocks if block not in before for line in block]
    code = definition.first_lines() if is_stated and definition.is_lemma else definition.code
    return [*modules, *comment, *code]


def imports(pattern, text):
    """Returns the names that the lines of some form bring in, with the library and the name there of each."""
    found = {}
    for library, names in re.findall(pattern, text, re.M):
        for name in re.split(r",\s*", names.strip().rstrip(",")):
            found[name.split(" as ")[-1]] = (library, name.split(" as ")[0])
    return found


def words_of(text):
    """Returns the words of a text of definitions or contracts, without its comments, each once and in their order."""
    text = re.sub(r"--.*", "", text)
    return list(dict.fromkeys(re.findall(r"[^\s(){}\[\],.;:|]+", text)))


def read_files(kind="specs"):
    """Returns all files of definitions, or of lemmas, by their libraries."""
    files = [File(path) for path in sorted(glob.glob(f"crates/*/{kind}/*.antt"))]
    return {file.library: file for file in files}


def public_paths(kind):
    """Returns the path by which a crate above names a file, by its library.

    It is the path of a crate that hands the file on, if one does, and otherwise its own. A file that its crate keeps to
    itself has no path.
    """
    own, handed_on = {}, {}
    for path in sorted(glob.glob(f"crates/*/{kind}/Lib.antt")):
        crate = path.split("/")[1]
        with open(path, encoding="utf-8") as opened:
            text = opened.read()
        for name in re.findall(r"^pub mod (\w+)$", text, re.M):
            own[f"{crate}.{kind}.{name}"] = f"Rattle.{crate}.{kind}.{name}"
        for library, name in re.findall(r"^pub use Rattle\.([\w.]+\.(\w+))$", text, re.M):
            handed_on[library] = f"Rattle.{crate}.{kind}.{name}"
    return own | handed_on


def public_names(files, paths):
    """Returns the path by which a crate above names a definition, by its library and its name.

    A path of `ciborium_ll` is the first choice, also if another file of it hands the name on.
    """
    found = {}
    for library, file in files.items():
        names = {name: (library, name) for name, definition in file.definitions.items() if definition.is_public}
        for key in [*names.values(), *file.hands_on.values()]:
            path = paths.get(library)
            if path and (key not in found or path.startswith("Rattle.ciborium_ll.") > found[key].startswith(
                    "Rattle.ciborium_ll.")):
                found[key] = path
    return found


def origin(files, library, word):
    """Returns the library and the name there of a name that a library hands on, or has itself."""
    while library in files and word in files[library].hands_on:
        library, word = files[library].hands_on[word]
    return library, word


def needed(files, start):
    """Returns the definitions that some words need, each given by its library and its name, by their files."""
    found, todo = {}, list(start)
    while todo:
        library, word = origin(files, *todo.pop())
        if library not in files:
            continue
        name = files[library].named(word)
        if name is None:
            sys.exit(f"{library} has no definition of {word}")
        if name not in found.setdefault(library, set()):
            found[library].add(name)
            todo += files[library].words(name)
    return found
