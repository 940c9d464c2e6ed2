"""Reads the public items in crates/*/src, for `reference`: signatures, comments and contracts, by their modules."""
import os
import re

from definitions import imports


class Item:
    """A public item, with its functions by the header of their impl, and its impls of traits.

    It has the clauses that it has for contracts alone, each with the meanings of the names in it in that file. It also
    has the meanings of the names in its own clauses.
    """

    def __init__(self, name, docs, code, clauses=()):
        self.name, self.docs, self.code, self.clauses = name, docs, code, list(clauses)
        self.members, self.impls, self.anchor, self.ghosts, self.names = [], [], None, [], {}


class Module:
    """A file of code: its own declarations and those below it, and the paths that it hands on by `pub use`."""

    def __init__(self, path, public):
        self.path, self.public = path, public
        self.docs, self.items, self.impls, self.modules, self.uses, self.ghost_uses = [], [], [], [], [], {}


def read_text(path):
    with open(path, encoding="utf-8") as opened:
        return opened.read()


def text_of(lines, indent):
    """Returns lines without an indent."""
    return [line[indent:] if line[:indent].isspace() else line for line in lines]


def take_comments(lines):
    """Returns the text of the comments of some lines."""
    return [re.sub(r"^ *//[/!] ?", "", line) for line in lines]


def take_until(lines, at, ends):
    """Returns the lines up to the first one that ends so, and the place after it."""
    start = at
    while not ends(lines[at]):
        at += 1
    return lines[start:at + 1], at + 1


def take_statement(lines, at):
    """Returns the lines up to a semicolon that stands in no braces, and the place after it."""
    start, depth = at, 0
    while True:
        depth += lines[at].count("{") - lines[at].count("}")
        at += 1
        if depth == 0 and lines[at - 1].endswith(";"):
            return lines[start:at], at


def take_body(lines, at, indent):
    """Returns the place after the brace that closes the block with this indent."""
    return take_until(lines, at, lambda line: line == " " * indent + "}")[1]


def take_function(lines, at, indent):
    """Returns the signature of a function, its clauses, and the place after it."""
    pad, signature, clauses = " " * indent, [], []
    part = signature
    while True:
        line = lines[at]
        at += 1
        if line.endswith("{}") and (line == pad + "{}" or part is signature):
            return signature + [line[:-3]] * (line != pad + "{}"), clauses, at
        if line == pad + "{":
            return signature, clauses, take_body(lines, at, indent)
        if re.match(r" *(requires\b|ensures\b|ghost\b|//)", line):
            part = clauses
        if part is signature and line.endswith("{"):
            return signature + [line[:-1].rstrip()], clauses, take_body(lines, at, indent)
        part.append(line)
        if line.endswith(";") and "".join(clauses).count("{") == "".join(clauses).count("}"):
            part[-1] = line[:-1]
            return signature, clauses, at


def take_members(lines, public):
    """Returns the functions in the lines of a trait or an impl, and all other statements except `ghost use`."""
    functions, rest, docs, at = [], [], [], 0
    while at < len(lines):
        line = lines[at]
        if line.startswith("    ///"):
            docs.append(line)
            at += 1
        elif re.match(r"    (pub(\([a-z]+\))? )?(const )?fn ", line):
            signature, clauses, at = take_function(lines, at, 4)
            if not public or line.startswith("    pub "):
                name = re.search(r"\bfn (\w+)", signature[0])[1]
                functions.append(Item(name, take_comments(docs), text_of(signature, 4), text_of(clauses, 8)))
            docs = []
        elif line.strip() == "" or line.startswith("    #[") or line.startswith("    //"):
            at += 1
        else:
            said, at = take_statement(lines, at)
            if not line.startswith("    ghost use"):
                rest += [""] * bool(docs and rest) + text_of(docs + said, 4)
            docs = []
    return functions, rest


def take_parts(lines, kind):
    """Returns the variants of an enum, or the public fields of a struct, with their comments."""
    parts, docs, at = [], [], 0
    while at < len(lines):
        line = lines[at]
        at += 1
        if line.startswith("    ///"):
            docs.append(line)
        elif kind == "enum" and line.strip():
            parts += docs + [line]
            docs = []
        elif kind == "struct" and re.match(r"    pub (?!\()", line):
            said, at = take_until(lines, at - 1, lambda line: line.endswith(","))
            parts += docs + said
            docs = []
        else:
            docs = []
    return parts


def read_code(path, file, public=True, text=None):
    """Returns the module of a file, with those below it. The text is that of the file if none is given."""
    module = Module(path, public)
    text = read_text(file) if text is None else text
    lines = text.split("\n")
    module.ghost_uses = imports(r"^ *ghost use Rattle\.([\w.]+)\.\{([^}]*)\};$", text)
    below = os.path.join(os.path.dirname(file), "" if file.endswith("lib.rt") else os.path.basename(file)[:-3])
    docs, attributes, at = [], [], 0
    while at < len(lines):
        line = lines[at]
        if line.startswith("//!"):
            module.docs += take_comments([line])
            at += 1
            continue
        if line.startswith("///") or line.startswith("#["):
            (docs if line.startswith("///") else attributes).append(line)
            at += 1
            continue
        if line.startswith("//"):
            at += 1
            continue
        found = re.match(r"(pub )?mod (\w+);", line)
        if found and "#[cfg(test)]" not in attributes:
            module.modules.append(read_code(path + [found[2]], os.path.join(below, found[2] + ".rt"), bool(found[1])))
            at += 1
        elif line.startswith("pub use "):
            said, at = take_statement(lines, at)
            start, names = re.match(r"pub use ([\w:]+?)(?:::\{(.*)\})?;", "".join(said)).groups()
            module.uses += [f"{start}::{name}" for name in re.findall(r"\w+", names)] if names else [start]
        elif re.match(r"impl\b", line):
            header, at = take_until(lines, at, lambda line: line.endswith("{") or line.endswith("{}"))
            whole = re.sub(r" ?\{\}?$", "", " ".join(part.strip() for part in header))
            end = at if header[-1].endswith("{}") else take_body(lines, at, 0)
            module.impls.append((whole, take_comments(docs), lines[at:end - 1]))
            at = end
        elif line.startswith("pub "):
            start = at
            item, at = take_item(lines, at, take_comments(docs))
            own = [clause for _, functions in item.members for function in functions for clause in function.clauses]
            own += [told for told in lines[start:at] if re.match(r" *ghost (?!use)", told)]
            item.ghosts.append((item.clauses + own, module.ghost_uses))
            for function in [item] + [function for _, functions in item.members for function in functions]:
                function.names = module.ghost_uses
            item.code[:0] = [told for told in attributes if re.match(r"#\[(derive|repr)\b", told)]
            module.items.append(item)
        else:
            at += 1
        if line.strip():
            docs, attributes = [], []
    return module


def take_item(lines, at, docs):
    """Returns a public item, and the place after it. For private fields it only says that there are some."""
    line = lines[at]
    kind, name = re.match(r'pub (?:const (?=fn)|extern "C" )*(\w+) (\w+)', line).groups()
    if kind == "fn":
        signature, clauses, at = take_function(lines, at, 0)
        return Item(name, docs, signature, text_of(clauses, 4)), at
    if not line.endswith("{"):
        said, at = take_statement(lines, at)
        return Item(name, docs, [re.sub(r"\(.*\);$", "(..);", said[0]), *said[1:]]), at
    end = take_body(lines, at, 0)
    body = lines[at + 1:end - 1]
    functions, parts = [], []
    if kind == "trait":
        functions, parts = take_members(body, False)
        parts = ["    " * bool(part) + part for part in parts]
    else:
        parts = take_parts(body, kind)
    item = Item(name, docs, [line, *parts, "}"] if parts else [line[:-2] if kind == "trait" else line + " .. }"])
    item.members = [(None, functions)]
    return item, end


def all_modules(module):
    """Gives a module and those below it."""
    yield module
    for below in module.modules:
        yield from all_modules(below)


def type_of(header):
    """Returns the name of the type to which an impl belongs."""
    at, depth = 4, 0
    while at < len(header) and (depth or header[at] != " "):
        depth += {"<": 1, ">": -1}.get(header[at], 0) if header[at - 1:at + 1] != "->" else 0
        at += 1
    return re.match(r"(?:.* for )?(?:\w+::)*(\w+)", header[at + 1:])[1]


def bind_impls(crate):
    """Gives each impl of a public type to it: methods, and impls of traits."""
    types = {}
    for module in all_modules(crate):
        for item in module.items:
            types.setdefault(item.name, []).append((module, item))
    away = {item: [] for found in types.values() for _, item in found}
    for module in all_modules(crate):
        for header, docs, body in module.impls:
            found = types.get(type_of(header), [])
            # If the crate has two types of the name, the impl belongs to the one of the same file.
            for home, item in sorted(found, key=lambda pair: pair[0] is not module)[:1]:
                functions, rest = take_members(body, " for " not in header)
                own = [clause for function in functions for clause in function.clauses]
                item.ghosts.append((own + rest, module.ghost_uses))
                for function in functions:
                    function.names = module.ghost_uses
                if " for " in header:
                    item.impls.append((header, docs, functions, rest))
                elif functions:
                    (item.members if home is module else away[item]).append((header, functions))
    # Impls in other files than their type come last.
    for item, members in away.items():
        item.members += members
