"""The definitions of this repository's specs, and which of them a definition reaches. Names are found as the checker finds them: in the
file itself, or by the line that brings them in."""

import functools
import re
from pathlib import Path

CRATES = Path(__file__).resolve().parent.parent / "crates"
TOKEN = re.compile(r"[^\s(){}\[\],;⟦⟧⦃⦄\"]+")
USE = re.compile(r"(?:pub )?use (\S+?)(?:\.\{(.*)\})?(?: as (\S+))?\s*$", re.S)
HEAD = re.compile(r"(?:(?:abbrev|unfoldable|opaque|pub|record|data) +)*(\S+)")


class Unresolved(Exception):
    pass


class Definition:
    """A definition of a specs file, or an item of a source file: where it stands, its sentence and its lines."""

    def __init__(self, path, number, name, sentence):
        self.path, self.number, self.name, self.sentence, self.lines = path, number, name, sentence, []

    def text(self):
        where = f"-- {self.path.relative_to(CRATES.parent)}:{self.number}"
        return "\n".join([where, *self.sentence, *self.lines, ""])

    def size(self):
        return len(self.sentence) + len(self.lines)


def operator_of(line, names):
    """The operator that an equation or a type defines, of those named here."""
    for name in names:
        pieces = [piece for piece in name.split("◌") if piece]
        if "◌" in name and all(f" {piece} " in f" {line} " for piece in pieces):
            return name
    return None


class Module:
    """A specs file: what it brings in, and its definitions by name; constructors and fields stand for the type that has them."""

    def __init__(self, path):
        self.path, self.imports, self.modules, self.definitions, self.parts = path, {}, {}, {}, {}
        sentence, current, lines = [], None, path.read_text().split("\n")
        at = 0
        while at < len(lines):
            line = lines[at]
            if line.startswith("--"):
                sentence.append(line)
                current = None
            elif re.match(r"(pub )?use ", line):
                while line.count("{") > line.count("}"):
                    at += 1
                    line += " " + lines[at].strip()
                self.bring(line)
                sentence = []
            elif line[:1] == " " and current:
                current.lines.append(line)
                self.note_part(current, line)
            elif not line.strip() or re.match(r"(pub )?mod ", line) or line.startswith("infix"):
                sentence, current = ([], current) if line.strip() == "" else (sentence, None)
            else:
                current = self.define(line, at + 1, sentence)
                sentence = []
            at += 1

    def bring(self, line):
        path, names, alias = USE.match(line).groups()
        if names is None:
            self.modules[alias or path.split(".")[-1]] = path
            return
        for name in filter(None, (name.strip() for name in names.split(","))):
            own, _, other = name.partition(" as ")
            self.imports[(other or own).strip()] = (path, own.strip())

    def define(self, line, number, sentence):
        name = HEAD.match(line)[1]
        if name not in self.definitions and not re.match(r"(abbrev|unfoldable|opaque|pub|record|data) ", line):
            name = operator_of(line, self.definitions) or name
        if name not in self.definitions:
            self.definitions[name] = Definition(self.path, number, name, sentence)
        self.definitions[name].lines.append(line)
        return self.definitions[name]

    def note_part(self, definition, line):
        part = re.match(r"  (?:pub )?(\S+) :", line)
        if part:
            self.parts[part[1]] = definition

    def names(self):
        return set(self.definitions) | set(self.imports)


@functools.cache
def module(path):
    return Module(path)


@functools.cache
def item(crate, file, name):
    """An item of a source file with its doc comment: a type or a constant."""
    for path in (CRATES / crate / "src" / f"{file}.rt", CRATES / crate / "src" / file / "mod.rt", CRATES / crate / "src/lib.rt"):
        lines = path.read_text().split("\n") if path.exists() else []
        for at, line in enumerate(lines):
            if re.match(rf"\s*(pub(\(crate\))? )?(struct|enum|trait|type|const|union) {name}\b", line):
                return whole_item(path, name, lines, at)
    return None


def whole_item(path, name, lines, at):
    first = at
    while first and re.match(r"\s*(///|#\[)", lines[first - 1]):
        first -= 1
    found = Definition(path, at + 1, name, lines[first:at])
    depth = 0
    for line in lines[at:]:
        found.lines.append(line)
        depth += line.count("{") - line.count("}") + line.count("(") - line.count(")")
        if depth <= 0 and re.search(r"[;}]\s*$", line):
            break
    return found


def resolve(path, name):
    """What a path of the repository and a name stand for; None for what isn't of this repository, or a name of the toolchain's making."""
    parts = path.split(".")
    if parts[0] != "Rattle" or not (CRATES / parts[1]).is_dir():
        return None
    crate, rest = parts[1], parts[3:]
    if rest[:1] == ["declared"]:
        file = "/".join(word for word in rest[1:] if word[0].islower())
        types = [word for word in rest[1:] + [name] if word[0].isupper() and not word.startswith("The")]
        found = item(crate, file, types[0] if types else name)
        if found is None:
            raise Unresolved(f"no {path}.{name}")
        return found
    for cut in range(len(rest), 0, -1):
        file = CRATES.joinpath(crate, "specs", *rest[:cut]).with_suffix(".antt")
        if file.exists():
            return look_up(module(file), rest[cut] if rest[cut:] else name)
    raise Unresolved(f"no {path}.{name}")


def look_up(here, name):
    if name in here.definitions:
        return here.definitions[name]
    if name in here.imports:
        return resolve(*here.imports[name])
    if name in here.parts:
        return here.parts[name]
    raise Unresolved(f"no {name} in {here.path.relative_to(CRATES)}")


def equations(lines):
    found = []
    for line in lines:
        if line[:1] != " " or not found:
            found.append([])
        found[-1].append(line)
    return ["\n".join(lines) for lines in found]


def bound_in(text, definition):
    """The variables of an equation or a type: of patterns, of binders, of lambdas, and the fields of a record."""
    bound = set(re.findall(r"^\s+pub (\S+) :", text, re.M)) | set(re.findall(r"\blet (\S+)", text))
    if not re.match(r"(abbrev|unfoldable|opaque|pub|record|data)\b", text):
        left = re.split(r"\s=(?:\s|$)", text, maxsplit=1)[0]
        bound |= {token for token in TOKEN.findall(left) if token[0].islower()} - {definition.name}
    for names in re.findall(r"[({]([^(){}:]+?)\s*:\s", text) + re.findall(r"λ\s+([^.]+)\.", text):
        bound |= {token for token in TOKEN.findall(names) if token[0].islower()}
    return bound


def words_of(text, here, definition=None):
    """The names of a module that stand in a text and aren't variables there."""
    text = re.sub(r"--.*", "", re.sub(r'"[^"]*"', '""', text))
    bound = bound_in(text, definition) if definition else set()
    names = here.names()
    operators = {}
    for name in names:
        for piece in filter(None, name.split("◌") if "◌" in name else []):
            operators.setdefault(piece, []).append(name)
    for token in TOKEN.findall(text):
        head, _, behind = token.rstrip(".").partition(".")
        if head in here.modules and behind:
            yield resolve(here.modules[head], behind.split(".")[0])
        elif head not in bound and head in names:
            yield look_up(here, head)
        for name in operators.get(token, []):
            yield look_up(here, name)


@functools.cache
def named_items(crate):
    """The types of a crate's source files by their names."""
    found = {}
    for path in sorted((CRATES / crate / "src").rglob("*.rt")):
        lines = path.read_text().split("\n")
        for at, line in enumerate(lines):
            begins = re.match(r"pub(?:\(crate\))? (?:struct|enum|type|union) (\w+)\b", line)
            if begins:
                found.setdefault(begins[1], []).append(whole_item(path, begins[1], lines, at))
    return found


def types_in(definition):
    """The types of this repository that stand in a type of a source file: those of its file, of its crate, or of a crate that it uses."""
    source, crate = definition.path.read_text(), definition.path.relative_to(CRATES).parts[0]
    used = {}
    for path, names in re.findall(r"^use ([\w:]+)::(?:\{([^}]*)\}|(?=\w+;))", source, re.M):
        for name in filter(None, (name.strip() for name in names.split(","))):
            used[name] = path
    for path, name in re.findall(r"^use ([\w:]+)::(\w+);", source, re.M):
        used[name] = path
    for word in dict.fromkeys(re.findall(r"\b[A-Z]\w*", re.sub(r"//.*", "", "\n".join(definition.lines)))):
        home = used.get(word, "crate").split("::")[0]
        home = crate if home in ("crate", "super", "self") else home
        if (CRATES / home).is_dir():
            items = named_items(home).get(word, [])
            own = [it for it in items if it.path == definition.path] or items
            if len(own) == 1 and own[0].lines != definition.lines:
                yield item(home, str(own[0].path.relative_to(CRATES / home / "src").with_suffix("")), word) or own[0]


@functools.cache
def reached_at_once(definition, keeps=None):
    """What a definition names, in all its equations or in those that are kept; of a type of a source file, the types that stand in it."""
    if definition.path.suffix == ".rt":
        return list(dict.fromkeys(types_in(definition)))
    here = module(definition.path)
    kept = [text for text in equations(definition.lines) if keeps is None or keeps(definition, text)]
    found = [word for text in kept for word in words_of(text, here, definition)]
    return [word for word in dict.fromkeys(found) if word and word is not definition]


def closure(roots, keeps=None):
    """All that is reached, each before what reaches it, by all equations or by those that are kept."""
    order, seen, work = [], set(), [(root, False) for root in reversed(roots)]
    while work:
        definition, done = work.pop()
        if done:
            order.append(definition)
        elif definition not in seen:
            seen.add(definition)
            work.append((definition, True))
            work += [(word, False) for word in reversed(reached_at_once(definition, keeps)) if word not in seen]
    return order
