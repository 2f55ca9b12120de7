"""Reads what the crates promise: the definitions of specs/, and of src/ the types, traits and functions with their clauses.

A name is followed through `use` to the definition that it means, and on from there. What std and the toolchain's crates
define isn't read, and no proof is. Names that a definition binds itself, as arguments or in patterns, aren't followed.
"""
import collections.abc
import dataclasses
import pathlib
import re
import typing

# A word of a statement, with the dot before it if it is a field, or a name behind a module's.
WORD = re.compile(r"(\.?)([^\s(){}\[\],;.]+)")
# Where a statement binds names: (x y : A), λ x y. .., let x .., and an arm's pattern.
BOUND = re.compile(r"[({]\s*((?:[^\s(){}\[\]:,;.]+\s+)+):\s")
LAMBDA = re.compile(r"λ\s+([^().]+)\.\s")
LET = re.compile(r"\blet\s+([^\s:=]+)\s")
ARM = re.compile(r"(?:^|[|\[])([^|\[\]↦]+)↦", re.MULTILINE)
MODULE = re.compile(r"module _ (.*?)\s*where$", re.DOTALL)
HEAD = re.compile(r"((?:abbrev |unfoldable |pub )*)(?:(record|data) )?(\S+)")
# A part of a file of code, or of a block whose parts have this many blanks before them.
PART = (
    r"^ {%d}((?:pub(?:\(\w+\))? )?(?:(?:unsafe|final|const|extern \"\s*\") )*"
    r"(fn|struct|enum|trait|impl|type|mod|ghost use|use|ghost|const|static))\b"
)
# Modules of what the toolchain makes of the code: its types, constants, and the variants and fields of a type.
OF_CODE = re.compile(r"\.specs\.(declared|contracts)\.")
PLAIN_OF_STD = set("ℕ Bool true false List Option Some None Result Ok Err Unit ⊤ ⊥".split())
CLAUSE = re.compile(r"\b(requires|ensures)(?: (\w+))?\s*$")
CODE_TEXT = re.compile(r"\"(?:\\[\s\S]|[^\"\\])*\"|'(?:\\.[^'\n]*|[^'\\\n])'|//[^\n]*")
SPEC_TEXT = re.compile(r"\"(?:\\.|[^\"\\])*\"|(?:(?<=\s)|^)--[^\n]*", re.MULTILINE)


class Key(typing.NamedTuple):
    """Where a definition is: its file, below the folder of the crates, and its name."""

    file: str
    name: str

    @property
    def crate(self) -> str:
        return self.file.split("/")[0]

    @property
    def is_spec(self) -> bool:
        """Whether it is of specs/, and no type or trait of the code."""
        return self.file.endswith(".antt")


class Scope:
    """What names mean in a file or a block: imported ones as (module, name there), and modules by their short names."""

    def __init__(self, own: str, outer: "Scope | None" = None) -> None:
        self.own = own
        self.names: dict[str, tuple[str, str]] = dict(outer.names) if outer else {}
        self.modules: dict[str, str] = dict(outer.modules) if outer else {}

    def read(self, line: str) -> None:
        """Takes an import: `use M.{a, b as c}`, `use M as m` or `use M`."""
        tail = re.sub(r"^(pub |ghost )?use ", "", " ".join(line.split())).rstrip("; ")
        path, braces, names = tail.partition(".{")
        for name in names.rstrip(" }").split(",") if braces else []:
            there, _, here = name.strip().partition(" as ")
            self.names[here or there] = (path, there)
        if not braces:
            path, _, short = tail.partition(" as ")
            self.modules[short or path.split(".")[-1]] = path


@dataclasses.dataclass
class Definition:
    """A definition of specs/, or a type or a trait of src/.

    `lines` are its lines of the file but comments and blank ones, `inner` the names of its constructors, `patterns` what is
    left of `=` in its equations, and `types` the names of code that it has.
    """

    key: Key
    kind: str
    lines: list[str]
    scope: Scope
    inner: set[str] = dataclasses.field(default_factory=set)
    patterns: list[str] = dataclasses.field(default_factory=list)
    types: set[str] = dataclasses.field(default_factory=set)

    def told(self) -> list[str]:
        """Its lines with single blanks. A line that only continues another one is joined to it."""
        found: list[str] = []
        margin = min((margin_of(line) for line in self.lines[1:] if line.startswith(" ")), default=0)
        for line in self.lines:
            deep, text = margin_of(line), " ".join(line.split())
            is_new = deep == margin if deep and self.kind in ("record", "data", "code") else text[0] == "|"
            if not found or is_new or deep == 0 and text[0] not in "]})":
                found.append("  " * bool(deep) + text)
            else:
                found[-1] += " " + text
        return found


@dataclasses.dataclass
class Function:
    """A function of src/, in a block or in none. `clauses` are (requires or ensures, name or nothing, statement).

    It is open if it is `pub`, or a trait's with clauses.
    """

    file: str
    owner: str
    block: str
    signature: str
    name: str
    clauses: list[tuple[str, str, str]]
    scope: Scope
    is_open: bool

    @property
    def crate(self) -> str:
        return self.file.split("/")[0]

    @property
    def title(self) -> str:
        return "::".join(filter(None, [self.crate, self.owner, self.name]))

    @property
    def root(self) -> str:
        """By what it is reached: its type or trait, or its own name."""
        return self.owner or self.name

    def told(self) -> list[str]:
        """Its block, its signature and its clauses, a line each."""
        clauses = [f"  {word} {name + ' ' if name else ''}{{ {text} }}" for word, name, text in self.clauses]
        return [*filter(None, [self.block]), self.signature, *clauses]


def margin_of(line: str) -> int:
    return len(line) - len(line.lstrip(" "))


def without_comments(text: str, pattern: re.Pattern[str], keeps_texts: bool) -> str:
    """The text with blanks for its comments, and unless it keeps them for what is quoted; all places stay as they are."""

    def blank(found: re.Match[str]) -> str:
        if found[0][0] not in "\"'":
            return " " * len(found[0])
        return found[0] if keeps_texts else re.sub(r"[^\n]", " ", found[0][1:-1]).join([found[0][0], found[0][-1]])

    return pattern.sub(blank, text)


class Specs:
    """A file of definitions: these by their names, and what it imports."""

    def __init__(self, file: str, text: str) -> None:
        own = "Rattle." + file.removesuffix(".antt").replace("/", ".")
        self.file, self.scope = file, Scope(own)
        self.found: dict[str, Definition] = {}
        self.inner: dict[str, str] = {}
        self.last: Definition | None = None
        self.read(without_comments(text, SPEC_TEXT, True).split("\n"))
        for each in self.found.values():
            self.inner.update({name: each.key.name for name in each.inner})

    def read(self, lines: list[str]) -> None:
        """Goes through chunks: a line at the left margin, with those further in and the brackets that close it."""
        chunk: list[str] = []
        for line in [*filter(str.strip, (line.rstrip() for line in lines)), "end"]:
            if chunk and margin_of(line) == 0 and line[0] not in "]})|":
                self.take(chunk)
                chunk = []
            chunk.append(line)

    def take(self, chunk: list[str]) -> None:
        first, text = chunk[0], "\n".join(chunk)
        if re.match(r"(pub )?use ", first):
            self.scope.read(text)
        elif re.match(r"module _ ", first):
            inner = [line for line in chunk if margin_of(line)]
            self.last = None
            before = set(self.found)
            self.read([line[margin_of(inner[0]) :] for line in inner])
            for name in set(self.found) - before:
                self.found[name].lines.insert(0, first)
        elif re.match(r"pub mod |infix|prefix|unfolding ", first):
            return
        elif re.match(r"(abbrev |unfoldable |pub )*(record|data) |(abbrev |unfoldable |pub )*\S+\s+:\s", first):
            self.begin(chunk)
        elif self.last:
            self.last.lines += chunk
            self.last.patterns.append(text.partition(" =")[0])

    def begin(self, chunk: list[str]) -> None:
        """A definition's first chunk: a whole record or data, or a signature that equations follow."""
        head = HEAD.match(chunk[0])
        assert head
        kind = head[2] or "function"
        made = Definition(Key(self.file, head[3]), kind, list(chunk), self.scope)
        if kind == "data":
            made.inner = {line.split()[0] for line in chunk[1:] if margin_of(line) == margin_of(chunk[1])}
        self.found[head[3]] = self.last = made


def closing(bare: str, opened: int) -> int:
    """The place behind the brace that closes the one at a place."""
    depth = 0
    for found in re.compile(r"[{}]").finditer(bare, opened):
        depth += 1 if found[0] == "{" else -1
        if depth == 0:
            return found.end()
    raise ValueError(f"a brace isn't closed: {bare[opened:opened + 80]!r}")


class Part(typing.NamedTuple):
    """A part of code: its kind, where it begins and ends, where its head ends, and the places of its clauses' braces."""

    kind: str
    begin: int
    end: int
    head: int
    clauses: list[tuple[int, int]]


def parts(bare: str, begin: int, end: int, blanks: int) -> collections.abc.Iterator[Part]:
    """The parts of a file of code, or of a block of it."""
    pattern, place = re.compile(PART % blanks, re.MULTILINE), begin
    while found := pattern.search(bare, place, end):
        part = part_at(bare, found.end(), found[2], found.start(1))
        yield part
        place = part.end


def part_at(bare: str, place: int, kind: str, begin: int) -> Part:
    """The part that begins there: to its first `;` outside of brackets, or to the brace that closes its body."""
    clauses: list[tuple[int, int]] = []
    head, depth = 0, 0
    while found := re.compile(r"[()\[\]{};]").search(bare, place):
        place, sign = found.end(), found[0]
        if sign in "()[]":
            depth += 1 if sign in "([" else -1
        elif sign == "{" and depth == 0:
            place = closing(bare, found.start())
            if kind == "fn" and CLAUSE.search(bare, begin, found.start()):
                clauses.append((found.start(), place))
                head = head or found.start()
            elif kind not in ("use", "ghost use", "ghost", "const", "static", "type"):
                return Part(kind, begin, place, head or found.start(), clauses)
        elif sign == ";" and depth == 0:
            return Part(kind, begin, place, head or found.start(), clauses)
    raise ValueError(f"a part doesn't end: {bare[begin:begin + 80]!r}")


class Code:
    """A file of code: its types and traits by their names, and its functions and impls that have clauses or ghost items."""

    def __init__(self, file: str, text: str) -> None:
        self.file, self.text = file, without_comments(text, CODE_TEXT, True)
        self.bare = without_comments(text, CODE_TEXT, False)
        self.scope = Scope("Rattle." + file.split("/")[0])
        self.found: dict[str, Definition] = {}
        self.functions: list[Function] = []
        # impls of Model, and of other traits that have ghost items, with the names of their types
        self.models: list[tuple[str, Definition]] = []
        self.impls: list[tuple[str, Definition]] = []
        # from which crate an imported name is, and the names that `pub use` passes on
        self.crates: dict[str, str] = {}
        self.passed_on: set[str] = set()
        everything = list(parts(self.bare, 0, len(self.bare), 0))
        for part in everything:
            self.imports(part, self.scope)
        for part in everything:
            if part.kind in ("struct", "enum", "trait", "type", "const"):
                self.type(part)
            elif part.kind == "impl":
                self.block(part)
            elif part.kind == "fn":
                self.function(part, "", "", self.scope, False)

    def own_functions(self) -> set[str]:
        return {each.name for each in self.functions if not each.owner}

    def piece(self, begin: int, end: int) -> str:
        """A part of the text on one line, as if it were written on one."""
        return re.sub(r",? (?=\))", "", " ".join(self.text[begin:end].split()).replace("( ", "("))

    def imports(self, part: Part, scope: Scope) -> None:
        """Takes `ghost use`, and of `use` from which crate a name comes."""
        line = self.piece(part.begin, part.end)
        if part.kind == "ghost use":
            scope.read(line)
        elif part.kind == "use":
            first = re.sub(r"^(pub(\(\w+\))? )?use ", "", line).split("::")[0]
            self.crates.update({name: first for name in re.findall(r"\b[A-Z]\w*", line)})
            if line.startswith("pub "):
                self.passed_on.update(re.findall(r"\w+", line))

    def function(self, part: Part, owner: str, block: str, scope: Scope, is_open: bool) -> None:
        signature = CLAUSE.sub("", self.piece(part.begin, part.head)).rstrip("; ")
        name = re.search(r"\bfn (\w+)", signature)
        clauses = []
        for begin, end in part.clauses:
            word = CLAUSE.search(self.bare, max(part.begin, begin - 200), begin)
            if word:
                clauses.append((word[1], word[2] or "", self.piece(begin + 1, end - 1)))
        is_open = is_open and bool(clauses) or signature.startswith("pub ")
        title = name[1] if name else ""
        self.functions.append(Function(self.file, owner, block, signature, title, clauses, scope, is_open))

    def type(self, part: Part) -> None:
        """A type, trait or constant. A field of a struct is a line, and so is each variant, or item of a trait."""
        is_block = part.kind not in ("const", "type") and self.bare[part.head] == "{"
        head = self.piece(part.begin, part.head if is_block else part.end).rstrip("; ")
        name = re.search(r"\b(?:struct|enum|trait|type|const) (\w+)", head)
        assert name
        lines, inner, scope = [head], set[str](), self.scope
        if is_block:
            scope = Scope(self.scope.own, self.scope)
            lines += self.items(part, scope, name[1]) if part.kind == "trait" else self.fields(part)
            inner = {line.split("(")[0].split()[0].rstrip(",") for line in lines[1:]} if part.kind == "enum" else inner
        made = Definition(Key(self.file, name[1]), "code", lines, scope, inner)
        made.types = set(re.findall(r"\b[A-Z]\w*", "\n".join(lines))) - {name[1]}
        self.found[name[1]] = made

    def fields(self, part: Part) -> list[str]:
        """The fields or variants, a line each, without attributes."""
        inner, depth, begin = [], 0, part.head + 1
        for place in range(part.head + 1, part.end):
            sign = self.bare[place]
            is_arrow = self.bare[place - 1] in "-="
            depth += (sign in "({[<") - (sign in ")}]" or sign == ">" and not is_arrow)
            if sign == "," and depth == 0 or place == part.end - 1:
                text = re.sub(r"#\[[^\]]*\]\s*", "", self.piece(begin, place))
                inner += ["    " + text] if text else []
                begin = place + 1
        return inner

    def items(self, part: Part, scope: Scope, owner: str) -> list[str]:
        """The ghost items of a block, a line each; its functions are taken beside them."""
        lines, inner = [], list(parts(self.bare, part.head + 1, part.end - 1, 4))
        for each in inner:
            self.imports(each, scope)
        head = self.piece(part.begin, part.head)
        is_open = part.kind == "trait" or bool(re.search(r"\bfor\b", head))
        for each in inner:
            if each.kind in ("ghost", "type", "const"):
                lines.append("    " + self.piece(each.begin, each.end).rstrip(";"))
            elif each.kind == "fn":
                self.function(each, owner, head, scope, is_open)
        return lines

    def block(self, part: Part) -> None:
        """An impl: the functions of a type, or those of a trait for it with their ghost items."""
        head = self.piece(part.begin, part.head)
        trait, _, owner = re.sub(r"^(unsafe )?impl\s*(<(?:[^<>]|<[^<>]*>)*>)?\s*", "", head).rpartition(" for ")
        name = re.search(r"\w+", re.sub(r"&(?:'\w+ )?(?:mut )?", "", owner))
        scope = Scope(self.scope.own, self.scope)
        lines = self.items(part, scope, name[0] if name else owner)
        if trait and name and any(line.startswith("    ghost ") for line in lines):
            made = Definition(Key(self.file, head), "code", [head, *lines], scope)
            made.types = set(re.findall(r"\b[A-Z]\w*", head))
            (self.models if trait == "Model" else self.impls).append((name[0], made))


class Sources:
    """All that the crates of a repository define. Those of tests promise nothing."""

    def __init__(self, root: pathlib.Path) -> None:
        self.specs: dict[str, Specs] = {}
        self.code: dict[str, Code] = {}
        self.types: dict[str, dict[str, Definition]] = {}
        self.models: dict[Key, Definition] = {}
        # imports of the repository's own modules that lead to no definition, as (file, module, name)
        self.astray: set[tuple[str, str, str]] = set()
        crates = root / "crates"
        for path in sorted(crates.glob("*/s*/**/*")):
            file = str(path.relative_to(crates))
            if path.suffix == ".antt" and file.split("/")[1] == "specs":
                made = Specs(file, path.read_text(encoding="utf-8"))
                self.specs[made.scope.own] = made
            elif path.suffix == ".rt" and file.split("/")[1] == "src":
                self.code[file] = Code(file, path.read_text(encoding="utf-8"))
        for code in self.code.values():
            self.types.setdefault(code.file.split("/")[0], {}).update(code.found)
        for code in self.code.values():
            for name, model in code.models:
                owner = self.type(code, name)
                if owner:
                    self.models[owner.key] = model

    def functions(self) -> list[Function]:
        return [each for code in self.code.values() for each in code.functions]

    def public_functions(self) -> list[Function]:
        """Those that other crates can call, or C: a crate's root passes them on, or their types and traits."""
        found = [each for each in self.functions() if each.is_open]
        return [each for each in found if "extern " in each.signature or self.is_passed_on(each.crate, each.root)]

    def titles(self, each: Function) -> list[str]:
        """A function's title, and those by other names of its type."""
        pattern = re.compile(rf"pub type (\w+)(?:<.*?>)? = {each.owner or '-'}\b")
        aliases = [pattern.match(made.lines[0]) for made in self.types.get(each.crate, {}).values()]
        return [each.title, *(f"{each.crate}::{found[1]}::{each.name}" for found in aliases if found)]

    def public_impls(self) -> list[tuple[str, Definition]]:
        """What the types that a crate passes on have of traits, by ghost items, with the type's title."""
        both = [(code, *each) for code in self.code.values() for each in code.impls]
        found = [(code.file.split("/")[0], name, made) for code, name, made in both]
        return [(f"{crate}::{name}", made) for crate, name, made in found if self.is_passed_on(crate, name)]

    def is_passed_on(self, crate: str, name: str) -> bool:
        """Whether a crate's root has a name for other crates, and isn't one of tests."""
        if crate.startswith("test_"):
            return False
        roots = [self.code[file] for file in (f"{crate}/src/lib.rt", f"{crate}/src/main.rt") if file in self.code]
        return any(name in root.passed_on or name in root.found or name in root.own_functions() for root in roots)

    def definitions(self) -> list[Definition]:
        files: list[Specs | Code] = [*self.specs.values(), *self.code.values()]
        return [each for file in files for each in file.found.values()]

    def told(self, each: Definition) -> list[str]:
        """A definition's lines; of a type with a model, what a caller sees and what the model says."""
        model = self.models.get(each.key)
        if model is None:
            return each.told()
        seen = [" ".join(line.split()) for line in [*filter(is_public_line, each.lines), *ghosts(model.lines)]]
        return [seen[0], *("  " + line for line in seen[1:])]

    def definition(self, key: Key) -> Definition:
        if key.file in self.code:
            return self.code[key.file].found[key.name]
        return self.specs["Rattle." + key.file.removesuffix(".antt").replace("/", ".")].found[key.name]

    def type(self, code: Code, name: str) -> Definition | None:
        """The type that a name of a file of code means: of its own crate, or of the one that it is imported from."""
        own = code.file.split("/")[0]
        crate = code.crates.get(name, own)
        return self.types.get(own if crate in ("crate", "super", "self") else crate, {}).get(name)

    def lookup(self, module: str, name: str) -> Key | None:
        """The definition that a module of the repository has by this name, its own or one that it imports."""
        if OF_CODE.search(module):
            words = module.split(".")
            owner = {"TheConstants": name, "TheVariants": words[-2], "TheInside": words[-2]}.get(words[-1], words[-1])
            found = self.types.get(words[1], {}).get(owner)
            return found.key if found else None
        specs = self.specs.get(module)
        if specs is None:
            return None
        owner = specs.inner.get(name, name)
        if owner in specs.found:
            return specs.found[owner].key
        return self.lookup(*specs.scope.names[name]) if name in specs.scope.names else None

    def meaning(self, scope: Scope, name: str) -> Key | None:
        """The definition that a name means in a scope, where it is one of the repository's."""
        if name not in scope.names:
            return self.lookup(scope.own, name) if scope.own in self.specs else None
        module, there = scope.names[name]
        found = self.lookup(module, there)
        if found is None and self.is_own(module):
            self.astray.add((scope.own, module, there))
        return found

    def is_own(self, module: str) -> bool:
        """Whether a module is of the repository, and not of the toolchain."""
        words = module.split(".")
        return len(words) > 2 and words[0] == "Rattle" and words[1] in self.types and words[2] == "specs"

    def references(self, text: str, scope: Scope, patterns: collections.abc.Iterable[str] = ()) -> set[Key]:
        """The definitions that a statement names."""
        text = re.sub(r"\"(?:\\.|[^\"\\])*\"", '""', text)
        found, here, bound = set[Key](), set[str](), self.bound(text, scope, patterns)
        module = ""
        for match in WORD.finditer(text):
            is_field, word = match[1] == ".", match[2]
            if is_field and module:
                key = self.lookup(module, word)
                if key:
                    found.add(key)
                elif self.is_own(module):
                    self.astray.add((scope.own, module, word))
            elif not is_field:
                here.add(word)
            module = "" if is_field else scope.modules.get(word, "")
        for word in here - bound:
            found.update(filter(None, [self.meaning(scope, word)]))
        own = self.specs[scope.own].found if scope.own in self.specs else {}
        for name in [*scope.names, *own]:
            if "◌" in name and set(filter(None, name.split("◌"))) <= here:
                found.update(filter(None, [self.meaning(scope, name)]))
        return found

    def of_std(self, each: Definition) -> set[str]:
        """What a definition of specs/ names of std: functions and relations by their words, and no type of std or sign."""
        text = "\n".join(each.lines)
        words = {match[2] for match in WORD.finditer(re.sub(r"\"(?:\\.|[^\"\\])*\"", "", text)) if not match[1]}
        named = words - self.bound(text, each.scope, [*each.patterns, *fields_of(each)])
        found = (each.scope.names[word] for word in named if word in each.scope.names)
        return {name for module, name in found if module.startswith("Rattle.std.") and name not in PLAIN_OF_STD}

    def bound(self, text: str, scope: Scope, patterns: collections.abc.Iterable[str]) -> set[str]:
        """The names that a statement binds itself. A name in a pattern is bound unless it is a constructor."""
        found = set[str]()
        for pattern in (BOUND, LAMBDA, LET):
            for match in pattern.finditer(text):
                found.update(match[1].split())
        for each in [*patterns, *(match[1] for match in ARM.finditer(text))]:
            for match in WORD.finditer(each):
                if not match[1] and not self.is_constructor(scope, match[2]):
                    found.add(match[2])
        return found

    def is_constructor(self, scope: Scope, word: str) -> bool:
        module, name = scope.names.get(word, (scope.own, word))
        if not self.is_own(module):
            return True
        return bool(OF_CODE.search(module)) or module in self.specs and name in self.specs[module].inner

    def under(self, each: Definition) -> set[Key]:
        """The definitions that one names itself. A type with a model is what that says, and not its private fields."""
        found = self.references("\n".join(each.lines), each.scope, [*each.patterns, *fields_of(each)])
        code = self.code.get(each.key.file)
        if code:
            found = self.references("\n".join(ghosts(each.lines)), each.scope)
            lines = each.lines
            model = self.models.get(each.key)
            if model:
                found |= self.references("\n".join(ghosts(model.lines)), model.scope)
                lines = [line for line in lines if is_seen(line, model)]
            found |= self.named_types(code, "\n".join(lines))
        return found - {each.key}

    def named_types(self, code: Code, text: str) -> set[Key]:
        """The types of the repository that a text of code names."""
        found = (self.type(code, name) for name in set(re.findall(r"\b[A-Z]\w*", text)))
        return {each.key for each in found if each}

    def under_clauses(self, each: Function) -> set[Key]:
        """The definitions that a function's clauses name."""
        arguments = re.findall(r"\b(\w+):", each.signature)
        return self.references(" ; ".join(text for _, _, text in each.clauses), each.scope, arguments)

    def under_function(self, each: Function) -> set[Key]:
        """The definitions that a function's clauses name, and the types of its signature."""
        clauses = " ; ".join(text for _, _, text in each.clauses)
        words = set(re.findall(r"\b[A-Z]\w*", f"{clauses} {each.owner} {each.block} {each.signature}"))
        code = self.code[each.file]
        types = self.named_types(code, " ".join(words - set(each.scope.names))) | self.named_types(code, each.signature)
        return types | self.under_clauses(each)

    def closed(self, keys: collections.abc.Iterable[Key]) -> set[Key]:
        """These definitions and all that they rest on."""
        found, left = set[Key](), list(keys)
        while left:
            key = left.pop()
            if key not in found:
                found.add(key)
                left += self.under(self.definition(key)) - found
        return found


def ghosts(lines: list[str]) -> list[str]:
    """What a block of code says to the prover of what a caller sees: a model's invariant isn't."""
    return [line for line in lines if line.startswith("    ghost ") and not line.startswith("    ghost invariant")]


def fields_of(each: Definition) -> list[str]:
    """The names of a record's fields."""
    pattern = re.compile(r"\s+(?:pub )?(\S+) : ")
    return [found[1] for line in each.lines if each.kind == "record" and (found := pattern.match(line))]


def is_public_line(line: str) -> bool:
    """Whether a line of a struct is its head or a public field."""
    return not re.match(r"    (pub\(\w+\) )?\w+:", line)


def is_seen(line: str, model: Definition) -> bool:
    """Whether a line of a type with a model is seen through that: its head, a public field, or one that the view names."""
    name = re.match(r"    (pub )?(?:pub\(\w+\) )?(\w+):", line)
    return not name or bool(name[1]) or any(re.search(rf"\.{name[2]}\b", view) for view in ghosts(model.lines))
