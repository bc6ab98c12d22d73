"""Reads the sources of the crates as definitions, for bin/statement and for the checks of documents and of edits: what each file of specs/ and of src/
defines, with the comment above it, and to what a text in such a file refers.

An item is a definition of a file of specs/ (an abbreviation, a record, a data type), or a struct, an enum or a trait of src/, with its contracts and its
Model. It is known by its own name and by those of its constructors or of its ghost members. A name refers to nothing where a binder, a pattern, a
field or a `let` around it has it. What comes from libraries of the toolchain is no item."""
import re
from functools import cache
from pathlib import Path

WORD = r"[^\W\d][\w'²]*(?:-[\w'²]+)*"
TOKEN = re.compile(rf'"[^"]*"|(?<=[\w\'²)])\.(?:{WORD}|\d+)|{WORD}|\d+|::|\S')
HEAD = re.compile(r"^(?:(?:abbrev|unfoldable|opaque|data|record|pub) +)*([^\s(){}:;]+)")
NO_ITEM = re.compile(r"^(?:use|pub use|mod|pub mod|--|[\s})]|$)")
OPEN, CLOSE = "([{", ")]}"


def imports(text):
    """What the `use` lines of a text bring in: for each name a path and the name there, which is none where the name is the path's own."""
    found = {}
    for body in re.findall(r"^ *(?:ghost |pub(?:\([a-z]+\))? )*use ([^;{}\n]+(?:\{[^}]*\})?[^;\n]*)", text, flags=re.M):
        path, brace, inside = " ".join(body.split()).partition("{")
        for name in (inside.rstrip("} ").split(",") if brace else [path]):
            real, _, local = name.strip().partition(" as ")
            if brace:
                found[local or real] = (path.rstrip(".:"), real)
            else:
                found[local or re.split(r"::|\.", real)[-1]] = (real, None)
    return found


class Item:
    """A definition: its file, its name, its comment and text as lines, and the names by which it is known."""

    def __init__(self, file, name, first, begin, end, names=()):
        self.file, self.name, self.names = file, name, {name, *names}
        self.first, self.begin, self.end = first, begin, end

    @property
    def lines(self):
        return [line for line in self.file.lines[self.first:self.end] if line.strip()]

    @property
    def text(self):
        return "\n".join(self.file.lines[self.begin:self.end])

    @property
    def is_code(self):
        return self.file.path.suffix == ".rt"


class File:
    """A file of sources: its items, and the names that it brings in."""

    def __init__(self, path):
        self.path, self.crate = path, path.parts[1]
        self.lines = path.read_text().split("\n")
        self.found = imports("\n".join(self.lines))
        self.items = list(self.definitions() if path.suffix == ".antt" else self.declarations())
        self.named = {name: item for item in reversed(self.items) for name in item.names}

    def above(self, at, marks):
        """Where the comment and the attributes right above a line begin."""
        while at > 0 and self.lines[at - 1].startswith(marks) and not self.lines[at - 1].startswith(("-- ----", "//!")):
            at -= 1
        return at

    def definitions(self):
        """The items of a file of definitions: each begins in the first column, and its clauses there with its name."""
        starts = []
        for at, line in enumerate(self.lines):
            if not NO_ITEM.match(line) and not (starts and HEAD.match(line)[1] == starts[-1][1] and line.startswith(starts[-1][1])):
                starts.append((at, HEAD.match(line)[1]))
        stops = [self.above(at, "--") for at, _ in starts[1:]] + [len(self.lines)]
        for (at, name), stop in zip(starts, stops):
            while not self.lines[stop - 1].strip() or self.lines[stop - 1].startswith("--"):
                stop -= 1
            inside = [line.strip() for line in self.lines[at + 1:stop]]
            names = ()
            if re.match(r"(?:pub )?data ", self.lines[at]):
                names = [HEAD.match(line)[1] for line in self.lines[at + 1:stop] if re.match(r"  [^\s-]+(?: [^\s:]+)* :", line) for line in [line.strip()]]
            elif name == "module":
                names = [HEAD.match(line)[1] for line in inside if line.startswith(("abbrev", "pub"))]
            yield Item(self, name, self.above(at, "--"), at, stop, names)

    def block(self, at):
        """Where a block of code ends that begins at this line."""
        depth = 0
        for n in range(at, len(self.lines)):
            line = re.sub(r"//.*", "", self.lines[n])
            depth += sum(line.count(c) for c in OPEN) - sum(line.count(c) for c in CLOSE)
            if depth <= 0 and line.rstrip().endswith((";", "}")):
                return n + 1
        return len(self.lines)

    def declarations(self):
        """The items of a file of code: its types and traits, each followed by its Model."""
        for at, line in enumerate(self.lines):
            head = re.match(r"(?:pub(?:\([a-z]+\))? )?(struct|enum|trait) (\w+)", line)
            if not head:
                continue
            end, ghosts = self.block(at), []
            if head[1] == "trait":
                ghosts = re.findall(r"^ +ghost (\w+):", "\n".join(self.lines[at:end]), flags=re.M)
            yield Item(self, head[2], self.above(at, ("//", "#[")), at, end, ghosts)
        for at, line in enumerate(self.lines):
            head = re.match(r"impl(?:<.*>)? Model for (\w+)", line)
            if head:
                yield Item(self, "Model of " + head[1], at, at, self.block(at))


@cache
def file_at(path):
    return File(Path(path)) if Path(path).is_file() else None


@cache
def code_of(crate):
    """The files of a crate's code, its root first."""
    folder = Path("crates", crate, "src")
    return sorted(folder.rglob("*.rt"), key=lambda path: (path.name not in ("lib.rt", "main.rt"), path))


def in_code(crate, parts, name):
    """The item of this name in the code of a crate: in the file that the parts of its path name, or in any."""
    paths = [Path("crates", crate, "src", *parts).with_suffix(".rt")] if parts else []
    for path in [*paths, *code_of(crate)]:
        file = file_at(str(path))
        if file and name in file.named:
            return file.named[name]
    return None


def at_path(file, path, name):
    """What a path and a name in it stand for in this file: an item, or none of the repository."""
    parts = re.split(r"::|\.", path)
    if parts[0] == "Rattle":
        crate, kind, *rest = parts[1:] + [""] * (3 - len(parts))
        if kind != "specs" or not Path("crates", crate).is_dir():
            return None
        if rest[0] == "declared":
            rest = [part for part in rest[1:] if part != "TheVariants"]
            return in_code(crate, rest[:-1], rest[-1])
        return named_in(file_at(str(Path("crates", crate, "specs", *rest).with_suffix(".antt"))), name)
    crate = file.crate if parts[0] in ("crate", "super", "self") else parts[0]
    if file.path.suffix != ".rt" or not Path("crates", crate).is_dir():
        return None
    return in_code(crate, [part for part in parts[1:] if part != "super"], name or parts[-1])


def named_in(file, name, member=None, at=None):
    """The item for which a name stands at a line of a file, where a name that stands for a path is followed by that of its member. What is brought in
    counts before a constructor of the same name that comes later."""
    if file is None:
        return None
    own = file.named.get(name)
    if own and not (name in file.found and name != own.name and at is not None and at < own.begin):
        return own
    if name not in file.found:
        return None
    path, real = file.found[name]
    return at_path(file, path, real or member)


def statements(lines):
    """The lines of an item, gathered: each statement is a line and the lines below it that lie deeper or close it."""
    gathered, least = [], min((len(line) - len(line.lstrip()) for line in lines if line.strip()), default=0)
    for line in lines:
        if gathered and (not line.strip() or len(line) - len(line.lstrip()) > least or line.strip()[0] in CLOSE):
            gathered[-1].append(line)
        elif line.strip() and not line.strip().startswith("--"):
            gathered.append([line])
    return gathered


class Reader:
    """Reads tokens with the names that are bound where they are, and gathers those that are free, in order."""

    def __init__(self, file):
        self.file, self.free = file, []

    def mention(self, bound, name, member):
        if name not in bound:
            self.free.append((name, member))

    def read(self, tokens, bound):
        """Reads the tokens of a group, in which the names that it binds hold to its end."""
        bound, at = set(bound), 0
        while at < len(tokens):
            token = tokens[at]
            if token in OPEN:
                end = matching(tokens, at)
                inside = tokens[at + 1:end]
                if token == "{" and at and tokens[at - 1] == "record":
                    self.fields(inside, bound)
                else:
                    self.read(inside, bound)
                    bound.update(binders(inside))
                at = end
            elif token == "λ":
                end = next((n for n in range(at, len(tokens)) if tokens[n] == "."), len(tokens) - 1)
                names = tokens[at + 1:end]
                self.read(types_in(names), bound)
                bound.update(name for name in names if re.fullmatch(WORD, name))
                at = end
            elif token == "let" and at + 1 < len(tokens):
                bound.add(tokens[at + 1])
            elif re.fullmatch(WORD, token):
                member = tokens[at + 1][1:] if at + 1 < len(tokens) and tokens[at + 1].startswith(".") else None
                self.mention(bound, token, member)
            at += 1

    def fields(self, tokens, bound):
        """Reads a record's fields, `name = value;`, of which the names aren't mentioned."""
        depth, begins = 0, True
        kept = []
        for token in tokens:
            depth += (token in OPEN) - (token in CLOSE)
            if not begins:
                kept.append(token)
            begins = depth == 0 and (token == ";" or (begins and token != "="))
        self.read(kept, bound)


def matching(tokens, at):
    depth = 0
    for n in range(at, len(tokens)):
        depth += (tokens[n] in OPEN) - (tokens[n] in CLOSE)
        if depth == 0:
            return n
    return len(tokens)


def binders(tokens):
    """The names that a group binds for what follows it: those before its colon, where it has nothing else there."""
    names = []
    for token in tokens:
        if token == ":":
            return names
        if not re.fullmatch(WORD, token):
            return []
        names.append(token)
    return []


def types_in(names):
    """The types of the names that a λ binds, of which each is in brackets with its name."""
    kept, typed = [], False
    for token in names:
        typed = (typed or token == ":") and token not in CLOSE
        if typed and token != ":":
            kept.append(token)
    return kept


def tokens_of(lines):
    return TOKEN.findall("\n".join(re.sub(r"(?:^|\s)(?:--|//).*", "", line) for line in lines))


def is_variable(file, name):
    """A name in a pattern that isn't a constructor's."""
    item = named_in(file, name)
    return not (name[0].isupper() or (item and name != item.name)) and name not in ("zero", "suc", "pos", "negsuc", "true", "false")


def read_definition(reader, item):
    lines = item.file.lines[item.begin:item.end]
    bound = set()
    if re.match(r"(?:pub )?(?:data|record) ", lines[0]):
        head, *rest = statements(lines)
        at = next((n for n, line in enumerate(head) if line.endswith("where")), 0)
        tokens = tokens_of(head[:at + 1])
        colon = next((n for n in range(len(tokens)) if tokens[n] == ":" and not tokens[:n].count("(") > tokens[:n].count(")")), len(tokens))
        reader.read(tokens[1:], {item.name, "pub", "record", "data"})
        for n in range(colon):
            if tokens[n] in "({":
                bound.update(binders(tokens[n + 1:matching(tokens, n)]))
        for one in statements(head[at + 1:]):
            tokens = [token for token in tokens_of(one) if token != "pub"]
            colon = tokens.index(":") if ":" in tokens else 0
            reader.read(tokens[colon + 1:], bound)
            if "record " in lines[0]:
                bound.update(tokens[:colon])
        return
    gathered = [[line] for line in lines] if item.name == "module" else statements(lines)
    for one in gathered:
        tokens = tokens_of(one)
        equals = equation(tokens)
        pattern = tokens[1:equals] if equals else []
        variables = {name for name in pattern if re.fullmatch(WORD, name) and is_variable(item.file, name)}
        reader.read(pattern, variables)
        reader.read(tokens[equals + 1:] if equals else tokens, variables | {item.name, "abbrev", "unfoldable", "opaque", "pub"})


def equation(tokens):
    """Where a clause has its `=`; 0 where these are no clause but a type."""
    depth = 0
    for n, token in enumerate(tokens):
        depth += (token in OPEN) - (token in CLOSE)
        if depth == 0 and token == ":":
            return 0
        if depth == 0 and token == "=":
            return n
    return 0


@cache
def references(item):
    """The items to which one refers, in order, each once, and the names that it has of libraries."""
    reader = Reader(item.file)
    if item.is_code:
        text = re.sub(r"#\[.*\]", "", "\n".join(line for line in item.text.split("\n") if not line.strip().startswith("ghost use")))
        reader.read(tokens_of(text.split("\n")), set())
    else:
        read_definition(reader, item)
    return resolved(item.file, reader.free, item)


def resolved(file, free, own=None):
    found, foreign = [], []
    for name, member in free:
        item = named_in(file, name, member, own and own.begin)
        model = item and item.is_code and item.file.named.get("Model of " + item.name)
        for one in filter(None, (item, model)):
            if one is not own and one not in found:
                found.append(one)
        if item is None and name in file.found:
            foreign.append(name)
    return found, foreign


def closure(items):
    """The items on which these rest, and these, each once, after those to which it refers."""
    order, seen = [], set()

    def visit(item):
        stack = [(item, iter(references(item)[0]))]
        seen.add(item)
        while stack:
            top, rest = stack[-1]
            below = next((one for one in rest if one not in seen), None)
            if below is None:
                order.append(stack.pop()[0])
            else:
                seen.add(below)
                stack.append((below, iter(references(below)[0])))

    for item in items:
        if item not in seen:
            visit(item)
    return order


class Function:
    """A function of a file of code: its name, the type or trait around it, whether it is public there, its header, its clauses and its body."""

    def __init__(self, file, at, around):
        self.file, self.at, self.around = file, at, around
        indent = len(file.lines[at]) - len(file.lines[at].lstrip())
        self.name = re.search(r"\bfn (\w+)", file.lines[at])[1]
        self.is_public = file.lines[at].lstrip().startswith("pub fn")
        bare = [re.sub(r"//.*", "", line).rstrip() for line in file.lines]
        clause = re.compile(rf" {{{indent + 4}}}(requires|ensures)\b *(\w*) *\{{")
        starts, n, depth = [], at, 0
        while n < len(bare):
            if clause.match(bare[n]):
                starts.append(n)
            elif bare[n] in (" " * indent + "{", " " * indent + "{}") or (not starts and bare[n].endswith(" {")):
                break
            depth += sum(bare[n].count(c) for c in OPEN) - sum(bare[n].count(c) for c in CLOSE)
            if depth == 0 and bare[n].endswith(";"):
                break
            n += 1
        self.body = n
        self.header = "\n".join(bare[at:min([*starts, n + 1])])
        stops = [*starts[1:], n + (bare[n].endswith(";") if n < len(bare) else 0)]
        self.clauses = [(*clause.match(bare[a]).groups(), a, b) for a, b in zip(starts, stops)]
        self.is_empty = n < len(bare) and bare[n].endswith("{}")

    def clause(self, kind, name):
        """The lines of a clause, without comments."""
        return next(([*self.file.lines[a:b]] for k, n, a, b in self.clauses if (k, n) == (kind, name)), None)


def functions(file):
    """The functions of a file, in order, those of tests left out."""
    around, found = None, []
    for at, line in enumerate(file.lines):
        head = re.match(r"(?:pub(?:\([a-z]+\))? )?(impl|trait)\b(?:<[^{]*?>)? *(?:\w[\w:<>, ']* for )?(\w+)", line)
        if head:
            around = head[2]
        elif line.startswith("}"):
            around = None
        if re.match(r" *(?:pub(?:\([a-z]+\))? )?(?:const )?fn \w+", line) and not file.lines[at - 1].strip().startswith("#[test]"):
            found.append(Function(file, at, around if line.startswith(" ") else None))
    return found


def rests_on(function, kind, name):
    """The items to which a clause of a function refers, those of the types of the arguments that it names among them."""
    text = tokens_of(function.clause(kind, name))
    signature = " ".join(function.header.split())
    types = dict(re.findall(r"(\w+): ([^,()<>]*(?:<[^()]*?>)?[^,()<>]*)(?=[,)>])", signature))
    types["result"] = signature.rpartition("->")[2]
    reader = Reader(function.file)
    reader.read(text[text.index("{"):], set())
    words = [(word, None) for name, _ in reader.free for word in re.findall(WORD, types.get(name, ""))]
    return resolved(function.file, words + reader.free)[0]


def text_lines(item):
    """The lines of an item that aren't comments or attributes."""
    return [line for line in item.lines if not line.strip().startswith(("--", "//", "#["))]


@cache
def crates():
    """The crates of crates.txt, lowest first."""
    lines = [line.split("#")[0] for line in Path("crates.txt").read_text().splitlines()]
    return [line.split(":")[0].split()[0] for line in lines if ":" in line]


@cache
def is_tried(crate):
    """Whether a crate has tests alone: nothing of it is proved by a contract."""
    return not any(function.clauses for path in code_of(crate) for function in functions(file_at(str(path))))


@cache
def public_functions(crate):
    """The functions of a crate that other crates can call: `pub` in `pub mod`s up to its root, or named by a `pub use` of the root."""
    root = code_of(crate)[0]
    text = root.read_text()
    named = {name for body in re.findall(r"^pub use ([^;]*);", text, flags=re.M) for name in re.findall(r"\w+", body)}
    found = []
    for path in code_of(crate):
        open_up, folder = path == root, path.relative_to(root.parent).with_suffix("").parts
        if not open_up:
            open_up = all(re.search(rf"^pub mod {part};", (root if n == 0 else root.parent.joinpath(*folder[:n]).with_suffix(".rt")).read_text(), flags=re.M)
                          for n, part in enumerate(folder))
        for function in functions(file_at(str(path))):
            if function.is_public and (open_up or function.name in named or function.around in named):
                found.append(function)
    return found


def is_law(function):
    """A law: a public function that takes nothing and returns nothing, so that its contract is a statement alone."""
    return function.around is None and function.header.split("fn ")[1].strip() == function.name + "()" and bool(function.clauses)
