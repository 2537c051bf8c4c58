"""What the files of specs/ declare and what a name stands for where it is used."""
import re

from . import library
from .reader import Expressions, NotUnderstood, is_name, read
from .terms import bare, mentioned, spell, spine

MODULE = re.compile(r"Rattle\.(\w+)\.specs\.(.+)$")
TYPE = ("type",)


class Block:
    """A file, or a `module _ (..) where` in it: what it takes and what it names so far."""

    def __init__(self, outer, parameters, is_local=False):
        self.outer, self.parameters, self.is_local = outer, parameters, is_local
        self.names, self.fixities, self.opened = {}, {}, {}

    def chain(self):
        return (self.outer.chain() if self.outer else []) + [self]


class Definition:
    def __init__(self, name, block, python, is_public, is_type):
        self.name, self.block, self.python, self.is_public, self.is_type = name, block, python, is_public, is_type
        self.arity, self.clauses, self.domains, self.late = None, [], [], set()


class Clause:
    def __init__(self, statement, patterns, body, scope):
        self.statement, self.patterns, self.body, self.scope = statement, patterns, body, scope


class File:
    def __init__(self, name, path):
        self.name, self.path = name, path
        self.block = Block(None, [])
        self.modules = {}


class RecordType:
    """A record's fields with their types, which are statements or types of values."""

    def __init__(self, name, file, block):
        self.name, self.file, self.block = name, file, block
        self.fields, self.types, self.checks = {}, {}, None


class Names:
    """All files, read; a definition keeps its clauses."""

    def __init__(self, declared, texts):
        """`texts`: path to text of every file of crates/*/specs; `declared`: crate to the types of its sources."""
        self.declared, self.texts, self.files = declared, texts, {}
        self.definitions, self.count = [], 0

    def fresh(self, name="v"):
        self.count += 1
        return f"{spell(name)}_{self.count}"

    # ---- files and names
    def file(self, crate, module):
        key = f"crates/{crate}/specs/{module}.antt"
        if key not in self.texts:
            raise NotUnderstood(f"no file {key}")
        if key not in self.files:
            f = self.files[key] = File(f"{crate}.{module}", key)
            self.declarations(f, f.block, read(key, self.texts[key]))
        return self.files[key]

    # what a module's path gives: ("native", path), ("file", File), ("declared", crate, type), ("variants", crate, type)
    def module(self, path, statement):
        if path in library.NATIVE and path != library.LANGUAGE:
            return ("native", path)
        m = MODULE.match(path)
        if not m:
            statement.refuse(f"a module that is not known, `{path}`")
        crate, rest = m.group(1), m.group(2).split(".")
        if rest[0] == "declared":
            variants = rest[-1] == "TheVariants"
            declared = ".".join(rest[1:-1] if variants else rest[1:])
            if declared not in self.declared.get(crate, {}):
                statement.refuse(f"crate {crate} declares no `{declared}`")
            return ("variants" if variants else "declared", crate, declared)
        if len(rest) != 1:
            statement.refuse(f"a module that is not known, `{path}`")
        return ("file", self.file(crate, rest[0]))

    # what a name of a module is
    def member(self, module, name, statement):
        if module[0] == "native":
            if name in library.TYPES.get(module[1], ()):
                return ("type", name, None)
            if name in library.NATIVE[module[1]]:
                return ("native", module[1], name)
        elif module[0] == "file":
            found = module[1].block.names.get(name)
            if found and found[0] in ("definition", "type", "constructor") and found[-1] != "private":
                return found
        elif module[0] == "declared":
            if name == module[2].split(".")[-1]:
                return ("type", name, None)
        elif name in self.declared[module[1]][module[2]]:
            return ("constructor", name, self.declared[module[1]][module[2]][name], "public")
        statement.refuse(f"`{name}` is not in the module {module[1:]}")

    def use(self, file, block, s):
        words = s.words[1:]
        if "as" in words and "{" not in words:
            if len(words) != 3 or words[1] != "as":
                s.refuse("a `use` line that is not known")
            file.modules[words[2]] = self.module(words[0], s)
            return
        if words[1:3] != [".", "{"] or words[-1] != "}":
            s.refuse("a `use` line that is not known")
        module = self.module(words[0], s)
        for part in " ".join(words[3:-1]).split(" , "):
            item = part.split()
            if len(item) == 3 and item[1] == "as":
                item = [item[0], item[2]]
            elif len(item) != 1:
                s.refuse("an item of a `use` line that is not known")
            found = self.member(module, bare(item[0]), s)
            block.names[bare(item[-1])] = found
            fixity = self.fixity_of(found)
            if fixity and len(item) == 1:
                block.fixities[item[0]] = fixity

    def fixity_of(self, found):
        if found[0] == "native":
            return library.FIXITY.get(found[1:3])
        if found[0] == "definition":
            b = found[1].block
            while b:
                if found[1].name in b.fixities:
                    return b.fixities[found[1].name]
                b = b.outer
        return None

    # a name where it stands: a local one, a block's parameter, an opened field, or what the file has
    def find(self, file, block, local, name, s):
        name = bare(name)
        if name in local:
            return ("local", local[name])
        b = block
        while b:
            found = b.names.get(name)
            if found and not (found[0] == "definition" and found[1].file is file and found[1].line > s.line and not found[1].block.is_local):
                return found
            if name in b.opened:
                return ("opened", *b.opened[name])
            for _, p, python, _ in b.parameters:
                if p == name:
                    return ("local", python)
            b = b.outer
        if "." in name:
            head, *rest = name.split(".")
            if head in file.modules:
                module = file.modules[head]
                if len(rest) == 2 and rest[0] == "TheVariants" and module[0] == "declared":
                    return self.member(("variants", *module[1:]), bare(rest[1]), s)
                if len(rest) == 1:
                    return self.member(module, bare(rest[0]), s)
        if name in library.NATIVE[library.LANGUAGE]:
            return ("native", library.LANGUAGE, name)
        s.refuse(f"`{name}` is not in scope")

    # the definitions and records that files use, these and those that they use in turn
    def used_by(self, files):
        found, waiting = set(), []
        for file in files:
            own = [k[1] if k[0] == "definition" else k[2] for k in file.block.names.values() if k[0] in ("definition", "type")]
            waiting += [x for x in own if x is not None and x.file is file]
        while waiting:
            x = waiting.pop()
            if x in found:
                continue
            found.add(x)
            if isinstance(x, Definition):
                parts = [(c.statement, c.body, c.scope) for c in x.clauses]
            else:
                parts = [(x.fields[f], e, x.block) for f, e in x.types.items()]
            for s, e, scope in parts:
                for name in mentioned(e, set()):
                    kind = self.known(x.file, scope, name, s)
                    waiting += [y for y in kind[1:3] if isinstance(y, (Definition, RecordType))]
        return found

    # whether a statement speaks of all values, or through a record, whose fields may
    def states_of_all(self, d):
        body = d.clauses[0].body
        kinds = [self.known(d.file, d.clauses[0].scope, name, d.clauses[0].statement) for name in mentioned(body, set())]
        return "'→'" in repr(body) or any(isinstance(y, RecordType) for kind in kinds for y in kind[1:3])

    # what a name stands for, or nothing where it is bound in the expression
    def known(self, file, block, name, s):
        try:
            return self.find(file, block, {}, name, s)
        except NotUnderstood:
            return ()

    def fixity(self, block):
        def look(operator):
            b = block
            while b:
                if operator in b.fixities:
                    return b.fixities[operator]
                b = b.outer
            return None
        return look

    def expressions(self, file, s, words, block):
        return Expressions(s, words, self.fixity(block), lambda name: name in file.modules)

    # ---- declarations
    def declarations(self, file, block, statements):
        for s in statements:
            w = s.words
            first = next((x for x in w if x not in ("pub", "abbrev", "unfoldable")), None)
            if first == "mod":
                if w[:2] != ["pub", "mod"] or len(w) != 3:
                    s.refuse("a `mod` line that is not known")
                self.file(file.name.split(".")[0], w[2])
            elif first == "use":
                if w[0] != "use":
                    s.refuse("a `use` line that is not known")
                self.use(file, block, s)
            elif first in ("infixl", "infixr", "infix"):
                for operator in w[2:]:
                    block.fixities[operator] = (first, int(w[1]))
            elif first == "open":
                self.open(file, block, s)
            elif first == "unfolding":
                pass  # a word to the prover: what it may compute in the definition below
            elif first == "module":
                self.section(file, block, s)
            elif first == "record":
                self.record_type(file, block, s)
            elif first == "data":
                self.data(file, block, s)
            else:
                self.definition(file, block, s)
        for kind in list(block.names.values()):
            if kind[0] == "definition" and kind[1].block is block and not kind[1].clauses:
                raise NotUnderstood(f"{file.path}: {kind[1].name} has no clause")

    # open A use {x, y as z}: fields of a parameter, whose type is a record
    def open(self, file, block, s):
        w = s.words
        if w[2:4] != ["use", "{"] or w[-1] != "}":
            s.refuse("an `open` line that is not known")
        found = next((p for b in reversed(block.chain()) for p in b.parameters if p[1] == bare(w[1])), None)
        if not found:
            s.refuse("what is opened is no parameter")
        head = spine(found[3])[0]
        record = self.find(file, block, {}, head[1], s) if head[0] == "name" else ("none",)
        if record[0] != "type" or not isinstance(record[2], RecordType):
            s.refuse("what is opened is no record")
        for part in " ".join(w[4:-1]).split(" , "):
            item = part.split()
            if len(item) == 3 and item[1] == "as":
                item = [item[0], item[2]]
            if len(item) not in (1, 2) or item[0] not in record[2].fields:
                s.refuse(f"no field of {record[1]}: {part}")
            block.opened[item[-1]] = (found[2], item[0])

    # the explicit parameters, as (kind, name, Python name, type); an implicit one is a type
    def parameters(self, file, block, s, words):
        reader = self.expressions(file, s, words, block)
        found = []
        while reader.peek() in ("(", "{"):
            names = reader.binder()
            if names is None:
                s.refuse("a parameter that is not known")
            for kind, name in names:
                if kind == "implicit" and reader.bound != TYPE:
                    s.refuse("an implicit parameter that is no type")
                found.append((kind, bare(name), self.fresh(name), reader.bound))
        return found, reader

    def section(self, file, block, s):
        if s.words[:2] != ["module", "_"] or s.words[-1] != "where":
            s.refuse("a module that is not known")
        found, reader = self.parameters(file, block, s, s.words[2:-1])
        if reader.peek() is not None:
            s.refuse("a module that is not known")
        inner = Block(block, found)
        self.declarations(file, inner, s.below)
        for name, kind in inner.names.items():  # seen from outside the block too
            if kind[0] == "definition" or kind[0] == "type" and len(kind) == 4:
                if name in block.names:
                    s.refuse(f"a name that the block outside has already, `{name}`")
                block.names[name] = kind

    def head(self, file, block, s, word):
        w = s.words
        at = w.index(word)
        if w[:at] not in ([], ["pub"]) or w[-1] != "where":
            s.refuse(f"a `{word}` that is not known")
        found, reader = self.parameters(file, block, s, w[at + 2:-1])
        reader.take(":")
        if reader.whole(reader.type) != TYPE:
            s.refuse(f"a `{word}` that is no type")
        return bare(w[at + 1]), found, "public" if w[0] == "pub" else "private"

    def record_type(self, file, block, s):
        name, found, public = self.head(file, block, s, "record")
        r = RecordType(name, file, Block(block, found))
        block.names[name] = ("type", name, r, public)
        for f in s.below:
            w = f.words[1:] if f.words[0] == "pub" else f.words
            if w[1] != ":" or not is_name(w[0]):
                f.refuse("a field that is not known")
            r.fields[bare(w[0])] = f
            reader = self.expressions(file, f, w[2:], r.block)
            r.types[bare(w[0])] = reader.whole(reader.type)

    def data(self, file, block, s):
        name, found, public = self.head(file, block, s, "data")
        block.names[name] = ("type", name, None, public)
        for c in s.below:
            at = c.words.index(":")
            reader = self.expressions(file, c, c.words[at + 1:], block)
            t, arity = reader.whole(reader.type), 0
            while t[0] == "→":
                t, arity = t[3], arity + 1
            for constructor in c.words[:at]:
                block.names[constructor] = ("constructor", constructor, arity, public)

    def definition(self, file, block, s):
        w = list(s.words)
        marks = []
        while w[0] in ("pub", "abbrev", "unfoldable"):
            marks.append(w.pop(0))
        if len(w) > 1 and w[1] == ":" and not s.below:
            reader = self.expressions(file, s, w[2:], block)
            t, domains = reader.whole(reader.type), []
            while t[0] == "→":
                domains += [t[2]] * len([n for n in t[1] or [("explicit", "_")] if n[0] == "explicit"])
                t = t[3]
            name = bare(w[0])
            d = Definition(name, block, self.fresh(f"{file.name}.{name}"), "pub" in marks, t == TYPE)
            d.file, d.line, d.domains = file, s.line, domains
            if name in block.names:
                s.refuse("a name that the block has already")
            block.names[name] = ("definition", d, "public" if d.is_public else "private")
            self.definitions.append(d)
            return
        kind = block.names.get(bare(w[0]))
        if marks or not kind or kind[0] != "definition" or kind[1].block is not block or "=" not in w:
            s.refuse("a statement that is not known")
        d = kind[1]
        if w[-1] == "where":
            w.pop()
        reader = Expressions(s, w[1:w.index("=")], lambda _: None)
        patterns = []
        while reader.peek() is not None:
            patterns.append(reader.pattern())
        if d.arity not in (None, len(patterns)):
            s.refuse("clauses with different numbers of arguments")
        d.arity = len(patterns)
        scope = self.locals_of(file, block, s, patterns)
        reader = self.expressions(file, s, w[w.index("=") + 1:], scope)
        d.clauses.append(Clause(s, patterns, reader.whole(reader.type if d.is_type else reader.expression), scope))

    # the scope of a clause: its block, or one more with what stands below its `where`, which takes the clause's arguments
    def locals_of(self, file, block, s, patterns):
        if not s.below:
            return block
        if any(p[0] != "name" for p in patterns):
            s.refuse("`where` below a clause whose arguments are not all names")
        inner = Block(block, [("explicit", bare(p[1]), self.fresh(p[1]), TYPE) for p in patterns], True)
        self.declarations(file, inner, s.below)
        return inner
