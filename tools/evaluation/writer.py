"""One definition as a Python function. It takes its modules' explicit parameters, then its own arguments; a function that is a value takes one argument at a time. Arguments are worked before a call, a branch of `cond` and a `let` when it is needed: every definition is total, so that the order changes no value."""
from . import library
from .reader import NotUnderstood
from .terms import bare, mentioned, needed, replaced, spell, spine


# the arguments that hold an answer and are not worked in any case: a caller hands them unworked
def late(d):
    if len(d.clauses) != 1:
        return set()
    patterns, body = d.clauses[0].patterns, d.clauses[0].body
    return {k for k, p in enumerate(patterns[:len(d.domains)]) if p[0] == "name" and spine(d.domains[k])[0] == ("name", "Ans") and not needed(p[1], body)}


class Function:
    """Writes one definition."""

    def __init__(self, compiler, d):
        self.c, self.d = compiler, d
        self.file, self.s, self.scope = d.file, d.clauses[0].statement, d.block

    def write(self):
        d = self.d
        taken = [p for b in d.block.chain() for kind, _, p, _ in b.parameters if kind == "explicit"]
        hidden = [p for b in d.block.chain() for kind, _, p, _ in b.parameters if kind == "implicit"]
        names = [self.c.fresh("a") for _ in range(d.arity)]
        lines = [f"def {d.python}({', '.join(taken + names)}):"]
        lines.append(f"    reached({d.file.name + '.' + d.name!r})")
        lines += [f"    {p} = Stated('a type')" for p in hidden]
        for c in d.clauses:
            self.s, self.scope = c.statement, c.scope
            if c.scope is not d.block:  # a `where`
                lines += [f"    {p} = {name}" for (_, _, p, _), name in zip(c.scope.parameters, names)]
            self.clause(lines, names, c.patterns, c.body)
        if not lines[-1].startswith("    return"):
            lines.append(f"    raise Refused('no clause of {d.name}')")
        if not taken and not names:
            lines.insert(0, "@cache")
        elif f"{d.file.name}.{d.name}" in self.c.remembered:
            lines.append(f"{d.python} = remember({d.python})")
        self.c.source += lines

    def clause(self, lines, names, patterns, body):
        tests, bound = [], {}
        for name, pattern in zip(names, patterns):
            if pattern[0] == "app":  # a value that is put together again as it was matched
                fresh = self.c.fresh("whole")
                body = replaced(body, pattern, ("name", fresh))
                bound[fresh] = name
            self.pattern(name, pattern, tests, bound)
        used = {bare(u) for u in mentioned(body, set())}
        local, sets = {}, []
        waiting = {names[k] for k in self.d.late}
        for name, text in bound.items():
            if text in waiting:
                local[bare(name)] = f"{text}()"
            elif bare(name) in used:
                local[bare(name)] = self.c.fresh(name)
                sets.append(f"{local[bare(name)]} = {text}")
        depth = 1
        if tests:
            lines.append(f"    if {' and '.join(tests)}:")
            depth = 2
        lines += ["    " * depth + x for x in sets]
        self.body(lines, depth, local, body)

    def pattern(self, text, p, tests, bound):
        head, args = spine(p)
        name = head[1]
        if name == "_" and not args:
            return
        kind = self.constructor(name)
        if kind is None:
            if args:
                self.s.refuse(f"`{name}` in a pattern is no constructor")
            bound[name] = text
            return
        if kind[0] == "native":
            test, parts = library.PATTERN[f"{kind[1]}.{kind[2]}"]
        else:
            test, parts = f"{{0}}[0] == {kind[1]!r}", [f"{{0}}[{k + 1}]" for k in range(kind[2])]
        if len(parts) != len(args):
            self.s.refuse(f"`{name}` in a pattern with {len(args)} arguments")
        tests.append(test.format(text))
        for part, arg in zip(parts, args):
            self.pattern(f"({part.format(text)})", arg, tests, bound)

    # a constructor in scope, or None for a new name
    def constructor(self, name):
        try:
            kind = self.c.find(self.file, self.scope, {}, name, self.s)
        except NotUnderstood:
            if "." in name:
                raise
            return None
        if kind[0] == "constructor" or (kind[0] == "native" and f"{kind[1]}.{kind[2]}" in library.PATTERN):
            return kind
        return None

    # ---- a body as statements
    def body(self, lines, depth, local, e):
        pad = "    " * depth
        if e[0] == "let":
            _, name, worked, rest = e
            inner = dict(local)
            fresh = self.c.fresh(name)
            if worked[0] in ("name", "num", "field") or needed(name, rest):
                lines.append(f"{pad}{fresh} = {self.text(lines, depth, local, worked)}")
                inner[bare(name)] = fresh
            else:
                inner[bare(name)] = f"{self.waiting(lines, depth, local, worked)}()"
            return self.body(lines, depth, inner, rest)
        head, args = spine(e)
        if head[0] == "name" and len(args) == 3 and self.kind(local, head[1])[:3] == ("native", library.PRELUDE, "cond"):
            lines.append(f"{pad}if {self.text(lines, depth, local, args[0])}:")
            self.body(lines, depth + 1, local, args[1])
            lines.append(f"{pad}else:")
            return self.body(lines, depth + 1, local, args[2])
        lines.append(f"{pad}return {self.text(lines, depth, local, e)}")

    # an expression that is worked when it is first asked for
    def waiting(self, lines, depth, local, e):
        fresh = self.c.fresh("late")
        lines += ["    " * depth + "@cache", "    " * depth + f"def {fresh}():"]
        self.body(lines, depth + 1, local, e)
        return fresh

    def kind(self, local, name):
        return self.c.find(self.file, self.scope, local, name, self.s)

    # no local name and no parameter in it
    def closed(self, local, e):
        for name in mentioned(e, set()):
            kind = self.kind(local, name)
            if kind[0] in ("local", "opened"):
                return False
            if kind[0] == "definition" and self.shared(kind[1]):
                return False
        return True

    # the parameters of the blocks that this definition and another one stand in
    def shared(self, d):
        own = self.scope.chain()
        return [p for b in d.block.chain() if any(b is x for x in own) for kind, _, p, _ in b.parameters if kind == "explicit"]

    # ---- an expression as Python text; what it needs is written before it
    def text(self, lines, depth, local, e):
        if e[0] == "num":
            return str(e[1])
        if e[0] in ("type", "unit"):
            return f"Stated({e[0].capitalize()!r})"
        if e[0] == "implicit":
            self.s.refuse("an implicit argument in an expression")
        if e[0] == "→":
            return "Stated('→')"
        if e[0] == "×":
            if e[1]:
                return "Stated('×')"
            return f"both({self.text(lines, depth, local, e[2])}, {self.text(lines, depth, local, e[3])})"
        if e[0] == "λ":
            return self.function(lines, depth, local, e[1], e[2])
        if e[0] == "let":
            fresh = self.c.fresh("let")
            lines.append("    " * depth + f"def {fresh}():")
            self.body(lines, depth + 1, local, e)
            return f"{fresh}()"
        if e[0] in ("app", "record") and self.closed(local, e):
            return self.constant(e)
        if e[0] == "record":
            fields = sorted((bare(f), x) for f, x in e[1])
            if len({f for f, _ in fields}) != len(fields):
                self.s.refuse("a record with a field twice")
            name = self.c.constructor_of_record([f for f, _ in fields])
            return f"{name}({', '.join(self.text(lines, depth, local, x) for _, x in fields)})"
        if e[0] == "field":
            part = f"[{e[2]}]" if e[2] in ("0", "1") else "." + spell(e[2])  # of a pair, or of a record
            return self.text(lines, depth, local, e[1]) + part
        head, args = spine(e)
        return self.call(lines, depth, local, head, args)

    def function(self, lines, depth, local, names, body):
        fresh = self.c.fresh("f")
        inner = dict(local)
        python = self.c.fresh(names[0])
        inner[bare(names[0])] = python
        lines.append("    " * depth + f"def {fresh}({python}):")
        if len(names) > 1:
            inside = self.function(lines, depth + 1, inner, names[1:], body)
            lines.append("    " * (depth + 1) + f"return {inside}")
        else:
            self.body(lines, depth + 1, inner, body)
        return fresh

    # a closed expression is worked once
    def constant(self, e):
        key = (self.file.path, id(self.scope), repr(e))
        if key not in self.c.constants:
            fresh = self.c.constants[key] = self.c.fresh("k")
            lines = ["@cache", f"def {fresh}():"]
            if e[0] == "record":
                fields = sorted((bare(f), x) for f, x in e[1])
                name = self.c.constructor_of_record([f for f, _ in fields])
                result = f"{name}({', '.join(self.text(lines, 1, {}, x) for _, x in fields)})"
            else:
                result = self.call(lines, 1, {}, *spine(e))
            lines.append(f"    return {result}")
            self.c.source += lines
        return f"{self.c.constants[key]}()"

    def call(self, lines, depth, local, head, args):
        kind = self.kind(local, head[1]) if head[0] == "name" else None
        if kind is None or kind[0] in ("local", "opened"):
            f = self.text(lines, depth, local, head) if kind is None else kind[1] if kind[0] == "local" else f"{kind[1]}.{spell(kind[2])}"
            return f + "".join(f"({self.text(lines, depth, local, x)})" for x in args)
        literal = self.literal(lines, depth, local, head, args)
        if literal:
            return literal
        if kind[0] == "definition" and kind[1].late:
            return self.late_call(lines, depth, local, kind[1], args)
        texts = [self.text(lines, depth, local, x) for x in args]
        if kind[0] == "type":
            name = self.c.fresh("type")
            self.c.space[name] = library.Stated(kind[1], kind[2])
            return name + "".join(f"({x})" for x in texts)
        if kind[0] == "constructor":
            return self.applied(kind[2], lambda x: f"({', '.join([repr(kind[1])] + x)},)", texts)
        if kind[0] == "native":
            arity, template = library.NATIVE[kind[1]][kind[2]]
            if kind[2] == "cond" and len(args) < 3:
                self.s.refuse("`cond` without its three arguments")
            return self.applied(arity, lambda x: template.format(*x), texts)
        d = kind[1]
        shared, wanted = self.wanted(d)
        return self.applied(wanted, lambda x: f"{d.python}({', '.join(shared + x)})", texts)

    # the parameters that this definition shares with another, and how many arguments that takes beside them
    def wanted(self, d):
        shared = self.shared(d)
        return shared, sum(k == "explicit" for b in d.block.chain() for k, *_ in b.parameters) - len(shared) + d.arity

    def late_call(self, lines, depth, local, d, args):
        shared, wanted = self.wanted(d)
        first = wanted - d.arity
        texts = [self.waiting(lines, depth, local, x) if k - first in d.late else self.text(lines, depth, local, x) for k, x in enumerate(args)]

        def written(x):
            handed = [f"(lambda: {y})" if k >= len(texts) and k - first in d.late else y for k, y in enumerate(x)]
            return f"{d.python}({', '.join(shared + handed)})"
        return self.applied(wanted, written, texts)

    # x ∷ y ∷ .. as one tuple
    def literal(self, lines, depth, local, head, args):
        if head != ("name", "◌∷◌") or len(args) != 2:
            return None
        items, rest = [args[0]], args[1]
        while spine(rest)[0] == ("name", "◌∷◌") and len(spine(rest)[1]) == 2:
            items.append(spine(rest)[1][0])
            rest = spine(rest)[1][1]
        front = "(" + ", ".join(self.text(lines, depth, local, x) for x in items) + ",)"
        return front if rest == ("name", "[]") else f"({front} + {self.text(lines, depth, local, rest)})"

    # a function of `arity` arguments on those that are there
    def applied(self, arity, written, texts):
        if len(texts) >= arity:
            return written(texts[:arity]) + "".join(f"({x})" for x in texts[arity:])
        given = [self.c.fresh("g") for _ in texts]
        asked = [self.c.fresh("z") for _ in range(arity - len(texts))]
        first = ", ".join([asked[0]] + [f"{g}={x}" for g, x in zip(given, texts)])
        return f"(lambda {first}: " + "".join(f"lambda {z}: " for z in asked[1:]) + written(given + asked) + ")"
