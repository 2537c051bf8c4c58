"""The definitions of specs/ as Python functions."""
from . import library
from .reader import NotUnderstood
from .scopes import Clause, Definition, Names
from .terms import spell
from .writer import Function, late


class Compiler(Names):
    def __init__(self, declared, texts, remembered, remember):
        """`remembered`: the definitions that are worked once for the same arguments, by `remember`."""
        super().__init__(declared, texts)
        self.source, self.records, self.constants = [], {}, {}
        self.remembered, self.reached = remembered, set()
        self.space = {**library.NAMES, "remember": remember, "reached": self.reached.add}

    def translate(self):
        for d in self.definitions:
            d.late = late(d)
        for d in self.definitions:
            Function(self, d).write()
        exec(compile("\n".join(self.source), "<specs>", "exec"), self.space)

    def constructor_of_record(self, fields):
        key = tuple(fields)
        if key not in self.records:
            names = [spell(f) for f in fields]
            space = {"Record": library.Record}
            body = "; ".join(f"self_.{n} = {n}" for n in names) or "pass"
            exec(f"class R(Record):\n    __slots__ = {tuple(names)!r}\n    def __init__(self_, {', '.join(names)}): {body}\n", space)
            self.records[key] = self.fresh("R")
            self.space[self.records[key]] = space["R"]
        return self.records[key]

    def record(self, **fields):
        keys = sorted(fields)
        return self.space[self.constructor_of_record([k for k in keys])](*[fields[k] for k in keys])

    def definition_of(self, crate, module, name):
        kind = self.file(crate, module).block.names.get(name, ("none",))
        if kind[0] != "definition":
            raise NotUnderstood(f"{crate}.{module}.{name} is no definition")
        return kind[1]

    # a definition as a Python function of all its explicit arguments
    def get(self, crate, module, name):
        return self.space[self.definition_of(crate, module, name).python]

    # ---- statements: the fields of a record's type
    def statements(self, crate, module, name):
        return self.checks(self.file(crate, module).block.names[name][2])

    # a Python function for each field's type, of the parameters and the fields before it
    def checks(self, r):
        if r.checks is None:
            r.checks, before = {}, len(self.source)
            for field, e in r.types.items():
                d = Definition(field, r.block, self.fresh(f"{r.name}.{field}"), True, True)
                d.file, d.line, d.arity = r.file, 0, len(r.checks)
                d.clauses = [Clause(r.fields[field], [("name", n) for n in r.checks], e, r.block)]
                Function(self, d).write()
                r.checks[field] = d.python
            exec(compile("\n".join(self.source[before:]), "<specs>", "exec"), self.space)
            r.checks = {field: self.space[python] for field, python in r.checks.items()}
        return r.checks

    # the fields that fail: a statement that is false; a value is to be given, to a record in it its own values
    def fails(self, crate, module, name, arguments, given):
        return self.failing(self.file(crate, module).block.names[name][2], arguments, given)

    def failing(self, r, arguments, given):
        values, bad = [], []
        for field, check in self.checks(r).items():
            said = check(*arguments, *values)
            values.append(given.get(field))
            if isinstance(said, library.Stated) and said.record:
                bad += [f"{field}.{x}" for x in self.failing(said.record, said.arguments, given.get(field, {}))]
            elif isinstance(said, bool):
                bad += [] if said else [field]
            elif field not in given:
                raise library.Refused(f"{r.name}.{field} is not evaluated: {said}")
        return bad
