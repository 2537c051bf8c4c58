"""Reads the text of crates/*/specs: lines to statements by their indentation, a statement's words to expressions. What it does not know it refuses with the place."""
import re

# an escaped name, a name with the modules before it or the projections behind it, a projection behind a bracket, a bracket or a mark
PART = r"(?:«[^»]*»|[^\s(){}.;,@\"«»]+)"
TOKEN = re.compile(rf"(?P<space>\s+)|(?P<name>{PART}(?:\.{PART})*)|(?P<field>(?<=\))\.{PART}(?:\.{PART})*)|(?P<mark>[(){{}};,.])")
NUMERAL = re.compile(r"0x[0-9a-f]+(?:_[0-9a-f]+)*$|[0-9]+(?:_[0-9]+)*$")
RESERVED = {"data", "record", "module", "where", "use", "mod", "pub", "using", "open", "as", "unfoldable", "abbrev", "axiom", "unfold", "unfolding", "ruleset", "mutual", "infix", "infixl", "infixr", "elim", "let", "in", "do", "λ", "∀", "Type", "=", ":", "→"}


class NotUnderstood(Exception):
    pass


class Statement:
    """Words of one statement, and the statements below its `where`."""

    def __init__(self, path, line, words, below):
        self.path, self.line, self.words, self.below = path, line, words, below

    def refuse(self, why):
        raise NotUnderstood(f"{self.path}:{self.line}: {why}: {' '.join(self.words[:12])}")


def words_of(path, number, line):
    at, found = 0, []
    while at < len(line):
        m = TOKEN.match(line, at)
        if not m or (m.group("name") and m.group("name").startswith('"')):
            raise NotUnderstood(f"{path}:{number}: no word that is known: {line[at:at + 30]!r}")
        if not m.group("space"):
            found.append(m.group())
        at = m.end()
    return found


def lines_of(path, text):
    found = []
    for number, line in enumerate(text.split("\n"), 1):
        line = re.sub(r"(^|\s)--(\s.*|)$", "", line).rstrip()
        if "{-" in line or "\t" in line:
            raise NotUnderstood(f"{path}:{number}: {line}")
        if line:
            found.append((number, len(line) - len(line.lstrip()), words_of(path, number, line)))
    return found


# the statements of the lines that are as deep as the first one
def statements(path, lines):
    found, k = [], 0
    while k < len(lines):
        number, depth, words = lines[k]
        if depth != lines[0][1]:
            raise NotUnderstood(f"{path}:{number}: an indentation that belongs to nothing")
        words, k = list(words), k + 1
        while k < len(lines) and lines[k][1] > depth and words[-1] != "where":
            words, k = words + lines[k][2], k + 1
        below = []
        while k < len(lines) and lines[k][1] > depth:
            below.append(lines[k])
            k += 1
        if below and words[-1] != "where":
            raise NotUnderstood(f"{path}:{number}: lines below what has no `where`")
        found.append(Statement(path, number, words, statements(path, below) if below else []))
    return found


def read(path, text):
    return statements(path, lines_of(path, text))


def numeral(word):
    if not NUMERAL.match(word):
        return None
    return int(word.replace("_", ""), 0)


def is_name(word):
    return word not in RESERVED and word[0] not in "(){};,." and numeral(word) is None


class Expressions:
    """Reads expressions and types of a statement. `fixity(name)` gives (side, level) of an operator in scope, or None; `is_module(name)` says whether what stands behind the name's dot is of a module, and no projection.

    Nodes: ("name", n) ("num", n) ("app", f, x) ("field", e, f) ("λ", names, e) ("let", n, e, body) ("record", [(f, e)]) ("type",) ("unit",) ("→", names, domain, codomain) ("×", names, a, b) ("implicit", f, e).
    """

    def __init__(self, statement, words, fixity, is_module=lambda _: False):
        self.statement, self.words, self.fixity, self.is_module, self.at = statement, words, fixity, is_module, 0

    def peek(self, k=0):
        return self.words[self.at + k] if self.at + k < len(self.words) else None

    def take(self, wanted=None):
        word = self.peek()
        if word is None or (wanted is not None and word != wanted):
            self.statement.refuse(f"`{wanted}` wanted at `{' '.join(self.words[self.at:self.at + 6])}`")
        self.at += 1
        return word

    def whole(self, kind):
        e = kind()
        if self.peek() is not None:
            self.statement.refuse(f"not read to the end: `{' '.join(self.words[self.at:self.at + 6])}`")
        return e

    # ---- types: what a name stands for is not looked at, a product or an arrow is kept
    def type(self):
        names = self.binder()
        if names is not None:
            domain = self.bound
        else:
            domain = self.expression(3)
        if self.peek() == "×":
            self.take()
            left = ("×", names, domain, self.product())
            names, domain = None, left
        if self.peek() == "→":
            self.take()
            return ("→", names, domain, self.type())
        if names is not None:
            if self.binder_next():  # (x : A) (y : B) → C
                return ("→", names, domain, self.type())
            self.statement.refuse("a binder that binds nothing")
        return domain

    def product(self):
        names = self.binder()
        left = self.bound if names is not None else self.expression(3)
        if self.peek() == "×":
            self.take()
            return ("×", names, left, self.product())
        if names is not None:
            self.statement.refuse("a binder that binds nothing")
        return left

    def binder_next(self):
        k = 1
        if self.peek() not in ("(", "{"):
            return False
        while self.peek(k) is not None and is_name(self.peek(k)):
            k += 1
        return k > 1 and self.peek(k) == ":"

    # (x y : T) or {x y : T}; its type is left in `bound`
    def binder(self):
        if not self.binder_next():
            return None
        implicit = self.take() == "{"
        names = []
        while self.peek() != ":":
            names.append(self.take())
        self.take(":")
        self.bound = self.type()
        self.take("}" if implicit else ")")
        return [("implicit", n) if implicit else ("explicit", n) for n in names]

    # ---- expressions
    def expression(self, level=0):
        left = self.operand()
        while True:
            word = self.peek()
            found = self.fixity(f"◌{word}◌") if word is not None and is_name(word) else None
            if not found or found[1] < level:
                return left
            self.take()
            side, own = found
            right = self.expression(own if side == "infixr" else own + 1)
            left = ("app", ("app", ("name", f"◌{word}◌"), left), right)

    def operand(self):
        word = self.peek()
        if word == "λ":
            return self.function()
        if word == "let":
            return self.local()
        found = self.fixity(f"{word}◌") if word is not None and is_name(word) else None
        if found:
            self.take()
            return ("app", ("name", f"{word}◌"), self.expression(found[1]))
        return self.application()

    def begins(self):
        word = self.peek()
        if word is None or word in (")", "}", ";", ",", ".", "in", "=", ":", "→", "×"):
            return False
        return not (is_name(word) and (self.fixity(f"◌{word}◌") or self.fixity(f"{word}◌")))

    def application(self):
        e = self.atom()
        while self.begins():
            word = self.peek()
            if word in ("λ", "let"):
                return ("app", e, self.operand())
            elif word == "{":
                e = self.implicit(e)
            else:
                e = ("app", e, self.atom())
        return e

    def implicit(self, e):
        self.take("{")
        if not (is_name(self.peek()) and self.peek(1) == "="):
            self.statement.refuse("an implicit argument with no name")
        self.take()
        self.take("=")
        self.type()
        self.take("}")
        return ("implicit", e)

    def atom(self):
        word = self.take()
        if word == "(":
            e = self.pair()
            self.take(")")
            if self.peek() is not None and self.peek()[0] == "." and len(self.peek()) > 1:
                e = self.projected(e, self.take()[1:].split("."))
            return e
        if word == "record":
            return self.record()
        if word == "Type":
            if numeral(self.peek() or "") is None:
                self.statement.refuse("a universe with no level")
            self.take()
            return ("type",)
        if word == "Unit" and self.peek() == "{" and numeral(self.peek(1) or "") is not None:
            self.at += 2
            self.take("}")
            return ("unit",)
        n = numeral(word)
        if n is not None:
            return ("num", n)
        if not is_name(word):
            self.statement.refuse(f"`{word}` where an expression is wanted")
        head, *fields = word.split(".")
        return ("name", word) if self.is_module(head) else self.projected(("name", head), fields)

    # (a, b) of what stands in a bracket, (a, b, c) being (a, (b, c))
    def pair(self):
        e = self.type()
        if self.peek() != ",":
            return e
        self.take()
        return ("app", ("app", ("name", "◌,◌"), e), self.pair())

    def projected(self, e, fields):
        for f in fields:
            e = ("field", e, f)
        return e

    def record(self):
        self.take("{")
        fields = []
        while self.peek() != "}":
            name = self.take()
            self.take("=")
            fields.append((name, self.expression()))
            if self.peek() != "}":
                self.take(";")
        self.take("}")
        return ("record", fields)

    # λ x y. e
    def function(self):
        self.take("λ")
        names = []
        while self.peek() != ".":
            if not is_name(self.peek()):
                self.statement.refuse("a λ whose binder is no name")
            names.append(self.take())
        self.take(".")
        return ("λ", names, self.expression())

    # let x = e in body, or let x : T = e in body
    def local(self):
        self.take("let")
        name = self.take()
        if not is_name(name):
            self.statement.refuse("a let whose binder is no name")
        if self.peek() == ":":
            self.take()
            self.type()
        self.take("=")
        e = self.expression()
        self.take("in")
        return ("let", name, e, self.expression())

    # ---- patterns: ("name", n) and its arguments as ("app", ..); `_` is a name
    def pattern(self):
        word = self.take()
        if word == "(":
            p = self.inner()
            self.take(")")
            return p
        if not is_name(word):
            self.statement.refuse(f"`{word}` where a pattern is wanted")
        return ("name", word)

    def inner(self):
        p = self.pattern()
        while self.peek() not in (")", "∷", ","):
            p = ("app", p, self.pattern())
        if self.peek() in ("∷", ","):
            p = ("app", ("app", ("name", f"◌{self.take()}◌"), p), self.inner())
        return p
