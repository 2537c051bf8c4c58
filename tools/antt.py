"""Reads .antt files statement by statement, for the tests in tools/."""
import re


COMMENT, BLOCK = re.compile(r"\{-|(?:(?<=\s)|^)--[^\n]*", re.M), re.compile(r"\{-|-\}")


# the text without its comments, `-- ..` to the end of the line and `{- .. -}`, which nest; lines stay where they are
def bare(text):
    kept, at, depth = [], 0, 0
    while True:
        found = (BLOCK if depth else COMMENT).search(text, at)
        part = text[at : found.start() if found else None]
        kept.append("\n" * part.count("\n") if depth else part)
        if not found:
            return "".join(kept)
        depth += {"{-": 1, "-}": -1}.get(found.group(), 0)
        at = found.end()


def indent(line):
    return len(line) - len(line.lstrip())


# the file's statements: a line and the deeper lines below it, of a module's head alone
def statements(text):
    lines = [(k, line) for k, line in enumerate(bare(text).split("\n"), 1) if line.strip()]
    k = 0
    while k < len(lines):
        number, whole = lines[k]
        depth = indent(whole)
        k += 1
        head = whole.lstrip().startswith("module ")
        while k < len(lines) and indent(lines[k][1]) > depth and not (head and whole.rstrip().endswith("where")):
            whole += "\n" + lines[k][1]
            k += 1
        yield number, depth, whole.strip()
