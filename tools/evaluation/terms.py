"""Expressions as the reader gives them: their parts and the names in them."""
import keyword


def spell(name):
    spelled = "".join(c if c.isascii() and c.isalnum() or c == "_" else f"_{ord(c):x}_" for c in name.strip("«»"))
    return spelled + "_" if keyword.iskeyword(spelled) else spelled


def bare(name):
    return name.strip("«»")


def spine(e):
    args = []
    while e[0] == "app":
        args.append(e[2])
        e = e[1]
    return e, args[::-1]


def mentioned(e, found):
    if e[0] == "name":
        found.add(e[1])
    elif e[0] == "app":
        mentioned(e[1], found)
        mentioned(e[2], found)
    elif e[0] in ("field", "implicit"):
        mentioned(e[1], found)
    elif e[0] == "λ":
        inner = mentioned(e[2], set())
        found |= inner - set(e[1])
    elif e[0] == "let":
        mentioned(e[2], found)
        found |= mentioned(e[3], set()) - {e[1]}
    elif e[0] == "record":
        for _, x in e[1]:
            mentioned(x, found)
    elif e[0] in ("→", "×"):
        mentioned(e[2], found)
        found |= mentioned(e[3], set()) - {n for _, n in e[1] or ()}
    return found


# whether a name is worked in any case
def needed(name, e):
    if e[0] == "name":
        return e[1] == name
    if e[0] == "app":
        head, args = spine(e)
        if head == ("name", "cond") and len(args) == 3:
            return needed(name, args[0]) or (needed(name, args[1]) and needed(name, args[2]))
        if head in (("name", "◌&&◌"), ("name", "◌||◌")):
            return needed(name, args[0])
        return any(needed(name, x) for x in [head] + args)
    if e[0] in ("field", "implicit"):
        return needed(name, e[1])
    if e[0] == "let":
        return (e[1] != name and needed(name, e[3])) or (needed(e[1], e[3]) and needed(name, e[2]))
    if e[0] == "record":
        return any(needed(name, x) for _, x in e[1])
    return False


def replaced(e, old, new):
    if e == old:
        return new
    if e[0] == "record":
        return ("record", [(f, replaced(x, old, new)) for f, x in e[1]])
    return tuple(replaced(x, old, new) if isinstance(x, tuple) and x and isinstance(x[0], str) else x for x in e)
