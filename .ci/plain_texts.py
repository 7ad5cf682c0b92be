"""Readers of the two grammars of `docs/FORMATS.md` that are kept as plain as these: they take whole texts. A text of any bytes
is one that was decoded as Latin-1."""
import re
import sys

MAX_VARIABLE = 134_217_727
MAX_NUMBER = 9_223_372_036_854_775_807
# A number may have as many digits as it likes.
sys.set_int_max_str_digits(0)


def number(token):
    """The value of a number token, none of any other."""
    value = int(token) if re.fullmatch("-?[0-9]+", token, re.A) else None
    return None if value == 0 and token.startswith("-") else value


def lines_of(text):
    """The lines that aren't skipped: the number of each, its tokens, and whether the input goes on behind it."""
    parts = text.split("\n")
    for at, line in enumerate(parts, 1):
        tokens = [token for token in re.split("[ \t\r]", line) if token]
        if tokens and not tokens[0].startswith("c"):
            yield at, tokens, at < len(parts)


def read_formula(text):
    """The clauses of a formula, or its fault with its line."""
    end, lines = text.count("\n") + 1, list(lines_of(text))
    if not lines or lines[0][1][0] != "p":
        return ("NoHeader", lines[0][0] if lines else end)
    at, header, _ = lines[0]
    sizes = [number(token) for token in header[2:]]
    is_header = len(header) == 4 and header[1] == "cnf" and None not in sizes and "-" not in "".join(header[2:])
    if not is_header or sizes[1] > 4_294_967_295:
        return ("BadHeader", at)
    if sizes[0] > MAX_VARIABLE:
        return ("VariableRange", at)
    clauses, clause = [], None
    for at, token in ((at, token) for at, tokens, _ in lines[1:] for token in tokens):
        if clause is None and token.startswith("%"):
            return clauses if len(clauses) == sizes[1] else ("ClauseCount", at)
        value = number(token)
        if value is None:
            return ("BadNumber", at)
        if abs(value) > sizes[0]:
            return ("VariableRange", at)
        if clause is None and len(clauses) == sizes[1]:
            return ("ClauseCount", at)
        clause = clause or []
        if value == 0:
            clauses.append(clause)
            clause = None
        else:
            clause.append(value)
    if clause is not None:
        return ("Truncated", end)
    return clauses if len(clauses) == sizes[1] else ("ClauseCount", end)


def out_of_place(value, limit):
    """The fault of a number that may not stand where the limit is this."""
    return "NumberRange" if abs(value) > limit else "Syntax"


def read_line(tokens, goes_on):
    """What a line of a stream says, or its fault."""
    values = [number(token) for token in tokens]
    if values[0] is None:
        return "BadNumber"
    if values[0] < 0 or values[0] > MAX_NUMBER:
        return out_of_place(values[0], MAX_NUMBER)
    kind = {"d": "delete", "i": "import"}.get(tokens[1] if len(tokens) > 1 else "", "add")
    is_delete, part, parts = kind == "delete", 0, [[], []]
    if kind == "import" and values[0] == 0:
        return "Syntax"
    for value in values[1:] if kind == "add" else values[2:]:
        is_literal = kind == "import" or (kind == "add" and part == 0)
        if value is None:
            return "BadNumber"
        if part == (2 if kind == "add" else 1):
            return "Syntax"
        if abs(value) > (MAX_VARIABLE if is_literal else MAX_NUMBER):
            return "NumberRange"
        if (is_delete and value < 0) or (kind == "add" and values[0] == 0):
            return "Syntax"
        if value == 0:
            part += 1
        else:
            parts[part].append(value)
    if part < (2 if kind == "add" else 1):
        return "Syntax" if goes_on else "Truncated"
    return (kind, *([] if is_delete else values[:1]), *(tuple(each) for each in parts[: 2 if kind == "add" else 1]))
