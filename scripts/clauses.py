"""The clauses of a source, whose terms are written as in specs: where they are, and how their wide lines are broken."""
import re

from breaks import TOKEN, WIDTH, has_comment, indent_of, lines_of

# The beginning of a clause, up to its term, and its end. `ghost use` isn't a clause.
HEAD = re.compile(r"(?:(?:requires|ensures)(?: \w+)?|ghost \w+(?: =|:)) \{ ")
BACK = re.compile(r" \};?$")


def clauses(lines):
    """Each clause as the index of its first line and the index of the line after it."""
    end = 0
    for at, line in enumerate(lines):
        if at >= end and HEAD.match(line.lstrip()):
            end = end_of(lines, at)
            yield at, end


def end_of(lines, at):
    """The index of the line after the one that closes this line's first brace."""
    depth = 0
    while at < len(lines):
        tokens = TOKEN.findall(lines[at])
        depth += tokens.count("{") - tokens.count("}")
        at += 1
        if depth <= 0:
            break
    return at


def later_of(lines, at):
    """The column of the lines that continue a line: its own if it is indented four more than one above, which it then continues itself."""
    indent = indent_of(lines[at])
    outer = next((it for it in map(indent_of, reversed(lines[:at])) if it < indent), None)
    return indent if outer == indent - 4 else indent + 4


def parts_of(lines, at):
    """The lines that one line of a clause is broken into, or just that line if it fits or can't be broken."""
    line, back = lines[at], BACK.search(lines[-1])
    if len(line) <= WIDTH or has_comment(line) or not back:
        return [line]
    head = "" if at else HEAD.match(line.lstrip())[0]
    return lines_of([line], indent_of(line), later_of(lines, at), head, back[0] if at + 1 == len(lines) else "") or [line]


def broken_clause(lines):
    """The lines of a clause with the wide ones broken. The last part of a broken line joins the line below if both fit on it."""
    lines, made = list(lines), []
    for at in range(len(lines)):
        parts, below = parts_of(lines, at), "".join(lines[at + 1:at + 2])
        both = f"{parts[-1]} {below.lstrip()}"
        if len(parts) > 1 and below and indent_of(below) == indent_of(parts[-1]) and len(both) <= WIDTH and not has_comment(both):
            lines[at + 1] = both
            parts = parts[:-1]
        made += parts
    return made


def with_broken_clauses(lines):
    """The lines of a source with the wide lines of its clauses broken."""
    made, done = [], 0
    for start, end in clauses(lines):
        made += lines[done:start] + broken_clause(lines[start:end])
        done = end
    return made + lines[done:]
