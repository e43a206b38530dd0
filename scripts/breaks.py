"""Where to break a line of a proof or a clause: `lines_of` finds the cheapest way, judged by what is around each break. `scripts/layout`
uses it."""
import re
from functools import lru_cache

WIDTH = 100
TOKEN = re.compile(r'--.*|"(?:[^"\\]|\\.)*"|\{-[\s\S]*?-\}|[(){}.;,@]|[^\s(){}.;,@"]+')
# The cost of a line, of each bracket around a break, of each looser operator beside it, of a break right after a function's name, of a line
# that is too wide, and of each column too many.
LINE, DEPTH, STEP, HEAD, WIDE, OVER = 10, 8, 10, 8, 1000, 2
# The operators, from loosest to tightest; and what ends a term, besides brackets.
LEVELS = [["→"], ["↔", "⊎", "×"], ["≡", "≢", "≤", "<"], ["∙"], ["||"], ["&&"], ["=="], ["++", "∷"], ["+", "-"]]
LEVEL = {it: level for level, them in enumerate(LEVELS) for it in them}
ENDS = ("in", "=", "↦", ",", ";", "|", "then", "else")
# The separator of a list, by its bracket.
PARTS = {"(": ",", "{": ";", "[": "|"}
CLOSERS = (")", "}", "]")
# What has no break before it, and what has none after it.
HELD = ("=", ":", "↦", "|", "[", "where")
HOLDS = ("λ", "←", "¬", "let", "record", "elim", "if", "|", "unfolding", "module", "pub", "abbrev", "data")


def indent_of(line):
    return len(line) - len(line.lstrip())


def has_comment(line):
    return any(it.startswith("--") for it in TOKEN.findall(line))


class Scope:
    """A term and the operators at its top level: the more kinds there are, the deeper is what is beside them."""

    def __init__(self, outer):
        self.outer, self.levels = outer, set()

    def cost(self, level=len(LEVELS) + 1):
        """What a break before an operator of this level costs, given the looser ones and the brackets around it."""
        return (self.outer.cost() + DEPTH if self.outer else 0) + STEP * len([it for it in self.levels if it < level])


class Token:
    def __init__(self, text, is_spaced):
        self.text, self.is_spaced, self.level = text, is_spaced, level_of(text)
        # The term that it is in, how many brackets are around it, its matching bracket, and where the separators of its list are.
        self.scope, self.depth, self.mate, self.parts = None, 0, None, []
        # Whether it opens a list, whether it is in a binder's names, and what a break in the type of a `let` costs.
        self.is_list, self.is_bound, self.typed = False, False, 0


def level_of(text):
    """How tightly an operator binds; None for any other token."""
    is_other = re.match(r"\w|.*[()\[\]{}\"◌]", text) or text in (".", ",", ";", "@", ":", "=", "|", "↦", "λ", "⊥", "⊤", "←", "¬")
    return None if is_other else LEVEL.get(text, len(LEVELS))


def tokens_of(line):
    """The tokens of a line, with their brackets, lists and terms."""
    tokens = [Token(it[0], 0 < it.start() and line[it.start() - 1] == " ") for it in TOKEN.finditer(line)]
    now, stack = Scope(None), []
    for at, it in enumerate(tokens):
        if it.text in CLOSERS:
            while stack and tokens[stack[-1][1]].text == "let":
                stack.pop()
            now, start = stack.pop() if stack else (Scope(now.outer), None)
            if start is not None:
                it.mate, tokens[start].mate = start, at
        elif it.text == "in" and stack and tokens[stack[-1][1]].text == "let":
            now = stack.pop()[0]
        it.scope, it.depth = now, len(stack)
        if it.text in PARTS or it.text == "let":
            stack.append((now, at))
            now = Scope(now)
        elif stack and it.text == PARTS.get(tokens[stack[-1][1]].text):
            tokens[stack[-1][1]].parts.append(at)
        if it.text in ENDS or it.text == "." and at + 1 < len(tokens) and tokens[at + 1].is_spaced:
            now = Scope(now.outer)
        elif it.level is not None:
            now.levels.add(it.level)
    for at, it in enumerate(tokens):
        if it.text in ("λ", "let"):
            bind(tokens, at)
        elif it.text in PARTS and it.mate is not None and it.mate > at + 1:
            before = "".join(" " * two.is_spaced + two.text for two in tokens[max(0, at - 20):at])
            it.is_list = bool(it.parts or it.text == "[" or it.text == "{" and re.search(r"\brecord( \S+| \(.*\))?$", before))
    return tokens


def bind(tokens, at):
    """Marks the names from `λ` to its dot, or from `let` to its `=` or its type, which aren't broken."""
    is_let, is_typed = tokens[at].text == "let", False
    for it in tokens[at + 1:]:
        is_top = it.depth == tokens[at].depth + is_let
        is_typed = is_typed or is_let and is_top and it.text == ":"
        if is_top and it.text == "=." [not is_let]:
            return
        it.typed, it.is_bound = 4 * is_typed, not is_typed


def is_binder(tokens, at):
    """Whether a bracket opens a binder, `(x y : A)`."""
    ends = (it.text for it in tokens[at + 1:] if it.text in (*PARTS, *CLOSERS, ":", ".", ",", "="))
    return tokens[at].text in ("(", "{") and next(ends, "") == ":"


def price_of(tokens, at):
    """What a break before a token costs; None if no break may be there."""
    last, it = tokens[at - 1], tokens[at]
    # `module _`, the bracket of a list whose parts begin the lines below, and what comes right after a list's bracket.
    if last.text == "_" and at == 2 or it.text in PARTS and at + 1 == len(tokens) or last.is_list:
        return None
    if not it.is_spaced or it.is_bound or it.text in HELD or last.text in HOLDS or it.is_list and it.text == "{":
        return None
    if last.text in ("in", "=", "↦", ".") or it.text in ("then", "else", "in", "as"):
        return {"in": 0, "=": 0, "↦": 0, ".": 7}.get(last.text, 2 if it.text in ("then", "else") else 9) + it.scope.cost(-1)
    if it.level is not None:
        return 1 + it.level // 2 + it.typed + it.scope.cost(it.level)
    if is_binder(tokens, at):
        return 2 + it.typed + it.scope.cost(0)
    if last.level is not None or last.text in ("then", "else", "as", "rw", ":"):
        return 12 + it.typed + it.scope.cost()
    before = tokens[at - 2] if at > 1 and last.is_spaced else None
    is_first = last.text != ")" and (before is None or before.level is not None or before.text in (*PARTS, *ENDS, "."))
    return 5 - (it.text in PARTS) + HEAD * is_first + it.typed + it.scope.cost()


class Plan:
    """The best way to break a line. A list is on one line, or each of its parts begins a line, as in `rt fmt`."""

    def __init__(self, tokens):
        self.tokens, self.prices = tokens, [price_of(tokens, at) if at else None for at in range(len(tokens))]
        self.best = lru_cache(maxsize=None)(self.best_of)

    def text(self, start, end):
        return "".join(" " * it.is_spaced + it.text for it in self.tokens[start:end])

    def best_of(self, start, end, indent, later, back=""):
        """The cost and the lines of the tokens from `start` on and before `end`, with `back` after them: the first line at column `indent`, the
        others at column `later`."""
        best, at = (10 ** 9, []), start
        text = " " * indent
        while at < end:
            it = self.tokens[at]
            text += it.text if at == start else self.text(at, at + 1)
            at += 1
            over = max(0, len(text) + len(back) * (at == end) - WIDTH)
            if over > 40 and best[1]:
                break
            options = [(0, (0, []), (0, []))] if at == end else []
            if it.is_list and not it.is_bound and it.mate < end:
                options.append((4 + it.scope.cost(-1) // 3, self.parted(at - 1, indent), self.best(it.mate, end, indent, later, back)))
            if at < end and self.prices[at] is not None:
                options.append((self.prices[at], (0, []), self.best(at, end, later, later, back)))
            for price, parts, rest in options:
                cost = LINE + WIDE * (over > 0) + OVER * over + price + parts[0] + rest[0]
                if cost <= best[0]:
                    best = (cost, [text + back * (at == end), *parts[1], *rest[1]])
            if it.is_list and it.mate < end:
                text += self.text(at, it.mate)
                at = it.mate
        return best

    def parted(self, opener, indent):
        """The cost and the lines of a list each of whose parts begins a line."""
        it, cost, lines = self.tokens[opener], 0, []
        ends = [opener, *it.parts, it.mate]
        for start, end in zip(ends, ends[1:]):
            if start + 1 < end:
                front = "| " * (it.text == "[")
                price, part = self.best(start + 1, end, indent + 2 + len(front), indent + 6, "" if front else PARTS[it.text])
                cost, lines = cost + price, [*lines, " " * (indent + 2) + front + part[0].lstrip(), *part[1:]]
        return cost, lines


def lines_of(lines, indent, later, head="", back=""):
    """Breaks code that spans these lines again: the first line at column `indent`, the others at column `later`. The head and the back of the
    text stay with its first and its last token. None if that makes one line, or leaves no fewer lines too wide."""
    text = " ".join(it.strip() for it in lines)
    tokens = tokens_of(text[len(head):len(text) - len(back)])
    plan = Plan(tokens)
    tokens[0].text = head + tokens[0].text
    best = plan.best(0, len(tokens), indent, later, back)[1]
    too_wide = lambda them: len([it for it in them if len(it) > WIDTH])
    return best if len(best) > 1 and too_wide(best) < too_wide(lines) else None
