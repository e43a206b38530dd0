"""The imports of specs and proofs: what a `use` line imports, and lines that import the same in groups."""
import re

from breaks import TOKEN, WIDTH

USE = re.compile(r"^((?:pub )?use )([^\s{]+?)(?:\.(\{.*\}))?( as \S+)?$")


def leaves(tree):
    """The paths of a use tree: `a.{b, c.{d, e}}` has `a.b`, `a.c.d` and `a.c.e`."""
    front, brace, rest = tree.partition("{")
    if not brace:
        return [tree.strip()] if tree.strip() else []
    parts, depth = [""], 0
    for letter in rest[:rest.rindex("}")]:
        depth += {"{": 1, "}": -1}.get(letter, 0)
        if letter == "," and depth == 0:
            parts.append("")
        else:
            parts[-1] += letter
    return [front.strip() + leaf for it in parts for leaf in leaves(it)]


def grouped(paths, top=True):
    """The use tree of sorted paths, each a tuple of words; at the top what is imported is always in braces."""
    front = 0
    while all(len(it) > front + 1 for it in paths) and len({it[front] for it in paths}) == 1:
        front += 1
    parts, below = [], {}
    for it in paths:
        if len(it) == front + 1:
            parts.append(it[front])
        else:
            below.setdefault(it[front], []).append(it[front:])
    parts += [grouped(it, False) for it in below.values()]
    group = ", ".join(parts)
    return "".join(f"{it}." for it in paths[0][:front]) + (f"{{{group}}}" if top or len(parts) > 1 else group)


def use_lines(paths, head):
    """Lines that import these paths: those of a library together, and those of a module on one line if they fit."""
    fits = lambda them: len(head + grouped(them)) <= WIDTH
    libraries, lines = {}, []
    for it in sorted(paths, key=lambda it: (it[:2] != ("Rattle", "std"), it[:-1], not re.search(r"\w", it[-1]), it[-1].lower(), it[-1])):
        libraries.setdefault(it[:2] if it[0] == "Rattle" else it[0], {}).setdefault(it[:-1], []).append(it)
    for modules in libraries.values():
        line = []
        for names in modules.values():
            if not fits(line + names):
                lines, line = lines + [line] * bool(line), []
            for name in names:
                if not fits([*line, name]) and line:
                    lines, line = [*lines, line], []
                line.append(name)
        lines.append(line)
    return [head + grouped(it) for it in lines]


def is_narrowest(line):
    """Whether a line can't be narrower, since it imports a single name, or has a name or a string that is too long for a line."""
    found = USE.match(line)
    indent = len(line) - len(line.lstrip())
    return len(leaves(found[3] or "")) < 2 if found else any(re.match(r'["\w]', it) and indent + len(it) > WIDTH for it in TOKEN.findall(line))


def unfolded(lines):
    """The lines, with each group of imports that `rt fmt` has spread over several lines on one."""
    made = []
    for line in lines:
        if made and re.match(r"(pub )?use ", made[-1]) and made[-1].count("{") > made[-1].count("}"):
            made[-1] = f"{made[-1]} {line.strip()}"
        else:
            made.append(line)
    return made


def words_used(lines):
    """The words outside imports and comments, and the first words of the imports' paths; a dotted name counts as its parts."""
    rest = "\n".join(it for it in lines if not re.match(r"(pub )?use ", it))
    heads = {it.split("use ")[1].split(".")[0] for it in lines if re.match(r"(pub )?use ", it)}
    return heads | {part for word in TOKEN.findall(rest) if not word.startswith("--") for part in (word, word.strip("«»"))}


def is_used(item, words):
    """Whether an item, `x` or `x as y`, is among the words, under the name that it has here; an operator is if one of its parts is."""
    name = item.rpartition(" as ")[2]
    return item.startswith("syntax ") or name in words or any(part in words for part in name.split("◌") if part)


def imports(lines):
    """The lines, with each run of imports in groups and without unused ones, and the unused paths."""
    lines = unfolded(lines)
    words, made, unused, paths, whole = words_used(lines), [], [], {}, set()
    for line in [*lines, ""]:
        head, front, group, _ = found.groups() if (found := USE.match(line)) else (None, "", None, None)
        for path in (it.split(".") for it in leaves(f"{front}.{group}") if group):
            # What is passed on is for other files.
            if head != "use " or is_used(path[-1], words):
                paths.setdefault(head, set()).add(tuple(path))
            else:
                unused.append(".".join(path))
        if head and not group:
            whole.add(line)
        elif not head:
            made += [it for head, them in sorted(paths.items()) for it in use_lines(them, head)] + sorted(whole) + [line]
            paths, whole = {}, set()
    return made[:-1], unused
