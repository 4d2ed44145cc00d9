"""The layout of what is written, which is that of `rt fmt`."""

WIDTH = 100
# How many members one call copies or writes.
SEVERAL = {2: "two", 4: "four", 8: "eight"}


def listed(indent, arguments):
    """The arguments of a call that is longer than a line: all on one line where each is short, else one a line."""
    if all(len(argument) <= 10 for argument in arguments):
        return [f"{indent}{', '.join(arguments)},"]
    return [f"{indent}{argument}," for argument in arguments]


def call(indent, head, arguments, tail, width=60):
    """A call in rt fmt's layout: on one line, or an argument a line."""
    line = f"{indent}{head}({', '.join(arguments)}){tail}"
    if len(line) <= WIDTH and len(", ".join(arguments)) <= width:
        return [line]
    rows = listed(indent + "    ", arguments) if width < WIDTH else [f"{indent}    {argument}," for argument in arguments]
    if head.endswith("!"):
        rows[-1] = rows[-1][:-1]
    return [f"{indent}{head}("] + rows + [f"{indent}){tail}"]


def typed_call(indent, head, types, arguments, tail):
    """A call with the types that it is of, in rt fmt's layout: on one line, or an argument a line, or a type a line, too."""
    named = f"{head}::<{', '.join(types)}>"
    if len(f"{indent}{named}(") <= WIDTH:
        return call(indent, named, arguments, tail)
    if len(f"{indent}{head}::<") > WIDTH and " = " in head:
        name, head = head.split(" = ")
        return [f"{indent}{name} ="] + typed_call(indent + "    ", head, types, arguments, tail)
    return [f"{indent}{head}::<"] + [f"{indent}    {one}," for one in types] + call(indent, ">", arguments, tail)


def pair(one, other):
    """Two values as one argument, in rt fmt's layout where arguments stand a line each."""
    line = f"{one}, {other}"
    return f"({line})" if len(line) <= 60 else f"(\n                {one},\n                {other},\n            )"


def together(kinds, ascending=False):
    """Members in groups of eight, four, two and one, each of which one call serves; fewer than four, and what is set of several, stand alone."""
    groups, run = [], []
    for kind in kinds + [None]:
        if kind and not kind.is_choice:
            run.append(kind)
            continue
        sizes = []
        for size in (8, 4, 2, 1) if len(run) > 3 else (1,):
            sizes += [size] * ((len(run) - sum(sizes)) // size)
        for size in sorted(sizes, reverse=not ascending):
            groups.append(run[:size])
            run = run[size:]
        groups += [[kind]] if kind else []
    return groups


def arm(number, head, arguments):
    """An arm that is a call, in rt fmt's layout: in braces where the call alone fits a line."""
    whole = call("            ", f"{number} => {head}", arguments, ",")
    alone = call("                ", head, arguments, "")
    if len(whole) > 1 and len(alone) == 1:
        return [f"            {number} => {{"] + alone + ["            }"]
    return whole


def signature(indent, head, parameters, answer):
    """A function's head in rt fmt's layout."""
    return call(indent, head, parameters, f" -> {answer}", WIDTH)


def array(head, rows):
    """An array in rt fmt's layout: on one line, or a row a line."""
    line = f"{head}[{', '.join(rows)}];"
    if len(line) <= WIDTH and len(", ".join(rows)) <= 60:
        return [line]
    return [f"{head}["] + [f"    {row}," for row in rows] + ["];"]


def flat(tree):
    """A type on one line: a name, or a name with its arguments."""
    return tree if isinstance(tree, str) else f"{tree[0]}<{', '.join(flat(part) for part in tree[1])}>"


def type_lines(indent, head, tree, tail):
    """A type in rt fmt's layout: on one line, or an argument a line."""
    line = f"{indent}{head}{flat(tree)}{tail}"
    if len(line) <= WIDTH or isinstance(tree, str):
        return [line]
    lines = [f"{indent}{head}{tree[0]}<"]
    for part in tree[1]:
        lines += type_lines(indent + "    ", "", part, ",")
    return lines + [f"{indent}>{tail}"]


def choice_of(trees):
    """The choice of several types, as a tree of choices of two."""
    if len(trees) == 1:
        return trees[0]
    half = (len(trees) + 1) // 2
    return ("Either", [choice_of(trees[:half]), choice_of(trees[half:])])


def paths_of(count):
    """The sides by which each of so many is reached in `choice_of`."""
    if count == 1:
        return [[]]
    half = (count + 1) // 2
    return [["Left"] + path for path in paths_of(half)] + [["Right"] + path for path in paths_of(count - half)]


def clause_of(calls):
    """That the result may be polled, which is one of these calls."""
    if len(calls) == 1:
        return f"{calls[0].clause()} result.at"
    return f"{choice_clause(calls)} result"


def choice_clause(calls):
    """Where a choice of calls may be polled."""
    if len(calls) == 1:
        return f"(λ call. {calls[0].clause()} call.at)"
    half = (len(calls) + 1) // 2
    return f"(EitherCanPoll {choice_clause(calls[:half])} {choice_clause(calls[half:])})"


def comments(indent, mark, texts, otherwise):
    """A comment: its lines as they stand, without empty ones at either end."""
    lines = [text.rstrip() for text in texts]
    while lines and not lines[0]:
        lines.pop(0)
    while lines and not lines[-1]:
        lines.pop()
    return [f"{indent}{mark} {line}".rstrip() for line in lines or [otherwise]]


def use_lines(path, names):
    """A `use` of some names, in rt fmt's layout."""
    names = sorted(names, key=lambda name: (name != "self", name[:1].islower(), name))
    if not names:
        return []
    if len(names) == 1:
        return [f"use {path}::{names[0]};"]
    line = f"use {path}::{{{', '.join(names)}}};"
    if len(line) <= WIDTH - 2:
        return [line]
    rows, row = [], "   "
    for name in names:
        if len(row) + len(name) + 2 > WIDTH:
            rows.append(row)
            row = "   "
        row += f" {name},"
    return [f"use {path}::{{"] + rows + [row, "};"]


def sorted_uses(lines):
    """Lines of a file's head with its `use` lines in rt fmt's order; the first lines stay."""
    first = next((place for place, line in enumerate(lines) if line.startswith("use ")), len(lines))
    blocks = []
    for line in lines[first:]:
        if line.startswith("use "):
            blocks.append([line])
        else:
            blocks[-1].append(line)
    blocks.sort(key=lambda block: block[0].removeprefix("use ").removesuffix(";"))
    return lines[:first] + [line for block in blocks for line in block]
