#!/usr/bin/env python3
"""The list of reasons of a refused plan (document 02, item 4), told to people: the lines that the last one rests on, each as
a sentence about time, then the loop that cannot be met.

    reasons.py FILE [DOT]    the list on standard input, as the program `why` writes it; the telling on standard output,
                             and the loop as a graph, in graphviz's text form, in the file DOT

Every line that is told is first held to the plan and to the lines it names. Ends with 0 where it told them, else with 2.
"""
import importlib.machinery
import importlib.util
import os
import sys
from typing import NamedTuple

sys.dont_write_bytecode = True

START, LIMIT, LONGEST, SHORTEST, LOWER_CASE, STRICT_JOIN, LOWER, UPPER, OPEN_JOIN = range(1, 10)
JOINS = (STRICT_JOIN, OPEN_JOIN)
OPEN_ONLY = (LOWER_CASE, OPEN_JOIN)
# A loop in the file's own numbers is left out where it is longer: nobody follows so many steps.
MOST_STEPS = 32


class Line(NamedTuple):
    kind: int
    source: int
    target: int
    weight: int
    first: int
    second: int


class Step(NamedTuple):
    """One edge of a loop. `line` is the number of the line that it is, or None where only a line's rule speaks of it."""
    source: int
    target: int
    weight: int
    what: str
    line: object


class Broken(Exception):
    """The list is none that the program writes for this plan."""


def load_planfile():
    """The module tools/planfile, whose name has no ending."""
    script = os.path.join(os.path.dirname(os.path.abspath(__file__)), "planfile")
    loader = importlib.machinery.SourceFileLoader("planfile", script)
    module = importlib.util.module_from_spec(importlib.util.spec_from_loader("planfile", loader))
    loader.exec_module(module)
    return module


def list_of_text(text):
    """The lines of a list, as the program writes it."""
    verdict, *rows = text.splitlines() or [""]
    words = verdict.split()
    if words[:2] != ["refused", "11"] or len(words) != 3:
        raise Broken(f"a list begins with `refused 11` and its length, not with `{verdict}`")
    if words[2] != str(len(rows)) or not rows:
        raise Broken(f"the list is not whole: {len(rows)} lines, where {words[2]} were said")
    lines = []
    for number, row in enumerate(rows):
        try:
            lines.append(Line(*map(int, row.split())))
        except (ValueError, TypeError):
            raise Broken(f"line {number} is not six numbers: `{row}`") from None
    return lines


# ---- which lines, in which order, and whether each follows

def names(line):
    """The numbers of the lines that a line refers to."""
    return (line.first, line.second) if line.kind >= STRICT_JOIN else ()


def chain(lines):
    """The lines that the last one rests on, and itself: each after those it names, a fact of the file right before the first that names it."""
    order, told, todo = [], set(), [len(lines) - 1]
    while todo:
        number = todo[-1]
        missing = [other for other in names(lines[number]) if other not in told]
        if not all(0 <= other < number for other in missing):
            raise Broken(f"line {number} names a line that does not come before it")
        made = [other for other in missing if lines[other].kind > LOWER_CASE]
        if made:
            todo.append(made[0])
            continue
        todo.pop()
        if number not in told:
            order += [*dict.fromkeys(missing), number]
            told.update(missing, [number])
    return order


def expected(plan, lines, line):
    """What a line has to be by the plan and what it names: from, to, weight. None where no such line may be written."""
    if line.kind == START:
        return line.source, 0, 0
    if line.kind == LIMIT:
        return plan.limits[line.first]
    if line.kind in (LONGEST, SHORTEST, LOWER_CASE):
        a, c, l, u = plan.links[line.first]
        return {LONGEST: (a, c, u), SHORTEST: (c, a, -l), LOWER_CASE: (a, c, l)}[line.kind]
    one, two = lines[line.first], lines[line.second]
    if line.kind in JOINS:
        if one.target != two.source or line.kind == STRICT_JOIN and (one.kind in OPEN_ONLY or two.kind in OPEN_ONLY):
            return None
        return one.source, two.target, one.weight + two.weight
    if line.kind == LOWER and one.kind == LOWER_CASE and two.kind not in OPEN_ONLY and one.target == two.source != two.target:
        spread = {c: u - l for _, c, l, u in plan.links}
        return (one.source, two.target, one.weight + two.weight) if two.weight < spread.get(two.target, two.weight) else None
    if line.kind == UPPER and two.kind == LONGEST and one.kind not in OPEN_ONLY and one.target == two.target:
        return one.source, two.source, max(one.weight - two.weight, -plan.links[two.first][2])
    return None


def hold(plan, lines, number):
    """Refuses a line that does not follow. What is told must be true even where the list is not."""
    line = lines[number]
    try:
        follows = min(line.first, line.second) >= 0 and expected(plan, lines, line) == line[1:4]
    except IndexError:
        follows = False
    if not follows or not 0 <= line.source < plan.points:
        raise Broken(f"line {number} does not follow from the plan and what it names: {' '.join(map(str, line))}")


# ---- sentences

def seconds(count):
    return "1 second" if count == 1 else f"{count} seconds"


def about_time(source, target, weight, why=""):
    """An edge in words: the target is at most the weight after the source."""
    if source == target and weight < 0:
        return f"point {source} comes at least {seconds(-weight)}{why} before itself"
    if weight < 0:
        return f"point {source} comes at least {seconds(-weight)}{why} after point {target}"
    return f"point {target} comes at most {seconds(weight)}{why} after point {source}"


def link_of_rule(lines, line):
    """The index of the link whose Lower or Upper this is."""
    return lines[line.first if line.kind == LOWER else line.second].first


def waits(lines, line):
    """Whether Upper took -l: the point waits for the link's end, since no earlier moment suits the longest duration."""
    return line.kind == UPPER and lines[line.first].weight - lines[line.second].weight < line.weight


def shortest_links(lines, number):
    """The links that an open join takes at their shortest."""
    return sorted({lines[part].first for part in walk_of_joins(lines, number) if lines[part].kind == LOWER_CASE})


def case_of(links):
    if not links:
        return ""
    if len(links) == 1:
        return f" where link {links[0]} takes its shortest"
    return f" where links {', '.join(map(str, links[:-1]))} and {links[-1]} take their shortest"


def words_of_rule(plan, lines, line):
    """Why Lower or Upper may be said, as docs/RULES.md puts it."""
    link = link_of_rule(lines, line)
    _, _, l, u = plan.links[link]
    if line.kind == LOWER:
        return f"link {link} may take as little as {l}, and point {line.target}, not ours to choose, has to be in time even then"
    if waits(lines, line):
        waiting = " waits" if line.source != line.target else ", which begins it, would have to wait"
        return f"link {link} may take as long as {u}, so point {line.source}{waiting} for its end, at least {l}"
    return f"link {link} may take as long as {u}"


def sentence(plan, lines, number):
    """A line of the list in words: its number, what it is, and what it says about time."""
    line = lines[number]
    title, edge, named = f"line {number}", line[1:4], f"from lines {line.first} and {line.second}"
    if line.kind == START:
        return f"{title}, start: point {line.source} does not come before the start (point 0)"
    if line.kind == LIMIT:
        return f"{title}, limit {line.first} of the file: {about_time(*edge)}"
    if line.kind == LONGEST:
        return f"{title}, link {line.first} of the file: {about_time(*edge, ' (its longest)')}"
    if line.kind == SHORTEST:
        return f"{title}, link {line.first} of the file: {about_time(*edge, ' (its shortest)')}"
    if line.kind == LOWER_CASE:
        return f"{title}, link {line.first} of the file may take as little as {line.weight}: {about_time(*edge)} then"
    if line.kind == STRICT_JOIN:
        return f"{title}, join: {about_time(*edge)}, {named}"
    if line.kind == OPEN_JOIN:
        return f"{title}, open join: {about_time(*edge)}{case_of(shortest_links(lines, number))}, {named}"
    return f"{title}, {'Lower' if line.kind == LOWER else 'Upper'}: {about_time(*edge)}, {named}: {words_of_rule(plan, lines, line)}"


# ---- the loop

def walk_of_joins(lines, number):
    """The lines that a join is made of, in path order: the line itself where it is no join."""
    parts, todo = [], [number]
    while todo:
        part = todo.pop()
        if lines[part].kind in JOINS:
            todo += [lines[part].second, lines[part].first]
        else:
            parts.append(part)
    return parts


def step_of_line(lines, number):
    line = lines[number]
    what = {START: "start", LIMIT: f"limit {line.first}", LONGEST: f"link {line.first} longest", SHORTEST: f"link {line.first} shortest",
            LOWER_CASE: f"link {line.first} may take as little as {line.weight}", LOWER: f"Lower (line {number})", UPPER: f"Upper (line {number})"}
    waiting = f", waits for link {link_of_rule(lines, line)}" if waits(lines, line) else ""
    return Step(*line[1:4], what[line.kind] + waiting, number)


def parts_of_rule(plan, lines, number):
    """What Lower or Upper goes along: its edge, and its link at its shortest or at its longest. Nothing where a point waits, but the
    last line: there the point that waits is the one that begins the link, and going along the link shows better that it cannot."""
    line = lines[number]
    if line.kind == LOWER:
        return [line.first, line.second]
    if line.kind == UPPER and (not waits(lines, line) or number == len(lines) - 1):
        link = link_of_rule(lines, line)
        a, c, _, u = plan.links[link]
        return [line.first, Step(c, a, -u, f"link {link} may take as long as {u}", None)]
    return []


def loop_of(plan, lines, rules_too):
    """The steps of the last line's closed walk: joins are taken apart, and the last line itself, else it would be one step from a
    point to itself; with `rules_too` every rule's line is, so that steps are facts of the file. None where those are too many."""
    last, steps, todo = len(lines) - 1, [], [len(lines) - 1]
    while todo:
        part = todo.pop()
        if isinstance(part, Step):
            steps.append(part)
            if rules_too and len(steps) > MOST_STEPS:
                return None
            continue
        if lines[part].kind in JOINS:
            parts = walk_of_joins(lines, part)
        else:
            parts = parts_of_rule(plan, lines, part) if rules_too or part == last else []
        todo += reversed(parts or [step_of_line(lines, part)])
    return steps


def total(steps):
    return sum(step.weight for step in steps)


def told_loop(steps):
    """A loop as a sum: from where to where, the weight, and what it is."""
    rows = []
    for step in steps:
        line = f" (line {step.line})" if step.line is not None and f"(line {step.line})" not in step.what else ""
        rows.append((f"point {step.source} to point {step.target}:", str(step.weight), step.what + line))
    rows.append(("in all:", str(total(steps)), ""))
    wide, deep = max(len(row[0]) for row in rows), max(len(row[1]) for row in rows)
    return [f"  {where:{wide}} {weight:>{deep}}  {what}".rstrip() for where, weight, what in rows]


def meaning(steps):
    return f"going round, point {steps[0].source} would have to come at least {seconds(-total(steps))} before itself"


def telling(plan, lines):
    """Everything that is told of a list, line by line."""
    order = chain(lines)
    for number in order:
        hold(plan, lines, number)
    last = lines[-1]
    if last.source != last.target or last.weight >= 0:
        raise Broken("the last line is not one below 0 from a point to itself")
    loop, own = loop_of(plan, lines, False), loop_of(plan, lines, True)
    told = [sentence(plan, lines, number) for number in order]
    told += [f"the loop that cannot be met, from line {len(lines) - 1}:"] + told_loop(loop)
    if waits(lines, last):
        told.append(f"  (line {len(lines) - 1} counts {last.weight}: Upper asks for no more than the link's shortest)")
    if own not in (None, loop):
        told += ["the same loop in the file's own numbers:"] + told_loop(own)
    return told + [meaning(loop)]


# ---- the picture

# Keeps the text of a label off its edge.
GAP = '<br/><font point-size="5"> </font>'


def graph_of(plan, lines):
    """The loop as a graph, in graphviz's text form. What its rules are made of is drawn thin and dashed beside them."""
    loop = loop_of(plan, lines, False)
    beside = [step for step in dict.fromkeys(loop_of(plan, lines, True) or []) if step not in loop]
    title = f"in all {total(loop)}: {meaning(loop)}"
    if beside:
        title += "\\nthick: the loop; dashed: what Lower and Upper in it are made of"
    graph = ["digraph loop {",
             f'  graph [label="{title}", labelloc=b, rankdir=LR, nodesep=0.5, ranksep=0.4, pad=0.2, fontname="Helvetica", fontsize=14]',
             '  node [shape=box, style="rounded,filled", fillcolor=gray95, fontname="Helvetica", fontsize=14]',
             '  edge [fontname="Helvetica", fontsize=13]']
    for point in sorted({point for step in loop + beside for point in (step.source, step.target)}):
        graph.append(f'  {point} [label="point {point}{" (start)" if point == 0 else ""}"]')
    for steps, look in ((loop, "penwidth=2.2"), (beside, "style=dashed, color=gray40, fontcolor=gray25")):
        graph += [f'  {step.source} -> {step.target} [label=<{step.weight}<br/>{step.what}{GAP}>, {look}]' for step in steps]
    return "\n".join(graph + ["}"]) + "\n"


def main(words):
    if len(words) not in (1, 2):
        sys.stderr.write(__doc__)
        return 2
    planfile = load_planfile()
    try:
        with open(words[0], "rb") as file:
            plan = planfile.plan_of_file(file.read())
        lines = list_of_text(sys.stdin.read())
        told = telling(plan, lines)
        if len(words) == 2:
            with open(words[1], "w") as file:
                file.write(graph_of(plan, lines))
    except (Broken, planfile.Refused, OSError) as fault:
        sys.stderr.write(f"reasons: {fault}\n")
        return 2
    print("\n".join(told))
    return 0


if __name__ == "__main__":
    sys.exit(main(sys.argv[1:]))
