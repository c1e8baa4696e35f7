"""What the page draws of a plan: boxes in columns, and lines between those that share what one of them writes."""
from .plan import named

# So many synths are drawn: those of the longest chain and of clashes first.
MOST_BOXES = 48


def shared(first, second):
    """What two synths share of which one writes it."""
    (reads, writes, mixes), (r, w, m) = first.foot, second.foot
    return writes & (r | w | m) | (reads | mixes) & w | mixes & r | reads & m


def chosen(plan, clashes):
    """The synths that are drawn, in the order of the walk."""
    first = {each.number for each in plan.chain} | {number for _, *pair, _ in clashes for number in pair}
    ordered = sorted(plan.synths, key=lambda each: each.number not in first)
    kept = {each.number for each in ordered[:MOST_BOXES]}
    return [each for each in plan.synths if each.number in kept]


def in_runs(resources):
    """The names of resources, those behind each other as one: `a16–17`."""
    found = []
    for kind, number in sorted(resources):
        if found and found[-1][0] == kind and found[-1][2] == number - 1:
            found[-1][2] = number
        else:
            found.append([kind, number, number])
    return " ".join(named((kind, first)) + (f"–{last}" if last > first else "") for kind, first, last in found)


def lines_between(boxes):
    """From each box to those before it on which it depends: the two, and what they share."""
    found = []
    for at, second in enumerate(boxes):
        for first in boxes[:at]:
            common = shared(first, second)
            if common:
                found.append([first.number, second.number, in_runs(common)])
    return found


def sizes_of(plan):
    """How many columns and rows each node takes: what runs in order stands behind each other, and the members of a
    group that is split stand below each other."""
    sizes = {}
    for node in [each for each, _ in reversed(plan.nodes)] + [plan.root]:
        below = [sizes[child] for child in node.children if child.cost is not None]
        along, across = (max, sum) if node.is_split else (sum, max)
        sizes[node] = (along(each[0] for each in below), across(each[1] for each in below)) if below else (1, 1)
    return sizes


def places_of(plan):
    """The column and the row of each synth."""
    sizes, places = sizes_of(plan), {plan.root: (0, 0)}
    for node in [plan.root] + [each for each, _ in plan.nodes]:
        column, row = places[node]
        for child in node.children:
            places[child] = column, row
            if child.cost is not None:
                wide, high = sizes[child]
                column, row = (column, row + high) if node.is_split else (column + wide, row)
    return places


def ranks(numbers):
    """The place of each number among those that are there."""
    return {number: at for at, number in enumerate(sorted(set(numbers)))}


def drawing(plan):
    """A plan as the page draws it."""
    clashes = plan.clashes()
    boxes, places = chosen(plan, clashes), places_of(plan)
    columns, rows = (ranks(places[each][way] for each in boxes) for way in (0, 1))
    chain = [each.number for each in plan.chain]
    return {
        "synths": len(plan.synths), "units": sum(each.units for each in plan.synths), "cost": plan.cost,
        "boxes": [[each.number, each.units, columns[places[each][0]], rows[places[each][1]]] for each in boxes],
        "lines": lines_between(boxes),
        "chain": chain[:4 * MOST_BOXES], "length": len(chain), "clashes": clashes[:MOST_BOXES],
    }


def users(plan):
    """Who uses each bus and buffer: its name, and the ids that write, mix and read it."""
    found = {}
    for each in plan.synths:
        for at, resources in ((2, each.foot.reads), (0, each.foot.writes), (1, each.foot.mixes)):
            for resource in resources:
                found.setdefault(resource, [[], [], []])[at].append(each.number)
    return [[named(resource), *([len(ids), ids[:4]] for ids in found[resource])] for resource in sorted(found)]
