"""Makers of instances by family, for bench/base.

GAINS and COSTS give a family's name to its instances, each a name and what makes its problem. In
those of GAINS bounds by multipliers are to save steps, in those of COSTS they are to cost next to
nothing. The same name gives the same problem on every machine. `mps` and `lp` spell a problem.
"""
import collections
import itertools
import random

# The bounds of each integer column as (low, high), rows as (kind, {column: coefficient}, side), and the
# costs as {column: coefficient}.
Problem = collections.namedtuple("Problem", "bounds rows costs maximise", defaults=[False])


def mps(problem):
    """The MPS text of a problem."""
    pairs = [[] for _ in problem.bounds]
    for place, (_, row, _) in enumerate(problem.rows):
        for column, factor in row.items():
            if factor:
                pairs[column].append((place, factor))
    lines = ["OBJSENSE MAX"] if problem.maximise else []
    lines += ["ROWS", " N Z"]
    lines += [f" {kind} R{place}" for place, (kind, _, _) in enumerate(problem.rows)]
    lines += ["COLUMNS", " M 'MARKER' 'INTORG'"]
    for column, its in enumerate(pairs):
        lines += [f" C{column} R{place} {factor}" for place, factor in its]
        cost = problem.costs.get(column, 0)
        if cost or not its:
            lines.append(f" C{column} Z {cost}")
    lines.append("RHS")
    lines += [f" S R{place} {side}" for place, (_, _, side) in enumerate(problem.rows)]
    lines.append("BOUNDS")
    for column, (low, high) in enumerate(problem.bounds):
        if low:
            lines.append(f" LO B C{column} {low}")
        lines.append(f" UP B C{column} {high}")
    return "\n".join([*lines, "ENDATA", ""])


def terms(row):
    """A sum in the LP format, a term a line: not every reader takes long lines."""
    lines = [f" {'-' if row[column] < 0 else '+'} {abs(row[column])} C{column}" for column in row]
    return "\n".join(lines or [" 0 C0"])


def lp(problem):
    """The LP text of a problem."""
    signs = {"L": "<=", "G": ">=", "E": "="}
    lines = ["Maximize" if problem.maximise else "Minimize", f" Z:\n{terms(problem.costs)}"]
    lines.append("Subject To")
    for place, (kind, row, side) in enumerate(problem.rows):
        lines.append(f" R{place}:\n{terms(row)} {signs[kind]} {side}")
    lines.append("Bounds")
    bounds = enumerate(problem.bounds)
    lines += [f" {low} <= C{column} <= {high}" for column, (low, high) in bounds]
    lines.append("General")
    lines += [f" C{column}" for column in range(len(problem.bounds))]
    return "\n".join([*lines, "End", ""])


def binary(count):
    return [(0, 1)] * count


def ones(columns):
    return {column: 1 for column in columns}


def gen(seed, size):
    """A knapsack of three rows, drawn as `ug gen` draws it."""
    numbers, number = [], seed
    for _ in range(4 * size):
        number = 16807 * number % 2147483647
        numbers.append(number)
    costs = {column: 1 + numbers[column] % 100 for column in range(size)}
    rows = []
    for place in range(1, 4):
        row = {column: 1 + numbers[place * size + column] % 50 for column in range(size)}
        rows.append(("L", row, sum(row.values()) // 2))
    return Problem(binary(size), rows, costs, True)


def knapsack(seed, size):
    """One row in which profits are the weights and a constant more."""
    draw = random.Random(f"knapsack {seed}")
    row = {column: draw.randrange(1, 1000) for column in range(size)}
    costs = {column: factor + 100 for column, factor in row.items()}
    return Problem(binary(size), [("L", row, sum(row.values()) // 2)], costs, True)


def cover(seed, points, sets):
    """The cheapest sets that cover all points."""
    draw = random.Random(f"cover {seed}")
    costs = {column: draw.randrange(1, 21) for column in range(sets)}
    rows = []
    for _ in range(points):
        rows.append(("G", ones(draw.sample(range(sets), draw.randrange(4, 9))), 1))
    return Problem(binary(sets), rows, costs)


def assign(seed, size):
    """The cheapest assignment within one budget of time."""
    draw = random.Random(f"assign {seed}")
    cells = list(itertools.product(range(size), range(size)))
    costs = {place: draw.randrange(1, 61) for place in range(len(cells))}
    times = {place: draw.randrange(1, 41) for place in range(len(cells))}
    rows = []
    for end, which in itertools.product((0, 1), range(size)):
        row = ones(place for place, cell in enumerate(cells) if cell[end] == which)
        rows.append(("E", row, 1))
    rows.append(("L", times, 17 * size))
    return Problem(binary(size * size), rows, costs)


def gap(seed, agents, jobs):
    """The cheapest agents for jobs, each within what it can do."""
    draw = random.Random(f"gap {seed}")
    loads = [[draw.randrange(5, 26) for _ in range(jobs)] for _ in range(agents)]
    costs = {place: draw.randrange(10, 51) for place in range(jobs * agents)}
    rows = []
    for job in range(jobs):
        rows.append(("E", ones(job * agents + agent for agent in range(agents)), 1))
    for agent in range(agents):
        row = {job * agents + agent: loads[agent][job] for job in range(jobs)}
        rows.append(("L", row, sum(row.values()) * 8 // (10 * agents)))
    return Problem(binary(agents * jobs), rows, costs)


def general(seed, columns, count, most):
    """Rows with general integers."""
    draw = random.Random(f"int {seed}")
    costs = {column: draw.randrange(5, 60) for column in range(columns)}
    rows = []
    for _ in range(count):
        row = {column: draw.randrange(1, 40) for column in range(columns)}
        rows.append(("L", row, sum(row.values()) * most * 2 // 5))
    return Problem([(0, most)] * columns, rows, costs, True)


def queens(size, dearer):
    """The cheapest queens that attack or fill each field, those of one edge dearer by so much."""
    cells = list(itertools.product(range(size), range(size)))

    def sees(a, b):
        return a[0] == b[0] or a[1] == b[1] or abs(a[0] - b[0]) == abs(a[1] - b[1])

    rows = []
    for cell in cells:
        row = ones(place for place, other in enumerate(cells) if sees(cell, other))
        rows.append(("G", row, 1))
    costs = {place: 1 + dearer * (cell[0] == 0) for place, cell in enumerate(cells)}
    return Problem(binary(size * size), rows, costs)


def stable(seed, vertices, percent):
    """The most vertices of a random graph without an edge between two."""
    draw = random.Random(f"stable {seed}")
    pairs = itertools.combinations(range(vertices), 2)
    rows = [("L", ones(pair), 1) for pair in pairs if draw.randrange(100) < percent]
    return Problem(binary(vertices), rows, ones(range(vertices)), True)


def pigeons(birds, holes):
    """Each bird has a hole, and no hole has two."""
    rows = []
    for bird in range(birds):
        rows.append(("E", ones(bird * holes + hole for hole in range(holes)), 1))
    for hole in range(holes):
        rows.append(("L", ones(bird * holes + hole for bird in range(birds)), 1))
    return Problem(binary(birds * holes), rows, {})


def even(seed, count):
    """Even numbers with an odd sum."""
    draw = random.Random(f"even {seed}")
    row = {column: 2 * draw.randrange(40, 60) for column in range(count)}
    return Problem(binary(count), [("E", row, sum(row.values()) // 4 * 2 + 1)], {})


def job_shop(seed, jobs, machines):
    """The earliest end of jobs on machines, with a column for each order of two."""
    draw = random.Random(f"job_shop {seed}")
    orders = [draw.sample(range(machines), machines) for _ in range(jobs)]
    takes = [[draw.randrange(1, 10) for _ in range(machines)] for _ in range(jobs)]
    most = sum(map(sum, takes)) * 2 // 3
    twos = itertools.combinations(range(jobs), 2)
    pairs = [(machine, a, b) for machine, (a, b) in itertools.product(range(machines), twos)]
    end = len(pairs)

    def start(job, machine):
        return end + 1 + job * machines + machine

    rows = []
    for job, order in enumerate(orders):
        for one, next_one in zip(order, order[1:]):
            rows.append(("G", {start(job, next_one): 1, start(job, one): -1}, takes[job][one]))
        rows.append(("G", {end: 1, start(job, order[-1]): -1}, takes[job][order[-1]]))
    for place, (machine, a, b) in enumerate(pairs):
        first, second = start(a, machine), start(b, machine)
        rows.append(("G", {second: 1, first: -1, place: -most}, takes[a][machine] - most))
        rows.append(("G", {first: 1, second: -1, place: most}, takes[b][machine]))
    bounds = binary(end) + [(0, most)] * (1 + jobs * machines)
    return Problem(bounds, rows, {end: 1})


def golomb(marks, length):
    """Marks on a ruler whose distances all differ."""
    pairs = list(itertools.combinations(range(length + 1), 2))
    rows = [("E", ones(range(length + 1)), marks), ("E", {0: 1}, 1)]
    for place, (a, b) in enumerate(pairs):
        rows.append(("L", {a: 1, b: 1, length + 1 + place: -1}, 1))
    for far in range(1, length + 1):
        same = [length + 1 + place for place, (a, b) in enumerate(pairs) if b - a == far]
        rows.append(("L", ones(same), 1))
    return Problem(binary(length + 1 + len(pairs)), rows, {})


def clauses(seed, variables, count):
    """Random clauses of three literals."""
    draw = random.Random(f"clauses {seed}")
    rows = []
    for _ in range(count):
        signs = {column: draw.choice((1, -1)) for column in draw.sample(range(variables), 3)}
        rows.append(("G", signs, 1 - sum(sign < 0 for sign in signs.values())))
    return Problem(binary(variables), rows, {})


def coloured(vertices, edges, colours):
    """A colour for each vertex, none the same at both ends of an edge."""
    rows = []
    for vertex in range(vertices):
        rows.append(("E", ones(vertex * colours + colour for colour in range(colours)), 1))
    for (a, b), colour in itertools.product(edges, range(colours)):
        rows.append(("L", ones((a * colours + colour, b * colours + colour)), 1))
    return Problem(binary(vertices * colours), rows, {})


def mycielski(order, colours):
    """Colours for a graph of Mycielski's construction, which needs one more than its order."""
    vertices, edges = 2, [(0, 1)]
    for _ in range(order - 1):
        edges += [pair for a, b in edges for pair in ((a, vertices + b), (b, vertices + a))]
        edges += [(vertices + place, 2 * vertices) for place in range(vertices)]
        vertices = 2 * vertices + 1
    return coloured(vertices, edges, colours)


def random_colours(seed, vertices, percent, colours):
    """Colours for a random graph."""
    draw = random.Random(f"colours {seed}")
    pairs = itertools.combinations(range(vertices), 2)
    edges = [pair for pair in pairs if draw.randrange(100) < percent]
    return coloured(vertices, edges, colours)


def splits(seed, count, markets):
    """Several sums that are to be halved at once."""
    draw = random.Random(f"splits {seed}")
    rows = []
    for _ in range(markets):
        row = {column: draw.randrange(100) for column in range(count)}
        rows.append(("E", row, sum(row.values()) // 2))
    return Problem(binary(count), rows, {})


def bins(seed, items, most):
    """The fewest bins of 100 for items."""
    draw = random.Random(f"bins {seed}")
    sizes = [draw.randrange(20, 65) for _ in range(items)]
    rows = []
    for item in range(items):
        rows.append(("E", ones(item * most + place for place in range(most)), 1))
    for place in range(most):
        row = {item * most + place: sizes[item] for item in range(items)}
        rows.append(("L", {**row, items * most + place: -100}, 0))
    costs = ones(items * most + place for place in range(most))
    return Problem(binary(items * most + most), rows, costs)


def each(maker, *lists):
    """The instances of a maker: what names each, and what makes it."""
    return {"-".join(map(str, words)): (lambda words=words: maker(*words)) for words in lists}


GAINS = {
    "gen": each(gen, (3, 30), (5, 30), (7, 26), (11, 28), (13, 28), (17, 30)),
    "knapsack": each(knapsack, (1, 20), (2, 22), (3, 24), (4, 20), (5, 22)),
    "cover": each(cover, (1, 20, 38), (2, 25, 40), (3, 30, 45), (4, 25, 45), (6, 30, 45)),
    "assign": each(assign, (1, 8), (3, 9), (5, 10), (6, 10), (7, 11)),
    "gap": each(gap, (3, 3, 15), (4, 5, 12), (5, 4, 14), (7, 3, 18), (8, 5, 14), (9, 4, 15)),
    "int": each(general, (1, 8, 3, 5), (2, 10, 3, 4), (3, 10, 4, 5), (4, 12, 3, 3), (5, 9, 2, 9)),
    "queens": each(queens, (6, 0), (6, 1), (7, 0), (7, 1)),
    "stable": each(stable, (1, 40, 20), (2, 50, 20), (3, 50, 15), (4, 60, 20)),
    "pigeons": each(pigeons, (7, 6), (8, 7), (9, 8)),
    "even": each(even, (1, 16), (2, 18)),
    "bins": each(bins, (1, 8, 5), (2, 9, 5), (3, 10, 6), (4, 10, 6), (5, 11, 6)),
}

COSTS = {
    "job shop": each(job_shop, (1, 6, 3), (2, 6, 4), (3, 7, 3), (4, 8, 3), (5, 6, 5)),
    "golomb": each(golomb, (7, 22), (7, 24), (7, 25), (8, 28)),
    "clauses": each(clauses, (1, 50, 218), (2, 75, 340), (3, 75, 320), (4, 90, 400), (5, 100, 460)),
    "colours": {
        **each(mycielski, (4, 4)),
        **each(random_colours, (1, 20, 40, 4), (2, 24, 40, 5), (3, 30, 30, 4)),
    },
    "splits": each(splits, (1, 20, 3), (2, 24, 3), (3, 24, 4), (4, 26, 4)),
}

# Instances of the same families that run long enough to compare the times of many solvers.
LONGER = {
    "job shop": each(job_shop, (7, 8, 4), (11, 7, 4), (12, 8, 3)),
    "golomb": each(golomb, (9, 40), (9, 41), (9, 42), (9, 43)),
    "clauses": each(clauses, (11, 100, 430), (13, 115, 490), (14, 120, 512)),
    "colours": each(random_colours, (5, 45, 30, 5), (7, 35, 50, 6), (8, 45, 30, 5), (9, 40, 50, 6)),
    "splits": each(splits, (6, 27, 4), (6, 28, 4), (7, 29, 4)),
}
