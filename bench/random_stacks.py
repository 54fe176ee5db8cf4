"""Stacks for the benchmarks: random walks in a seeded call graph, which share their first frames, as stacks do."""

DEPTH = 34
WORDS = "alloc buffer cache decode encode fetch graph handle index join kernel layout merge parse query read".split()


def function_names(dice, count):
    """Names of so many functions."""
    return ["::".join(dice.choices(WORDS, k=3)) + f"_{number}" for number in range(count)]


def call_graph(dice, names):
    """For each function those that it calls, the likeliest first."""
    return [[dice.randrange(names) for _ in range(dice.randint(1, 6))] for _ in range(names)]


def walk(dice, roots, callees):
    """A stack, root first, by the functions' numbers."""
    stack = [dice.choice(roots)]
    while len(stack) < DEPTH:
        below = callees[stack[-1]]
        stack.append(below[min(dice.randrange(len(below)), dice.randrange(len(below)))])
    return stack


def tree_stacks(dice, nodes, names):
    """Stacks until their tree has so many nodes."""
    callees = call_graph(dice, names)
    roots = [dice.randrange(names) for _ in range(24)]
    children, stacks = {}, []
    while len(children) + 1 < nodes:
        stacks.append(walk(dice, roots, callees))
        place = 0
        for name in stacks[-1]:
            place = children.setdefault((place, name), len(children) + 1)
    return stacks


def write_folded(file, names, stacks):
    """Writes stacks as folded text, each with a count of 1."""
    with open(file, "w", encoding="utf-8") as out:
        out.writelines(";".join(names[name] for name in stack) + " 1\n" for stack in stacks)
