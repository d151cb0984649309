"""Trees by two builders that do not use the rule of adding, as a hospital group's own program may not, and a fault in one of them."""
from tree import Node, distance, fitting_level

LOWEST_LEVEL = -1

# The top of the branch that is hung too far, and the strain under which it is hung.
BRANCH_TOP, FAR_PARENT = 221, 413


def farthest_first(profiles):
    """The tree in which the next strain hung is always the one that lies farthest from all that hang already.

    A strain's level fits its distance from the nearest that hangs already, so any two lie
    further apart than the lower of their levels asks for. These distances never grow. So
    when the first strain of a level is hung, none that is left lies further from those of
    higher levels than the level allows, and each strain of the level has a parent there.
    """
    root = middle(profiles)
    apart = {code: distance(profile, profiles[root]) for code, profile in profiles.items() if code != root}
    tree = {root: Node(root, fitting_level(max(apart.values())) + 1)}
    while apart:
        code = min(apart, key=lambda code: (-apart[code], code))
        level = fitting_level(apart.pop(code))
        tree[code] = Node(nearest(profiles, code, [other for other in tree if tree[other].level > level]), level)
        apart = {left: min(before, distance(profiles[left], profiles[code])) for left, before in apart.items()}
    return tree


def middle(profiles):
    """The strain from which all others together lie least far."""
    return min(profiles, key=lambda code: (sum(distance(profiles[code], other) for other in profiles.values()), code))


def nearest(profiles, code, others):
    return min(others, key=lambda other: (distance(profiles[code], profiles[other]), other))


def level_by_level(profiles):
    """The tree that is filled from its root down, a level at a time, with the strains in descending order of code.

    A strain goes to the first level at which it lies further than 2^level from all that hang
    already, so any two are apart as they must be. At the level above it did not, or that
    was the root's: so one of a higher level lies near enough to be its parent. Of those it
    takes the one with the highest level, which keeps the tree shallow.
    """
    root, *others = sorted(profiles, reverse=True)
    furthest = max(distance(profiles[root], profiles[code]) for code in others)
    tree = {root: Node(root, fitting_level(furthest) + 1)}
    for level in range(tree[root].level - 1, LOWEST_LEVEL - 1, -1):
        for code in others:
            if code not in tree and all(distance(profiles[code], profiles[other]) > 2 ** level for other in tree):
                tree[code] = Node(highest_near(profiles, tree, code, level), level)
    return tree


def highest_near(profiles, tree, code, level):
    """Of the strains above a level that cover the new one there, the one of the highest level, and of these the nearest."""
    near = [other for other in tree if tree[other].level > level and distance(profiles[code], profiles[other]) <= 2 ** (level + 1)]
    return min(near, key=lambda other: (-tree[other].level, distance(profiles[code], profiles[other]), other))


def hung_too_far(tree):
    """The tree with one branch hung under a parent whose level is high enough, and which lies too far away."""
    return {**tree, BRANCH_TOP: Node(FAR_PARENT, tree[BRANCH_TOP].level)}
