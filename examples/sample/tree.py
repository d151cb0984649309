"""Trees of strains as document 01 has them: distances by metric 1, levels, and who hangs under whom."""
from typing import NamedTuple


class Node(NamedTuple):
    """A strain's place in a tree, which is a dict of a node for each code. The root's parent is itself."""

    parent: int  # its code
    level: int


def distance(one, other):
    return sum(abs(here - there) for here, there in zip(one, other))


def fitting_level(apart):
    """The level e with 2^e < apart <= 2^(e+1)."""
    return (apart - 1).bit_length() - 1


def reach(level):
    """How far from a strain of this level those below it may lie."""
    return 2 ** (level + 1) - 1


def root_of(tree):
    (root,) = (code for code, node in tree.items() if node.parent == code)
    return root


def children(tree, parent):
    return [code for code, node in tree.items() if node.parent == parent and code != parent]


def branch(tree, top):
    """The codes of a strain and of all below it."""
    codes = [top]
    for code in codes:  # which grows by those below
        codes += children(tree, code)
    return codes
