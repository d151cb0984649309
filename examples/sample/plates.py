"""The sample's plates, which are invented. All but the last are made from profiles of strains."""
from organisms import PROFILES
from tree import distance


def off(code, *differences):
    """A plate that differs from a strain by so much in each well."""
    return [value + difference for value, difference in zip(PROFILES[code], differences)]


def between(one, other):
    """A plate half the way from one strain to another, well by well. It is as far from both if their distance is even."""
    left = distance(PROFILES[one], PROFILES[other]) // 2
    plate = []
    for here, there in zip(PROFILES[one], PROFILES[other]):
        step = max(-left, min(left, there - here))
        left -= abs(step)
        plate.append(here + step)
    return plate


# Plates that `make --check` looks at: a strain itself, one near a strain of the branch that is hung too far, one as
# near to two strains, and one that is near to none.
EXACT, IN_BRANCH, TIE, FAR = "loop 1 / supply", "loop 2 / return", "loop 4 / return", "osmosis / permeate"

PLATES = [
    (EXACT, PROFILES[111]),
    ("loop 1 / return", off(111, 4, -3, 0, 7, -2, 5, 0, -6)),
    ("loop 2 / supply", off(131, -9, 6, 11, 0, -4, 3, -8, 12)),
    (IN_BRANCH, off(221, 3, 0, -5, 8, -7, 2, 4, -1)),
    (TIE, between(611, 612)),
    ("station 9 / inlet", off(412, -14, 11, 9, -16, 12, 8, -10, 13)),
    (FAR, [6, 2, 9, 0, 4, 11, 3, 7]),
]
