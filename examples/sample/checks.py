"""What the sample's files are for, tried: pairs of a sentence and whether it holds."""
import csv
import tempfile
from itertools import combinations
from pathlib import Path

import tool
from builders import BRANCH_TOP
from image import parent_bytes, tree_of
from organisms import PROFILES, STRAINS
from plates import EXACT, FAR, IN_BRANCH, PLATES, TIE
from tree import branch, children, distance, reach, root_of

BUILT = ("approval-order.kwl", "level-by-level.kwl", "farthest-first.kwl")
GOOD, BAD = "farthest-first.kwl", "hung-too-far.kwl"
TOP_RECORD = [code for code, _ in STRAINS].index(BRANCH_TOP)
# Within it of the plate IN_BRANCH lies the branch, and no other strain.
RADIUS = 600


def tries(folder):
    images = {path.name: path.read_bytes() for path in folder.glob("*.kwl")}
    yield from accepted(folder)
    yield from different(images)
    yield from filed(folder, images)
    yield from answered(folder)
    yield from refused(folder)
    yield from misplaced(images)
    yield from lost(tree_of(images[GOOD]), tree_of(images[BAD]))


def accepted(folder):
    for name in BUILT:
        yield f"{name} is accepted", tool.run("check", folder / name)[0] == 0


def different(images):
    for one, other in combinations(BUILT, 2):
        yield f"{one} and {other} are different images", images[one] != images[other]
        yield f"{one} and {other} hold different trees", tree_of(images[one]) != tree_of(images[other])


def filed(folder, images):
    for name in BUILT:
        yield f"the filing form of {name} is filing-form.kwl", filing_form(folder / name) == images["filing-form.kwl"]


def filing_form(image):
    with tempfile.TemporaryDirectory() as scratch:
        form = Path(scratch) / "form.kwl"
        tool.done("file", image, form)
        return form.read_bytes()


def answered(folder):
    printed = [tool.done("match", folder / name, folder / "plates.csv", "-k", "3", "--csv") for name in BUILT]
    yield "every plate gets the same strains of all three builders", len(set(printed)) == 1
    distances = {label: [] for label, _ in PLATES}
    for row in csv.DictReader(printed[0].splitlines()):
        distances[row["label"]].append(int(row["distance"]))
    first, second, third = distances[TIE]
    yield f"the plate {EXACT} is a strain's profile", distances[EXACT][0] == 0
    yield f"two strains tie for the plate {TIE}, and no third", first == second < third
    yield f"no strain is near the plate {FAR}", distances[FAR][0] > RADIUS


def refused(folder):
    status, printed = tool.run("check", folder / BAD)
    yield f"{BAD} is refused with exit status 1", status == 1
    yield f"{BAD} is refused by 12 at the top of the branch", f": refused: 12 cover: record {TOP_RECORD} (code {BRANCH_TOP}) " in printed


def misplaced(images):
    good, bad = images[GOOD], images[BAD]
    changed = {place for place, (here, there) in enumerate(zip(good, bad)) if here != there}
    yield "the branch that is hung too far has eleven strains", len(branch(tree_of(bad), BRANCH_TOP)) == 11
    yield f"{BAD} is {GOOD} but for the branch's parent", len(good) == len(bad) and changed <= parent_bytes(TOP_RECORD)


def lost(good, bad):
    plate = dict(PLATES)[IN_BRANCH]
    eleven = branch(good, BRANCH_TOP)
    yield f"a search that trusts the tree of {GOOD} finds the branch", sorted(trusting(good, plate)) == sorted(eleven)
    yield f"a search that trusts the tree of {BAD} loses it", trusting(bad, plate) == []


def trusting(tree, plate):
    """The codes that document 01's search within a radius finds in a tree that nobody has checked."""
    found, measured = [], [root_of(tree)]
    for code in measured:  # which grows by those below
        apart = distance(PROFILES[code], plate)
        if apart <= RADIUS:
            found.append(code)
        if apart <= RADIUS + reach(tree[code].level):
            measured += children(tree, code)
    return found
