"""A library's image, as document 01 lays it out."""
import struct

from tree import Node, root_of

HEADER = struct.Struct("<HBBHHII")
NODE = struct.Struct("<IHBB")
EDITION, CITY_BLOCK = 1, 1


def image(strains, tree):
    """The image of a tree, with its strains, pairs of code and profile, in this order."""
    records = {code: record for record, (code, _) in enumerate(strains)}
    wells = len(strains[0][1])
    profiles_at = HEADER.size + NODE.size * len(strains)
    header = HEADER.pack(EDITION, wells, CITY_BLOCK, len(strains), records[root_of(tree)], profiles_at, HEADER.size)
    nodes = [NODE.pack(code, records[tree[code].parent], tree[code].level + 1, 0) for code, _ in strains]
    profiles = [struct.pack(f"<{wells}h", *profile) for _, profile in strains]
    return header + b"".join(nodes + profiles)


def tree_of(image):
    """The tree that an image holds."""
    profiles_at = HEADER.unpack_from(image)[5]
    records = list(NODE.iter_unpack(image[HEADER.size:profiles_at]))
    return {code: Node(records[parent][0], level_byte - 1) for code, parent, level_byte, _ in records}


def parent_bytes(record):
    """The places of the two bytes that hold the number of a record's parent."""
    node = HEADER.size + NODE.size * record
    return {node + 4, node + 5}
