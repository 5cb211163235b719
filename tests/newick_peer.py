#!/usr/bin/env python3
"""Reads written trees with dendropy and compares what it finds: newick_peer.py FILE

`scale --texts FILE` leaves the file. A line has a text, a tab, and the tree that the text was written from: for each node in
text order its depth, its plate (a group has -) and its length, with commas between nodes.
"""
import sys

import dendropy


def nodes_read(text):
    """The nodes as dendropy finds them, in the form of the file."""
    trees = dendropy.TreeList.get(data=text, schema="newick", rooting="force-rooted", edge_length_type=int)
    nodes = [node for tree in trees for node in tree.preorder_node_iter()]
    # a label above a leaf would be a group's
    names = [node.taxon.label if node.taxon else node.label or "-" for node in nodes]
    return ",".join(f"{node.level()} {name} {node.edge.length}" for node, name in zip(nodes, names))


def difference(text, nodes):
    """What dendropy says that is not in the file, or nothing."""
    try:
        found = nodes_read(text)
    except (dendropy.utility.error.DataParseError, ValueError) as error:
        return f"not read: {error}"
    return None if found == nodes else f"expected {nodes}\n  got {found}"


def main():
    with open(sys.argv[1], encoding="ascii") as file:
        lines = [line.rstrip("\n").split("\t") for line in file]
    found = [(text, difference(text, nodes)) for text, nodes in lines]
    differing = [(text, what) for text, what in found if what]
    for text, what in differing[:10]:
        print(f"{text}\n  {what}", file=sys.stderr)
    print(f"dendropy {dendropy.__version__} reads {len(lines)} written texts, {len(differing)} otherwise than they were meant")
    return 1 if differing or not lines else 0


if __name__ == "__main__":
    sys.exit(main())
