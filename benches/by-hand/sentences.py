#!/usr/bin/env python3
"""Prints a sentence whose tree has this number of nodes, of examples/lists-in-groups.ag or of flat.ag in this folder:
`sentences.py lists|flat NODES`."""
import sys

# a list of 31 letters has 33 nodes, and a group of 31 such lists has 1,025
MAX_LETTERS, MAX_LISTS = 31, 31
GROUP = "x " * MAX_LETTERS + ","
CHILDREN = 5


def lists(nodes):
    """Returns full groups, and one with the remaining nodes. The node that ends the groups is one more."""
    list_nodes = MAX_LETTERS + 2
    full, missing = divmod(nodes - 1, MAX_LISTS * list_nodes + 2)
    if missing in (1, 3):
        raise SystemExit(f"sentences: no sentence of lists has a tree of {nodes} nodes, use {nodes + 1}")
    text = (GROUP * MAX_LISTS + ";") * full
    if missing == 0:
        return text
    missing -= 2
    while missing > 0:
        # one node is not a list
        taken = min(missing, list_nodes) - (missing == list_nodes + 1)
        text += "x " * (taken - 2) + ","
        missing -= taken
    return text + ";"


def flat(nodes):
    """Returns the group whose groups are as near to the root as possible."""
    groups, rest = divmod(nodes - 1, CHILDREN)
    if rest != 0:
        raise SystemExit(f"sentences: a flat tree has 1 node and {CHILDREN} for each group")

    def part(number):
        """Returns the text of a node. Nodes are numbered from the root by levels."""
        if number >= groups:
            return "."
        first = CHILDREN * number + 1
        return "(" + "".join(map(part, range(first, first + CHILDREN))) + ")"

    return part(0)


if __name__ == "__main__":
    if len(sys.argv) != 3 or sys.argv[1] not in ("lists", "flat") or not sys.argv[2].isdecimal() or sys.argv[2] == "0":
        sys.exit("sentences: expected `lists` or `flat`, and the number of nodes")
    print(end=(lists if sys.argv[1] == "lists" else flat)(int(sys.argv[2])))
