#!/usr/bin/env python3
"""Writes the graph and the chains that ov_chain's tests compare with.

The graph has the sets of ten users alone, and then sets that a fixed seed draws. Its edges and its chains come from
the definitions alone, by code that shares nothing with the crates. Run it at the top of the repository:

    python3 tools/chain_vectors.py > crates/ov_graph_t/src/chain/vectors.rt

The edges into a set come from its cover by the sets before it: the nonempty strict subsets, larger ones first and
then by number, each kept where it has a user that the kept ones before it lack. The distance of a node is the least
number of edges from the root. A node's chain goes over the first of the edges into it whose start lies one edge
nearer to the root.
"""

import random

USERS = 10
NODES = 300
NOWHERE = 4096
SEED = 20
WIDTH = 99


def draw_sets() -> list[frozenset[int]]:
    draw = random.Random(SEED)
    sets = [frozenset([user]) for user in range(USERS)]
    while len(sets) < NODES:
        if draw.random() < 0.6:
            new = draw.choice(sets) | {draw.randrange(USERS)}
        else:
            new = draw.choice(sets) | draw.choice(sets)
        if new not in sets and len(new) < USERS:
            sets.append(new)
    return sets


def cover(sets: list[frozenset[int]], node: int) -> list[int]:
    subsets = [earlier for earlier in range(node) if sets[earlier] < sets[node]]
    subsets.sort(key=lambda earlier: (-len(sets[earlier]), earlier))
    covered: frozenset[int] = frozenset()
    kept = []
    for earlier in subsets:
        if not sets[earlier] <= covered:
            kept.append(earlier)
            covered |= sets[earlier]
    return kept


def distances(starts: list[list[int]], root: int) -> dict[int, int]:
    found = {root: 0}
    front = [root]
    while front:
        near = front.pop(0)
        for node, froms in enumerate(starts):
            if near in froms and node not in found:
                found[node] = found[near] + 1
                front.append(node)
    return found


def before(starts: list[list[int]], root: int) -> list[int | None]:
    """The node from which each node's chain takes its last step; None where there is no step or no chain."""
    found = distances(starts, root)
    row: list[int | None] = []
    for node, froms in enumerate(starts):
        if node in found and node != root:
            row.append(next(near for near in froms if found.get(near) == found[node] - 1))
        else:
            row.append(None)
    return row


def filled(items: list[str], indent: str) -> list[str]:
    out, line = [], indent
    for item in items:
        if len(line) + len(item) + 1 > WIDTH:
            out.append(line.rstrip())
            line = indent
        line += item + ", "
    out.append(line.rstrip())
    return out


def main() -> None:
    sets = draw_sets()
    starts = [cover(sets, node) for node in range(NODES)]
    bits = [sum(1 << user for user in users) for users in sets]
    print("//! A graph and the chains in it, written by `tools/chain_vectors.py`.")
    print()
    print("/// How many users there are. Node n has user n alone.")
    print(f"pub const USERS: usize = {USERS};")
    print()
    print("/// How many nodes there are.")
    print(f"pub const NODES: usize = {NODES};")
    print()
    print("/// The set of each node: bit n is user n.")
    print("pub static SETS: [u32; NODES] = [")
    print("\n".join(filled([str(number) for number in bits], "    ")))
    print("];")
    print()
    print("/// No node.")
    print(f"pub const NOWHERE: u32 = {NOWHERE};")
    print()
    print("/// For each user's root, and each node: the node from which the chain takes its last step, or NOWHERE")
    print("/// where it has no step or there is none.")
    print("pub static BEFORE: [[u32; NODES]; USERS] = [")
    for root in range(USERS):
        row = [str(NOWHERE if near is None else near) for near in before(starts, root)]
        print("    [")
        print("\n".join(filled(row, "        ")))
        print("    ],")
    print("];")


if __name__ == "__main__":
    main()
