#!/usr/bin/env python3
"""Writes the run of calls that ov_blocks' tests compare with.

A fixed seed draws the calls. What they answer comes from a byte for each block, so from code that
shares nothing with the crate. Run it at the top of the repository:

    python3 tools/block_vectors.py > crates/ov_disk_t/src/blocks/drawn/vectors.rt

A run of free blocks is searched for in the bytes, behind which all blocks are free. Each step is
drawn by chance: a place that is found and held, a range that may be in use, or an extent that is
given up.
"""

import random

SEED = 20
STEPS = 64
LENGTHS = [1, 1, 2, 3, 3, 5, 8, 13]


class Blocks:
    """A byte for each block: 1 where it is in use."""

    def __init__(self) -> None:
        self.used = bytearray()

    def place(self, length: int) -> int:
        return (self.used + bytes(length)).find(bytes(length))

    def hold(self, first: int, length: int) -> bool:
        self.used.extend(bytes(max(0, first + length - len(self.used))))
        if any(self.used[first : first + length]):
            return False
        self.used[first : first + length] = b"\1" * length
        return True

    def give_up(self, first: int, length: int) -> None:
        self.used[first : first + length] = bytes(length)


def drawn_steps() -> tuple[list[str], list[tuple[int, int]]]:
    """The steps, and what is held behind the last one."""
    draw = random.Random(SEED)
    blocks, held, steps = Blocks(), [], []
    while len(steps) < STEPS:
        chance = draw.random()
        if chance < 0.45 or not held:
            length = draw.choice(LENGTHS)
            first = blocks.place(length)
            assert blocks.hold(first, length)
            held.append((first, length))
            steps.append(f"Take({first}, {length})")
        elif chance < 0.62:
            first, length = draw.randrange(40), draw.randrange(1, 6)
            free = blocks.hold(first, length)
            if free:
                held.append((first, length))
            steps.append(f"Hold({first}, {length}, {str(free).lower()})")
        else:
            first, length = held.pop(draw.randrange(len(held)))
            blocks.give_up(first, length)
            steps.append(f"GiveUp({first}, {length})")
    return steps, sorted(held)


def main() -> None:
    steps, left = drawn_steps()
    print("//! Calls and their answers, written by `tools/block_vectors.py`.")
    print("use super::Step::{self, GiveUp, Hold, Take};")
    print()
    print("/// The calls.")
    print(f"pub static STEPS: [Step; {len(steps)}] = [")
    for step in steps:
        print(f"    {step},")
    print("];")
    print()
    print("/// The first block and the length of each extent that is held behind the last call.")
    print(f"pub static LEFT: [(u32, u32); {len(left)}] = [")
    for first, length in left:
        print(f"    ({first}, {length}),")
    print("];")


if __name__ == "__main__":
    main()
