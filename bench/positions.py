#!/usr/bin/env python3
"""Writes the files of positions/: calls for the programs, the same bytes each time.

empty-4.txt asks for the empty 4 by 4 board. random-N.txt has 50 positions on N by N boards with 16 empty cells, on which nobody has
connected: the cells are shuffled, the last 16 stay empty, and the others take the stones of the two sides in turn, in this order.
Boards on which somebody has connected are left out.
"""

import os
import random

SEED = 19420726
SIZES = (5, 7, 11, 19)
POSITIONS = 50
EMPTY = 16
STEPS = ((0, 1), (0, -1), (1, 0), (-1, 0), (-1, 1), (1, -1))


def shuffled(rng, count):
    """The numbers below count in a random order, by random() alone, which is the same in every version of Python."""
    cells = list(range(count))
    for i in range(count - 1, 0, -1):
        j = int(rng.random() * (i + 1))
        cells[i], cells[j] = cells[j], cells[i]
    return cells


def neighbours(n, cell):
    """The cells next to a cell on a board n wide and n tall."""
    for down, right in STEPS:
        row, column = cell // n + down, cell % n + right
        if 0 <= row < n and 0 <= column < n:
            yield row * n + column


def connects(n, side, stones):
    """Whether a row of cells of the set leads from the side's first border to its last."""
    place = (lambda cell: cell // n) if side == 1 else (lambda cell: cell % n)
    front = [cell for cell in stones if place(cell) == 0]
    seen = set(front)
    while front:
        cell = front.pop()
        if place(cell) == n - 1:
            return True
        for near in neighbours(n, cell):
            if near in stones and near not in seen:
                seen.add(near)
                front.append(near)
    return False


def position(rng, n, empty):
    """The moves to a random position with so many empty cells on which nobody has connected."""
    while True:
        moves = shuffled(rng, n * n)[: n * n - empty]
        if not connects(n, 1, set(moves[0::2])) and not connects(n, 2, set(moves[1::2])):
            return moves


def calls(n, moves):
    """The lines that lead to a position and ask for its end."""
    return [f"board {n}"] + [f"move {cell}" for cell in moves] + ["can force"]


def write(name, lines):
    """Writes a file of positions/."""
    folder = os.path.join(os.path.dirname(os.path.abspath(__file__)), "positions")
    os.makedirs(folder, exist_ok=True)
    with open(os.path.join(folder, name), "w", newline="\n") as file:
        file.writelines(line + "\n" for line in lines)


def main():
    write("empty-4.txt", calls(4, []))
    for n in SIZES:
        rng = random.Random(SEED + n)
        lines = []
        for _ in range(POSITIONS):
            lines += calls(n, position(rng, n, EMPTY))
        write(f"random-{n}.txt", lines)


if __name__ == "__main__":
    main()
