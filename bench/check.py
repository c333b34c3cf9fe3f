#!/usr/bin/env python3
"""Compares a program's answers to `can force` with a search that knows nothing but the rules: check.py PROGRAM [ARGUMENT ..]

It plays 2,000 random games on boards up to 5 by 5 until at most 9 cells are empty, some of them over. Whether the side to move can
force, and that a named move does, is found by trying every move.
"""

import random
import subprocess
import sys

sys.dont_write_bytecode = True

from positions import connects, shuffled

SEED = 19420727
POSITIONS = 2000
EMPTY = 9


def played(rng):
    """A size and the moves of a random game on it, up to a random number of empty cells or until it is over."""
    n = 1 + int(rng.random() * 5)
    empty = int(rng.random() * (min(EMPTY, n * n) + 1))
    moves = []
    for cell in shuffled(rng, n * n)[: n * n - empty]:
        moves.append(cell)
        if winner(n, moves) != 0:
            break
    return n, moves


def winner(n, moves):
    """The side that has connected, or 0."""
    sides = [side for side in (1, 2) if connects(n, side, set(moves[side - 1 :: 2]))]
    return sides[0] if sides else 0


def forces(n, mine, theirs, side, known):
    """Whether the side to move, which has the cells of mine, can force that it connects. Nobody has connected yet."""
    at = (mine, theirs)
    if at not in known:
        known[at] = any(
            connects(n, side, mine | {cell}) or not forces(n, theirs, mine | {cell}, 3 - side, known)
            for cell in frozenset(range(n * n)) - mine - theirs
        )
    return known[at]


def right(n, moves, answer):
    """Whether an answer to `can force` is right after these moves."""
    side = 1 + len(moves) % 2
    mine, theirs = frozenset(moves[side - 1 :: 2]), frozenset(moves[2 - side :: 2])
    won = winner(n, moves)
    if won != 0:
        return answer == ("yes" if won == side else "no")
    known = {}
    if not answer.startswith("yes "):
        return answer == "no" and not forces(n, mine, theirs, side, known)
    cell = int(answer[4:])
    if cell >= n * n or cell in mine | theirs:
        return False
    return connects(n, side, mine | {cell}) or not forces(n, theirs, mine | {cell}, 3 - side, known)


def main():
    rng = random.Random(SEED)
    games = [played(rng) for _ in range(POSITIONS)]
    lines = []
    for n, moves in games:
        lines += [f"board {n}"] + [f"move {cell}" for cell in moves] + ["can force"]
    run = subprocess.run(sys.argv[1:], input="\n".join(lines) + "\n", capture_output=True, text=True, check=True)
    answers = run.stdout.splitlines()
    if len(answers) != len(lines):
        sys.exit(f"{len(lines)} calls, {len(answers)} answers")
    ends = [answer for line, answer in zip(lines, answers) if line == "can force"]
    for (n, moves), answer in zip(games, ends):
        if not right(n, moves, answer):
            sys.exit(f"board {n}, moves {moves}: {answer} is wrong")
    print(f"{len(ends)} answers are right: {sum(answer != 'no' for answer in ends)} yes, {ends.count('no')} no")


if __name__ == "__main__":
    if len(sys.argv) < 2:
        sys.exit("check.py PROGRAM [ARGUMENT ..]")
    main()
