"""An exercise for each of thirty students: a random game of three, and its solutions for the teacher."""
import random

import coop

draw, names = random.Random(7), ["Ann", "Ben", "Cem"]  # another number draws other games
worths = [[0, 0, 0, *(draw.randint(2, 9) for _ in range(3)), draw.randint(12, 20)] for _ in range(30)]
games = [coop.table(row, order="size", names=names) for row in worths]
for number, (row, found) in enumerate(zip(worths, coop.many(("nucleolus", "shapley"), games)), 1):
    print(f"{number}. Ann, Ben, Cem, Ann+Ben, Ann+Cem, Ben+Cem and all three are worth {row}.")
    for answer in found:
        if isinstance(answer, (coop.Nucleolus, coop.Shapley)):
            print(f"   {type(answer).__name__}:", *(f"{name} {share}" for name, share in answer.shares.items()))
