"""A thousand games of six players: how many have a core, and how many are convex?"""
import random

import coop

draw = random.Random(1)
names, noise = ["A", "B", "C", "D", "E", "F"], 15
games = [coop.table_of(names, lambda some: len(some) ** 2 * 10 + draw.randrange(noise)) for _ in range(1000)]
found = list(coop.many(("core", "convex"), games))
print(sum(bool(core) for core, _ in found), "have a core,", sum(bool(convex) for _, convex in found), "are convex")
