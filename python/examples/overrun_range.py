"""Water for the towns around Lund: what does K pay more for each 1 that all together cost more?"""
import json

import coop
from coop import sensitivity

with open("examples/lund-water.json", encoding="utf-8") as file:
    game = coop.Game(json.load(file)["game"])
path = sensitivity.along(game, tuple(game.names), -339, 480)
ends = [path.pieces[0].low, *path.bends(), path.pieces[-1].high]
for low, high in zip(ends, ends[1:]):
    slopes = next(piece.slopes for piece in path.pieces if piece.low == low)
    print(f"{float(low):7.2f} to {float(high):7.2f}   {slopes['K']}")
